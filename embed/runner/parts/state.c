/*
 * Part of evlsim_runner.c: what a run has, and what is kept from run to run.
 */

enum {
  TASKS = 64,
  STACK_BYTES = 1 << 18,
  HANDLERS = 64,
  ELEMENTS = 64,
  XBUFS = 16,
  MUTEXES = 32,
  GROUPS = 16,
  STAXES = 16,
  SOURCES = 16,
  CHOICES = 64,
  ANSWERS = 256,
  FRAMES = 16,          /* of a call, from the runner's own to that of the driver */
  NAME_BYTES = 32,      /* of a source's or an element's name, with its end */
  QUIET_STEPS = 1 << 12, /* locks and unlocks of a run that are noted */
  CHOICES_BYTES = 4096, /* of a list of so many events, as text */
  QUEUE = 1 << 12,
  MOST_TORN = 4096, /* bytes of a copy of which each word has a moment */
  MOST_GROWTH = 1 << 28, /* bytes by which a process may grow in an exploration */
  CANDIDATES = 1 << 20,
  NODES = 1 << 24,
  MOST_JOBS = 256,
  SPINS = 16, /* that are held at once */
  MOST_PARTS = 1 << 16,
  SAMPLE = 1 << 8, /* lists that each part runs, for what their events touch */
  FEWEST = 32,   /* lists for which processes are worth their while */
  SLICE = 1 << 11, /* lists of one process, at most */
  TOUCHED = 1 << 16,
  OUTCOMES = 1 << 12,
  OUTCOME_BYTES = 512,
  HISTORY = 10000,
  STEPS = 1000000,
  STARTS = 1999999999, /* what is added to it has to be carried, and a time from now is past as a date */
  PROGRAM_BANK = 8,
  RUN_PROCESS = 1000,
  IDLE = 0,
  BODY = 1
};
#define NEVER UINT64_MAX
#define FIRST_FD 0x4000
#define CALLER __attribute__((noinline, section("evlsim_callers"))) /* what calls handlers and threads */
#define IS_NAMED (1u << 31) /* a choice whose source is told by what it is */
#define IS_ANSWER (1u << 30) /* a choice that is an answer, to the test's question or, */
#define IS_LATE (1u << 29)   /* to that how late the clock comes */
#define ANSWER_BITS 0xffffu

/* Why a task can't go on. */
enum awaited {
  NOTHING,
  THE_CORE,
  AN_END,
  A_DATE,
  BYTES,
  ROOM,
  A_GATE,
  A_LOCK,
  WORK,
  REST
};

/* A thread as a coroutine; its number is its thread's on the board. */
struct task {
  void *at; /* where its stack stands while another task runs */
  char *stack;
  void *fake_stack;
  void *(*run)(void *);
  void *value;
  void *argument;
  void (*simple)(void *);
  const void *wanted; /* the lock that it waits for */
  uint64_t date;      /* till when it waits: NEVER without a deadline */
  uint64_t slice;
  uint64_t left; /* of the slice */
  enum awaited awaits;
  int error;  /* its own errno while another task runs */
  int target; /* the element or the task that it waits for */
  unsigned needs;
  unsigned held; /* how many mutexes and staxes it has */
  unsigned locks; /* how many in-band mutexes it has */
  uint32_t staxes;
  uint16_t group;
  uint8_t policy;
  uint8_t prio;
  bool has_ended;
  bool is_attached;
  bool is_oob;
  bool in_handler;
  bool keeps_stage; /* whether it waits for a stax: then it stays on its stage */
  bool has_begun;
  bool may_wait; /* at the end of a run, as its test says */
  bool is_seen; /* whether its code calls in, as -fsanitize=thread has it */
  struct evl_kthread *kthread; /* of the core's threads */
  char name[24];
};

/* A callback on a line or in a timer, with the driver's handler, if it has one. */
struct handler {
  bool is_used;
  bool is_timer;
  bool is_oob;
  uint8_t callback;
  uint16_t element;
  irq_handler_t handle;
  void *device;
};

/* Handlers that are to be called, by their places, one after another. */
struct due {
  unsigned first, last;
  uint8_t place[QUEUE];
};

struct timer {
  bool is_made;
  int group; /* the flag group of whoever reads it */
  uint64_t date;
  uint64_t interval;
  uint64_t ticks;
  struct evl_timer *core;
};

struct word {
  int owner; /* -1: nobody */
  bool is_claimed;
  bool is_recursive;
  bool has_ceiling;
  unsigned depth;
  uint8_t ceiling;
};

struct gate {
  bool is_oob;
  int sem; /* where out-of-band threads wait */
  unsigned count;
  unsigned waiting;
};

/* Who has stalled a stage, and where; a handler's stall is nobody's, since it ends with the handler. */
struct stall {
  bool is_on;
  int by;
  const char *file;
  int line;
};

/* What a source is. */
enum source_kind { A_LINE, THE_CLOCK, A_TURN };
struct source {
  enum source_kind kind;
  uint16_t line;
  unsigned left;
  void (*device)(void *);
  void *it;
  char name[NAME_BYTES]; /* what its test calls the device; empty where that is no name */
};

/* A moment at which a source's event may come, and which sources could have one; or a question, and how many answers it
   has. */
struct candidate {
  uint32_t step;
  uint32_t sources;
};
struct choice {
  uint32_t step;
  uint32_t source;
  char name[NAME_BYTES]; /* of its source, where a list was read that has it */
};
/* Where a chosen event came: before an access, at the first place; before a call, at the first that is no code of the
   runner's. */
struct place {
  const void *code[FRAMES];
  unsigned codes;
  int task;
  unsigned entries;
  bool in_device;
  bool in_handler; /* an out-of-band one, of a line or a timer */
  bool is_timer;
  uint16_t element;
};
/* A struct that is copied behind a step, in which each word is for that long as it was when it was read. */
struct torn {
  char *place;
  size_t size;
  char own[MOST_TORN]; /* what belongs there */
};
struct node {
  uint32_t parent;
  uint32_t step;
  uint32_t source; /* as a choice has it */
  uint32_t depth;
};

/* A process that runs lists for another one: from the first up to the last, which isn't among them. */
struct job {
  struct kept *own;   /* what it found */
  struct node *added; /* the lists that its lists lead to */
  pid_t process;
  uint32_t first, last;
};

/* What has a name by which libevl made it. */
enum named_kind { A_SEM, A_FLAG_GROUP, A_MUTEX, AN_XBUF, A_STAX, NAMED_KINDS };

/* A lock or an unlock that makes no entry, after so many entries. */
struct quiet_step {
  uint32_t entries;
  uint16_t task;
  uint16_t number;
  enum named_kind kind;
  bool is_lock;
};

/* How a run ended. */
enum ending { GOES_ON, ENDED, FAILED, BEGINS_AGAIN };

/* The elements that a run is opened with, as earlier runs made them. */
struct elements {
  unsigned tasks, sems, groups_of_flags, xbufs, mutexes, groups, callbacks;
  uint32_t sem[ELEMENTS];
  uint32_t flags[ELEMENTS];
  evlsim_rings rings[XBUFS];
  evlsim_mutex mutex[MUTEXES];
  uint8_t group[GROUPS];
};

/* The kernel of an earlier run, which a later one resets. */
struct spare {
  evlsim_kernel kernel;
  bool is_there;
  struct elements elements;
  uint32_t history;
};

/* A run: all of it is new for each but the spare kernel. */
struct run {
  struct spare spare;
  evlsim_kernel kernel;
  bool is_open;
  bool is_on;
  bool has_waited; /* whether a thread waits at the end, and nothing says that it may */
  bool is_reported; /* whether a sanitizer has reported something and went on */
  bool in_oob_handler;
  bool in_device;                /* whether what hardware does runs */
  const struct handler *handled; /* whose code runs, while a handler does */
  uint32_t raised;               /* the sources whose interrupts came within it, a bit for each */
  bool is_seen; /* whether the code of the handler that runs calls in */
  struct stall stalls[2]; /* of the in-band stage and of the out-of-band one */
  struct evlsim_spin *spin[SPINS];
  unsigned spins_held;
  enum ending ending;
  int now;           /* the task that runs */
  int inband;        /* the task that has the in-band stage */
  int interrupted;   /* the in-band task on which a handler runs, or -1 */
  unsigned paused;   /* how many tasks are interrupted by an event that was chosen */
  const char *below; /* the locals of a handler lie below this place of its task's stack */
  uint64_t date;
  uint64_t lateness; /* how late the clock may come */
  struct elements made;
  struct elements opened;
  struct handler handlers[HANDLERS];
  struct timer timers[ELEMENTS];
  struct word words[MUTEXES];
  struct gate gates[STAXES];
  unsigned gates_made;
  bool blocks[XBUFS]; /* whether a cross-buffer's calls wait */
  int sleepers; /* the semaphore that nobody puts, or -1 */
  int worker; /* the thread that does in-band work, or 0 */
  struct evl_work *first_work;
  struct due oob_due;
  struct due inband_due;
  bool sources_open;
  unsigned sources;
  struct source source[SOURCES];
  uint32_t step;
  unsigned entries;
  unsigned choices_made;
  unsigned quiet_steps; /* how many are noted */
  char why[512];
  const void *blamed; /* where the call is made that ends the run, if that is known */
  char said[OUTCOME_BYTES];
  size_t said_length;
};

struct outcome {
  uint64_t digest;
  uint64_t lists;
  char text[OUTCOME_BYTES];
  char choices[CHOICES_BYTES];
};

/* What handlers, and threads that go before an interrupted one, were seen to touch: by 8 bytes, a bit for each byte. */
struct touched {
  uint64_t place;
  uint8_t read;
  uint8_t written;
  uint8_t device_read; /* by hardware alone, for moments within handlers */
  uint8_t device_written;
};

/* What is kept from run to run, also where each run has a process of its own. */
struct kept {
  struct elements known;
  const char *name;
  void (*body)(void);
  evlsim_limits limits;
  evlsim_explored explored;
  struct choice choices[CHOICES];
  unsigned choice_count;
  struct source source[SOURCES]; /* those of the last run, by which events are named */
  unsigned sources;
  bool offers; /* whether candidates are noted */
  bool has_grown;
  bool devices_call; /* whether hardware makes calls: it then differs where it comes before those of a handler */
  enum ending ending;
  uint32_t at;   /* the node that is run next */
  uint32_t alone; /* up to this node this process runs the lists itself, though it has jobs */
  uint32_t slice; /* how many lists each job has next */
  bool is_job;    /* whether this is a process that runs lists for another, and reports nothing */
  bool is_others; /* whether the list that runs counts in another part */
  bool is_large; /* whether this process ended its part of the exploration, since its memory has grown */
  int output; /* the program's standard output, while that of runs is kept */
  bool is_output_kept;
  char unseen[64]; /* whose loads and stores aren't seen, though those of other code are */
  uint32_t candidates;
  uint32_t nodes;
  uint32_t touches;
  uint32_t outcomes;
  struct torn torn;
  struct place place[CHOICES];
  char names[NAMED_KINDS][ELEMENTS][NAME_BYTES];
  struct quiet_step quiet_step[QUIET_STEPS];
  struct touched touched[TOUCHED];
  struct outcome outcome[OUTCOMES];
  struct candidate candidate[CANDIDATES];
  struct node *node;  /* all, with room for NODES */
  struct node *added; /* where the next goes: after the others, or to a job's own */
  struct job *job;    /* limits.jobs of them, or null */
};

static struct run *run;
static struct kept *kept;
static struct task *tasks;
static void *outside; /* where the stack of whoever began the run stands */
static const void *outside_stack;
static size_t outside_bytes;
static void *outside_fake;
static bool has_nameless_body; /* whether the next exploration's body is a C++ object */
static bool has_hooks; /* whether the driver is compiled with -fsanitize=thread */
