/*
 * Part of evlsim.h: the numbers, structs and exports between C and the library (crates/evl_c).
 */
#ifndef EVLSIM_ABI_H
#define EVLSIM_ABI_H
#ifndef EVLSIM_H
#error "include <evlsim.h>, which includes this"
#endif

#ifdef __cplusplus
#define EVLSIM_TO(type, value) static_cast<type>(value)
extern "C" {
#else
#define EVLSIM_TO(type, value) ((type)(value))
#endif

/* Always inlined, so that what is known of a call at compile time costs nothing. */
#if defined(__GNUC__)
#define EVLSIM_INLINE static inline __attribute__((always_inline))
#define EVLSIM_CHECKED __attribute__((warn_unused_result))
#else
#define EVLSIM_INLINE static inline
#define EVLSIM_CHECKED
#endif

/* How a function ended. Use the number in a switch only; evlsim_ok and evlsim_status_is compare. */
typedef struct evlsim_status {
  uint32_t number; /* an evlsim_status_number */
} evlsim_status;

enum evlsim_status_number {
  EVLSIM_STATUS_OK,
  EVLSIM_STATUS_BAD_TEXT,
  EVLSIM_STATUS_BAD_BOARD,
  EVLSIM_STATUS_BAD_STEP,
  EVLSIM_STATUS_NO_MEMORY,
  EVLSIM_STATUS_BAD_PLAN,
  EVLSIM_STATUS_NULL,
  EVLSIM_STATUS_BAD_NUMBER,
  EVLSIM_STATUS_TOO_LONG,
  EVLSIM_STATUS_WRONG_ABI,
  EVLSIM_STATUS_BAD_ASK,
  EVLSIM_STATUS_CORE_BUSY
};
static const evlsim_status EVLSIM_OK = {EVLSIM_STATUS_OK};
static const evlsim_status EVLSIM_BAD_TEXT = {EVLSIM_STATUS_BAD_TEXT};   /* not UTF-8, not TOML, or above 1 MiB */
static const evlsim_status EVLSIM_BAD_BOARD = {EVLSIM_STATUS_BAD_BOARD}; /* the board, the limit, a key beside them */
static const evlsim_status EVLSIM_BAD_STEP = {EVLSIM_STATUS_BAD_STEP};   /* a step cannot be read */
static const evlsim_status EVLSIM_NO_MEMORY = {EVLSIM_STATUS_NO_MEMORY}; /* malloc or realloc returned null */
static const evlsim_status EVLSIM_BAD_PLAN = {EVLSIM_STATUS_BAD_PLAN};   /* a number of a plan, or above 64 plans */
static const evlsim_status EVLSIM_NULL = {EVLSIM_STATUS_NULL};           /* a null pointer, or no kernel */
static const evlsim_status EVLSIM_BAD_NUMBER = {EVLSIM_STATUS_BAD_NUMBER}; /* a number is out of its range */
static const evlsim_status EVLSIM_TOO_LONG = {EVLSIM_STATUS_TOO_LONG};   /* a scenario above 1 MiB; too many orders */
static const evlsim_status EVLSIM_WRONG_ABI = {EVLSIM_STATUS_WRONG_ABI}; /* header and library differ */
static const evlsim_status EVLSIM_BAD_ASK = {EVLSIM_STATUS_BAD_ASK};     /* [ask] cannot be read or answered */
static const evlsim_status EVLSIM_CORE_BUSY = {EVLSIM_STATUS_CORE_BUSY}; /* another caller has the machine's core */

/* The kind of an answer. Use the number in a switch only; evlsim_is_done, evlsim_has and so on compare. */
typedef struct evlsim_kind {
  uint8_t number; /* an evlsim_kind_number */
} evlsim_kind;

enum evlsim_kind_number {
  EVLSIM_KIND_REFUSED,
  EVLSIM_KIND_DONE,
  EVLSIM_KIND_BEGUN,
  EVLSIM_KIND_COUNT,
  EVLSIM_KIND_BITS,
  EVLSIM_KIND_NUMBER,
  EVLSIM_KIND_BYTES,
  EVLSIM_KIND_THREAD,
  EVLSIM_KIND_NEXT,
  EVLSIM_KIND_TIMED_OUT,
  EVLSIM_KIND_NOT_CALLED = 255
};
static const evlsim_kind EVLSIM_REFUSED = {EVLSIM_KIND_REFUSED}; /* refused, as `refusal` says */
static const evlsim_kind EVLSIM_DONE = {EVLSIM_KIND_DONE};
static const evlsim_kind EVLSIM_BEGUN = {EVLSIM_KIND_BEGUN};
static const evlsim_kind EVLSIM_COUNT = {EVLSIM_KIND_COUNT};   /* `count` */
static const evlsim_kind EVLSIM_BITS = {EVLSIM_KIND_BITS};     /* `number` */
static const evlsim_kind EVLSIM_NUMBER = {EVLSIM_KIND_NUMBER}; /* `number` */
static const evlsim_kind EVLSIM_BYTES = {EVLSIM_KIND_BYTES};   /* `number` bytes; the buffer has as many as fit */
static const evlsim_kind EVLSIM_THREAD = {EVLSIM_KIND_THREAD}; /* `thread` is picked, or nobody */
static const evlsim_kind EVLSIM_NEXT = {EVLSIM_KIND_NEXT};     /* `thread` owns the mutex now, or nobody; `more` wait */
static const evlsim_kind EVLSIM_TIMED_OUT = {EVLSIM_KIND_TIMED_OUT};
static const evlsim_kind EVLSIM_NOT_CALLED = {EVLSIM_KIND_NOT_CALLED}; /* evlsim_why says why; all is as before */

/* Why a kernel refused a call, or a machine one of a caller's. The first three and the last two make no entry in the
   history. Compared by evlsim_refused_as. */
typedef struct evlsim_refusal {
  uint16_t number; /* an evlsim_refusal_number, 0 if the call was not refused */
} evlsim_refusal;

enum evlsim_refusal_number {
  EVLSIM_REFUSAL_NUMBER_NO_MEMORY = 1,
  EVLSIM_REFUSAL_NUMBER_HISTORY_FULL,
  EVLSIM_REFUSAL_NUMBER_CORE_BUSY, /* of a machine's callers alone, as the last two */
  EVLSIM_REFUSAL_NUMBER_UNKNOWN,
  EVLSIM_REFUSAL_NUMBER_INVALID,
  EVLSIM_REFUSAL_NUMBER_AGAIN,
  EVLSIM_REFUSAL_NUMBER_BUSY,
  EVLSIM_REFUSAL_NUMBER_NOT_OWNER,
  EVLSIM_REFUSAL_NUMBER_DEADLOCK,
  EVLSIM_REFUSAL_NUMBER_LIMIT,
  EVLSIM_REFUSAL_NUMBER_RANGE,
  EVLSIM_REFUSAL_NUMBER_TOO_BIG,
  EVLSIM_REFUSAL_NUMBER_WRONG_STAGE,
  EVLSIM_REFUSAL_NUMBER_HOLDS_STAX,
  EVLSIM_REFUSAL_NUMBER_RACED
};
static const evlsim_refusal EVLSIM_REFUSAL_NO_MEMORY = {EVLSIM_REFUSAL_NUMBER_NO_MEMORY};
static const evlsim_refusal EVLSIM_REFUSAL_HISTORY_FULL = {EVLSIM_REFUSAL_NUMBER_HISTORY_FULL};
static const evlsim_refusal EVLSIM_REFUSAL_CORE_BUSY = {EVLSIM_REFUSAL_NUMBER_CORE_BUSY};
static const evlsim_refusal EVLSIM_REFUSAL_UNKNOWN = {EVLSIM_REFUSAL_NUMBER_UNKNOWN};
static const evlsim_refusal EVLSIM_REFUSAL_INVALID = {EVLSIM_REFUSAL_NUMBER_INVALID};
static const evlsim_refusal EVLSIM_REFUSAL_AGAIN = {EVLSIM_REFUSAL_NUMBER_AGAIN};
static const evlsim_refusal EVLSIM_REFUSAL_BUSY = {EVLSIM_REFUSAL_NUMBER_BUSY};
static const evlsim_refusal EVLSIM_REFUSAL_NOT_OWNER = {EVLSIM_REFUSAL_NUMBER_NOT_OWNER};
static const evlsim_refusal EVLSIM_REFUSAL_DEADLOCK = {EVLSIM_REFUSAL_NUMBER_DEADLOCK};
static const evlsim_refusal EVLSIM_REFUSAL_LIMIT = {EVLSIM_REFUSAL_NUMBER_LIMIT};
static const evlsim_refusal EVLSIM_REFUSAL_RANGE = {EVLSIM_REFUSAL_NUMBER_RANGE};
static const evlsim_refusal EVLSIM_REFUSAL_TOO_BIG = {EVLSIM_REFUSAL_NUMBER_TOO_BIG};
static const evlsim_refusal EVLSIM_REFUSAL_WRONG_STAGE = {EVLSIM_REFUSAL_NUMBER_WRONG_STAGE};
static const evlsim_refusal EVLSIM_REFUSAL_HOLDS_STAX = {EVLSIM_REFUSAL_NUMBER_HOLDS_STAX};
static const evlsim_refusal EVLSIM_REFUSAL_RACED = {EVLSIM_REFUSAL_NUMBER_RACED};

/* The greatest limit of a history. */
#define EVLSIM_MAX_LIMIT 1000000u

/* What a callback may ask for. */
#define EVLSIM_POST_SEM 0u   /* raises the count of the semaphore `element` */
#define EVLSIM_POST_FLAGS 1u /* adds `bits` to the flag group `element` */
#define EVLSIM_PROPAGATE 2u  /* posts the event's own line in-band */
#define EVLSIM_POST_OOB 3u   /* posts the line `element` out-of-band */
#define EVLSIM_STOP_TIMER 4u /* stops the timer `element` */

/* Such an action as a bit of evlsim_plan.kinds: EVLSIM_ACTION_BIT(EVLSIM_POST_SEM). */
#define EVLSIM_ACTION_BIT(action) EVLSIM_TO(uint8_t, 1u << (action))

/* A callback asks for this action at each event whose count `every` divides. The first event since the request has
   count 1. */
typedef struct evlsim_row {
  uint64_t every;   /* 1 or more */
  uint8_t action;   /* EVLSIM_POST_SEM to EVLSIM_STOP_TIMER */
  uint16_t element; /* a semaphore, flag group, line or timer; nothing is done if there is none */
  uint32_t bits;    /* for EVLSIM_POST_FLAGS alone */
} evlsim_row;

/*
 * What a callback answers: it handles the events whose counts `accepts` divides, and asks for the actions of its rows,
 * in their order. A callback with EVLSIM_POST_OOB cannot be requested out-of-band, nor one with
 * EVLSIM_PROPAGATE in-band.
 */
typedef struct evlsim_plan {
  uint64_t accepts; /* 1 or more */
  uint8_t kinds;    /* the actions that it declares: those of its rows, at least */
  uint8_t count;    /* how many rows there are, 0 to 4 */
  evlsim_row rows[4]; /* those after `count` are ignored */
} evlsim_plan;

/* What came of a play. */
typedef struct evlsim_played {
  size_t length; /* how many bytes the whole trace has; 0 if there is none */
  uint32_t step; /* the first step (of a text of lines: line) that cannot be read, from 1; 0 if none is at fault */
} evlsim_played;

/* What came of a check. */
typedef struct evlsim_checked {
  size_t length;    /* how many bytes all lines have */
  bool is_at_fault; /* whether they are of faults; else they are of warnings */
} evlsim_checked;

/* Forms of pictures. */
#define EVLSIM_SVG 0u        /* down, a line for each mark, up to 60 marks; else across */
#define EVLSIM_SVG_DOWN 1u
#define EVLSIM_SVG_ACROSS 2u
#define EVLSIM_EVENTS 3u     /* trace events for Perfetto, as JSON */

/* What came of drawing. */
typedef struct evlsim_drawn {
  size_t length; /* how many bytes the whole picture has; 0 if there is none */
  size_t pages;  /* how many pages there are; 0 if the text is not drawn */
  size_t line;   /* the first line that is none of a trace, from 1, of a text that is no scenario either; else 0 */
  uint32_t step; /* the first step that cannot be read, from 1; 0 if no step is at fault */
} evlsim_drawn;

/* What came of all orders. */
typedef struct evlsim_ordered {
  size_t length;    /* how many bytes the whole text has that is told */
  uint64_t total;   /* how many orders there are; UINT64_MAX: that many or more */
  size_t outcomes;  /* in how many ways they end */
  size_t against;   /* the number of the first outcome that is against what is asked, from 1; 0: none is */
  size_t state;     /* the same of the questions about moments (never_state, sometimes, always) */
  size_t steps;     /* the orders are those of fewer steps */
  size_t never;     /* how many answers [ask] has at `never` */
  size_t states;    /* how many questions about moments it has */
  uint32_t step;    /* the first step that cannot be read, from 1; 0 if no step is at fault */
  int32_t wanted;   /* how many outcomes there are to be; -1 if [ask] does not say so */
  uint8_t verdict;  /* 0: what is asked holds, or nothing is; 1: something is against it; 5: not answered (evlsim_holds) */
  bool always_ends; /* what else [ask] has */
  bool ends_waits;
  bool as_picked;
  bool is_whole;    /* whether no longer orders were cut off */
} evlsim_ordered;

/* A kernel, or none. Its fields belong to the library. */
typedef struct evlsim_kernel {
  bool is_open;
  void *at;
} evlsim_kernel;
#define EVLSIM_NO_KERNEL {false, NULL}

/* A caller of a machine, or none. Its fields belong to the library. */
typedef struct evlsim_caller {
  bool is_open;
  void *at;
} evlsim_caller;
#define EVLSIM_NO_CALLER {false, NULL}

/* Kinds of mutexes. */
#define EVLSIM_NORMAL 0u
#define EVLSIM_RECURSIVE 1u
#define EVLSIM_CEILING 2u

typedef struct evlsim_rings {
  uint16_t in_size; /* 1 to 256 */
  uint16_t out_size;
} evlsim_rings;

typedef struct evlsim_mutex {
  uint8_t kind;
  uint8_t ceiling; /* 1 to 99, for EVLSIM_CEILING alone */
} evlsim_mutex;

/* The elements of a kernel, numbered from 0. A list may be null if its count is 0. */
typedef struct evlsim_board {
  uint16_t threads;      /* 1 to 256 */
  const uint32_t *sems;  /* opening counts, each up to 2,147,483,647 */
  size_t sem_count;      /* up to 64 */
  const uint32_t *flags; /* opening bits */
  size_t flag_count;     /* up to 64 */
  const evlsim_rings *xbufs;
  size_t xbuf_count; /* up to 16 */
  const evlsim_mutex *mutexes;
  size_t mutex_count;    /* up to 32 */
  const uint8_t *groups; /* percents of the quota groups, 1 to 100 */
  size_t group_count;    /* up to 16 */
} evlsim_board;

/*
 * A call, as the functions evlsim_call_.. make it. All its numbers must be in range, also those that its kind does not
 * use. A take's `choice` above 2 is taken as 2, and a finish's above 1 as 1.
 */
typedef struct evlsim_call {
  uint8_t kind;     /* an evlsim_call_kind of calls.h */
  uint8_t stage;    /* EVLSIM_INBAND or EVLSIM_OOB */
  uint8_t way;      /* EVLSIM_IN or EVLSIM_OUT */
  uint8_t choice;   /* a policy's or a take's kind, or whether `finish` keeps the stage: up to 3 */
  uint8_t prio;     /* of a policy */
  uint8_t callback; /* of `request` and `new_timer` */
  uint8_t timed;    /* 1: the wait has the deadline `date`; else 0 */
  uint16_t element; /* the line, timer, semaphore, flag group, cross-buffer, mutex or thread */
  uint16_t other;   /* the owner of `claim`, a policy's group, the length of a read */
  uint32_t bits;    /* bits, or a tag */
  uint64_t date;    /* a date, a deadline, or the delta of `tick` */
  uint64_t span;    /* an interval, or a policy's slice */
} evlsim_call;

/* What a call answered. */
typedef struct evlsim_answer {
  evlsim_refusal refusal;
  evlsim_kind kind;
  bool more;
  int32_t thread; /* -1: none */
  int64_t count;
  uint64_t number;
  size_t first_play; /* the first of the call's plays, for evlsim_event_at */
  size_t plays;      /* how many there are */
} evlsim_answer;

/* Kinds of plays. */
#define EVLSIM_PLAY_CLOCK 0u
#define EVLSIM_PLAY_TIMER 1u    /* timer `element`: its count, how many periods it missed, whether it was handled */
#define EVLSIM_PLAY_DEADLINE 2u /* of thread `element` */
#define EVLSIM_PLAY_LINE 3u     /* line `element` on `stage`: its count, whether it was handled */

/* What the kernel played. */
typedef struct evlsim_event {
  uint8_t kind;
  uint8_t stage;
  bool handled;
  uint16_t element;
  uint64_t count;
  uint64_t missed;
} evlsim_event;

/* Questions: evlsim_see_.. of kernel.h ask them, and say what is told; `on` is an evlsim_awaited. */
enum evlsim_question_kind {
  EVLSIM_SEE_NOW, EVLSIM_SEE_PICKED, EVLSIM_SEE_RANK, EVLSIM_SEE_READY, EVLSIM_SEE_WAITS, EVLSIM_SEE_FINISHED,
  EVLSIM_SEE_TIMED_OUT, EVLSIM_SEE_STAGE, EVLSIM_SEE_COUNT, EVLSIM_SEE_BITS, EVLSIM_SEE_STORED, EVLSIM_SEE_OWNER,
  EVLSIM_SEE_WAITERS, EVLSIM_SEE_WAITER, EVLSIM_SEE_PENDING
};

typedef struct evlsim_question {
  uint8_t kind, stage, way, on;
  uint16_t element;
  size_t place;
} evlsim_question;

typedef struct evlsim_reading {
  bool there;      /* whether it is so, or exists */
  uint64_t number; /* what is told, if it is a number */
  int64_t count;   /* of EVLSIM_SEE_COUNT alone */
} evlsim_reading;

/* The exports, which the functions of the other headers call. No pointer may be null, not even with length 0. */
uint32_t evlsim_c_play(const uint8_t *text, size_t text_length, uint32_t limit, size_t start, uint8_t *out,
                       size_t out_length, evlsim_played *played);
uint32_t evlsim_c_play_over(const evlsim_plan *plans, size_t plan_count, const uint8_t *text, size_t text_length,
                            uint32_t limit, size_t start, uint8_t *out, size_t out_length, evlsim_played *played);
uint32_t evlsim_c_check(const uint8_t *name, size_t name_length, const uint8_t *text, size_t text_length, size_t start,
                        uint8_t *out, size_t out_length, evlsim_checked *checked);
uint32_t evlsim_c_check_over(const evlsim_plan *plans, size_t plan_count, const uint8_t *name, size_t name_length,
                             const uint8_t *text, size_t text_length, size_t start, uint8_t *out, size_t out_length,
                             evlsim_checked *checked);
uint32_t evlsim_c_draw(uint8_t form, uint32_t page, const uint8_t *text, size_t text_length, size_t start,
                       uint8_t *out, size_t out_length, evlsim_drawn *drawn);
uint32_t evlsim_c_draw_over(const evlsim_plan *plans, size_t plan_count, uint8_t form, uint32_t page,
                            const uint8_t *text, size_t text_length, size_t start, uint8_t *out, size_t out_length,
                            evlsim_drawn *drawn);
uint32_t evlsim_c_orders(const evlsim_plan *plans, size_t plan_count, size_t most, size_t outcome,
                         const uint8_t *text, size_t text_length, size_t start, uint8_t *out, size_t out_length,
                         evlsim_ordered *ordered);
uint32_t evlsim_c_callers(const evlsim_plan *plans, size_t plan_count, const uint8_t *text, size_t text_length,
                          uint32_t limit, size_t start, uint8_t *out, size_t out_length, evlsim_played *played);
/* Reads *kernel: an open kernel is freed first. */
uint32_t evlsim_c_open(const evlsim_board *board, const evlsim_plan *plans, size_t plan_count, uint32_t limit,
                       evlsim_kernel *kernel);
uint32_t evlsim_c_reset(evlsim_kernel *kernel);
void evlsim_c_close(evlsim_kernel *kernel);
uint32_t evlsim_c_apply(evlsim_kernel *kernel, uint16_t caller, const evlsim_call *call, const uint8_t *bytes,
                        size_t length, uint8_t *out, size_t out_length, evlsim_answer *answer);
/* A call of EVLSIM_BARE_KINDS; if it cannot be made, *answer says so as evlsim_do does. */
uint32_t evlsim_c_apply_bare(evlsim_kernel *kernel, uint16_t caller, uint8_t kind, uint16_t element,
                             evlsim_answer *answer);
uint32_t evlsim_c_event(evlsim_kernel *kernel, size_t index, evlsim_event *event);
uint32_t evlsim_c_ask(evlsim_kernel *kernel, const evlsim_question *question, evlsim_reading *reading);
/* Reads each of the callers: an open one is freed first. */
uint32_t evlsim_c_machine_open(const evlsim_board *board, const uint16_t *staxes, size_t stax_count,
                               const evlsim_plan *plans, size_t plan_count, uint32_t limit, evlsim_caller *callers,
                               size_t count);
void evlsim_c_caller_close(evlsim_caller *caller);
uint32_t evlsim_c_try_call(evlsim_caller *caller, const evlsim_call *call, const uint8_t *bytes, size_t length,
                           uint8_t *out, size_t out_length, evlsim_answer *answer);
/* What of these cannot be called is told in *answer too, as evlsim_do tells it. */
uint32_t evlsim_c_try_lock_mutex(evlsim_caller *caller, uint16_t mutex, evlsim_answer *answer);
uint32_t evlsim_c_begin_lock_mutex(evlsim_caller *caller, uint16_t mutex, bool timed, uint64_t until,
                                   evlsim_answer *answer);
uint32_t evlsim_c_finish_lock_mutex(evlsim_caller *caller, evlsim_answer *answer);
uint32_t evlsim_c_unlock_mutex_fast(evlsim_caller *caller, uint16_t mutex, evlsim_answer *answer);
uint32_t evlsim_c_try_unlock_mutex(evlsim_caller *caller, uint16_t mutex, evlsim_answer *answer);
uint32_t evlsim_c_try_lock_stax(evlsim_caller *caller, uint16_t stax, evlsim_answer *answer);
uint32_t evlsim_c_unlock_stax(evlsim_caller *caller, uint16_t stax, evlsim_answer *answer);
/* Unless it is 0, *reading is as before; 6: no caller, 7: a number of the question, 11: another caller has the core. */
uint32_t evlsim_c_caller_ask(evlsim_caller *caller, const evlsim_question *question, evlsim_reading *reading);
uint32_t evlsim_c_caller_trace(evlsim_caller *caller, size_t start, uint8_t *out, size_t out_length, size_t *length);
uint32_t evlsim_c_trace(evlsim_kernel *kernel, size_t start, uint8_t *out, size_t out_length, size_t *length);
uint32_t evlsim_c_scenario(evlsim_kernel *kernel, size_t start, uint8_t *out, size_t out_length, size_t *length);
uint32_t evlsim_c_call_text(uint8_t kind, size_t start, uint8_t *out, size_t out_length, size_t *length);
uint32_t evlsim_c_refusal_text(uint16_t number, size_t start, uint8_t *out, size_t out_length, size_t *length);

/* A status by its number, and comparisons. */
static inline evlsim_status evlsim_status_of(uint32_t number) {
  evlsim_status status;
  status.number = number;
  return status;
}
static inline bool evlsim_ok(evlsim_status status) { return status.number == EVLSIM_STATUS_OK; }
static inline bool evlsim_status_is(evlsim_status status, evlsim_status other) { return status.number == other.number; }

/* A status in words: "bad board". */
static inline const char *evlsim_status_text(evlsim_status status) {
  switch (status.number) {
    case EVLSIM_STATUS_OK: return "ok";
    case EVLSIM_STATUS_BAD_TEXT: return "bad text";
    case EVLSIM_STATUS_BAD_BOARD: return "bad board";
    case EVLSIM_STATUS_BAD_STEP: return "bad step";
    case EVLSIM_STATUS_NO_MEMORY: return "no memory";
    case EVLSIM_STATUS_BAD_PLAN: return "bad plan";
    case EVLSIM_STATUS_NULL: return "null pointer or no kernel";
    case EVLSIM_STATUS_BAD_NUMBER: return "bad number";
    case EVLSIM_STATUS_TOO_LONG: return "too long";
    case EVLSIM_STATUS_WRONG_ABI: return "header and library don't fit";
    case EVLSIM_STATUS_BAD_ASK: return "what is asked cannot be";
    case EVLSIM_STATUS_CORE_BUSY: return "the core is busy";
    default: return "no status";
  }
}

#ifdef __cplusplus
}
#endif

#endif
