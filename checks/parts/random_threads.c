/*
 * Random programs of three threads that are right by construction, each explored with all lists of up to two events: no
 * run may fail. random_threads COUNT FIRST_SEED. It is compiled with -fsanitize=thread.
 *
 * A thread is out-of-band or in-band, begins at once or waits for its interrupt, and makes a few steps: it locks, tries
 * or waits for a time for mutexes in one order, sleeps, posts and takes flags of its own, uses a stax, counts while
 * interrupts are off, requests a line or starts a timer. At its end it may write to a buffer or read from it. What is
 * written is what all readers together want, so that no thread waits for good.
 */
#include <errno.h>
#include <evl/evl.h>
#include <evl/stax.h>
#include <evlsim/runner.h>
#include <linux/interrupt.h>
#include <linux/irqstage.h>
#include <pthread.h>
#include <stdio.h>
#include <stdlib.h>
#include <string.h>
#include <unistd.h>

#define DECODES __attribute__((no_sanitize("thread")))

enum { THREADS = 3, STEPS = 3, MUTEXES = 2, FIRST_LINE = 10, OWN_LINE = 20, RING = 8, MOST = 6, CEILING = 95 };
enum how { LOCK, TRY, TIMED, HOWS };
enum act { OUTER, INNER, SLEEP, FLAGS, NO_FLAGS, STAX, OFF, REQUEST, TIMER, YIELD, MOVE, ACTS };
enum role { NO_ROLE, WRITES, READS };

struct step {
  enum act act;
  enum how how, inner;
  bool sleeps, nests;
};
struct plan {
  bool is_core, waits;
  int prio;
  struct step step[STEPS];
  int steps;
  enum role role;
  int amount; /* how many bytes it writes or reads, */
  int part;   /* and at most so many at once */
};
struct program {
  struct plan plan[THREADS];
  int kind[MUTEXES]; /* 0: normal, 1: recursive, 2: with a ceiling */
  unsigned passes, turns;
};

static struct program program;
static uint32_t dice;
static struct evl_mutex mutex[MUTEXES];
static struct evl_sem begins[THREADS];
static struct evl_flags group;
static struct evl_stax stax;
static int buffer, inside[MUTEXES], self[THREADS];
static int counted_off, counted_inband, due_off, due_inband;
static bool came[THREADS], handled[THREADS], has_ended[THREADS];

DECODES static unsigned roll(unsigned sides) {
  dice = dice * 1664525u + 1013904223u;
  return (dice >> 10) % sides;
}

/* What the compiler's hooks see. */
static void add_one(int *count) { *count = *count + 1; }
static bool is_handled(int number) { return handled[number]; }
static void note_handled(int number) { handled[number] = true; }

DECODES static irqreturn_t on_begin(int irq, void *device) {
  (void)device;
  came[irq - FIRST_LINE] = true;
  evl_put_sem(&begins[irq - FIRST_LINE]);
  return IRQ_HANDLED;
}

DECODES static irqreturn_t on_own(int irq, void *device) {
  (void)device;
  note_handled(irq - OWN_LINE);
  return IRQ_HANDLED;
}

DECODES static void expect(int answer, const char *what, int number) {
  if (answer != 0) evlsim_fail("%s is answered %d in thread %d", what, answer, number);
}

DECODES static struct timespec soon(long nanoseconds) {
  struct timespec date;
  evl_read_clock(EVL_CLOCK_MONOTONIC, &date);
  date.tv_nsec += nanoseconds;
  date.tv_sec += date.tv_nsec / 1000000000;
  date.tv_nsec %= 1000000000;
  return date;
}

/* Whether a mutex is locked; a try and a wait for a time may end without it. */
DECODES static bool is_locked(int which, enum how how, int number) {
  struct timespec date = soon(1000);
  int error = how == LOCK ? evl_lock_mutex(&mutex[which])
              : how == TRY ? evl_trylock_mutex(&mutex[which])
                           : evl_timedlock_mutex(&mutex[which], &date);
  if ((how == TRY && error == -EBUSY) || (how == TIMED && error == -ETIMEDOUT)) return false;
  expect(error, "a lock", number);
  if (++inside[which] != 1) evlsim_fail("thread %d is within mutex %d together with another", number, which);
  return true;
}

DECODES static void unlock(int which, int number) {
  inside[which]--;
  expect(evl_unlock_mutex(&mutex[which]), "an unlock", number);
}

DECODES static void use_inner(enum how how, int number) {
  if (!is_locked(1, how, number)) return;
  unlock(1, number);
}

DECODES static void use_outer(struct step step, int number) {
  if (!is_locked(0, step.how, number)) return;
  if (program.kind[0] == 1) expect(evl_lock_mutex(&mutex[0]), "a lock once more", number);
  if (step.sleeps) expect(evl_usleep(1), "a sleep", number);
  if (step.nests) use_inner(step.inner, number);
  if (program.kind[0] == 1) expect(evl_unlock_mutex(&mutex[0]), "an inner unlock", number);
  unlock(0, number);
}

DECODES static void use_flags(bool is_posted, int number) {
  int taken = 0, bit = 1 << (is_posted ? number : number + 8);
  struct timespec date = soon(500);
  if (is_posted) {
    expect(evl_post_flags(&group, bit), "a post", number);
    expect(evl_wait_some_flags(&group, bit, &taken), "a wait for flags", number);
    if (taken != bit) evlsim_fail("flags %d are taken", taken);
  } else if (evl_timedwait_some_flags(&group, bit, &date, &taken) != -ETIMEDOUT) {
    evlsim_fail("flags come that nobody posts");
  }
}

/* Counts while nobody else can run: an in-band thread may turn off the in-band interrupts alone, against its like. */
DECODES static void count_off(struct plan *plan) {
  unsigned long before;
  if (plan->is_core || roll(2) == 0) {
    before = hard_local_irq_save();
    add_one(&counted_off), due_off++;
    hard_local_irq_restore(before);
  } else {
    local_irq_save(before);
    add_one(&counted_inband), due_inband++;
    local_irq_restore(before);
  }
}

/* A line of its own has its handler from then on. */
DECODES static void request_own(int number) {
  if (is_handled(number)) return;
  unsigned line = OWN_LINE + (unsigned)number;
  expect(request_irq(line, on_own, IRQF_OOB, "own", NULL), "a request", number);
  evlsim_arrive(line);
  if (!is_handled(number)) evlsim_fail("line %u has no handler", line);
}

/* A timer that is read has fired. */
DECODES static void read_timer(int number) {
  uint64_t ticks = 0;
  struct itimerspec dates = {.it_value = soon(100), .it_interval = {0, 100}}, none;
  memset(&none, 0, sizeof none);
  int timer = evl_new_timer(EVL_CLOCK_MONOTONIC);
  if (timer < 0) evlsim_fail("a timer is answered %d", timer);
  expect(evl_set_timer(timer, &dates, NULL), "a timer's start", number);
  for (int each = 0; each < 2; each++) {
    if (oob_read(timer, &ticks, sizeof ticks) != sizeof ticks || ticks == 0) evlsim_fail("a timer is read too early");
  }
  expect(evl_set_timer(timer, &none, NULL), "a timer's stop", number);
}

/* Sets the next thread's priority, if it is attached, and yields: the core has the policy that was set last. */
DECODES static void use_policies(int number) {
  int next = (number + 1) % THREADS;
  struct evl_sched_attrs attrs = {.sched_policy = SCHED_FIFO, .sched_priority = 30 + 10 * number};
  if (self[next] > 0) (void)evl_set_schedattr(self[next], &attrs);
  expect(evl_yield(), "a yield", number);
  expect(evl_get_schedattr(self[number], &attrs), "a look at a policy", number);
  int64_t rank = evlsim_see_rank(evlsim_running(), (uint16_t)evlsim_self());
  if (rank != 512 + attrs.sched_priority) evlsim_fail("priority %d has rank %d", attrs.sched_priority, (int)rank);
}

DECODES static void use_stax(int number) {
  expect(evl_lock_stax(&stax), "a lock of a stax", number);
  evl_unlock_stax(&stax);
}

DECODES static void act_in_core(struct step step, int number) {
  switch (step.act) {
    case OUTER: use_outer(step, number); break;
    case INNER: use_inner(step.how, number); break;
    case FLAGS: use_flags(true, number); break;
    case NO_FLAGS: use_flags(false, number); break;
    case TIMER: read_timer(number); break;
    case YIELD: use_policies(number); break;
    case MOVE: usleep(1); break;
    default: expect(evl_usleep(1), "a sleep", number);
  }
}

DECODES static void act(struct plan *plan, struct step step, int number) {
  switch (step.act) {
    case STAX: use_stax(number); break;
    case OFF: count_off(plan); break;
    case REQUEST: request_own(number); break;
    default: plan->is_core ? act_in_core(step, number) : (void)usleep(1);
  }
}

/* Writes all that it has to, or reads all that is its part. */
DECODES static void transfer(const struct plan *plan, int number) {
  char bytes[RING] = "abcdefg";
  for (int left = plan->amount; left > 0;) {
    size_t count = (size_t)(left < plan->part ? left : plan->part);
    ssize_t done = plan->role == WRITES ? plan->is_core ? oob_write(buffer, bytes, count) : write(buffer, bytes, count)
                   : plan->is_core      ? oob_read(buffer, bytes, count)
                                        : read(buffer, bytes, count);
    if (done <= 0) evlsim_fail("a transfer is answered %d, errno %d, in thread %d", (int)done, errno, number);
    left -= (int)done;
    if (plan->is_core && left > 0) expect(evl_usleep(1), "a sleep", number); /* so that in-band ones wait for it */
  }
}

DECODES static void *run_thread(void *it) {
  int number = (int)(intptr_t)it;
  struct plan *plan = &program.plan[number];
  if (plan->waits || plan->is_core) {
    struct evl_sched_attrs attrs = {.sched_policy = SCHED_FIFO, .sched_priority = plan->prio};
    self[number] = evl_attach_self("thread %d", number);
    expect(evl_set_schedattr(self[number], &attrs), "a policy", number);
  }
  if (plan->waits) expect(evl_get_sem(&begins[number]), "a get", number);
  if (plan->waits && !plan->is_core) expect(evl_detach_self(), "a detach", number);
  for (int step = 0; step < plan->steps; step++) act(plan, plan->step[step], number);
  if (plan->role != NO_ROLE) transfer(plan, number);
  has_ended[number] = true;
  return NULL;
}

DECODES static void make_elements(void) {
  static const int flags[] = {EVL_MUTEX_NORMAL, EVL_MUTEX_RECURSIVE, EVL_MUTEX_NORMAL};
  for (int each = 0; each < MUTEXES; each++) {
    int kind = program.kind[each];
    evl_create_mutex(&mutex[each], EVL_CLOCK_MONOTONIC, kind == 2 ? CEILING : 0, flags[kind], "mutex %d", each);
  }
  for (int each = 0; each < THREADS; each++) {
    evl_new_sem(&begins[each], "begins %d", each);
    request_irq(FIRST_LINE + (unsigned)each, on_begin, IRQF_OOB, "begins", NULL);
  }
  evl_new_flags(&group, "flags");
  evl_init_stax(&stax);
  buffer = evl_new_xbuf(RING, "buffer");
}

DECODES static void start(bool waits, pthread_t *threads) {
  for (int each = 0; each < THREADS; each++) {
    if (program.plan[each].waits == waits) pthread_create(&threads[each], NULL, run_thread, (void *)(intptr_t)each);
  }
}

DECODES static void random_threads(void) {
  pthread_t threads[THREADS];
  make_elements();
  start(true, threads);
  evlsim_settle();
  for (unsigned each = 0; each < THREADS; each++) {
    if (program.plan[each].waits) evlsim_may_arrive(FIRST_LINE + each, 1, NULL, NULL);
  }
  if (program.passes > 0) evlsim_may_pass(program.passes);
  if (program.turns > 0) evlsim_may_switch(program.turns);
  start(false, threads);
  evlsim_settle();
  for (unsigned each = 0; each < THREADS; each++) {
    if (program.plan[each].waits && !came[each]) evlsim_arrive(FIRST_LINE + each);
  }
  for (int each = 0; each < THREADS; each++) pthread_join(threads[each], NULL);
  evlsim_rest();
  for (int each = 0; each < THREADS; each++) evlsim_require(has_ended[each]);
  evlsim_require(counted_off == due_off && counted_inband == due_inband);
}

/* Whose bytes go to whom: one thread on one side and one stage, the others on the others. */
DECODES static void make_roles(void) {
  int single = (int)roll(THREADS), all = 0;
  bool is_core = roll(4) > 0, is_writer = roll(2) == 0;
  program.turns = 2;
  for (int each = 0; each < THREADS; each++) {
    struct plan *plan = &program.plan[each];
    plan->is_core = (each == single) == is_core;
    plan->role = (each == single) == is_writer ? WRITES : READS;
    plan->part = 1 + (int)roll(MOST);
    plan->amount = 1 + (int)roll(MOST);
    plan->steps = 1;
    if (each != single) all += plan->amount;
  }
  program.plan[single].amount = all;
}

/* Two or three threads that begin with the same mutex, the least of them at once. */
DECODES static void make_contenders(void) {
  for (int each = 0; each < THREADS; each++) {
    struct plan *plan = &program.plan[each];
    plan->waits = each > 0;
    if (each == 0) plan->prio = 9;
    if (each < 2 || roll(3) > 0) plan->step[0].act = OUTER;
    if (roll(2) == 0) plan->step[0].how = LOCK;
  }
  program.passes = roll(2);
}

/* In-band threads that count while interrupts are off. */
DECODES static void make_sections(void) {
  for (int each = 0; each < THREADS; each++) {
    program.plan[each].is_core = roll(4) == 0;
    program.plan[each].step[roll(STEPS)].act = OFF;
  }
  program.turns = 2;
}

/* A step; the mutexes come more often. */
DECODES static struct step random_step(void) {
  unsigned wanted = roll(ACTS + 6);
  struct step it = {wanted < ACTS ? (enum act)wanted : wanted % 2 == 0 ? OUTER : INNER, (enum how)roll(HOWS),
                    (enum how)roll(HOWS), roll(3) == 0, roll(2) == 0};
  return it;
}

/* Of three programs one is for mutexes, one for buffers, one for sections. */
DECODES static void make_program(uint32_t seed) {
  dice = seed * 2654435761u + 12345;
  memset(&program, 0, sizeof program);
  for (int each = 0; each < THREADS; each++) {
    struct plan *plan = &program.plan[each];
    plan->is_core = seed % 3 == 0 || roll(4) > 0;
    plan->waits = each > 0 && roll(3) > 0;
    plan->prio = 10 + (int)roll(80);
    plan->steps = STEPS;
    for (int step = 0; step < STEPS; step++) plan->step[step] = random_step();
  }
  for (int each = 0; each < MUTEXES; each++) program.kind[each] = (int)roll(3);
  program.passes = roll(3) == 0 ? 1 : 0;
  if (seed % 3 == 0) make_contenders();
  if (seed % 3 == 1) make_roles();
  if (seed % 3 == 2) make_sections();
}

/* Tells how the program fails, if it does. */
DECODES static void print_failures(uint32_t seed) {
  const char *choices = NULL;
  for (uint32_t each = 0;; each++) {
    const char *text = evlsim_outcome(each, NULL, &choices);
    if (text == NULL) return;
    if (strstr(text, "FAILED") == NULL) continue;
    printf("program %u: %s, with the events \"%s\"\n", (unsigned)seed, text, choices);
  }
}

DECODES int main(int count, char **words) {
  uint32_t programs = count > 1 ? (uint32_t)atoi(words[1]) : 100, first = count > 2 ? (uint32_t)atoi(words[2]) : 1;
  uint64_t lists = 0;
  unsigned failed = 0, cut = 0;
  evlsim_limits limits;
  memset(&limits, 0, sizeof limits);
  limits.arrivals = 2, limits.quiet = true;
  for (uint32_t seed = first; seed < first + programs; seed++) {
    evlsim_explored told;
    make_program(seed);
    if (evlsim_explore_as(random_threads, "random_threads", &limits, &told) != 0) failed++, print_failures(seed);
    lists += told.lists;
    if (told.is_cut) cut++;
  }
  printf("%u programs, %llu lists of events, %u failed, %u cut off\n", (unsigned)programs, (unsigned long long)lists,
         failed, cut);
  return failed == 0 && cut == 0 ? EXIT_SUCCESS : EXIT_FAILURE;
}
