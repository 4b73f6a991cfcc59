/*
 * Random small drivers, each explored twice: with each moment tried, and with those left out that can't make a
 * difference. The outcomes have to be the same: random_drivers COUNT FIRST_SEED. It is compiled with -fsanitize=thread.
 * Each third one is so explored once more, with hardware that works within handlers.
 *
 * A driver has two handlers and two or three threads, each a short list of loads, stores, sums, tests and calls, and the
 * hardware of a line another one. Each result of a load is part of the outcome.
 */
#include <evl/evl.h>
#include <evlsim/runner.h>
#include <linux/interrupt.h>
#include <linux/irqstage.h>
#include <pthread.h>
#include <stdio.h>
#include <stdlib.h>
#include <string.h>

#define DECODES __attribute__((no_sanitize("thread")))

enum { VARIABLES = 6, SEMS = 2, MOST = 8, LISTS = 6, HANDLERS = 2, DEVICE = 5, OUTCOMES = 4096 };
enum act { LOAD, STORE, SUM, SKIP_IF, PUT, TRY, GET, GO_OOB, GO_INBAND, STALL, UNSTALL, SLEEP, LOCK, UNLOCK, ACTS };
struct step {
  enum act act;
  int which;
};
struct driver {
  struct step step[LISTS][MOST];
  int count[LISTS];
  int threads;
  int prio[LISTS];
  bool is_core[LISTS];
  int lines, clocks, turns;
  bool has_device;
};

static struct driver driver;
static int variable[VARIABLES];
static struct evl_sem sem[SEMS];
static struct evl_mutex mutex;
static int result[LISTS];
static uint32_t dice;

DECODES static unsigned roll(unsigned sides) {
  dice = dice * 1664525u + 1013904223u;
  return (dice >> 10) % sides;
}

/* What the compiler's hooks see. */
static int load(int which) { return variable[which]; }
static void store(int which, int value) { variable[which] = value; }
static void sum(int which) { variable[which] += 3; }

/* A result that tells all that a list has got so far. */
DECODES static void note(int list, int value) { result[list] = result[list] * 31 + value + 7; }

/* Who waits may not have stalled the stage. */
DECODES static bool waits(enum act act) { return act == GET || act == SLEEP || act == LOCK; }

DECODES static void act_in_core(int list, struct step step) {
  if (waits(step.act) && oob_irqs_disabled()) oob_irq_enable();
  switch (step.act) {
    case GET: note(list, evl_get_sem(&sem[step.which % SEMS])); break;
    case GO_OOB: note(list, evl_switch_oob()); break;
    case GO_INBAND: note(list, evl_switch_inband()); break;
    case STALL: oob_irq_disable(); break;
    case UNSTALL: oob_irq_enable(); break;
    case SLEEP: note(list, evl_usleep(1)); break;
    case LOCK: note(list, evl_lock_mutex(&mutex)); break;
    case UNLOCK: note(list, evl_unlock_mutex(&mutex)); break;
    default: break;
  }
}

/* Makes the steps of a list. */
DECODES static void run_list(int list) {
  for (int at = 0; at < driver.count[list]; at++) {
    struct step step = driver.step[list][at];
    switch (step.act) {
      case LOAD: note(list, load(step.which)); break;
      case STORE: store(step.which, list * 10 + at + 1); break;
      case SUM: sum(step.which); break;
      case SKIP_IF: at += load(step.which) > 0 ? 1 : 0; break;
      case PUT: evl_put_sem(&sem[step.which % SEMS]); break;
      case TRY: note(list, evl_tryget_sem(&sem[step.which % SEMS])); break;
      default: act_in_core(list, step);
    }
  }
}

DECODES static irqreturn_t on_line(int irq, void *device) {
  (void)device;
  run_list(irq - 5);
  return IRQ_HANDLED;
}

DECODES static void work(void *it) {
  (void)it;
  run_list(DEVICE);
}

DECODES static void *run_thread(void *it) {
  int list = (int)(intptr_t)it;
  if (driver.is_core[list]) evl_attach_self("thread %d", list);
  run_list(list);
  if (driver.is_core[list]) evl_unlock_mutex(&mutex);
  oob_irq_enable();
  return NULL;
}

DECODES static void start_thread(int list) {
  pthread_t thread;
  pthread_attr_t attr;
  struct sched_param param;
  memset(&param, 0, sizeof param);
  param.sched_priority = driver.prio[list];
  pthread_attr_init(&attr);
  pthread_attr_setinheritsched(&attr, PTHREAD_EXPLICIT_SCHED);
  pthread_attr_setschedpolicy(&attr, SCHED_FIFO);
  pthread_attr_setschedparam(&attr, &param);
  pthread_create(&thread, &attr, run_thread, (void *)(intptr_t)list);
}

DECODES static void random_driver(void) {
  for (int each = 0; each < SEMS; each++) evl_new_sem(&sem[each], "sem %d", each);
  evl_new_mutex(&mutex, "mutex");
  for (int each = 0; each < HANDLERS; each++) request_irq(5u + (unsigned)each, on_line, IRQF_OOB, "line", NULL);
  if (driver.lines > 0) evlsim_may_arrive(5, (unsigned)driver.lines, driver.has_device ? work : NULL, NULL);
  if (driver.lines > 1) evlsim_may_arrive(6, 1, NULL, NULL);
  if (driver.clocks > 0) evlsim_may_pass((unsigned)driver.clocks);
  if (driver.turns > 0) evlsim_may_switch((unsigned)driver.turns);
  for (int each = HANDLERS; each < HANDLERS + driver.threads; each++) start_thread(each);
  evlsim_pass(10000);
  evlsim_rest();
  for (int each = 0; each < VARIABLES; each++) evlsim_say("v%d=%d ", each, variable[each]);
  for (int each = 0; each < LISTS; each++) evlsim_say("r%d=%d ", each, result[each]);
  for (int each = 0; each < SEMS; each++) {
    int count = 0;
    evl_peek_sem(&sem[each], &count);
    evlsim_say("s%d=%d ", each, count);
  }
}

/* A list of a handler may not wait, and one of an in-band thread has no calls of the core's threads. */
DECODES static void make_list(int list, bool is_handler, bool is_core) {
  driver.count[list] = 2 + (int)roll(is_handler ? 2 : MOST - 1);
  for (int at = 0; at < driver.count[list]; at++) {
    unsigned sides = is_handler || !is_core ? TRY + 1 : ACTS;
    struct step step = {(enum act)roll(roll(3) > 0 ? SKIP_IF + 1 : sides), (int)roll(VARIABLES)};
    driver.step[list][at] = step;
  }
}

DECODES static void make_driver(uint32_t seed) {
  dice = seed * 2654435761u + 12345;
  memset(&driver, 0, sizeof driver);
  driver.threads = 2 + (int)roll(2);
  for (int list = 0; list < HANDLERS + driver.threads; list++) {
    driver.is_core[list] = roll(3) > 0;
    driver.prio[list] = 10 + (int)roll(3) * 10;
    make_list(list, list < HANDLERS, driver.is_core[list]);
  }
  driver.lines = 1 + (int)roll(2);
  driver.clocks = (int)roll(2);
  driver.turns = (int)roll(2);
  driver.has_device = seed % 3 == 0;
  if (driver.has_device) make_list(DEVICE, true, false);
}

static char *outcomes[2][OUTCOMES];
static uint32_t counts[2];

DECODES static int compare(const void *one, const void *other) {
  return strcmp(*(char *const *)one, *(char *const *)other);
}

DECODES static void free_outcomes(void) {
  for (int which = 0; which < 2; which++) {
    for (uint32_t each = 0; each < counts[which]; each++) free(outcomes[which][each]);
  }
}

/* Explores the driver, and keeps the texts of its outcomes in order. */
DECODES static evlsim_explored explore(int which, uint32_t arrivals, bool in_handlers) {
  evlsim_limits limits;
  evlsim_explored told;
  memset(&limits, 0, sizeof limits);
  limits.arrivals = arrivals, limits.goes_on = limits.quiet = true, limits.whole = which == 0;
  limits.in_handlers = in_handlers;
  (void)evlsim_explore_as(random_driver, "random_driver", &limits, &told);
  counts[which] = told.outcomes;
  for (uint32_t each = 0; each < told.outcomes; each++) {
    outcomes[which][each] = strdup(evlsim_outcome(each, NULL, NULL));
  }
  qsort(outcomes[which], told.outcomes, sizeof *outcomes[which], compare);
  return told;
}

DECODES static bool is_same(uint32_t seed) {
  bool is_same = counts[0] == counts[1];
  for (uint32_t each = 0; is_same && each < counts[0]; each++) {
    is_same = strcmp(outcomes[0][each], outcomes[1][each]) == 0;
  }
  if (!is_same) printf("driver %u: %u outcomes of all moments, and %u\n", seed, counts[0], counts[1]);
  free_outcomes();
  return is_same;
}

struct told {
  uint64_t lists[2], all, differ;
};

/* Explores a driver with all moments and without those left out, and compares. */
DECODES static void explore_both(uint32_t seed, bool in_handlers, struct told *told) {
  uint32_t arrivals = 1 + seed % 2;
  told->lists[0] += explore(0, arrivals, in_handlers).lists;
  told->lists[1] += explore(1, arrivals, in_handlers).lists;
  told->all += counts[0];
  if (!is_same(seed)) told->differ++;
}

DECODES int main(int count, char **words) {
  uint32_t drivers = count > 1 ? (uint32_t)atoi(words[1]) : 200, first = count > 2 ? (uint32_t)atoi(words[2]) : 1;
  struct told told = {{0, 0}, 0, 0};
  for (uint32_t seed = first; seed < first + drivers; seed++) {
    make_driver(seed);
    explore_both(seed, false, &told);
    if (driver.has_device) explore_both(seed, true, &told);
  }
  printf("%u drivers, %llu outcomes; %llu lists of all moments, %llu without those left out; %llu drivers differ\n",
         drivers, (unsigned long long)told.all, (unsigned long long)told.lists[0], (unsigned long long)told.lists[1],
         (unsigned long long)told.differ);
  return told.differ == 0 ? EXIT_SUCCESS : EXIT_FAILURE;
}
