/*
 * Runs that fail by a limit alone: a refusal that a right driver never meets, by limits.refusals_fail; a thread that
 * waits when the body ends, by limits.nobody_waits; and what a test says of who waits. Prints what isn't so.
 */
#include <errno.h>
#include <evl/evl.h>
#include <evlsim/runner.h>
#include <linux/interrupt.h>
#include <linux/irqstage.h>
#include <pthread.h>
#include <stdio.h>
#include <stdlib.h>
#include <string.h>
#include <unistd.h>

static struct evl_sem sem, unmade;
static struct evl_flags flags;
static struct evl_mutex first, second, third;
static const struct timespec no_date = {1, 1000000000};
static int buffer, sem_number, flags_number, timer_number;
static pthread_t other;

static void begin(void) {
  sem_number = evl_new_sem(&sem, "sem");
  flags_number = evl_new_flags(&flags, "flags");
  evl_new_mutex(&first, "first");
  evl_new_mutex(&second, "second");
  buffer = evl_new_xbuf(16, "buffer");
  timer_number = evl_new_timer(EVL_CLOCK_MONOTONIC);
}

/* Two locks, in both orders. */
static void *lock_both(void *it) {
  evl_attach_self("other");
  evl_lock_mutex(&second);
  evl_usleep(10);
  if (evl_lock_mutex(&first) == 0) evl_unlock_mutex(&first);
  evl_unlock_mutex(&second);
  return it;
}
static void ring(void) {
  begin();
  pthread_create(&other, NULL, lock_both, NULL);
  evl_attach_self("main");
  evl_lock_mutex(&first);
  evl_usleep(20);
  evl_lock_mutex(&second);
  evl_unlock_mutex(&second);
  evl_unlock_mutex(&first);
  evl_usleep(20);
}

static void locks_twice(void) {
  begin();
  evl_attach_self("main");
  evl_lock_mutex(&first);
  (void)evl_lock_mutex(&first);
  evl_unlock_mutex(&first);
}
static void unlocks(void) {
  begin();
  evl_attach_self("main");
  (void)evl_unlock_mutex(&first);
}
static void detaches(void) {
  begin();
  evl_attach_self("main");
  evl_lock_mutex(&first);
  (void)evl_detach_self();
  evl_unlock_mutex(&first);
}
static void waits_unattached(void) {
  begin();
  (void)evl_get_sem(&sem);
}
static void unmade_sem(void) {
  begin();
  (void)evl_put_sem(&unmade);
}
static void no_deadline(void) {
  begin();
  evl_attach_self("main");
  (void)evl_timedget_sem(&sem, &no_date);
}
static irqreturn_t on_line(int irq, void *device) {
  (void)irq, (void)device;
  (void)evl_put_sem(&unmade);
  return IRQ_HANDLED;
}
static void in_handler(void) {
  begin();
  request_irq(5, on_line, IRQF_OOB, "line", NULL);
  evlsim_arrive(5);
}

static void stalls_inband(void) {
  begin();
  evl_attach_self("main");
  unsigned long before;
  local_irq_save(before);
  local_irq_restore(before);
}

/* Answers that a right driver meets. */
static void answered(void) {
  begin();
  evl_attach_self("main");
  evlsim_require(evl_tryget_sem(&sem) == -EAGAIN && evl_detach_self() == 0 && evl_get_self() == -EPERM);
  local_irq_disable();
  local_irq_enable();
  evlsim_require(oob_write(-1, "x", 1) == -1 && evl_new_mutex(&third, "third") >= 0);
}

/* A thread that waits at the end, for each kind of element. */
static void *wait_for_sem(void *it) {
  evl_attach_self("waiter");
  while (evl_get_sem(&sem) == 0) continue;
  return it;
}
static void *wait_for_flags(void *it) {
  int bits;
  evl_attach_self("waiter");
  (void)evl_wait_flags(&flags, &bits);
  return it;
}
static void *wait_for_mutex(void *it) {
  evl_attach_self("waiter");
  (void)evl_lock_mutex(&first);
  evl_unlock_mutex(&first);
  return it;
}
static void *wait_for_bytes(void *it) {
  char byte;
  evl_attach_self("waiter");
  (void)!oob_read(buffer, &byte, 1);
  return it;
}
static void *wait_inband(void *it) {
  char byte;
  (void)!read(buffer, &byte, 1);
  return it;
}
static void *wait_for_timer(void *it) {
  uint64_t ticks;
  evl_attach_self("waiter");
  (void)!oob_read(timer_number, &ticks, sizeof ticks);
  return it;
}
static void *(*waiter)(void *) EVLSIM_KEPT = NULL;
static int word EVLSIM_KEPT = 0; /* nothing, the right element, another one, any, or that it may wait */
static int wanted_element(void) {
  if (waiter == wait_for_flags) return flags_number;
  if (waiter == wait_for_timer) return timer_number;
  return waiter == wait_for_bytes || waiter == wait_inband ? buffer : sem_number;
}
static void waits(void) {
  begin();
  bool is_of_mutex = waiter == wait_for_mutex;
  int element = is_of_mutex ? evl_new_mutex(&third, "third") - 2 : wanted_element();
  if (is_of_mutex) evl_attach_self("main"), evl_lock_mutex(&first);
  pthread_create(&other, NULL, waiter, NULL);
  evlsim_settle();
  if (word == 1) evlsim_require_waits(other, element);
  if (word == 2) evlsim_require_waits(other, element + 1);
  if (word == 3) evlsim_require_waits(other, EVLSIM_ANY_ELEMENT);
  if (word == 4) evlsim_may_wait_at_rest(other);
  if (is_of_mutex) evl_switch_oob(), evl_unlock_mutex(&first), evl_switch_inband();
}
static void *end_at_once(void *it) { return it; }
static void ended(void) {
  begin();
  pthread_create(&other, NULL, end_at_once, NULL);
  evlsim_rest();
  evlsim_require_waits(other, buffer);
}

static bool holds(bool it, const char *what, const char *more) {
  if (!it) printf("not so: %s: %s\n", what, more);
  return it;
}

/* How a body's only run ends: with a text that is in its outcome, or passes where that is null. */
static bool ends(void (*body)(void), const char *name, evlsim_limits limits, const char *wanted) {
  limits.quiet = true;
  bool failed = evlsim_explore_as(body, name, &limits, NULL) != 0;
  const char *text = evlsim_outcome(0, NULL, NULL);
  return holds(failed == (wanted != NULL) && (wanted == NULL || strstr(text, wanted) != NULL), name, text);
}

static const struct {
  void (*body)(void);
  const char *name, *wanted;
} refusals[] = {{ring, "ring", "is refused: Deadlock"},
                {locks_twice, "locks_twice", "T1 main is refused: Deadlock"},
                {unlocks, "unlocks", "T1 main is refused: NotOwner"},
                {detaches, "detaches", "T1 main is refused: Busy"},
                {waits_unattached, "waits_unattached", "T1 body is refused: the thread isn't attached"},
                {unmade_sem, "unmade_sem", "T1 body is refused: Invalid"},
                {no_deadline, "no_deadline", "T1 main is refused: Invalid"},
                {in_handler, "in_handler", "the handler of line 5 is refused: Invalid"},
                {stalls_inband, "stalls_inband", "T1 main is refused: WrongStage, the in-band stage is stalled"},
                {answered, "answered", NULL}};

static const struct {
  void *(*waiter)(void *);
  const char *wanted;
} waiters[] = {{wait_for_sem, "T2 waiter waits for sem 0 at the end"},
               {wait_for_flags, "T2 waiter waits for flags 0 at the end"},
               {wait_for_mutex, NULL},
               {wait_for_bytes, "T2 waiter waits for bytes of xbuf 0 at the end"},
               {wait_inband, "T2  waits for bytes of xbuf 0 at the end"},
               {wait_for_timer, "T2 waiter waits for flags 1 at the end"}};

int main(void) {
  evlsim_limits none = {.quiet = true}, strict = {.refusals_fail = true}, alone = {.nobody_waits = true};
  evlsim_explored told;
  bool well = true;
  for (size_t each = 0; each < sizeof refusals / sizeof *refusals; each++) {
    well = ends(refusals[each].body, refusals[each].name, strict, refusals[each].wanted) && well;
    well = ends(refusals[each].body, refusals[each].name, none, NULL) && well;
  }
  for (size_t each = 0; each < sizeof waiters / sizeof *waiters; each++) {
    waiter = waiters[each].waiter;
    word = 0, well = ends(waits, "nothing is said", alone, waiters[each].wanted) && well;
    word = 1, well = ends(waits, "it waits for the element", alone, NULL) && well;
    word = 2, well = ends(waits, "it waits for another one", none, "T2") && well;
    word = 3, well = ends(waits, "it waits for any", alone, NULL) && well;
    word = 4, well = ends(waits, "it may wait", alone, NULL) && well;
  }
  waiter = wait_for_sem, word = 0;
  (void)evlsim_explore_as(waits, "waits", &none, &told);
  well = holds(told.lists == 1 && told.waited == 1, "a list at whose end a thread waits is counted", "") && well;
  well = ends(ended, "ended", none, "T2  has to wait for xbuf 0, and has ended") && well;
  return well ? EXIT_SUCCESS : EXIT_FAILURE;
}
