/*
 * The kernel's names: spin locks, threads of the core, timeouts, flags, single loads and stores. Each body has what its
 * outcomes are, or how it fails; "nothing" prints what isn't so.
 */
#include <errno.h>
#include <evl/evl.h>
#include <evl/flag.h>
#include <evl/kthread.h>
#include <evl/lock.h>
#include <evlsim/runner.h>
#include <linux/bits.h>
#include <linux/compiler.h>
#include <linux/container_of.h>
#include <linux/interrupt.h>
#include <linux/io.h>
#include <linux/printk.h>
#include <stdio.h>
#include <stdlib.h>
#include <string.h>

static DEFINE_HARD_SPINLOCK(hard);
static DEFINE_RAW_SPINLOCK(raw);
static DEFINE_EVL_SPINLOCK(core);
static struct evl_ksem sem;
static struct evl_flag flag;
static struct evl_kmutex mutex;
static struct evl_kthread kthread, holder;
static unsigned first, second, handled, bug;
static uint32_t registers[2];

/* Both counts change together, under the lock of each kind. */
static irqreturn_t look(int irq, void *device) {
  unsigned long flags = 0;
  (void)irq, (void)device;
  evl_spin_lock(&core);
  raw_spin_lock_irqsave(&hard, flags);
  if (first != second) evlsim_fail("they differ");
  raw_spin_unlock_irqrestore(&hard, flags);
  evl_spin_unlock(&core);
  handled++;
  return IRQ_HANDLED;
}

/* `bug`: 0 a hard lock, 1 the core's, 2 one of the in-band stage, 3 none. */
static void count_both(void) {
  unsigned long flags = 0;
  request_irq(5, look, IRQF_OOB, "line", NULL);
  evlsim_may_arrive(5, 1, NULL, NULL);
  if (bug == 0) raw_spin_lock_irqsave(&hard, flags);
  if (bug == 1) evl_spin_lock_irqsave(&core, flags);
  if (bug == 2) raw_spin_lock_irqsave(&raw, flags);
  first++;
  second++;
  if (bug == 2) raw_spin_unlock_irqrestore(&raw, flags);
  if (bug == 1) evl_spin_unlock_irqrestore(&core, flags);
  if (bug == 0) raw_spin_unlock_irqrestore(&hard, flags);
  evlsim_rest();
}

static irqreturn_t keeps(int irq, void *device) {
  (void)irq, (void)device;
  raw_spin_lock(&hard);
  return IRQ_HANDLED;
}

static void takes_twice(void) {
  unsigned long flags = 0;
  raw_spin_lock_irq(&hard);
  raw_spin_lock_irqsave(&hard, flags);
  (void)flags;
}
static void takes_open(void) { raw_spin_lock(&hard); }
static void waits_with_it(void) {
  unsigned long flags = 0;
  evl_attach_self("main");
  evl_init_ksem(&sem, 0);
  evl_spin_lock_irqsave(&core, flags);
  (void)flags;
  evl_down(&sem);
}
static void ends_with_it(void) { raw_spin_lock_irq(&hard); }
static void keeps_in_handler(void) {
  request_irq(5, keeps, IRQF_OOB, "line", NULL);
  evlsim_arrive(5);
}
static void unlocks_free(void) { raw_spin_unlock(&hard); }

/* A thread of the core counts until it is stopped. */
static void serve(void *it) {
  unsigned *count = it;
  while (!evl_kthread_should_stop()) {
    if (evl_down_timeout(&sem, 1000) == 0) (*count)++;
  }
}
static void wait_for_good(void *it) {
  (void)it;
  (void)evl_down(&sem);
}
static void stops(void) {
  evl_init_ksem(&sem, 2);
  evlsim_require(evl_run_kthread(&kthread, serve, &handled, 50, 0, "server-%d", 1) == 0);
  evlsim_settle();
  evl_up(&sem);
  evlsim_settle();
  evl_stop_kthread(&kthread);
  evlsim_say("%u", handled);
}
static void stops_waiting(void) {
  evl_init_ksem(&sem, 0);
  evl_run_kthread(&kthread, wait_for_good, NULL, 50, 0, "server");
  evl_stop_kthread(&kthread);
}
static void asks_none(void) { (void)evl_kthread_should_stop(); }
static void no_priority(void) { evlsim_say("%d", evl_run_kthread(&kthread, serve, NULL, 0, 0, "server")); }

static void keep_mutex(void *it) {
  (void)it;
  evl_lock_kmutex(&mutex);
  evl_usleep(100);
  evl_unlock_kmutex(&mutex);
}

/* Each answer, and how long it took. */
static void timeouts(void) {
  evl_init_ksem(&sem, 1);
  evl_init_flag(&flag);
  evl_init_kmutex(&mutex);
  evl_run_kthread(&holder, keep_mutex, NULL, 60, 0, "holder");
  evlsim_settle();
  evl_attach_self("main");
  ktime_t start = evl_ktime_monotonic();
  int answers[8] = {evl_down_timeout(&sem, 1000), evl_down_timeout(&sem, 1000), evl_down_timeout(&sem, EVL_NONBLOCK)};
  answers[3] = evl_wait_flag_timeout(&flag, start + 3000, EVL_ABS);
  answers[4] = evl_wait_flag_timeout(&flag, 500, EVL_REL);
  answers[5] = evl_lock_kmutex_timeout(&mutex, 100, EVL_REL);
  answers[6] = evl_lock_kmutex_timeout(&mutex, EVL_INFINITE, EVL_REL);
  evl_raise_flag(&flag);
  answers[7] = evl_wait_flag_timeout(&flag, EVL_INFINITE, EVL_REL);
  for (int each = 0; each < 8; each++) evlsim_say("%d ", -answers[each]);
  evlsim_say("%d", (int)(evl_ktime_monotonic() - start));
  evl_unlock_kmutex(&mutex);
}

static void flags(void) {
  evl_init_flag(&flag);
  bool before = evl_read_flag(&flag);
  evl_raise_flag(&flag);
  bool raised = evl_read_flag(&flag), after = evl_read_flag(&flag);
  evl_raise_flag(&flag);
  evl_clear_flag(&flag);
  evlsim_say("%d%d%d%d", before, raised, after, evl_trywait_flag(&flag) == -EAGAIN);
}

/* Registers that the hardware writes between two loads. */
static void hardware_works(void *it) {
  (void)it;
  writel(readl(&registers[0]) | (uint32_t)BIT(4), &registers[0]);
}
static void loads(void) {
  evlsim_may_arrive(5, 1, hardware_works, NULL);
  uint32_t one = readl(&registers[0]), other = READ_ONCE(registers[0]);
  WRITE_ONCE(registers[1], 7);
  pr_info("%u", one);
  evlsim_say("%u %u %u %d", one, other, registers[1], container_of(&kthread.arg, struct evl_kthread, arg) == &kthread);
}

/* Whether a body's outcomes are these, in any order, each once. */
static bool comes_to(void (*body)(void), const char *name, const char *const *wanted, unsigned count) {
  evlsim_limits limits = {.goes_on = true, .quiet = true};
  evlsim_explored told;
  bool well = true;
  (void)evlsim_explore_as(body, name, &limits, &told);
  for (unsigned each = 0; each < count; each++) {
    const char *text, *found = NULL;
    for (uint32_t place = 0; (text = evlsim_outcome(place, NULL, NULL)) != NULL; place++) {
      if (strstr(text, wanted[each]) != NULL && (*text != 0) == (*wanted[each] != 0)) found = text;
    }
    well = well && found != NULL;
  }
  well = well && told.outcomes == count;
  if (well) return true;
  printf("not so: %s comes to %u outcomes:\n", name, (unsigned)told.outcomes);
  for (uint32_t place = 0; evlsim_outcome(place, NULL, NULL) != NULL; place++) {
    printf("  %s\n", evlsim_outcome(place, NULL, NULL));
  }
  return false;
}
#define COMES_TO(body, ...)                                     \
  comes_to(body, #body, (const char *const[]){__VA_ARGS__},     \
           sizeof((const char *const[]){__VA_ARGS__}) / sizeof(const char *))

int main(void) {
  bool well = true;
  bug = 0, well = COMES_TO(count_both, "") && well;
  bug = 1, well = COMES_TO(count_both, "") && well;
  bug = 2, well = COMES_TO(count_both, "", "FAILED: they differ") && well;
  bug = 3, well = COMES_TO(count_both, "", "FAILED: they differ") && well;
  well = COMES_TO(takes_twice, "a spin lock is taken that T1 body has, since ") && well;
  well = COMES_TO(takes_open, "a spin lock is taken with interrupts on") && well;
  well = COMES_TO(waits_with_it, "T1 main begins to wait, and has a spin lock: ") && well;
  well = COMES_TO(ends_with_it, "T1 body ends, and has a spin lock: ") && well;
  well = COMES_TO(keeps_in_handler, "the handler of line 5 returns, and has a spin lock: ") && well;
  well = COMES_TO(unlocks_free, "a spin lock is unlocked that the code which runs hasn't locked") && well;
  well = COMES_TO(stops, "3") && well;
  well = COMES_TO(stops_waiting, "T2 server waits for sem 0") && well;
  well = COMES_TO(asks_none, "called by no kernel thread") && well;
  well = COMES_TO(no_priority, "-22") && well;
  well = COMES_TO(timeouts, "0 110 11 110 110 110 0 0 100000") && well;
  well = COMES_TO(flags, "0101") && well;
  well = COMES_TO(loads, "0 0 7 1", "0 16 7 1", "16 16 7 1") && well;
  return well ? EXIT_SUCCESS : EXIT_FAILURE;
}
