/*
 * Calls that look at something and then rely on it, with an event at the moment before the call: what they see is what
 * the event left. Prints what isn't so. It is compiled with -fsanitize=thread.
 */
#include <errno.h>
#include <evl/evl.h>
#include <evl/work.h>
#include <evlsim/runner.h>
#include <linux/interrupt.h>
#include <linux/irqstage.h>
#include <pthread.h>
#include <stdio.h>
#include <string.h>

static struct evl_sem sem;
static struct evl_work own, other;
static int self, timer, done;
static pthread_t woken;

static irqreturn_t on_line(int irq, void *device) {
  (void)irq, (void)device;
  evl_put_sem(&sem);
  return IRQ_HANDLED;
}

static int attach(int priority) {
  struct evl_sched_attrs attrs = {.sched_policy = SCHED_FIFO, .sched_priority = priority};
  int number = evl_attach_self("thread %d", priority);
  evlsim_require(number >= 0 && evl_set_schedattr(number, &attrs) == 0);
  return number;
}

/* Lets a thread run as soon as line 5 arrives, and opens that source. */
static void begin(void *(*run)(void *), irq_handler_t handler) {
  evl_new_sem(&sem, "sem");
  evlsim_require(request_irq(5, handler, IRQF_OOB, "line", NULL) == 0);
  if (run != NULL) pthread_create(&woken, NULL, run, NULL);
  evlsim_settle();
  evlsim_may_arrive(5, 1, NULL, NULL);
}

static void *raise_other(void *it) {
  struct evl_sched_attrs attrs = {.sched_policy = SCHED_FIFO, .sched_priority = 50};
  attach(90);
  while (evl_get_sem(&sem) == 0) evlsim_require(evl_set_schedattr(self, &attrs) == 0);
  return it;
}

/* A yield leaves the policy that was set last. */
static void yields(void) {
  struct evl_sched_attrs attrs;
  self = attach(10);
  evlsim_require(evl_switch_inband() == 0);
  begin(raise_other, on_line);
  evlsim_require(evl_switch_oob() == 0 && evl_yield() == 0 && evl_get_schedattr(self, &attrs) == 0);
  evlsim_require(evlsim_see_rank(evlsim_running(), 1) == 512 + attrs.sched_priority);
}

static void *detach(void *it) {
  attach(90);
  if (evl_get_sem(&sem) == 0) evl_detach_self();
  evlsim_settle();
  return it;
}

/* A thread's priority is set, attached or not; but not while it waits. */
static void sets_priority(void) {
  struct sched_param param = {.sched_priority = 20};
  begin(detach, on_line);
  int error = pthread_setschedparam(woken, SCHED_FIFO, &param);
  evlsim_require(error == 0 || error == EBUSY);
}

/* What a timer was set to is not past. */
static void stops_timer(void) {
  struct timespec now;
  struct itimerspec dates, none, before;
  memset(&none, 0, sizeof none);
  attach(10);
  timer = evl_new_timer(EVL_CLOCK_MONOTONIC);
  evl_read_clock(EVL_CLOCK_MONOTONIC, &now);
  dates.it_value.tv_sec = now.tv_sec + 1, dates.it_value.tv_nsec = 0;
  dates.it_interval.tv_sec = 0, dates.it_interval.tv_nsec = 100;
  evlsim_require(evl_set_timer(timer, &dates, NULL) == 0);
  evlsim_may_pass(1);
  evlsim_require(evl_set_timer(timer, &none, &before) == 0);
  evl_read_clock(EVL_CLOCK_MONOTONIC, &now);
  evlsim_require(before.it_value.tv_sec == now.tv_sec + 1 || before.it_value.tv_nsec > now.tv_nsec);
}

static irqreturn_t look_at_stall(int irq, void *device) {
  (void)irq, (void)device;
  evlsim_require(!oob_irqs_disabled());
  return IRQ_HANDLED;
}

/* The stage isn't stalled before it is. */
static void stalls(void) {
  begin(NULL, look_at_stall);
  hard_local_irq_disable();
  hard_local_irq_enable();
}

static int do_work(struct evl_work *work) {
  (void)work;
  done++;
  return 0;
}

static void *hand_on(void *it) {
  attach(90);
  if (evl_get_sem(&sem) != 0) return it;
  evl_init_work(&other, do_work);
  evlsim_require(evl_call_inband(&other));
  return it;
}

/* Work is done, whoever makes the first. */
static void makes_work(void) {
  begin(hand_on, on_line);
  evl_init_work(&own, do_work);
  evlsim_require(evl_call_inband(&own));
  evlsim_rest();
  int came = evlsim_see_waits(evlsim_running(), 2) ? 0 : 1;
  evlsim_require(done == 1 + came);
}

static bool passes(void (*body)(void), const char *name) {
  evlsim_limits limits = {.quiet = true};
  if (evlsim_explore_as(body, name, &limits, NULL) == 0) return true;
  const char *text = "", *next;
  for (uint32_t each = 0; (next = evlsim_outcome(each, NULL, NULL)) != NULL; each++) text = next;
  printf("not so: %s: %s\n", name, text);
  return false;
}

int main(void) {
  bool well = passes(yields, "a yield leaves the policy");
  well = passes(sets_priority, "a priority is set") && well;
  well = passes(stops_timer, "a timer's old date") && well;
  well = passes(stalls, "a stage isn't stalled before it is") && well;
  well = passes(makes_work, "work is done") && well;
  return well ? 0 : 1;
}
