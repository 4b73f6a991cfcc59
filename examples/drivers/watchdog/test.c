/* The watchdog in the simulator: two threads are well in each period, one of them at any moment. It may not bite. */
#include <evl/evl.h>
#include <evlsim/runner.h>
#include <linux/interrupt.h>
#include <pthread.h>

#include "watchdog.h"

enum { PERIOD = 2000, EVENT_IRQ = 9 };
static struct evl_sem event;
static unsigned bites, told;
void watchdog_bite(void) { bites++; }

static irqreturn_t on_event(int irq, void *device) {
  (void)irq, (void)device;
  evl_put_sem(&event);
  return IRQ_HANDLED;
}

/* Is well in each period: in its middle. */
static void *run_regularly(void *it) {
  evl_attach_self("regular");
  evl_usleep(PERIOD / 2000);
  for (int period = 0; period < 3; period++) {
    watchdog_tell(0);
    evl_usleep(PERIOD / 1000);
  }
  return it;
}

/* Is well at each event. */
static void *run_at_events(void *it) {
  struct evl_sched_attrs attrs = {.sched_policy = SCHED_FIFO, .sched_priority = 20};
  evl_set_schedattr(evl_attach_self("at events"), &attrs);
  while (evl_get_sem(&event) == 0) {
    watchdog_tell(1);
    told++;
  }
  return it;
}

/* One event in each period, at any moment of it: the first three quarters come by chance, else it comes then. */
static void wait_for_event(unsigned period) {
  evlsim_pass(3 * PERIOD / 4);
  if (told == period) evlsim_arrive(EVENT_IRQ);
  evlsim_pass(PERIOD / 4);
}

static void watchdog_test(void) {
  pthread_t thread;
  evl_new_sem(&event, "event");
  evlsim_require(request_irq(EVENT_IRQ, on_event, IRQF_OOB, "event", NULL) == 0);
  pthread_create(&thread, NULL, run_at_events, NULL);
  pthread_create(&thread, NULL, run_regularly, NULL);
  evlsim_settle();
  evlsim_require(watchdog_start(PERIOD) == 0);
  evlsim_may_arrive(EVENT_IRQ, 1, NULL, NULL);
  wait_for_event(0);
  evlsim_require(bites == 0);
  watchdog_stop();
}

int main(void) {
  evlsim_limits limits = {.arrivals = 1};
  return evlsim_explore(watchdog_test, &limits);
}
