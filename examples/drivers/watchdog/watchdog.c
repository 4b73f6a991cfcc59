/* A watchdog: a timer of the core looks in each period whether both threads have told that they are well. */
#include "watchdog.h"

#include <evl/evl.h>

static struct evl_timer timer;
static unsigned well;

static void look(struct evl_timer *it) {
  (void)it;
  if (well != 3) watchdog_bite();
  well = 0;
}

int watchdog_start(uint64_t period) {
  struct timespec now;
  evl_read_clock(EVL_CLOCK_MONOTONIC, &now);
  evl_init_timer(&timer, look);
  uint64_t date = (uint64_t)now.tv_sec * 1000000000u + (uint64_t)now.tv_nsec + period;
  evl_start_timer(&timer, (ktime_t)date, (ktime_t)period);
  return 0;
}

void watchdog_stop(void) { evl_stop_timer(&timer); }

#ifdef WITH_BUG
/* A load and a store: the other thread may come between. */
void watchdog_tell(unsigned thread) { well |= 1u << thread; }
#else
void watchdog_tell(unsigned thread) { __atomic_fetch_or(&well, 1u << thread, __ATOMIC_RELAXED); }
#endif
