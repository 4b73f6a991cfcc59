/*
 * libevl's timers, which are read by oob_read as 64 bits, and those of the core for drivers, whose handler is called.
 * Dates are absolute, and an interval of 0 fires once.
 */
#ifndef EVLSIM_COMPAT_TIMER_H
#define EVLSIM_COMPAT_TIMER_H

#include <evl/clock.h>
#include <evl/profile.h>
#include <evl/timeout.h>
#include <evl/xbuf.h>

/* A timer of the core: its handler runs out-of-band when the timer fires. */
struct evl_timer {
  int efd;
  void (*handler)(struct evl_timer *timer);
};
struct itimerspec;

#ifdef __cplusplus
extern "C" {
#endif

int evl_new_timer(int clockfd);
int evl_set_timer(int efd, const struct itimerspec *value, struct itimerspec *before);
int evl_get_timer(int efd, struct itimerspec *value);

void evl_init_timer(struct evl_timer *timer, void (*handler)(struct evl_timer *timer));
void evl_start_timer(struct evl_timer *timer, ktime_t date, ktime_t interval);
void evl_stop_timer(struct evl_timer *timer);
void evl_destroy_timer(struct evl_timer *timer);
uint64_t evl_get_timer_overruns(struct evl_timer *timer);

#ifdef __cplusplus
}
#endif
#endif
