/* How long the core's waits take, as a driver in the kernel has it: 0 for good, below 0 not at all. */
#ifndef EVLSIM_COMPAT_TIMEOUT_H
#define EVLSIM_COMPAT_TIMEOUT_H

#include <evl/profile.h>
#include <linux/ktime.h>
#include <time.h>

enum evl_tmode { EVL_REL, EVL_ABS };
#define EVL_INFINITE 0
#define EVL_NONBLOCK INT64_MIN

#ifdef __cplusplus
extern "C" {
#endif

ktime_t evl_ktime_monotonic(void);

/* The date of a timeout, which is none for EVL_INFINITE. */
static inline struct timespec evlsim_date_of(ktime_t timeout, enum evl_tmode mode) {
  ktime_t date = timeout == EVL_INFINITE || mode == EVL_ABS ? timeout : evl_ktime_monotonic() + timeout;
  struct timespec it;
  it.tv_sec = date / 1000000000;
  it.tv_nsec = date % 1000000000;
  return it;
}

#ifdef __cplusplus
}
#endif
#endif
