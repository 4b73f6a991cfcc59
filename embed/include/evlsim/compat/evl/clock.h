/*
 * libevl's clock services over the simulated date, which moves to the next due one when all threads wait. It begins at
 * 1.999999999 s, or at evlsim_limits.starts.
 */
#ifndef EVLSIM_COMPAT_CLOCK_H
#define EVLSIM_COMPAT_CLOCK_H

#include <evl/profile.h>
#include <sched.h>
#include <time.h>

/* Minus the system's numbers, which a strict standard of C hides. */
#define EVL_CLOCK_MONOTONIC (-1)
#define EVL_CLOCK_REALTIME (0)

#ifdef __cplusplus
extern "C" {
#endif

int evl_read_clock(int clockfd, struct timespec *date);
int evl_get_clock_resolution(int clockfd, struct timespec *resolution);
int evl_sleep_until(int clockfd, const struct timespec *date);
int evl_usleep(unsigned microseconds);
EVLSIM_NOT_HERE("the simulated date isn't set: it begins at limits.starts and moves on")
int evl_set_clock(int clockfd, const struct timespec *date);

#ifdef __cplusplus
}
#endif
#endif
