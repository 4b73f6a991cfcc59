/* libevl's one header: all that this profile has of it. */
#ifndef EVLSIM_COMPAT_EVL_H
#define EVLSIM_COMPAT_EVL_H

#include <evl/clock.h>
#include <evl/flags.h>
#include <evl/mutex.h>
#include <evl/proxy.h>
#include <evl/sched.h>
#include <evl/sem.h>
#include <evl/thread.h>
#include <evl/timer.h>
#include <evl/xbuf.h>

#ifdef __cplusplus
extern "C" {
#endif

static inline int evl_init(void) { return 0; }

#ifdef __cplusplus
}
#endif
#endif
