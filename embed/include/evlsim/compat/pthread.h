/*
 * <pthread.h> of the system, with threads led to the runner: each is a coroutine of the run. pthread_mutex_t works
 * between in-band threads. What waits in another way isn't there.
 */
#pragma GCC system_header
#ifndef EVLSIM_COMPAT_PTHREAD_H
#define EVLSIM_COMPAT_PTHREAD_H
#ifndef EVLSIM_RUNNER
#pragma redefine_extname pthread_create evlsim_pthread_create
#pragma redefine_extname pthread_join evlsim_pthread_join
#pragma redefine_extname pthread_detach evlsim_pthread_detach
#pragma redefine_extname pthread_exit evlsim_pthread_exit
#pragma redefine_extname pthread_self evlsim_pthread_self
#pragma redefine_extname pthread_setschedparam evlsim_pthread_setschedparam
#pragma redefine_extname pthread_setname_np evlsim_pthread_setname_np
#pragma redefine_extname pthread_mutex_lock evlsim_pthread_mutex_lock
#pragma redefine_extname pthread_mutex_timedlock evlsim_pthread_mutex_timedlock
#pragma redefine_extname pthread_mutex_trylock evlsim_pthread_mutex_trylock
#pragma redefine_extname pthread_mutex_unlock evlsim_pthread_mutex_unlock
#ifdef __cplusplus
/* The C++ library's own headers name these: there a call of one fails the run. */
#pragma redefine_extname pthread_cond_wait evlsim_pthread_cond_wait
#pragma redefine_extname pthread_cond_timedwait evlsim_pthread_cond_timedwait
#pragma redefine_extname pthread_mutex_clocklock evlsim_pthread_mutex_clocklock
#pragma redefine_extname pthread_cancel evlsim_pthread_cancel
#endif
#endif
#include_next <pthread.h>
#if !defined(EVLSIM_RUNNER) && !defined(__cplusplus)
#include <evl/profile.h>
#define EVLSIM_WHY_CONDITION "the runner has no condition variables: use a semaphore or a flag group"
EVLSIM_NOT_HERE(EVLSIM_WHY_CONDITION)
int pthread_cond_wait(pthread_cond_t *__restrict condition, pthread_mutex_t *__restrict mutex);
EVLSIM_NOT_HERE(EVLSIM_WHY_CONDITION)
int pthread_cond_timedwait(pthread_cond_t *__restrict condition, pthread_mutex_t *__restrict mutex,
                           const struct timespec *__restrict date);
EVLSIM_NOT_HERE("the runner has no clocks to choose from: use pthread_mutex_timedlock")
int pthread_mutex_clocklock(pthread_mutex_t *__restrict mutex, clockid_t clock, const struct timespec *__restrict date);
EVLSIM_NOT_HERE("the runner has no cancellation: let the thread look at a flag")
int pthread_cancel(pthread_t thread);
#endif
#endif
