/*
 * The core's threads of a driver in the kernel. One is attached when it runs first, which is when its maker waits; a
 * stop ends no wait.
 */
#ifndef EVLSIM_COMPAT_KTHREAD_H
#define EVLSIM_COMPAT_KTHREAD_H

#include <evl/profile.h>

struct evl_kthread {
  int number;
  int priority;
  bool should_stop;
  void (*threadfn)(void *arg);
  void *arg;
};

#ifdef __cplusplus
extern "C" {
#endif

/* By SCHED_FIFO with this priority. -EINVAL: there is no such priority, or no function. */
EVLSIM_FORMAT(6)
int evl_run_kthread(struct evl_kthread *kthread, void (*threadfn)(void *arg), void *arg, int priority, int clone_flags,
                    const char *format, ...);
bool evl_kthread_should_stop(void);
/* Waits in-band until it has ended. Its wait goes on: let it wait by a .._timeout, and look whether it should stop. */
void evl_stop_kthread(struct evl_kthread *kthread);
EVLSIM_NOT_HERE("a wait ends by what is waited for, or by its date: let evl_kthread_should_stop() end its loop")
void evl_kick_thread(struct evl_kthread *kthread, int info);

#ifdef __cplusplus
}
#endif
#endif
