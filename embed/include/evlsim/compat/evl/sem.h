/* libevl's semaphores, and those of the core for drivers (evl_up and evl_down). */
#ifndef EVLSIM_COMPAT_SEM_H
#define EVLSIM_COMPAT_SEM_H

#include <evl/clock.h>
#include <evl/profile.h>
#include <evl/timeout.h>

struct evl_sem {
  unsigned magic;
  int number;
  const char *name;
  int clockfd;
  int initval;
  int flags;
};
#define EVL_SEM_INITIALIZER(name, clockfd, initval, flags) {EVLSIM_UNMADE, 0, name, clockfd, initval, flags}

#ifdef __cplusplus
extern "C" {
#endif

EVLSIM_FORMAT(5) int evl_create_sem(struct evl_sem *sem, int clockfd, int initval, int flags, const char *format, ...);
#define evl_new_sem(sem, ...) evl_create_sem(sem, EVL_CLOCK_MONOTONIC, 0, EVL_CLONE_PRIVATE, __VA_ARGS__)
int evl_close_sem(struct evl_sem *sem);
int evl_get_sem(struct evl_sem *sem);
int evl_timedget_sem(struct evl_sem *sem, const struct timespec *date);
int evl_tryget_sem(struct evl_sem *sem);
int evl_put_sem(struct evl_sem *sem);
int evl_peek_sem(struct evl_sem *sem, int *value);
EVLSIM_NOT_HERE("an element isn't found by its name: hand the struct on")
EVLSIM_FORMAT(2) int evl_open_sem(struct evl_sem *sem, const char *format, ...);
EVLSIM_NOT_HERE("the profile has no flush: put the semaphore once for each waiter")
int evl_flush_sem(struct evl_sem *sem);

/* The core's semaphore, as a driver in the kernel has it. A date of 0 is none. */
struct evl_ksem {
  struct evl_sem sem;
};
static inline void evl_init_ksem(struct evl_ksem *ksem, int value) {
  (void)evl_create_sem(&ksem->sem, EVL_CLOCK_MONOTONIC, value, EVL_CLONE_PRIVATE, "%s", "ksem");
}
static inline void evl_destroy_ksem(struct evl_ksem *ksem) { (void)evl_close_sem(&ksem->sem); }
static inline int evl_down(struct evl_ksem *ksem) { return evl_get_sem(&ksem->sem); }
static inline int evl_trydown(struct evl_ksem *ksem) { return evl_tryget_sem(&ksem->sem); }
static inline int evl_down_timeout(struct evl_ksem *ksem, ktime_t timeout) {
  if (timeout < 0) return evl_trydown(ksem);
  struct timespec date = evlsim_date_of(timeout, EVL_REL);
  return evl_timedget_sem(&ksem->sem, &date);
}
EVLSIM_NOT_HERE("the profile has no broadcast: call evl_up once for each waiter")
int evl_broadcast(struct evl_ksem *ksem);
static inline void evl_up(struct evl_ksem *ksem) { (void)evl_put_sem(&ksem->sem); }

#ifdef __cplusplus
}
#endif
#endif
