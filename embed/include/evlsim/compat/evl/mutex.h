/* libevl's mutexes: normal, recursive, and with a ceiling; priority is inherited. And those of the core for drivers. */
#ifndef EVLSIM_COMPAT_MUTEX_H
#define EVLSIM_COMPAT_MUTEX_H

#include <evl/clock.h>
#include <evl/profile.h>
#include <evl/timeout.h>

#define EVL_MUTEX_NORMAL (0 << 0)
#define EVL_MUTEX_RECURSIVE (1 << 0)

struct evl_mutex {
  unsigned magic;
  int number;
  const char *name;
  int clockfd;
  unsigned ceiling;
  int flags;
};
#define EVL_MUTEX_INITIALIZER(name, clockfd, ceiling, flags) {EVLSIM_UNMADE, 0, name, clockfd, ceiling, flags}

#ifdef __cplusplus
extern "C" {
#endif

EVLSIM_FORMAT(5)
int evl_create_mutex(struct evl_mutex *mutex, int clockfd, unsigned ceiling, int flags, const char *format, ...);
#define evl_new_mutex(mutex, ...)                                                                  \
  evl_create_mutex(mutex, EVL_CLOCK_MONOTONIC, 0, EVL_MUTEX_NORMAL | EVL_CLONE_PRIVATE, __VA_ARGS__)
int evl_close_mutex(struct evl_mutex *mutex);
int evl_lock_mutex(struct evl_mutex *mutex);
int evl_timedlock_mutex(struct evl_mutex *mutex, const struct timespec *date);
int evl_trylock_mutex(struct evl_mutex *mutex);
int evl_unlock_mutex(struct evl_mutex *mutex);
int evl_get_mutex_ceiling(struct evl_mutex *mutex);
EVLSIM_NOT_HERE("a ceiling is given when the mutex is made")
int evl_set_mutex_ceiling(struct evl_mutex *mutex, unsigned ceiling);
EVLSIM_NOT_HERE("an element isn't found by its name: hand the struct on")
EVLSIM_FORMAT(2) int evl_open_mutex(struct evl_mutex *mutex, const char *format, ...);

/* The core's mutex, as a driver in the kernel has it. */
struct evl_kmutex {
  struct evl_mutex mutex;
};
static inline void evl_init_kmutex(struct evl_kmutex *kmutex) {
  (void)evl_create_mutex(&kmutex->mutex, EVL_CLOCK_MONOTONIC, 0, EVL_MUTEX_NORMAL, "%s", "kmutex");
}
static inline void evl_destroy_kmutex(struct evl_kmutex *kmutex) { (void)evl_close_mutex(&kmutex->mutex); }
static inline int evl_lock_kmutex(struct evl_kmutex *kmutex) { return evl_lock_mutex(&kmutex->mutex); }
static inline int evl_trylock_kmutex(struct evl_kmutex *kmutex) { return evl_trylock_mutex(&kmutex->mutex); }
static inline int evl_lock_kmutex_timeout(struct evl_kmutex *kmutex, ktime_t timeout, enum evl_tmode mode) {
  if (timeout < 0) return evl_trylock_kmutex(kmutex);
  struct timespec date = evlsim_date_of(timeout, mode);
  return evl_timedlock_mutex(&kmutex->mutex, &date);
}
static inline void evl_unlock_kmutex(struct evl_kmutex *kmutex) { (void)evl_unlock_mutex(&kmutex->mutex); }

#ifdef __cplusplus
}
#endif
#endif
