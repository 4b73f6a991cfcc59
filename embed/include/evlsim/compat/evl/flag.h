/* The core's one-bit flag, as a driver in the kernel has it: a handler raises it, a thread waits for it. */
#ifndef EVLSIM_COMPAT_FLAG_H
#define EVLSIM_COMPAT_FLAG_H

#include <evl/flags.h>
#include <evl/timeout.h>

#ifdef __cplusplus
extern "C" {
#endif

struct evl_flag {
  struct evl_flags group;
};
static inline void evl_init_flag(struct evl_flag *flag) {
  (void)evl_create_flags(&flag->group, EVL_CLOCK_MONOTONIC, 0, EVL_CLONE_PRIVATE, "%s", "flag");
}
static inline void evl_destroy_flag(struct evl_flag *flag) { (void)evl_close_flags(&flag->group); }
static inline void evl_raise_flag(struct evl_flag *flag) { (void)evl_post_flags(&flag->group, 1); }
static inline int evl_wait_flag(struct evl_flag *flag) { return evl_wait_exact_flags(&flag->group, 1); }
static inline int evl_trywait_flag(struct evl_flag *flag) { return evl_trywait_exact_flags(&flag->group, 1); }
static inline int evl_wait_flag_timeout(struct evl_flag *flag, ktime_t timeout, enum evl_tmode mode) {
  if (timeout < 0) return evl_trywait_flag(flag);
  struct timespec date = evlsim_date_of(timeout, mode);
  return evl_timedwait_exact_flags(&flag->group, 1, &date);
}
/* Whether it is raised, which it then isn't any more. */
static inline bool evl_read_flag(struct evl_flag *flag) { return evl_trywait_flag(flag) == 0; }
static inline void evl_clear_flag(struct evl_flag *flag) { (void)evl_trywait_flag(flag); }
EVLSIM_NOT_HERE("evl_raise_flag: in a handler it lets nobody go on before that returns")
void evl_raise_flag_nosched(struct evl_flag *flag);
EVLSIM_NOT_HERE("the profile has no pulse: let each thread have a flag of its own, and raise them all")
void evl_pulse_flag(struct evl_flag *flag);
EVLSIM_NOT_HERE("the profile has no flush: let each thread have a flag of its own, and raise them all")
void evl_flush_flag(struct evl_flag *flag, int reason);

#ifdef __cplusplus
}
#endif
#endif
