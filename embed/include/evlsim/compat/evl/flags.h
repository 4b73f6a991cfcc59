/* libevl's event flag groups. */
#ifndef EVLSIM_COMPAT_FLAGS_H
#define EVLSIM_COMPAT_FLAGS_H

#include <evl/clock.h>
#include <evl/profile.h>

struct evl_flags {
  unsigned magic;
  int number;
  const char *name;
  int clockfd;
  int initval;
  int flags;
};
#define EVL_FLAGS_INITIALIZER(name, clockfd, initval, flags) {EVLSIM_UNMADE, 0, name, clockfd, initval, flags}

#ifdef __cplusplus
extern "C" {
#endif

EVLSIM_FORMAT(5)
int evl_create_flags(struct evl_flags *group, int clockfd, int initval, int flags, const char *format, ...);
#define evl_new_flags(group, ...) evl_create_flags(group, EVL_CLOCK_MONOTONIC, 0, EVL_CLONE_PRIVATE, __VA_ARGS__)
int evl_close_flags(struct evl_flags *group);
int evl_wait_some_flags(struct evl_flags *group, int bits, int *taken);
int evl_timedwait_some_flags(struct evl_flags *group, int bits, const struct timespec *date, int *taken);
int evl_trywait_some_flags(struct evl_flags *group, int bits, int *taken);
int evl_wait_exact_flags(struct evl_flags *group, int bits);
int evl_timedwait_exact_flags(struct evl_flags *group, int bits, const struct timespec *date);
int evl_trywait_exact_flags(struct evl_flags *group, int bits);
int evl_wait_flags(struct evl_flags *group, int *taken);
int evl_timedwait_flags(struct evl_flags *group, const struct timespec *date, int *taken);
int evl_trywait_flags(struct evl_flags *group, int *taken);
int evl_post_flags(struct evl_flags *group, int bits);
int evl_peek_flags(struct evl_flags *group, int *bits);
EVLSIM_NOT_HERE("the profile has no broadcast: each waiter takes what it wants from what those before it left")
int evl_broadcast_flags(struct evl_flags *group, int bits);
EVLSIM_NOT_HERE("an element isn't found by its name: hand the struct on")
EVLSIM_FORMAT(2) int evl_open_flags(struct evl_flags *group, const char *format, ...);

#ifdef __cplusplus
}
#endif
#endif
