/*
 * libevl's thread services. A thread that attaches itself is out-of-band from then on. A thread of the core that makes
 * an in-band call goes in-band first, and one that is in-band and waits for an element goes out-of-band first.
 */
#ifndef EVLSIM_COMPAT_THREAD_H
#define EVLSIM_COMPAT_THREAD_H

#include <evl/profile.h>
#include <evl/sched.h>

#ifdef __cplusplus
extern "C" {
#endif

EVLSIM_FORMAT(2) int evl_attach_thread(int flags, const char *format, ...);
#define evl_attach_self(...) evl_attach_thread(EVL_CLONE_PRIVATE, __VA_ARGS__)
int evl_detach_thread(int flags);
#define evl_detach_self() evl_detach_thread(0)
int evl_get_self(void);
int evl_switch_oob(void);
int evl_switch_inband(void);
bool evl_is_inband(void);
EVLSIM_NOT_HERE("a wait ends by what is waited for, or by its date")
int evl_unblock_thread(int efd);
EVLSIM_NOT_HERE("a thread's own evl_set_schedattr changes its policy")
int evl_demote_thread(int efd);
EVLSIM_NOT_HERE("the profile has no signals")
int evl_set_thread_mode(int efd, int mask, int *oldmask);
EVLSIM_NOT_HERE("the profile has no signals")
int evl_clear_thread_mode(int efd, int mask, int *oldmask);

#ifdef __cplusplus
}
#endif
#endif
