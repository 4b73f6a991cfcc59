/* libevl's scheduling attributes: SCHED_FIFO, SCHED_RR, SCHED_QUOTA and SCHED_WEAK. */
#ifndef EVLSIM_COMPAT_SCHED_H
#define EVLSIM_COMPAT_SCHED_H

#include <evl/profile.h>
#include <sched.h>
#include <time.h>

#define SCHED_QUOTA 44
#define SCHED_WEAK 43

struct evl_sched_attrs {
  int sched_policy;
  int sched_priority;
  union {
    struct {
      struct timespec quantum;
    } rr;
    struct {
      int group;
    } quota;
  } sched_u;
};
#define sched_rr_quantum sched_u.rr.quantum
#define sched_quota_group sched_u.quota.group

#ifdef __cplusplus
extern "C" {
#endif

int evl_set_schedattr(int efd, const struct evl_sched_attrs *attrs);
int evl_get_schedattr(int efd, struct evl_sched_attrs *attrs);
int evl_yield(void);
EVLSIM_NOT_HERE("a simulated machine has one processor")
int evl_get_cpustate(int cpu, int *state);
EVLSIM_NOT_HERE("quota groups are those of the bench's board (evlsim_quota_group); SCHED_TP isn't there")
int evl_control_sched(int policy, const void *param, void *info, int cpu);

#ifdef __cplusplus
}
#endif
#endif
