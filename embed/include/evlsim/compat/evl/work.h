/* In-band work: what an out-of-band thread or handler hands on to the in-band stage, which does it when it runs. */
#ifndef EVLSIM_COMPAT_WORK_H
#define EVLSIM_COMPAT_WORK_H

#include <evl/profile.h>

struct evl_work {
  int (*handler)(struct evl_work *work);
  bool is_pending;
  struct evl_work *next;
};

#ifdef __cplusplus
extern "C" {
#endif

void evl_init_work(struct evl_work *work, int (*handler)(struct evl_work *work));
/* False where the work is pending already. */
bool evl_call_inband(struct evl_work *work);

#ifdef __cplusplus
}
#endif
#endif
