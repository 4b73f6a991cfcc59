/*
 * The core's stage exclusion lock, as a driver has it: held by any number of threads of one stage, never by threads of
 * both. A handler may only try.
 */
#ifndef EVLSIM_COMPAT_STAX_H
#define EVLSIM_COMPAT_STAX_H

#include <evl/profile.h>

struct evl_stax {
  unsigned magic;
  int number;
};

#ifdef __cplusplus
extern "C" {
#endif

void evl_init_stax(struct evl_stax *stax);
void evl_destroy_stax(struct evl_stax *stax);
int evl_lock_stax(struct evl_stax *stax);
int evl_trylock_stax(struct evl_stax *stax);
void evl_unlock_stax(struct evl_stax *stax);

#ifdef __cplusplus
}
#endif
#endif
