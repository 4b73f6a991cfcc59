/* libevl's proxy: only its print, which a run writes to its standard output at once. */
#ifndef EVLSIM_COMPAT_PROXY_H
#define EVLSIM_COMPAT_PROXY_H

#include <evl/profile.h>

#ifdef __cplusplus
extern "C" {
#endif

EVLSIM_FORMAT(1) int evl_printf(const char *format, ...);
EVLSIM_NOT_HERE("the profile has no proxies: use a cross-buffer")
EVLSIM_FORMAT(5) int evl_create_proxy(int target, size_t size, size_t granularity, int flags, const char *format, ...);

#ifdef __cplusplus
}
#endif
#endif
