/*
 * <string.h> of the system, with memcpy, memmove and memset led to the runner: what they read and write is seen by
 * an exploration, as are the loads and stores of a source that is compiled with -fsanitize=thread.
 */
#pragma GCC system_header
#ifndef EVLSIM_COMPAT_STRING_H
#define EVLSIM_COMPAT_STRING_H
#if defined(__SANITIZE_THREAD__)
#define EVLSIM_SEES_COPIES
#elif defined(__has_feature)
#if __has_feature(thread_sanitizer)
#define EVLSIM_SEES_COPIES
#endif
#endif
#if !defined(EVLSIM_RUNNER) && defined(EVLSIM_SEES_COPIES)
/* The system's checked forms of these would go past the runner. */
#include <features.h>
#pragma push_macro("__USE_FORTIFY_LEVEL")
#undef __USE_FORTIFY_LEVEL
#define __USE_FORTIFY_LEVEL 0
#include_next <string.h>
#pragma pop_macro("__USE_FORTIFY_LEVEL")
__BEGIN_DECLS
extern void *__REDIRECT_NTH(memcpy, (void *__restrict to, const void *__restrict from, size_t size), evlsim_memcpy);
extern void *__REDIRECT_NTH(memmove, (void *to, const void *from, size_t size), evlsim_memmove);
extern void *__REDIRECT_NTH(memset, (void *to, int byte, size_t size), evlsim_memset);
__END_DECLS
#else
#include_next <string.h>
#endif
#else
#include_next <string.h>
#endif
