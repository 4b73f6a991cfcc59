/*
 * <unistd.h> of the system, with what waits or reads led to the runner: read and write of a cross-buffer, close of an
 * element, sleeps, which take simulated time, and the process's number, which is the same in each run. Any other file
 * descriptor goes on to the system.
 */
#pragma GCC system_header
#ifndef EVLSIM_COMPAT_UNISTD_H
#define EVLSIM_COMPAT_UNISTD_H
#ifndef EVLSIM_RUNNER
#pragma redefine_extname read evlsim_read
#pragma redefine_extname write evlsim_write
#pragma redefine_extname close evlsim_close_fd
#pragma redefine_extname usleep evlsim_usleep
#pragma redefine_extname sleep evlsim_sleep
#pragma redefine_extname getpid evlsim_getpid
/* The system's checked forms of these calls would go past the runner. */
#include <features.h>
#pragma push_macro("__USE_FORTIFY_LEVEL")
#undef __USE_FORTIFY_LEVEL
#define __USE_FORTIFY_LEVEL 0
#include_next <unistd.h>
#pragma pop_macro("__USE_FORTIFY_LEVEL")
#else
#include_next <unistd.h>
#endif
#endif
