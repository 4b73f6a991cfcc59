/* <time.h> of the system, with clock_gettime and the sleeps led to the runner, which has the simulated date. */
#pragma GCC system_header
#ifndef EVLSIM_RUNNER
#ifndef EVLSIM_COMPAT_TIME_H
#define EVLSIM_COMPAT_TIME_H
#pragma redefine_extname clock_gettime evlsim_clock_gettime
#pragma redefine_extname nanosleep evlsim_nanosleep
#pragma redefine_extname clock_nanosleep evlsim_clock_nanosleep
#endif
#endif
#include_next <time.h>
