/*
 * <stdlib.h> of the system, with malloc and its like led to the runner, which fails a run that calls them out-of-band by
 * limits.stays_oob.
 */
#pragma GCC system_header
#ifndef EVLSIM_COMPAT_STDLIB_H
#define EVLSIM_COMPAT_STDLIB_H
#ifndef EVLSIM_RUNNER
#pragma redefine_extname malloc evlsim_malloc
#pragma redefine_extname calloc evlsim_calloc
#pragma redefine_extname realloc evlsim_realloc
#pragma redefine_extname free evlsim_free
#endif
#endif
#include_next <stdlib.h>
