/*
 * <stdio.h> of the system, with what prints and reads led to the runner, which fails a run that calls it out-of-band by
 * limits.stays_oob.
 */
#pragma GCC system_header
#ifndef EVLSIM_COMPAT_STDIO_H
#define EVLSIM_COMPAT_STDIO_H
#ifndef EVLSIM_RUNNER
#pragma redefine_extname printf evlsim_printf
#pragma redefine_extname vprintf evlsim_vprintf
#pragma redefine_extname fprintf evlsim_fprintf
#pragma redefine_extname vfprintf evlsim_vfprintf
#pragma redefine_extname puts evlsim_puts
#pragma redefine_extname putchar evlsim_putchar
#pragma redefine_extname putc evlsim_putc
#pragma redefine_extname fputc evlsim_fputc
#pragma redefine_extname fputs evlsim_fputs
#pragma redefine_extname fflush evlsim_fflush
#pragma redefine_extname fopen evlsim_fopen
#pragma redefine_extname fclose evlsim_fclose
#pragma redefine_extname fgets evlsim_fgets
#pragma redefine_extname fread evlsim_fread
#pragma redefine_extname fwrite evlsim_fwrite
/* The system's checked forms of these calls would go past the runner. */
#include <features.h>
#pragma push_macro("__USE_FORTIFY_LEVEL")
#undef __USE_FORTIFY_LEVEL
#define __USE_FORTIFY_LEVEL 0
#include_next <stdio.h>
#pragma pop_macro("__USE_FORTIFY_LEVEL")
#if defined(__GNUC__) && !defined(__clang__) && !defined(__cplusplus)
/* gcc makes puts of a printf and fwrite of an fprintf or fputs, by the system's names. */
__attribute__((format(printf, 1, 2))) int evlsim_printf(const char *format, ...);
__attribute__((format(printf, 2, 3))) int evlsim_fprintf(FILE *file, const char *format, ...);
int evlsim_fputs(const char *text, FILE *file);
#define printf(...) evlsim_printf(__VA_ARGS__)
#define fprintf(...) evlsim_fprintf(__VA_ARGS__)
#define fputs(...) evlsim_fputs(__VA_ARGS__)
#endif
#else
#include_next <stdio.h>
#endif
#else
#include_next <stdio.h>
#endif
