/* The kernel's dates and spans, in nanoseconds. */
#ifndef EVLSIM_COMPAT_KTIME_H
#define EVLSIM_COMPAT_KTIME_H

#include <stdint.h>

typedef int64_t ktime_t;
#define NSEC_PER_USEC 1000L
#define NSEC_PER_MSEC 1000000L
#define NSEC_PER_SEC 1000000000L
#define ktime_add(one, other) ((ktime_t)((one) + (other)))
#define ktime_sub(one, other) ((ktime_t)((one) - (other)))
#define ktime_add_ns(date, nanoseconds) ((ktime_t)((date) + (ktime_t)(nanoseconds)))
#define ktime_add_us(date, microseconds) ((ktime_t)((date) + (ktime_t)(microseconds) * NSEC_PER_USEC))
#define ktime_add_ms(date, milliseconds) ((ktime_t)((date) + (ktime_t)(milliseconds) * NSEC_PER_MSEC))
#define ktime_to_ns(date) ((int64_t)(date))
#define ktime_to_us(date) ((int64_t)(date) / NSEC_PER_USEC)
#define ktime_to_ms(date) ((int64_t)(date) / NSEC_PER_MSEC)
#define ns_to_ktime(nanoseconds) ((ktime_t)(nanoseconds))
#define us_to_ktime(microseconds) ((ktime_t)(microseconds) * NSEC_PER_USEC)
#define ms_to_ktime(milliseconds) ((ktime_t)(milliseconds) * NSEC_PER_MSEC)
#define ktime_before(one, other) ((one) < (other))
#define ktime_after(one, other) ((one) > (other))
#endif
