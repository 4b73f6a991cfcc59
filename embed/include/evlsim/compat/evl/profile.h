/*
 * Part of the headers with libevl's names: what each of them needs, and how a name says that this profile hasn't it.
 */
#ifndef EVLSIM_COMPAT_PROFILE_H
#define EVLSIM_COMPAT_PROFILE_H

#include <stdbool.h>
#include <stddef.h>
#include <stdint.h>
#include <sys/types.h>

#ifndef __has_attribute
#define __has_attribute(name) 0
#endif

/* A use of what this profile hasn't doesn't compile, and says why. */
#if __has_attribute(unavailable)
#define EVLSIM_NOT_HERE(why) __attribute__((unavailable(why)))
#elif __has_attribute(error)
#define EVLSIM_NOT_HERE(why) __attribute__((error(why)))
#else
#define EVLSIM_NOT_HERE(why) __attribute__((deprecated(why)))
#endif

#define EVLSIM_FORMAT(place) __attribute__((format(printf, place, place + 1)))

/* How an element is made. Elements are of one process here, so that all of them are private ones. */
#define EVL_CLONE_PRIVATE (0 << 16)
#define EVL_CLONE_PUBLIC (1 << 16)
#define EVL_CLONE_NONBLOCK (1 << 18)

/* What an element is before it is made, and while it is there. */
#define EVLSIM_UNMADE 0x65766c00u
#define EVLSIM_MADE 0x65766c01u

#endif
