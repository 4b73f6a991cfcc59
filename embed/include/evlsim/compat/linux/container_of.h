/* The struct that a member is of. */
#ifndef EVLSIM_COMPAT_CONTAINER_OF_H
#define EVLSIM_COMPAT_CONTAINER_OF_H
#include <stddef.h>
#define container_of(member_at, type, member) ((type *)(void *)((char *)(void *)(member_at) - offsetof(type, member)))
#endif
