/* Not in this profile. */
#error "<evl/rwlock.h>: the profile has no read-write locks: use a mutex (docs/use/DRIVER_CALLS.md)"
