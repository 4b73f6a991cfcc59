/* Not in this profile. */
#error "<evl/monitor.h>: the profile has no monitors: use a mutex and a flag group (docs/use/DRIVER_CALLS.md)"
