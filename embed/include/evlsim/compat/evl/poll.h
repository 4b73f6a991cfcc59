/* Not in this profile. */
#error "<evl/poll.h>: the profile has no polling: let one thread wait for one element (docs/use/DRIVER_CALLS.md)"
