/* Not in this profile. */
#error "<evl/event.h>: the profile has no events (condition variables): use a flag group (docs/use/DRIVER_CALLS.md)"
