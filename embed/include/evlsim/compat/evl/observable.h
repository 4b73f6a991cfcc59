/* Not in this profile. */
#error "<evl/observable.h>: the profile has no observables: use a flag group (docs/use/DRIVER_CALLS.md)"
