/* Not in this profile. */
#error "<evl/wait.h>: the profile has no wait queues: use an evl_flag or an evl_ksem (docs/use/DRIVER_CALLS.md)"
