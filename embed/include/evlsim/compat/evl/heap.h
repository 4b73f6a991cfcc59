/* Not in this profile. */
#error "<evl/heap.h>: the profile has no heaps: use malloc in-band or a static pool (docs/use/DRIVER_CALLS.md)"
