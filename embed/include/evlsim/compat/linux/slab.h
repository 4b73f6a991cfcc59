/* Not in this profile. */
#error "<linux/slab.h>: the profile has no kmalloc: use malloc of <stdlib.h> in-band, or a static pool (docs/use/DRIVER_CALLS.md)"
