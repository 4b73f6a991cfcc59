/* What the library says of itself; tools/library names its version and whether it is proved. */
#include <evlsim.h>

const char *evlsim_version(void) { return EVLSIM_IDENTITY; }

bool evlsim_is_proved(void) { return EVLSIM_PROVED; }

uint32_t evlsim_abi(void) { return EVLSIM_ABI; }
