/* The kernel's bits. */
#ifndef EVLSIM_COMPAT_BITS_H
#define EVLSIM_COMPAT_BITS_H
#define BIT(number) (1ul << (number))
#define GENMASK(high, low) ((~0ul << (low)) & (~0ul >> (63 - (high))))
#endif
