/* An oscilloscope's front end: samples are kept in a ring, and where the reader is too slow the oldest ones are lost. */
#ifndef SCOPE_H
#define SCOPE_H
#include <stdint.h>

#define SCOPE_RING 4u /* a power of two */
#define SCOPE_BUFFER 2u /* in samples */

struct scope_sample {
  uint16_t left, right;
};

/* Starts the driver, and returns the file descriptor from which its samples are read, or an error below 0. */
int scope_start(void);
/* How many samples nobody has got, because newer ones took their places. */
unsigned scope_lost(void);
#endif
