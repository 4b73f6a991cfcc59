/* A watchdog over two threads: each tells in each period that it is well, else it bites. */
#ifndef WATCHDOG_H
#define WATCHDOG_H
#include <stdint.h>

int watchdog_start(uint64_t period);
void watchdog_stop(void);
/* Thread 0 or 1 is well. */
void watchdog_tell(unsigned thread);

/* The hardware: resets the board. */
void watchdog_bite(void);
#endif
