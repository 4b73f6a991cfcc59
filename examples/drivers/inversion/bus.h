/* A bus that one thread uses at a time. */
#ifndef BUS_H
#define BUS_H
#include <stdint.h>

int bus_start(void);
/* Sends a byte, out-of-band; it waits while another thread sends. */
void bus_send(uint8_t byte);

/* The hardware: shifts a byte out, and returns when that is done. */
void bus_shift(uint8_t byte);
#endif
