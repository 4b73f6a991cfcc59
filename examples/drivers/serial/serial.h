/* A serial driver: what the receiver gets is read from a cross-buffer. */
#ifndef SERIAL_H
#define SERIAL_H

/* Starts the driver, and returns the file descriptor from which its bytes are read, or an error below 0. */
int serial_start(void);
/* How many bytes have come. */
unsigned serial_count(void);
#endif
