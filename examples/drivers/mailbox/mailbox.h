/* A mailbox on a bus: a request goes out, and its answer comes by an interrupt, in time or not. */
#ifndef MAILBOX_H
#define MAILBOX_H
#include <stdint.h>

#define MAILBOX_IRQ 14
struct frame {
  uint32_t number; /* of the request, in the answer too */
  uint32_t data;
};

int mailbox_start(void);
/* Asks, and waits for the answer for so many nanoseconds: 0, or -ETIMEDOUT. Of one thread, out-of-band. */
int mailbox_ask(uint32_t data, uint64_t patience, uint32_t *answer);

/* The hardware. */
void bus_send(struct frame frame);
struct frame bus_receive(void);
#endif
