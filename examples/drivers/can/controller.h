/*
 * The hardware: a controller with two mailboxes for what is to be sent. On a board these are registers; in a test it is
 * test.c.
 */
#ifndef CONTROLLER_H
#define CONTROLLER_H
#include <stdint.h>

#define CAN_IRQ 7
#define CAN_BOXES 2
struct can_frame {
  uint16_t id;
  uint8_t data;
};

/* Puts a frame into a mailbox; from then on it may go out. */
void can_load(int box, const struct can_frame *frame);
/* Takes the frame out of a mailbox, if it hasn't gone out. */
void can_abort(int box);
/* A bit for each mailbox whose frame has gone out since this was last read; the interrupt comes with it. */
unsigned can_take_sent(void);
#endif
