/* A CAN driver: threads out-of-band send frames by the controller's two mailboxes, each within a time, with retries. */
#ifndef CAN_H
#define CAN_H
#include "controller.h"

#define CAN_TRIES 2
#define CAN_TRY_US 500

int can_start(void);
/* Sends a frame: 0 when it went out, once; -ETIMEDOUT when it didn't, and never will. */
int can_send(const struct can_frame *frame);
#endif
