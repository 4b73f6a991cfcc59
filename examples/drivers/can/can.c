/*
 * A CAN driver. A sender takes a free mailbox, loads its frame, and waits until the handler posts the mailbox's flag,
 * or until its time is over: then the frame is taken back, and tried again.
 */
#include "can.h"

#include <errno.h>
#include <evl/evl.h>
#include <linux/interrupt.h>
#include <time.h>

static struct evl_flags sent;     /* a bit for each mailbox */
static struct evl_sem free_boxes; /* how many there are */
static struct evl_mutex lock;     /* of `taken` */
static unsigned taken;            /* a bit for each mailbox */

static irqreturn_t on_sent(int irq, void *device) {
  (void)irq, (void)device;
  unsigned boxes = can_take_sent();
  if (boxes == 0) return IRQ_NONE;
  (void)evl_post_flags(&sent, (int)boxes);
  return IRQ_HANDLED;
}

static void time_from_now(struct timespec *date, long microseconds) {
  evl_read_clock(EVL_CLOCK_MONOTONIC, date);
  date->tv_nsec += microseconds * 1000;
  date->tv_sec += date->tv_nsec / 1000000000;
  date->tv_nsec %= 1000000000;
}

static int take_box(void) {
  int box = 0;
  int error = evl_get_sem(&free_boxes);
  if (error == 0) error = evl_lock_mutex(&lock);
  if (error < 0) return error;
  while (taken & 1u << box) box++;
  taken |= 1u << box;
  evl_unlock_mutex(&lock);
  return box;
}

static void give_box(int box) {
  (void)evl_lock_mutex(&lock);
  taken &= ~(1u << box);
  (void)evl_unlock_mutex(&lock);
  (void)evl_put_sem(&free_boxes);
}

/* Whether the flag of a mailbox was posted; it isn't any more. */
static int take_flag(int box) {
  int bits;
  return evl_trywait_some_flags(&sent, 1 << box, &bits) == 0;
}

static int try_once(int box, const struct can_frame *frame) {
  int bits;
  struct timespec date;
#ifdef WITH_BUG
  (void)take_flag(box); /* what came too late for the last one isn't for this one */
#endif
  can_load(box, frame);
  time_from_now(&date, CAN_TRY_US);
  int error = evl_timedwait_some_flags(&sent, 1 << box, &date, &bits);
  if (error != -ETIMEDOUT) return error;
  can_abort(box);
#ifndef WITH_BUG
  if (take_flag(box)) return 0; /* it went out before it could be taken back */
#endif
  return error;
}

int can_send(const struct can_frame *frame) {
  int box = take_box();
  if (box < 0) return box;
  int error = try_once(box, frame);
  for (int tries = 1; error == -ETIMEDOUT && tries < CAN_TRIES; tries++) error = try_once(box, frame);
  give_box(box);
  return error;
}

int can_start(void) {
  int error = evl_new_flags(&sent, "sent");
  if (error >= 0) error = evl_create_sem(&free_boxes, EVL_CLOCK_MONOTONIC, CAN_BOXES, EVL_CLONE_PRIVATE, "boxes");
  if (error >= 0) error = evl_new_mutex(&lock, "boxes");
  if (error >= 0) error = request_irq(CAN_IRQ, on_sent, IRQF_OOB, "can", NULL);
  return error < 0 ? error : 0;
}
