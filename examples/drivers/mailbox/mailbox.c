/* A mailbox on a bus: its handler keeps the answer and wakes who asked. */
#include "mailbox.h"

#include <evl/evl.h>
#include <linux/interrupt.h>

static struct evl_sem answered;
static struct frame received;
static uint32_t number;

#ifdef WITH_BUG
/* Each answer is taken for that of the last request. */
static bool is_expected(struct frame frame) {
  (void)frame;
  return true;
}
static void forget_answers(void) {}
#else
/* An answer that comes too late is that of a request before. */
static bool is_expected(struct frame frame) { return frame.number == number; }
static void forget_answers(void) {
  while (evl_tryget_sem(&answered) == 0) {
  }
}
#endif

static irqreturn_t on_frame(int irq, void *device) {
  (void)irq, (void)device;
  struct frame frame = bus_receive();
  if (!is_expected(frame)) return IRQ_NONE;
  received = frame;
  evl_put_sem(&answered);
  return IRQ_HANDLED;
}

int mailbox_start(void) {
  int error = evl_new_sem(&answered, "answered");
  return error < 0 ? error : request_irq(MAILBOX_IRQ, on_frame, IRQF_OOB, "mailbox", NULL);
}

int mailbox_ask(uint32_t data, uint64_t patience, uint32_t *answer) {
  struct timespec date;
  number++;
  forget_answers();
  struct frame request = {number, data};
  evl_read_clock(EVL_CLOCK_MONOTONIC, &date);
  uint64_t until = (uint64_t)date.tv_sec * 1000000000u + (uint64_t)date.tv_nsec + patience;
  date.tv_sec = (time_t)(until / 1000000000u);
  date.tv_nsec = (long)(until % 1000000000u);
  bus_send(request);
  int error = evl_timedget_sem(&answered, &date);
  if (error == 0) *answer = received.data;
  return error;
}
