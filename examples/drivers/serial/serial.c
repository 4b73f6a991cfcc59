/* A serial driver: its handler wakes a thread, which takes the bytes from the hardware and hands them on in-band. */
#include "serial.h"

#include <evl/evl.h>
#include <linux/interrupt.h>
#include <linux/irqstage.h>
#include <pthread.h>

#include "uart.h"

static struct evl_sem received;
static int buffer;
static unsigned count;

static irqreturn_t on_interrupt(int irq, void *device) {
  (void)irq, (void)device;
  (void)evl_put_sem(&received);
  return IRQ_HANDLED;
}

/* Takes a byte: neither the hardware nor the count may change meanwhile. */
static uint8_t take_byte(void) {
  unsigned long before = hard_local_irq_save();
  uint8_t byte = uart_take_data();
  count++;
  hard_local_irq_restore(before);
  return byte;
}

static void hand_on(void) {
  uint8_t byte = take_byte();
  (void)oob_write(buffer, &byte, 1);
}

static void *receive(void *nothing) {
  if (evl_attach_self("receiver") < 0) return nothing;
  while (evl_get_sem(&received) == 0) {
#ifdef WITH_BUG
    if (uart_has_data()) hand_on(); /* a byte for each interrupt */
#else
    while (uart_has_data()) hand_on();
#endif
  }
  return nothing;
}

static int start_thread(void) {
  pthread_t thread;
  pthread_attr_t attr;
  struct sched_param param = {.sched_priority = 80};
  pthread_attr_init(&attr);
  pthread_attr_setinheritsched(&attr, PTHREAD_EXPLICIT_SCHED);
  pthread_attr_setschedpolicy(&attr, SCHED_FIFO);
  pthread_attr_setschedparam(&attr, &param);
  int error = pthread_create(&thread, &attr, receive, NULL);
  pthread_attr_destroy(&attr);
  return -error;
}

int serial_start(void) {
  int error = evl_new_sem(&received, "received");
  buffer = evl_new_xbuf(16, "serial");
  if (error < 0 || buffer < 0) return -1;
  error = request_irq(UART_IRQ, on_interrupt, IRQF_OOB, "serial", NULL);
  if (error == 0) error = start_thread();
  return error == 0 ? buffer : error;
}

unsigned serial_count(void) { return count; }
