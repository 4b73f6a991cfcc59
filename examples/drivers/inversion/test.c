/*
 * Three threads: the least sends a byte, the one between computes for long, the greatest sends a byte too. However
 * their interrupts come, the greatest has to have sent its byte after the time that two bytes take.
 */
#include <evl/evl.h>
#include <evlsim/runner.h>
#include <linux/interrupt.h>
#include <pthread.h>
#include <stdint.h>

#include "bus.h"

enum { BYTE_TIME = 100, LONG_TIME = 10000, BETWEEN_IRQ = 5, GREATEST_IRQ = 6 };
static struct evl_sem between_due, greatest_due;
static uint64_t came, longest;

void bus_shift(uint8_t byte) {
  (void)byte;
  evlsim_compute(BYTE_TIME);
}

static uint64_t now(void) {
  struct timespec date;
  evl_read_clock(EVL_CLOCK_MONOTONIC, &date);
  return (uint64_t)date.tv_sec * 1000000000u + (uint64_t)date.tv_nsec;
}

static irqreturn_t on_between(int irq, void *device) {
  (void)irq, (void)device;
  evl_put_sem(&between_due);
  return IRQ_HANDLED;
}

static irqreturn_t on_greatest(int irq, void *device) {
  (void)irq, (void)device;
  came = now();
  evl_put_sem(&greatest_due);
  return IRQ_HANDLED;
}

static void *send_rarely(void *it) {
  evl_attach_self("least");
  bus_send(1);
  return it;
}

static void *compute_long(void *it) {
  evl_attach_self("between");
  while (evl_get_sem(&between_due) == 0) evlsim_compute(LONG_TIME);
  return it;
}

static void *send_soon(void *it) {
  evl_attach_self("greatest");
  while (evl_get_sem(&greatest_due) == 0) {
    bus_send(2);
    if (now() - came > longest) longest = now() - came;
  }
  return it;
}

static void start(void *(*run)(void *), int prio) {
  pthread_t thread;
  struct sched_param param = {.sched_priority = prio};
  pthread_create(&thread, NULL, run, NULL);
  pthread_setschedparam(thread, SCHED_FIFO, &param);
}

static void inversion_test(void) {
  evlsim_require(bus_start() == 0);
  evl_new_sem(&between_due, "between");
  evl_new_sem(&greatest_due, "greatest");
  evlsim_require(request_irq(BETWEEN_IRQ, on_between, IRQF_OOB, "between", NULL) == 0);
  evlsim_require(request_irq(GREATEST_IRQ, on_greatest, IRQF_OOB, "greatest", NULL) == 0);
  start(send_soon, 30);
  start(compute_long, 20);
  start(send_rarely, 10);
  evlsim_may_arrive(BETWEEN_IRQ, 1, NULL, NULL);
  evlsim_may_arrive(GREATEST_IRQ, 1, NULL, NULL);
  evlsim_rest();
  evlsim_require(longest <= 2 * BYTE_TIME);
}

int main(void) { return evlsim_explore(inversion_test, NULL); }
