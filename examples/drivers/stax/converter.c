/*
 * A converter whose registers lie behind an index. Both stages set the index and then use the data, so neither may come
 * between the other's two steps: a stax keeps them apart.
 */
#include "converter.h"

#include <evl/evl.h>
#include <evl/stax.h>
#include <linux/interrupt.h>
#include <pthread.h>

#include "registers.h"

static struct evl_sem sampled;
static struct evl_stax registers;
static uint32_t last;

#ifdef WITH_BUG
static void enter(void) {}
static void leave(void) {}
#else
static void enter(void) { evl_lock_stax(&registers); }
static void leave(void) { evl_unlock_stax(&registers); }
#endif

static irqreturn_t on_sample(int irq, void *device) {
  (void)irq, (void)device;
  evl_put_sem(&sampled);
  return IRQ_HANDLED;
}

static void *take_samples(void *nothing) {
  struct evl_sched_attrs attrs = {.sched_policy = SCHED_FIFO, .sched_priority = 50};
  int self = evl_attach_self("converter");
  if (self < 0 || evl_set_schedattr(self, &attrs) != 0) return nothing;
  while (evl_get_sem(&sampled) == 0) {
    enter();
    set_index(SAMPLE);
    last = get_data();
    leave();
  }
  return nothing;
}

int converter_start(void) {
  pthread_t thread;
  evl_init_stax(&registers);
  if (evl_new_sem(&sampled, "sampled") < 0) return -1;
  int error = request_irq(CONVERTER_IRQ, on_sample, IRQF_OOB, "converter", NULL);
  return error != 0 ? error : -pthread_create(&thread, NULL, take_samples, NULL);
}

void converter_set_speed(uint32_t speed) {
  enter();
  set_index(SPEED);
  set_data(speed);
  leave();
}

uint32_t converter_last(void) { return last; }
