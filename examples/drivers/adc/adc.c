/* A converter of analogue signals, with a ring between its handler and its thread. */
#include "adc.h"

#include <evl/evl.h>
#include <linux/interrupt.h>
#include <pthread.h>

enum { RING = 4 };
static uint16_t ring[RING];
static unsigned first, last, lost;
static struct evl_sem sampled;
static void (*take_sample)(uint16_t sample);

#ifdef WITH_BUG
/* Both sides count: a load and a store each. */
static unsigned count;
static unsigned stored(void) { return count; }
static void note_stored(void) { count++; }
static void note_taken(void) { count--; }
#else
/* Each side has an index of its own, which only it writes. */
static unsigned stored(void) { return last - first; }
static void note_stored(void) {}
static void note_taken(void) {}
#endif

static irqreturn_t on_sample(int irq, void *device) {
  (void)irq, (void)device;
  if (stored() == RING) {
    lost++;
    return IRQ_HANDLED;
  }
  ring[last % RING] = adc_sample();
  last++;
  note_stored();
  evl_put_sem(&sampled);
  return IRQ_HANDLED;
}

static void *take_samples(void *nothing) {
  struct evl_sched_attrs attrs = {.sched_policy = SCHED_FIFO, .sched_priority = 70};
  int self = evl_attach_self("adc");
  if (self < 0 || evl_set_schedattr(self, &attrs) != 0) return nothing;
  while (evl_get_sem(&sampled) == 0) {
    while (stored() > 0) {
      take_sample(ring[first % RING]);
      first++;
      note_taken();
    }
  }
  return nothing;
}

int adc_start(void (*take)(uint16_t sample)) {
  pthread_t thread;
  take_sample = take;
  if (evl_new_sem(&sampled, "sampled") < 0) return -1;
  int error = request_irq(ADC_IRQ, on_sample, IRQF_OOB, "adc", NULL);
  return error != 0 ? error : -pthread_create(&thread, NULL, take_samples, NULL);
}

unsigned adc_lost(void) { return lost; }
