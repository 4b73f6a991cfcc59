/*
 * A front end whose ring keeps the newest samples: the handler puts them in, a thread takes them out and hands them on.
 * Head and tail only grow; a sample's place is its number modulo the ring's size.
 */
#include "scope.h"

#include <evl/evl.h>
#include <linux/interrupt.h>
#include <pthread.h>
#include <stdbool.h>

#include "converter.h"

static volatile struct scope_sample ring[SCOPE_RING];
static volatile unsigned head, tail, lost;
static struct evl_sem stored;
static int buffer;

static irqreturn_t on_sample(int irq, void *device) {
  (void)irq, (void)device;
#ifdef WITH_BUG
  if (head - tail == SCOPE_RING) { /* the ring is full: the oldest one goes */
    tail++;
    lost++;
  }
#endif
  ring[head % SCOPE_RING].left = converter_left();
  ring[head % SCOPE_RING].right = converter_right();
  head++;
  (void)evl_put_sem(&stored);
  return IRQ_HANDLED;
}

#ifdef WITH_BUG
static bool take(struct scope_sample *sample) {
  if (tail == head) return false;
  sample->left = ring[tail % SCOPE_RING].left;
  sample->right = ring[tail % SCOPE_RING].right;
  tail++;
  return true;
}
#else
/* The tail is the thread's alone. A sample that was written over while it was copied is lost, as are those before. */
static bool take(struct scope_sample *sample) {
  while (tail != head) {
    sample->left = ring[tail % SCOPE_RING].left;
    sample->right = ring[tail % SCOPE_RING].right;
    unsigned behind = head - tail;
    if (behind <= SCOPE_RING) {
      tail++;
      return true;
    }
    lost += behind - SCOPE_RING;
    tail += behind - SCOPE_RING;
  }
  return false;
}
#endif

static void *take_all(void *nothing) {
  struct scope_sample sample;
  if (evl_attach_self("scope") < 0) return nothing;
  while (evl_get_sem(&stored) == 0) {
    while (take(&sample)) (void)oob_write(buffer, &sample, sizeof sample);
  }
  return nothing;
}

static int start_thread(void) {
  pthread_t thread;
  pthread_attr_t attr;
  struct sched_param param = {.sched_priority = 80};
  pthread_attr_init(&attr);
  pthread_attr_setinheritsched(&attr, PTHREAD_EXPLICIT_SCHED);
  pthread_attr_setschedpolicy(&attr, SCHED_FIFO);
  pthread_attr_setschedparam(&attr, &param);
  int error = pthread_create(&thread, &attr, take_all, NULL);
  pthread_attr_destroy(&attr);
  return -error;
}

int scope_start(void) {
  int error = evl_new_sem(&stored, "stored");
  buffer = evl_new_xbuf(SCOPE_BUFFER * sizeof(struct scope_sample), "scope");
  if (error < 0 || buffer < 0) return -1;
  error = request_irq(CONVERTER_IRQ, on_sample, IRQF_OOB, "scope", NULL);
  if (error == 0) error = start_thread();
  return error == 0 ? buffer : error;
}

unsigned scope_lost(void) { return lost; }
