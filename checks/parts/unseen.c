/*
 * A driver whose handler and thread only return, so that a compiler has nothing to call in for, and which hands work on
 * in-band: with -fsanitize=thread nothing of it is told as being without. With -DUNSEEN its work is without.
 */
#include <evl/evl.h>
#include <evl/work.h>
#include <evlsim/runner.h>
#include <linux/interrupt.h>
#include <pthread.h>

#ifdef UNSEEN
#define WORKS __attribute__((no_sanitize("thread")))
#else
#define WORKS
#endif

static struct evl_work work;
static int done;

static irqreturn_t on_nothing(int irq, void *device) {
  (void)irq, (void)device;
  return IRQ_HANDLED;
}
static irqreturn_t on_work(int irq, void *device) {
  (void)irq, (void)device;
  (void)evl_call_inband(&work);
  return IRQ_HANDLED;
}
WORKS static int do_work(struct evl_work *it) {
  (void)it;
  done++;
  return 0;
}
static void *return_at_once(void *it) { return it; }
static void *return_null(void *it) {
  (void)it;
  return NULL;
}
static void run_at_once(void *it) { (void)it; }

static void unseen_test(void) {
  pthread_t threads[2];
  evl_init_work(&work, do_work);
  request_irq(5, on_nothing, IRQF_OOB, "nothing", NULL);
  request_irq(6, on_work, IRQF_OOB, "work", NULL);
  pthread_create(&threads[0], NULL, return_at_once, NULL);
  pthread_create(&threads[1], NULL, return_null, NULL);
  evlsim_join(evlsim_thread(run_at_once, NULL, "plain"));
  evlsim_may_arrive(5, 1, NULL, NULL);
  evlsim_may_arrive(6, 1, NULL, NULL);
  evlsim_rest();
  evlsim_say("%d done", done);
}

int main(void) { return evlsim_explore(unseen_test, NULL); }
