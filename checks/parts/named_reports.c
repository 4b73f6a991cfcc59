/*
 * A run that fails, by the words of its report: places of moments at calls, names of threads and elements, locks that
 * make no entry, a test of its own. Also C++; with OWN_TEST that test takes the place of main, with BODY it is a
 * C++ object's. "stuck" waits for good, "names" has limits.names.
 */
#include <evl/evl.h>
#include <evl/stax.h>
#include <linux/interrupt.h>
#include <pthread.h>
#include <stddef.h>
#include <stdlib.h>
#include <string.h>
#ifdef BODY
#include <evlsim/runner.hpp>
#else
#include <evlsim/runner.h>
#endif

static struct evl_sem rx;
static struct evl_mutex state;
static struct evl_stax gate;
static unsigned count;
static bool is_stuck EVLSIM_KEPT = false;

static irqreturn_t on_line(int irq, void *device) {
  (void)irq, (void)device;
  count++;
  evl_put_sem(&rx);
  return IRQ_HANDLED;
}

static void *take(void *it) {
  evl_attach_self("taker:%d", 7);
  evl_lock_mutex(&state); /* the lock */
  unsigned before = count;
  evl_unlock_mutex(&state); /* the unlock */
  evlsim_require(before == count);
  evl_get_sem(&rx);
  return it;
}

static void look(void) {
  pthread_t taker;
  evl_new_sem(&rx, "rx-%s", "ready");
  evl_new_mutex(&state, "fusion-state");
  evl_init_stax(&gate);
  request_irq(5, on_line, IRQF_OOB, "line", NULL);
  evl_lock_stax(&gate);
  evl_unlock_stax(&gate);
  pthread_create(&taker, NULL, take, NULL);
  evlsim_may_arrive(5, 1, NULL, NULL);
  if (is_stuck) pthread_join(taker, NULL);
  evlsim_rest();
}

#ifdef BODY
static auto body = [] { look(); };
#endif
#ifdef OWN_TEST
#include OWN_TEST
#else
int main(int words, char **word) {
  evlsim_limits limits;
  memset(&limits, 0, sizeof limits);
  limits.names = words > 1;
  is_stuck = words > 1 && strcmp(word[1], "stuck") == 0;
#ifdef BODY
  return evlsim::explore("look", body, limits);
#else
  return evlsim_explore(look, &limits);
#endif
}
#endif
