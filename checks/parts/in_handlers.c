/*
 * Hardware that works on while an out-of-band handler runs: faults that show only then, found with limits.in_handlers
 * and not without it, and the mended drivers, which pass with it. Prints what isn't so. It is compiled with
 * -fsanitize=thread.
 */
#include <evl/evl.h>
#include <evl/timer.h>
#include <evlsim/runner.h>
#include <linux/interrupt.h>
#include <pthread.h>
#include <stdio.h>
#include <stdlib.h>
#include <string.h>

enum { DMA_IRQ = 5, OTHER_IRQ = 6 };
static struct evl_sem sem;
static volatile unsigned hardware_done, hardware_status; /* registers */
static unsigned told, taken, order;
static bool is_wrong; /* whether the driver has its fault */

/* A transfer is done: a level in the status register, whose edge makes the interrupt. */
static void transfer_is_done(void *it) {
  (void)it;
  hardware_done++;
  hardware_status = 1;
}

/* Acknowledges what it has looked at; or, with the fault, what came after its look too. */
static irqreturn_t on_done(int irq, void *device) {
  (void)irq, (void)device;
  if (hardware_status == 0) return IRQ_NONE;
  if (is_wrong) {
    told = hardware_done;
    hardware_status = 0;
  } else {
    hardware_status = 0;
    told = hardware_done;
  }
  evl_put_sem(&sem);
  return IRQ_HANDLED;
}

static void *take(void *it) {
  struct evl_sched_attrs attrs = {.sched_policy = SCHED_FIFO, .sched_priority = 9};
  evl_set_schedattr(evl_attach_self("taker"), &attrs);
  while (evl_get_sem(&sem) == 0) taken = __atomic_load_n(&told, __ATOMIC_ACQUIRE);
  return it;
}

static void start_thread(void *(*run)(void *)) {
  pthread_t thread;
  evl_new_sem(&sem, "sem");
  pthread_create(&thread, NULL, run, NULL);
  evlsim_settle();
}

static void acknowledges(void) {
  start_thread(take);
  request_irq(DMA_IRQ, on_done, IRQF_OOB, "dma", NULL);
  evlsim_may_arrive(DMA_IRQ, 2, transfer_is_done, NULL);
  evlsim_rest();
  evlsim_require(hardware_status == 0 && taken == hardware_done);
}

/* A receiver's bytes, which its handler takes one by one; with the fault it counts them, and then empties the receiver. */
static volatile unsigned stored, fetched;
static unsigned delivered;
static void byte_comes(void *it) {
  (void)it;
  stored++;
}

static irqreturn_t on_bytes(int irq, void *device) {
  (void)irq, (void)device;
  if (is_wrong) {
    delivered += stored - fetched;
    fetched = stored;
  }
  for (; fetched != stored; fetched++) delivered++;
  return IRQ_HANDLED;
}

static void drains(void) {
  request_irq(DMA_IRQ, on_bytes, IRQF_OOB, "receiver", NULL);
  evlsim_may_arrive(DMA_IRQ, 2, byte_comes, NULL);
  evlsim_rest();
  evlsim_require(delivered == stored);
}

/* Interrupts that come within a handler are one, which arrives when that has returned: the lowest line first. */
static irqreturn_t counts(int irq, void *device) {
  (void)device;
  order = order * 10 + (unsigned)irq;
  evl_put_sem(&sem);
  return IRQ_HANDLED;
}

static void is_merged(void) {
  evl_new_sem(&sem, "sem");
  request_irq(DMA_IRQ, counts, IRQF_OOB, "first", NULL);
  request_irq(OTHER_IRQ, counts, IRQF_OOB, "other", NULL);
  evlsim_may_arrive(OTHER_IRQ, 1, NULL, NULL);
  evlsim_may_arrive(DMA_IRQ, 2, NULL, NULL);
  evlsim_arrive(DMA_IRQ);
  evlsim_rest();
  evlsim_say("%u", order);
}

/* The handler of a timer. */
static struct evl_timer timer;
static void on_date(struct evl_timer *it) {
  (void)it;
  hardware_status = 0;
  told = hardware_done;
}
static void at_a_date(void) {
  evl_init_timer(&timer, on_date);
  evl_start_timer(&timer, 3000000000, 0);
  evlsim_may_arrive(OTHER_IRQ, 1, transfer_is_done, NULL);
  evlsim_pass(2000000000);
  if (is_wrong) evlsim_require(hardware_status == 0 || told == 0 || hardware_done == 0);
}

/* Hardware that makes calls counts before each call of a handler, too. */
static void device_calls(void *it) {
  (void)it;
  evlsim_say("device ");
}
static irqreturn_t says(int irq, void *device) {
  (void)irq, (void)device;
  evl_put_sem(&sem);
  evlsim_say("first ");
  evl_put_sem(&sem);
  evlsim_say("second ");
  return IRQ_HANDLED;
}
static void calling(void) {
  evl_new_sem(&sem, "sem");
  request_irq(DMA_IRQ, says, IRQF_OOB, "line", NULL);
  evlsim_may_arrive(OTHER_IRQ, 1, device_calls, NULL);
  evlsim_arrive(DMA_IRQ);
  evlsim_rest();
}

static bool holds(bool it, const char *what) {
  if (!it) printf("not so: %s\n", what);
  return it;
}

static const evlsim_limits within = {.in_handlers = true, .goes_on = true, .quiet = true};

/* Whether a body fails so explored. */
static bool fails(void (*body)(void), evlsim_limits limits) {
  return evlsim_explore_as(body, "in_handlers", &limits, NULL) != 0;
}

static bool has_outcome(const char *text) {
  const char *found;
  for (uint32_t each = 0; (found = evlsim_outcome(each, NULL, NULL)) != NULL; each++) {
    if (strcmp(found, text) == 0) return true;
  }
  return false;
}

/* Whether a fault shows only within handlers. */
static bool is_found(void (*body)(void), const char *what) {
  evlsim_limits whole = within, between = {.goes_on = true, .quiet = true};
  whole.whole = true;
  is_wrong = true;
  bool well = fails(body, within) && fails(body, whole) && !fails(body, between);
  is_wrong = false;
  return holds(well && !fails(body, within) && !fails(body, whole), what);
}

/* Moments within handlers are counted where they aren't tried. */
static bool counts_moments(void) {
  evlsim_explored between, inside;
  evlsim_limits limits = {.quiet = true};
  (void)evlsim_explore_as(drains, "drains", &limits, &between);
  (void)evlsim_explore_as(drains, "drains", &within, &inside);
  bool well = between.not_tried > 0 && inside.not_tried == 0 && inside.lists > between.lists;
  return holds(well, "moments that are not tried are counted");
}

static bool replays(void) {
  const char *list = "";
  evlsim_limits limits = within;
  is_wrong = true;
  (void)fails(acknowledges, within);
  bool well = false;
  for (uint32_t each = 0; evlsim_outcome(each, NULL, &list) != NULL && !well; each++) {
    well = strstr(evlsim_outcome(each, NULL, NULL), "FAILED") != NULL;
  }
  char copy[128];
  snprintf(copy, sizeof copy, "%s", list);
  setenv("EVLSIM_REPLAY", copy, 1);
  limits.goes_on = false;
  well = holds(well && fails(acknowledges, limits), "the list of an event within a handler fails again");
  unsetenv("EVLSIM_REPLAY");
  is_wrong = false;
  return well;
}

int main(int count, char **words) {
  evlsim_limits limits = {.in_handlers = true};
  if (count > 1 && strcmp(words[1], "report") == 0) {
    is_wrong = true;
    return evlsim_explore(acknowledges, &limits);
  }
  bool well = is_found(acknowledges, "what completes between look and acknowledgement is found");
  well = is_found(at_a_date, "so it is in the handler of a timer") && well;
  well = is_found(drains, "a byte that comes between count and emptying is found") && well;
  (void)fails(is_merged, within);
  well = holds(has_outcome("55") && has_outcome("556"), "pending lines arrive, the lowest first") && well;
  (void)fails(calling, within);
  well = holds(has_outcome("first device second "), "calls of hardware between those of a handler") && well;
  well = counts_moments() && well;
  return replays() && well ? EXIT_SUCCESS : EXIT_FAILURE;
}
