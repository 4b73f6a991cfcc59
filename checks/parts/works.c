/*
 * In-band work that waits: for a lock, for bytes, for a date; handed on by a handler, a thread, and itself. It runs in a
 * thread of its own. Prints what isn't so. It is compiled with -fsanitize=thread.
 */
#include <evl/evl.h>
#include <evl/work.h>
#include <evlsim/runner.h>
#include <linux/interrupt.h>
#include <linux/irqstage.h>
#include <pthread.h>
#include <stdio.h>
#include <stdlib.h>
#include <string.h>
#include <unistd.h>

static struct evl_work work, next;
static struct evl_sem sem;
static pthread_mutex_t mutex = PTHREAD_MUTEX_INITIALIZER;
static int buffer, done, sum, came;
static char got;

static irqreturn_t on_line(int irq, void *device) {
  (void)irq, (void)device;
  came++;
  (void)evl_call_inband(&work);
  return IRQ_HANDLED;
}

/* Waits in each way, and takes memory. */
static int wait_in_turn(struct evl_work *it) {
  (void)it;
  evlsim_require(evl_is_inband());
  char *copy = malloc(1);
  pthread_mutex_lock(&mutex);
  evlsim_require(read(buffer, copy, 1) == 1);
  usleep(5);
  got = *copy;
  free(copy);
  done++;
  pthread_mutex_unlock(&mutex);
  return 0;
}

static void waits(void) {
  buffer = evl_new_xbuf(16, "buffer");
  evl_init_work(&work, wait_in_turn);
  evlsim_require(request_irq(4095, on_line, IRQF_OOB, "line", NULL) == 0);
  pthread_mutex_lock(&mutex);
  evlsim_arrive(4095);
  evlsim_settle();
  evlsim_require(done == 0);
  pthread_mutex_unlock(&mutex);
  evlsim_settle();
  evlsim_require(done == 0 && evl_attach_self("main") >= 0);
  evlsim_require(oob_write(buffer, "x", 1) == 1);
  evlsim_pass(10000);
  evlsim_require(done == 1 && got == 'x');
}

/* One after another: pending once, also from itself, where it is handed on again. */
static int add_one(struct evl_work *it) {
  sum = sum * 10 + 1;
  if (++done == 1) evlsim_require(evl_call_inband(it) && !evl_call_inband(it));
  return 0;
}
static int add_two(struct evl_work *it) {
  (void)it;
  sum = sum * 10 + 2;
  return 0;
}
static void *hand_on(void *it) {
  evl_attach_self("thread");
  evlsim_require(evl_call_inband(&work) && !evl_call_inband(&work) && evl_call_inband(&next));
  evlsim_require(sum == 0 && !evl_is_inband());
  return it;
}
static void in_turn(void) {
  pthread_t thread;
  evl_init_work(&work, add_one);
  evl_init_work(&next, add_two);
  pthread_create(&thread, NULL, hand_on, NULL);
  pthread_join(thread, NULL);
  evlsim_rest();
  evlsim_require(sum == 121);
}

/* Whatever comes when: as often as the work is handed on it is done, and then nobody waits for its lock. */
static int count_slowly(struct evl_work *it) {
  (void)it;
  pthread_mutex_lock(&mutex);
  usleep(1);
  done++;
  pthread_mutex_unlock(&mutex);
  return 0;
}
static void explored(void) {
  evl_init_work(&work, count_slowly);
  request_irq(5, on_line, IRQF_OOB, "line", NULL);
  evlsim_may_arrive(5, 2, NULL, NULL);
  evlsim_may_switch(1);
  pthread_mutex_lock(&mutex);
  usleep(1);
  pthread_mutex_unlock(&mutex);
  evlsim_settle();
  evlsim_pass(10000);
  evlsim_rest();
  evlsim_pass(10000);
  evlsim_require(done <= came && (came == 0) == (done == 0));
  evlsim_say("%d of %d", done, came);
}

/* While the in-band stage is stalled no work begins; and work that waits with it stalled fails. */
static void after_stall(void) {
  evl_init_work(&work, add_two);
  evlsim_settle();
  local_irq_disable();
  (void)evl_call_inband(&work);
  evlsim_require(sum == 0);
  local_irq_enable();
  evlsim_rest();
  evlsim_require(sum == 2);
}
static int wait_stalled(struct evl_work *it) {
  (void)it;
  local_irq_disable();
  usleep(1);
  return 0;
}
static void stalled(void) {
  evl_new_sem(&sem, "sem");
  evl_init_work(&work, wait_stalled);
  (void)evl_call_inband(&work);
  evlsim_rest();
}

/* Work for a lock that nobody gives back: the report names who waits. */
static void stuck(void) {
  evl_init_work(&work, count_slowly);
  pthread_mutex_lock(&mutex);
  (void)evl_call_inband(&work);
  usleep(1);
  evl_attach_self("main");
  evl_new_sem(&sem, "sem");
  evl_get_sem(&sem);
}

static void uninitialised(void) {
  evl_new_sem(&sem, "sem");
  (void)evl_call_inband(&work);
}

/* Whether a body passes, or fails with a text. */
static bool ends(void (*body)(void), const char *name, const char *wanted) {
  evlsim_limits limits = {.quiet = true, .stays_oob = true};
  bool failed = evlsim_explore_as(body, name, &limits, NULL) != 0;
  const char *text = "", *told;
  for (uint32_t each = 0; (told = evlsim_outcome(each, NULL, NULL)) != NULL; each++) text = told;
  bool well = failed == (wanted != NULL) && (wanted == NULL || strstr(text, wanted) != NULL);
  if (!well) printf("not so: %s: %s\n", name, text);
  return well;
}

int main(void) {
  bool well = ends(waits, "waits", NULL);
  well = ends(in_turn, "in_turn", NULL) && well;
  well = ends(explored, "explored", NULL) && well;
  well = ends(after_stall, "after_stall", NULL) && well;
  well = ends(stalled, "stalled", "T2 worker begins to wait, and has stalled the in-band stage") && well;
  well = ends(stuck, "stuck", "T2 worker waits for an in-band mutex") && well;
  well = ends(uninitialised, "uninitialised", "work is handed on in-band before any is initialised") && well;
  return well ? EXIT_SUCCESS : EXIT_FAILURE;
}
