/* Runs that fail, each in its own way: failures KIND. checks/drivers looks how each is told. */
#include <assert.h>
#include <evl/evl.h>
#include <evl/stax.h>
#include <evlsim/runner.h>
#include <linux/interrupt.h>
#include <linux/irqstage.h>
#include <pthread.h>
#include <stdint.h>
#include <stdio.h>
#include <stdlib.h>
#include <string.h>
#include <unistd.h>

static struct evl_sem one, two;
static struct evl_mutex first, second;
static struct evl_stax stax;
static volatile int never;

static void begin(void) {
  evl_new_sem(&one, "one");
  evl_new_sem(&two, "two");
  evl_new_mutex(&first, "first");
  evl_new_mutex(&second, "second");
  evl_init_stax(&stax);
  evl_put_sem(&one);
}

static void *wait_for_first(void *it) {
  evl_attach_self("other");
  evl_lock_mutex(&second);
  evl_get_sem(&one);
  evl_lock_mutex(&first);
  return it;
}

static void stuck(void) {
  pthread_t thread;
  begin();
  pthread_create(&thread, NULL, wait_for_first, NULL);
  evl_attach_self("main");
  evl_lock_mutex(&first);
  evl_usleep(5);
  evl_get_sem(&two);
}

static void ring(void) {
  pthread_t thread;
  begin();
  pthread_create(&thread, NULL, wait_for_first, NULL);
  evl_attach_self("main");
  evl_lock_mutex(&first);
  evl_usleep(5);
  evlsim_fail("the ring is answered %d", evl_lock_mutex(&second));
}

static void asserted(void) {
  begin();
  assert(never == 1);
}

static void bad_address(void) {
  begin();
  *(volatile int *)(uintptr_t)(unsigned)never = 3;
}

static int deeper(int depth) {
  volatile char bytes[4096];
  bytes[depth & 4095] = (char)depth;
  return never == 1 ? bytes[7] : deeper(depth + 1) + bytes[7];
}

static void full_stack(void) {
  begin();
  never = deeper(1);
}

static void for_ever(void) {
  begin();
  while (never == 0) {
  }
}

static void calls_exit(void) {
  begin();
  exit(EXIT_SUCCESS);
}

static irqreturn_t on_line(int irq, void *device) {
  (void)irq, (void)device;
  evl_get_sem(&two);
  return IRQ_HANDLED;
}

static void handler_waits(void) {
  begin();
  request_irq(5, on_line, IRQF_OOB, "line", NULL);
  evlsim_arrive(5);
}

static void stalled(void) {
  begin();
  evl_attach_self("main");
  oob_irq_disable();
  evl_usleep(5);
}

/* A stall that an error's path leaves. */
static void stall_until(bool fails) {
  unsigned long before = hard_local_irq_save();
  if (!fails) hard_local_irq_restore(before);
}

static void *end_stalled(void *it) {
  stall_until(never == 0);
  return it;
}

static void stalled_end(void) {
  pthread_t thread;
  begin();
  pthread_create(&thread, NULL, end_stalled, NULL);
  pthread_join(thread, NULL);
}

static void stalled_body(void) {
  begin();
  local_irq_disable();
  evlsim_rest();
}

static irqreturn_t on_stall(int irq, void *device) {
  (void)irq, (void)device;
  stall_until(never == 0);
  return IRQ_HANDLED;
}

static void stalled_handler(void) {
  begin();
  request_irq(5, on_stall, IRQF_OOB, "line", NULL);
  evlsim_arrive(5);
}

/* What is allowed: another thread waits meanwhile, a section within a section, and a handler's own. */
static irqreturn_t on_section(int irq, void *device) {
  (void)irq, (void)device;
  stall_until(never == 1);
  evl_put_sem(&two);
  return IRQ_HANDLED;
}

static void *wait_in_section(void *it) {
  evl_attach_self("waiter");
  while (evl_get_sem(&two) == 0) stall_until(never == 1);
  return it;
}

static void sections(void) {
  pthread_t thread;
  begin();
  request_irq(5, on_section, IRQF_OOB, "line", NULL);
  pthread_create(&thread, NULL, wait_in_section, NULL);
  evlsim_settle();
  unsigned long before = hard_local_irq_save();
  evlsim_arrive(5);
  stall_until(never == 1);
  evl_put_sem(&two);
  hard_local_irq_restore(before);
  evlsim_fail("the sections are left");
}

static void *hold_stax(void *it) {
  evl_lock_stax(&stax);
  for (;;) evlsim_pass(1000);
  return it;
}

static void *end_with_mutex(void *it) {
  evl_attach_self("owner");
  evl_lock_mutex(&first);
  return it;
}

static void mutex_kept(void) {
  pthread_t thread;
  begin();
  pthread_create(&thread, NULL, end_with_mutex, NULL);
  pthread_join(thread, NULL);
}

static void *end_with_stax(void *it) {
  evl_lock_stax(&stax);
  return it;
}

static void stax_kept(void) {
  pthread_t thread;
  begin();
  pthread_create(&thread, NULL, end_with_stax, NULL);
  pthread_join(thread, NULL);
}

static void body_keeps_stax(void) {
  begin();
  evl_lock_stax(&stax);
}

static void attaches_with_stax(void) {
  begin();
  evl_lock_stax(&stax);
  evlsim_fail("the attach is answered %d", evl_attach_self("main"));
}

static void *wait_for_stax(void *it) {
  evl_attach_self("weak");
  evl_lock_stax(&stax);
  evlsim_fail("the stax is locked %s", evl_is_inband() ? "in-band" : "out-of-band");
  return it;
}

static void weak_waits(void) {
  pthread_t thread;
  begin();
  evl_lock_stax(&stax);
  pthread_create(&thread, NULL, wait_for_stax, NULL);
  evlsim_pass(5000);
  evl_unlock_stax(&stax);
  pthread_join(thread, NULL);
}

static void last_date(void) {
  pthread_t thread;
  begin();
  pthread_create(&thread, NULL, hold_stax, NULL);
  evlsim_settle();
  evl_attach_self("main");
  evl_lock_stax(&stax);
}

/* A run of a list whose event doesn't come: it has a moment 500, and no moment 9000. */
static void listed(void) {
  static volatile int count;
  begin();
  evlsim_may_arrive(5, 1, NULL, NULL);
  while (count < 500) count++;
  evlsim_rest();
}

/* One whose list of events is long. */
static void many_events(void) {
  static volatile int count;
  begin();
  evlsim_may_arrive(1000, 20, NULL, NULL);
  while (count < 500) count++;
  evlsim_fail("all events came");
}

#define EVENT(place) ", line 1000 @ " #place
#define EVENTS(ten) EVENT(ten##1) EVENT(ten##2) EVENT(ten##3) EVENT(ten##4) EVENT(ten##5)
#define MANY "line 1000 @ 300" EVENTS(30) EVENTS(31) EVENTS(32) EVENT(333)

/* The process has one number in each run. */
static void process(void) {
  begin();
  evlsim_fail("the process is %d", (int)getpid());
}

/* An exploration within a run. */
static void nested(void) {
  begin();
  (void)evlsim_explore(begin, NULL);
}

/* What only UndefinedBehaviorSanitizer sees. */
static void undefined(void) {
  static volatile int most = 0x7fffffff;
  begin();
  most = most + 1;
}

static const struct {
  const char *kind;
  void (*body)(void);
  const char *list;
} kinds[] = {{"stuck", stuck, ""},
             {"ring", ring, ""},
             {"asserted", asserted, ""},
             {"address", bad_address, ""},
             {"stack", full_stack, ""},
             {"for_ever", for_ever, ""},
             {"exit", calls_exit, ""},
             {"handler", handler_waits, ""},
             {"stalled", stalled, ""},
             {"stalled_end", stalled_end, ""},
             {"stalled_body", stalled_body, ""},
             {"stalled_handler", stalled_handler, ""},
             {"sections", sections, ""},
             {"mutex", mutex_kept, ""},
             {"stax", stax_kept, ""},
             {"body_stax", body_keeps_stax, ""},
             {"attach", attaches_with_stax, ""},
             {"weak", weak_waits, ""},
             {"history", last_date, ""},
             {"not_reached", listed, "line 5 @ 9000"},
             {"turn_not_reached", listed, "turn @ 9000"},
             {"no_source", listed, "clock @ 500"},
             {"many", many_events, MANY},
             {"nested", nested, ""},
             {"process", process, ""},
             {"undefined", undefined, ""}};

int main(int count, char **words) {
  for (size_t each = 0; count == 2 && each < sizeof kinds / sizeof *kinds; each++) {
    if (strcmp(words[1], kinds[each].kind) == 0) return evlsim_replay_as(kinds[each].body, words[1], kinds[each].list);
  }
  return 2;
}
