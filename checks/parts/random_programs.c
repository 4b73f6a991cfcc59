/*
 * Random programs of threads over libevl's calls, each run once. The history of each run is written as a scenario, with
 * the trace that the kernel had: random_programs FOLDER COUNT FIRST_SEED. Who plays the scenario has to get that trace.
 */
#include <evl/evl.h>
#include <evl/stax.h>
#include <evl/work.h>
#include <evlsim/runner.h>
#include <linux/interrupt.h>
#include <linux/irq_pipeline.h>
#include <linux/irqstage.h>
#include <pthread.h>
#include <stdio.h>
#include <stdlib.h>
#include <string.h>
#include <unistd.h>

enum { SEMS = 3, GROUPS = 2, MUTEXES = 3, STAXES = 2, BUFFERS = 2, THREADS = 5, STEPS = 14, LINES = 2 };

static struct evl_sem sem[SEMS];
static struct evl_flags group[GROUPS];
static struct evl_mutex mutex[MUTEXES];
static struct evl_stax stax[STAXES];
static struct evl_work work;
static int buffer[BUFFERS];
static int quota;
static uint32_t dice;
static uint32_t seed_of_run;
static const char *folder;
static long worked;
static bool has_work;

static unsigned roll_of(uint32_t *own, unsigned sides) {
  *own = *own * 1664525u + 1013904223u;
  return (*own >> 10) % sides;
}

/* Each thread has dice of its own, so that what it does isn't changed by who runs before it. */
struct player {
  uint32_t dice;
  bool is_core;
};
static struct player player[THREADS];

static struct timespec date_in(long nanoseconds) {
  struct timespec date;
  evl_read_clock(EVL_CLOCK_MONOTONIC, &date);
  date.tv_nsec += nanoseconds;
  if (date.tv_nsec >= 1000000000) date.tv_sec++, date.tv_nsec -= 1000000000;
  return date;
}

static struct timespec soon(uint32_t *own) { return date_in((long)roll_of(own, 50)); }

static void use_sem(uint32_t *own) {
  struct evl_sem *it = &sem[roll_of(own, SEMS)];
  struct timespec date = soon(own);
  int value;
  switch (roll_of(own, 5)) {
    case 0: (void)evl_get_sem(it); break;
    case 1: (void)evl_timedget_sem(it, &date); break;
    case 2: (void)evl_tryget_sem(it); break;
    case 3: (void)evl_peek_sem(it, &value); break;
    default: (void)evl_put_sem(it);
  }
}

static void use_flags(uint32_t *own) {
  struct evl_flags *it = &group[roll_of(own, GROUPS)];
  struct timespec date = soon(own);
  int bits = (int)roll_of(own, 8), taken;
  switch (roll_of(own, 8)) {
    case 0: (void)evl_wait_flags(it, &taken); break;
    case 1: (void)evl_timedwait_flags(it, &date, &taken); break;
    case 2: (void)evl_timedwait_some_flags(it, bits, &date, &taken); break;
    case 3: (void)evl_timedwait_exact_flags(it, bits, &date); break;
    case 4: (void)evl_trywait_some_flags(it, bits, &taken); break;
    case 5: (void)evl_peek_flags(it, &taken); break;
    default: (void)evl_post_flags(it, bits);
  }
}

static void use_mutex(uint32_t *own) {
  struct evl_mutex *it = &mutex[roll_of(own, MUTEXES)];
  struct timespec date = soon(own);
  switch (roll_of(own, 5)) {
    case 0: (void)evl_lock_mutex(it); break;
    case 1: (void)evl_timedlock_mutex(it, &date); break;
    case 2: (void)evl_trylock_mutex(it); break;
    default: (void)evl_unlock_mutex(it);
  }
}

static void use_buffer(uint32_t *own) {
  char bytes[16];
  int it = buffer[roll_of(own, BUFFERS)];
  size_t count = roll_of(own, 10);
  memset(bytes, 'x', sizeof bytes);
  switch (roll_of(own, 4)) {
    case 0: (void)oob_write(it, bytes, count); break;
    case 1: (void)oob_read(it, bytes, count); break;
    case 2: (void)!write(it, bytes, count); break;
    default: (void)!read(it, bytes, count);
  }
}

/* A stax is left at once: who holds one may not wait for good. */
static void use_stax(uint32_t *own) {
  struct evl_stax *it = &stax[roll_of(own, STAXES)];
  int error = roll_of(own, 2) == 0 ? evl_trylock_stax(it) : evl_lock_stax(it);
  if (error != 0) return;
  (void)evl_put_sem(&sem[roll_of(own, SEMS)]);
  if (roll_of(own, 2) == 0) (void)evl_tryget_sem(&sem[0]);
  evl_unlock_stax(it);
}

static void use_policy(uint32_t *own, int self) {
  static const int policies[] = {SCHED_FIFO, SCHED_RR, SCHED_QUOTA, SCHED_WEAK};
  struct evl_sched_attrs attrs;
  memset(&attrs, 0, sizeof attrs);
  attrs.sched_policy = policies[roll_of(own, 4)];
  attrs.sched_priority = 1 + (int)roll_of(own, 60);
  if (attrs.sched_policy == SCHED_RR) attrs.sched_rr_quantum.tv_nsec = 1 + (long)roll_of(own, 40);
  if (attrs.sched_policy == SCHED_QUOTA) attrs.sched_quota_group = quota;
  (void)evl_set_schedattr(self, &attrs);
}

/* With a line, the program evl has two callbacks for handlers, so that there is either work or a timer. */
static void hand_on(void) {
  if (has_work) (void)evl_call_inband(&work);
}

static void use_stage(uint32_t *own) {
  switch (roll_of(own, 6)) {
    case 0: (void)evl_switch_oob(); break;
    case 1: (void)evl_switch_inband(); break;
    case 2:
      oob_irq_disable();
      (void)evl_put_sem(&sem[0]);
      oob_irq_enable();
      break;
    case 3:
      local_irq_disable();
      hand_on();
      local_irq_enable();
      break;
    case 4: hand_on(); break;
    default: (void)evl_yield();
  }
}

static void make_step(struct player *it, int self) {
  switch (roll_of(&it->dice, 10)) {
    case 0:
    case 1: use_sem(&it->dice); break;
    case 2: use_flags(&it->dice); break;
    case 3:
    case 4: use_mutex(&it->dice); break;
    case 5: use_buffer(&it->dice); break;
    case 6: use_stax(&it->dice); break;
    case 7: use_policy(&it->dice, self); break;
    case 8: use_stage(&it->dice); break;
    default: it->is_core ? (void)evl_usleep(roll_of(&it->dice, 2)) : (void)usleep(roll_of(&it->dice, 2));
  }
}

static void *play(void *argument) {
  struct player *it = argument;
  int self = it->is_core ? evl_attach_self("player") : -1;
  if (it->is_core) use_policy(&it->dice, self);
  for (int step = 0; step < STEPS; step++) make_step(it, self);
  if (self >= 0) {
    for (int each = 0; each < MUTEXES; each++) {
      while (evl_unlock_mutex(&mutex[each]) == 0) {
      }
    }
  }
  return NULL;
}

/* Handlers put and look, and hand work on. */
static irqreturn_t on_line(int irq, void *device) {
  uint32_t *own = device;
  int taken;
  switch (roll_of(own, 5)) {
    case 0: (void)evl_put_sem(&sem[roll_of(own, SEMS)]); break;
    case 1: (void)evl_post_flags(&group[roll_of(own, GROUPS)], 1 + (int)roll_of(own, 7)); break;
    case 2: (void)evl_trywait_flags(&group[0], &taken); break;
    case 3: hand_on(); break;
    default: irq_post_inband((unsigned)irq + 1);
  }
  return IRQ_HANDLED;
}

static int do_work(struct evl_work *it) {
  (void)it;
  worked++;
  return 0;
}

typedef evlsim_status text_of(evlsim_kernel *kernel, size_t start, uint8_t *out, size_t out_length, size_t *length);
static void write_text(const char *ending, text_of *text) {
  static uint8_t bytes[1 << 20];
  char name[512];
  size_t length = 0;
  snprintf(name, sizeof name, "%s/program_%u.%s", folder, (unsigned)seed_of_run, ending);
  FILE *file = fopen(name, "wb");
  evlsim_status status = text(evlsim_running(), 0, bytes, sizeof bytes, &length);
  evlsim_require(file != NULL && evlsim_ok(status) && length <= sizeof bytes);
  fwrite(bytes, 1, length, file);
  fclose(file);
}

static void make_elements(void) {
  for (int each = 0; each < SEMS; each++) {
    evl_create_sem(&sem[each], EVL_CLOCK_MONOTONIC, (int)roll_of(&dice, 3), EVL_CLONE_PRIVATE, "sem");
  }
  for (int each = 0; each < GROUPS; each++) {
    evl_create_flags(&group[each], EVL_CLOCK_MONOTONIC, (int)roll_of(&dice, 4), EVL_CLONE_PRIVATE, "flags");
  }
  evl_new_mutex(&mutex[0], "normal");
  evl_create_mutex(&mutex[1], EVL_CLOCK_MONOTONIC, 0, EVL_MUTEX_RECURSIVE, "recursive");
  evl_create_mutex(&mutex[2], EVL_CLOCK_MONOTONIC, 1 + roll_of(&dice, 60), EVL_MUTEX_NORMAL, "ceiling");
  for (int each = 0; each < STAXES; each++) evl_init_stax(&stax[each]);
  for (int each = 0; each < BUFFERS; each++) {
    buffer[each] = evl_create_xbuf(8, 12, roll_of(&dice, 2) == 0 ? EVL_CLONE_NONBLOCK : EVL_CLONE_PRIVATE, "xbuf");
  }
  quota = evlsim_quota_group(10);
}

static void make_time_pass(void) {
  switch (roll_of(&dice, 4)) {
    case 0: evlsim_arrive(5); break;
    case 1: evlsim_pass(roll_of(&dice, 60)); break;
    case 2: evlsim_compute(roll_of(&dice, 30)); break;
    default: evlsim_settle();
  }
}

static void random_program(void) {
  static uint32_t line_dice;
  dice = seed_of_run * 2654435761u + 99;
  line_dice = dice;
  make_elements();
  (void)request_irq(5, on_line, IRQF_OOB, "line", &line_dice);
  has_work = roll_of(&dice, 3) != 0;
  if (has_work) evl_init_work(&work, do_work);
  int timer = has_work ? -1 : evl_new_timer(EVL_CLOCK_MONOTONIC);
  struct itimerspec dates;
  memset(&dates, 0, sizeof dates);
  dates.it_value = date_in(40), dates.it_interval.tv_nsec = 25;
  if (timer >= 0) (void)evl_set_timer(timer, &dates, NULL);
  int count = 2 + (int)roll_of(&dice, THREADS - 1);
  for (int each = 0; each < count; each++) {
    pthread_t thread;
    struct player it = {roll_of(&dice, 1u << 20), roll_of(&dice, 5) > 0};
    player[each] = it;
    pthread_create(&thread, NULL, play, &player[each]);
    if (roll_of(&dice, 2) == 0) make_time_pass();
  }
  for (int each = 0; each < 8; each++) make_time_pass();
  evlsim_pass(500);
  write_text("toml", evlsim_scenario);
  write_text("trace", evlsim_trace);
}

int main(int count, char **words) {
  uint32_t programs = count > 2 ? (uint32_t)atoi(words[2]) : 100, first = count > 3 ? (uint32_t)atoi(words[3]) : 1;
  uint32_t failed = 0;
  if (count < 2) return EXIT_FAILURE;
  folder = words[1];
  for (seed_of_run = first; seed_of_run < first + programs; seed_of_run++) {
    if (evlsim_test(random_program) != 0) failed++;
  }
  printf("%u programs, %u failed\n", (unsigned)programs, (unsigned)failed);
  return failed == 0 ? EXIT_SUCCESS : EXIT_FAILURE;
}
