/*
 * Part of evlsim_runner.c: the date, sleeps and timers.
 */

int evl_read_clock(int clockfd, struct timespec *date) {
  (void)clockfd;
  expect_run("evl_read_clock");
  at_call();
  write_point(run->date, date);
  return 0;
}

int evl_get_clock_resolution(int clockfd, struct timespec *resolution) {
  (void)clockfd;
  write_date(1, resolution);
  return 0;
}

/* An in-band sleep: the task waits outside of the core. */
static void sleep_inband(uint64_t date) {
  go_inband();
  open_kernel();
  at_call();
  tasks[run->now].awaits = A_DATE;
  tasks[run->now].date = date;
  wait_here();
  tasks[run->now].date = NEVER;
}

/* An out-of-band one: a wait for a semaphore that nobody puts. */
static int sleep_oob(uint64_t date) {
  int error = go_oob();
  if (error != 0) return error;
  if (run->sleepers < 0) run->sleepers = make_sem(0);
  if (run->sleepers < 0) return -EMFILE;
  error = error_of(simple_wait(evlsim_call_begin_get((uint16_t)run->sleepers), date));
  return error == -ETIMEDOUT ? 0 : error;
}

int evl_sleep_until(int clockfd, const struct timespec *date) {
  (void)clockfd;
  expect_run("evl_sleep_until");
  uint64_t until;
  return read_point(date, &until) ? sleep_oob(until) : invalid();
}

int evl_usleep(unsigned microseconds) {
  expect_run("evl_usleep");
  return sleep_oob(run->date + (uint64_t)microseconds * 1000);
}

void evlsim_pass(uint64_t nanoseconds) {
  expect_run("evlsim_pass");
  if (tasks[run->now].is_oob) {
    (void)sleep_oob(run->date + nanoseconds);
  } else {
    sleep_inband(run->date + nanoseconds);
  }
}

/* For how long a thread can compute before something is due, or its slice ends. */
static uint64_t undisturbed(const struct task *task) {
  uint64_t due = next_due(), left = due == NEVER ? NEVER : due - run->date;
  bool has_slice = task->is_oob && task->policy == 1;
  return has_slice && task->left < left ? task->left : left;
}

/* A thread computes: the date moves while it is picked, from one due date to the next. */
void evlsim_compute(uint64_t nanoseconds) {
  expect_run("evlsim_compute");
  while (nanoseconds > 0) {
    at_call();
    uint64_t left = undisturbed(&tasks[run->now]), step = left < nanoseconds ? left : nanoseconds;
    nanoseconds -= step;
    move_date(run->date + step);
    go_on();
  }
}

int evlsim_usleep(unsigned microseconds) {
  expect_stays("usleep", CALLED_FROM);
  if (run == NULL || !run->is_on) return usleep(microseconds);
  sleep_inband(run->date + (uint64_t)microseconds * 1000);
  return 0;
}

unsigned evlsim_sleep(unsigned seconds) {
  expect_stays("sleep", CALLED_FROM);
  if (run == NULL || !run->is_on) return sleep(seconds);
  sleep_inband(run->date + (uint64_t)seconds * 1000000000u);
  return 0;
}

int evlsim_nanosleep(const struct timespec *span, struct timespec *left) {
  expect_stays("nanosleep", CALLED_FROM);
  if (run == NULL || !run->is_on) return nanosleep(span, left);
  uint64_t nanoseconds;
  if (!read_date(span, &nanoseconds)) return (int)with_errno(invalid(), -1);
  sleep_inband(run->date + nanoseconds);
  return 0;
}

int evlsim_clock_nanosleep(clockid_t clock, int flags, const struct timespec *span, struct timespec *left) {
  expect_stays("clock_nanosleep", CALLED_FROM);
  if (run == NULL || !run->is_on) return clock_nanosleep(clock, flags, span, left);
  uint64_t nanoseconds;
  if (!read_date(span, &nanoseconds)) return EINVAL;
  sleep_inband((flags & TIMER_ABSTIME) != 0 ? since_start(nanoseconds) : run->date + nanoseconds);
  return 0;
}

int evlsim_clock_gettime(clockid_t clock, struct timespec *date) {
  if (run == NULL || !run->is_on) return clock_gettime(clock, date);
  return evl_read_clock(EVL_CLOCK_MONOTONIC, date);
}

/* A callback of the bank that handles each event: the program's two, then those after its bank. */
static int take_callback(void) {
  unsigned place = run->made.callbacks++;
  unsigned number = place == 0 ? 0 : place == 1 ? PROGRAM_BANK - 1 : PROGRAM_BANK + place - 2;
  if (number >= HANDLERS) return -1;
  if (number >= kept->known.callbacks) kept->known.callbacks = number + 1;
  if (run->is_open && number >= PROGRAM_BANK && number >= run->opened.callbacks) begin_again();
  return (int)number;
}

static struct handler *new_handler(void) {
  for (int each = 0; each < HANDLERS; each++) {
    if (!run->handlers[each].is_used) return &run->handlers[each];
  }
  return NULL;
}

/* Makes a timer in the core, and returns its number or the error. */
static int make_timer(void) {
  at_call();
  struct handler *handler = new_handler();
  int callback = take_callback();
  if (handler == NULL || callback < 0) return -EMFILE;
  evlsim_answer answer = do_call(caller(), evlsim_call_new_timer((uint8_t)callback, 0));
  if (!evlsim_has(answer, EVLSIM_NUMBER)) return error_of(answer);
  struct handler made = {true, true, true, (uint8_t)callback, (uint16_t)answer.number, NULL, NULL};
  *handler = made;
  struct timer timer = {true, -1, NEVER, 0, 0, NULL};
  run->timers[answer.number] = timer;
  go_on();
  return (int)answer.number;
}

int evl_new_timer(int clockfd) {
  (void)clockfd;
  expect_run("evl_new_timer");
  int group = make_flags(0);
  int number = group < 0 ? -EMFILE : make_timer();
  if (number < 0) return number;
  run->timers[number].group = group;
  return fd_of(FD_TIMER, number);
}

static int timer_of(int efd) {
  int number = number_of(efd, FD_TIMER);
  return number >= 0 && number < ELEMENTS && run->timers[number].is_made ? number : -1;
}

/* Starts or, with a date of 0, stops a timer; the moment is its caller's, before it looks which timer that is. */
static int set_timer(int number, uint64_t date, uint64_t interval) {
  struct timer *timer = &run->timers[number];
  timer->date = date == 0 ? NEVER : date;
  timer->interval = interval;
  timer->ticks = 0;
  evlsim_call call = date == 0 ? evlsim_call_stop_timer((uint16_t)number)
                               : evlsim_call_start_timer((uint16_t)number, date, interval);
  evlsim_answer answer = do_call(caller(), call);
  go_on();
  return error_of(answer);
}

static void tell_timer(const struct timer *timer, struct itimerspec *value) {
  timer->date == NEVER ? write_date(0, &value->it_value) : write_point(timer->date, &value->it_value);
  write_date(timer->interval, &value->it_interval);
}

int evl_get_timer(int efd, struct itimerspec *value) {
  expect_run("evl_get_timer");
  at_call();
  int number = timer_of(efd);
  if (number < 0) return -EBADF;
  tell_timer(&run->timers[number], value);
  return 0;
}

int evl_set_timer(int efd, const struct itimerspec *value, struct itimerspec *before) {
  expect_run("evl_set_timer");
  uint64_t date, interval;
  at_call();
  int number = timer_of(efd);
  if (number < 0) return -EBADF;
  if (value == NULL || !read_date(&value->it_value, &date)) return invalid();
  if (!read_date(&value->it_interval, &interval)) return invalid();
  if (before != NULL) tell_timer(&run->timers[number], before);
  return set_timer(number, date == 0 ? 0 : first_fire(date), interval);
}

/* Reads how often a timer has fired since the last read, and waits till it does; it waits again where another has read
   that meanwhile. */
static ssize_t read_timer(int number, void *bytes, size_t count) {
  if (number >= ELEMENTS || !run->timers[number].is_made) return with_errno(-EBADF, -1);
  if (count < sizeof(uint64_t)) return with_errno(invalid(), -1);
  struct timer *timer = &run->timers[number];
  int error = go_oob();
  do {
    if (error != 0) return with_errno(error, -1);
    error = error_of(simple_wait(evlsim_call_begin_take((uint16_t)timer->group, EVLSIM_TAKE_ANY, 0), NEVER));
  } while (error != 0 || timer->ticks == 0);
  uint64_t ticks = timer->ticks;
  timer->ticks = 0;
  see_write(bytes, sizeof ticks), memcpy(bytes, &ticks, sizeof ticks);
  return (ssize_t)sizeof ticks;
}

/* What follows the fire of a timer. */
static void fire_timer(int number) {
  struct timer *timer = &run->timers[number];
  if (timer->core != NULL) {
    if (timer->core->handler != NULL) timer->core->handler(timer->core);
  } else if (timer->group >= 0) {
    (void)do_call(IDLE, evlsim_call_post_flags((uint16_t)timer->group, 1));
  }
}

/* The core's timers. */
void evl_init_timer(struct evl_timer *timer, void (*handler)(struct evl_timer *timer)) {
  expect_run("evl_init_timer");
  int number = make_timer();
  if (number < 0) fail("there are no more timers or callbacks");
  run->timers[number].core = timer;
  timer->efd = fd_of(FD_TIMER, number);
  timer->handler = handler;
}

void evl_start_timer(struct evl_timer *timer, ktime_t date, ktime_t interval) {
  at_call();
  int number = timer_of(timer->efd);
  if (number < 0 || date < 0 || interval < 0) fail("a timer is started that isn't made, or at a negative date");
  (void)set_timer(number, first_fire((uint64_t)date), (uint64_t)interval);
}

void evl_stop_timer(struct evl_timer *timer) {
  at_call();
  int number = timer_of(timer->efd);
  if (number >= 0) (void)set_timer(number, 0, 0);
}

void evl_destroy_timer(struct evl_timer *timer) {
  at_call();
  int number = timer_of(timer->efd);
  if (number < 0) return;
  (void)do_call(caller(), evlsim_call_drop_timer((uint16_t)number));
  run->timers[number].is_made = false;
  timer->efd = -1;
  go_on();
}

uint64_t evl_get_timer_overruns(struct evl_timer *timer) {
  int number = timer_of(timer->efd);
  return number < 0 ? 0 : call_core(evlsim_call_overruns((uint16_t)number)).number;
}
