/*
 * Dates: that of a run begins where a time from now, taken for a date, is past, and where a sum of nanoseconds has to
 * be carried; and each call has dates of one clock. Prints what isn't so.
 */
#include <errno.h>
#include <evl/evl.h>
#include <evlsim/runner.h>
#include <pthread.h>
#include <stdio.h>
#include <string.h>
#include <time.h>
#include <unistd.h>

enum { SECOND = 1000000000, STARTS = 1999999999 };
static struct evl_sem sem;
static uint64_t starts;

static uint64_t now(void) {
  struct timespec date;
  evl_read_clock(EVL_CLOCK_MONOTONIC, &date);
  return (uint64_t)date.tv_sec * SECOND + (uint64_t)date.tv_nsec;
}

static struct timespec at(uint64_t date) {
  struct timespec it = {(time_t)(date / SECOND), (long)(date % SECOND)};
  return it;
}

static void begin(void) {
  evl_new_sem(&sem, "sem");
  evl_attach_self("main");
  evlsim_require(now() == starts);
}

/* Faults that have to show. */
static void relative(void) {
  struct timespec time = at(2000000);
  begin();
  evlsim_require(evl_timedget_sem(&sem, &time) == -ETIMEDOUT && now() == starts);
}
static void not_carried(void) {
  struct timespec date;
  begin();
  evl_read_clock(EVL_CLOCK_MONOTONIC, &date);
  date.tv_nsec += 500000;
  evlsim_require(evl_timedget_sem(&sem, &date) == -EINVAL);
}

/* The calls that have a date, one after another. */
static void sleeps(void) {
  struct timespec date = at(starts + 100);
  begin();
  evlsim_require(evl_timedget_sem(&sem, &date) == -ETIMEDOUT && now() == starts + 100);
  date = at(starts + 200);
  evlsim_require(evl_sleep_until(EVL_CLOCK_MONOTONIC, &date) == 0 && now() == starts + 200);
  date = at(starts + 300);
  evlsim_require(clock_nanosleep(CLOCK_MONOTONIC, TIMER_ABSTIME, &date, NULL) == 0 && now() == starts + 300);
  date = at(100);
  evlsim_require(clock_nanosleep(CLOCK_MONOTONIC, 0, &date, NULL) == 0 && now() == starts + 400);
  evlsim_require(evl_sleep_until(EVL_CLOCK_MONOTONIC, &date) == 0 && now() == starts + 400);
  evlsim_require(evl_usleep(1) == 0 && now() == starts + 1400);
  evlsim_require(evlsim_see_now(evlsim_running()) == 1400);
}

static void timers(void) {
  uint64_t ticks;
  struct itimerspec dates = {.it_value = at(starts + 50), .it_interval = {0, 20}}, told;
  begin();
  int timer = evl_new_timer(EVL_CLOCK_MONOTONIC);
  evlsim_require(evl_set_timer(timer, &dates, NULL) == 0 && evl_get_timer(timer, &told) == 0);
  evlsim_require(memcmp(&told, &dates, sizeof told) == 0);
  evlsim_require(oob_read(timer, &ticks, sizeof ticks) == sizeof ticks && ticks == 1 && now() == starts + 50);
  evlsim_require(oob_read(timer, &ticks, sizeof ticks) == sizeof ticks && ticks == 1 && now() == starts + 70);
}

static bool passes(void (*body)(void), const char *name, uint64_t date) {
  evlsim_limits limits = {.quiet = true, .starts = date};
  starts = date == 0 ? STARTS : date;
  bool well = evlsim_explore_as(body, name, &limits, NULL) == 0;
  if (!well) printf("not so: %s from %llu: %s\n", name, (unsigned long long)date, evlsim_outcome(0, NULL, NULL));
  return well;
}

int main(void) {
  bool well = passes(relative, "a time in place of a date", 0) && passes(not_carried, "a sum that isn't carried", 0);
  static const uint64_t all[] = {0, 1, SECOND, UINT64_C(1) << 60};
  for (int each = 0; each < 4; each++) {
    well = well && passes(sleeps, "sleeps", all[each]) && passes(timers, "timers", all[each]);
  }
  return well ? 0 : 1;
}
