/*
 * pthread_mutex_t of each kind between in-band threads, with a turn at any moment: it keeps the others out, and answers
 * as POSIX has it. Prints what isn't so. It is compiled with -fsanitize=thread.
 */
#define _GNU_SOURCE
#include <errno.h>
#include <evl/evl.h>
#include <evlsim/runner.h>
#include <pthread.h>
#include <stdio.h>
#include <string.h>
#include <time.h>
#include <unistd.h>

static int kind;
static pthread_mutex_t mutex;
static int inside, entered;

static void make(void) {
  pthread_mutexattr_t attr;
  pthread_mutexattr_init(&attr);
  pthread_mutexattr_settype(&attr, kind);
  evlsim_require(pthread_mutex_init(&mutex, &attr) == 0);
  pthread_mutexattr_destroy(&attr);
}

static void expect(int answer, int wanted, const char *what) {
  if (answer != wanted) evlsim_fail("%s is answered %d in place of %d", what, answer, wanted);
}

static void *enter(void *it) {
  expect(pthread_mutex_lock(&mutex), 0, "a lock");
  if (kind == PTHREAD_MUTEX_RECURSIVE) expect(pthread_mutex_lock(&mutex), 0, "a second lock");
  if (kind == PTHREAD_MUTEX_ERRORCHECK) expect(pthread_mutex_lock(&mutex), EDEADLK, "a second lock");
  evlsim_require(++inside == 1);
  usleep(10);
  inside--;
  entered++;
  if (kind == PTHREAD_MUTEX_RECURSIVE) expect(pthread_mutex_unlock(&mutex), 0, "an inner unlock");
  expect(pthread_mutex_unlock(&mutex), 0, "an unlock");
  return it;
}

static void keeps_out(void) {
  pthread_t threads[3];
  make();
  evlsim_may_switch(2);
  for (int each = 0; each < 3; each++) pthread_create(&threads[each], NULL, enter, NULL);
  for (int each = 0; each < 3; each++) pthread_join(threads[each], NULL);
  evlsim_require(entered == 3);
  expect(pthread_mutex_destroy(&mutex), 0, "a destroy");
}

/* What another thread gets while the body has the mutex. */
static void *try_it(void *it) {
  struct timespec date;
  expect(pthread_mutex_trylock(&mutex), EBUSY, "a try");
  if (kind != PTHREAD_MUTEX_NORMAL) expect(pthread_mutex_unlock(&mutex), EPERM, "an unlock by another");
  clock_gettime(CLOCK_REALTIME, &date);
  date.tv_nsec += 500;
  if (date.tv_nsec >= 1000000000) date.tv_sec++, date.tv_nsec -= 1000000000;
  expect(pthread_mutex_timedlock(&mutex, &date), ETIMEDOUT, "a lock for a time");
  return it;
}

static void answers(void) {
  pthread_t thread;
  make();
  expect(pthread_mutex_trylock(&mutex), 0, "a try of a free one");
  expect(pthread_mutex_trylock(&mutex), kind == PTHREAD_MUTEX_RECURSIVE ? 0 : EBUSY, "a try of one's own");
  pthread_create(&thread, NULL, try_it, NULL);
  pthread_join(thread, NULL);
  if (kind == PTHREAD_MUTEX_RECURSIVE) expect(pthread_mutex_unlock(&mutex), 0, "an inner unlock");
  expect(pthread_mutex_unlock(&mutex), 0, "an unlock");
  if (kind != PTHREAD_MUTEX_NORMAL) expect(pthread_mutex_unlock(&mutex), EPERM, "an unlock of a free one");
}

static void *keep_it(void *it) {
  pthread_mutex_lock(&mutex);
  return it;
}

static void ends_with_it(void) {
  pthread_t thread;
  make();
  pthread_create(&thread, NULL, keep_it, NULL);
  pthread_join(thread, NULL);
}

/* Whether the first outcome, or that of the failure, is this one. */
static bool ends(void (*body)(void), const char *name, const char *wanted) {
  evlsim_limits limits = {.quiet = true};
  bool failed = evlsim_explore_as(body, name, &limits, NULL) != 0;
  const char *text = "", *next;
  for (uint32_t each = 0; (next = evlsim_outcome(each, NULL, NULL)) != NULL; each++) text = next;
  bool well = failed == (*wanted != 0) && strcmp(text, wanted) == 0;
  if (!well) printf("not so: %s of kind %d: %s\n", name, kind, text);
  return well;
}

int main(void) {
  static const int kinds[] = {PTHREAD_MUTEX_NORMAL, PTHREAD_MUTEX_RECURSIVE, PTHREAD_MUTEX_ERRORCHECK};
  bool well = true;
  for (int each = 0; each < 3; each++) {
    kind = kinds[each];
    well = well && ends(keeps_out, "three threads", "") && ends(answers, "answers", "");
    well = well && ends(ends_with_it, "a thread that ends with it", "FAILED: T2  ends, and has an in-band mutex");
  }
  return well ? 0 : 1;
}
