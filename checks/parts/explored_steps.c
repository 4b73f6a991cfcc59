/*
 * Explores threads whose steps are read from standard input, and prints each outcome: what each thread was answered,
 * how many arrivals came, and the counts that are left. checks/drivers compares them with those of lab orders.
 *
 *   ARRIVALS COUNT COUNT BITS          how often line 5 arrives, which puts semaphore 0; two semaphores, a flag group
 *   PRIO STEP STEP ..                  a thread: g0 gets semaphore 0, t0 tries, p0 puts, k0 peeks, f3 posts bits 3,
 *                                      w3 waits for bits of 3, x3 for just 3, y3 tries bits of 3
 */
#include <evl/evl.h>
#include <evlsim/runner.h>
#include <pthread.h>
#include <stdio.h>
#include <stdlib.h>
#include <string.h>

enum { THREADS = 4, STEPS = 16, LINE = 512 };
static struct {
  int prio;
  int count;
  char what[STEPS];
  int which[STEPS];
} thread[THREADS];
static int threads, arrivals, opening[3];
static struct evl_sem sem[2];
static struct evl_flags group, begins;

static void make_step(char what, int which) {
  int taken;
  switch (what) {
    case 'g': (void)evl_get_sem(&sem[which]); break;
    case 't': (void)evl_tryget_sem(&sem[which]); break;
    case 'p': (void)evl_put_sem(&sem[which]); break;
    case 'k': (void)evl_peek_sem(&sem[which], &taken); break;
    case 'f': (void)evl_post_flags(&group, which); break;
    case 'w': (void)evl_wait_some_flags(&group, which, &taken); break;
    case 'x': (void)evl_wait_exact_flags(&group, which); break;
    default: (void)evl_trywait_some_flags(&group, which, &taken);
  }
}

static void *run_steps(void *it) {
  int number = (int)(intptr_t)it, taken;
  evl_attach_self("thread %d", number);
  evl_wait_some_flags(&begins, 1 << number, &taken);
  for (int step = 0; step < thread[number].count; step++) {
    make_step(thread[number].what[step], thread[number].which[step]);
  }
  return NULL;
}

/* Adds the answer of a line of the trace, if it is this thread's and behind the first steps. */
static void say_answer(const char *line, const char *name) {
  int entry = 0;
  const char *end = line + strcspn(line, "\n"), *answer = strstr(line, " -> "), *who = strstr(line, name);
  if (*line == ' ' || sscanf(line, "%d", &entry) != 1 || entry <= 2 + 2 * threads) return;
  if (answer == NULL || answer > end || who == NULL || who > answer) return;
  evlsim_say("%.*s", (int)(end - answer), answer);
}

static void say_answers(const char *text, int number) {
  char name[16];
  snprintf(name, sizeof name, " T%d ", number);
  evlsim_say("T%d", number);
  for (const char *line = text; line != NULL; line = strchr(line, '\n')) say_answer(line += *line == '\n', name);
  evlsim_say("; ");
}

/* Says what each thread was answered, by the lines of the trace. */
static void say_all(void) {
  static char text[1 << 16];
  size_t length = 0;
  evlsim_require(evlsim_ok(evlsim_trace(evlsim_running(), 0, (uint8_t *)text, sizeof text - 1, &length)));
  evlsim_require(length < sizeof text);
  for (int each = 0; each < threads; each++) say_answers(text, each + 2);
  int came = 0;
  for (const char *at = strstr(text, "T0 arrive"); at != NULL; at = strstr(at + 1, "T0 arrive")) came++;
  evlsim_say("%d arrivals; ", came);
}

static void explored_steps(void) {
  for (int each = 0; each < 2; each++) {
    evl_create_sem(&sem[each], EVL_CLOCK_MONOTONIC, opening[each], EVL_CLONE_PRIVATE, "sem");
  }
  evl_create_flags(&group, EVL_CLOCK_MONOTONIC, opening[2], EVL_CLONE_PRIVATE, "flags");
  evl_new_flags(&begins, "begins");
  evlsim_request(5, true, 1);
  for (int each = 0; each < threads; each++) {
    pthread_t it;
    struct sched_param param;
    memset(&param, 0, sizeof param);
    param.sched_priority = thread[each].prio;
    pthread_create(&it, NULL, run_steps, (void *)(intptr_t)each);
    pthread_setschedparam(it, SCHED_FIFO, &param);
  }
  evlsim_settle();
  evlsim_may_arrive(5, (unsigned)arrivals, NULL, NULL);
  evl_post_flags(&begins, (1 << threads) - 1);
  evlsim_rest();
  say_all();
  for (uint16_t each = 0; each < 2; each++) {
    evlsim_say("sem %d: %d; ", each, (int)evlsim_see_count(evlsim_running(), each));
  }
  evlsim_say("flags 0: %d", (int)evlsim_see_bits(evlsim_running(), 0));
}

/* Reads a thread's line. */
static void read_thread(char *line) {
  char *word = strtok(line, " \n");
  if (word == NULL || threads == THREADS) return;
  thread[threads].prio = atoi(word);
  for (word = strtok(NULL, " \n"); word != NULL && thread[threads].count < STEPS; word = strtok(NULL, " \n")) {
    int step = thread[threads].count++;
    thread[threads].what[step] = word[0];
    thread[threads].which[step] = atoi(word + 1);
  }
  threads++;
}

int main(void) {
  char line[LINE];
  if (scanf("%d %d %d %d\n", &arrivals, &opening[0], &opening[1], &opening[2]) != 4) return EXIT_FAILURE;
  while (fgets(line, sizeof line, stdin) != NULL) read_thread(line);
  evlsim_limits limits;
  memset(&limits, 0, sizeof limits);
  limits.arrivals = (uint32_t)arrivals, limits.goes_on = limits.quiet = true;
  if (evlsim_explore(explored_steps, &limits) != EXIT_SUCCESS) return EXIT_FAILURE;
  for (uint32_t each = 0;; each++) {
    const char *choices, *text = evlsim_outcome(each, NULL, &choices);
    if (text == NULL) return EXIT_SUCCESS;
    puts(text);
  }
}
