/*
 * Questions of a test, of which an exploration tries each answer: its own, in hardware, handlers and threads, and how
 * late the clock comes. Prints what isn't so. It is compiled with -fsanitize=thread.
 */
#include <evl/evl.h>
#include <evlsim/runner.h>
#include <linux/interrupt.h>
#include <pthread.h>
#include <stdio.h>
#include <stdlib.h>
#include <string.h>

static int timer;
static uint64_t ticks;
static unsigned good, bad;

/* Each answer to two questions. */
static void two_questions(void) {
  unsigned first = evlsim_choose(3), second = first == 0 ? 7 : evlsim_choose(2);
  evlsim_say("%u%u", first, second);
}

/* A frame that comes may be bad. */
static void frame_comes(void *it) {
  (void)it;
  if (evlsim_choose(2) == 0) good++;
  else bad++;
}
static irqreturn_t on_frame(int irq, void *device) {
  (void)irq, (void)device;
  evlsim_say("handler %u ", evlsim_choose(2));
  return IRQ_HANDLED;
}
static void frames(void) {
  request_irq(5, on_frame, IRQF_OOB, "frame", NULL);
  evlsim_may_arrive(5, 1, frame_comes, NULL);
  evlsim_rest();
  evlsim_say("%u good, %u bad", good, bad);
}
static void no_bad_frame(void) {
  frames();
  evlsim_require(bad == 0);
}

/* A periodic timer, one tick of which may be read with the next. */
static void start_timer(void) {
  struct itimerspec dates = {{0, 10000}, {0, 0}};
  evl_attach_self("reader");
  timer = evl_new_timer(EVL_CLOCK_MONOTONIC);
  struct timespec now;
  evl_read_clock(EVL_CLOCK_MONOTONIC, &now);
  dates.it_value = now, dates.it_value.tv_sec++;
  evl_set_timer(timer, &dates, NULL);
}
static void overruns(void) {
  start_timer();
  evlsim_may_be_late(15000);
  for (int each = 0; each < 2; each++) {
    evlsim_require(oob_read(timer, &ticks, sizeof ticks) == sizeof ticks);
    evlsim_say("%u ", (unsigned)ticks);
  }
}

/* A sleep that lasts longer: till another one's date, or as long as it may. */
static void *sleep_longer(void *it) {
  evl_attach_self("other");
  evl_usleep(12);
  return it;
}
static uint64_t nanoseconds(void) {
  struct timespec now;
  evl_read_clock(EVL_CLOCK_MONOTONIC, &now);
  return (uint64_t)now.tv_sec * 1000000000u + (uint64_t)now.tv_nsec;
}
static void sleeps(void) {
  pthread_t thread;
  pthread_create(&thread, NULL, sleep_longer, NULL);
  evlsim_settle();
  evlsim_may_be_late(5000);
  uint64_t before = nanoseconds();
  evlsim_pass(10000);
  evlsim_say("%u", (unsigned)(nanoseconds() - before));
}

/* Too many answers. */
static void no_answers(void) {
  evlsim_may_switch(0);
  (void)evlsim_choose(257);
}

static bool holds(bool it, const char *what, const char *more) {
  if (!it) printf("not so: %s: %s\n", what, more);
  return it;
}

/* Whether an exploration has just these outcomes, in any order. */
static bool comes_to(void (*body)(void), const char *name, uint32_t arrivals, const char *const *wanted, uint32_t count) {
  evlsim_limits limits = {.arrivals = arrivals, .quiet = true, .goes_on = true, .in_handlers = true};
  evlsim_explored told;
  (void)evlsim_explore_as(body, name, &limits, &told);
  const char *text;
  bool well = holds(told.outcomes == count, name, "another number of outcomes");
  for (uint32_t each = 0; (text = evlsim_outcome(each, NULL, NULL)) != NULL; each++) {
    bool is_wanted = false;
    for (uint32_t it = 0; it < count; it++) is_wanted = is_wanted || strcmp(wanted[it], text) == 0;
    well = holds(is_wanted, name, text) && well;
  }
  return well;
}
#define COMES_TO(body, arrivals, ...)                             \
  comes_to(body, #body, arrivals, (const char *const[]){__VA_ARGS__}, \
           sizeof((const char *const[]){__VA_ARGS__}) / sizeof(char *))

/* How one list ends. */
static const char *outcome_of(void (*body)(void), const char *list) {
  (void)evlsim_replay_as(body, "replayed", list);
  const char *text = evlsim_outcome(0, NULL, NULL);
  return text == NULL ? "none" : text;
}

/* Whether the list that failed fails again. */
static bool replays(void) {
  const char *choices = "", *text;
  char list[128];
  evlsim_limits limits = {.quiet = true};
  bool failed = evlsim_explore_as(no_bad_frame, "no_bad_frame", &limits, NULL) != 0;
  for (uint32_t each = 0; (text = evlsim_outcome(each, NULL, NULL)) != NULL; each++) {
    if (strstr(text, "FAILED") != NULL) (void)evlsim_outcome(each, NULL, &choices);
  }
  snprintf(list, sizeof list, "%s", choices);
  bool is_list = strstr(list, "line 5 @ ") != NULL && strstr(list, ", choice 1 @ ") != NULL;
  return holds(failed && is_list, "the list has an answer", list) &&
         holds(strstr(outcome_of(no_bad_frame, list), "FAILED") != NULL, "it fails again", list);
}

int main(int count, char **words) {
  if (count > 1 && strcmp(words[1], "report") == 0) return evlsim_explore(no_bad_frame, NULL);
  bool well = COMES_TO(two_questions, 1, "07", "10", "20");
  well = COMES_TO(two_questions, 2, "07", "10", "11", "20", "21") && well;
  well = COMES_TO(frames, 1, "0 good, 0 bad", "handler 0 1 good, 0 bad") && well;
  well = COMES_TO(frames, 3, "0 good, 0 bad", "handler 0 1 good, 0 bad", "handler 0 0 good, 1 bad",
                  "handler 1 1 good, 0 bad", "handler 1 0 good, 1 bad") && well;
  well = COMES_TO(sleeps, 1, "10000", "12000", "15000") && well;
  well = COMES_TO(overruns, 1, "1 1 ", "2 1 ", "1 2 ") && well;
  well = replays() && well;
  const char *text = outcome_of(two_questions, "choice 2 @ 1");
  well = holds(strcmp(text, "20") == 0, "an answer of a list", text) && well;
  text = outcome_of(two_questions, "choice 3 @ 1");
  well = holds(strstr(text, "can't come there") != NULL, "no such answer", text) && well;
  text = outcome_of(two_questions, "late 1 @ 1");
  well = holds(strstr(text, "can't come there") != NULL, "another question", text) && well;
  text = outcome_of(no_answers, "");
  well = holds(strstr(text, "1 to 256 answers") != NULL, "too many answers", text) && well;
  return well ? EXIT_SUCCESS : EXIT_FAILURE;
}
