/*
 * Sources of events that share a line: how a list names them, and that it replays just the run that failed. Prints what
 * isn't so. It is compiled with -fsanitize=thread.
 */
#include <evl/evl.h>
#include <evlsim/runner.h>
#include <linux/interrupt.h>
#include <stdio.h>
#include <string.h>

static int good, bad;
static irqreturn_t on_line(int irq, void *device) {
  (void)irq, (void)device;
  return IRQ_HANDLED;
}
static void is_good(void *it) { (void)it, good++; }
static void is_bad(void *it) { (void)it, bad++; }
static void counts(void *it) { ++*(int *)it; }

static void expect_none(void) {
  evlsim_rest();
  evlsim_require(bad == 0);
}

/* Two functions. */
static void two_devices(void) {
  request_irq(5, on_line, IRQF_OOB, "line", NULL);
  evlsim_may_arrive(5, 1, is_good, NULL);
  evlsim_may_arrive(5, 1, is_bad, NULL);
  expect_none();
}

/* One function, at two places: their names are equal. */
static void one_device(void) {
  request_irq(5, on_line, IRQF_OOB, "line", NULL);
  evlsim_may_arrive(5, 1, counts, &good);
  evlsim_may_arrive(5, 1, counts, &bad);
  expect_none();
}

/* A source that is opened twice is one, of two events. */
static void one_source(void) {
  request_irq(5, on_line, IRQF_OOB, "line", NULL);
  evlsim_may_arrive(5, 1, is_bad, NULL);
  evlsim_may_arrive(5, 1, is_bad, NULL);
  evlsim_rest();
  evlsim_require(bad < 2);
}

/* Sources of other lines, and those of no function, need no name. */
static void other_lines(void) {
  request_irq(5, on_line, IRQF_OOB, "line", NULL);
  evlsim_may_arrive(6, 1, is_good, NULL);
  (evlsim_may_arrive)(5, 1, is_bad, NULL);
  evlsim_may_pass(1);
  evlsim_may_switch(1);
  expect_none();
}

static bool holds(bool it, const char *what, const char *told) {
  if (!it) printf("not so: %s: %s\n", what, told);
  return it;
}

/* Whether a body fails with this list, and with it again. */
static bool is_replayed(void (*body)(void), const char *name, const char *list) {
  evlsim_limits limits = {.goes_on = true, .quiet = true};
  char found[128] = "none", again[128] = "none";
  const char *choices;
  uint64_t lists;
  (void)evlsim_explore_as(body, name, &limits, NULL);
  for (uint32_t each = 0; evlsim_outcome(each, &lists, &choices) != NULL; each++) {
    if (strstr(evlsim_outcome(each, NULL, NULL), "FAILED") != NULL) snprintf(found, sizeof found, "%s", choices);
  }
  bool fails = evlsim_replay_as(body, name, found) != 0;
  if (evlsim_outcome(0, NULL, &choices) != NULL) snprintf(again, sizeof again, "%s", choices);
  return holds(strcmp(found, list) == 0, name, found) && holds(fails, "the list fails again", found) &&
         holds(strcmp(found, again) == 0, "the list is told again", again);
}

/* How a list ends: its outcome. */
static const char *outcome_of(const char *list) {
  (void)evlsim_replay_as(two_devices, "two_devices", list);
  const char *text = evlsim_outcome(0, NULL, NULL);
  return text == NULL ? "no list" : text;
}

int main(void) {
  const char *unnamed = "FAILED: line 5 has 2 sources here: name one, as line 5 [is_good] @ 2";
  bool well = is_replayed(two_devices, "two_devices", "line 5 [is_bad] @ 2");
  well = well && is_replayed(one_device, "one_device", "line 5 [2] @ 2");
  well = well && is_replayed(one_source, "one_source", "line 5 @ 2, line 5 @ 3");
  well = well && is_replayed(other_lines, "other_lines", "line 5 @ 2");
  const char *good_alone = outcome_of("line 5 [is_good] @ 2");
  well = well && holds(strcmp(good_alone, "") == 0, "the other source passes", good_alone);
  const char *by_place = outcome_of("line 5 [1] @ 2");
  well = well && holds(strcmp(by_place, "") == 0, "a place is a name", by_place);
  const char *ambiguous = outcome_of("line 5 @ 2");
  well = well && holds(strcmp(ambiguous, unnamed) == 0, "a line of two sources needs a name", ambiguous);
  const char *unknown = outcome_of("line 5 [is_worse] @ 2");
  const char *no_source = "FAILED: an event is chosen that no source has";
  well = well && holds(strcmp(unknown, no_source) == 0, "an unknown name", unknown);
  return well ? 0 : 1;
}
