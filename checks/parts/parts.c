/*
 * For checks/parts/divided.py: a driver's test with limits of the environment: $JOBS processes, $PART of $PARTS parts,
 * and $GOES_ON and $WHOLE, if they are there. Prints what was counted, and each outcome with its lists and the first of
 * them. Link the test with -Wl,--wrap=evlsim_explore_as.
 */
#include <evlsim/runner.h>
#include <inttypes.h>
#include <stdio.h>
#include <stdlib.h>

int __real_evlsim_explore_as(void (*body)(void), const char *name, const evlsim_limits *limits, evlsim_explored *explored);

static uint32_t number_of(const char *name) {
  const char *text = getenv(name);
  return text == NULL ? 0 : (uint32_t)atoi(text);
}

static void print_outcomes(void) {
  uint64_t lists;
  const char *text, *choices;
  for (uint32_t each = 0; (text = evlsim_outcome(each, &lists, &choices)) != NULL; each++) {
    printf("outcome\t%s\t%" PRIu64 "\t%s\n", text, lists, choices);
  }
}

int __wrap_evlsim_explore_as(void (*body)(void), const char *name, const evlsim_limits *limits, evlsim_explored *explored) {
  evlsim_limits own = {0};
  evlsim_explored found;
  if (limits != NULL) own = *limits;
  own.goes_on = getenv("GOES_ON") != NULL;
  own.whole = getenv("WHOLE") != NULL;
  own.jobs = number_of("JOBS"), own.part = number_of("PART"), own.parts = number_of("PARTS");
  int status = __real_evlsim_explore_as(body, name, &own, &found);
  printf("counted\tlists %" PRIu64 " runs %" PRIu64 " left_out %" PRIu64 " steps %" PRIu64, found.lists, found.runs,
         found.left_out, found.steps);
  printf(" not_tried %" PRIu64 " others %" PRIu64 " touched %" PRIx64 "\n", found.not_tried, found.others, found.touched);
  print_outcomes();
  if (explored != NULL) *explored = found;
  return status;
}
