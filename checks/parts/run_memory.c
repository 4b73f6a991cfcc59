/* Memory that no run gives back goes with the process that has it: many runs need little more of it than some. */
#include <evl/evl.h>
#include <evlsim/runner.h>
#include <stdio.h>
#include <stdlib.h>
#include <string.h>
#include <sys/resource.h>

enum { LARGE = 1 << 20, MOST_MEGABYTES = 640 };
static volatile int count;

static void take_memory(void) {
  char *memory = malloc(LARGE);
  evlsim_require(memory != NULL);
  memset(memory, 1, LARGE);
  evlsim_may_arrive(5, 2, NULL, NULL);
  while (count < 20) count++;
  evlsim_rest();
  evlsim_say("%d", memory[LARGE - 1]);
}

static long megabytes(int who) {
  struct rusage used;
  return getrusage(who, &used) == 0 ? used.ru_maxrss / 1024 : -1;
}

int main(void) {
  evlsim_limits limits = {.whole = true, .quiet = true};
  evlsim_explored told;
  bool failed = evlsim_explore_as(take_memory, "take_memory", &limits, &told) != 0;
  long own = megabytes(RUSAGE_SELF), theirs = megabytes(RUSAGE_CHILDREN);
  bool is_well = !failed && told.runs > MOST_MEGABYTES && told.lists == told.runs && told.outcomes == 1;
  if (is_well && own > 0 && own < MOST_MEGABYTES && theirs > 0 && theirs < MOST_MEGABYTES) return EXIT_SUCCESS;
  printf("%s, %llu runs of a megabyte; %ld megabytes in the process, and %ld in those it made\n",
         failed ? "failed" : "passed", (unsigned long long)told.runs, own, theirs);
  return EXIT_FAILURE;
}
