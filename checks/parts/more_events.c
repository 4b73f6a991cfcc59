/*
 * For checks/explore: a driver's test whose sources have $MORE events more than it says, in runs of up to $EVENTS
 * events. Link the test with -Wl,--wrap=evlsim_explore_as -Wl,--wrap=evlsim_may_arrive_as.
 */
#include <evlsim/runner.h>
#include <inttypes.h>
#include <stdio.h>
#include <stdlib.h>

int __real_evlsim_explore_as(void (*body)(void), const char *name, const evlsim_limits *limits, evlsim_explored *explored);
void __real_evlsim_may_arrive_as(const char *arguments, unsigned line, unsigned times, void (*device)(void *it), void *it);

static unsigned more EVLSIM_KEPT;

int __wrap_evlsim_explore_as(void (*body)(void), const char *name, const evlsim_limits *limits, evlsim_explored *explored) {
  evlsim_limits wide = {0};
  evlsim_explored found;
  (void)explored;
  if (limits) wide = *limits;
  wide.arrivals = (uint32_t)atoi(getenv("EVENTS"));
  wide.runs = UINT64_MAX;
  more = (unsigned)atoi(getenv("MORE"));
  int status = __real_evlsim_explore_as(body, name, &wide, &found);
  printf("%" PRIu64 " lists, %" PRIu64 " runs, %" PRIu32 " outcomes%s\n", found.lists, found.runs, found.outcomes,
         found.is_cut ? ", CUT OFF" : "");
  return status;
}

void __wrap_evlsim_may_arrive_as(const char *arguments, unsigned line, unsigned times, void (*device)(void *it), void *it) {
  __real_evlsim_may_arrive_as(arguments, line, times + more, device, it);
}
