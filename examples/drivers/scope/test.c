/*
 * The scope's front end in the simulator: each sample is either read, whole and in its turn, or counted as lost. The
 * ring is filled before anything is tried, so that each arrival that is tried meets a full one.
 */
#include <evlsim/runner.h>
#include <pthread.h>
#include <unistd.h>

#include "converter.h"
#include "scope.h"

/* The hardware: sample n is n on the left and 100 + n on the right. */
static uint16_t made;
uint16_t converter_left(void) { return made; }
uint16_t converter_right(void) { return (uint16_t)(100 + made); }
static void convert(void *nothing) {
  (void)nothing;
  made++;
}

/* Who reads the samples. */
static struct scope_sample got[32];
static unsigned got_count;
static void *read_all(void *it) {
  const int *buffer = it;
  while (read(*buffer, &got[got_count], sizeof got[0]) == (ssize_t)sizeof got[0]) got_count++;
  return NULL;
}

static void scope_test(void) {
  pthread_t reader;
  int buffer = scope_start();
  evlsim_require(buffer >= 0);
  evlsim_settle();
  for (unsigned each = 0; each < SCOPE_BUFFER + 1 + SCOPE_RING; each++) {
    convert(NULL);
    evlsim_arrive(CONVERTER_IRQ);
  }
  evlsim_may_arrive(CONVERTER_IRQ, 2, convert, NULL);
  pthread_create(&reader, NULL, read_all, &buffer);
  evlsim_rest();
  for (unsigned each = 0; each < got_count; each++) {
    evlsim_require(got[each].right == got[each].left + 100);
    evlsim_require(each == 0 || got[each].left > got[each - 1].left);
  }
  evlsim_require(got_count + scope_lost() == made);
  evlsim_say("%u of %u lost", scope_lost(), made);
}

int main(void) {
  evlsim_limits limits = {.arrivals = 2};
  return evlsim_explore(scope_test, &limits);
}
