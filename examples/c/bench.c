/* A bench in C: three threads, a chain of two mutexes, and which ranks the threads have by it. */
#include <evlsim.h>
#include <stdarg.h>
#include <stdio.h>
#include <stdlib.h>
#include <string.h>

static char scenario[1 << 14] = "[board]\nthreads = 4\nmutexes = [\"normal\", \"normal\"]\n";
static char told[1 << 10];
static size_t told_before;

/* Adds a step to the scenario, and gives the lines that it adds to the trace. */
static const char *step(const char *keys, ...) {
  size_t length = strlen(scenario);
  length += (size_t)snprintf(scenario + length, sizeof scenario - length, "[[step]]\n");
  va_list values;
  va_start(values, keys);
  vsnprintf(scenario + length, sizeof scenario - length, keys, values);
  va_end(values);

  evlsim_played played;
  memset(told, 0, sizeof told);
  evlsim_status answer = evlsim_play((const uint8_t *)scenario, strlen(scenario), 0, told_before, (uint8_t *)told,
                                     sizeof told - 1, &played);
  if (!evlsim_ok(answer)) {
    fprintf(stderr, "%s at step %u\n", evlsim_status_text(answer), (unsigned)played.step);
    exit(EXIT_FAILURE);
  }
  told_before = played.length;
  return told;
}

static void expect(const char *lines, const char *part) {
  if (strstr(lines, part) == NULL) {
    fprintf(stderr, "there is no \"%s\" in:\n%s", part, lines);
    exit(EXIT_FAILURE);
  }
}

static void attach(int who, int prio) {
  expect(step("do = \"attach\"\nwho = %d\npolicy = \"fifo %d\"\nstage = \"oob\"\n", who, prio), "-> done\n");
}

static void expect_rank(int thread, const char *rank) {
  expect(step("do = \"rank_of\"\nwho = 0\nthread = %d\n", thread), rank);
}

int main(void) {
  expect(step("do = \"now\"\nwho = 0\n"), "1 T0 now -> number 0\n");
  attach(1, 8);
  attach(2, 28);
  attach(3, 78);

  /* Thread 2 waits for thread 1, and thread 3 for thread 2: both have thread 3's rank then. */
  expect(step("do = \"claim\"\nwho = 2\nmutex = 0\nowner = 1\n"), "-> begun\n");
  expect_rank(1, "-> number 540\n");
  expect(step("do = \"claim\"\nwho = 3\nmutex = 1\nowner = 2\nuntil = 100\n"), "-> begun\n");
  expect_rank(1, "-> number 590\n");
  expect_rank(2, "-> number 590\n");

  /* Once thread 3 waits no more, thread 1 has thread 2's. */
  expect(step("do = \"tick\"\nwho = 0\ndelta = 100\n"), "  deadline T3\n");
  expect_rank(1, "-> number 540\n");
  expect(step("do = \"pick\"\nwho = 0\n"), "-> thread 3\n");
  return EXIT_SUCCESS;
}
