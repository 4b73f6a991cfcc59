/* Rounds of calls through C: rounds WHAT ROUNDS, as bench/c/rounds makes them from Rattle. */
#include <evlsim.h>
#include <stdio.h>
#include <stdlib.h>
#include <string.h>
#include <time.h>

static evlsim_kernel kernel = EVLSIM_NO_KERNEL;

static unsigned puts_and_gets(unsigned rounds) {
  unsigned done = 0;
  for (unsigned it = 0; it < rounds; it++) {
    evlsim_answer put = evlsim_do(&kernel, 0, evlsim_call_put(0));
    evlsim_answer got = evlsim_do(&kernel, 0, evlsim_call_try_get(0));
    done += evlsim_is_done(put) && evlsim_is_done(got);
  }
  return done;
}

/* The same by evlsim_apply, which has a call's every key: evlsim_do takes a shorter way for a call with an element alone. */
static unsigned applied_puts(unsigned rounds) {
  const evlsim_call put = evlsim_call_put(0), get = evlsim_call_try_get(0);
  unsigned done = 0;
  for (unsigned it = 0; it < rounds; it++) {
    evlsim_answer first, second;
    (void)evlsim_apply(&kernel, 0, &put, NULL, 0, NULL, 0, &first);
    (void)evlsim_apply(&kernel, 0, &get, NULL, 0, NULL, 0, &second);
    done += evlsim_is_done(first) && evlsim_is_done(second);
  }
  return done;
}

static unsigned arrivals(unsigned rounds) {
  unsigned done = 0;
  (void)evlsim_do(&kernel, 0, evlsim_call_request(4, EVLSIM_OOB, 0, 0));
  for (unsigned it = 0; it < rounds; it++) done += evlsim_is_done(evlsim_do(&kernel, 0, evlsim_call_arrive(4)));
  return done;
}

static unsigned posts_and_takes(unsigned rounds) {
  unsigned done = 0;
  for (unsigned it = 0; it < rounds; it++) {
    evlsim_answer post = evlsim_do(&kernel, 0, evlsim_call_post_flags(0, 5));
    evlsim_answer taken = evlsim_do(&kernel, 0, evlsim_call_try_take(0, EVLSIM_TAKE_EXACT, 5));
    done += evlsim_is_done(post) && evlsim_has(taken, EVLSIM_BITS);
  }
  return done;
}

static unsigned transfers(unsigned rounds) {
  uint8_t bytes[256], read[256];
  unsigned done = 0;
  memset(bytes, 0x5a, sizeof bytes);
  (void)evlsim_do(&kernel, 1, evlsim_call_attach(evlsim_fifo(10), EVLSIM_OOB));
  for (unsigned it = 0; it < rounds; it++) {
    (void)evlsim_do_bytes(&kernel, 0, evlsim_call_write(0, EVLSIM_IN), bytes, 256, NULL, 0);
    done += evlsim_has(evlsim_do_bytes(&kernel, 1, evlsim_call_read(0, EVLSIM_IN, 256), NULL, 0, read, 256), EVLSIM_BYTES);
  }
  return done;
}

int main(int count, char **words) {
  const uint32_t none[1] = {0};
  const evlsim_rings rings[1] = {{256, 256}};
  const evlsim_board board = {2, none, 1, none, 1, rings, 1, NULL, 0, NULL, 0};
  const evlsim_plan quiet = {1, 0, 0, EVLSIM_NO_ROWS};
  const char *what = count > 1 ? words[1] : "puts";
  unsigned rounds = count > 2 ? (unsigned)strtoul(words[2], NULL, 10) : 1000, done;
  clock_t start;
  if (!evlsim_ok(evlsim_open(&kernel, &board, &quiet, 1, 1000000))) return EXIT_FAILURE;
  start = clock();
  done = strcmp(what, "arrivals") == 0       ? arrivals(rounds)
         : strcmp(what, "posts") == 0        ? posts_and_takes(rounds)
         : strcmp(what, "transfers") == 0    ? transfers(rounds)
         : strcmp(what, "applied_puts") == 0 ? applied_puts(rounds)
                                             : puts_and_gets(rounds);
  printf("c, %s: %u rounds in %.0f us\n", what, done, (double)(clock() - start) * 1e6 / CLOCKS_PER_SEC);
  evlsim_close(&kernel);
  return EXIT_SUCCESS;
}
