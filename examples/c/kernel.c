/* A bench in C with a kernel of its own: three threads, a chain of two mutexes, and which ranks the threads have by it.
 */
#include <evlsim.h>
#include <stdio.h>
#include <stdlib.h>

static evlsim_kernel kernel = EVLSIM_NO_KERNEL;

static void require(bool holds, const char *what) {
  if (!holds) {
    fprintf(stderr, "not so: %s\n", what);
    exit(EXIT_FAILURE);
  }
}
#define REQUIRE(holds) require(holds, #holds)

static void attach(uint16_t who, uint8_t prio) {
  REQUIRE(evlsim_is_done(evlsim_do(&kernel, who, evlsim_call_attach(evlsim_fifo(prio), EVLSIM_OOB))));
}

/* Thread 3 waits for thread 2, which waits for thread 1: both have thread 3's rank, until its deadline. */
static void try_chain(void) {
  REQUIRE(evlsim_is_begun(evlsim_do(&kernel, 2, evlsim_call_claim(0, 1))));
  REQUIRE(evlsim_see_rank(&kernel, 1) == 540);
  REQUIRE(evlsim_is_begun(evlsim_do(&kernel, 3, evlsim_until(evlsim_call_claim(1, 2), 100))));
  REQUIRE(evlsim_see_rank(&kernel, 1) == 590 && evlsim_see_rank(&kernel, 2) == 590);
  REQUIRE(evlsim_see_owner(&kernel, 0) == 1 && evlsim_see_waiter(&kernel, EVLSIM_ON_MUTEX, 1, 0, 0) == 3);
  REQUIRE(evlsim_see_picked(&kernel) == 1 && evlsim_see_waits(&kernel, 3) && !evlsim_see_finished(&kernel, 3));

  evlsim_answer ticked = evlsim_do(&kernel, 0, evlsim_call_tick(100));
  evlsim_event event;
  REQUIRE(evlsim_is_done(ticked) && ticked.plays == 2);
  REQUIRE(evlsim_ok(evlsim_event_at(&kernel, ticked.first_play + 1, &event)));
  REQUIRE(event.kind == EVLSIM_PLAY_DEADLINE && event.element == 3);
  REQUIRE(evlsim_see_rank(&kernel, 1) == 540 && evlsim_see_picked(&kernel) == 3);
  REQUIRE(evlsim_is_timed_out(evlsim_do(&kernel, 3, evlsim_call_finish(false))));
}

/* Bytes go through a cross-buffer, and come back. */
static void try_bytes(void) {
  const uint8_t written[] = {0, 255};
  uint8_t read[256] = {7, 7};
  REQUIRE(evlsim_is_done(evlsim_do_bytes(&kernel, 0, evlsim_call_write(0, EVLSIM_IN), written, 2, NULL, 0)));
  REQUIRE(evlsim_see_stored(&kernel, 0, EVLSIM_IN) == 2);
  evlsim_answer answer = evlsim_do_bytes(&kernel, 1, evlsim_call_read(0, EVLSIM_IN, 8), NULL, 0, read, sizeof read);
  REQUIRE(evlsim_has(answer, EVLSIM_BYTES) && answer.number == 2 && read[0] == 0 && read[1] == 255);
}

int main(void) {
  const evlsim_mutex mutexes[] = {{EVLSIM_NORMAL, 0}, {EVLSIM_NORMAL, 0}};
  const evlsim_rings rings[] = {{16, 16}};
  evlsim_board board = {4, NULL, 0, NULL, 0, rings, 1, mutexes, 2, NULL, 0};
  REQUIRE(evlsim_ok(evlsim_open(&kernel, &board, evlsim_program_bank, EVLSIM_PROGRAM_BANK, 1000)));
  attach(1, 8);
  attach(2, 28);
  attach(3, 78);
  try_chain();
  try_bytes();
  REQUIRE(evlsim_refused_as(evlsim_do(&kernel, 0, evlsim_call_put(9)), EVLSIM_REFUSAL_UNKNOWN));
  evlsim_close(&kernel);
  REQUIRE(!evlsim_was_called(evlsim_do(&kernel, 0, evlsim_call_now())));
  return EXIT_SUCCESS;
}
