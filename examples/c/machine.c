/*
 * Two host threads call one machine at once: each counts under a mutex, and enters a stax. The trace shows only what took the core: a
 * mutex that nobody claims is locked and unlocked by its word alone.
 */
#include <evlsim/waits.h>

#include <pthread.h>
#include <stdio.h>
#include <stdlib.h>

#define ROUNDS 10000

static void require(bool holds) {
  if (!holds) abort();
}

/* What a host thread has: its caller, and what all of them count under mutex 0. */
typedef struct worker {
  evlsim_caller *caller;
  unsigned *count;
} worker;

static void *work(void *given) {
  worker *own = given;
  require(evlsim_is_done(evlsim_do_call(own->caller, evlsim_call_attach(evlsim_fifo(10), EVLSIM_OOB))));
  for (int round = 0; round < ROUNDS; round++) {
    if (!evlsim_is_done(evlsim_try_lock_mutex(own->caller, 0))) require(evlsim_is_done(evlsim_lock_mutex(own->caller, 0)));
    *own->count += 1;
    require(evlsim_is_done(evlsim_unlock_mutex(own->caller, 0)));
    if (evlsim_is_done(evlsim_try_lock_stax(own->caller, 0))) {
      require(evlsim_is_done(evlsim_unlock_stax(own->caller, 0)));
    }
  }
  return NULL;
}

int main(void) {
  const evlsim_mutex mutexes[] = {{EVLSIM_NORMAL, 0}};
  const evlsim_board board = {.threads = 2, .mutexes = mutexes, .mutex_count = 1};
  const uint16_t staxes[] = {2};
  evlsim_caller callers[2];
  unsigned count = 0;
  worker workers[2] = {{&callers[0], &count}, {&callers[1], &count}};
  pthread_t threads[2];
  size_t length = 0;
  require(evlsim_ok(evlsim_machine_open(callers, 2, &board, staxes, 1, NULL, 0, EVLSIM_MAX_LIMIT)));
  for (int place = 0; place < 2; place++) require(!pthread_create(&threads[place], NULL, work, &workers[place]));
  for (int place = 0; place < 2; place++) pthread_join(threads[place], NULL);
  require(count == 2 * ROUNDS);
  require(evlsim_ok(evlsim_caller_trace(&callers[0], 0, NULL, 0, &length)) && length > 0);
  printf("%u counted by 2 host threads\n", count);
  for (int place = 0; place < 2; place++) evlsim_caller_close(&callers[place]);
  return 0;
}
