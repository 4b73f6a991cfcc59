/*
 * Tries machines: what each call of a caller answers, in an order on one host thread; null pointers, callers that are closed, numbers out
 * of their ranges; what the kernel tells; host threads that count under a mutex, put into a semaphore and enter staxes of two stages,
 * in rounds; host threads that wait for one another at each element; and waits for a thread that isn't the caller's. Prints what is
 * wrong, and ends with 1 then.
 */
#include <evlsim/waits.h>

#include <pthread.h>
#include <sched.h>
#include <stdio.h>
#include <stdlib.h>
#include <string.h>
#include <unistd.h>

static unsigned wrong;

static void expect(bool holds, const char *what) {
  if (holds) return;
  printf("machine_tries: not so: %s\n", what);
  wrong++;
}

static const evlsim_mutex mutexes[] = {{EVLSIM_NORMAL, 0}, {EVLSIM_RECURSIVE, 0}, {EVLSIM_CEILING, 50}};
static const uint32_t sems[] = {0};
static const evlsim_rings rings[] = {{16, 16}};
static const uint16_t staxes[] = {2, 1};

static evlsim_board board_of(uint16_t threads) {
  evlsim_board board;
  memset(&board, 0, sizeof board);
  board.threads = threads;
  board.sems = sems, board.sem_count = 1;
  board.xbufs = rings, board.xbuf_count = 1;
  board.mutexes = mutexes, board.mutex_count = 3;
  return board;
}

static bool done(evlsim_answer answer) { return evlsim_is_done(answer); }
static bool refused(evlsim_answer answer, evlsim_refusal why) { return evlsim_refused_as(answer, why); }
static bool is_null(evlsim_answer answer) {
  return !evlsim_was_called(answer) && evlsim_status_is(evlsim_why(answer), EVLSIM_NULL);
}

static evlsim_answer attach(evlsim_caller *caller, uint8_t prio) {
  return evlsim_try_call(caller, evlsim_call_attach(evlsim_fifo(prio), EVLSIM_OOB));
}

/* Two callers, one after the other: docs/use/MACHINE.md has the same calls. */
static void try_in_order(void) {
  const evlsim_board board = board_of(2);
  evlsim_caller both[2];
  evlsim_caller *first = &both[0], *second = &both[1];
  char trace[4096] = "";
  size_t length = 0;
  expect(evlsim_ok(evlsim_machine_open(both, 2, &board, staxes, 2, NULL, 0, 1000)), "a machine is opened");
  expect(refused(evlsim_try_lock_mutex(first, 0), EVLSIM_REFUSAL_WRONG_STAGE), "an in-band thread locks no mutex");
  expect(done(attach(first, 10)) && done(attach(second, 20)), "both are attached");
  expect(refused(evlsim_try_lock_mutex(first, 3), EVLSIM_REFUSAL_UNKNOWN), "there is no mutex 3");
  expect(refused(evlsim_try_unlock_mutex(first, 0), EVLSIM_REFUSAL_NOT_OWNER), "nobody unlocks what it hasn't");
  expect(done(evlsim_try_lock_mutex(first, 0)), "the first locks");
  expect(refused(evlsim_try_lock_mutex(first, 0), EVLSIM_REFUSAL_DEADLOCK), "a normal mutex doesn't nest");
  expect(refused(evlsim_try_lock_mutex(second, 0), EVLSIM_REFUSAL_BUSY), "another has it");
  expect(refused(evlsim_unlock_mutex_fast(second, 0), EVLSIM_REFUSAL_NOT_OWNER), "another doesn't unlock it");
  expect(evlsim_is_begun(evlsim_begin_lock_mutex(second, 0)), "the second waits");
  expect(refused(evlsim_finish_lock_mutex(second), EVLSIM_REFUSAL_AGAIN), "the wait goes on");
  expect(refused(evlsim_try_call(second, evlsim_call_put(0)), EVLSIM_REFUSAL_BUSY), "who waits makes no call");
  expect(refused(evlsim_unlock_mutex_fast(first, 0), EVLSIM_REFUSAL_BUSY), "a claimed mutex isn't unlocked fast");
  expect(done(evlsim_try_unlock_mutex(first, 0)), "the kernel hands it on");
  expect(done(evlsim_finish_lock_mutex(second)), "the second has it");
  expect(done(evlsim_unlock_mutex_fast(second, 0)), "and unlocks it fast");
  for (int depth = 0; depth < 3; depth++) expect(done(evlsim_try_lock_mutex(first, 1)), "a recursive mutex nests");
  for (int depth = 0; depth < 3; depth++) expect(done(evlsim_unlock_mutex_fast(first, 1)), "each pass is spent");
  expect(refused(evlsim_unlock_mutex_fast(first, 1), EVLSIM_REFUSAL_NOT_OWNER), "then none is left");
  expect(done(evlsim_try_lock_mutex(first, 2)), "a mutex with a ceiling");
  expect(refused(evlsim_unlock_mutex_fast(first, 2), EVLSIM_REFUSAL_BUSY), "which the kernel unlocks");
  expect(done(evlsim_try_unlock_mutex(first, 2)), "and it does");
  expect(evlsim_is_begun(evlsim_begin_lock_mutex_until(second, 0, 5)) || done(evlsim_try_unlock_mutex(second, 0)),
         "a free mutex is locked at once, with a deadline too");
  expect(refused(evlsim_finish_lock_mutex(first), EVLSIM_REFUSAL_INVALID), "who doesn't wait has nothing to finish");
  expect(done(evlsim_try_lock_stax(first, 1)), "the first enters a stax");
  expect(refused(evlsim_try_lock_stax(first, 1), EVLSIM_REFUSAL_BUSY), "it is in");
  expect(refused(evlsim_try_lock_stax(second, 1), EVLSIM_REFUSAL_LIMIT), "as many as may hold it");
  expect(refused(evlsim_try_lock_stax(first, 2), EVLSIM_REFUSAL_UNKNOWN), "there is no stax 2");
  expect(refused(evlsim_try_call(first, evlsim_call_detach()), EVLSIM_REFUSAL_HOLDS_STAX), "it stays attached");
  expect(done(evlsim_unlock_stax(first, 1)) && !evlsim_unlock_stax(first, 1).more, "it leaves, and nobody wants in");
  expect(evlsim_ok(evlsim_caller_trace(second, 0, (uint8_t *)trace, sizeof trace - 1, &length)), "the trace is told");
  expect(strstr(trace, "1 T0 attach policy=fifo 10 stage=oob -> done\n2 T1 attach") != NULL, "with both callers' calls");
  expect(length == strlen(trace), "as long as it is");
  evlsim_caller_close(first);
  expect(evlsim_ok(evlsim_caller_trace(second, 0, NULL, 0, &length)), "the machine stays for the other caller");
  evlsim_caller_close(second);
  evlsim_caller_close(second);
  expect(is_null(evlsim_try_lock_mutex(first, 0)) && is_null(evlsim_try_call(first, evlsim_call_put(0))), "closed");
  expect(evlsim_status_is(evlsim_caller_trace(first, 0, NULL, 0, &length), EVLSIM_NULL), "a closed one has no trace");
}

/* What the kernel tells a caller, which enters no call. */
static void try_questions(void) {
  const evlsim_board board = board_of(2);
  evlsim_caller both[2];
  evlsim_reading reading = {false, 7, 7};
  size_t before = 0, after = 0;
  expect(evlsim_ok(evlsim_machine_open(both, 2, &board, NULL, 0, NULL, 0, 100)), "a machine is opened");
  expect(done(attach(&both[0], 10)) && done(attach(&both[1], 20)), "both are attached");
  expect(evlsim_is_begun(evlsim_try_call(&both[1], evlsim_call_begin_get(0))), "the second waits");
  expect(evlsim_ok(evlsim_caller_trace(&both[0], 0, NULL, 0, &before)), "the trace's length");
  expect(evlsim_ok(evlsim_caller_look(&both[0], EVLSIM_SEE_PICKED, 0, &reading)) && reading.there && reading.number == 0,
         "the first is picked");
  expect(evlsim_ok(evlsim_caller_look(&both[0], EVLSIM_SEE_RANK, 1, &reading)) && reading.number == 532, "a rank");
  expect(evlsim_ok(evlsim_caller_look(&both[0], EVLSIM_SEE_COUNT, 0, &reading)) && reading.count == -1, "one waits");
  expect(evlsim_ok(evlsim_caller_ask(&both[0], EVLSIM_SEE_WAITER, 0, EVLSIM_INBAND, EVLSIM_IN, EVLSIM_ON_SEM, 0, &reading)) &&
             reading.number == 1, "and who");
  expect(evlsim_ok(evlsim_caller_look(&both[1], EVLSIM_SEE_FINISHED, 1, &reading)) && !reading.there, "the wait goes on");
  expect(done(evlsim_try_call(&both[0], evlsim_call_put(0))), "the first puts");
  expect(evlsim_ok(evlsim_caller_look(&both[1], EVLSIM_SEE_FINISHED, 1, &reading)) && reading.there, "it is over");
  expect(evlsim_ok(evlsim_caller_look(&both[0], EVLSIM_SEE_COUNT, 9, &reading)) && !reading.there, "no such semaphore");
  expect(evlsim_ok(evlsim_caller_trace(&both[0], 0, NULL, 0, &after)) && after > before, "the put alone was entered");
  reading.number = 7;
  expect(evlsim_status_is(evlsim_caller_look(&both[0], (enum evlsim_question_kind)15, 0, &reading), EVLSIM_BAD_NUMBER) &&
             reading.number == 7, "no such question");
  expect(evlsim_status_is(evlsim_caller_look(NULL, EVLSIM_SEE_NOW, 0, &reading), EVLSIM_NULL), "no caller");
  expect(evlsim_status_is(evlsim_caller_look(&both[0], EVLSIM_SEE_NOW, 0, NULL), EVLSIM_NULL), "no reading");
  for (int place = 0; place < 2; place++) evlsim_caller_close(&both[place]);
  expect(evlsim_status_is(evlsim_caller_look(&both[0], EVLSIM_SEE_NOW, 0, &reading), EVLSIM_NULL), "closed");
}

/* Bytes of a cross-buffer go from one caller to another. */
static void try_bytes(void) {
  const evlsim_board board = board_of(2);
  evlsim_caller both[2];
  uint8_t out[256] = {0};
  evlsim_answer read;
  expect(evlsim_ok(evlsim_machine_open(both, 2, &board, NULL, 0, NULL, 0, 100)), "a machine without staxes");
  expect(done(attach(&both[0], 10)), "a thread out-of-band");
  read = evlsim_try_call_bytes(&both[0], evlsim_call_write(0, EVLSIM_IN), (const uint8_t *)"abc", 3, NULL, 0);
  expect(evlsim_was_called(read), "a write is called");
  read = evlsim_try_call_bytes(&both[0], evlsim_call_read(0, EVLSIM_IN, 300), NULL, 0, out, sizeof out);
  expect(evlsim_was_called(read), "a read is called");
  evlsim_caller_close(&both[0]);
  evlsim_caller_close(&both[1]);
}

/* What cannot be. */
static void try_misuses(void) {
  evlsim_board board = board_of(2);
  evlsim_caller both[2];
  const uint16_t too_many[17] = {1};
  const uint16_t none_in[] = {0};
  evlsim_call call = evlsim_call_put(0);
  size_t length = 0;
  memset(both, 1, sizeof both);
  expect(evlsim_status_is(evlsim_machine_open(NULL, 2, &board, NULL, 0, NULL, 0, 9), EVLSIM_NULL), "no callers");
  expect(evlsim_status_is(evlsim_machine_open(both, 2, NULL, NULL, 0, NULL, 0, 9), EVLSIM_NULL), "no board");
  expect(evlsim_status_is(evlsim_machine_open(both, 2, &board, NULL, 1, NULL, 0, 9), EVLSIM_NULL), "no staxes");
  expect(evlsim_status_is(evlsim_machine_open(both, 2, &board, NULL, 0, NULL, 1, 9), EVLSIM_NULL), "no plans");
  expect(evlsim_status_is(evlsim_machine_open(both, 1, &board, NULL, 0, NULL, 0, 9), EVLSIM_BAD_NUMBER), "a caller short");
  expect(evlsim_status_is(evlsim_machine_open(both, 2, &board, NULL, 0, NULL, 0, 0), EVLSIM_BAD_BOARD), "no limit");
  expect(evlsim_status_is(evlsim_machine_open(both, 2, &board, none_in, 1, NULL, 0, 9), EVLSIM_BAD_BOARD), "a stax of 0");
  expect(evlsim_status_is(evlsim_machine_open(both, 2, &board, too_many, 17, NULL, 0, 9), EVLSIM_BAD_BOARD), "17 staxes");
  board.threads = 0;
  expect(evlsim_status_is(evlsim_machine_open(both, 0, &board, NULL, 0, NULL, 0, 9), EVLSIM_BAD_BOARD), "no threads");
  expect(is_null(evlsim_try_call(&both[0], call)) && is_null(evlsim_unlock_stax(&both[0], 0)), "none is opened then");
  board.threads = 2;
  expect(evlsim_ok(evlsim_machine_open(both, 2, &board, NULL, 0, NULL, 0, 9)), "a machine is opened");
  call.stage = 9;
  expect(evlsim_status_is(evlsim_why(evlsim_try_call(&both[0], call)), EVLSIM_BAD_NUMBER), "a stage of 9");
  expect(is_null(evlsim_try_call(NULL, call)) && is_null(evlsim_try_lock_mutex(NULL, 0)), "no caller");
  expect(is_null(evlsim_begin_lock_mutex(NULL, 0)) && is_null(evlsim_finish_lock_mutex(NULL)), "no caller");
  expect(is_null(evlsim_unlock_mutex_fast(NULL, 0)) && is_null(evlsim_try_unlock_mutex(NULL, 0)), "no caller");
  expect(is_null(evlsim_try_lock_stax(NULL, 0)) && is_null(evlsim_unlock_stax(NULL, 0)), "no caller");
  expect(evlsim_status_is(evlsim_caller_trace(NULL, 0, NULL, 0, &length), EVLSIM_NULL), "no caller");
  evlsim_caller_close(NULL);
  for (int place = 0; place < 2; place++) evlsim_caller_close(&both[place]);
}

#define HOSTS 4
static unsigned rounds = 20000;
static unsigned counted;
static unsigned inside[2];

typedef struct worker {
  evlsim_caller *caller;
  bool is_oob;
} worker;

static bool is_again(evlsim_answer answer) {
  return refused(answer, EVLSIM_REFUSAL_CORE_BUSY) || refused(answer, EVLSIM_REFUSAL_AGAIN);
}

static void lock(evlsim_caller *caller) {
  evlsim_answer answer = evlsim_try_lock_mutex(caller, 0);
  if (done(answer)) return;
  do {
    sched_yield();
    answer = evlsim_begin_lock_mutex(caller, 0);
  } while (is_again(answer));
  while (!done(answer)) {
    sched_yield();
    answer = evlsim_finish_lock_mutex(caller);
    if (!done(answer) && !is_again(answer)) abort();
  }
}

static void unlock(evlsim_caller *caller) {
  if (done(evlsim_unlock_mutex_fast(caller, 0))) return;
  while (!done(evlsim_try_unlock_mutex(caller, 0))) sched_yield();
}

static void *work(void *given) {
  const worker *own = given;
  for (unsigned round = 0; round < rounds; round++) {
    evlsim_answer answer;
    if (own->is_oob) {
      lock(own->caller);
      counted++;
      unlock(own->caller);
    }
    if (round % 16 == 0) {
      do answer = evlsim_try_call(own->caller, evlsim_call_put(0));
      while (is_again(answer));
      if (!done(answer)) abort();
    }
    if (done(evlsim_try_lock_stax(own->caller, 0))) {
      __atomic_add_fetch(&inside[own->is_oob], 1, __ATOMIC_SEQ_CST);
      if (__atomic_load_n(&inside[!own->is_oob], __ATOMIC_SEQ_CST) != 0) abort();
      __atomic_sub_fetch(&inside[own->is_oob], 1, __ATOMIC_SEQ_CST);
      if (!done(evlsim_unlock_stax(own->caller, 0))) abort();
    }
  }
  return NULL;
}

/* Two host threads out-of-band and two in-band. */
static void try_threads(void) {
  const evlsim_board board = board_of(HOSTS);
  evlsim_caller callers[HOSTS];
  worker workers[HOSTS];
  pthread_t threads[HOSTS];
  size_t length = 0;
  expect(evlsim_ok(evlsim_machine_open(callers, HOSTS, &board, staxes, 2, NULL, 0, EVLSIM_MAX_LIMIT)), "for host threads");
  for (int place = 0; place < HOSTS; place++) {
    workers[place].caller = &callers[place];
    workers[place].is_oob = place < HOSTS / 2;
    if (workers[place].is_oob) expect(done(attach(&callers[place], (uint8_t)(10 + place))), "attached");
  }
  for (int place = 0; place < HOSTS; place++) {
    if (pthread_create(&threads[place], NULL, work, &workers[place])) abort();
  }
  for (int place = 0; place < HOSTS; place++) pthread_join(threads[place], NULL);
  expect(counted == rounds * HOSTS / 2, "each count under the mutex is there");
  expect(evlsim_ok(evlsim_caller_trace(&callers[0], 0, NULL, 0, &length)) && length != 0, "the trace of all");
  for (int place = HOSTS - 1; place >= 0; place--) evlsim_caller_close(&callers[place]);
}

/* Two host threads hand a turn to and fro, each time by another element: the first begins. */
static const uint32_t turns[] = {0, 0};
static const evlsim_rings one_byte[] = {{1, 1}};
static unsigned turn;

static void pass_turn(evlsim_caller *caller, uint16_t own) {
  const uint8_t byte = (uint8_t)own;
  const uint16_t other = (uint16_t)(1 - own);
  const evlsim_way way = EVLSIM_OUT;
  uint8_t got = 9;
  evlsim_answer answer = evlsim_do_call(caller, evlsim_call_put(other));
  if (!done(answer)) abort();
  answer = evlsim_get_sem(caller, own, own);
  if (!done(answer)) abort();
  if (!done(evlsim_do_call(caller, evlsim_call_post_flags(other, 6)))) abort();
  answer = evlsim_wait_flags(caller, own, own, EVLSIM_TAKE_EXACT, 6);
  if (!evlsim_has(answer, EVLSIM_BITS) || answer.number != 6) abort();
  if (own == 0) {
    if (!done(evlsim_write_xbuf(caller, own, 0, way, &byte, 1)) || !done(evlsim_write_xbuf(caller, own, 0, way, &byte, 1))) abort();
  } else {
    if (!done(evlsim_switch_inband(caller))) abort();
    for (int it = 0; it < 2; it++) {
      answer = evlsim_read_xbuf(caller, own, 0, way, &got, 1);
      if (!evlsim_has(answer, EVLSIM_BYTES) || answer.number != 1 || got != 0) abort();
    }
    if (!done(evlsim_switch_oob(caller))) abort();
  }
}

static void *wait_in_turns(void *given) {
  const worker *own = given;
  const uint16_t place = own->is_oob ? 0 : 1;
  for (unsigned round = 0; round < rounds / 20; round++) {
    if (place == 0) pass_turn(own->caller, place);
    if (!done(evlsim_lock_mutex(own->caller, 0))) abort();
    turn++;
    if (!done(evlsim_lock_stax(own->caller, 1)) || !done(evlsim_unlock_stax(own->caller, 1))) abort();
    if (!done(evlsim_unlock_mutex(own->caller, 0))) abort();
    if (place == 1) pass_turn(own->caller, place);
  }
  return NULL;
}

static void try_waits(void) {
  evlsim_board board = board_of(2);
  evlsim_caller both[2];
  worker workers[2];
  pthread_t threads[2];
  evlsim_reading reading;
  board.sems = turns, board.sem_count = 2;
  board.flags = turns, board.flag_count = 2;
  board.xbufs = one_byte;
  turn = 0;
  expect(evlsim_ok(evlsim_machine_open(both, 2, &board, staxes, 2, NULL, 0, EVLSIM_MAX_LIMIT)), "for waits");
  for (uint16_t place = 0; place < 2; place++) {
    expect(done(attach(&both[place], (uint8_t)(10 + place))), "attached");
    workers[place].caller = &both[place];
    workers[place].is_oob = place == 0;
    expect(done(evlsim_switch_inband(&both[place])) && done(evlsim_switch_oob(&both[place])), "to and fro");
    expect(evlsim_is_begun(evlsim_do_call(&both[place], evlsim_until(evlsim_call_begin_get(place), 0))), "a date that is over");
    expect(evlsim_is_timed_out(evlsim_wait_out(&both[place], place, NULL, 0)), "ends a wait at once");
  }
  expect(done(evlsim_try_lock_mutex(&both[0], 0)), "the first has it");
  expect(evlsim_is_timed_out(evlsim_lock_mutex_until(&both[1], 0, 0)), "the second doesn't wait beyond the date");
  expect(evlsim_is_begun(evlsim_do_call(&both[0], evlsim_call_begin_get(0))) && done(evlsim_do_call(&both[1], evlsim_call_put(0))) &&
             done(evlsim_wait_out(&both[0], 0, NULL, 0)), "who holds a mutex keeps its stage at the end of a wait");
  expect(done(evlsim_unlock_mutex(&both[0], 0)), "unlocked");
  for (int place = 0; place < 2; place++) {
    if (pthread_create(&threads[place], NULL, wait_in_turns, &workers[place])) abort();
  }
  for (int place = 0; place < 2; place++) pthread_join(threads[place], NULL);
  expect(turn == 2 * (rounds / 20), "each turn was taken");
  expect(evlsim_ok(evlsim_caller_look(&both[0], EVLSIM_SEE_COUNT, 0, &reading)) && reading.count == 0, "and no count is left");
  for (int place = 0; place < 2; place++) evlsim_caller_close(&both[place]);
  expect(is_null(evlsim_get_sem(&both[0], 0, 0)) && is_null(evlsim_wait_out(NULL, 0, NULL, 0)), "no caller doesn't wait");
  expect(is_null(evlsim_lock_mutex(NULL, 0)) && is_null(evlsim_unlock_mutex(NULL, 0)) && is_null(evlsim_lock_stax(NULL, 0)), "none");
}

static bool is_bad_number(evlsim_answer answer) {
  return !evlsim_was_called(answer) && evlsim_status_is(evlsim_why(answer), EVLSIM_BAD_NUMBER);
}

/* Calls that wait, for a thread that isn't the caller's: each ends at once, and the wait can be waited out. */
static void try_other_threads(void) {
  static const uint16_t others[] = {1, 77, 65535};
  evlsim_board board = board_of(2);
  evlsim_caller both[2];
  uint8_t got = 0;
  const evlsim_way way = EVLSIM_IN;
  board.flags = sems, board.flag_count = 1;
  alarm(60); /* a wait that never ends ends this program */
  for (size_t it = 0; it < sizeof others / sizeof *others; it++) {
    const uint16_t other = others[it];
    expect(evlsim_ok(evlsim_machine_open(both, 2, &board, NULL, 0, NULL, 0, 100)), "for threads of others");
    for (int place = 0; place < 2; place++) expect(done(attach(&both[place], 10)), "attached");
    expect(is_bad_number(evlsim_wait_out(&both[0], 0, NULL, 0)), "nothing was begun");
    expect(is_bad_number(evlsim_get_sem(&both[0], other, 0)), "a semaphore, for another thread");
    expect(done(evlsim_do_call(&both[1], evlsim_call_put(0))) && done(evlsim_wait_out(&both[0], 0, NULL, 0)), "and it goes on");
    expect(is_bad_number(evlsim_wait_flags(&both[0], other, 0, EVLSIM_TAKE_ANY, 0)), "flags, for another thread");
    expect(evlsim_is_begun(evlsim_do_call(&both[1], evlsim_until(evlsim_call_begin_get(0), 0))), "the other's wait is over at once");
    expect(is_bad_number(evlsim_wait_out(&both[0], 1, NULL, 0)), "which isn't the caller's");
    expect(evlsim_is_timed_out(evlsim_wait_out(&both[1], 1, NULL, 0)), "the other finishes its own");
    expect(done(evlsim_do_call(&both[1], evlsim_call_post_flags(0, 6))), "the flags are posted");
    expect(evlsim_has(evlsim_wait_out(&both[0], 0, NULL, 0), EVLSIM_BITS), "and taken");
    expect(is_bad_number(evlsim_read_xbuf(&both[0], other, 0, way, &got, 1)), "a read, for another thread");
    for (int place = 0; place < 2; place++) evlsim_caller_close(&both[place]);
  }
  alarm(0);
}

/* A write that has to wait, for a thread that isn't the caller's. */
static void try_other_writer(void) {
  evlsim_board board = board_of(2);
  evlsim_caller both[2];
  const uint8_t byte = 7;
  board.xbufs = one_byte;
  alarm(60);
  expect(evlsim_ok(evlsim_machine_open(both, 2, &board, NULL, 0, NULL, 0, 100)), "for a writer");
  expect(done(attach(&both[0], 10)) && done(evlsim_write_xbuf(&both[0], 0, 0, EVLSIM_OUT, &byte, 1)), "there is room");
  expect(is_bad_number(evlsim_write_xbuf(&both[0], 77, 0, EVLSIM_OUT, &byte, 1)), "a write, for another thread");
  for (int place = 0; place < 2; place++) evlsim_caller_close(&both[place]);
  alarm(0);
}

int main(int count, char **words) {
  if (count > 1) rounds = (unsigned)strtoul(words[1], NULL, 10);
  try_in_order();
  try_questions();
  try_bytes();
  try_misuses();
  try_threads();
  try_waits();
  try_other_threads();
  try_other_writer();
  return wrong == 0 ? 0 : 1;
}
