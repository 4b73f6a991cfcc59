/*
 * Calls of a machine's callers that wait, beside evlsim.h: include <evlsim/waits.h> where they are used. Each is a loop
 * over the calls of evlsim/machine.h, which yields the host thread's processor between its tries, and returns when it has
 * its answer: never, if no other caller brings that about. docs/use/MACHINE.md says what each answers, and what is left
 * where a history is full or memory runs out. The loops are inline functions: they are tested, not proved.
 *
 * EVLSIM_YIELD() is what is done between two tries: POSIX's sched_yield(), or what is defined before this is included.
 */
#ifndef EVLSIM_WAITS_H
#define EVLSIM_WAITS_H
#include <evlsim.h>
#ifndef EVLSIM_YIELD
#include <sched.h>
#define EVLSIM_YIELD() ((void)sched_yield())
#endif

#ifdef __cplusplus
extern "C" {
#endif

/* Makes a call of the caller's thread, however long others have the core: evlsim_try_call until it is not CoreBusy. */
static inline evlsim_answer evlsim_do_call_bytes(evlsim_caller *caller, evlsim_call call, const uint8_t *bytes,
                                                 size_t length, uint8_t *out, size_t out_length) {
  evlsim_answer answer;
  while (evlsim_refused_as(answer = evlsim_try_call_bytes(caller, call, bytes, length, out, out_length),
                           EVLSIM_REFUSAL_CORE_BUSY)) {
    EVLSIM_YIELD();
  }
  return answer;
}
static inline evlsim_answer evlsim_do_call(evlsim_caller *caller, evlsim_call call) {
  return evlsim_do_call_bytes(caller, call, NULL, 0, NULL, 0);
}

/* Moves the caller's thread to a stage: EVLSIM_REFUSAL_HOLDS_STAX while the caller holds a stax. */
static inline evlsim_answer evlsim_switch_oob(evlsim_caller *caller) {
  return evlsim_do_call(caller, evlsim_call_set_stage(EVLSIM_OOB));
}
static inline evlsim_answer evlsim_switch_inband(evlsim_caller *caller) {
  return evlsim_do_call(caller, evlsim_call_set_stage(EVLSIM_INBAND));
}

/* Finishes a wait that is over. Who holds a mutex or a stax keeps the stage; the caller itself refuses the other form,
   with nothing done. */
static inline evlsim_answer evlsim_finish_wait(evlsim_caller *caller, uint8_t *out, size_t out_length) {
  evlsim_answer answer = evlsim_do_call_bytes(caller, evlsim_call_finish(false), NULL, 0, out, out_length);
  if (evlsim_refused_as(answer, EVLSIM_REFUSAL_AGAIN)) return evlsim_not_called(EVLSIM_BAD_NUMBER);
  if (!evlsim_refused_as(answer, EVLSIM_REFUSAL_INVALID)) return answer;
  return evlsim_do_call_bytes(caller, evlsim_call_finish(true), NULL, 0, out, out_length);
}

/*
 * Waits until the wait for an element which the caller's thread has begun is over, and finishes it: that is the answer.
 * `thread` is the caller's thread, which is its place in evlsim_machine_open. It asks the kernel, so that nothing is
 * entered before the end. EVLSIM_REFUSAL_HISTORY_FULL and EVLSIM_REFUSAL_NO_MEMORY leave the wait unfinished; so does
 * EVLSIM_BAD_NUMBER (evlsim_why), where `thread` is not the caller's: it has no unfinished wait, or the caller's goes on
 * when that thread's is over. Call this again then, with the caller's thread.
 */
static inline evlsim_answer evlsim_wait_out(evlsim_caller *caller, uint16_t thread, uint8_t *out, size_t out_length) {
  for (;;) {
    evlsim_reading over = {false, 0, 0}, waits = {false, 0, 0};
    evlsim_status status = evlsim_caller_look(caller, EVLSIM_SEE_FINISHED, thread, &over);
    if (over.there) return evlsim_finish_wait(caller, out, out_length);
    if (evlsim_ok(status)) status = evlsim_caller_look(caller, EVLSIM_SEE_WAITS, thread, &waits);
    if (evlsim_ok(status) && !waits.there) return evlsim_not_called(EVLSIM_BAD_NUMBER);
    if (!evlsim_ok(status) && !evlsim_status_is(status, EVLSIM_CORE_BUSY)) return evlsim_not_called(status);
    EVLSIM_YIELD();
  }
}

/*
 * Makes a call that begins a wait for an element (evlsim_call_begin_get, .._take, .._read or .._write, with or without
 * evlsim_until), and waits it out if it is begun, as evlsim_wait_out. `bytes` are those of a write; what is read goes into
 * `out`. EVLSIM_BAD_NUMBER, where a wait is begun and `thread` is not the caller's: evlsim_wait_out goes on with it.
 */
static inline evlsim_answer evlsim_do_wait(evlsim_caller *caller, uint16_t thread, evlsim_call begin,
                                           const uint8_t *bytes, size_t length, uint8_t *out, size_t out_length) {
  evlsim_answer answer = evlsim_do_call_bytes(caller, begin, bytes, length, out, out_length);
  return evlsim_is_begun(answer) ? evlsim_wait_out(caller, thread, out, out_length) : answer;
}

/* Takes one from a semaphore's count, or bits of a flag group, and waits where it cannot at once. `thread` is the caller's,
   here and below, or the wait is EVLSIM_BAD_NUMBER, as evlsim_do_wait says. */
static inline evlsim_answer evlsim_get_sem(evlsim_caller *caller, uint16_t thread, uint16_t sem) {
  return evlsim_do_wait(caller, thread, evlsim_call_begin_get(sem), NULL, 0, NULL, 0);
}
static inline evlsim_answer evlsim_wait_flags(evlsim_caller *caller, uint16_t thread, uint16_t flags, evlsim_take choice,
                                              uint32_t mask) {
  return evlsim_do_wait(caller, thread, evlsim_call_begin_take(flags, choice, mask), NULL, 0, NULL, 0);
}

/* Writes all bytes into a way of a cross-buffer, or reads up to as many as `out` has room for, and waits if it has to.
   A read is EVLSIM_REFUSAL_RANGE if out_length is above 256. */
static inline evlsim_answer evlsim_write_xbuf(evlsim_caller *caller, uint16_t thread, uint16_t xbuf, evlsim_way way,
                                              const uint8_t *bytes, size_t length) {
  return evlsim_do_wait(caller, thread, evlsim_call_begin_write(xbuf, way), bytes, length, NULL, 0);
}
static inline evlsim_answer evlsim_read_xbuf(evlsim_caller *caller, uint16_t thread, uint16_t xbuf, evlsim_way way,
                                             uint8_t *out, uint16_t out_length) {
  return evlsim_do_wait(caller, thread, evlsim_call_begin_read(xbuf, way, out_length), NULL, 0, out, out_length);
}

/* Finishes a wait for a mutex that evlsim_begin_lock_mutex began: done, or timed out. */
static inline evlsim_answer evlsim_wait_out_mutex(evlsim_caller *caller) {
  evlsim_answer answer;
  while (evlsim_refused_as(answer = evlsim_finish_lock_mutex(caller), EVLSIM_REFUSAL_CORE_BUSY) ||
         evlsim_refused_as(answer, EVLSIM_REFUSAL_AGAIN)) {
    EVLSIM_YIELD();
  }
  return answer;
}

/* Locks a mutex, however long that takes, or until a date: done, or timed out. The caller keeps the pass. */
static inline evlsim_answer evlsim_lock_mutex(evlsim_caller *caller, uint16_t mutex) {
  evlsim_answer answer;
  while (evlsim_refused_as(answer = evlsim_begin_lock_mutex(caller, mutex), EVLSIM_REFUSAL_CORE_BUSY) ||
         evlsim_refused_as(answer, EVLSIM_REFUSAL_AGAIN)) {
    EVLSIM_YIELD();
  }
  return evlsim_is_begun(answer) ? evlsim_wait_out_mutex(caller) : answer;
}
static inline evlsim_answer evlsim_lock_mutex_until(evlsim_caller *caller, uint16_t mutex, uint64_t until) {
  evlsim_answer answer;
  while (evlsim_refused_as(answer = evlsim_begin_lock_mutex_until(caller, mutex, until), EVLSIM_REFUSAL_CORE_BUSY) ||
         evlsim_refused_as(answer, EVLSIM_REFUSAL_AGAIN)) {
    EVLSIM_YIELD();
  }
  return evlsim_is_begun(answer) ? evlsim_wait_out_mutex(caller) : answer;
}

/* Unlocks a mutex, however long others have the core where the kernel has to hand it on. */
static inline evlsim_answer evlsim_unlock_mutex(evlsim_caller *caller, uint16_t mutex) {
  evlsim_answer answer;
  while (evlsim_refused_as(answer = evlsim_try_unlock_mutex(caller, mutex), EVLSIM_REFUSAL_CORE_BUSY)) EVLSIM_YIELD();
  return answer;
}

/*
 * Enters a stax, however long others keep the caller out. Unlike the machine's lock_stax it does not mark the stax, so the
 * last one to leave is not told that others want in.
 */
static inline evlsim_answer evlsim_lock_stax(evlsim_caller *caller, uint16_t stax) {
  evlsim_answer answer;
  while (evlsim_refused_as(answer = evlsim_try_lock_stax(caller, stax), EVLSIM_REFUSAL_AGAIN) ||
         evlsim_refused_as(answer, EVLSIM_REFUSAL_LIMIT) || evlsim_refused_as(answer, EVLSIM_REFUSAL_RACED)) {
    EVLSIM_YIELD();
  }
  return answer;
}

#ifdef __cplusplus
}
#endif

#endif
