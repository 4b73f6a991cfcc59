/*
 * Part of evlsim.h: a machine whose callers are called from host threads at once.
 *
 * A machine is a kernel behind one lock, the core, with a word for each mutex and a gate for each stax (stage exclusion
 * lock). It has a caller for each thread of its board, and no handle of its own: its callers share it, and the last one
 * that is closed frees it. docs/use/MACHINE.md says what each call answers, and when.
 *
 *   evlsim_caller callers[2];
 *   if (!evlsim_ok(evlsim_machine_open(callers, 2, &board, NULL, 0, NULL, 0, 1000))) return 1;
 *   ... one host thread uses callers[0], another callers[1] ...
 *   evlsim_caller_close(&callers[0]);
 *   evlsim_caller_close(&callers[1]);
 *
 * Threads. A caller is given to one call at a time; which host thread makes it may change, if a lock, a thread's start
 * or its join orders the calls. Callers of one machine are called from different host threads at once. After a fork()
 * while no call ran, parent and child have a machine each.
 */
#ifndef EVLSIM_MACHINE_H
#define EVLSIM_MACHINE_H
#ifndef EVLSIM_H
#error "include <evlsim.h>, which includes this"
#endif

#ifdef __cplusplus
extern "C" {
#endif

/*
 * Makes a machine of this board, with a stax for each of `staxes` (how many callers may hold it together, 1 to 1000; at
 * most 16), over the callbacks of these plans, with an empty history that may have `limit` entries, 1 to 1,000,000; and
 * puts its callers into `callers`, that of thread N at place N. `count` is how many threads the board has. *callers are
 * not read: close earlier ones before.
 *
 * EVLSIM_OK         there are `count` callers; close each when done.
 * EVLSIM_BAD_PLAN   a number of a plan is not allowed, or there are more than 64. It comes before a bad board.
 * EVLSIM_BAD_NUMBER `count` is not the number of threads.
 * EVLSIM_BAD_BOARD  a number of the board, one of its counts, the limit of a stax, or the limit is out of its range.
 * EVLSIM_NO_MEMORY  malloc returned null.
 * EVLSIM_NULL       callers or board is null, or staxes, plans or a list with a count that is not 0.
 * EVLSIM_WRONG_ABI  header and library differ.
 *
 * Unless the status is EVLSIM_OK, each of the callers is EVLSIM_NO_CALLER, for which each function answers EVLSIM_NULL.
 */
EVLSIM_CHECKED static inline evlsim_status evlsim_machine_open(evlsim_caller *callers, size_t count,
                                                               const evlsim_board *board, const uint16_t *staxes,
                                                               size_t stax_count, const evlsim_plan *plans,
                                                               size_t plan_count, uint32_t limit) {
  static const evlsim_plan no_plan = {1, 0, 0, EVLSIM_NO_ROWS};
  static const uint16_t no_stax = 1;
  evlsim_board whole;
  evlsim_status status;
  size_t place;
  if (callers == NULL) return EVLSIM_NULL;
  for (place = 0; place < count; place++) {
    callers[place].is_open = false;
    callers[place].at = NULL;
  }
  if ((staxes == NULL && stax_count != 0) || (plans == NULL && plan_count != 0)) return EVLSIM_NULL;
  status = evlsim_whole_board(&whole, board);
  if (!evlsim_ok(status)) return status;
  return evlsim_status_of(evlsim_c_machine_open(&whole, staxes == NULL ? &no_stax : staxes, stax_count,
                                                plans == NULL ? &no_plan : plans, plan_count, limit, callers, count));
}

/* Frees the caller, if there is one, and with the last one its machine; *caller is EVLSIM_NO_CALLER then. */
static inline void evlsim_caller_close(evlsim_caller *caller) {
  if (caller != NULL) evlsim_c_caller_close(caller);
}

/*
 * Makes a call of the caller's thread, without waiting: EVLSIM_REFUSAL_CORE_BUSY if another caller has the core. The
 * answer is that of evlsim_do_bytes, but that it does not say which plays there were.
 */
static inline evlsim_answer evlsim_try_call_bytes(evlsim_caller *caller, evlsim_call call, const uint8_t *bytes,
                                                  size_t length, uint8_t *out, size_t out_length) {
  uint8_t none = 0;
  evlsim_answer answer;
  evlsim_status status;
  if (caller == NULL || (bytes == NULL && length != 0) || (out == NULL && out_length != 0)) {
    return evlsim_not_called(EVLSIM_NULL);
  }
  status = evlsim_status_of(evlsim_c_try_call(caller, &call, bytes == NULL ? &none : bytes, length,
                                              out == NULL ? &none : out, out_length, &answer));
  return evlsim_ok(status) ? answer : evlsim_not_called(status);
}
static inline evlsim_answer evlsim_try_call(evlsim_caller *caller, evlsim_call call) {
  return evlsim_try_call_bytes(caller, call, NULL, 0, NULL, 0);
}

/*
 * Locks and unlocks a mutex; none of these waits. The caller keeps the passes that it gets, and spends the first one of
 * the mutex: EVLSIM_REFUSAL_NOT_OWNER if it has none. EVLSIM_REFUSAL_NO_MEMORY, with nothing done, also if there is no
 * room to keep a pass.
 *
 * evlsim_try_lock_mutex    done, or EVLSIM_REFUSAL_BUSY if another has it.
 * evlsim_unlock_mutex_fast done, or EVLSIM_REFUSAL_BUSY if others claim it, or it has a ceiling: the word alone.
 * evlsim_try_unlock_mutex  done; the kernel hands on a mutex that others claim.
 * evlsim_begin_lock_mutex  done, or begun if another has it: then finish.
 * evlsim_finish_lock_mutex done, timed out, or EVLSIM_REFUSAL_AGAIN while the wait goes on.
 */
static inline evlsim_answer evlsim_try_lock_mutex(evlsim_caller *caller, uint16_t mutex) {
  evlsim_answer answer;
  if (caller == NULL) return evlsim_not_called(EVLSIM_NULL);
  (void)evlsim_c_try_lock_mutex(caller, mutex, &answer);
  return answer;
}
static inline evlsim_answer evlsim_unlock_mutex_fast(evlsim_caller *caller, uint16_t mutex) {
  evlsim_answer answer;
  if (caller == NULL) return evlsim_not_called(EVLSIM_NULL);
  (void)evlsim_c_unlock_mutex_fast(caller, mutex, &answer);
  return answer;
}
static inline evlsim_answer evlsim_try_unlock_mutex(evlsim_caller *caller, uint16_t mutex) {
  evlsim_answer answer;
  if (caller == NULL) return evlsim_not_called(EVLSIM_NULL);
  (void)evlsim_c_try_unlock_mutex(caller, mutex, &answer);
  return answer;
}
static inline evlsim_answer evlsim_begin_lock_mutex(evlsim_caller *caller, uint16_t mutex) {
  evlsim_answer answer;
  if (caller == NULL) return evlsim_not_called(EVLSIM_NULL);
  (void)evlsim_c_begin_lock_mutex(caller, mutex, false, 0, &answer);
  return answer;
}
static inline evlsim_answer evlsim_begin_lock_mutex_until(evlsim_caller *caller, uint16_t mutex, uint64_t until) {
  evlsim_answer answer;
  if (caller == NULL) return evlsim_not_called(EVLSIM_NULL);
  (void)evlsim_c_begin_lock_mutex(caller, mutex, true, until, &answer);
  return answer;
}
static inline evlsim_answer evlsim_finish_lock_mutex(evlsim_caller *caller) {
  evlsim_answer answer;
  if (caller == NULL) return evlsim_not_called(EVLSIM_NULL);
  (void)evlsim_c_finish_lock_mutex(caller, &answer);
  return answer;
}

/*
 * Enters a stax at the stage of the caller's thread: done; EVLSIM_REFUSAL_AGAIN if callers of the other stage hold it,
 * EVLSIM_REFUSAL_LIMIT if as many hold it as may, EVLSIM_REFUSAL_RACED: try again. Leaves it: done, and `more` says
 * whether the caller was the last one and others want in.
 */
static inline evlsim_answer evlsim_try_lock_stax(evlsim_caller *caller, uint16_t stax) {
  evlsim_answer answer;
  if (caller == NULL) return evlsim_not_called(EVLSIM_NULL);
  (void)evlsim_c_try_lock_stax(caller, stax, &answer);
  return answer;
}
static inline evlsim_answer evlsim_unlock_stax(evlsim_caller *caller, uint16_t stax) {
  evlsim_answer answer;
  if (caller == NULL) return evlsim_not_called(EVLSIM_NULL);
  (void)evlsim_c_unlock_stax(caller, stax, &answer);
  return answer;
}

/*
 * The trace of all calls of the machine's callers so far, as evlsim_trace gives a kernel's. EVLSIM_CORE_BUSY if another
 * caller has the core. Unless the status is EVLSIM_OK, out and *length are as before.
 */
static inline evlsim_status evlsim_caller_trace(evlsim_caller *caller, size_t start, uint8_t *out, size_t out_length,
                                                size_t *length) {
  uint8_t none = 0;
  if (caller == NULL || length == NULL || (out == NULL && out_length != 0)) return EVLSIM_NULL;
  return evlsim_status_of(evlsim_c_caller_trace(caller, start, out == NULL ? &none : out, out_length, length));
}

/*
 * Asks the kernel, as evlsim_ask does: the caller takes the core and gives it back, and no call is entered.
 * EVLSIM_CORE_BUSY if another caller has it; EVLSIM_BAD_NUMBER, EVLSIM_NULL. Unless the status is EVLSIM_OK, *reading is as
 * before.
 */
static inline evlsim_status evlsim_caller_ask(evlsim_caller *caller, enum evlsim_question_kind kind, uint16_t element,
                                              evlsim_stage stage, evlsim_way way, evlsim_awaited on, size_t place,
                                              evlsim_reading *reading) {
  const evlsim_question question = evlsim_question_of(kind, element, stage, way, on, place);
  if (caller == NULL || reading == NULL) return EVLSIM_NULL;
  return evlsim_status_of(evlsim_c_caller_ask(caller, &question, reading));
}

/* The questions that need no stage, way or place: evlsim_caller_look(caller, EVLSIM_SEE_RANK, 1, &reading). */
static inline evlsim_status evlsim_caller_look(evlsim_caller *caller, enum evlsim_question_kind kind, uint16_t element,
                                               evlsim_reading *reading) {
  return evlsim_caller_ask(caller, kind, element, EVLSIM_INBAND, EVLSIM_IN, EVLSIM_ON_SEM, 0, reading);
}

#ifdef __cplusplus
}
#endif

#endif
