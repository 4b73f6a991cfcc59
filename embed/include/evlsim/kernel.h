/*
 * Part of evlsim.h: a simulated kernel in the bench's own process.
 */
#ifndef EVLSIM_KERNEL_H
#define EVLSIM_KERNEL_H
#ifndef EVLSIM_H
#error "include <evlsim.h>, which includes this"
#endif

#ifdef __cplusplus
extern "C" {
#endif

/* The callbacks of the program (docs/use/SCENARIOS.md, "The callbacks of the bank"). */
#define EVLSIM_PROGRAM_BANK 8u
#define EVLSIM_NO_ROWS {{0, 0, 0, 0}, {0, 0, 0, 0}, {0, 0, 0, 0}, {0, 0, 0, 0}}
#define EVLSIM_ONE_ROW(every, action, element, bits) \
  {{every, action, element, bits}, {0, 0, 0, 0}, {0, 0, 0, 0}, {0, 0, 0, 0}}
static const evlsim_plan evlsim_program_bank[EVLSIM_PROGRAM_BANK] = {
    {1, 0, 0, EVLSIM_NO_ROWS},
    {1, EVLSIM_ACTION_BIT(EVLSIM_POST_SEM), 1, EVLSIM_ONE_ROW(1, EVLSIM_POST_SEM, 0, 0)},
    {1, EVLSIM_ACTION_BIT(EVLSIM_POST_SEM), 1, EVLSIM_ONE_ROW(2, EVLSIM_POST_SEM, 0, 0)},
    {1, EVLSIM_ACTION_BIT(EVLSIM_PROPAGATE), 1, EVLSIM_ONE_ROW(1, EVLSIM_PROPAGATE, 0, 0)},
    {1, EVLSIM_ACTION_BIT(EVLSIM_POST_OOB), 1, EVLSIM_ONE_ROW(1, EVLSIM_POST_OOB, 4, 0)},
    {1, EVLSIM_ACTION_BIT(EVLSIM_POST_FLAGS), 1, EVLSIM_ONE_ROW(1, EVLSIM_POST_FLAGS, 0, 1)},
    {2, EVLSIM_ACTION_BIT(EVLSIM_STOP_TIMER), 1, EVLSIM_ONE_ROW(1, EVLSIM_STOP_TIMER, 0, 0)},
    {1, 0, 0, EVLSIM_NO_ROWS},
};

/* The board with no null pointer in it. EVLSIM_NULL if it is null, or a list with a count that is not 0;
   EVLSIM_WRONG_ABI if header and library differ. */
static inline evlsim_status evlsim_whole_board(evlsim_board *whole, const evlsim_board *board) {
  static const uint32_t no_word = 0;
  static const evlsim_rings no_rings = {1, 1};
  static const evlsim_mutex no_mutex = {0, 0};
  static const uint8_t no_group = 1;
  if (board == NULL || (board->sems == NULL && board->sem_count != 0) ||
      (board->flags == NULL && board->flag_count != 0) || (board->xbufs == NULL && board->xbuf_count != 0) ||
      (board->mutexes == NULL && board->mutex_count != 0) || (board->groups == NULL && board->group_count != 0)) {
    return EVLSIM_NULL;
  }
  if (evlsim_abi() != EVLSIM_ABI) return EVLSIM_WRONG_ABI;
  *whole = *board;
  if (whole->sems == NULL) whole->sems = &no_word;
  if (whole->flags == NULL) whole->flags = &no_word;
  if (whole->xbufs == NULL) whole->xbufs = &no_rings;
  if (whole->mutexes == NULL) whole->mutexes = &no_mutex;
  if (whole->groups == NULL) whole->groups = &no_group;
  return EVLSIM_OK;
}

/*
 * Makes a kernel of this board over the callbacks of these plans, with an empty history that may have `limit` entries,
 * 1 to 1,000,000. *kernel is not read: close an earlier kernel before.
 *
 * EVLSIM_OK        there is a kernel; close it when done.
 * EVLSIM_BAD_PLAN  a number of a plan is not allowed, or there are more than 64. It comes before a bad board.
 * EVLSIM_BAD_BOARD a number of the board, one of its counts, or the limit is out of its range.
 * EVLSIM_NO_MEMORY malloc returned null.
 * EVLSIM_NULL      kernel or board is null, or plans or a list with a count that is not 0.
 * EVLSIM_WRONG_ABI header and library differ.
 *
 * Unless the status is EVLSIM_OK, *kernel is EVLSIM_NO_KERNEL, for which each function answers EVLSIM_NULL.
 */
EVLSIM_CHECKED static inline evlsim_status evlsim_open(evlsim_kernel *kernel, const evlsim_board *board,
                                                       const evlsim_plan *plans, size_t plan_count, uint32_t limit) {
  static const evlsim_plan no_plan = {1, 0, 0, EVLSIM_NO_ROWS};
  evlsim_board whole;
  evlsim_status status;
  if (kernel == NULL) return EVLSIM_NULL;
  kernel->is_open = false;
  kernel->at = NULL;
  if (plans == NULL && plan_count != 0) return EVLSIM_NULL;
  status = evlsim_whole_board(&whole, board);
  if (!evlsim_ok(status)) return status;
  return evlsim_status_of(evlsim_c_open(&whole, plans == NULL ? &no_plan : plans, plan_count, limit, kernel));
}

/*
 * The kernel is as evlsim_open made it, over its board, its plans and its limit: its history is empty, and every
 * callback is in its place again. No memory is asked for. What was told of its plays, by index, holds no more.
 *
 * EVLSIM_OK        done.
 * EVLSIM_NULL      no kernel, or kernel is null.
 */
EVLSIM_CHECKED static inline evlsim_status evlsim_reset(evlsim_kernel *kernel) {
  if (kernel == NULL) return EVLSIM_NULL;
  return evlsim_status_of(evlsim_c_reset(kernel));
}

/* Frees the kernel, if there is one; *kernel is EVLSIM_NO_KERNEL then. */
static inline void evlsim_close(evlsim_kernel *kernel) {
  if (kernel != NULL) evlsim_c_close(kernel);
}

/*
 * Makes a call of thread `who`, as a scenario's step does: the kernel answers it, settles, and enters it into its
 * history. `bytes` go with `write` and `begin_write`, at most 256; the bytes that `read` and `finish` bring go into
 * `out`, as many as there is room for (256 always do). Both may be null if their length is 0.
 *
 * EVLSIM_OK         the call was made, and *answer has its answer; a refusal is one too.
 * EVLSIM_NO_MEMORY  malloc returned null for the bytes.
 * EVLSIM_BAD_NUMBER a number of *call is out of its range, or there are more than 256 bytes.
 * EVLSIM_NULL       no kernel, or kernel, call or answer is null, or bytes or out with a length that is not 0.
 *
 * Unless the status is EVLSIM_OK, nothing is called, and *answer and out are as before.
 */
static inline evlsim_status evlsim_apply(evlsim_kernel *kernel, uint16_t who, const evlsim_call *call,
                                         const uint8_t *bytes, size_t length, uint8_t *out, size_t out_length,
                                         evlsim_answer *answer) {
  uint8_t none = 0;
  if (kernel == NULL || call == NULL || answer == NULL || (bytes == NULL && length != 0) ||
      (out == NULL && out_length != 0)) {
    return EVLSIM_NULL;
  }
  return evlsim_status_of(evlsim_c_apply(kernel, who, call, bytes == NULL ? &none : bytes, length,
                                         out == NULL ? &none : out, out_length, answer));
}

/* What evlsim_do answers if nothing was called. */
static inline evlsim_answer evlsim_not_called(evlsim_status status) {
  evlsim_answer answer = {{0}, {EVLSIM_KIND_NOT_CALLED}, false, -1, 0, 0, 0, 0};
  answer.number = status.number;
  return answer;
}

/* The same as evlsim_apply with the answer as the result; if nothing was called its kind is EVLSIM_NOT_CALLED. */
EVLSIM_INLINE evlsim_answer evlsim_do_bytes(evlsim_kernel *kernel, uint16_t who, evlsim_call call, const uint8_t *bytes,
                                            size_t length, uint8_t *out, size_t out_length) {
  evlsim_answer answer;
  evlsim_status status = evlsim_apply(kernel, who, &call, bytes, length, out, out_length, &answer);
  if (!evlsim_ok(status)) answer = evlsim_not_called(status);
  return answer;
}

/* The same for a call without bytes. */
EVLSIM_INLINE evlsim_answer evlsim_do(evlsim_kernel *kernel, uint16_t who, evlsim_call call) {
  evlsim_answer answer;
  if (!evlsim_is_bare(call)) return evlsim_do_bytes(kernel, who, call, NULL, 0, NULL, 0);
  if (kernel == NULL) return evlsim_not_called(EVLSIM_NULL);
  (void)evlsim_c_apply_bare(kernel, who, call.kind, call.element, &answer);
  return answer;
}

/* What an answer is. If nothing was called, all of these are false, evlsim_was_called too, and evlsim_why says why. */
EVLSIM_INLINE bool evlsim_has(evlsim_answer answer, evlsim_kind kind) { return answer.kind.number == kind.number; }
EVLSIM_INLINE bool evlsim_is_done(evlsim_answer answer) { return evlsim_has(answer, EVLSIM_DONE); }
EVLSIM_INLINE bool evlsim_is_begun(evlsim_answer answer) { return evlsim_has(answer, EVLSIM_BEGUN); }
EVLSIM_INLINE bool evlsim_is_timed_out(evlsim_answer answer) { return evlsim_has(answer, EVLSIM_TIMED_OUT); }
EVLSIM_INLINE bool evlsim_was_called(evlsim_answer answer) { return !evlsim_has(answer, EVLSIM_NOT_CALLED); }
EVLSIM_INLINE bool evlsim_is_refused(evlsim_answer answer) { return evlsim_has(answer, EVLSIM_REFUSED); }
EVLSIM_INLINE bool evlsim_refused_as(evlsim_answer answer, evlsim_refusal refusal) {
  return evlsim_is_refused(answer) && answer.refusal.number == refusal.number;
}
EVLSIM_INLINE evlsim_status evlsim_why(evlsim_answer answer) {
  return evlsim_status_of(evlsim_was_called(answer) ? 0u : EVLSIM_TO(uint32_t, answer.number));
}

/*
 * Gives a play by its index among all that the kernel played: a call has answer.plays of them, from answer.first_play
 * on. EVLSIM_BAD_NUMBER: there is no such play; EVLSIM_NULL. Unless the status is EVLSIM_OK, *event is as before.
 */
static inline evlsim_status evlsim_event_at(evlsim_kernel *kernel, size_t index, evlsim_event *event) {
  return kernel == NULL || event == NULL ? EVLSIM_NULL : evlsim_status_of(evlsim_c_event(kernel, index, event));
}

/*
 * Copies the trace of all calls so far, or the scenario that they are, from the byte `start` on, into `out`, as many
 * bytes as fit (evlsim_written), and puts the whole text's length into *length, as evlsim_play does; `out` may be null
 * if out_length is 0. The program evl plays the scenario again if the kernel has the program's callbacks. Neither has a
 * line for a call that made no entry.
 *
 * EVLSIM_NO_MEMORY, EVLSIM_NULL; EVLSIM_TOO_LONG of a scenario. Unless EVLSIM_OK, out and *length are as before.
 */
static inline evlsim_status evlsim_trace(evlsim_kernel *kernel, size_t start, uint8_t *out, size_t out_length,
                                         size_t *length) {
  uint8_t none = 0;
  if (kernel == NULL || length == NULL || (out == NULL && out_length != 0)) return EVLSIM_NULL;
  return evlsim_status_of(evlsim_c_trace(kernel, start, out == NULL ? &none : out, out_length, length));
}

static inline evlsim_status evlsim_scenario(evlsim_kernel *kernel, size_t start, uint8_t *out, size_t out_length,
                                            size_t *length) {
  uint8_t none = 0;
  if (kernel == NULL || length == NULL || (out == NULL && out_length != 0)) return EVLSIM_NULL;
  return evlsim_status_of(evlsim_c_scenario(kernel, start, out == NULL ? &none : out, out_length, length));
}

/*
 * Writes the word of the calls of a kind (enum evlsim_call_kind), and after it the keys that a step with this word has,
 * with blanks between ("claim mutex owner until"), as evlsim_trace writes a trace.
 *
 * EVLSIM_BAD_NUMBER: no call has this kind; EVLSIM_NULL. Unless EVLSIM_OK, out and *length are as before.
 */
static inline evlsim_status evlsim_call_text(uint8_t kind, size_t start, uint8_t *out, size_t out_length,
                                             size_t *length) {
  uint8_t none = 0;
  if (length == NULL || (out == NULL && out_length != 0)) return EVLSIM_NULL;
  return evlsim_status_of(evlsim_c_call_text(kind, start, out == NULL ? &none : out, out_length, length));
}

/* The same for the name of a refusal in a trace: "NotOwner". */
static inline evlsim_status evlsim_refusal_text(evlsim_refusal refusal, size_t start, uint8_t *out, size_t out_length,
                                                size_t *length) {
  uint8_t none = 0;
  if (length == NULL || (out == NULL && out_length != 0)) return EVLSIM_NULL;
  return evlsim_status_of(
      evlsim_c_refusal_text(refusal.number, start, out == NULL ? &none : out, out_length, length));
}

/* Whose queue, for evlsim_see_waiter. */
typedef enum evlsim_awaited {
  EVLSIM_ON_SEM,
  EVLSIM_ON_FLAGS,
  EVLSIM_ON_WRITING, /* those that wait to write into a way of a cross-buffer */
  EVLSIM_ON_READING,
  EVLSIM_ON_MUTEX
} evlsim_awaited;

/*
 * Questions, which change nothing. Without a kernel, or of an object that does not exist, the number is -1, the count
 * INT64_MIN, the truth false and the date 0; but nobody (0) waits for a missing mutex, and a missing thread is in-band.
 */
static inline evlsim_question evlsim_question_of(enum evlsim_question_kind kind, uint16_t element, evlsim_stage stage,
                                                 evlsim_way way, evlsim_awaited on, size_t place) {
  evlsim_question question;
  question.kind = EVLSIM_TO(uint8_t, kind);
  question.stage = EVLSIM_TO(uint8_t, stage == EVLSIM_INBAND ? 0u : stage == EVLSIM_OOB ? 1u : 2u);
  question.way = EVLSIM_TO(uint8_t, way == EVLSIM_IN ? 0u : way == EVLSIM_OUT ? 1u : 2u);
  question.on = EVLSIM_TO(uint8_t, EVLSIM_TO(unsigned, on) > EVLSIM_ON_MUTEX ? 5u : EVLSIM_TO(unsigned, on));
  question.element = element;
  question.place = place;
  return question;
}
static inline evlsim_reading evlsim_ask(evlsim_kernel *kernel, enum evlsim_question_kind kind, uint16_t element,
                                        evlsim_stage stage, evlsim_way way, evlsim_awaited on, size_t place) {
  const evlsim_question question = evlsim_question_of(kind, element, stage, way, on, place);
  evlsim_reading reading = {false, 0, 0};
  if (kernel != NULL) (void)evlsim_c_ask(kernel, &question, &reading);
  return reading;
}
static inline evlsim_reading evlsim_look(evlsim_kernel *kernel, enum evlsim_question_kind kind, uint16_t element) {
  return evlsim_ask(kernel, kind, element, EVLSIM_INBAND, EVLSIM_IN, EVLSIM_ON_SEM, 0);
}
static inline int64_t evlsim_number_in(evlsim_reading reading) {
  return reading.there ? EVLSIM_TO(int64_t, reading.number) : -1;
}

/* The date, in nanoseconds since the kernel was opened. */
static inline uint64_t evlsim_see_now(evlsim_kernel *kernel) { return evlsim_look(kernel, EVLSIM_SEE_NOW, 0).number; }
/* The thread that is picked; -1: none. */
static inline int64_t evlsim_see_picked(evlsim_kernel *kernel) {
  return evlsim_number_in(evlsim_look(kernel, EVLSIM_SEE_PICKED, 0));
}
/* A thread's effective rank (calls.h, "Policies"), or a greater one that it has by a mutex; -1: not attached. */
static inline int64_t evlsim_see_rank(evlsim_kernel *kernel, uint16_t thread) {
  return evlsim_number_in(evlsim_look(kernel, EVLSIM_SEE_RANK, thread));
}
/* Whether a thread is ready: attached, out-of-band and not blocked. */
static inline bool evlsim_see_ready(evlsim_kernel *kernel, uint16_t thread) {
  return evlsim_look(kernel, EVLSIM_SEE_READY, thread).there;
}
/* Whether a thread has an unfinished wait. */
static inline bool evlsim_see_waits(evlsim_kernel *kernel, uint16_t thread) {
  return evlsim_look(kernel, EVLSIM_SEE_WAITS, thread).there;
}
/* Whether its unfinished wait has ended, so that `finish` is not refused as Again. */
static inline bool evlsim_see_finished(evlsim_kernel *kernel, uint16_t thread) {
  return evlsim_look(kernel, EVLSIM_SEE_FINISHED, thread).there;
}
/* Whether that has ended by its deadline. */
static inline bool evlsim_see_timed_out(evlsim_kernel *kernel, uint16_t thread) {
  return evlsim_look(kernel, EVLSIM_SEE_TIMED_OUT, thread).there;
}
/* A thread's stage: EVLSIM_INBAND (0) or EVLSIM_OOB (1). */
static inline int64_t evlsim_see_stage(evlsim_kernel *kernel, uint16_t thread) {
  return evlsim_number_in(evlsim_look(kernel, EVLSIM_SEE_STAGE, thread));
}
/* A semaphore's count, or minus the number of threads that wait. */
static inline int64_t evlsim_see_count(evlsim_kernel *kernel, uint16_t sem) {
  evlsim_reading reading = evlsim_look(kernel, EVLSIM_SEE_COUNT, sem);
  return reading.there ? reading.count : INT64_MIN;
}
/* The bits of a flag group. */
static inline int64_t evlsim_see_bits(evlsim_kernel *kernel, uint16_t flags) {
  return evlsim_number_in(evlsim_look(kernel, EVLSIM_SEE_BITS, flags));
}
/* How many bytes are in a way of a cross-buffer. */
static inline int64_t evlsim_see_stored(evlsim_kernel *kernel, uint16_t xbuf, evlsim_way way) {
  return evlsim_number_in(evlsim_ask(kernel, EVLSIM_SEE_STORED, xbuf, EVLSIM_INBAND, way, EVLSIM_ON_SEM, 0));
}
/* The thread that is recorded as the owner of a mutex; -1: none. */
static inline int64_t evlsim_see_owner(evlsim_kernel *kernel, uint16_t mutex) {
  return evlsim_number_in(evlsim_look(kernel, EVLSIM_SEE_OWNER, mutex));
}
/* How many threads wait for a mutex. */
static inline int64_t evlsim_see_waiters(evlsim_kernel *kernel, uint16_t mutex) {
  return evlsim_number_in(evlsim_look(kernel, EVLSIM_SEE_WAITERS, mutex));
}
/* Which thread is at a place of a queue, the first at 0, -1: none; `way` is looked at for a cross-buffer alone. */
static inline int64_t evlsim_see_waiter(evlsim_kernel *kernel, evlsim_awaited on, uint16_t element, evlsim_way way,
                                        size_t place) {
  return evlsim_number_in(evlsim_ask(kernel, EVLSIM_SEE_WAITER, element, EVLSIM_INBAND, way, on, place));
}
/* Whether an event is pending on a line of a stage. */
static inline bool evlsim_see_pending(evlsim_kernel *kernel, evlsim_stage stage, uint16_t line) {
  return evlsim_ask(kernel, EVLSIM_SEE_PENDING, line, stage, EVLSIM_IN, EVLSIM_ON_SEM, 0).there;
}

#ifdef __cplusplus
}
#endif

#endif
