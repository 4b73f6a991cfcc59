/*
 * Part of evlsim.h: the 36 calls of a kernel, one function each, with its answers (evlsim_kind) and its refusals
 * (evlsim_refusal). The functions only fill in a struct: evlsim_do makes the call.
 *
 * Dates, intervals, slices and the delta of a tick are nanoseconds. The date is 0 when the kernel is opened; `date` and
 * `until` are dates, not durations. Elements, threads and quota groups are numbered from 0, as the board lists them.
 *
 * Before all refusals that are named here come HistoryFull, Busy if the thread that calls has an unfinished wait (but
 * for `finish`), and Unknown if the board has no such thread. Unknown with no more beside it: there is nothing of that
 * number. A refused call changes nothing. docs/use/SCENARIOS.md has the same as a table, in the same order.
 */
#ifndef EVLSIM_CALLS_H
#define EVLSIM_CALLS_H
#ifndef EVLSIM_H
#error "include <evlsim.h>, which includes this"
#endif

#ifdef __cplusplus
extern "C" {
#endif

/* Stages, in-band and out-of-band, and the ways through a cross-buffer. */
typedef enum evlsim_stage { EVLSIM_INBAND, EVLSIM_OOB } evlsim_stage;
typedef enum evlsim_way {
  EVLSIM_IN, /* written in-band, read out-of-band */
  EVLSIM_OUT /* written out-of-band, read in-band */
} evlsim_way;

/* The calls, in the order of docs/use/SCENARIOS.md. */
enum evlsim_call_kind {
  EVLSIM_CALL_REQUEST, EVLSIM_CALL_FREE, EVLSIM_CALL_ARRIVE, EVLSIM_CALL_POST, EVLSIM_CALL_STALL, EVLSIM_CALL_UNSTALL,
  EVLSIM_CALL_TICK, EVLSIM_CALL_NOW, EVLSIM_CALL_NEW_TIMER, EVLSIM_CALL_START_TIMER, EVLSIM_CALL_STOP_TIMER,
  EVLSIM_CALL_DROP_TIMER, EVLSIM_CALL_OVERRUNS,
  EVLSIM_CALL_ATTACH, EVLSIM_CALL_DETACH, EVLSIM_CALL_SET_POLICY, EVLSIM_CALL_SET_STAGE, EVLSIM_CALL_PICK,
  EVLSIM_CALL_RANK_OF,
  EVLSIM_CALL_TRY_GET, EVLSIM_CALL_PUT, EVLSIM_CALL_PEEK, EVLSIM_CALL_BEGIN_GET,
  EVLSIM_CALL_TRY_TAKE, EVLSIM_CALL_POST_FLAGS, EVLSIM_CALL_PEEK_FLAGS, EVLSIM_CALL_BEGIN_TAKE,
  EVLSIM_CALL_WRITE, EVLSIM_CALL_READ, EVLSIM_CALL_ROOM, EVLSIM_CALL_BEGIN_WRITE, EVLSIM_CALL_BEGIN_READ,
  EVLSIM_CALL_CLAIM, EVLSIM_CALL_RELEASE, EVLSIM_CALL_RAISE, EVLSIM_CALL_FINISH
};

static inline evlsim_call evlsim_call_of(unsigned kind, uint16_t element) {
  evlsim_call call = {0, 0, 0, 0, 0, 0, 0, 0, 0, 0, 0, 0};
  call.kind = EVLSIM_TO(uint8_t, kind);
  call.element = element;
  return call;
}

static inline evlsim_call evlsim_call_staged(unsigned kind, evlsim_stage stage, uint16_t element) {
  evlsim_call call = evlsim_call_of(kind, element);
  call.stage = EVLSIM_TO(uint8_t, stage == EVLSIM_INBAND ? 0u : stage == EVLSIM_OOB ? 1u : 2u);
  return call;
}

/* A wait (begin_get, begin_take, begin_write, begin_read, claim) with a deadline: it ends as timed out at this date.
   evlsim_until(evlsim_call_begin_get(0), 100). Without this a wait has none. */
static inline evlsim_call evlsim_until(evlsim_call call, uint64_t date) {
  call.timed = 1;
  call.date = date;
  return call;
}

/* Lines and stages. A line is 1 to 4095; line 0 is the clock's. */

/* Installs callback number `callback` of the kernel's plans on a line of a stage; its count starts again. The callback
   gets `tag`, any number, with each event; no plan uses it. Answers: done. Refusals: Unknown: no such line or callback;
   Invalid: line 0, or the callback is not allowed on this stage; Busy: there is a callback already, or this one is in
   another place. */
static inline evlsim_call evlsim_call_request(uint16_t line, evlsim_stage stage, uint8_t callback, uint32_t tag) {
  evlsim_call call = evlsim_call_staged(EVLSIM_CALL_REQUEST, stage, line);
  call.callback = callback;
  call.bits = tag;
  return call;
}
/* Takes the callback off a line, and drops a pending event. Answers: done. Refusals: Unknown: no such line; Invalid:
   line 0; Unknown: no callback there. */
static inline evlsim_call evlsim_call_free(uint16_t line, evlsim_stage stage) {
  return evlsim_call_staged(EVLSIM_CALL_FREE, stage, line);
}
/* An interrupt arrives: it is pending out-of-band if the line has a callback there, else in-band, if there; else it is
   spurious. Answers: done. Refusals: Unknown. */
static inline evlsim_call evlsim_call_arrive(uint16_t line) { return evlsim_call_of(EVLSIM_CALL_ARRIVE, line); }
/* Makes an event pending on a line of this stage, if there is a callback. Answers: done. Refusals: Unknown. */
static inline evlsim_call evlsim_call_post(evlsim_stage stage, uint16_t line) {
  return evlsim_call_staged(EVLSIM_CALL_POST, stage, line);
}
/* Holds back the events of a stage: they stay pending. A second stall changes nothing. Answers: done. */
static inline evlsim_call evlsim_call_stall(evlsim_stage stage) {
  return evlsim_call_staged(EVLSIM_CALL_STALL, stage, 0);
}
/* Ends that, however often the stage was stalled. Answers: done. */
static inline evlsim_call evlsim_call_unstall(evlsim_stage stage) {
  return evlsim_call_staged(EVLSIM_CALL_UNSTALL, stage, 0);
}

/* The clock and its timers. There are 64 timers at most; new_timer answers their numbers. */

/* Moves the date on, and what is due is played. Answers: done. Refusals: Range: the date would pass UINT64_MAX. */
static inline evlsim_call evlsim_call_tick(uint64_t delta) {
  evlsim_call call = evlsim_call_of(EVLSIM_CALL_TICK, 0);
  call.date = delta;
  return call;
}
/* The date. Answers: number. */
static inline evlsim_call evlsim_call_now(void) { return evlsim_call_of(EVLSIM_CALL_NOW, 0); }
/* Makes a timer, which is idle. Answers: number, its own. Refusals: Unknown: no such callback; Invalid: it is not
   allowed in a timer; Busy: it is on a line or in a timer; Limit: there are 64 timers. */
static inline evlsim_call evlsim_call_new_timer(uint8_t callback, uint32_t tag) {
  evlsim_call call = evlsim_call_of(EVLSIM_CALL_NEW_TIMER, 0);
  call.callback = callback;
  call.bits = tag;
  return call;
}
/* Sets when the timer fires next, and its interval; with interval 0 it fires once. Answers: done. Refusals: Unknown. */
static inline evlsim_call evlsim_call_start_timer(uint16_t timer, uint64_t date, uint64_t interval) {
  evlsim_call call = evlsim_call_of(EVLSIM_CALL_START_TIMER, timer);
  call.date = date;
  call.span = interval;
  return call;
}
/* Stops the timer until it is started again. Answers: done. Refusals: Unknown. */
static inline evlsim_call evlsim_call_stop_timer(uint16_t timer) {
  return evlsim_call_of(EVLSIM_CALL_STOP_TIMER, timer);
}
/* Takes the timer away; its callback is back in the bank. Answers: done. Refusals: Unknown. */
static inline evlsim_call evlsim_call_drop_timer(uint16_t timer) {
  return evlsim_call_of(EVLSIM_CALL_DROP_TIMER, timer);
}
/* How many periods the timer missed since it was started. Answers: number. Refusals: Unknown. */
static inline evlsim_call evlsim_call_overruns(uint16_t timer) { return evlsim_call_of(EVLSIM_CALL_OVERRUNS, timer); }

/*
 * Policies. A priority or slice out of its range is refused as Range. The rank is a priority over all policies: of the
 * ready threads the one of the greatest rank is picked.
 *
 * evlsim_fifo   runs until it leaves: priority 1 to 99; rank 512 + priority
 * evlsim_rr     shares with its equals by slices of 1 to 1,000,000,000 nanoseconds: 1 to 99; rank 512 + priority
 * evlsim_quota  runs while its quota group has budget: 1 to 99; rank 256 + priority
 * evlsim_weak   mostly in-band, below all others: 0 to 99; rank priority
 */
typedef struct evlsim_policy {
  uint8_t kind, prio;
  uint16_t group;
  uint64_t slice;
} evlsim_policy;
static inline evlsim_policy evlsim_policy_of(uint8_t kind, uint8_t prio, uint16_t group, uint64_t slice) {
  evlsim_policy policy;
  policy.kind = kind;
  policy.prio = prio;
  policy.group = group;
  policy.slice = slice;
  return policy;
}
static inline evlsim_policy evlsim_fifo(uint8_t prio) { return evlsim_policy_of(0, prio, 0, 0); }
static inline evlsim_policy evlsim_rr(uint8_t prio, uint64_t slice) { return evlsim_policy_of(1, prio, 0, slice); }
static inline evlsim_policy evlsim_quota(uint16_t group, uint8_t prio) { return evlsim_policy_of(2, prio, group, 0); }
static inline evlsim_policy evlsim_weak(uint8_t prio) { return evlsim_policy_of(3, prio, 0, 0); }

static inline evlsim_call evlsim_call_policy(unsigned kind, evlsim_policy policy, evlsim_stage stage) {
  evlsim_call call = evlsim_call_staged(kind, stage, 0);
  call.choice = policy.kind;
  call.prio = policy.prio;
  call.other = policy.group;
  call.span = policy.slice;
  return call;
}

/* Threads. All but rank_of speak of the thread that calls. */

/* Makes it a thread of the core. Answers: done. Refusals: Unknown: no such quota group; Range: a number of the policy;
   Busy: it is attached already. */
static inline evlsim_call evlsim_call_attach(evlsim_policy policy, evlsim_stage stage) {
  return evlsim_call_policy(EVLSIM_CALL_ATTACH, policy, stage);
}
/* Takes it out of the core. Answers: done. Refusals: Invalid: it is not attached; Busy: it is recorded as the owner of
   a mutex. */
static inline evlsim_call evlsim_call_detach(void) { return evlsim_call_of(EVLSIM_CALL_DETACH, 0); }
/* Changes its policy. Answers: done. Refusals: Unknown, Range: as of attach; Invalid: it is not attached. */
static inline evlsim_call evlsim_call_set_policy(evlsim_policy policy) {
  return evlsim_call_policy(EVLSIM_CALL_SET_POLICY, policy, EVLSIM_INBAND);
}
/* Moves it to this stage. Answers: done. Refusals: Invalid: it is not attached. */
static inline evlsim_call evlsim_call_set_stage(evlsim_stage stage) {
  return evlsim_call_staged(EVLSIM_CALL_SET_STAGE, stage, 0);
}
/* Which thread would run. Answers: thread, -1 for none. */
static inline evlsim_call evlsim_call_pick(void) { return evlsim_call_of(EVLSIM_CALL_PICK, 0); }
/* A thread's effective rank. Answers: number. Refusals: Unknown; Invalid: it is not attached. */
static inline evlsim_call evlsim_call_rank_of(uint16_t thread) { return evlsim_call_of(EVLSIM_CALL_RANK_OF, thread); }

/* Semaphores. */

/* Takes one from a count. Answers: done. Refusals: Unknown; Again: the count is 0. */
static inline evlsim_call evlsim_call_try_get(uint16_t sem) { return evlsim_call_of(EVLSIM_CALL_TRY_GET, sem); }
/* Serves the first thread that waits, or raises the count. Answers: done. Refusals: Unknown; Range: it is
   2,147,483,647. */
static inline evlsim_call evlsim_call_put(uint16_t sem) { return evlsim_call_of(EVLSIM_CALL_PUT, sem); }
/* The count, or minus the number of threads that wait. Answers: count. Refusals: Unknown. */
static inline evlsim_call evlsim_call_peek(uint16_t sem) { return evlsim_call_of(EVLSIM_CALL_PEEK, sem); }
/* Begins to wait for one, also if it is there. Answers: begun; then `finish`. Refusals: Unknown; Invalid: the caller is
   not attached; WrongStage: it is in-band. */
static inline evlsim_call evlsim_call_begin_get(uint16_t sem) { return evlsim_call_of(EVLSIM_CALL_BEGIN_GET, sem); }

/* Flag groups. Which bits are taken: all that are there (the mask is not looked at), those of a mask that are there, or
   a whole mask. */
typedef enum evlsim_take { EVLSIM_TAKE_ANY, EVLSIM_TAKE_OF, EVLSIM_TAKE_EXACT } evlsim_take;
static inline evlsim_call evlsim_call_taking(unsigned kind, uint16_t flags, evlsim_take choice, uint32_t mask) {
  evlsim_call call = evlsim_call_of(kind, flags);
  call.choice = EVLSIM_TO(uint8_t, choice == EVLSIM_TAKE_ANY  ? 0u
                                   : choice == EVLSIM_TAKE_OF    ? 1u
                                   : choice == EVLSIM_TAKE_EXACT ? 2u
                                                                 : 4u);
  call.bits = mask;
  return call;
}
/* Takes bits. Answers: bits. Refusals: Unknown; Invalid: the mask is 0; Again: nothing to take. */
static inline evlsim_call evlsim_call_try_take(uint16_t flags, evlsim_take choice, uint32_t mask) {
  return evlsim_call_taking(EVLSIM_CALL_TRY_TAKE, flags, choice, mask);
}
/* Adds bits, and serves those who wait. Answers: done. Refusals: Unknown; Invalid: `bits` is 0. */
static inline evlsim_call evlsim_call_post_flags(uint16_t flags, uint32_t bits) {
  return evlsim_call_taking(EVLSIM_CALL_POST_FLAGS, flags, EVLSIM_TAKE_ANY, bits);
}
/* The bits that are there. Answers: bits. Refusals: Unknown. */
static inline evlsim_call evlsim_call_peek_flags(uint16_t flags) {
  return evlsim_call_of(EVLSIM_CALL_PEEK_FLAGS, flags);
}
/* Begins to wait for bits, also if they are there. Answers: begun; then `finish`. Refusals: Unknown; Invalid: the
   caller is not attached, or the mask is 0; WrongStage: it is in-band. */
static inline evlsim_call evlsim_call_begin_take(uint16_t flags, evlsim_take choice, uint32_t mask) {
  return evlsim_call_taking(EVLSIM_CALL_BEGIN_TAKE, flags, choice, mask);
}

/* Cross-buffers. Hand the bytes of a write, at most 256, to evlsim_do_bytes; those of a read come from it. The wrong
   stage is WrongStage: EVLSIM_IN is written in-band and read out-of-band, EVLSIM_OUT the other way. */
static inline evlsim_call evlsim_call_through(unsigned kind, uint16_t xbuf, evlsim_way way, uint16_t length) {
  evlsim_call call = evlsim_call_of(kind, xbuf);
  call.way = EVLSIM_TO(uint8_t, way == EVLSIM_IN ? 0u : way == EVLSIM_OUT ? 1u : 2u);
  call.other = length;
  return call;
}
/* Writes all the bytes. Answers: done. Refusals: Unknown; WrongStage; TooBig: longer than the ring; Again: they do not
   fit, or a writer waits. */
static inline evlsim_call evlsim_call_write(uint16_t xbuf, evlsim_way way) {
  return evlsim_call_through(EVLSIM_CALL_WRITE, xbuf, way, 0);
}
/* Reads at most `length` bytes, 0 to 256. Answers: bytes. Refusals: Unknown; Range: above 256; WrongStage; Again:
   nothing is there. */
static inline evlsim_call evlsim_call_read(uint16_t xbuf, evlsim_way way, uint16_t length) {
  return evlsim_call_through(EVLSIM_CALL_READ, xbuf, way, length);
}
/* How many bytes of the ring are free. Answers: number. Refusals: Unknown. */
static inline evlsim_call evlsim_call_room(uint16_t xbuf, evlsim_way way) {
  return evlsim_call_through(EVLSIM_CALL_ROOM, xbuf, way, 0);
}
/* Begins to wait to write. Answers: begun; then `finish`. Refusals: Unknown; Invalid: the caller is not attached;
   WrongStage; TooBig. */
static inline evlsim_call evlsim_call_begin_write(uint16_t xbuf, evlsim_way way) {
  return evlsim_call_through(EVLSIM_CALL_BEGIN_WRITE, xbuf, way, 0);
}
/* Begins to wait to read. Answers: begun; then `finish`. Refusals: Unknown; Range; Invalid: the caller is not attached;
   WrongStage. */
static inline evlsim_call evlsim_call_begin_read(uint16_t xbuf, evlsim_way way, uint16_t length) {
  return evlsim_call_through(EVLSIM_CALL_BEGIN_READ, xbuf, way, length);
}

/* Mutexes, and the end of a wait. */

/* Begins to wait for a mutex that thread `owner` has, which is recorded as its owner. Answers: begun; then `finish`.
   Refusals: Unknown: no such mutex or thread; Invalid: the caller or the owner is not attached, they are the same, or
   another owner is recorded; WrongStage: the caller is in-band; Deadlock: the owner waits for the caller, directly or
   along a chain. */
static inline evlsim_call evlsim_call_claim(uint16_t mutex, uint16_t owner) {
  evlsim_call call = evlsim_call_of(EVLSIM_CALL_CLAIM, mutex);
  call.other = owner;
  return call;
}
/* Hands a mutex to the first thread that waits. Answers: next. Refusals: Unknown; NotOwner: another thread is recorded
   as its owner. */
static inline evlsim_call evlsim_call_release(uint16_t mutex) { return evlsim_call_of(EVLSIM_CALL_RELEASE, mutex); }
/* Records the caller as the owner of a mutex with a ceiling. Answers: done. Refusals: Unknown; Invalid: it has no
   ceiling, or the caller is not attached; Busy: an owner is recorded. */
static inline evlsim_call evlsim_call_raise(uint16_t mutex) { return evlsim_call_of(EVLSIM_CALL_RAISE, mutex); }
/* How the caller's wait ended; a weak thread then goes in-band, unless `keep` is true or it got a mutex. Answers: done,
   bits, bytes, or timed out. Refusals: Invalid: it has no wait; Again: its wait goes on. */
static inline evlsim_call evlsim_call_finish(bool keep) {
  evlsim_call call = evlsim_call_of(EVLSIM_CALL_FINISH, 0);
  call.choice = EVLSIM_TO(uint8_t, keep ? 1u : 0u);
  return call;
}

/* Whether a call has an element and nothing else, so that evlsim_c_apply_bare makes it in fewer steps. */
#define EVLSIM_KIND_BIT(kind) (UINT64_C(1) << (kind))
#define EVLSIM_BARE_KINDS                                                                                            \
  (EVLSIM_KIND_BIT(EVLSIM_CALL_ARRIVE) | EVLSIM_KIND_BIT(EVLSIM_CALL_STOP_TIMER) |                                    \
   EVLSIM_KIND_BIT(EVLSIM_CALL_DROP_TIMER) | EVLSIM_KIND_BIT(EVLSIM_CALL_OVERRUNS) |                                  \
   EVLSIM_KIND_BIT(EVLSIM_CALL_RANK_OF) | EVLSIM_KIND_BIT(EVLSIM_CALL_TRY_GET) | EVLSIM_KIND_BIT(EVLSIM_CALL_PUT) |    \
   EVLSIM_KIND_BIT(EVLSIM_CALL_PEEK) | EVLSIM_KIND_BIT(EVLSIM_CALL_BEGIN_GET) |                                       \
   EVLSIM_KIND_BIT(EVLSIM_CALL_PEEK_FLAGS) | EVLSIM_KIND_BIT(EVLSIM_CALL_RELEASE) | EVLSIM_KIND_BIT(EVLSIM_CALL_RAISE))
EVLSIM_INLINE bool evlsim_is_bare(evlsim_call call) {
  return call.kind <= EVLSIM_CALL_FINISH && (EVLSIM_BARE_KINDS >> call.kind & 1) != 0 &&
         (call.stage | call.way | call.choice | call.prio | call.callback | call.timed | call.other) == 0 &&
         call.bits == 0 && (call.date | call.span) == 0;
}

#ifdef __cplusplus
}
#endif

#endif
