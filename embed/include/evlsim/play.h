/*
 * Part of evlsim.h: plays a scenario's text (docs/use/SCENARIOS.md), as the program evl does, also one of lines, as a
 * trace is (docs/use/LAB.md).
 */
#ifndef EVLSIM_PLAY_H
#define EVLSIM_PLAY_H
#ifndef EVLSIM_H
#error "include <evlsim.h>, which includes this"
#endif

#ifdef __cplusplus
extern "C" {
#endif

/*
 * Plays a scenario's text and copies its trace, from the byte `start` on, into `out`, as many bytes as there are and as
 * fit (evlsim_written). The rest of `out` stays; no 0 is added.
 *
 * limit: how many entries the history may have, 1 to 1,000,000, in place of the text's own; 0 keeps the text's own.
 * text:  may be null if text_length is 0; the empty text has no board and is EVLSIM_BAD_BOARD.
 * out:   may be null if out_length is 0, to get the length alone.
 *
 * EVLSIM_OK        the trace was written, and played->length is the whole trace's length. If that is more than
 *                  start + out_length, a further call with `start` moved on by out_length gets the rest: the same text
 *                  always has the same trace, and each call plays the whole scenario again. A start after the end
 *                  writes nothing.
 * EVLSIM_BAD_TEXT, EVLSIM_BAD_BOARD, EVLSIM_BAD_STEP
 *                  the text is refused and has no trace, for the step played->step if one is at fault. A line of a text
 *                  of lines that cannot be read is EVLSIM_BAD_STEP, and played->step its number. A limit above 1,000,000
 *                  is EVLSIM_BAD_BOARD.
 * EVLSIM_NO_MEMORY the play was given up. It needs memory for the whole trace.
 * EVLSIM_NULL      played is null, or text or out with a length that is not 0. *played is not written.
 * EVLSIM_WRONG_ABI header and library differ. *played is not written.
 *
 * Unless the status is EVLSIM_OK, `out` is as before.
 */
EVLSIM_CHECKED static inline evlsim_status evlsim_play(const uint8_t *text, size_t text_length, uint32_t limit,
                                                       size_t start, uint8_t *out, size_t out_length,
                                                       evlsim_played *played) {
  uint8_t none = 0;
  if (played == NULL || (text == NULL && text_length != 0) || (out == NULL && out_length != 0)) return EVLSIM_NULL;
  if (evlsim_abi() != EVLSIM_ABI) return EVLSIM_WRONG_ABI;
  return evlsim_status_of(evlsim_c_play(text == NULL ? &none : text, text_length, limit, start,
                                        out == NULL ? &none : out, out_length, played));
}

/*
 * The same over the callbacks of these plans in place of the program's: callback 0 of a scenario is the first of them.
 *
 * plans: may be null if plan_count is 0: a bank of no callbacks.
 *
 * EVLSIM_BAD_PLAN  there are more than 64 plans, or in one of them `accepts` or an `every` is 0, `count` is above 4, an
 *                  action is above EVLSIM_STOP_TIMER, or `kinds` lacks the action of a row. It comes before all answers
 *                  about the text; `out` is as before, and played->length and played->step are 0.
 * EVLSIM_NULL      also if plans is null with a count that is not 0.
 */
EVLSIM_CHECKED static inline evlsim_status evlsim_play_over(const evlsim_plan *plans, size_t plan_count,
                                                            const uint8_t *text, size_t text_length, uint32_t limit,
                                                            size_t start, uint8_t *out, size_t out_length,
                                                            evlsim_played *played) {
  static const evlsim_plan no_plan = {0, 0, 0, EVLSIM_NO_ROWS};
  uint8_t none = 0;
  if (played == NULL || (plans == NULL && plan_count != 0) || (text == NULL && text_length != 0) ||
      (out == NULL && out_length != 0)) {
    return EVLSIM_NULL;
  }
  if (evlsim_abi() != EVLSIM_ABI) return EVLSIM_WRONG_ABI;
  return evlsim_status_of(evlsim_c_play_over(plans == NULL ? &no_plan : plans, plan_count, text == NULL ? &none : text,
                                             text_length, limit, start, out == NULL ? &none : out, out_length, played));
}

/* How many bytes of a text of this length are in a buffer after a call that copied it from `start` on. */
static inline size_t evlsim_written(size_t length, size_t start, size_t out_length) {
  size_t left = start < length ? length - start : 0;
  return left < out_length ? left : out_length;
}

#ifdef __cplusplus
}
#endif

#endif
