/*
 * Part of evlsim.h: every order in which the callers of a text may come (docs/use/ORDERS.md), and callers of both stages
 * (docs/use/CALLERS_TEXT.md), as the program lab prints them.
 */
#ifndef EVLSIM_ORDERS_H
#define EVLSIM_ORDERS_H
#ifndef EVLSIM_H
#error "include <evlsim.h>, which includes this"
#endif

#ifdef __cplusplus
extern "C" {
#endif

/*
 * Goes through every order in which the callers of a text may come, over the callbacks of these plans, and copies what
 * `lab orders` prints: the report of all outcomes, or the scenario of one; from the byte `start` on, into `out`, as many
 * bytes as there are and as fit (evlsim_written). The rest of `out` stays; no 0 is added. A further call goes through all
 * orders again.
 *
 * most:    it goes no further than where a number of steps leads to more moments; 0: 100,000.
 * outcome: 0: the report; else the number of the outcome, from 1, whose first order is told as a scenario.
 * text:    in TOML or as lines; may be null if text_length is 0. What it asks is in its table [ask].
 * out:     may be null if out_length is 0, to get the numbers alone.
 *
 * EVLSIM_OK         the text was written, and *ordered has the numbers: evlsim_holds says whether what is asked holds.
 * EVLSIM_BAD_NUMBER there is no such outcome; ordered->outcomes says how many there are.
 * EVLSIM_BAD_TEXT, EVLSIM_BAD_BOARD, EVLSIM_BAD_STEP
 *                   the text is refused, at the step ordered->step (of a text of lines: the line) if one is at fault. There
 *                   are more steps than its limit: EVLSIM_BAD_BOARD. evlsim_check tells every fault, with its place. So is a
 *                   text of callers refused, for its staxes or its first word of theirs: orders of atomic steps are those
 *                   of the program lab alone, and evlsim_check finds no fault in such a text.
 * EVLSIM_BAD_ASK    it cannot be read what is asked, or no step of a caller can have an answer of `never`.
 * EVLSIM_TOO_LONG   there are more orders than can be counted (2^128 - 1).
 * EVLSIM_BAD_PLAN, EVLSIM_NO_MEMORY, EVLSIM_NULL, EVLSIM_WRONG_ABI
 *                   as of evlsim_play_over. EVLSIM_NULL and EVLSIM_WRONG_ABI leave *ordered as it was.
 *
 * Unless the status is EVLSIM_OK, `out` gets in words why, if ordered->length is not 0, and else is as before.
 */
EVLSIM_CHECKED static inline evlsim_status evlsim_orders_over(const evlsim_plan *plans, size_t plan_count, size_t most,
                                                              size_t outcome, const uint8_t *text, size_t text_length,
                                                              size_t start, uint8_t *out, size_t out_length,
                                                              evlsim_ordered *ordered) {
  static const evlsim_plan no_plan = {0, 0, 0, EVLSIM_NO_ROWS};
  uint8_t none = 0;
  if (ordered == NULL || (plans == NULL && plan_count != 0) || (text == NULL && text_length != 0) ||
      (out == NULL && out_length != 0)) {
    return EVLSIM_NULL;
  }
  if (evlsim_abi() != EVLSIM_ABI) return EVLSIM_WRONG_ABI;
  return evlsim_status_of(evlsim_c_orders(plans == NULL ? &no_plan : plans, plan_count, most, outcome,
                                          text == NULL ? &none : text, text_length, start, out == NULL ? &none : out,
                                          out_length, ordered));
}

/* The same over the program's callbacks. */
EVLSIM_CHECKED static inline evlsim_status evlsim_orders(size_t most, size_t outcome, const uint8_t *text,
                                                         size_t text_length, size_t start, uint8_t *out,
                                                         size_t out_length, evlsim_ordered *ordered) {
  return evlsim_orders_over(evlsim_program_bank, EVLSIM_PROGRAM_BANK, most, outcome, text, text_length, start, out,
                            out_length, ordered);
}

/* Whether what is asked of orders holds in all of them: 1 it does, or nothing is asked; 0 an outcome, a moment or the
   number of outcomes is against it; -1 it is not known, since longer orders were cut off. */
static inline int evlsim_holds(const evlsim_ordered *ordered) {
  return ordered->verdict == 0 ? 1 : ordered->verdict == 1 ? 0 : -1;
}

/*
 * Makes the calls of a text's callers on staxes, mutexes and the core's lock, one after another, over the callbacks of
 * these plans, and copies what `lab callers` prints: what each was answered, and what stands in the word that it went to;
 * then what closing the machine was answered, and its kernel's history. Buffers and starts are those of evlsim_play.
 *
 * text:  in TOML; may be null if text_length is 0.
 * limit: as of evlsim_play.
 *
 * EVLSIM_OK        the text was written.
 * EVLSIM_BAD_TEXT, EVLSIM_BAD_BOARD, EVLSIM_BAD_STEP
 *                  the text is refused, at the step played->step if one is at fault. Of a step that is read and cannot be
 *                  made (it names a pass that nobody holds) `out` gets in words why, played->length bytes.
 * EVLSIM_BAD_PLAN, EVLSIM_NO_MEMORY, EVLSIM_NULL, EVLSIM_WRONG_ABI
 *                  as of evlsim_play_over.
 */
EVLSIM_CHECKED static inline evlsim_status evlsim_callers_over(const evlsim_plan *plans, size_t plan_count,
                                                               const uint8_t *text, size_t text_length, uint32_t limit,
                                                               size_t start, uint8_t *out, size_t out_length,
                                                               evlsim_played *played) {
  static const evlsim_plan no_plan = {0, 0, 0, EVLSIM_NO_ROWS};
  uint8_t none = 0;
  if (played == NULL || (plans == NULL && plan_count != 0) || (text == NULL && text_length != 0) ||
      (out == NULL && out_length != 0)) {
    return EVLSIM_NULL;
  }
  if (evlsim_abi() != EVLSIM_ABI) return EVLSIM_WRONG_ABI;
  return evlsim_status_of(evlsim_c_callers(plans == NULL ? &no_plan : plans, plan_count, text == NULL ? &none : text,
                                           text_length, limit, start, out == NULL ? &none : out, out_length, played));
}

/* The same over the program's callbacks. */
EVLSIM_CHECKED static inline evlsim_status evlsim_callers(const uint8_t *text, size_t text_length, uint32_t limit,
                                                          size_t start, uint8_t *out, size_t out_length,
                                                          evlsim_played *played) {
  return evlsim_callers_over(evlsim_program_bank, EVLSIM_PROGRAM_BANK, text, text_length, limit, start, out, out_length,
                             played);
}

#ifdef __cplusplus
}
#endif

#endif
