/*
 * Part of evlsim.h: the faults of a text and its picture, as the program lab prints them (docs/use/LAB.md).
 */
#ifndef EVLSIM_TEXTS_H
#define EVLSIM_TEXTS_H
#ifndef EVLSIM_H
#error "include <evlsim.h>, which includes this"
#endif

#ifdef __cplusplus
extern "C" {
#endif

/* The bytes of a C string, and how many stand before its 0. */
static inline const uint8_t *evlsim_bytes_of(const char *text) {
  return EVLSIM_TO(const uint8_t *, EVLSIM_TO(const void *, text));
}
static inline size_t evlsim_length_of(const char *text) {
  size_t length = 0;
  while (text[length] != 0) length++;
  return length;
}

/*
 * Copies what `lab check NAME` prints of this text, from the byte `start` on, into `out`, as many bytes as there are and
 * as fit (evlsim_written): a line "NAME:LINE:BYTE: .." for each fault of a scenario, of a text for orders, of callers, or
 * of a bank, or for the first line of a text of lines that cannot be read; if a scenario has none, a line for each warning
 * of one run of it over the program's callbacks. No lines: it has neither. Answers that the text expects are passed over,
 * also where lab names a fault of them. The rest of `out` stays; no 0 is added.
 *
 * name: stands before the place of each fault; a C string in UTF-8. It is not opened.
 * text: may be null if text_length is 0.
 * out:  may be null if out_length is 0, to get the length alone.
 *
 * EVLSIM_OK        the lines were written: checked->length is that of all lines, and checked->is_at_fault says whether
 *                  they are of faults. If there are more than start + out_length bytes, a further call gets the rest.
 * EVLSIM_BAD_TEXT  the name is not UTF-8. (A text that is not has a line.)
 * EVLSIM_NO_MEMORY malloc or realloc returned null.
 * EVLSIM_NULL      name or checked is null, or text or out with a length that is not 0.
 * EVLSIM_WRONG_ABI header and library differ.
 *
 * Unless the status is EVLSIM_OK, `out` and *checked are as before.
 */
EVLSIM_CHECKED static inline evlsim_status evlsim_check(const char *name, const uint8_t *text, size_t text_length,
                                                        size_t start, uint8_t *out, size_t out_length,
                                                        evlsim_checked *checked) {
  uint8_t none = 0;
  if (name == NULL || checked == NULL || (text == NULL && text_length != 0) || (out == NULL && out_length != 0)) {
    return EVLSIM_NULL;
  }
  if (evlsim_abi() != EVLSIM_ABI) return EVLSIM_WRONG_ABI;
  return evlsim_status_of(evlsim_c_check(evlsim_bytes_of(name), evlsim_length_of(name), text == NULL ? &none : text,
                                         text_length, start, out == NULL ? &none : out, out_length, checked));
}

/* The same, with the run over the callbacks of these plans, as evlsim_play_over has them; EVLSIM_BAD_PLAN comes before
   EVLSIM_BAD_TEXT. */
EVLSIM_CHECKED static inline evlsim_status evlsim_check_over(const evlsim_plan *plans, size_t plan_count,
                                                             const char *name, const uint8_t *text, size_t text_length,
                                                             size_t start, uint8_t *out, size_t out_length,
                                                             evlsim_checked *checked) {
  static const evlsim_plan no_plan = {0, 0, 0, EVLSIM_NO_ROWS};
  uint8_t none = 0;
  if (name == NULL || checked == NULL || (plans == NULL && plan_count != 0) || (text == NULL && text_length != 0) ||
      (out == NULL && out_length != 0)) {
    return EVLSIM_NULL;
  }
  if (evlsim_abi() != EVLSIM_ABI) return EVLSIM_WRONG_ABI;
  return evlsim_status_of(evlsim_c_check_over(plans == NULL ? &no_plan : plans, plan_count, evlsim_bytes_of(name),
                                              evlsim_length_of(name), text == NULL ? &none : text, text_length, start,
                                              out == NULL ? &none : out, out_length, checked));
}

/*
 * Draws a trace, a scenario, which is played over the program's callbacks, or what `lab callers` prints, with its line
 * `close -> ..`, as `lab draw` does (without that line as a trace), and copies the picture, from the byte `start` on,
 * into `out`, as many bytes as there are and as fit (evlsim_written). The picture of a scenario also shows how the
 * machine stands after each call. A text of callers is not drawn. The rest of `out` stays; no 0 is added.
 *
 * form: EVLSIM_SVG, EVLSIM_SVG_DOWN, EVLSIM_SVG_ACROSS or EVLSIM_EVENTS.
 * page: of SVG, from 1: a page has 2,000 marks. The other forms have all marks at once.
 * text: may be null if text_length is 0; the empty text is a trace without lines.
 * out:  may be null if out_length is 0, to get the length alone.
 *
 * EVLSIM_OK         the picture was written: drawn->length is that of all of it, drawn->pages how many pages there are.
 *                   If it has more than start + out_length bytes, a further call gets the rest; each call draws again.
 * EVLSIM_BAD_TEXT, EVLSIM_BAD_BOARD, EVLSIM_BAD_STEP
 *                   the text is no trace, since its line drawn->line is none of one, and as a scenario it is refused so,
 *                   at the step (of a text of lines: the line) drawn->step, if one is at fault. Line 0: it is not UTF-8.
 * EVLSIM_BAD_NUMBER there is no such form, the page is 0, or it is above drawn->pages.
 * EVLSIM_NO_MEMORY  malloc or realloc returned null.
 * EVLSIM_NULL       drawn is null, or text or out with a length that is not 0. *drawn is not written.
 * EVLSIM_WRONG_ABI  header and library differ. *drawn is not written.
 *
 * Unless the status is EVLSIM_OK, `out` is as before.
 */
EVLSIM_CHECKED static inline evlsim_status evlsim_draw(uint8_t form, uint32_t page, const uint8_t *text,
                                                       size_t text_length, size_t start, uint8_t *out,
                                                       size_t out_length, evlsim_drawn *drawn) {
  uint8_t none = 0;
  if (drawn == NULL || (text == NULL && text_length != 0) || (out == NULL && out_length != 0)) return EVLSIM_NULL;
  if (evlsim_abi() != EVLSIM_ABI) return EVLSIM_WRONG_ABI;
  return evlsim_status_of(evlsim_c_draw(form, page, text == NULL ? &none : text, text_length, start,
                                        out == NULL ? &none : out, out_length, drawn));
}

/* The same of a scenario over the callbacks of these plans, as evlsim_play_over has them; EVLSIM_BAD_PLAN comes before
   all answers about form, page and text, and *drawn is all 0. */
EVLSIM_CHECKED static inline evlsim_status evlsim_draw_over(const evlsim_plan *plans, size_t plan_count, uint8_t form,
                                                            uint32_t page, const uint8_t *text, size_t text_length,
                                                            size_t start, uint8_t *out, size_t out_length,
                                                            evlsim_drawn *drawn) {
  static const evlsim_plan no_plan = {0, 0, 0, EVLSIM_NO_ROWS};
  uint8_t none = 0;
  if (drawn == NULL || (plans == NULL && plan_count != 0) || (text == NULL && text_length != 0) ||
      (out == NULL && out_length != 0)) {
    return EVLSIM_NULL;
  }
  if (evlsim_abi() != EVLSIM_ABI) return EVLSIM_WRONG_ABI;
  return evlsim_status_of(evlsim_c_draw_over(plans == NULL ? &no_plan : plans, plan_count, form, page,
                                             text == NULL ? &none : text, text_length, start,
                                             out == NULL ? &none : out, out_length, drawn));
}

#ifdef __cplusplus
}
#endif

#endif
