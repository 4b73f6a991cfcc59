/*
 * Calls that have to succeed, beside evlsim.h: include <evlsim/strict.h> where they are used. An answer that is a refusal,
 * or of a call that could not be made, is printed with its place on standard error, and the program ends by abort():
 *
 *   evlsim_do_strict(&kernel, 2, evlsim_call_attach(evlsim_fifo(100), EVLSIM_OOB));
 *   bench.c:12: evlsim_do(&kernel, 2, evlsim_call_attach(evlsim_fifo(100), EVLSIM_OOB)): refused: Range
 *
 * evlsim_strict does so with any answer, as evlsim_strict(evlsim_try_lock_mutex(&caller, 0)). The answer is what they are.
 * They are inline functions: they are tested, not proved.
 */
#ifndef EVLSIM_STRICT_H
#define EVLSIM_STRICT_H
#include <evlsim.h>
#include <stdio.h>
#include <stdlib.h>

#ifdef __cplusplus
extern "C" {
#endif

static inline evlsim_answer evlsim_strict_at(const char *file, int line, const char *what, evlsim_answer answer) {
  uint8_t name[64];
  size_t length = 0, at;
  if (!evlsim_was_called(answer)) {
    fprintf(stderr, "%s:%d: %s: not called: %s\n", file, line, what, evlsim_status_text(evlsim_why(answer)));
    abort();
  }
  if (evlsim_is_refused(answer)) {
    (void)evlsim_refusal_text(answer.refusal, 0, name, sizeof name, &length);
    fprintf(stderr, "%s:%d: %s: refused: ", file, line, what);
    for (at = 0; at < length && at < sizeof name; at++) fputc(name[at], stderr);
    fputc('\n', stderr);
    abort();
  }
  return answer;
}
#define evlsim_strict(answer) evlsim_strict_at(__FILE__, __LINE__, #answer, (answer))
#define evlsim_do_strict(kernel, who, call) \
  evlsim_strict_at(__FILE__, __LINE__, "evlsim_do(" #kernel ", " #who ", " #call ")", evlsim_do((kernel), (who), (call)))

#ifdef __cplusplus
}
#endif

#endif
