/* A test that what a text asks holds in all orders of its callers: orders FILE. Prints the report, and of an outcome that
   is against it the trace. Ends with 1 if something is against it, 2 if the text is refused, 5 if longer orders were cut off.
 */
#include <evlsim.h>
#include <stdio.h>
#include <stdlib.h>

static uint8_t text[1 << 21], told[1 << 22], trace[1 << 20];

/* The trace of the first order that ends as the outcome with this number does. */
static evlsim_status print_trace(size_t length, size_t outcome) {
  evlsim_ordered ordered;
  evlsim_played played;
  evlsim_status status = evlsim_orders(0, outcome, text, length, 0, told, sizeof told, &ordered);
  if (!evlsim_ok(status)) return status;
  size_t count = evlsim_written(ordered.length, 0, sizeof told);
  status = evlsim_play(told, count, 0, 0, trace, sizeof trace, &played);
  if (evlsim_ok(status)) fwrite(trace, 1, evlsim_written(played.length, 0, sizeof trace), stdout);
  return status;
}

int main(int count, char **words) {
  FILE *file = count == 2 ? fopen(words[1], "rb") : NULL;
  if (file == NULL) {
    fputs("no file\n", stderr);
    return 2;
  }
  size_t length = fread(text, 1, sizeof text, file);
  fclose(file);
  evlsim_ordered ordered = {0};
  evlsim_status status = evlsim_orders(0, 0, text, length, 0, told, sizeof told, &ordered);
  size_t written = evlsim_written(ordered.length, 0, sizeof told);
  fwrite(told, 1, written, evlsim_ok(status) ? stdout : stderr);
  if (evlsim_ok(status) && ordered.against != 0) status = print_trace(length, ordered.against);
  if (!evlsim_ok(status)) {
    fprintf(stderr, "\n%s, step %u\n", evlsim_status_text(status), (unsigned)ordered.step);
    return 2;
  }
  int holds = evlsim_holds(&ordered);
  return holds == 1 ? EXIT_SUCCESS : holds == 0 ? 1 : 5;
}
