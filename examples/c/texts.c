/* Prints every fault of a text with its place, or what looks odd, and else draws it: texts NAME FILE [PICTURE], where the
   lines call the text NAME, and PICTURE gets the picture in SVG. Ends with 2 if the text is at fault.
 */
#include <evlsim.h>
#include <stdio.h>
#include <stdlib.h>

static uint8_t text[1 << 21], part[4096];

/* Each call tells the whole length, so the last one is known. */
static evlsim_status print_faults(const char *name, size_t length, evlsim_checked *checked) {
  checked->length = 0;
  for (size_t start = 0; start == 0 || start < checked->length; start += sizeof part) {
    evlsim_status answer = evlsim_check(name, text, length, start, part, sizeof part, checked);
    if (!evlsim_ok(answer)) return answer;
    fwrite(part, 1, evlsim_written(checked->length, start, sizeof part), stdout);
  }
  return EVLSIM_OK;
}

/* The first call, with no buffer, tells how long the picture is. */
static evlsim_status draw(size_t length, FILE *to) {
  evlsim_drawn drawn;
  evlsim_status answer = evlsim_draw(EVLSIM_SVG, 1, text, length, 0, NULL, 0, &drawn);
  if (!evlsim_ok(answer)) return answer;
  uint8_t *picture = malloc(drawn.length);
  if (picture == NULL) return EVLSIM_NO_MEMORY;
  answer = evlsim_draw(EVLSIM_SVG, 1, text, length, 0, picture, drawn.length, &drawn);
  if (evlsim_ok(answer)) fwrite(picture, 1, drawn.length, to);
  free(picture);
  return answer;
}

int main(int count, char **words) {
  FILE *file = count == 3 || count == 4 ? fopen(words[2], "rb") : NULL;
  if (file == NULL) {
    fputs("no file\n", stderr);
    return EXIT_FAILURE;
  }
  size_t length = fread(text, 1, sizeof text, file);
  fclose(file);
  evlsim_checked checked;
  evlsim_status answer = print_faults(words[1], length, &checked);
  if (evlsim_ok(answer) && checked.is_at_fault) return 2;
  FILE *to = evlsim_ok(answer) && count == 4 ? fopen(words[3], "wb") : NULL;
  if (to != NULL) {
    answer = draw(length, to);
    fclose(to);
  }
  if (!evlsim_ok(answer)) fprintf(stderr, "%s\n", evlsim_status_text(answer));
  return evlsim_ok(answer) ? EXIT_SUCCESS : EXIT_FAILURE;
}
