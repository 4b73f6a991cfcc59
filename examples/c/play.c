/* Plays the scenario of a file and prints its trace: play FILE. The buffer is small, so that a trace is had in parts.
 */
#include <evlsim.h>
#include <stdio.h>
#include <stdlib.h>

static uint8_t text[1 << 21];

int main(int count, char **words) {
  FILE *file = count == 2 ? fopen(words[1], "rb") : NULL;
  if (file == NULL) {
    fputs("no file\n", stderr);
    return EXIT_FAILURE;
  }
  size_t length = fread(text, 1, sizeof text, file);
  fclose(file);

  uint8_t part[4096];
  evlsim_played played = {0, 0};
  for (size_t start = 0; start == 0 || start < played.length; start += sizeof part) {
    evlsim_status answer = evlsim_play(text, length, 0, start, part, sizeof part, &played);
    if (!evlsim_ok(answer)) {
      fprintf(stderr, "%s %u\n", evlsim_status_text(answer), (unsigned)played.step);
      return (int)answer.number;
    }
    fwrite(part, 1, evlsim_written(played.length, start, sizeof part), stdout);
  }
  return EXIT_SUCCESS;
}
