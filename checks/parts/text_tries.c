/*
 * Tries evlsim_check and evlsim_draw with buffers and starts of all lengths, with null pointers, names, forms, pages and
 * plans, and with damaged texts, against evlsim_play: text_tries FOLDER PICTURE FAULTY [DAMAGES]; the folder of the
 * scenarios, the stored picture of the scenario stalled_inband, a faulty text, and how often each text is damaged, 2,000
 * times where that isn't said.
 */
#include <evlsim.h>
#include <stdio.h>
#include <stdlib.h>
#include <string.h>

#define ROOM 65536u
#define MARK 0xA5u

static const char *const names[] = {"stalled_inband", "first_semaphore", "periodic_timer", "whole_board"};
#define NAMES (sizeof names / sizeof *names)

struct file {
  uint8_t bytes[ROOM];
  size_t length;
};
static struct file texts[NAMES], picture, faulty, faults;

static void require(int holds, const char *what, const char *name) {
  if (!holds) {
    fprintf(stderr, "%s: %s\n", name, what);
    exit(EXIT_FAILURE);
  }
}

static void read_file(const char *path, struct file *into) {
  FILE *file = fopen(path, "rb");
  require(file != NULL, "it can't be read", path);
  into->length = fread(into->bytes, 1, ROOM, file);
  fclose(file);
  require(into->length < ROOM, "it is too long for this program", path);
}

static int is_marked(const uint8_t *buffer, size_t from, size_t to) {
  while (from < to && buffer[from] == MARK) from++;
  return from >= to;
}

/* A buffer of just its length, which is marked. */
static uint8_t *marked(size_t room) {
  uint8_t *out = malloc(room + (room == 0));
  require(out != NULL, "no memory", "buffer");
  memset(out, (int)MARK, room);
  return out;
}

/* The part of a whole text from a byte on stands in the buffer, and behind it nothing was written. */
static void require_window(const struct file *whole, size_t start, const uint8_t *out, size_t room, const char *what) {
  size_t count = evlsim_written(whole->length, start, room);
  require(count == 0 || memcmp(out, whole->bytes + start, count) == 0, "another text", what);
  require(is_marked(out, count, room), "more was written", what);
}

static void try_windows(size_t start, size_t room) {
  uint8_t *out = marked(room);
  evlsim_drawn drawn = {7, 7, 7, 7};
  evlsim_status status = evlsim_draw(EVLSIM_SVG, 1, texts[0].bytes, texts[0].length, start, out, room, &drawn);
  require(evlsim_ok(status) && drawn.length == picture.length, "it isn't drawn", "picture");
  require(drawn.pages == 1 && drawn.line == 0 && drawn.step == 0, "another answer", "picture");
  require_window(&picture, start, out, room, "picture");
  free(out);
  out = marked(room);
  evlsim_checked checked = {7, false};
  status = evlsim_check("text", faulty.bytes, faulty.length, start, out, room, &checked);
  require(evlsim_ok(status) && checked.length == faults.length && checked.is_at_fault, "another answer", "faults");
  require_window(&faults, start, out, room, "faults");
  free(out);
}

static void try_buffers(void) {
  for (size_t room = 0; room <= picture.length + 2; room += 1 + room / 3) {
    for (size_t start = 0; start <= picture.length + 2; start += 1 + picture.length / 5) try_windows(start, room);
  }
  try_windows(SIZE_MAX, 9);
  try_windows(faults.length - 1, 9);
}

static void try_nulls(void) {
  uint8_t out[4] = {MARK, MARK, MARK, MARK};
  evlsim_checked checked = {7, true};
  evlsim_drawn drawn = {7, 7, 7, 7};
  const uint8_t *text = texts[1].bytes;
  size_t length = texts[1].length;
  require(evlsim_status_is(evlsim_check(NULL, text, length, 0, out, 4, &checked), EVLSIM_NULL), "null name", "nulls");
  require(evlsim_status_is(evlsim_check("x", NULL, 1, 0, out, 4, &checked), EVLSIM_NULL), "null text", "nulls");
  require(evlsim_status_is(evlsim_check("x", text, length, 0, NULL, 4, &checked), EVLSIM_NULL), "null buffer", "nulls");
  require(evlsim_status_is(evlsim_check("x", text, length, 0, out, 4, NULL), EVLSIM_NULL), "null answer", "nulls");
  require(evlsim_status_is(evlsim_check_over(NULL, 1, "x", text, length, 0, out, 4, &checked), EVLSIM_NULL),
          "null plans", "nulls");
  require(evlsim_status_is(evlsim_draw(0, 1, NULL, 1, 0, out, 4, &drawn), EVLSIM_NULL), "null text", "nulls");
  require(evlsim_status_is(evlsim_draw(0, 1, text, length, 0, NULL, 4, &drawn), EVLSIM_NULL), "null buffer", "nulls");
  require(evlsim_status_is(evlsim_draw(0, 1, text, length, 0, out, 4, NULL), EVLSIM_NULL), "null answer", "nulls");
  require(evlsim_status_is(evlsim_draw_over(NULL, 1, 0, 1, text, length, 0, out, 4, &drawn), EVLSIM_NULL),
          "null plans", "nulls");
  require(checked.length == 7 && checked.is_at_fault && drawn.length == 7 && drawn.step == 7, "it was told", "nulls");
  require(evlsim_status_is(evlsim_check("\xff", text, length, 0, out, 4, &checked), EVLSIM_BAD_TEXT), "a name", "names");
  require(checked.length == 7 && is_marked(out, 0, 4), "it was written", "nulls");
  require(evlsim_ok(evlsim_check("x", NULL, 0, 0, NULL, 0, &checked)) && checked.is_at_fault, "no text", "nulls");
  require(evlsim_ok(evlsim_draw(0, 1, NULL, 0, 0, NULL, 0, &drawn)) && drawn.pages == 1, "an empty trace", "nulls");
  require(evlsim_ok(evlsim_check("", text, length, 0, NULL, 0, &checked)) && !checked.is_at_fault, "no name", "names");
}

/* Forms and pages that are there and that aren't. */
static void try_forms(void) {
  static uint8_t out[ROOM];
  evlsim_drawn drawn;
  for (unsigned form = 0; form < 256; form++) {
    for (unsigned page = 0; page < 4; page++) {
      out[0] = MARK;
      drawn.length = 7;
      evlsim_status status =
          evlsim_draw((uint8_t)form, page, texts[0].bytes, texts[0].length, 0, out, ROOM, &drawn);
      int is_there = form <= EVLSIM_EVENTS && page != 0 && (page == 1 || form >= EVLSIM_EVENTS);
      require(evlsim_status_is(status, is_there ? EVLSIM_OK : EVLSIM_BAD_NUMBER), "another answer", "forms");
      require(is_there == (drawn.length != 0) && is_there == (out[0] != MARK), "another buffer", "forms");
      require(drawn.pages == (size_t)(form <= EVLSIM_EVENTS && page != 0) && drawn.line == 0, "other pages", "forms");
    }
  }
  require(evlsim_status_is(evlsim_draw(0, UINT32_MAX, texts[0].bytes, texts[0].length, 0, out, ROOM, &drawn),
                           EVLSIM_BAD_NUMBER) && drawn.pages == 1, "the last page", "forms");
}

/* Why a text is not drawn. */
static void try_undrawn(void) {
  static const char scenario[] = "boards threads=1\n";
  static const char step[] = "[board]\nthreads = 1\n[[step]]\ndo = \"tick\"\nwho = 0\ndelta = 1\n[[step]]\ndo = \"x\"\n";
  static const char trace[] = "1 T0 tick delta=1 -> done\nclock\n";
  uint8_t out[4] = {MARK, MARK, MARK, MARK};
  evlsim_drawn drawn = {7, 7, 7, 7};
  const uint8_t *bytes = (const uint8_t *)scenario;
  require(evlsim_status_is(evlsim_draw(0, 1, bytes, sizeof scenario - 1, 0, out, 4, &drawn), EVLSIM_BAD_TEXT) &&
              drawn.line == 1 && drawn.step == 0, "a text", "undrawn");
  bytes = (const uint8_t *)step;
  require(evlsim_status_is(evlsim_draw(0, 1, bytes, sizeof step - 1, 0, out, 4, &drawn), EVLSIM_BAD_STEP) &&
              drawn.line == 1 && drawn.step == 2, "a step", "undrawn");
  require(evlsim_status_is(evlsim_draw(0, 1, bytes, 8, 0, out, 4, &drawn), EVLSIM_BAD_BOARD) && drawn.line == 1,
          "a board", "undrawn");
  bytes = (const uint8_t *)trace;
  require(evlsim_status_is(evlsim_draw(0, 1, bytes, sizeof trace - 1, 0, out, 4, &drawn), EVLSIM_BAD_STEP) &&
              drawn.line == 2 && drawn.step == 2 && drawn.length == 0 && drawn.pages == 0, "a line", "undrawn");
  require(evlsim_status_is(evlsim_draw(0, 1, (const uint8_t *)"\xff", 1, 0, out, 4, &drawn), EVLSIM_BAD_TEXT) &&
              drawn.line == 0, "no UTF-8", "undrawn");
  require(is_marked(out, 0, 4), "it was written", "undrawn");
}

/* Over the program's plans all is the same, and wrong plans are refused. */
static void try_plans(void) {
  static uint8_t one[ROOM], other[ROOM];
  static evlsim_plan many[65];
  evlsim_checked checked[2];
  evlsim_drawn drawn[2];
  const evlsim_plan *bank = evlsim_program_bank;
  for (size_t number = 0; number < NAMES; number++) {
    const struct file *text = &texts[number];
    require(evlsim_ok(evlsim_check("t", text->bytes, text->length, 0, one, ROOM, &checked[0])) &&
                evlsim_ok(evlsim_check_over(bank, EVLSIM_PROGRAM_BANK, "t", text->bytes, text->length, 0, other, ROOM,
                                            &checked[1])), "not checked", names[number]);
    require(checked[0].length == checked[1].length && memcmp(one, other, checked[0].length) == 0, "other lines",
            names[number]);
    require(evlsim_ok(evlsim_draw(0, 1, text->bytes, text->length, 0, one, ROOM, &drawn[0])) &&
                evlsim_ok(evlsim_draw_over(bank, EVLSIM_PROGRAM_BANK, 0, 1, text->bytes, text->length, 0, other, ROOM,
                                           &drawn[1])), "not drawn", names[number]);
    require(drawn[0].length == drawn[1].length && drawn[0].length <= ROOM && memcmp(one, other, drawn[0].length) == 0,
            "another picture", names[number]);
  }
  for (size_t it = 0; it < 65; it++) many[it] = bank[0];
  for (size_t count = 64; count < 66; count++) {
    const struct file *text = &texts[1];
    evlsim_status wanted = count == 64 ? EVLSIM_OK : EVLSIM_BAD_PLAN;
    require(evlsim_status_is(evlsim_check_over(many, count, "t", text->bytes, text->length, 0, one, ROOM, checked),
                             wanted), "plans of a check", "plans");
    require(evlsim_status_is(evlsim_draw_over(many, count, 0, 1, text->bytes, text->length, 0, one, ROOM, drawn),
                             wanted), "plans of a picture", "plans");
  }
  require(drawn[0].length == 0 && drawn[0].pages == 0, "a picture over 65 plans", "plans");
  require(evlsim_status_is(evlsim_check_over(many, 65, "\xff", one, 0, 0, one, 0, checked), EVLSIM_BAD_PLAN),
          "plans before names", "plans");
  require(evlsim_status_is(evlsim_draw_over(many, 65, 9, 0, one, 0, 0, one, 0, drawn), EVLSIM_BAD_PLAN),
          "plans before forms", "plans");
}

static uint64_t dice = 1;

static size_t throw_below(size_t sides) {
  dice = dice * 6364136223846793005u + 1442695040888963407u;
  return (size_t)(dice >> 33) % sides;
}

/* What a damaged scenario is played as, it is checked and drawn as; one that reads as another kind of text is checked as
   that. Counts those that are played. */
static size_t try_damages(size_t number, unsigned damages) {
  static uint8_t text[ROOM], out[1 << 20];
  size_t done = 0;
  for (unsigned damage = 0; damage < damages; damage++) {
    size_t length = texts[number].length;
    memcpy(text, texts[number].bytes, length);
    text[throw_below(length)] = throw_below(4) == 0 ? (uint8_t)throw_below(256) : text[throw_below(length)];
    evlsim_played played;
    evlsim_checked checked;
    evlsim_drawn drawn;
    evlsim_status answer = evlsim_play(text, length, 0, 0, out, sizeof out, &played);
    require(evlsim_ok(evlsim_check("t", text, length, 0, out, sizeof out, &checked)), "not checked", names[number]);
    require(evlsim_ok(answer) || checked.is_at_fault, "no fault is found", names[number]);
    require(!checked.is_at_fault || checked.length != 0, "a fault without a line", names[number]);
    evlsim_status picture_of = evlsim_draw(0, 1, text, length, 0, out, sizeof out, &drawn);
    require(evlsim_status_is(picture_of, answer) && drawn.step == played.step, "another fault", names[number]);
    require(evlsim_ok(answer) == (drawn.length != 0), "another picture", names[number]);
    done += evlsim_ok(answer);
  }
  return done;
}

int main(int count, char **words) {
  unsigned damages = count == 5 ? (unsigned)strtoul(words[4], NULL, 10) : 2000;
  evlsim_checked checked;
  require(count == 4 || count == 5, "which files?", "text_tries");
  for (size_t number = 0; number < NAMES; number++) {
    char path[1024];
    snprintf(path, sizeof path, "%s/%s.toml", words[1], names[number]);
    read_file(path, &texts[number]);
  }
  read_file(words[2], &picture);
  read_file(words[3], &faulty);
  require(evlsim_ok(evlsim_check("text", faulty.bytes, faulty.length, 0, faults.bytes, ROOM, &checked)), "not checked",
          words[3]);
  faults.length = checked.length;
  require(checked.is_at_fault && faults.length > 9 && memcmp(faults.bytes, "text:", 5) == 0, "no faults", words[3]);
  try_buffers();
  try_nulls();
  try_forms();
  try_undrawn();
  try_plans();
  for (size_t number = 0; number < NAMES; number++) {
    size_t done = try_damages(number, damages);
    printf("%s: %zu of %u damaged texts are played, checked and drawn\n", names[number], done, damages);
  }
  return EXIT_SUCCESS;
}
