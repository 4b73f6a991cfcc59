/*
 * Tries texts of lines, evlsim_orders and evlsim_callers: buffers and starts of all lengths, null pointers, wrong numbers,
 * plans and texts, and damaged texts: order_tries FOLDER [DAMAGES]; the folder of this repository, and how often a text is
 * damaged, 300 times where that isn't said.
 */
#include <evlsim.h>
#include <stdio.h>
#include <stdlib.h>
#include <string.h>

#define ROOM 65536u
#define MARK 0xA5u

static const char lines[] = "board threads=2 sems=[0]\nT0 put sem=0\nT1 try_get sem=0\n";
static const char tables[] = "[board]\nthreads = 2\nsems = [0]\n[[step]]\ndo = \"put\"\nwho = 0\nsem = 0\n"
                             "[[step]]\ndo = \"try_get\"\nwho = 1\nsem = 0\n";

struct text {
  uint8_t bytes[ROOM];
  size_t length;
};
static struct text asked, caller, report;

static void require(int holds, const char *what, const char *name) {
  if (!holds) {
    fprintf(stderr, "%s: %s\n", name, what);
    exit(EXIT_FAILURE);
  }
}

static const uint8_t *bytes_of(const char *text) { return (const uint8_t *)text; }

static void read_file(const char *folder, const char *name, struct text *into) {
  char path[1024];
  snprintf(path, sizeof path, "%s/%s", folder, name);
  FILE *file = fopen(path, "rb");
  require(file != NULL, "it can't be read", path);
  into->length = fread(into->bytes, 1, ROOM, file);
  fclose(file);
  require(into->length < ROOM, "it is too long for this program", path);
}

static int is_marked(const uint8_t *buffer, size_t from, size_t to) {
  while (from < to && buffer[from] == MARK) from++;
  return from >= to;
}

static uint8_t *marked(size_t room) {
  uint8_t *out = malloc(room + (room == 0));
  require(out != NULL, "no memory", "buffer");
  memset(out, (int)MARK, room);
  return out;
}

/* ---- texts of lines */

static void try_lines(void) {
  static uint8_t one[ROOM], other[ROOM];
  evlsim_played played[2];
  evlsim_checked checked;
  evlsim_drawn drawn[2];
  require(evlsim_ok(evlsim_play(bytes_of(lines), sizeof lines - 1, 0, 0, one, ROOM, &played[0])) &&
              evlsim_ok(evlsim_play(bytes_of(tables), sizeof tables - 1, 0, 0, other, ROOM, &played[1])) &&
              played[0].length == played[1].length && memcmp(one, other, played[0].length) == 0,
          "another trace", "lines");
  require(evlsim_ok(evlsim_draw(0, 1, bytes_of(lines), sizeof lines - 1, 0, one, ROOM, &drawn[0])) &&
              evlsim_ok(evlsim_draw(0, 1, bytes_of(tables), sizeof tables - 1, 0, other, ROOM, &drawn[1])) &&
              drawn[0].length == drawn[1].length && memcmp(one, other, drawn[0].length) == 0,
          "another picture", "lines");
  require(evlsim_ok(evlsim_check("t", bytes_of(lines), sizeof lines - 1, 0, NULL, 0, &checked)) &&
              !checked.is_at_fault && checked.length == 0, "a fault", "lines");
}

static void try_bad_lines(void) {
  static const struct { const char *text; uint32_t status, step; const char *line; } wrong[] = {
      {"board threads=1 sems=[0]\nT0 put semm=0\n", EVLSIM_STATUS_BAD_STEP, 2, "t:2:8: put has no key \"semm\""},
      {"T0 tick delta=1\n", EVLSIM_STATUS_BAD_BOARD, 0, "t:1:1: a line with the board is wanted"},
      {"board threads=0\n", EVLSIM_STATUS_BAD_STEP, 1, "t:1:"},
  };
  for (size_t it = 0; it < sizeof wrong / sizeof *wrong; it++) {
    uint8_t out[ROOM];
    evlsim_played played = {7, 7};
    evlsim_checked checked;
    evlsim_drawn drawn;
    const uint8_t *text = bytes_of(wrong[it].text);
    size_t length = strlen(wrong[it].text);
    memset(out, (int)MARK, sizeof out);
    require(evlsim_play(text, length, 0, 0, out, ROOM, &played).number == wrong[it].status &&
                played.step == wrong[it].step && played.length == 0 && is_marked(out, 0, ROOM),
            "another answer of a play", wrong[it].text);
    require(evlsim_draw(0, 1, text, length, 0, out, ROOM, &drawn).number == wrong[it].status &&
                drawn.step == wrong[it].step && is_marked(out, 0, ROOM), "another picture", wrong[it].text);
    require(evlsim_ok(evlsim_check("t", text, length, 0, out, ROOM, &checked)) && checked.is_at_fault &&
                strncmp((char *)out, wrong[it].line, strlen(wrong[it].line)) == 0, "another fault", wrong[it].text);
  }
}

/* ---- orders */

static void try_windows(void) {
  evlsim_ordered ordered;
  require(evlsim_ok(evlsim_orders(0, 0, asked.bytes, asked.length, 0, report.bytes, ROOM, &ordered)), "no orders",
          "orders");
  report.length = ordered.length;
  require(ordered.total == 38 && ordered.outcomes == 2 && ordered.against == 1 && ordered.is_whole &&
              evlsim_holds(&ordered) == 0 && ordered.always_ends, "other numbers", "orders");
  require(report.length < ROOM && memcmp(report.bytes, "# 38 orders", 11) == 0, "another report", "orders");
  for (size_t room = 0; room <= report.length + 2; room += 1 + room / 2) {
    for (size_t start = 0; start <= report.length + 2; start += 1 + report.length / 3) {
      uint8_t *out = marked(room);
      size_t count = evlsim_written(report.length, start, room);
      require(evlsim_ok(evlsim_orders(0, 0, asked.bytes, asked.length, start, out, room, &ordered)) &&
                  ordered.length == report.length, "another length", "windows");
      require(count == 0 || memcmp(out, report.bytes + start, count) == 0, "another text", "windows");
      require(is_marked(out, count, room), "more was written", "windows");
      free(out);
    }
  }
}

/* Each outcome's scenario is played as it stands, and there is no further one. */
static void try_outcomes(void) {
  static uint8_t out[ROOM];
  evlsim_ordered ordered;
  evlsim_played played;
  for (size_t number = 1; number < 4; number++) {
    memset(out, (int)MARK, sizeof out);
    evlsim_status status = evlsim_orders(0, number, asked.bytes, asked.length, 0, out, ROOM, &ordered);
    require(evlsim_status_is(status, number < 3 ? EVLSIM_OK : EVLSIM_BAD_NUMBER), "another status", "outcomes");
    require(ordered.outcomes == 2 && (number < 3) == (ordered.length != 0), "other numbers", "outcomes");
    require(number == 3 ? is_marked(out, 0, ROOM)
                        : evlsim_ok(evlsim_play(out, ordered.length, 0, 0, NULL, 0, &played)), "another scenario",
            "outcomes");
  }
  require(evlsim_status_is(evlsim_orders(0, SIZE_MAX, asked.bytes, asked.length, 0, NULL, 0, &ordered),
                           EVLSIM_BAD_NUMBER), "the last outcome", "outcomes");
  require(evlsim_ok(evlsim_orders(2, 0, asked.bytes, asked.length, 0, NULL, 0, &ordered)) && !ordered.is_whole &&
              evlsim_holds(&ordered) == -1, "nothing is cut off", "outcomes");
}

static void try_refusals(void) {
  static const struct { const char *text; uint32_t status, step; const char *words; } wrong[] = {
      {"x = ", EVLSIM_STATUS_BAD_TEXT, 0, ""},
      {"", EVLSIM_STATUS_BAD_BOARD, 0, ""},
      {"[board]\nthreads = 1\n[[step]]\ndo = \"x\"\n", EVLSIM_STATUS_BAD_STEP, 1, ""},
      {"board threads=1\nT0 x\n", EVLSIM_STATUS_BAD_STEP, 2, ""},
      {"limit = 1\n[board]\nthreads = 1\n[[step]]\ndo = \"now\"\nwho = 0\n[[step]]\ndo = \"now\"\nwho = 0\n",
       EVLSIM_STATUS_BAD_BOARD, 0, "more steps than the limit"},
      {"[board]\nthreads = 1\n[[step]]\ndo = \"now\"\nwho = 0\n[[setup]]\ndo = \"now\"\nwho = 0\n",
       EVLSIM_STATUS_BAD_STEP, 0, "a [[setup]] behind a [[step]]"},
      {"[board]\nthreads = 1\n[ask]\nalways_ends = 1\n", EVLSIM_STATUS_BAD_ASK, 0, "line 4: always_ends is true or false"},
      {"[board]\nthreads = 1\nsems = [0]\n[ask]\nnever = ['T0 -> Agian']\n[[step]]\ndo = \"try_get\"\nwho = 0\nsem = 0\n",
       EVLSIM_STATUS_BAD_ASK, 0, "[ask]: T0 is never answered \"Agian\"; did you mean \"Again\"?"},
  };
  for (size_t it = 0; it < sizeof wrong / sizeof *wrong; it++) {
    uint8_t out[256];
    evlsim_ordered ordered = {7, 7, 7, 7, 7, 7, 7, 7, 7, 7, 7, true, true, true, true};
    size_t count = strlen(wrong[it].words);
    memset(out, (int)MARK, sizeof out);
    evlsim_status status =
        evlsim_orders(0, 0, bytes_of(wrong[it].text), strlen(wrong[it].text), 0, out, sizeof out, &ordered);
    if (status.number != wrong[it].status || ordered.length != count) {
      fprintf(stderr, "%u %u %zu %.*s\n", status.number, ordered.step, ordered.length, (int)ordered.length, (char *)out);
    }
    require(status.number == wrong[it].status && ordered.step == wrong[it].step && ordered.length == count,
            "another refusal", wrong[it].text);
    require(ordered.total == 0 && ordered.outcomes == 0 && !ordered.is_whole, "numbers of a refusal", wrong[it].text);
    require(memcmp(out, wrong[it].words, count) == 0 && is_marked(out, count, sizeof out), "other words",
            wrong[it].text);
  }
}

static void try_nulls(void) {
  uint8_t out[4] = {MARK, MARK, MARK, MARK};
  evlsim_ordered ordered = {7, 7, 7, 7, 7, 7, 7, 7, 7, 7, 7, true, true, true, true};
  evlsim_played played = {7, 7};
  const uint8_t *text = asked.bytes;
  static evlsim_plan many[65];
  for (size_t it = 0; it < 65; it++) many[it] = evlsim_program_bank[0];
  require(evlsim_status_is(evlsim_orders(0, 0, NULL, 1, 0, out, 4, &ordered), EVLSIM_NULL) &&
              evlsim_status_is(evlsim_orders(0, 0, text, 9, 0, NULL, 4, &ordered), EVLSIM_NULL) &&
              evlsim_status_is(evlsim_orders(0, 0, text, 9, 0, out, 4, NULL), EVLSIM_NULL) &&
              evlsim_status_is(evlsim_orders_over(NULL, 1, 0, 0, text, 9, 0, out, 4, &ordered), EVLSIM_NULL),
          "null pointers of orders", "nulls");
  require(evlsim_status_is(evlsim_callers(NULL, 1, 0, 0, out, 4, &played), EVLSIM_NULL) &&
              evlsim_status_is(evlsim_callers(text, 9, 0, 0, NULL, 4, &played), EVLSIM_NULL) &&
              evlsim_status_is(evlsim_callers(text, 9, 0, 0, out, 4, NULL), EVLSIM_NULL) &&
              evlsim_status_is(evlsim_callers_over(NULL, 1, text, 9, 0, 0, out, 4, &played), EVLSIM_NULL),
          "null pointers of callers", "nulls");
  require(ordered.length == 7 && ordered.step == 7 && played.length == 7 && played.step == 7, "it was told", "nulls");
  require(evlsim_status_is(evlsim_orders_over(many, 65, 0, 0, text, 9, 0, out, 4, &ordered), EVLSIM_BAD_PLAN) &&
              ordered.length == 0 && ordered.total == 0, "65 plans of orders", "plans");
  require(evlsim_status_is(evlsim_callers_over(many, 65, text, 9, 0, 0, out, 4, &played), EVLSIM_BAD_PLAN) &&
              played.length == 0 && played.step == 0, "65 plans of callers", "plans");
  require(is_marked(out, 0, 4), "it was written", "nulls");
}

/* ---- callers */

static void try_callers(const struct text *wanted) {
  static uint8_t out[ROOM];
  evlsim_played played;
  require(evlsim_ok(evlsim_callers(caller.bytes, caller.length, 0, 0, out, ROOM, &played)) &&
              played.length == wanted->length && memcmp(out, wanted->bytes, wanted->length) == 0, "another text", "callers");
  require(evlsim_ok(evlsim_callers(caller.bytes, caller.length, 0, 9, out, 3, &played)) &&
              memcmp(out, wanted->bytes + 9, 3) == 0, "another part", "callers");
  static const char stopped[] = "[board]\nthreads = 1\n[[step]]\ndo = \"take\"\nwho = 9\n";
  require(evlsim_status_is(evlsim_callers(bytes_of(stopped), sizeof stopped - 1, 0, 0, out, ROOM, &played),
                           EVLSIM_BAD_STEP) && played.step == 1 && played.length != 0 &&
              memcmp(out, "who: there is no such thread", 28) == 0, "a step that can't be made", "callers");
  require(evlsim_status_is(evlsim_callers(bytes_of(lines), sizeof lines - 1, 0, 0, NULL, 0, &played), EVLSIM_BAD_TEXT),
          "lines", "callers");
  require(evlsim_status_is(evlsim_callers(caller.bytes, caller.length, 1000001, 0, NULL, 0, &played), EVLSIM_BAD_BOARD),
          "a limit", "callers");
}

static uint64_t dice = 1;

static size_t throw_below(size_t sides) {
  dice = dice * 6364136223846793005u + 1442695040888963407u;
  return (size_t)(dice >> 33) % sides;
}

/* A damaged text is gone through, or refused for a reason. */
static void try_damages(unsigned damages) {
  static uint8_t text[ROOM], out[1 << 20];
  size_t ordered_well = 0, played_well = 0;
  for (unsigned damage = 0; damage < damages; damage++) {
    const struct text *of = damage % 2 == 0 ? &asked : &caller;
    memcpy(text, of->bytes, of->length);
    text[throw_below(of->length)] = throw_below(4) == 0 ? (uint8_t)throw_below(256) : text[throw_below(of->length)];
    evlsim_ordered ordered;
    evlsim_played played;
    evlsim_status status = evlsim_orders(1000, 0, text, of->length, 0, out, sizeof out, &ordered);
    require(evlsim_ok(status) == (ordered.total != 0), "orders without a number", "damages");
    ordered_well += evlsim_ok(status);
    status = evlsim_callers(text, of->length, 0, 0, out, sizeof out, &played);
    require(evlsim_ok(status) <= (played.length != 0), "callers without a line", "damages");
    played_well += evlsim_ok(status);
  }
  printf("of %u damaged texts %zu are gone through, %zu played\n", damages, ordered_well, played_well);
}

int main(int count, char **words) {
  static struct text wanted;
  require(count == 2 || count == 3, "which folder?", "order_tries");
  read_file(words[1], "examples/orders/two_locks.toml", &asked);
  read_file(words[1], "callers/contended_mutex.toml", &caller);
  read_file(words[1], "callers/contended_mutex.told", &wanted);
  try_lines();
  try_bad_lines();
  try_windows();
  try_outcomes();
  try_refusals();
  try_nulls();
  try_callers(&wanted);
  try_damages(count == 3 ? (unsigned)strtoul(words[2], NULL, 10) : 300);
  return EXIT_SUCCESS;
}
