/*
 * Tries evlsim_play with buffers and starts of all lengths, with null pointers, limits and plans, with damaged texts,
 * and on two threads at once: tries FOLDER [DAMAGES], the folder of the scenarios and how often each text is damaged,
 * 20,000 times where that isn't said.
 */
#define _POSIX_C_SOURCE 200809L
#include <evlsim.h>
#include <pthread.h>
#include <stdio.h>
#include <stdlib.h>
#include <string.h>

#define ROOM 16384u
#define MARK 0xA5u
#define ROUNDS 200u

static const char *const names[] = {"first_semaphore", "inheritance_chain", "periodic_timer", "whole_board",
                                    "flags_and_buffers_4"};
#define NAMES (sizeof names / sizeof *names)

struct file {
  uint8_t bytes[ROOM];
  size_t length;
};
static struct file texts[NAMES], traces[NAMES];

static void require(int holds, const char *what, const char *name) {
  if (!holds) {
    fprintf(stderr, "%s: %s\n", name, what);
    exit(EXIT_FAILURE);
  }
}

static void read_file(const char *folder, const char *name, const char *ending, struct file *into) {
  char path[1024];
  snprintf(path, sizeof path, "%s/%s.%s", folder, name, ending);
  FILE *file = fopen(path, "rb");
  require(file != NULL, "it can't be read", path);
  into->length = fread(into->bytes, 1, ROOM, file);
  fclose(file);
  require(into->length < ROOM, "it is too long for this program", path);
}

/* Whether all of a buffer from a place on is marked. */
static int is_marked(const uint8_t *buffer, size_t from, size_t to) {
  while (from < to && buffer[from] == MARK) from++;
  return from >= to;
}

/* The buffer is a block of just its length, so that a write behind it is found. */
static void try_buffer(size_t number, size_t start, size_t room) {
  const struct file *trace = &traces[number];
  size_t left = start < trace->length ? trace->length - start : 0, count = left < room ? left : room;
  uint8_t *out = malloc(room + (room == 0));
  require(out != NULL, "no memory", names[number]);
  memset(out, (int)MARK, room);
  evlsim_played played = {7, 7};
  evlsim_status answer = evlsim_play(texts[number].bytes, texts[number].length, 0, start, out, room, &played);
  require(evlsim_ok(answer) && played.length == trace->length && played.step == 0, "not done", names[number]);
  require(count == 0 || memcmp(out, trace->bytes + start, count) == 0, "another trace", names[number]);
  require(is_marked(out, count, room), "more was written", names[number]);
  free(out);
}

static void try_buffers(size_t number) {
  size_t length = traces[number].length;
  for (size_t room = 0; room <= length + 2; room += 1 + room / 16) {
    for (size_t start = 0; start <= length + 2; start += 1 + length / 11) try_buffer(number, start, room);
  }
  try_buffer(number, SIZE_MAX, 9);
  try_buffer(number, length, 9);
  try_buffer(number, length - 1, 1);
}

static void try_nulls(void) {
  uint8_t out[4] = {MARK, MARK, MARK, MARK};
  evlsim_played played = {7, 7};
  const struct file *text = &texts[0];
  require(evlsim_status_is(evlsim_play(NULL, 1, 0, 0, out, 4, &played), EVLSIM_NULL), "null text", "nulls");
  require(evlsim_status_is(evlsim_play(text->bytes, text->length, 0, 0, NULL, 4, &played), EVLSIM_NULL), "null buffer",
          "nulls");
  require(evlsim_status_is(evlsim_play(text->bytes, text->length, 0, 0, out, 4, NULL), EVLSIM_NULL), "null answer",
          "nulls");
  require(played.length == 7 && played.step == 7 && is_marked(out, 0, 4), "it was written", "nulls");
  require(evlsim_status_is(evlsim_play(NULL, 0, 0, 0, out, 4, &played), EVLSIM_BAD_BOARD), "empty text", "nulls");
  require(played.length == 0 && played.step == 0 && is_marked(out, 0, 4), "a trace of nothing", "nulls");
  require(evlsim_ok(evlsim_play(text->bytes, text->length, 0, 0, NULL, 0, &played)), "no buffer", "nulls");
  require(played.length == traces[0].length, "another length", "nulls");
}

/* The program's callbacks (docs/use/SCENARIOS.md, "The bank"). */
static const evlsim_plan bank[] = {
    {1, 0, 0, {{0, 0, 0, 0}, {0, 0, 0, 0}, {0, 0, 0, 0}, {0, 0, 0, 0}}},
    {1, EVLSIM_ACTION_BIT(EVLSIM_POST_SEM), 1, {{1, EVLSIM_POST_SEM, 0, 0}, {0, 0, 0, 0}, {0, 0, 0, 0}, {0, 0, 0, 0}}},
    {1, EVLSIM_ACTION_BIT(EVLSIM_POST_SEM), 1, {{2, EVLSIM_POST_SEM, 0, 0}, {0, 0, 0, 0}, {0, 0, 0, 0}, {0, 0, 0, 0}}},
    {1,
     EVLSIM_ACTION_BIT(EVLSIM_PROPAGATE),
     1,
     {{1, EVLSIM_PROPAGATE, 0, 0}, {0, 0, 0, 0}, {0, 0, 0, 0}, {0, 0, 0, 0}}},
    {1, EVLSIM_ACTION_BIT(EVLSIM_POST_OOB), 1, {{1, EVLSIM_POST_OOB, 4, 0}, {0, 0, 0, 0}, {0, 0, 0, 0}, {0, 0, 0, 0}}},
    {1,
     EVLSIM_ACTION_BIT(EVLSIM_POST_FLAGS),
     1,
     {{1, EVLSIM_POST_FLAGS, 0, 1}, {0, 0, 0, 0}, {0, 0, 0, 0}, {0, 0, 0, 0}}},
    {2,
     EVLSIM_ACTION_BIT(EVLSIM_STOP_TIMER),
     1,
     {{1, EVLSIM_STOP_TIMER, 0, 0}, {0, 0, 0, 0}, {0, 0, 0, 0}, {0, 0, 0, 0}}},
    {1, 0, 0, {{0, 0, 0, 0}, {0, 0, 0, 0}, {0, 0, 0, 0}, {0, 0, 0, 0}}},
};
#define BANK (sizeof bank / sizeof *bank)

static evlsim_status play_over(const evlsim_plan *plans, size_t count, size_t number, uint8_t *out,
                               evlsim_played *played) {
  out[0] = MARK;
  return evlsim_play_over(plans, count, texts[number].bytes, texts[number].length, 0, 0, out, ROOM, played);
}

static void try_same_bank(void) {
  static uint8_t out[ROOM];
  evlsim_played played;
  for (size_t number = 0; number < NAMES; number++) {
    require(evlsim_ok(play_over(bank, BANK, number, out, &played)), "not done over plans", names[number]);
    require(played.length == traces[number].length && memcmp(out, traces[number].bytes, played.length) == 0,
            "another trace over plans", names[number]);
  }
  require(evlsim_ok(play_over(NULL, 0, 0, out, &played)), "no plans", "plans");
  require(evlsim_status_is(play_over(NULL, 1, 0, out, &played), EVLSIM_NULL), "null plans", "plans");
}

/* Each number of a plan that it may not have is refused, and each rightful one isn't. */
static void try_plans(void) {
  static uint8_t out[ROOM];
  static evlsim_plan many[65];
  evlsim_played played;
  for (size_t it = 0; it < 65; it++) many[it] = bank[0];
  require(evlsim_ok(play_over(many, 64, 0, out, &played)), "64 plans", "plans");
  require(evlsim_status_is(play_over(many, 65, 0, out, &played), EVLSIM_BAD_PLAN), "65 plans", "plans");
  for (unsigned row = 0; row < 4; row++) {
    for (unsigned action = 0; action < 7; action++) {
      for (unsigned wrong = 0; wrong < 5; wrong++) {
        evlsim_plan plan = {wrong != 1, 0, (uint8_t)(wrong == 2 ? 5 : row + 1), {bank[1].rows[0]}};
        for (unsigned it = 0; it <= row; it++) plan.rows[it] = (evlsim_row){wrong != 3 || it != row, 2, 0, 0};
        plan.rows[row].action = (uint8_t)action;
        plan.kinds = (uint8_t)(EVLSIM_ACTION_BIT(EVLSIM_PROPAGATE) | EVLSIM_ACTION_BIT(action));
        if (wrong == 4) plan.kinds = (uint8_t)(plan.kinds ^ EVLSIM_ACTION_BIT(action));
        int is_plan = wrong == 0 && action <= EVLSIM_STOP_TIMER;
        evlsim_status answer = play_over(&plan, 1, 0, out, &played);
        require(evlsim_status_is(answer, is_plan ? EVLSIM_OK : EVLSIM_BAD_PLAN), "another answer", "plans");
        require(is_plan || (out[0] == MARK && played.length == 0 && played.step == 0), "it was written", "plans");
      }
    }
  }
}

static void try_limits(void) {
  static uint8_t out[ROOM];
  evlsim_played played;
  const struct file *text = &texts[0];
  evlsim_status above = evlsim_play(text->bytes, text->length, EVLSIM_MAX_LIMIT + 1, 0, out, ROOM, &played);
  require(evlsim_status_is(above, EVLSIM_BAD_BOARD) &&
              evlsim_status_is(evlsim_play(text->bytes, text->length, UINT32_MAX, 0, out, ROOM, &played), above),
          "a limit too great", "limits");
  require(evlsim_ok(evlsim_play(text->bytes, text->length, EVLSIM_MAX_LIMIT, 0, out, ROOM, &played)), "greatest",
          "limits");
  require(evlsim_ok(evlsim_play(text->bytes, text->length, 1, 0, out, ROOM, &played)), "least", "limits");
  out[played.length] = 0;
  require(strstr((char *)out, "HistoryFull") != NULL, "it isn't full", "limits");
  static uint8_t long_text[1048577];
  memset(long_text, '#', sizeof long_text);
  require(evlsim_status_is(evlsim_play(long_text, sizeof long_text, 0, 0, out, ROOM, &played), EVLSIM_BAD_TEXT),
          "a long text", "limits");
  require(evlsim_status_is(evlsim_play(long_text, sizeof long_text - 1, 0, 0, out, ROOM, &played), EVLSIM_BAD_BOARD),
          "a comment", "limits");
}

static uint64_t dice = 1;
static unsigned damages = 20000;

static size_t throw_below(size_t sides) {
  dice = dice * 6364136223846793005u + 1442695040888963407u;
  return (size_t)(dice >> 33) % sides;
}

/* Damages a text: one of its bytes becomes another one of it, or any. It is refused, or has a trace. Counts the traces.
 */
static size_t try_damages(size_t number) {
  static uint8_t text[ROOM], out[1 << 20];
  size_t done = 0;
  for (size_t damage = 0; damage < damages; damage++) {
    size_t length = texts[number].length;
    memcpy(text, texts[number].bytes, length);
    text[throw_below(length)] = throw_below(4) == 0 ? (uint8_t)throw_below(256) : text[throw_below(length)];
    out[0] = MARK;
    evlsim_played played = {7, 7};
    evlsim_status answer = evlsim_play(text, length, 0, 0, out, sizeof out, &played);
    require(answer.number <= EVLSIM_STATUS_BAD_STEP, "no such answer", names[number]);
    require(evlsim_status_is(answer, EVLSIM_BAD_STEP) == (played.step != 0), "another step", names[number]);
    require((evlsim_ok(answer)) == (played.length != 0), "another length", names[number]);
    require(evlsim_ok(answer) ? out[0] == 'b' : out[0] == MARK, "another buffer", names[number]);
    done += evlsim_ok(answer);
  }
  return done;
}

static void *play_again(void *number) {
  for (size_t round = 0; round < ROUNDS; round++) try_buffer(*(size_t *)number, round, ROOM);
  return NULL;
}

static void try_two_threads(void) {
  size_t numbers[2] = {1, 3};
  pthread_t threads[2];
  for (size_t it = 0; it < 2; it++) {
    require(pthread_create(&threads[it], NULL, play_again, &numbers[it]) == 0, "no thread", names[it]);
  }
  for (size_t it = 0; it < 2; it++) pthread_join(threads[it], NULL);
}

int main(int count, char **words) {
  require(count == 2 || count == 3, "which folder?", "tries");
  if (count == 3) damages = (unsigned)strtoul(words[2], NULL, 10);
  for (size_t number = 0; number < NAMES; number++) {
    read_file(words[1], names[number], "toml", &texts[number]);
    read_file(words[1], names[number], "trace", &traces[number]);
    try_buffers(number);
  }
  try_nulls();
  try_same_bank();
  try_plans();
  try_limits();
  try_two_threads();
  for (size_t number = 0; number < NAMES; number++) {
    printf("%s: %zu of %u damaged texts are played\n", names[number], try_damages(number), damages);
  }
  return EXIT_SUCCESS;
}
