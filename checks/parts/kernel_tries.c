/*
 * Tries kernels with random calls: kernel_tries FOLDER [SEEDS [CALLS]]. Each kernel's answers and plays are those of
 * its trace; its trace is what its scenario plays; and two kernels go side by side. The first scenario and its trace
 * are written into FOLDER, for `evl` to play.
 */
#include <evlsim.h>
#include <inttypes.h>
#include <stdarg.h>
#include <stdio.h>
#include <stdlib.h>
#include <string.h>

#define ROOM (1u << 22)

static uint64_t state;
static char told[ROOM], trace[ROOM], scenario[ROOM], played[ROOM];
static size_t told_length;

static void require(int holds, const char *what) {
  if (!holds) {
    fprintf(stderr, "%s\n", what);
    exit(EXIT_FAILURE);
  }
}

static uint32_t draw(uint32_t below) {
  state = state * 6364136223846793005u + 1442695040888963407u;
  return (uint32_t)(state >> 33) % below;
}

static void tell(const char *form, ...) {
  va_list values;
  va_start(values, form);
  told_length += (size_t)vsnprintf(told + told_length, sizeof told - told_length, form, values);
  va_end(values);
  require(told_length < sizeof told, "too much was told");
}

static void tell_refusal(evlsim_refusal refusal) {
  char name[32];
  size_t length = 0;
  require(evlsim_ok(evlsim_refusal_text(refusal, 0, (uint8_t *)name, sizeof name, &length)) && length < sizeof name,
          "a refusal");
  tell("%.*s\n", (int)length, name);
}

static void tell_thread(const char *word, int32_t thread, const char *more) {
  if (thread < 0)
    tell("%s none\n", word);
  else
    tell("%s %" PRId32 "%s\n", word, thread, more);
}

static void tell_answer(const evlsim_answer *answer, const uint8_t *bytes) {
  switch (answer->kind.number) {
    case EVLSIM_KIND_REFUSED:
      tell_refusal(answer->refusal);
      break;
    case EVLSIM_KIND_DONE:
      tell("done\n");
      break;
    case EVLSIM_KIND_BEGUN:
      tell("begun\n");
      break;
    case EVLSIM_KIND_COUNT:
      tell("count %" PRId64 "\n", answer->count);
      break;
    case EVLSIM_KIND_BITS:
      tell("bits %" PRIu64 "\n", answer->number);
      break;
    case EVLSIM_KIND_NUMBER:
      tell("number %" PRIu64 "\n", answer->number);
      break;
    case EVLSIM_KIND_BYTES:
      tell("bytes %s", answer->number == 0 ? "-" : "");
      for (uint64_t it = 0; it < answer->number; it++) tell("%02x", bytes[it]);
      tell("\n");
      break;
    case EVLSIM_KIND_THREAD:
      tell_thread("thread", answer->thread, "");
      break;
    case EVLSIM_KIND_NEXT:
      tell_thread("next", answer->thread, answer->more ? " more" : "");
      break;
    case EVLSIM_KIND_TIMED_OUT:
      tell("timed out\n");
      break;
    default:
      require(0, "a kind that there isn't");
  }
}

static void tell_event(const evlsim_event *event) {
  const char *handled = event->handled ? "handled" : "none";
  switch (event->kind) {
    case EVLSIM_PLAY_CLOCK:
      tell("  clock\n");
      break;
    case EVLSIM_PLAY_TIMER:
      tell("  timer %u count %" PRIu64 " missed %" PRIu64 " %s\n", event->element, event->count, event->missed,
           handled);
      break;
    case EVLSIM_PLAY_DEADLINE:
      tell("  deadline T%u\n", event->element);
      break;
    default:
      tell("  line %u %s count %" PRIu64 " %s\n", event->element, event->stage == EVLSIM_OOB ? "oob" : "inband",
           event->count, handled);
  }
}

static evlsim_call draw_call(void) {
  evlsim_call call = evlsim_call_of(draw(36), (uint16_t)(draw(20) == 0 ? draw(65536) : draw(4)));
  call.stage = (uint8_t)(draw(3) != 0);
  call.way = (uint8_t)draw(2);
  call.choice = (uint8_t)draw(4);
  if (call.kind == EVLSIM_CALL_TRY_TAKE || call.kind == EVLSIM_CALL_BEGIN_TAKE) call.choice = (uint8_t)draw(3);
  call.prio = (uint8_t)draw(draw(9) == 0 ? 256 : 99);
  call.callback = (uint8_t)draw(9);
  call.timed = (uint8_t)draw(2);
  call.other = (uint16_t)(draw(9) == 0 ? draw(65536) : draw(5));
  call.bits = draw(9) == 0 ? draw(UINT32_MAX) : draw(8);
  call.date = draw(99) == 0 ? UINT64_MAX - draw(9) : draw(1000);
  call.span = draw(500);
  return call;
}

static void make_call(evlsim_kernel *kernel) {
  uint8_t bytes[256], read[256];
  evlsim_call call = draw_call();
  size_t length =
      call.kind == EVLSIM_CALL_WRITE || call.kind == EVLSIM_CALL_BEGIN_WRITE ? draw(draw(9) == 0 ? 257 : 9) : 0;
  for (size_t it = 0; it < length; it++) bytes[it] = (uint8_t)draw(256);
  uint16_t who = (uint16_t)(draw(50) == 0 ? draw(65536) : draw(4));
  /* half of the calls that may have an element and nothing else go the short way */
  bool bare = (EVLSIM_BARE_KINDS >> call.kind & 1) != 0 && draw(2) == 0;
  if (bare) call = evlsim_call_of(call.kind, call.element);
  require(!bare || evlsim_is_bare(call), "a call that has more");
  evlsim_answer answer =
      bare ? evlsim_do(kernel, who, call) : evlsim_do_bytes(kernel, who, call, bytes, length, read, 256);
  require(evlsim_was_called(answer), "a call that wasn't made");
  if (evlsim_refused_as(answer, EVLSIM_REFUSAL_HISTORY_FULL)) return;
  tell_answer(&answer, read);
  for (size_t it = 0; it < answer.plays; it++) {
    evlsim_event event;
    require(evlsim_ok(evlsim_event_at(kernel, answer.first_play + it, &event)), "a play that isn't there");
    tell_event(&event);
  }
}

/* Leaves of a trace what is after the arrows, and the plays. */
static size_t without_calls(char *text, size_t length) {
  size_t kept = 0;
  char *line = memchr(text, '\n', length), *end = text + length;
  for (line++; line < end;) {
    char *next = (char *)memchr(line, '\n', (size_t)(end - line)) + 1;
    char *from = line;
    if (*line != ' ') {
      while (memcmp(from, " -> ", 4) != 0) from++;
      from += 4;
    }
    memmove(text + kept, from, (size_t)(next - from));
    kept += (size_t)(next - from);
    line = next;
  }
  return kept;
}

static void keep_file(const char *folder, const char *ending, const char *text, size_t length) {
  char path[1024];
  snprintf(path, sizeof path, "%s/tried.%s", folder, ending);
  FILE *file = fopen(path, "wb");
  require(file != NULL && fwrite(text, 1, length, file) == length && fclose(file) == 0, path);
}

static void open_kernel(evlsim_kernel *kernel, uint32_t limit) {
  const uint32_t sems[] = {0, 2, 2147483647}, flags[] = {0, 5};
  const evlsim_rings rings[] = {{8, 256}, {1, 3}};
  const evlsim_mutex mutexes[] = {{EVLSIM_NORMAL, 0}, {EVLSIM_RECURSIVE, 0}, {EVLSIM_CEILING, 40}};
  const uint8_t groups[] = {50, 1};
  const evlsim_board board = {4, sems, 3, flags, 2, rings, 2, mutexes, 3, groups, 2};
  require(evlsim_ok(evlsim_open(kernel, &board, evlsim_program_bank, EVLSIM_PROGRAM_BANK, limit)), "it wasn't opened");
}

static void try_seed(uint64_t seed, uint32_t calls, const char *folder) {
  evlsim_kernel kernel = EVLSIM_NO_KERNEL, other = EVLSIM_NO_KERNEL;
  size_t length, trace_length;
  evlsim_played play;
  state = seed;
  told_length = 0;
  open_kernel(&kernel, calls - (uint32_t)(seed % 3));
  open_kernel(&other, 10);
  for (uint32_t it = 0; it < calls; it++) {
    make_call(&kernel);
    if (it % 16 == 0) (void)evlsim_do(&other, 0, evlsim_call_put(1));
  }
  require(evlsim_ok(evlsim_trace(&kernel, 0, (uint8_t *)trace, ROOM, &trace_length)) && trace_length <= ROOM,
          "no trace");
  require(evlsim_ok(evlsim_scenario(&kernel, 0, (uint8_t *)scenario, ROOM, &length)) && length <= ROOM, "no scenario");
  require(evlsim_ok(evlsim_play((const uint8_t *)scenario, length, 0, 0, (uint8_t *)played, ROOM, &play)),
          "it isn't played");
  require(play.length == trace_length && memcmp(played, trace, trace_length) == 0, "another trace");
  if (seed == 0) {
    keep_file(folder, "toml", scenario, length);
    keep_file(folder, "trace", trace, trace_length);
  }
  require(without_calls(trace, trace_length) == told_length && memcmp(trace, told, told_length) == 0,
          "another answer or play");
  require(evlsim_see_count(&other, 1) == 2 + (calls < 160 ? (calls + 15) / 16 : 10), "two kernels are one");
  evlsim_close(&kernel);
  evlsim_close(&other);
}

/* A kernel that is reset answers as a new one, wherever its callbacks were; where there is none, nothing is reset. */
static void try_resets(void) {
  static char texts[2][4096];
  static const uint32_t sems[] = {1};
  const evlsim_board board = {2, sems, 1, NULL, 0, NULL, 0, NULL, 0, NULL, 0};
  evlsim_kernel kernel = EVLSIM_NO_KERNEL;
  size_t lengths[2] = {0, 0};
  require(evlsim_status_is(evlsim_reset(&kernel), EVLSIM_NULL) && evlsim_status_is(evlsim_reset(NULL), EVLSIM_NULL),
          "no kernel is reset");
  require(evlsim_ok(evlsim_open(&kernel, &board, evlsim_program_bank, EVLSIM_PROGRAM_BANK, 9)), "it wasn't opened");
  for (int round = 0; round < 2; round++) {
    require(evlsim_is_done(evlsim_do(&kernel, 0, evlsim_call_attach(evlsim_fifo(9), EVLSIM_OOB))), "an attach");
    require(evlsim_is_done(evlsim_do(&kernel, 0, evlsim_call_request(5, EVLSIM_INBAND, 1, 7))), "a request");
    require(evlsim_has(evlsim_do(&kernel, 0, evlsim_call_new_timer(0, 7)), EVLSIM_NUMBER), "a timer");
    require(evlsim_is_done(evlsim_do(&kernel, 0, evlsim_call_stall(EVLSIM_INBAND))), "a stall");
    require(evlsim_is_done(evlsim_do(&kernel, 1, evlsim_call_arrive(5))), "an interrupt");
    require(evlsim_is_done(evlsim_do(&kernel, 1, evlsim_call_tick(9))), "a tick");
    require(evlsim_is_begun(evlsim_do(&kernel, 0, evlsim_call_begin_get(0))), "a wait");
    require(evlsim_ok(evlsim_trace(&kernel, 0, (uint8_t *)texts[round], sizeof texts[round], &lengths[round])),
            "a trace");
    require(evlsim_ok(evlsim_reset(&kernel)) && evlsim_see_count(&kernel, 0) == 1 && evlsim_see_now(&kernel) == 0,
            "a reset");
  }
  require(lengths[0] == lengths[1] && memcmp(texts[0], texts[1], lengths[0]) == 0, "another trace after a reset");
  evlsim_close(&kernel);
  require(evlsim_status_is(evlsim_reset(&kernel), EVLSIM_NULL), "a closed kernel is reset");
}

/* Which kinds go the short way is the same to both sides, and no other number makes a call. */
static void try_bare(void) {
  evlsim_kernel none = EVLSIM_NO_KERNEL;
  evlsim_call call = evlsim_call_put(0);
  for (unsigned kind = 0; kind < 256; kind++) {
    bool bare = kind < 64 && (EVLSIM_BARE_KINDS >> kind & 1) != 0;
    evlsim_answer answer = {{3}, {3}, true, 3, 3, 3, 3, 3},
                  not_called = evlsim_not_called(bare ? EVLSIM_NULL : EVLSIM_BAD_NUMBER);
    require(evlsim_c_apply_bare(&none, 0, (uint8_t)kind, 0, &answer) == not_called.number, "a kind");
    require(evlsim_has(answer, not_called.kind) && answer.number == not_called.number && answer.thread == -1 &&
                answer.refusal.number == 0 && !answer.more && answer.count == 0 && answer.first_play == 0 &&
                answer.plays == 0,
            "an answer without a call");
    require(evlsim_is_bare(evlsim_call_of(kind, 9)) == bare, "a kind to C");
  }
  require(evlsim_status_is(evlsim_why(evlsim_do(NULL, 0, call)), EVLSIM_NULL) &&
              !evlsim_was_called(evlsim_do(&none, 0, call)),
          "no kernel");
  require(!evlsim_is_bare(evlsim_until(evlsim_call_begin_get(0), 0)), "a deadline");
  call.stage = 9;
  require(!evlsim_is_bare(call) && evlsim_status_is(evlsim_why(evlsim_do(&none, 0, call)), EVLSIM_BAD_NUMBER),
          "stage 9 of a put");
}

/* Null pointers, no kernel, short buffers, and numbers out of their ranges. */
static void try_refusals(void) {
  evlsim_kernel kernel = EVLSIM_NO_KERNEL;
  evlsim_board board = {2, NULL, 0, NULL, 0, NULL, 0, NULL, 0, NULL, 0};
  evlsim_answer answer = {{3}, {3}, true, 3, 3, 3, 3, 3};
  evlsim_call call = evlsim_call_now();
  evlsim_event event;
  size_t length = 9;
  uint8_t out[8] = {7, 7, 7, 7, 7, 7, 7, 7};
  const evlsim_refusal none_of_them = {0}, behind_all = {999};
  require(evlsim_status_is(evlsim_why(evlsim_do(&kernel, 0, call)), EVLSIM_NULL) && evlsim_see_rank(&kernel, 0) == -1,
          "no kernel");
  require(evlsim_status_is(evlsim_trace(&kernel, 0, out, 8, &length), EVLSIM_NULL) && length == 9 && out[0] == 7,
          "a trace of none");
  require(evlsim_status_is(evlsim_open(NULL, &board, NULL, 0, 9), EVLSIM_NULL) &&
              evlsim_status_is(evlsim_open(&kernel, NULL, NULL, 0, 9), EVLSIM_NULL),
          "null");
  require(evlsim_status_is(evlsim_open(&kernel, &board, NULL, 0, 0), EVLSIM_BAD_BOARD) &&
              evlsim_status_is(evlsim_open(&kernel, &board, NULL, 0, 1000001), EVLSIM_BAD_BOARD),
          "limits");
  board.sem_count = 1;
  require(evlsim_status_is(evlsim_open(&kernel, &board, NULL, 0, 9), EVLSIM_NULL), "a null list");
  board.sem_count = 0;
  require(evlsim_ok(evlsim_open(&kernel, &board, NULL, 0, 2)) && kernel.is_open, "opened");
  evlsim_close(&kernel);
  memset(&kernel, 1, sizeof kernel);
  require(evlsim_ok(evlsim_open(&kernel, &board, NULL, 0, 2)) && kernel.is_open, "opened over what isn't a kernel");
  require(evlsim_status_is(evlsim_apply(NULL, 0, &call, NULL, 0, NULL, 0, &answer), EVLSIM_NULL), "null kernel");
  require(evlsim_status_is(evlsim_apply(&kernel, 0, NULL, NULL, 0, NULL, 0, &answer), EVLSIM_NULL), "null call");
  require(evlsim_status_is(evlsim_apply(&kernel, 0, &call, NULL, 1, NULL, 0, &answer), EVLSIM_NULL), "null bytes");
  require(evlsim_status_is(evlsim_apply(&kernel, 0, &call, NULL, 0, NULL, 1, &answer), EVLSIM_NULL), "null buffer");
  call.kind = EVLSIM_CALL_FINISH + 1;
  require(evlsim_status_is(evlsim_apply(&kernel, 0, &call, NULL, 0, NULL, 0, &answer), EVLSIM_BAD_NUMBER) &&
              answer.kind.number == 3,
          "a kind after the last");
  call = evlsim_call_stall(9);
  require(evlsim_status_is(evlsim_apply(&kernel, 0, &call, NULL, 0, NULL, 0, &answer), EVLSIM_BAD_NUMBER), "stage 9");
  require(evlsim_has(evlsim_do(&kernel, 0, evlsim_call_now()), EVLSIM_NUMBER) &&
              evlsim_has(evlsim_do(&kernel, 1, evlsim_call_now()), EVLSIM_NUMBER),
          "two calls");
  require(evlsim_refused_as(evlsim_do(&kernel, 0, evlsim_call_now()), EVLSIM_REFUSAL_HISTORY_FULL), "a full history");
  require(evlsim_status_is(evlsim_event_at(&kernel, 0, &event), EVLSIM_BAD_NUMBER), "no play");
  require(evlsim_ok(evlsim_trace(&kernel, 6, out, 7, &length)) && memcmp(out, "threads", 7) == 0 && out[7] == 7,
          "a part");
  require(evlsim_ok(evlsim_trace(&kernel, SIZE_MAX, NULL, 0, &length)) && length > 80, "no room");
  require(evlsim_ok(evlsim_call_text(EVLSIM_CALL_CLAIM, 6, out, 5, &length)) && memcmp(out, "mutexds\7", 8) == 0 &&
              length == 23,
          "a word");
  require(
      evlsim_status_is(evlsim_call_text(EVLSIM_CALL_FINISH + 1, 0, out, 8, &length), EVLSIM_BAD_NUMBER) && length == 23,
      "a word after the last");
  require(evlsim_status_is(evlsim_call_text(EVLSIM_CALL_NOW, 0, NULL, 8, &length), EVLSIM_NULL),
          "a word and a null buffer");
  require(evlsim_ok(evlsim_call_text(EVLSIM_CALL_NOW, 0, NULL, 0, &length)) && length == 3, "a word without keys");
  require(evlsim_ok(evlsim_refusal_text(EVLSIM_REFUSAL_NOT_OWNER, 3, out, 4, &length)) && memcmp(out, "Owne", 4) == 0 &&
              length == 8,
          "a name");
  require(evlsim_status_is(evlsim_refusal_text(none_of_them, 0, out, 8, &length), EVLSIM_BAD_NUMBER) &&
              evlsim_status_is(evlsim_refusal_text(behind_all, 0, out, 8, &length), EVLSIM_BAD_NUMBER) && length == 8,
          "no refusal");
  require(evlsim_status_is(evlsim_refusal_text(EVLSIM_REFUSAL_LIMIT, 0, out, 8, NULL), EVLSIM_NULL),
          "a name and a null length");
  evlsim_close(&kernel);
  board.threads = 0;
  require(evlsim_status_is(evlsim_open(&kernel, &board, NULL, 0, 9), EVLSIM_BAD_BOARD) && !kernel.is_open,
          "no threads");
  evlsim_close(&kernel);
  evlsim_close(NULL);
}

/* Counts and lengths far out of their ranges, a call of junk, a kernel that was moved, and one that is closed twice. */
static void try_misuses(void) {
  static uint32_t many[1000000];
  static evlsim_plan plans[65];
  evlsim_board board = {2, many, 1, NULL, 0, NULL, 0, NULL, 0, NULL, 0}, wide = board;
  evlsim_kernel kernel, moved;
  evlsim_call junk;
  evlsim_event event;
  uint8_t byte = 7;
  size_t length = 0;
  for (size_t it = 0; it < 65; it++) plans[it] = evlsim_program_bank[0];
  wide.sem_count = 1000000;
  require(evlsim_status_is(evlsim_open(&kernel, &wide, NULL, 0, 9), EVLSIM_BAD_BOARD), "a million semaphores");
  wide.sem_count = SIZE_MAX;
  require(evlsim_status_is(evlsim_open(&kernel, &wide, NULL, 0, 9), EVLSIM_BAD_BOARD), "all semaphores");
  wide = board;
  wide.threads = UINT16_MAX;
  require(evlsim_status_is(evlsim_open(&kernel, &wide, NULL, 0, 9), EVLSIM_BAD_BOARD), "too many threads");
  require(evlsim_status_is(evlsim_open(&kernel, &board, plans, 65, 9), EVLSIM_BAD_PLAN), "65 plans");
  require(evlsim_status_is(evlsim_open(&kernel, &board, NULL, 8, 9), EVLSIM_NULL) && !kernel.is_open, "null plans");
  require(evlsim_ok(evlsim_open(&kernel, &board, plans, 64, 9)), "64 plans");
  memset(&junk, 0xff, sizeof junk);
  require(evlsim_status_is(evlsim_why(evlsim_do(&kernel, 0, junk)), EVLSIM_BAD_NUMBER), "a call of junk");
  junk = evlsim_call_write(0, EVLSIM_IN);
  require(!evlsim_was_called(evlsim_do_bytes(&kernel, 0, junk, &byte, 257, NULL, 0)), "257 bytes");
  require(!evlsim_was_called(evlsim_do_bytes(&kernel, 0, junk, &byte, SIZE_MAX, NULL, 0)), "all bytes");
  require(evlsim_refused_as(evlsim_do(&kernel, 7, evlsim_call_put(0)), EVLSIM_REFUSAL_UNKNOWN), "thread 7 of 2");
  require(evlsim_status_is(evlsim_event_at(&kernel, SIZE_MAX, &event), EVLSIM_BAD_NUMBER), "the last play of all");
  require(evlsim_status_is(evlsim_event_at(&kernel, 0, NULL), EVLSIM_NULL), "a play and a null pointer");
  require(evlsim_written(10, 4, 100) == 6 && evlsim_written(10, 4, 3) == 3 && evlsim_written(10, 11, 3) == 0,
          "lengths");
  moved = kernel;
  memset(&kernel, 1, sizeof kernel);
  require(evlsim_is_done(evlsim_do(&moved, 0, evlsim_call_put(0))) && evlsim_see_count(&moved, 0) == 1,
          "a moved kernel");
  evlsim_close(&moved);
  evlsim_close(&moved);
  require(!evlsim_was_called(evlsim_do(&moved, 0, evlsim_call_put(0))), "a closed kernel");
  require(evlsim_status_is(evlsim_trace(&moved, 0, NULL, 0, &length), EVLSIM_NULL) && length == 0, "its trace");
  require(evlsim_see_count(&moved, 0) == INT64_MIN && evlsim_see_now(&moved) == 0, "its count");
}

int main(int count, char **words) {
  require(count >= 2, "kernel_tries FOLDER [SEEDS [CALLS]]");
  uint32_t seeds = count > 2 ? (uint32_t)strtoul(words[2], NULL, 10) : 100;
  uint32_t calls = count > 3 ? (uint32_t)strtoul(words[3], NULL, 10) : 1000;
  try_refusals();
  try_misuses();
  try_resets();
  try_bare();
  for (uint32_t seed = 0; seed < seeds; seed++) try_seed(seed, calls, words[1]);
  printf("%" PRIu32 " kernels of %" PRIu32 " calls\n", seeds, calls);
  return EXIT_SUCCESS;
}
