/*
 * Tries the library where memory runs out: each request for memory is refused in turn, alone and with all that come after
 * it: memory_tries FOLDER [PART]; the folder of this repository; of many requests each that is a PART-th further on, an
 * eighth where that isn't said. The library is linked with malloc, realloc and free wrapped.
 * What is told is EVLSIM_NO_MEMORY, or of a call NoMemory; buffers, kernels and machines are as before, and all memory is given back.
 */
#include <evlsim.h>
#include <stdio.h>
#include <stdlib.h>
#include <string.h>

#define ROOM (1u << 18)
#define MARK 0xA5u

void *__real_malloc(size_t size);
void *__real_realloc(void *at, size_t size);
void __real_free(void *at);
void *__wrap_malloc(size_t size);
void *__wrap_realloc(void *at, size_t size);
void __wrap_free(void *at);

/* how often memory was asked for, which requests are refused, and how many blocks there are */
static size_t asked, first = SIZE_MAX, last;
static long blocks;

static int is_refused(void) {
  size_t number = asked++;
  return first <= number && number <= last;
}

void *__wrap_malloc(size_t size) {
  void *at = is_refused() ? NULL : __real_malloc(size);
  blocks += at != NULL;
  return at;
}

void *__wrap_realloc(void *at, size_t size) {
  void *now = is_refused() ? NULL : __real_realloc(at, size);
  blocks += at == NULL && now != NULL;
  return now;
}

void __wrap_free(void *at) {
  blocks -= at != NULL;
  __real_free(at);
}

static void refuse(size_t from, size_t to) {
  asked = 0;
  first = from;
  last = to;
}

static void require(int holds, const char *what, const char *name) {
  if (!holds) {
    refuse(SIZE_MAX, 0);
    fprintf(stderr, "%s: %s\n", name, what);
    exit(EXIT_FAILURE);
  }
}

struct text {
  uint8_t bytes[ROOM];
  size_t length;
};
static struct text played, faulty, asked_of, caller, out, wanted;

static void read_file(const char *folder, const char *name, struct text *into) {
  char path[1024];
  snprintf(path, sizeof path, "%s/%s", folder, name);
  FILE *file = fopen(path, "rb");
  require(file != NULL, "it can't be read", path);
  into->length = fread(into->bytes, 1, ROOM, file);
  fclose(file);
  require(into->length < ROOM, "it is too long for this program", path);
}

/* ---- texts */

static const char lines[] = "board threads=2 sems=[0]\nT0 put sem=0\nT1 try_get sem=0\n";

static evlsim_status play(void) {
  evlsim_played told = {0, 0};
  evlsim_status status = evlsim_play(played.bytes, played.length, 0, 0, out.bytes, ROOM, &told);
  out.length = told.length;
  return status;
}

static evlsim_status play_lines(void) {
  evlsim_played told = {0, 0};
  evlsim_status status = evlsim_play((const uint8_t *)lines, sizeof lines - 1, 0, 0, out.bytes, ROOM, &told);
  out.length = told.length;
  return status;
}

static evlsim_status check(const struct text *text) {
  evlsim_checked told = {0, false};
  evlsim_status status = evlsim_check("t", text->bytes, text->length, 0, out.bytes, ROOM, &told);
  out.length = told.length;
  return status;
}

static evlsim_status check_faults(void) { return check(&faulty); }
static evlsim_status check_warnings(void) { return check(&played); }
static evlsim_status check_asked(void) { return check(&asked_of); }
static evlsim_status check_callers(void) { return check(&caller); }

static evlsim_status draw(uint8_t form, const struct text *text) {
  evlsim_drawn told = {0, 0, 0, 0};
  evlsim_status status = evlsim_draw(form, 1, text->bytes, text->length, 0, out.bytes, ROOM, &told);
  out.length = told.length;
  return status;
}

static evlsim_status draw_down(void) { return draw(EVLSIM_SVG_DOWN, &played); }
static evlsim_status draw_across(void) { return draw(EVLSIM_SVG_ACROSS, &played); }
static evlsim_status draw_events(void) { return draw(EVLSIM_EVENTS, &played); }

static evlsim_status order(size_t outcome) {
  evlsim_ordered told;
  evlsim_status status = evlsim_orders(0, outcome, asked_of.bytes, asked_of.length, 0, out.bytes, ROOM, &told);
  out.length = told.length;
  require(evlsim_ok(status) == (told.total != 0), "numbers without orders", "orders");
  return status;
}

static evlsim_status orders(void) { return order(0); }
static evlsim_status order_2(void) { return order(2); }

static evlsim_status callers(void) {
  evlsim_played told = {7, 7};
  evlsim_status status = evlsim_callers(caller.bytes, caller.length, 0, 0, out.bytes, ROOM, &told);
  out.length = told.length;
  return status;
}

/* ---- a kernel */

static evlsim_kernel kernel;

static evlsim_status trace(void) { return evlsim_trace(&kernel, 0, out.bytes, ROOM, &out.length); }
static evlsim_status scenario(void) { return evlsim_scenario(&kernel, 0, out.bytes, ROOM, &out.length); }

static evlsim_status open_kernel(void) {
  static const uint32_t sems[] = {1, 0};
  static const evlsim_rings rings[] = {{16, 16}};
  static const evlsim_mutex mutexes[] = {{EVLSIM_CEILING, 20}};
  const evlsim_board board = {3, sems, 2, NULL, 0, rings, 1, mutexes, 1, NULL, 0};
  return evlsim_open(&kernel, &board, evlsim_program_bank, EVLSIM_PROGRAM_BANK, 1000);
}

#define CALLS 9u

static evlsim_call call_of(size_t number) {
  switch (number) {
    case 0: return evlsim_call_attach(evlsim_fifo(9), EVLSIM_OOB);
    case 1: return evlsim_call_request(5, EVLSIM_OOB, 1, 0);
    case 2: return evlsim_call_arrive(5);
    case 3: return evlsim_call_write(0, EVLSIM_IN);
    case 4: return evlsim_call_begin_read(0, EVLSIM_IN, 8);
    case 5: return evlsim_call_finish(false);
    case 6: return evlsim_call_claim(0, 2);
    case 7: return evlsim_call_tick(7);
    default: return evlsim_call_put(1);
  }
}

/* Whether a call was made; else memory ran out. */
static int is_made(size_t number) {
  static const uint8_t bytes[] = {1, 2, 3};
  uint8_t read[16];
  size_t count = number == 3 ? sizeof bytes : 0;
  evlsim_answer answer = evlsim_do_bytes(&kernel, number == 3 ? 0 : 1, call_of(number), bytes, count, read, sizeof read);
  if (!evlsim_was_called(answer)) {
    require(evlsim_status_is(evlsim_why(answer), EVLSIM_NO_MEMORY), "another status", "calls");
    return 0;
  }
  return !evlsim_refused_as(answer, EVLSIM_REFUSAL_NO_MEMORY);
}

/* A call that memory ran out for has no entry, and is made when there is memory again. */
static void make_calls(size_t from, size_t to) {
  for (size_t number = 0; number < CALLS; number++) {
    size_t before, after;
    refuse(SIZE_MAX, 0);
    require(evlsim_ok(evlsim_trace(&kernel, 0, NULL, 0, &before)), "no trace", "calls");
    refuse(from, to);
    int made = is_made(number);
    refuse(SIZE_MAX, 0);
    require(evlsim_ok(evlsim_trace(&kernel, 0, NULL, 0, &after)), "no trace", "calls");
    require(made == (before < after), "an entry without a call", "calls");
    require(made || is_made(number), "it isn't made", "calls");
  }
}

/* Opens a kernel and makes its calls, each with these requests refused. */
static size_t try_kernel(size_t from, size_t to) {
  long before = blocks;
  size_t count;
  refuse(from, to);
  evlsim_status status = open_kernel();
  count = asked;
  refuse(SIZE_MAX, 0);
  if (!evlsim_ok(status)) {
    require(evlsim_status_is(status, EVLSIM_NO_MEMORY) && !kernel.is_open, "another status", "open");
    require(blocks == before, "memory is lost", "open");
    require(evlsim_ok(open_kernel()), "it isn't opened", "open");
  }
  make_calls(from, to);
  require(evlsim_ok(trace()), "no trace", "kernel");
  memcpy(wanted.bytes, out.bytes, out.length);
  wanted.length = out.length;
  require(evlsim_ok(scenario()), "no scenario", "kernel");
  memcpy(played.bytes, out.bytes, out.length);
  played.length = out.length;
  require(evlsim_ok(play()) && out.length == wanted.length && memcmp(out.bytes, wanted.bytes, out.length) == 0,
          "another trace", "kernel");
  evlsim_close(&kernel);
  require(blocks == before, "memory is lost", "close");
  return count;
}

/* ---- a machine */

static evlsim_caller callers_of_two[2];

static evlsim_status open_machine(void) {
  static const uint32_t counts[] = {1};
  static const evlsim_mutex mutexes[] = {{EVLSIM_NORMAL, 0}, {EVLSIM_CEILING, 20}};
  static const uint16_t staxes[] = {1};
  evlsim_board board;
  memset(&board, 0, sizeof board);
  board.threads = 2;
  board.sems = counts, board.sem_count = 1;
  board.mutexes = mutexes, board.mutex_count = 2;
  return evlsim_machine_open(callers_of_two, 2, &board, staxes, 1, evlsim_program_bank, EVLSIM_PROGRAM_BANK, 1000);
}

#define STEPS 8u

static evlsim_answer make_step(size_t number) {
  evlsim_caller *one = &callers_of_two[0], *other = &callers_of_two[1];
  switch (number) {
    case 0: return evlsim_try_call(one, evlsim_call_attach(evlsim_fifo(9), EVLSIM_OOB));
    case 1: return evlsim_try_call(other, evlsim_call_attach(evlsim_fifo(8), EVLSIM_OOB));
    case 2: return evlsim_try_lock_mutex(one, 0);
    case 3: return evlsim_begin_lock_mutex(other, 0);
    case 4: return evlsim_try_unlock_mutex(one, 0);
    case 5: return evlsim_finish_lock_mutex(other);
    case 6: return evlsim_try_lock_mutex(one, 1);
    default: return evlsim_try_lock_stax(one, 0);
  }
}

/* A step that memory ran out for is made when there is memory again. */
static void make_steps(size_t from, size_t to) {
  for (size_t number = 0; number < STEPS; number++) {
    refuse(from, to);
    evlsim_answer answer = make_step(number);
    refuse(SIZE_MAX, 0);
    if (evlsim_refused_as(answer, EVLSIM_REFUSAL_NO_MEMORY)) answer = make_step(number);
    require(evlsim_is_done(answer) || (number == 3 && evlsim_is_begun(answer)), "it isn't made", "steps");
  }
}

/* Opens a machine, makes the steps of its callers and tells their trace, each with these requests refused. */
static size_t try_machine(size_t from, size_t to) {
  long before = blocks;
  size_t count;
  refuse(from, to);
  evlsim_status status = open_machine();
  count = asked;
  refuse(SIZE_MAX, 0);
  if (!evlsim_ok(status)) {
    require(evlsim_status_is(status, EVLSIM_NO_MEMORY), "another status", "machine");
    require(!callers_of_two[0].is_open && !callers_of_two[1].is_open, "a caller is left", "machine");
    require(blocks == before, "memory is lost", "machine");
    require(evlsim_ok(open_machine()), "it isn't opened", "machine");
  }
  make_steps(from, to);
  refuse(from, to);
  status = evlsim_caller_trace(&callers_of_two[1], 0, out.bytes, ROOM, &out.length);
  refuse(SIZE_MAX, 0);
  require(evlsim_ok(status) || evlsim_status_is(status, EVLSIM_NO_MEMORY), "another status", "machine");
  require(evlsim_ok(evlsim_caller_trace(&callers_of_two[0], 0, out.bytes, ROOM, &out.length)), "no trace", "machine");
  for (size_t place = 0; place < 2; place++) evlsim_caller_close(&callers_of_two[place]);
  require(blocks == before, "memory is lost", "machine");
  return count;
}

/* ---- each request in turn */

struct work {
  const char *name;
  evlsim_status (*run)(void);
};

/* Where the texts are compared from: the first line of a report counts moments that could not be compared as two. */
static size_t start_of(const struct work *work, const struct text *text) {
  const uint8_t *line = work->run == orders ? memchr(text->bytes, '\n', text->length) : NULL;
  return line == NULL ? 0 : (size_t)(line - text->bytes);
}

static int is_same(const struct work *work) {
  size_t own = start_of(work, &out), other = start_of(work, &wanted);
  return out.length - own == wanted.length - other &&
         memcmp(out.bytes + own, wanted.bytes + other, out.length - own) == 0;
}

static const struct work works[] = {
    {"play", play},           {"play lines", play_lines},   {"faults", check_faults}, {"warnings", check_warnings},
    {"check orders", check_asked}, {"check callers", check_callers}, {"down", draw_down},    {"across", draw_across},
    {"events", draw_events},  {"orders", orders},
    {"an order", order_2},    {"callers", callers},
};

/* The buffer has what it had where nothing was refused, or memory ran out and it is as before. */
static int is_done(const struct work *work, size_t from, size_t to) {
  long before = blocks;
  memset(out.bytes, (int)MARK, ROOM);
  refuse(from, to);
  evlsim_status status = work->run();
  size_t count = asked;
  refuse(SIZE_MAX, 0);
  require(blocks == before, "memory is lost", work->name);
  if (evlsim_ok(status)) {
    require(is_same(work), "another text", work->name);
  } else {
    require(evlsim_status_is(status, EVLSIM_NO_MEMORY), "another status", work->name);
    for (size_t at = 0; at < ROOM; at++) require(out.bytes[at] == MARK, "it was written", work->name);
  }
  return count <= from;
}

static size_t try_work(const struct work *work, size_t part) {
  size_t tried = 0;
  require(evlsim_ok(work->run()) && out.length < ROOM, "it isn't done", work->name);
  memcpy(wanted.bytes, out.bytes, out.length);
  wanted.length = out.length;
  for (size_t from = 0;; from += 1 + from / part) {
    int alone = is_done(work, from, from), all = is_done(work, from, SIZE_MAX);
    require(alone == all, "other requests", work->name);
    tried += 2;
    if (alone) return tried;
  }
}

int main(int count, char **words) {
  size_t tried = 0, part = count == 3 ? strtoul(words[2], NULL, 10) : 8;
  require(count == 2 || (count == 3 && part != 0), "which folder?", "memory_tries");
  read_file(words[1], "scenarios/whole_board.toml", &played);
  read_file(words[1], "examples/faulty/key_misspelt.toml", &faulty);
  read_file(words[1], "examples/orders/two_locks.toml", &asked_of);
  read_file(words[1], "callers/contended_mutex.toml", &caller);
  for (size_t it = 0; it < sizeof works / sizeof *works; it++) tried += try_work(&works[it], part);
  for (size_t from = 0; try_machine(from, from) > from; from++) {
    try_machine(from, SIZE_MAX);
    tried += 2;
  }
  for (size_t from = 0; try_kernel(from, from) > from; from++) {
    (void)try_kernel(from, SIZE_MAX);
    tried += 2;
  }
  require(evlsim_ok(open_kernel()), "it isn't opened", "kernel");
  make_calls(SIZE_MAX, 0);
  static const struct work texts[] = {{"trace", trace}, {"scenario", scenario}};
  for (size_t it = 0; it < 2; it++) tried += try_work(&texts[it], part);
  evlsim_close(&kernel);
  require(blocks == 0, "memory is lost", "memory_tries");
  printf("%zu times memory ran out, and was given back\n", tried);
  return EXIT_SUCCESS;
}
