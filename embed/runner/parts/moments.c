/*
 * Part of evlsim_runner.c: the moments of a run, between two steps of a thread, and the events that come there. A step
 * is a load or store of the driver, or one of its calls; all are counted, so a moment has a number.
 */

/* Whether another in-band thread may go on in place of the one that runs: not while interrupts are off. */
static bool can_switch(void) {
  if (tasks[run->now].is_oob || in_handler() || run->now == IDLE) return false;
  if (run->stalls[false].is_on || run->stalls[true].is_on) return false;
  int next = next_inband(run->now + 1);
  return next != run->now && next != IDLE;
}

/* Whether a source could have an event now: within an out-of-band handler only an interrupt, which stays pending. */
static bool is_ready(const struct source *source) {
  if (source->left == 0) return false;
  switch (source->kind) {
    case A_LINE: return true;
    case THE_CLOCK: return !run->in_oob_handler && next_due() != NEVER;
    case A_TURN: return can_switch();
  }
  return false;
}

/* The sources that could have an event now, a bit for each. */
static uint32_t ready_sources(void) {
  uint32_t ready = 0;
  for (unsigned each = 0; each < run->sources; each++) {
    if (is_ready(&run->source[each])) ready |= 1u << each;
  }
  return ready;
}

/* What the hardware does before its interrupt. */
static void call_device(const struct source *source) {
  char here;
  const char *before = run->below;
  bool was_in_handler = run->in_oob_handler;
  int error = errno;
  run->below = &here;
  run->in_oob_handler = run->in_device = true;
  source->device(source->it);
  run->in_oob_handler = was_in_handler;
  run->in_device = false;
  run->below = before;
  errno = error;
}

/* After an out-of-band handler: each line on which interrupts came while it ran arrives once, the lowest first. */
static void arrive_raised(void) {
  while (run->raised != 0) {
    uint16_t line = UINT16_MAX;
    for (unsigned each = 0; each < run->sources; each++) {
      if ((run->raised >> each & 1) != 0 && run->source[each].line < line) line = run->source[each].line;
    }
    for (unsigned each = 0; each < run->sources; each++) {
      if (run->source[each].line == line) run->raised &= ~(1u << each);
    }
    (void)do_call(IDLE, evlsim_call_arrive(line));
  }
}

/* An event of a source: an interrupt, the clock's next date, or another in-band thread's turn. */
static void bring(struct source *source) {
  unsigned is_between = run->now != IDLE ? 1 : 0;
  source->left--;
  if (source->kind == A_LINE && source->device != NULL) call_device(source);
  if (run->in_oob_handler) {
    run->raised |= 1u << (source - run->source);
    return;
  }
  run->paused += is_between;
  if (source->kind == A_TURN) {
    change_task(next_inband(run->now + 1));
  } else {
    if (source->kind == THE_CLOCK) {
      move_date(next_due());
    } else {
      (void)do_call(IDLE, evlsim_call_arrive(source->line));
    }
    go_on();
  }
  run->paused -= is_between;
}

/* Notes a moment at which nothing comes in this run, for runs in which something does. */
static void offer(uint32_t step, bool is_relevant_step) {
  uint32_t ready = ready_sources();
  if (ready == 0) return;
  if (!is_relevant_step) {
    kept->explored.left_out += (uint64_t)__builtin_popcount(ready);
    return;
  }
  if (kept->candidates >= CANDIDATES) fail("a run has more than %d moments", CANDIDATES);
  struct candidate noted = {step, ready};
  kept->candidate[kept->candidates++] = noted;
}

/* What a source is, as a choice has it that was read. */
static uint32_t kind_of(const struct source *source) { return (uint32_t)source->kind << 16 | source->line; }

/* Which one of its line's sources it is, from 1 on. */
static unsigned place_of(unsigned number) {
  unsigned place = 0;
  uint32_t kind = kind_of(&kept->source[number]);
  for (unsigned each = 0; each <= number; each++) place += kind_of(&kept->source[each]) == kind;
  return place;
}

/* Whether a source is meant by a name, or by its place in the place of a name; by none each of its line is. */
static bool is_meant(unsigned number, const char *name) {
  char *end;
  unsigned long place = strtoul(name, &end, 10);
  if (*name == 0) return true;
  return *end == 0 ? place == place_of(number) : strcmp(name, kept->source[number].name) == 0;
}

/* The sources that a kind and a name mean: how many, and the first. */
static unsigned sources_meant(uint32_t kind, const char *name, unsigned *first) {
  unsigned count = 0;
  for (unsigned each = kept->sources; each > 0; each--) {
    if (kind_of(&kept->source[each - 1]) != kind || !is_meant(each - 1, name)) continue;
    *first = each - 1;
    count++;
  }
  return count;
}

/* What tells a source from the others of its line: nothing if there are none, its name, or its place. */
static void write_name(char *name, unsigned number) {
  const struct source *source = &kept->source[number];
  unsigned first = 0;
  bool is_alone = sources_meant(kind_of(source), "", &first) == 1;
  bool is_known = source->name[0] != 0 && sources_meant(kind_of(source), source->name, &first) == 1;
  snprintf(name, NAME_BYTES, "%s", is_alone ? "" : source->name);
  if (!is_alone && !is_known) snprintf(name, NAME_BYTES, "%u", place_of(number));
}

/* The source of a choice: a number, or, where a list was read, what it is. */
static unsigned source_of(struct choice *choice) {
  unsigned first = 0, line = choice->source & 0xffff;
  if ((choice->source & IS_NAMED) == 0) return choice->source;
  unsigned count = sources_meant(choice->source & ~IS_NAMED, choice->name, &first);
  if (count == 0) fail("an event is chosen that no source has");
  if (count > 1) {
    char name[NAME_BYTES];
    write_name(name, first);
    unsigned step = choice->step;
    fail("line %u has %u sources here: name one, as line %u [%s] @ %u", line, count, line, name, step);
  }
  return choice->source = first;
}

/* The next choice, if it is for this step. */
static bool is_chosen(uint32_t step) {
  return run->choices_made < kept->choice_count && kept->choices[run->choices_made].step == step;
}

/* An access of the driver's code: of so many bytes, and whether it is a further word of a copy. */
struct access {
  const char *address;
  size_t size;
  bool is_write, is_further;
  bool is_nowhere; /* whether it is no step of the driver's code */
  const void *place;
};

static _Unwind_Reason_Code note_frame(struct _Unwind_Context *context, void *place) {
  struct place *here = place;
  if (here->codes == FRAMES) return _URC_END_OF_STACK;
  here->code[here->codes++] = (const void *)(uintptr_t)_Unwind_GetIP(context);
  return _URC_NO_REASON;
}

/* Notes where the next chosen event comes: at a place, or, where that is null, in the calls up to this one. The note of
   an earlier run whose list began with the same events still holds. */
static void note_place(const void *code, bool is_nowhere) {
  bool is_handlers = run->in_oob_handler && !run->in_device;
  struct place *here = &kept->place[run->choices_made];
  here->task = run->now, here->entries = run->entries, here->in_device = run->in_device, here->in_handler = is_handlers;
  here->is_timer = is_handlers && run->handled->is_timer;
  here->element = is_handlers ? run->handled->element : 0;
  if (code != NULL) here->code[0] = code, here->codes = 1;
  if (here->codes == 0 && !is_nowhere) (void)_Unwind_Backtrace(note_frame, here);
}

/* Whether the code that runs has moments: hardware has none, an out-of-band handler only by its limit. */
static bool has_moments(void) {
  return !run->in_oob_handler || (kept->limits.in_handlers && !run->in_device);
}

/* A moment of the code that runs, before an access (with a size) or a call. */
static void at_moment(struct access access, bool is_call_relevant) {
  while (is_chosen(++run->step)) {
    note_place(access.place, access.is_nowhere);
    if ((kept->choices[run->choices_made].source & IS_ANSWER) != 0) fail_misplaced();
    unsigned source = source_of(&kept->choices[run->choices_made++]);
    if (!run->sources_open || (ready_sources() >> source & 1) == 0) {
      fail_misplaced();
    }
    bring(&run->source[source]);
  }
  if (run->step > kept->limits.steps) fail("T%d goes on for ever: %u steps", run->now, (unsigned)run->step);
  if (!kept->offers || !run->sources_open || run->choices_made < kept->choice_count) return;
  bool is_call = access.size == 0;
  offer(run->step, is_call ? is_call_relevant
                           : is_relevant(access.address, access.size, access.is_write, access.is_further));
}

/* Gives a struct that was read word by word what belongs there. */
static void mend_torn(void) {
  struct torn *torn = run == NULL ? NULL : &kept->torn;
  if (torn == NULL || torn->place == NULL) return;
  memcpy(torn->place, torn->own, torn->size);
  torn->place = NULL;
}

/* Counts a moment within an out-of-band handler that only its limit tries. */
static void pass_over(void) {
  bool is_next = kept->offers && run->sources_open && run->choices_made >= kept->choice_count;
  if (is_next && !run->in_device && ready_sources() != 0) kept->explored.not_tried++;
}

/* Hardware makes a call. */
static void note_device_call(void) {
  if (!run->in_device || kept->devices_call) return;
  kept->devices_call = kept->has_grown = true;
}

/* Before a call, before an out-of-band handler returns, and when all tasks wait. An act of hardware before the call of
   such a handler is the same after it, unless hardware makes calls. */
static const struct access a_call = {NULL, 0, false, false, false, NULL}, no_call = {NULL, 0, false, false, true, NULL};
static void at_call(void) {
  mend_torn();
  note_device_call();
  bool counts = !run->in_oob_handler || kept->devices_call || kept->limits.whole;
  has_moments() ? at_moment(a_call, counts) : pass_over();
}
static void at_return(void) {
  mend_torn();
  has_moments() ? at_moment(no_call, true) : pass_over();
}
static void at_idle(void) { at_moment(no_call, true); }

static void see(struct access access) {
  if (run == NULL || !run->is_on || access.size == 0) return;
  mend_torn();
  bool is_caused = in_handler() || run->paused > 0;
  bool is_stable = is_variable(access.address) || is_on_a_stack(access.address);
  if (is_caused && is_stable && !is_local(access.address)) note_access(access.address, access.size, access.is_write);
  has_moments() ? at_moment(access, false) : pass_over();
}

/* An access of the driver's code. */
static void see_access(const void *at, size_t size, bool is_write, const void *place) {
  struct access access = {at, size, is_write, false, false, place};
  see(access);
}

/* What the runner itself reads and writes for the driver. */
static void see_write(const void *at, size_t size) {
  if (has_hooks) see_access(at, size, true, NULL);
}
static void see_read(const void *at, size_t size) {
  if (has_hooks) see_access(at, size, false, NULL);
}

/* The bench's side: sources, rest, outcomes. What is a source already has its further events. */
static void add_source(struct source source) {
  unsigned each = 0;
  expect_run("a source of events");
  run->sources_open = true;
  for (; each < run->sources; each++) {
    const struct source *known = &run->source[each];
    if (kind_of(known) == kind_of(&source) && known->device == source.device && known->it == source.it) break;
  }
  if (each >= SOURCES) fail("there are more than %d sources", SOURCES);
  if (each < run->sources) source.left += run->source[each].left;
  run->source[each] = kept->source[each] = source;
  if (each == run->sources) kept->sources = ++run->sources;
}

/* Takes the name of a device from the arguments that a test has written; what is no name is left out. */
static void take_name(struct source *source, const char *arguments) {
  static const char letters[] = "abcdefghijklmnopqrstuvwxyzABCDEFGHIJKLMNOPQRSTUVWXYZ0123456789_:";
  const char *name = arguments + strspn(arguments, "& ");
  size_t length = strspn(name, letters), end = length + strspn(name + length, " ");
  if (name[end] != ',' || length == 0 || length >= NAME_BYTES || (*name >= '0' && *name <= '9')) return;
  memcpy(source->name, name, length);
}

void evlsim_may_arrive_as(const char *arguments, unsigned line, unsigned times, void (*device)(void *it), void *it) {
  struct source source = {A_LINE, (uint16_t)line, times, device, it, ""};
  take_name(&source, arguments);
  add_source(source);
}
void (evlsim_may_arrive)(unsigned line, unsigned times, void (*device)(void *it), void *it) {
  evlsim_may_arrive_as("", line, times, device, it);
}
void evlsim_may_pass(unsigned times) {
  struct source source = {THE_CLOCK, 0, times, NULL, NULL, ""};
  add_source(source);
}
void evlsim_may_switch(unsigned times) {
  struct source source = {A_TURN, 0, times, NULL, NULL, ""};
  add_source(source);
}

void evlsim_settle(void) {
  expect_run("evlsim_settle");
  go_inband();
  at_call();
  tasks[run->now].awaits = REST;
  wait_here();
}

void evlsim_rest(void) {
  evlsim_settle();
  run->sources_open = false;
  evlsim_settle();
}

int evlsim_quota_group(uint8_t percent) {
  expect_run("evlsim_quota_group");
  unsigned place = run->made.groups;
  bool is_same = place < run->opened.groups && run->opened.group[place] == percent;
  if (place < GROUPS) kept->known.group[place] = percent;
  return note_element(&run->made.groups, &kept->known.groups, run->opened.groups, GROUPS, is_same);
}

void evlsim_say(const char *format, ...) {
  expect_run("evlsim_say");
  note_device_call();
  va_list values;
  va_start(values, format);
  int length = vsnprintf(run->said + run->said_length, OUTCOME_BYTES - run->said_length, format, values);
  va_end(values);
  if (length > 0) run->said_length += (size_t)length;
  if (run->said_length >= OUTCOME_BYTES) run->said_length = OUTCOME_BYTES - 1;
}

void evlsim_fail(const char *format, ...) {
  va_list values;
  va_start(values, format);
  expect_run("evlsim_fail");
  fail_with(format, values);
  va_end(values);
}

evlsim_kernel *evlsim_running(void) {
  expect_run("evlsim_running");
  note_device_call();
  open_kernel();
  return &run->kernel;
}
