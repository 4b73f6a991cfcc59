/*
 * Part of evlsim_runner.c: what is reported of a run that fails: why, the trace so far, its events as a list that
 * replays it, and files with its scenario and its picture.
 */

static const char *awaited_name(const struct task *task, char *text, size_t size) {
  switch (task->awaits) {
    case NOTHING: snprintf(text, size, "it could go on, but isn't picked"); break;
    case THE_CORE: snprintf(text, size, "an element of the core"); break;
    case AN_END: snprintf(text, size, "the end of T%d %s", task->target, tasks[task->target].name); break;
    case A_DATE: snprintf(text, size, "the date %llu", (unsigned long long)task->date); break;
    case BYTES: snprintf(text, size, "bytes of xbuf %d", task->target); break;
    case ROOM: snprintf(text, size, "room for %u bytes in xbuf %d", task->needs, task->target); break;
    case A_GATE: snprintf(text, size, "stax %d", task->target); break;
    case A_LOCK: snprintf(text, size, "an in-band mutex"); break;
    case WORK: snprintf(text, size, "in-band work"); break;
    case REST: snprintf(text, size, "rest"); break;
  }
  return text;
}

/* Whether a thread is in the queue of an element. */
static bool is_in_queue(int number, evlsim_awaited on, unsigned element, evlsim_way way) {
  for (size_t place = 0; place < TASKS; place++) {
    int64_t waiter = evlsim_see_waiter(&run->kernel, on, (uint16_t)element, way, place);
    if (waiter == number) return true;
    if (waiter < 0) return false;
  }
  return false;
}

/* The element in whose queue a thread is, as text. */
static const char *element_name(int number, char *text, size_t size) {
  static const struct {
    evlsim_awaited on;
    evlsim_way way;
    enum named_kind kind;
    const char *name;
  } queues[] = {{EVLSIM_ON_SEM, EVLSIM_IN, A_SEM, "sem"},         {EVLSIM_ON_FLAGS, EVLSIM_IN, A_FLAG_GROUP, "flags"},
                {EVLSIM_ON_MUTEX, EVLSIM_IN, A_MUTEX, "mutex"},   {EVLSIM_ON_READING, EVLSIM_IN, AN_XBUF, "bytes of xbuf"},
                {EVLSIM_ON_WRITING, EVLSIM_OUT, AN_XBUF, "room in xbuf"}};
  char quoted[NAME_BYTES + 4];
  snprintf(text, size, "an element of the core");
  for (size_t each = 0; each < 5 * ELEMENTS; each++) {
    size_t queue = each / ELEMENTS;
    unsigned element = (unsigned)(each % ELEMENTS);
    if (!is_in_queue(number, queues[queue].on, element, queues[queue].way)) continue;
    snprintf(text, size, "%s %u%s", queues[queue].name, element,
             quoted_name(queues[queue].kind, element, quoted, sizeof quoted));
    if (queues[queue].on == EVLSIM_ON_MUTEX) {
      size_t length = strlen(text);
      snprintf(text + length, size - length, ", which T%d has", run->words[element].owner);
    }
    break;
  }
  return text;
}

/* Adds a line that says for what a task waits. */
static void add_wait(unsigned number) {
  char text[128];
  const struct task *task = &tasks[number];
  size_t length = strlen(run->why);
  const char *name = task->awaits == THE_CORE ? element_name((int)number, text, sizeof text)
                                              : awaited_name(task, text, sizeof text);
  snprintf(run->why + length, sizeof run->why - length, "\n  T%u%s%s waits for %s", number, task->name[0] ? " " : "",
           task->name, name);
}

/* All tasks wait, and nothing is due. */
static void fail_stuck(void) {
  bool is_late = next_due() != NEVER;
  snprintf(run->why, sizeof run->why, "%s", is_late ? "the last date is reached" : "stuck: all threads wait for good");
  if (run->stalls[true].is_on) {
    snprintf(run->why + strlen(run->why), sizeof run->why - strlen(run->why), "\n  the out-of-band stage is stalled");
  }
  for (unsigned each = BODY; each < run->made.tasks; each++) {
    if (!tasks[each].has_ended) add_wait(each);
  }
  end_run(FAILED);
}

/* Of a list that was read, an event that didn't come has no source yet: it is told as it was read. */
static const char *choice_name(const struct choice *choice, char *text, size_t size) {
  if ((choice->source & IS_ANSWER) != 0) {
    const char *what = (choice->source & IS_LATE) != 0 ? "late" : "choice";
    snprintf(text, size, "%s %u", what, (unsigned)(choice->source & ANSWER_BITS));
    return text;
  }
  bool is_read = (choice->source & IS_NAMED) != 0;
  uint32_t kind = is_read ? choice->source & ~IS_NAMED : kind_of(&kept->source[choice->source]);
  char name[NAME_BYTES];
  snprintf(name, sizeof name, "%s", choice->name);
  if (!is_read) write_name(name, choice->source);
  if (kind >> 16 == A_LINE) {
    bool has_name = name[0] != 0;
    snprintf(text, size, "line %u%s%s%s", (unsigned)(kind & 0xffff), has_name ? " [" : "", name, has_name ? "]" : "");
  } else {
    snprintf(text, size, "%s", kind >> 16 == THE_CLOCK ? "clock" : "turn");
  }
  return text;
}

/* The events of a run, as a list that replays it. */
static void write_choices(char *text, size_t size) {
  text[0] = 0;
  for (unsigned each = 0; each < kept->choice_count; each++) {
    size_t length = strlen(text);
    char name[2 * NAME_BYTES];
    snprintf(text + length, size - length, "%s%s @ %u", each == 0 ? "" : ", ",
             choice_name(&kept->choices[each], name, sizeof name),
             (unsigned)kept->choices[each].step);
  }
}

static bool is_position_independent(void) {
  extern char __executable_start[] __attribute__((weak));
  return (uintptr_t)__executable_start > 0x10000000u;
}

/* What asks addr2line for the lines of places, those of inlined code before those where it is; empty if there is none. */
static void write_question(char *command, size_t size, const void *const *place, unsigned places) {
  extern char __executable_start[] __attribute__((weak));
  char executable[256];
  ssize_t length = readlink("/proc/self/exe", executable, sizeof executable - 1);
  command[0] = 0;
  if (places == 0 || length <= 0 || __executable_start == NULL) return;
  executable[length] = 0;
  snprintf(command, size, "addr2line -i -e '%s'", executable);
  for (unsigned each = 0; each < places; each++) {
    uintptr_t at = (uintptr_t)place[each] - 1;
    size_t before = strlen(command);
    if (is_position_independent()) at -= (uintptr_t)__executable_start;
    snprintf(command + before, size - before, " 0x%lx", (unsigned long)at);
  }
  snprintf(command + strlen(command), size - strlen(command), " 2>/dev/null");
}

/* Whether a line of addr2line's is in the code of driver or test. */
static bool is_drivers(const char *line) {
  return line[0] != '?' && strstr(line, "runner/parts/") == NULL && strstr(line, "evlsim_runner.c") == NULL &&
         strstr(line, "evlsim/compat/") == NULL && strstr(line, ":?") == NULL;
}

/* The first of these places that is in the driver's code, after a word, by addr2line where it is there. */
static void print_places(const char *word, const void *const *place, unsigned places) {
  char command[1024], line[512];
  write_question(command, sizeof command, place, places);
  FILE *answer = command[0] == 0 ? NULL : popen(command, "r");
  bool is_found = false;
  while (answer != NULL && fgets(line, sizeof line, answer) != NULL) {
    if (is_found || !is_drivers(line)) continue;
    const char *folder = strrchr(line, '/'), *name = folder == NULL ? line : folder + 1;
    fprintf(stderr, ", %s %.*s", word, (int)strcspn(name, " \n"), name);
    is_found = true;
  }
  if (answer != NULL) pclose(answer);
}

static void print_place(const char *word, const void *place) { print_places(word, &place, place != NULL); }

static void print_events(void) {
  char name[2 * NAME_BYTES];
  for (unsigned each = 0; each < run->choices_made; each++) {
    const struct place *place = &kept->place[each];
    fprintf(stderr, "  %s after entry %u, in ", choice_name(&kept->choices[each], name, sizeof name), place->entries);
    if (place->in_device) {
      fprintf(stderr, "the hardware");
    } else if (place->in_handler) {
      fprintf(stderr, "the handler of %s %u", place->is_timer ? "timer" : "line", (unsigned)place->element);
    } else {
      fprintf(stderr, "T%d %s", place->task, tasks[place->task].name);
    }
    print_places("before", place->code, place->codes);
    fputc('\n', stderr);
  }
}

/* Writes the trace or the scenario of this run. */
typedef evlsim_status text_of(evlsim_kernel *kernel, size_t start, uint8_t *out, size_t out_length, size_t *length);
static void put_text(text_of *text, FILE *file) {
  char part[4096];
  size_t length = 0;
  if (!run->is_open) return;
  for (size_t start = 0; start == 0 || start < length; start += sizeof part) {
    if (!evlsim_ok(text(&run->kernel, start, (uint8_t *)part, sizeof part, &length))) return;
    fwrite(part, 1, evlsim_written(length, start, sizeof part), file);
  }
}

/* A file of this run, in EVLSIM_FOLDER or here. */
static void file_name(char *name, size_t size, const char *ending) {
  const char *folder = getenv("EVLSIM_FOLDER");
  snprintf(name, size, "%s%s%s%s", folder == NULL ? "" : folder, folder == NULL ? "" : "/", kept->name, ending);
}

static bool write_text(text_of *text, const char *name) {
  FILE *file = run->is_open ? fopen(name, "w") : NULL;
  if (file == NULL) return false;
  put_text(text, file);
  return fclose(file) == 0;
}

/* The bank of this run, where it has more callbacks than the program. */
static bool write_bank(const char *name) {
  FILE *file = run->opened.callbacks > PROGRAM_BANK ? fopen(name, "w") : NULL;
  if (file == NULL) return false;
  fputs("[[callback]]\n[[callback]]\ndo = [{ post_sem = 0 }]\n[[callback]]\ndo = [{ every = 2, post_sem = 0 }]\n"
        "[[callback]]\ndo = [{ propagate = true }]\n[[callback]]\ndo = [{ post_oob = 4 }]\n"
        "[[callback]]\ndo = [{ post_flags = 0, bits = 1 }]\n[[callback]]\naccepts = 2\ndo = [{ stop_timer = 0 }]\n",
        file);
  for (unsigned each = PROGRAM_BANK - 1; each < run->opened.callbacks; each++) fputs("[[callback]]\n", file);
  return fclose(file) == 0;
}

/* The trace of this run, to be freed, or null. */
static uint8_t *whole_trace(size_t *length) {
  if (!run->is_open || !evlsim_ok(evlsim_trace(&run->kernel, 0, NULL, 0, length))) return NULL;
  uint8_t *trace = malloc(*length + 1);
  if (trace != NULL && evlsim_ok(evlsim_trace(&run->kernel, 0, trace, *length, length))) return trace;
  free(trace);
  return NULL;
}

/* Writes the first page of the picture of a trace. */
static bool put_picture(const uint8_t *trace, size_t length, FILE *file) {
  evlsim_drawn drawn;
  if (!evlsim_ok(evlsim_draw(EVLSIM_SVG, 1, trace, length, 0, NULL, 0, &drawn))) return false;
  uint8_t *picture = malloc(drawn.length + 1);
  bool is_drawn = picture != NULL &&
                  evlsim_ok(evlsim_draw(EVLSIM_SVG, 1, trace, length, 0, picture, drawn.length, &drawn)) &&
                  fwrite(picture, 1, drawn.length, file) == drawn.length;
  free(picture);
  return is_drawn;
}

/* Draws the trace of this run into a file. */
static bool draw(const char *name) {
  size_t length = 0;
  uint8_t *trace = whole_trace(&length);
  FILE *file = trace != NULL ? fopen(name, "w") : NULL;
  bool is_drawn = file != NULL && put_picture(trace, length, file);
  free(trace);
  if (file != NULL && fclose(file) != 0) is_drawn = false;
  if (file != NULL && !is_drawn) unlink(name);
  return is_drawn;
}

static void write_files(void) {
  char scenario[512], bank_name[512], trace[512], picture[512];
  file_name(scenario, sizeof scenario, ".toml");
  file_name(bank_name, sizeof bank_name, ".bank.toml");
  file_name(trace, sizeof trace, ".trace");
  file_name(picture, sizeof picture, ".svg");
  if (!run->is_open) return;
  if (!write_text(evlsim_scenario, scenario) || !write_text(evlsim_trace, trace)) {
    fprintf(stderr, "scenario: none: %s or the trace beside it can't be written\n", scenario);
    return;
  }
  bool has_bank = write_bank(bank_name);
  fprintf(stderr, "scenario: %s%s%s\n", scenario, has_bank ? ", with the bank " : "", has_bank ? bank_name : "");
  fprintf(stderr, "picture: %s\n", draw(picture) ? picture : "none, for want of memory or of room");
}

/* Whether a run may be another by the limits of evlsim_replay. */
static bool has_own_limits(void) {
  const evlsim_limits *it = &kept->limits;
  bool is_longer = it->history != HISTORY || it->steps != STEPS || it->until != NEVER - 1 || it->starts != STARTS;
  return is_longer || it->in_handlers || it->stays_oob || it->refusals_fail || it->nobody_waits;
}

static void print_trace(void) {
  size_t length = 0;
  uint8_t *trace = kept->limits.names ? whole_trace(&length) : NULL;
  fprintf(stderr, "trace:\n");
  if (trace == NULL) put_text(evlsim_trace, stderr);
  if (trace != NULL) print_named_trace((const char *)trace, length);
  free(trace);
}

/* A main for the file of the test: the body of C++'s explore has no name. */
static void print_own_test(const char *choices) {
  if (has_nameless_body) {
    fprintf(stderr, "as a test of its own, with the same body:\n"
            "  int main() { return evlsim::replay(\"%s\", body, \"%s\") ? 0 : 1; }\n", kept->name, choices);
  } else {
    fprintf(stderr, "as a test of its own:\n  int main(void) { return evlsim_replay(%s, \"%s\"); }\n", kept->name,
            choices);
  }
}

/* All that there is to say of a run that failed. */
static void report_failure(void) {
  char choices[CHOICES_BYTES];
  if (kept->is_job) return;
  write_choices(choices, sizeof choices);
  print_output();
  fprintf(stderr, "%s FAILED: %s", kept->name, run->why);
  print_place("at", run->blamed);
  fputc('\n', stderr);
  if (run->choices_made > 0) fprintf(stderr, "events:\n");
  print_events();
  print_trace();
  if (kept->choice_count > 0 && has_own_limits()) {
    fprintf(stderr, "once more, with these limits: EVLSIM_REPLAY=\"%s\"\n", choices);
  } else if (kept->choice_count > 0) {
    print_own_test(choices);
  }
  write_files();
  fflush(stderr);
}
