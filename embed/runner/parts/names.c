/*
 * Part of evlsim_runner.c: by limits.names, the names that elements were made with, and the locks and unlocks of a run
 * that make no entry in the kernel's history, since the core isn't asked.
 */

static const char *const element_kinds[NAMED_KINDS] = {"sem", "flags", "mutex", "xbuf", "stax"};

__attribute__((format(printf, 3, 0))) static void note_name(enum named_kind kind, int number, const char *format,
                                                            va_list values) {
  if (!kept->limits.names || number < 0 || number >= ELEMENTS) return;
  char *name = kept->names[kind][number];
  name[0] = 0;
  if (format != NULL) vsnprintf(name, NAME_BYTES, format, values);
}

/* A lock or an unlock by the code that runs, after so many entries. */
static void note_quiet(enum named_kind kind, long number, bool is_lock) {
  if (!kept->limits.names || run->quiet_steps == QUIET_STEPS) return;
  struct quiet_step step = {run->entries, (uint16_t)caller(), (uint16_t)number, kind, is_lock};
  kept->quiet_step[run->quiet_steps++] = step;
}

/* An element's name in quotes, after a space; empty where it has none. */
static const char *quoted_name(enum named_kind kind, unsigned number, char *text, size_t size) {
  bool has_name = kept->limits.names && number < ELEMENTS && kept->names[kind][number][0] != 0;
  text[0] = 0;
  if (has_name) snprintf(text, size, " \"%s\"", kept->names[kind][number]);
  return text;
}

static const char *task_name(unsigned number) {
  return number != IDLE && number < run->made.tasks ? tasks[number].name : "";
}

/* A thread or an element within an entry, with its name: how long its word is, or 0 if this is the place of none. */
static size_t print_named(const char *at, const char *end) {
  char text[NAME_BYTES + 4];
  char *after;
  if (*at == 'T' && at + 1 < end && at[1] >= '0' && at[1] <= '9') {
    const char *name = task_name((unsigned)strtoul(at + 1, &after, 10));
    fprintf(stderr, "%.*s%s%s", (int)(after - at), at, *name == 0 ? "" : " ", name);
    return (size_t)(after - at);
  }
  for (unsigned kind = 0; kind < NAMED_KINDS; kind++) {
    size_t length = strlen(element_kinds[kind]);
    if (strncmp(at, element_kinds[kind], length) != 0 || at[length] != '=') continue;
    unsigned number = (unsigned)strtoul(at + length + 1, &after, 10);
    fprintf(stderr, "%.*s%s", (int)(after - at), at, quoted_name((enum named_kind)kind, number, text, sizeof text));
    return (size_t)(after - at);
  }
  return 0;
}

/* A line of the trace, with names. */
static void print_line(const char *line, const char *end) {
  for (const char *at = line; at < end;) {
    bool is_begin = at == line || at[-1] == ' ';
    size_t length = is_begin ? print_named(at, end) : 0;
    if (length == 0) fputc(*at, stderr), length = 1;
    at += length;
  }
  fputc('\n', stderr);
}

/* The locks and unlocks after so many entries, from a place on; the next place. */
static unsigned print_quiet(unsigned from, unsigned entries) {
  char text[NAME_BYTES + 4];
  for (; from < run->quiet_steps && kept->quiet_step[from].entries <= entries; from++) {
    const struct quiet_step *it = &kept->quiet_step[from];
    const char *name = task_name(it->task);
    fprintf(stderr, "  no entry: T%u%s%s %s %s %u%s\n", (unsigned)it->task, *name == 0 ? "" : " ", name,
            it->is_lock ? "locks" : "unlocks", element_kinds[it->kind], (unsigned)it->number,
            quoted_name(it->kind, it->number, text, sizeof text));
  }
  return from;
}

/* A trace with names, and between its entries what makes none. */
static void print_named_trace(const char *trace, size_t length) {
  unsigned from = print_quiet(0, 0), entries = 0;
  for (const char *line = trace, *end = trace + length; line < end;) {
    const char *stop = memchr(line, '\n', (size_t)(end - line));
    if (stop == NULL) stop = end;
    bool is_entry = *line >= '0' && *line <= '9';
    if (is_entry) from = print_quiet(from, entries), entries = (unsigned)strtoul(line, NULL, 10);
    print_line(line, stop);
    line = stop + 1;
  }
  (void)print_quiet(from, UINT32_MAX);
}
