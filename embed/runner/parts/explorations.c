/*
 * Part of evlsim_runner.c: explorations. A list of events is a node: its parent's list and one event more, at a later
 * moment. Nodes are run in the order in which they were found, so those of fewer events first.
 */

static uint64_t digest_of(const char *text) {
  uint64_t digest = UINT64_C(0xcbf29ce484222325);
  for (; *text != 0; text++) digest = (digest ^ (uint8_t)*text) * UINT64_C(0x100000001b3);
  return digest;
}

/* An outcome that was seen before, or null. */
static struct outcome *known_outcome(uint64_t digest, const char *text) {
  for (uint32_t each = 0; each < kept->outcomes; each++) {
    struct outcome *it = &kept->outcome[each];
    if (it->digest == digest && strcmp(it->text, text) == 0) return it;
  }
  return NULL;
}

/* Counts the outcome of a run. */
static void note_outcome(enum ending ending) {
  char text[OUTCOME_BYTES];
  if (kept->is_others) return;
  memcpy(text, run->said, sizeof text);
  size_t length = strlen(text);
  if (ending == FAILED) {
    snprintf(text + length, sizeof text - length, "FAILED: %.*s", (int)(sizeof text - length - 9), run->why);
  }
  uint64_t digest = digest_of(text);
  struct outcome *outcome = known_outcome(digest, text);
  if (outcome != NULL) outcome->lists++;
  if (outcome != NULL || kept->outcomes == OUTCOMES) return;
  outcome = &kept->outcome[kept->outcomes++];
  outcome->digest = digest;
  outcome->lists = 1;
  memcpy(outcome->text, text, sizeof text);
  write_choices(outcome->choices, sizeof outcome->choices);
}

static void conclude(enum ending ending) {
  note_outcome(ending);
  if (run->has_waited) kept->explored.waited++;
  if (ending != FAILED) return;
  kept->explored.failed = true;
  if (!kept->limits.goes_on && !kept->limits.quiet) report_failure();
}

/* The list of a node. */
static void take_choices(uint32_t at) {
  kept->choice_count = kept->node[at].depth;
  unsigned same = kept->choice_count; /* how many events begin this list and the last one */
  for (unsigned each = kept->choice_count; each > 0; each--) {
    struct choice choice = {kept->node[at].step, kept->node[at].source, ""}, *last = &kept->choices[each - 1];
    if (last->step != choice.step || last->source != choice.source) same = each - 1;
    *last = choice;
    at = kept->node[at].parent;
  }
  for (unsigned each = same; each < kept->limits.arrivals; each++) kept->place[each].codes = 0;
}

static bool add_node(uint32_t parent, uint32_t step, uint32_t source) {
  if (kept->nodes == NODES) return false;
  struct node node = {parent, step, source, kept->node[parent].depth + 1};
  *kept->added++ = node;
  kept->nodes++;
  return true;
}

/* The nodes of a moment, by its sources or by the answers to its question. */
static bool add_nodes_of(uint32_t parent, const struct candidate *candidate) {
  uint32_t kind = candidate->sources & (IS_ANSWER | IS_LATE), answers = candidate->sources & ANSWER_BITS;
  for (uint32_t each = 1; kind != 0 && each < answers; each++) {
    if (!add_node(parent, candidate->step, kind | each)) return false;
  }
  for (uint32_t each = 0; kind == 0 && each < SOURCES; each++) {
    bool is_ready = (candidate->sources >> each & 1) != 0;
    if (is_ready && !add_node(parent, candidate->step, each)) return false;
  }
  return true;
}

/* Adds the nodes that a run led to: one event more, at each of its moments. */
static bool add_nodes(uint32_t parent) {
  if (kept->node[parent].depth >= kept->limits.arrivals) return true;
  for (uint32_t each = 0; each < kept->candidates; each++) {
    if (!add_nodes_of(parent, &kept->candidate[each])) return false;
  }
  return true;
}

/* Begins with the list that has no events. */
static void begin_round(void) {
  struct node root = {0, 0, 0, 0};
  kept->node[0] = root;
  kept->added = kept->node + 1;
  kept->nodes = 1;
  kept->at = kept->alone = 0;
  kept->outcomes = 0;
  kept->has_grown = false;
  kept->explored.lists = 0;
  kept->explored.left_out = 0;
  kept->explored.waited = 0;
  kept->explored.not_tried = 0;
  kept->explored.rounds++;
}

/* Whether the nodes of one depth are done, and more is noted than when they began. */
static bool has_to_begin_again(uint32_t done) {
  bool is_level = done == kept->nodes || kept->node[done].depth != kept->node[done - 1].depth;
  return is_level && kept->has_grown && !kept->limits.whole;
}

/* Runs a list, and notes those that it leads to. One that counts in another part is run for these alone. */
static void explore_list(bool is_own) {
  evlsim_explored before = kept->explored;
  kept->is_others = !is_own;
  take_choices(kept->at);
  kept->explored.lists++;
  run_whole(conclude);
  if (!add_nodes(kept->at)) kept->explored.is_cut = true;
  if (is_own) return;
  before.others += kept->explored.runs - before.runs;
  before.failed |= kept->explored.failed;
  before.is_cut |= kept->explored.is_cut;
  kept->explored = before;
}

/* Runs the next list, unless another part alone has it. */
static void explore_next(void) {
  if (is_run_here(kept->at)) explore_list(is_in_part(kept->at));
  kept->at++;
  bool is_over = kept->explored.failed && !kept->limits.goes_on;
  if (!is_over && has_to_begin_again(kept->at)) begin_round();
}

/* Runs one list after another, until all are run or this process's own memory has grown too much. */
static void explore_part(void) {
  size_t before = own_memory();
  for (uint32_t runs = 1; kept->at < kept->nodes && (kept->limits.goes_on || !kept->explored.failed); runs++) {
    kept->is_large = runs % 16 == 0 && own_memory() > before + MOST_GROWTH;
    bool is_cut = kept->explored.runs + kept->explored.others >= kept->limits.runs;
    kept->explored.is_cut |= is_cut;
    if (kept->is_large || is_cut) return;
    if (!explore_by_jobs()) explore_next();
  }
}

/* A part in a process of its own, so that the memory which its runs don't give back goes with it. */
static void explore_apart(void) {
  int status = 0;
  fflush(NULL);
  kept->is_large = false;
  pid_t child = fork();
  if (child == 0) {
    explore_part();
    fflush(NULL);
    _exit(0);
  }
  if (child < 0 || waitpid(child, &status, 0) != child) {
    fprintf(stderr, "evlsim: %s can't go on in another process\n", kept->name);
    exit(EXIT_FAILURE);
  }
  if (WIFSIGNALED(status)) signal(WTERMSIG(status), SIG_DFL), raise(WTERMSIG(status));
  if (status != 0) exit(EXIT_FAILURE);
}

static void explore_all(void) {
  begin_round();
  begin_jobs();
  explore_part();
  while (kept->is_large) explore_apart();
  end_jobs();
}

static void print_explored(void) {
  const evlsim_explored *it = &kept->explored;
  if (kept->limits.quiet) return;
  fprintf(stderr, "%s: %s %llu lists of up to %u events, %llu runs, %llu moments left out, %u outcomes%s",
          kept->name, it->failed ? "failed in" : "passed in", (unsigned long long)it->lists,
          (unsigned)kept->limits.arrivals, (unsigned long long)it->runs, (unsigned long long)it->left_out,
          (unsigned)kept->outcomes, it->is_cut ? "; CUT OFF, not all were tried" : "");
  if (it->not_tried != 0) {
    fprintf(stderr, "; %llu moments within handlers not tried", (unsigned long long)it->not_tried);
  }
  print_part();
  if (!has_hooks || kept->unseen[0] != 0) {
    fprintf(stderr, "; moments at calls alone%s%s, without -fsanitize=thread", has_hooks ? " in " : "", kept->unseen);
  }
  fputc('\n', stderr);
}

/* An event as it is written: how long that is, or 0. */
static size_t read_choice(const char *text, struct choice *choice) {
  unsigned line = 0, step = 0;
  int length = 0;
  char name[NAME_BYTES] = "";
  uint32_t kind = A_LINE;
  bool is_late = sscanf(text, "late %u @ %u%n", &line, &step, &length) == 2 && length > 0;
  if (is_late || (sscanf(text, "choice %u @ %u%n", &line, &step, &length) == 2 && length > 0)) {
    struct choice answer = {step, IS_ANSWER | (is_late ? IS_LATE : 0) | (line & ANSWER_BITS), ""};
    *choice = answer;
    return (size_t)length;
  }
  if (sscanf(text, "line %u [%31[^]]] @ %u%n", &line, name, &step, &length) != 3 || length == 0) {
    name[0] = 0;
    if (sscanf(text, "line %u @ %u%n", &line, &step, &length) != 2 || length == 0) kind = THE_CLOCK;
  }
  if (kind == THE_CLOCK && (sscanf(text, "clock @ %u%n", &step, &length) != 1 || length == 0)) kind = A_TURN;
  if (kind == A_TURN && (sscanf(text, "turn @ %u%n", &step, &length) != 1 || length == 0)) return 0;
  struct choice read = {step, IS_NAMED | kind << 16 | (kind == A_LINE ? line : 0), ""};
  memcpy(read.name, name, sizeof name);
  *choice = read;
  return (size_t)length;
}

/* The list of events as it is written: "line 5 @ 31, clock @ 40". */
static bool read_choices(const char *text) {
  kept->choice_count = 0;
  while (*text != 0 && kept->choice_count < CHOICES) {
    size_t length = read_choice(text, &kept->choices[kept->choice_count]);
    if (length == 0) return false;
    kept->choice_count++;
    text += length;
    text += strspn(text, ", ");
  }
  return *text == 0;
}

/* The variables are again as before: what is to outlast a run is EVLSIM_KEPT, or an outcome. */
static int end_exploring(evlsim_explored *explored) {
  close_spare();
  restore_output();
  restore_variables();
  kept->explored.outcomes = kept->outcomes;
  kept->explored.touched = kept->limits.whole ? 0 : digest_of_touched();
  if (kept->unseen[0] != 0) kept->explored.sees_accesses = false;
  if (explored != NULL) *explored = kept->explored;
  drop_variables();
  has_nameless_body = false;
  return kept->explored.failed ? EXIT_FAILURE : EXIT_SUCCESS;
}

void evlsim_body_is_nameless(void) { has_nameless_body = true; }

int evlsim_test_as(void (*body)(void), const char *name) {
  begin(body, name, NULL);
  run_whole(conclude);
  return end_exploring(NULL);
}

/* One run, to be looked at: in this process where that can be, and told. */
static int replay(void (*body)(void), const char *name, const char *choices, const evlsim_limits *limits,
                  evlsim_explored *explored) {
  evlsim_limits own;
  memset(&own, 0, sizeof own);
  if (limits != NULL) {
    own.history = limits->history, own.steps = limits->steps, own.until = limits->until, own.starts = limits->starts;
    own.in_handlers = limits->in_handlers, own.stays_oob = limits->stays_oob;
    own.refusals_fail = limits->refusals_fail, own.nobody_waits = limits->nobody_waits, own.names = limits->names;
  }
  begin(body, name, &own);
  if (read_choices(choices)) {
    kept->explored.lists = 1;
    run_whole(conclude);
    if (!kept->explored.failed) fprintf(stderr, "%s passed with %s\n", name, choices);
  } else {
    kept->explored.failed = true;
    fprintf(stderr, "evlsim: no list of events, as \"line 5 @ 10, line 5 [name] @ 12, clock @ 18, turn @ 19\": %s\n",
            choices);
  }
  return end_exploring(explored);
}

int evlsim_replay_as(void (*body)(void), const char *name, const char *choices) {
  return replay(body, name, choices, NULL, NULL);
}

int evlsim_explore_as(void (*body)(void), const char *name, const evlsim_limits *limits, evlsim_explored *explored) {
  const char *replayed = getenv("EVLSIM_REPLAY");
  if (replayed != NULL) return replay(body, name, replayed, limits, explored);
  begin(body, name, limits);
  take_part();
  kept->offers = true;
  keep_output();
  explore_all();
  print_explored();
  return end_exploring(explored);
}

const char *evlsim_outcome(uint32_t place, uint64_t *lists, const char **choices) {
  if (kept == NULL || place >= kept->outcomes) return NULL;
  if (lists != NULL) *lists = kept->outcome[place].lists;
  if (choices != NULL) *choices = kept->outcome[place].choices;
  return kept->outcome[place].text;
}
