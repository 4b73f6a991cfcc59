/*
 * Part of evlsim_runner.c: one run, here or in a process of its own, and what ends it from outside: signals and
 * sanitizers.
 */

extern void __sanitizer_set_death_callback(void (*callback)(void)) __attribute__((weak));

CALLER static void *run_body(void *nothing) {
  kept->body();
  return nothing;
}

/* What is told of a run that something ended from outside. With goes_on, in a process of its own, it's an outcome. */
static void tell_crash(void) {
  kept->explored.runs++;
  kept->explored.steps += run->step;
  note_outcome(FAILED);
  if (!kept->limits.goes_on || !kept->limits.forks) report_failure();
}

/* The driver's own code crashes: asserts, bad addresses, a stack that is full. */
static void on_signal(int number, siginfo_t *how, void *context) {
  (void)context;
  if (run == NULL || !run->is_on) {
    signal(number, SIG_DFL);
    raise(number);
    return;
  }
  int full = number == SIGSEGV ? guarded_by(how->si_addr) : -1;
  run->is_on = false;
  if (full >= 0) {
    snprintf(run->why, sizeof run->why, "the stack of T%d %s is full (%d bytes)", full, tasks[full].name, STACK_BYTES);
  } else {
    snprintf(run->why, sizeof run->why, "T%d %s ended by signal %d, %s", run->now, tasks[run->now].name, number,
             strsignal(number));
  }
  tell_crash();
  signal(number, SIG_DFL);
  raise(number);
}

/* What gcc's and clang's UndefinedBehaviorSanitizer call at each report, before they print it. */
void __ubsan_on_report(void);
void __ubsan_on_report(void) {
  if (run != NULL && run->is_on) run->is_reported = true;
}

static void on_death(void) {
  if (run == NULL || !run->is_on) return;
  run->is_on = false;
  snprintf(run->why, sizeof run->why, "T%d %s ended by a sanitizer, as above", run->now, tasks[run->now].name);
  tell_crash();
}

static void on_exit_call(void) {
  if (run == NULL || !run->is_on) return;
  run->is_on = false;
  snprintf(run->why, sizeof run->why, "T%d %s calls exit", run->now, tasks[run->now].name);
  tell_crash();
  _exit(EXIT_FAILURE);
}

static void catch_crashes(void) {
  static const int signals[] = {SIGSEGV, SIGBUS, SIGFPE, SIGILL, SIGABRT};
  static stack_t other;
  struct sigaction action;
  memset(&action, 0, sizeof action);
  action.sa_sigaction = on_signal;
  action.sa_flags = SA_SIGINFO | SA_ONSTACK | SA_NODEFER;
  if (__sanitizer_set_death_callback != NULL) __sanitizer_set_death_callback(on_death);
  other.ss_sp = pages(STACK_BYTES, MAP_PRIVATE);
  other.ss_size = STACK_BYTES;
  sigaltstack(&other, NULL);
  atexit(on_exit_call);
  for (size_t each = has_sanitizer() ? 4 : 0; each < 5; each++) sigaction(signals[each], &action, NULL);
}

/* Makes a run that is new. */
static void begin_run(void) {
  struct spare spare = run->spare;
  memset(run, 0, sizeof *run);
  run->spare = spare;
  run->interrupted = -1;
  run->sleepers = -1;
  run->inband = BODY;
  kept->candidates = 0;
  kept->sources = 0;
  kept->torn.place = NULL;
  drop_output();
  run->is_on = true;
  (void)make_task(be_idle, NULL, "idle");
  (void)make_task(run_body, NULL, "body");
}

/* Runs the body with the choices that are kept; how it ended. */
static enum ending run_here(void) {
  begin_run();
  run->now = BODY;
  change_to(NULL, &tasks[BODY]);
  run->is_on = false;
  kept->explored.runs++;
  kept->explored.steps += run->step;
  return run->ending;
}

/* The kernel is spare: the next run may reset it. */
static void end_kernel(void) {
  if (!run->is_open) return;
  close_spare();
  run->spare.kernel = run->kernel;
  run->spare.is_there = true;
  run->spare.elements = run->opened;
  run->spare.history = kept->limits.history;
  run->is_open = false;
}

/* What is done with a run when it has ended, by whoever has its memory. */
static void finish_run(enum ending ending, void (*conclude)(enum ending)) {
  if (ending == ENDED && run->choices_made < kept->choice_count) {
    snprintf(run->why, sizeof run->why,
             "a chosen event didn't come: a list of another build, or a body that isn't the same in each run?");
    ending = FAILED;
  }
  if (ending == ENDED && run->is_reported) {
    snprintf(run->why, sizeof run->why, "a sanitizer reports something, as above");
    ending = FAILED;
  }
  kept->ending = ending;
  note_unseen_threads();
  if (ending != BEGINS_AGAIN) conclude(ending);
  end_kernel();
}

/* The process of a run ended, and nothing was told of it. */
static void tell_lost(int status, void (*conclude)(enum ending)) {
  kept->explored.runs++;
  if (WIFSIGNALED(status)) {
    snprintf(run->why, sizeof run->why, "the process of the run is ended by signal %d", WTERMSIG(status));
  } else {
    snprintf(run->why, sizeof run->why, "the process of the run ends with status %d", WEXITSTATUS(status));
  }
  conclude(FAILED);
}

/* A run in a process of its own; all that is kept is shared with it. */
static void run_apart(void (*conclude)(enum ending)) {
  fflush(NULL);
  kept->ending = FAILED;
  uint64_t runs = kept->explored.runs;
  pid_t child = fork();
  int status = 0;
  if (child == 0) {
    finish_run(run_here(), conclude);
    fflush(NULL);
    _exit(0);
  }
  if (child < 0 || waitpid(child, &status, 0) != child || status != 0) {
    kept->ending = FAILED;
    kept->explored.failed = true;
    if (child > 0 && kept->explored.runs == runs) tell_lost(status, conclude);
  }
}

/* Runs until the board has all that the run makes. */
static void run_whole(void (*conclude)(enum ending)) {
  unsigned again = 0;
  do {
    if (again++ == 1000) {
      fprintf(stderr, "%s FAILED: its elements aren't the same each time\n", kept->name);
      kept->explored.failed = true;
      kept->limits.goes_on = false;
      return;
    }
    if (kept->limits.forks) {
      run_apart(conclude);
    } else {
      restore_variables();
      finish_run(run_here(), conclude);
    }
  } while (kept->ending == BEGINS_AGAIN);
}

static void take_limits(const evlsim_limits *limits) {
  if (limits != NULL) kept->limits = *limits;
  evlsim_limits *it = &kept->limits;
  if (it->arrivals == 0) it->arrivals = 2;
  if (it->arrivals > CHOICES) it->arrivals = CHOICES;
  if (it->runs == 0) it->runs = 1000000;
  if (it->history == 0) it->history = HISTORY;
  if (it->steps == 0) it->steps = STEPS;
  if (it->until == 0) it->until = NEVER - 1;
  if (it->starts == 0) it->starts = STARTS;
  /* Their own data would lie among the program's variables. */
  bool is_static = is_variable((const char *)(const void *)stdout);
  if (has_sanitizer() || is_static) it->forks = true;
}

static void begin(void (*body)(void), const char *name, const evlsim_limits *limits) {
  if (run != NULL && run->is_on) {
    fail("evlsim_explore, evlsim_test or evlsim_replay of %s is called within a run: call one after the other", name);
  }
  if (kept != NULL) munmap(kept->node, NODES * sizeof *kept->node), munmap(kept, sizeof *kept);
  bool is_first = run == NULL;
  kept = pages(sizeof *kept, MAP_SHARED);
  kept->node = pages(NODES * sizeof *kept->node, MAP_SHARED);
  if (is_first) {
    run = pages(sizeof *run, MAP_PRIVATE);
    tasks = pages(TASKS * sizeof *tasks, MAP_PRIVATE);
    catch_crashes();
    /* A run may take a kernel's memory and give it back: the system needn't have it in between. */
    mallopt(M_TRIM_THRESHOLD, 1 << 26);
    mallopt(M_MMAP_THRESHOLD, 1 << 26);
  }
  for (int each = 0; each < TASKS; each++) make_stack(&tasks[each]);
  kept->name = name;
  kept->body = body;
  kept->explored.sees_accesses = has_hooks;
  take_limits(limits);
  (void)bank();
  keep_variables();
}
