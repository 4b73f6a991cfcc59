/*
 * Part of evlsim_runner.c: who goes on. Out-of-band it is whoever the kernel picks. While it picks nobody, the in-band
 * task that has the in-band stage goes on until it waits; then the next one by number, and when all wait the machine's
 * own task, which moves the date.
 */

static bool has_bytes(int xbuf) { return evlsim_see_stored(&run->kernel, (uint16_t)xbuf, EVLSIM_OUT) > 0; }

static bool has_room(int xbuf, unsigned needs) {
  int64_t stored = evlsim_see_stored(&run->kernel, (uint16_t)xbuf, EVLSIM_IN);
  return stored >= 0 && stored + needs <= run->opened.rings[xbuf].in_size;
}

static bool can_run(int number) {
  const struct task *task = &tasks[number];
  if (task->has_ended) return false;
  switch (task->awaits) {
    case NOTHING: return true;
    case THE_CORE: return evlsim_see_finished(&run->kernel, (uint16_t)number);
    case AN_END: return tasks[task->target].has_ended;
    case A_DATE: return run->date >= task->date;
    case BYTES: return has_bytes(task->target);
    case ROOM: return has_room(task->target, task->needs);
    case A_GATE: return run->gates[task->target].count == 0 || !run->gates[task->target].is_oob;
    case A_LOCK: return is_lock_free(task->wanted) || run->date >= task->date;
    case WORK: return run->first_work != NULL;
    case REST: return false;
  }
  return false;
}

/* The next in-band task that can go on, from `first` on; the machine's where none can. */
static int next_inband(int first) {
  int count = (int)run->made.tasks;
  for (int step = 0; step < count; step++) {
    int each = (first + step) % count;
    if (each != IDLE && !tasks[each].is_oob && can_run(each)) return each;
  }
  return IDLE;
}

static int next_task(void) {
  int64_t picked = run->is_open ? evlsim_see_picked(&run->kernel) : -1;
  if (picked >= 0 && picked < (int64_t)run->made.tasks && can_run((int)picked)) return (int)picked;
  if (run->interrupted >= 0) return run->interrupted;
  return next_inband(run->inband);
}

static void change_task(int next) {
  struct task *from = &tasks[run->now];
  if (next == run->now) return;
  run->now = next;
  if (!tasks[next].is_oob && next != IDLE) run->inband = next;
  from->error = errno;
  change_to(from, &tasks[next]);
  errno = from->error;
}

static void yield_if_due(void) {
  if (tasks[run->now].awaits == NOTHING) change_task(next_task());
}

static void expect_no_stall_of_task(const char *what) {
  char text[64];
  snprintf(text, sizeof text, "T%d %s %s", run->now, tasks[run->now].name, what);
  expect_no_stall(run->now, text);
}

/* Waits, as the task's own `awaits` says; only for the bench's rest it may do so with a stage that it has stalled. */
static void wait_here(void) {
  if (in_handler()) fail("a handler waits");
  if (tasks[run->now].awaits != REST) expect_no_stall_of_task("begins to wait");
  change_task(next_task());
  tasks[run->now].awaits = NOTHING;
  run_inband_handlers();
}

/* The next date at which something is due after another one. */
static uint64_t next_due_after(uint64_t from) {
  uint64_t due = NEVER;
  for (unsigned each = 1; each < run->made.tasks; each++) {
    const struct task *task = &tasks[each];
    bool is_wait = task->awaits == A_DATE || task->awaits == THE_CORE || task->awaits == A_LOCK;
    bool is_dated = is_wait && !task->has_ended;
    if (is_dated && task->date > from && task->date < due) due = task->date;
    bool is_without_budget = task->is_oob && task->awaits == NOTHING && task->policy == 2 && !task->has_ended;
    uint64_t second = (from / 1000000000u + 1) * 1000000000u;
    if (is_without_budget && second < due) due = second;
  }
  for (unsigned each = 0; each < ELEMENTS; each++) {
    const struct timer *timer = &run->timers[each];
    if (timer->is_made && timer->date > from && timer->date < due) due = timer->date;
  }
  return due;
}

static uint64_t next_due(void) { return next_due_after(run->date); }

/* What the picked thread has left of its slice, as the kernel will charge it. */
static void charge(uint64_t delta) {
  int64_t picked = run->is_open ? evlsim_see_picked(&run->kernel) : -1;
  if (picked < 0 || picked >= (int64_t)run->made.tasks || tasks[picked].policy != 1) return;
  struct task *task = &tasks[picked];
  task->left = delta >= task->left ? task->slice : task->left - delta;
}

/* Moves the date. */
static void move_date(uint64_t date) {
  evlsim_call tick = evlsim_call_tick(date - run->date);
  charge(date - run->date);
  run->date = date;
  (void)do_call(IDLE, tick);
}

/* Ends the waits for rest, when all others wait. */
static bool wake_resting(void) {
  bool is_any = false;
  for (unsigned each = 1; each < run->made.tasks; each++) {
    if (tasks[each].awaits != REST) continue;
    tasks[each].awaits = NOTHING;
    is_any = true;
  }
  return is_any;
}

/* The machine's own task: it has the in-band stage when nobody else does. */
static void *be_idle(void *nothing) {
  for (;;) {
    run_inband_handlers();
    change_task(next_task());
    at_idle();
    if (wake_resting()) continue;
    uint64_t due = next_due();
    if (due == NEVER || due > kept->limits.until) fail_stuck();
    move_date(late_date(due));
    go_on();
  }
  return nothing;
}

/* A task that runs, with a number of its own; a board that has no thread for it ends the run. */
static int make_task(void *(*start)(void *), void *argument, const char *name) {
  unsigned number = run->made.tasks++;
  if (number >= TASKS) fail("there are more than %d threads", TASKS);
  if (run->made.tasks > kept->known.tasks) kept->known.tasks = run->made.tasks;
  if (run->is_open && run->made.tasks > run->opened.tasks && number > BODY) begin_again();
  struct task *task = &tasks[number];
  char *stack = task->stack;
  memset(task, 0, sizeof *task);
  task->stack = stack;
  task->run = start;
  task->argument = argument;
  task->date = NEVER;
  task->policy = 3;
  snprintf(task->name, sizeof task->name, "%s", name == NULL ? "" : name);
  prepare(task);
  return (int)number;
}

/* The end of a task. */
static void finish_task(void *value) {
  at_call();
  struct task *task = &tasks[run->now];
  task->value = value;
  if (task->held != 0) fail("T%d %s ends, and has a mutex or a stax", run->now, task->name);
  if (task->locks != 0) fail("T%d %s ends, and has an in-band mutex", run->now, task->name);
  expect_no_stall_of_task("ends");
  if (run->now == BODY) look_at_waits(), end_run(ENDED);
  if (task->is_attached) {
    (void)do_call(run->now, evlsim_call_detach());
    task->is_attached = task->is_oob = false;
  }
  task->has_ended = true;
  run_oob_handlers();
  change_task(next_task());
  abort();
}
