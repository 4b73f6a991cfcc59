/*
 * Part of evlsim_runner.c: the kernel of a run, its calls, and the handlers that its plays call.
 *
 * A kernel is opened with all elements of its board, and libevl makes them one by one. So a run notes what it makes,
 * and opens the kernel at its first call; what is made later, and isn't on the board, ends the run, which begins again
 * with a board that has it. A kernel that a run leaves is spare: the next run resets it, if it has the same elements.
 */

__attribute__((noreturn)) static void end_run(enum ending ending) {
  run->ending = ending;
  leave();
}

__attribute__((noreturn)) static void fail_with(const char *format, va_list values) {
  vsnprintf(run->why, sizeof run->why, format, values);
  end_run(FAILED);
}

__attribute__((noreturn, format(printf, 1, 2))) static void fail(const char *format, ...) {
  va_list values;
  va_start(values, format);
  fail_with(format, values);
  va_end(values);
}

/* The callbacks: the program's, and after them some that handle each event and do nothing. */
static const evlsim_plan *bank(void) {
  static evlsim_plan plans[HANDLERS];
  if (plans[0].accepts != 0) return plans;
  for (int each = 0; each < HANDLERS; each++) plans[each] = evlsim_program_bank[each < PROGRAM_BANK ? each : 0];
  return plans;
}

static evlsim_board board_of(const struct elements *it) {
  evlsim_board board;
  memset(&board, 0, sizeof board);
  board.threads = (uint16_t)(it->tasks > 2 ? it->tasks : 2);
  board.sems = it->sem, board.sem_count = it->sems;
  board.flags = it->flags, board.flag_count = it->groups_of_flags;
  board.xbufs = it->rings, board.xbuf_count = it->xbufs;
  board.mutexes = it->mutex, board.mutex_count = it->mutexes;
  board.groups = it->group, board.group_count = it->groups;
  return board;
}

static void close_spare(void) {
  if (run->spare.is_there) evlsim_close(&run->spare.kernel);
  run->spare.is_there = false;
}

/* The kernel of an earlier run, reset, if that had the elements and the limit of this one. */
static bool take_spare(void) {
  struct spare *it = &run->spare;
  if (!it->is_there || it->history != kept->limits.history) return false;
  if (memcmp(&it->elements, &run->opened, sizeof it->elements) != 0) return false;
  if (!evlsim_ok(evlsim_reset(&it->kernel))) return false;
  run->kernel = it->kernel;
  it->is_there = false;
  return true;
}

static void open_kernel(void) {
  if (run->is_open) return;
  run->opened = kept->known;
  if (take_spare()) {
    run->is_open = true;
    return;
  }
  close_spare();
  evlsim_board board = board_of(&run->opened);
  size_t plans = run->opened.callbacks > PROGRAM_BANK ? run->opened.callbacks : PROGRAM_BANK;
  evlsim_status status = evlsim_open(&run->kernel, &board, bank(), plans, kept->limits.history);
  if (!evlsim_ok(status)) fail("the kernel isn't opened: %s", evlsim_status_text(status));
  run->is_open = true;
}

/* Begins the run again, since the board lacks what is made. */
__attribute__((noreturn)) static void begin_again(void) { end_run(BEGINS_AGAIN); }

static void note_fire(const evlsim_event *event) {
  struct timer *timer = &run->timers[event->element];
  timer->ticks += 1 + event->missed;
  if (timer->interval == 0) {
    timer->date = NEVER;
  } else {
    timer->date += timer->interval * (1 + event->missed);
  }
}

static void add_due(struct due *due, uint8_t place) {
  if (due->last - due->first == QUEUE) fail("more than %d plays wait for their handlers", QUEUE);
  due->place[due->last++ % QUEUE] = place;
}

/* The next handler; one that was freed meanwhile isn't called. */
static bool take_due(struct due *due, struct handler *handler) {
  if (due->first == due->last) return false;
  *handler = run->handlers[due->place[due->first++ % QUEUE]];
  return true;
}

/* The handler of what was played: those of in-band lines wait till the in-band stage goes on. */
static void note_play(const evlsim_event *event) {
  bool is_timer = event->kind == EVLSIM_PLAY_TIMER;
  if (is_timer) note_fire(event);
  if (!is_timer && event->kind != EVLSIM_PLAY_LINE) return;
  bool is_oob = is_timer || event->stage == EVLSIM_OOB;
  for (unsigned each = 0; each < HANDLERS; each++) {
    struct handler *it = &run->handlers[each];
    if (!it->is_used || it->is_timer != is_timer || it->element != event->element || it->is_oob != is_oob) continue;
    add_due(is_oob ? &run->oob_due : &run->inband_due, (uint8_t)each);
  }
}

/* A call of a thread, with no moment before it, and with nothing done after it. */
static evlsim_answer do_bytes(int who, evlsim_call call, const void *bytes, size_t length, void *out, size_t room) {
  open_kernel();
  evlsim_answer answer = evlsim_do_bytes(&run->kernel, (uint16_t)who, call, bytes, length, out, room);
  if (!evlsim_was_called(answer)) fail("a call isn't made: %s", evlsim_status_text(evlsim_why(answer)));
  if (evlsim_refused_as(answer, EVLSIM_REFUSAL_HISTORY_FULL)) {
    fail("the history is full: %u entries", (unsigned)kept->limits.history);
  }
  if (evlsim_refused_as(answer, EVLSIM_REFUSAL_NO_MEMORY)) fail("no memory");
  run->entries++;
  look_at_refusal(call, answer);
  for (size_t each = 0; each < answer.plays; each++) {
    evlsim_event event;
    if (evlsim_ok(evlsim_event_at(&run->kernel, answer.first_play + each, &event))) note_play(&event);
  }
  return answer;
}

static evlsim_answer do_call(int who, evlsim_call call) { return do_bytes(who, call, NULL, 0, NULL, 0); }

/* Whether the code that runs is a handler's. */
static bool in_handler(void) { return run->in_oob_handler || tasks[run->now].in_handler; }

/* Who makes a call: the machine, where a handler does. */
static int caller(void) { return in_handler() ? IDLE : run->now; }

/* Who has stalled a stage, a thread or (-1) a handler, has to unstall it first. */
static void expect_no_stall(int who, const char *what) {
  expect_no_spin(who, what);
  for (int stage = 0; stage < 2; stage++) {
    const struct stall *stall = &run->stalls[stage];
    if (!stall->is_on || stall->by != who) continue;
    fail("%s, and has stalled the %s stage: %s:%d", what, stage == 0 ? "in-band" : "out-of-band", stall->file,
         stall->line);
  }
}

/* Whether a handler has code of the driver's. */
static bool has_code(const struct handler *handler) {
  if (!handler->is_used) return false;
  if (!handler->is_timer) return handler->handle != NULL;
  const struct evl_timer *core = run->timers[handler->element].core;
  return core != NULL && core->handler != NULL;
}

CALLER static void call_handler(const struct handler *handler) {
  char here, what[64];
  const char *before = run->below;
  const struct handler *handled = run->handled;
  bool was_seen = run->is_seen;
  int error = errno;
  run->below = &here;
  run->handled = handler;
  run->is_seen = false;
  if (handler->is_used && handler->is_timer) fire_timer(handler->element);
  if (handler->is_used && handler->handle != NULL) {
    (void)handler->handle(handler->element, handler->device);
    if (!run->is_seen) note_unseen("the handler of line ", handler->element, &handler->handle);
  }
  if (run->in_oob_handler && has_code(handler)) at_return();
  const char *kind = handler->is_timer ? "timer" : "line";
  snprintf(what, sizeof what, "the handler of %s %u returns", kind, (unsigned)handler->element);
  expect_no_stall(-1, what);
  run->is_seen = was_seen;
  run->handled = handled;
  run->below = before;
  errno = error;
}

/* Calls the handlers of the out-of-band lines and timers that were played, one after another. Interrupts that came while
   one ran arrive when it has returned. */
static void run_oob_handlers(void) {
  if (run->in_oob_handler) return;
  struct handler due;
  while (take_due(&run->oob_due, &due)) {
    run->in_oob_handler = true;
    call_handler(&due);
    run->in_oob_handler = false;
    arrive_raised();
  }
}

/* Calls those of in-band lines, on top of the task that has the in-band stage. */
static void run_inband_handlers(void) {
  if (run->in_oob_handler || run->interrupted >= 0 || tasks[run->now].is_oob) return;
  struct handler due;
  while (take_due(&run->inband_due, &due)) {
    struct task *task = &tasks[run->now];
    run->interrupted = run->now;
    task->in_handler = true;
    call_handler(&due);
    task->in_handler = false;
    run->interrupted = -1;
    yield_if_due();
  }
}

/* What follows a call: handlers, and the task that is picked then. */
static void go_on(void) {
  run_oob_handlers();
  if (run->in_oob_handler) return;
  yield_if_due();
  run_inband_handlers();
}

/* A call of the code that runs. */
static evlsim_answer call_bytes(evlsim_call call, const void *bytes, size_t length, void *out, size_t room) {
  at_call();
  evlsim_answer answer = do_bytes(caller(), call, bytes, length, out, room);
  go_on();
  return answer;
}

static evlsim_answer call_core(evlsim_call call) { return call_bytes(call, NULL, 0, NULL, 0); }
