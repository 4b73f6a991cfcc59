/*
 * Part of evlsim_runner.c: who waits when a run ends, and what its test says of that.
 */

static bool is_waiting(int number) {
  const struct task *task = &tasks[number];
  return task->has_begun && !task->has_ended && !can_run(number);
}

/* A thread's wait, or why it has none, as text. */
static void write_wait(int number, char *text, size_t size) {
  const struct task *task = &tasks[number];
  char name[96];
  if (!is_waiting(number)) {
    snprintf(text, size, "%s", task->has_ended ? "has ended" : "could go on");
    return;
  }
  bool is_of_core = task->awaits == THE_CORE;
  const char *what = is_of_core ? element_name(number, name, sizeof name) : awaited_name(task, name, sizeof name);
  snprintf(text, size, "waits for %s", what);
}

/* The element of a descriptor, as text. */
static void write_element(int element, char *text, size_t size) {
  static const char *const kinds[] = {"the end of T", "sem ", "flags ", "xbuf ", "mutex ", "timer "};
  snprintf(text, size, "something");
  for (size_t each = 0; each < sizeof kinds / sizeof *kinds; each++) {
    int number = number_of(element, (enum fd_kind)each);
    if (number >= 0) snprintf(text, size, "%s%d", kinds[each], number);
  }
}

/* Whether a thread waits for the element of a descriptor. */
static bool waits_for(int number, int element) {
  const struct task *task = &tasks[number];
  int sem = number_of(element, FD_SEM), flags = number_of(element, FD_FLAGS), mutex = number_of(element, FD_MUTEX);
  int xbuf = number_of(element, FD_XBUF), timer = number_of(element, FD_TIMER), thread = number_of(element, FD_THREAD);
  bool is_of_core = task->awaits == THE_CORE;
  if (timer >= 0 && timer < ELEMENTS) flags = run->timers[timer].group;
  if (sem >= 0) return is_of_core && is_in_queue(number, EVLSIM_ON_SEM, (unsigned)sem, EVLSIM_IN);
  if (flags >= 0) return is_of_core && is_in_queue(number, EVLSIM_ON_FLAGS, (unsigned)flags, EVLSIM_IN);
  if (mutex >= 0) return is_of_core && is_in_queue(number, EVLSIM_ON_MUTEX, (unsigned)mutex, EVLSIM_IN);
  if (thread >= 0) return task->awaits == AN_END && task->target == thread;
  if (xbuf < 0) return false;
  if (!is_of_core) return (task->awaits == BYTES || task->awaits == ROOM) && task->target == xbuf;
  return is_in_queue(number, EVLSIM_ON_READING, (unsigned)xbuf, EVLSIM_IN) ||
         is_in_queue(number, EVLSIM_ON_WRITING, (unsigned)xbuf, EVLSIM_OUT);
}

static struct task *task_of(int thread) {
  if (thread < BODY || thread >= (int)run->made.tasks) fail("there is no thread %d", thread);
  return &tasks[thread];
}

void evlsim_require_waits_at(int thread, int element, const char *file, int line) {
  char wanted[32], text[128];
  expect_run("evlsim_require_waits");
  struct task *task = task_of(thread);
  task->may_wait = true;
  bool is_any = element == EVLSIM_ANY_ELEMENT;
  if (is_waiting(thread) && (is_any || waits_for(thread, element))) return;
  write_element(element, wanted, sizeof wanted);
  write_wait(thread, text, sizeof text);
  fail("%s:%d: T%d %s has to wait for %s, and %s", file, line, thread, task->name, wanted, text);
}

void (evlsim_may_wait_at_rest)(int thread) {
  expect_run("evlsim_may_wait_at_rest");
  task_of(thread)->may_wait = true;
}

/* At the end of the body: threads that wait, where the test doesn't say that they may. */
static void look_at_waits(void) {
  char text[128];
  for (int each = BODY + 1; each < (int)run->made.tasks; each++) {
    const struct task *task = &tasks[each];
    if (!is_waiting(each) || task->may_wait || each == run->worker) continue;
    run->has_waited = true;
    if (!kept->limits.nobody_waits) continue;
    write_wait(each, text, sizeof text);
    fail("T%d %s %s at the end", each, task->name, text);
  }
}
