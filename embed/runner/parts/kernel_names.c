/*
 * Part of evlsim_runner.c: what drivers of the kernel have beside libevl's calls: spin locks and threads of the core.
 */

/* Who has a spin lock, as it notes it; the code that runs has none as 0. */
static int spinner(void) { return in_handler() ? -1 : run->now + 1; }

static const char *spinner_name(int holder, char *text, size_t size) {
  snprintf(text, size, "a handler");
  if (holder > 0) snprintf(text, size, "T%d %s", holder - 1, tasks[holder - 1].name);
  return text;
}

/* Whether interrupts of a stage are kept out here. */
static bool is_kept_out(bool is_oob) {
  return run->stalls[true].is_on || run->in_oob_handler || (!is_oob && (run->stalls[false].is_on || in_handler()));
}

bool evlsim_spin_lock(struct evlsim_spin *spin, bool is_oob, bool stalls, const char *file, int line) {
  char name[64];
  expect_run("a spin lock");
  bool before = stalls ? evlsim_stall_stage(is_oob, file, line) : run->stalls[is_oob].is_on;
  if (!stalls) at_call();
  if (!is_kept_out(is_oob)) {
    fail("a spin lock is taken with interrupts on, so its handler may spin for good: take it by .._irqsave: %s:%d", file,
         line);
  }
  if (spin->holder != 0) {
    fail("%s:%d: a spin lock is taken that %s has, since %s:%d: it spins for good", file, line,
         spinner_name(spin->holder, name, sizeof name), spin->file, spin->line);
  }
  spin->holder = spinner(), spin->file = file, spin->line = line;
  if (run->spins_held == SPINS) fail("more than %d spin locks are held at once", SPINS);
  run->spin[run->spins_held++] = spin;
  return before;
}

void evlsim_spin_unlock(struct evlsim_spin *spin) {
  expect_run("a spin lock");
  at_call();
  if (spin->holder != spinner()) fail("a spin lock is unlocked that the code which runs hasn't locked");
  spin->holder = 0;
  unsigned each = 0;
  while (each < run->spins_held && run->spin[each] != spin) each++;
  if (each < run->spins_held) run->spin[each] = run->spin[--run->spins_held];
}

bool evlsim_spin_is_locked(const struct evlsim_spin *spin) {
  expect_run("a spin lock");
  at_call();
  return spin->holder != 0;
}

/* A thread or (-1) a handler that waits or ends has to unlock its spin locks first. */
static void expect_no_spin(int who, const char *what) {
  for (unsigned each = 0; each < run->spins_held; each++) {
    const struct evlsim_spin *spin = run->spin[each];
    if (spin->holder != (who < 0 ? -1 : who + 1)) continue;
    fail("%s, and has a spin lock: %s:%d", what, spin->file, spin->line);
  }
}

CALLER static void *run_kthread(void *it) {
  struct evl_kthread *kthread = it;
  struct task *task = &tasks[run->now];
  char name[sizeof task->name];
  memcpy(name, task->name, sizeof name);
  task->policy = 0, task->prio = (uint8_t)kthread->priority;
  int error = evl_attach_self("%s", name);
  if (error < 0) fail("the kernel thread %s isn't attached: %d", task->name, error);
  task->kthread = kthread;
  kthread->threadfn(kthread->arg);
  return NULL;
}

int evl_run_kthread(struct evl_kthread *kthread, void (*threadfn)(void *arg), void *arg, int priority, int clone_flags,
                    const char *format, ...) {
  char name[24] = "";
  (void)clone_flags;
  expect_run("evl_run_kthread");
  if (threadfn == NULL || priority < 1 || priority > 99) return invalid();
  va_list values;
  va_start(values, format);
  if (format != NULL) vsnprintf(name, sizeof name, format, values);
  va_end(values);
  go_inband();
  at_call();
  kthread->priority = priority;
  kthread->should_stop = false;
  kthread->threadfn = threadfn;
  kthread->arg = arg;
  kthread->number = make_task(run_kthread, kthread, name);
  return 0;
}

bool evl_kthread_should_stop(void) {
  expect_run("evl_kthread_should_stop");
  at_call();
  const struct evl_kthread *kthread = tasks[run->now].kthread;
  if (kthread == NULL || in_handler()) fail("evl_kthread_should_stop is called by no kernel thread");
  return kthread->should_stop;
}

void evl_stop_kthread(struct evl_kthread *kthread) {
  expect_run("evl_stop_kthread");
  at_call();
  kthread->should_stop = true;
  (void)join((pthread_t)kthread->number, NULL);
}

ktime_t evl_ktime_monotonic(void) {
  expect_run("evl_ktime_monotonic");
  at_call();
  return (ktime_t)(run->date + kept->limits.starts);
}
