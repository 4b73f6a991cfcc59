/*
 * Part of evlsim_runner.c: in-band work, which an in-band thread of the runner does, one after another, as a worker of
 * the kernel does it. So it may wait.
 */

/* Does the first work that is pending; from here on it may be handed on again. */
CALLER static void do_work(void) {
  struct evl_work *work = run->first_work;
  struct task *worker = &tasks[run->now];
  int (*handler)(struct evl_work *) = work->handler;
  run->first_work = work->next;
  work->is_pending = false;
  worker->is_seen = false;
  (void)handler(work);
  if (!worker->is_seen) note_unseen("in-band work", -1, &handler);
}

static void *do_works(void *nothing) {
  for (;;) {
    tasks[run->now].awaits = WORK;
    wait_here();
    while (run->first_work != NULL) do_work();
  }
  return nothing;
}

void evl_init_work(struct evl_work *work, int (*handler)(struct evl_work *work)) {
  expect_run("evl_init_work");
  at_call();
  work->handler = handler;
  work->is_pending = false;
  work->next = NULL;
  if (run->worker == 0) run->worker = make_task(do_works, NULL, "worker");
}

bool evl_call_inband(struct evl_work *work) {
  expect_run("evl_call_inband");
  at_call();
  if (run->worker == 0) fail("work is handed on in-band before any is initialised");
  if (work->is_pending) return false;
  work->is_pending = true;
  work->next = NULL;
  struct evl_work **last = &run->first_work;
  while (*last != NULL) last = &(*last)->next;
  *last = work;
  go_on();
  return true;
}
