/*
 * Part of evlsim_runner.c: libevl's calls on threads, and pthread's, over tasks.
 */

enum fd_kind { FD_THREAD, FD_SEM, FD_FLAGS, FD_XBUF, FD_MUTEX, FD_TIMER };
static int fd_of(enum fd_kind kind, int number) { return FIRST_FD + (int)kind * 256 + number; }
/* The number of the element, or -1 where the descriptor isn't of this kind. */
static int number_of(int fd, enum fd_kind kind) {
  int number = fd - FIRST_FD - (int)kind * 256;
  return number >= 0 && number < 256 ? number : -1;
}

static void expect_run(const char *what) {
  if (run != NULL && run->is_on) return;
  fprintf(stderr, "evlsim: %s is called outside of a run: only the body of evlsim_test or evlsim_explore may\n", what);
  exit(EXIT_FAILURE);
}

static evlsim_policy policy_of(const struct task *task) {
  switch (task->policy) {
    case 0: return evlsim_fifo(task->prio);
    case 1: return evlsim_rr(task->prio, task->slice);
    case 2: return evlsim_quota(task->group, task->prio);
    default: return evlsim_weak(task->prio);
  }
}

int evl_attach_thread(int flags, const char *format, ...) {
  (void)flags;
  expect_run("evl_attach_thread");
  if (in_handler()) return -EPERM;
  struct task *task = &tasks[run->now];
  if (task->staxes != 0) return -EBUSY;
  va_list values;
  va_start(values, format);
  if (format != NULL) vsnprintf(task->name, sizeof task->name, format, values);
  va_end(values);
  at_call();
  evlsim_answer answer = do_call(run->now, evlsim_call_attach(policy_of(task), EVLSIM_OOB));
  if (evlsim_is_done(answer)) task->is_attached = task->is_oob = true;
  task->left = task->slice;
  go_on();
  return evlsim_is_done(answer) ? fd_of(FD_THREAD, run->now) : error_of(answer);
}

int evl_detach_thread(int flags) {
  (void)flags;
  expect_run("evl_detach_thread");
  struct task *task = &tasks[run->now];
  if (in_handler() || !task->is_attached) return not_attached();
  if (task->held != 0) return refuse("Busy", -EBUSY);
  at_call();
  evlsim_answer answer = do_call(run->now, evlsim_call_detach());
  if (evlsim_is_done(answer)) task->is_attached = task->is_oob = false;
  go_on();
  return error_of(answer);
}

int evl_get_self(void) {
  expect_run("evl_get_self");
  return tasks[run->now].is_attached ? fd_of(FD_THREAD, run->now) : -EPERM;
}

bool evl_is_inband(void) {
  expect_run("evl_is_inband");
  return !run->in_oob_handler && !tasks[run->now].is_oob;
}

static int change_stage(bool is_oob) {
  struct task *task = &tasks[run->now];
  if (in_handler() || !task->is_attached) return not_attached();
  if (task->is_oob == is_oob) return 0;
  if (task->staxes != 0) return -EBUSY;
  at_call();
  evlsim_answer answer = do_call(run->now, evlsim_call_set_stage(is_oob ? EVLSIM_OOB : EVLSIM_INBAND));
  if (evlsim_is_done(answer)) task->is_oob = is_oob;
  go_on();
  return error_of(answer);
}

int evl_switch_oob(void) {
  expect_run("evl_switch_oob");
  return change_stage(true);
}

int evl_switch_inband(void) {
  expect_run("evl_switch_inband");
  return change_stage(false);
}

/* A thread of the core that makes an in-band call goes in-band first. */
static void go_inband(void) {
  if (!in_handler() && tasks[run->now].is_oob && change_stage(false) != 0) {
    fail("T%d makes an in-band call, and holds a stax out-of-band", run->now);
  }
}

/* One that is in-band and waits for an element goes out-of-band first; who isn't attached can't. */
static int go_oob(void) {
  if (in_handler()) fail("a handler waits");
  return tasks[run->now].is_attached ? change_stage(true) : not_attached();
}

static bool read_policy(const struct evl_sched_attrs *from, struct task *to) {
  uint64_t slice = 0;
  switch (from->sched_policy) {
    case SCHED_FIFO: to->policy = 0; break;
    case SCHED_RR: to->policy = 1; break;
    case SCHED_QUOTA: to->policy = 2; break;
    case SCHED_WEAK:
    case SCHED_OTHER: to->policy = 3; break;
    default: return false;
  }
  if (from->sched_priority < 0 || from->sched_priority > 99) return false;
  to->prio = (uint8_t)from->sched_priority;
  if (to->policy == 1 && !read_date(&from->sched_rr_quantum, &slice)) return false;
  to->slice = to->left = slice;
  if (to->policy == 2) to->group = (uint16_t)from->sched_quota_group;
  return true;
}

/* Sets a thread's policy in the core; the moment is its caller's, before it looks whether the thread is attached. */
static int set_policy(int number, const struct evl_sched_attrs *attrs) {
  struct task *task = &tasks[number];
  struct task wanted = *task;
  if (!read_policy(attrs, &wanted)) return invalid();
  evlsim_answer answer = do_call(number, evlsim_call_set_policy(policy_of(&wanted)));
  if (evlsim_is_done(answer)) {
    task->policy = wanted.policy, task->prio = wanted.prio;
    task->slice = task->left = wanted.slice, task->group = wanted.group;
  }
  go_on();
  return evlsim_refused_as(answer, EVLSIM_REFUSAL_RANGE) ? invalid() : error_of(answer);
}

int evl_set_schedattr(int efd, const struct evl_sched_attrs *attrs) {
  expect_run("evl_set_schedattr");
  at_call();
  int number = number_of(efd, FD_THREAD);
  if (number < 0 || number >= (int)run->made.tasks) return -EBADF;
  return attrs == NULL ? invalid() : set_policy(number, attrs);
}

int evl_get_schedattr(int efd, struct evl_sched_attrs *attrs) {
  static const int policies[] = {SCHED_FIFO, SCHED_RR, SCHED_QUOTA, SCHED_WEAK};
  expect_run("evl_get_schedattr");
  int number = number_of(efd, FD_THREAD);
  if (number < 0 || number >= (int)run->made.tasks) return -EBADF;
  at_call();
  memset(attrs, 0, sizeof *attrs);
  attrs->sched_policy = policies[tasks[number].policy];
  attrs->sched_priority = tasks[number].prio;
  if (tasks[number].policy == 1) write_date(tasks[number].slice, &attrs->sched_rr_quantum);
  if (tasks[number].policy == 2) attrs->sched_quota_group = tasks[number].group;
  return 0;
}

int evl_yield(void) {
  expect_run("evl_yield");
  struct task *task = &tasks[run->now];
  if (in_handler() || !task->is_attached) return not_attached();
  at_call(); /* another may set this thread's policy there */
  task->left = task->slice;
  evlsim_answer answer = do_call(run->now, evlsim_call_set_policy(policy_of(task)));
  go_on();
  return error_of(answer);
}

int evl_printf(const char *format, ...) {
  va_list values;
  va_start(values, format);
  int count = vprintf(format, values);
  va_end(values);
  return count;
}

/* pthread's calls; a thread's handle is its number. */
static int set_param(pthread_t thread, int policy, const struct sched_param *param) {
  struct evl_sched_attrs attrs;
  memset(&attrs, 0, sizeof attrs);
  attrs.sched_policy = policy;
  attrs.sched_priority = param->sched_priority;
  attrs.sched_rr_quantum.tv_nsec = 10000000;
  if (tasks[thread].is_attached) return -set_policy((int)thread, &attrs);
  return read_policy(&attrs, &tasks[thread]) ? 0 : EINVAL;
}

int evlsim_pthread_setschedparam(pthread_t thread, int policy, const struct sched_param *param) {
  expect_run("pthread_setschedparam");
  expect_stays("pthread_setschedparam", CALLED_FROM);
  at_call();
  return thread < run->made.tasks ? set_param(thread, policy, param) : ESRCH;
}

int evlsim_pthread_create(pthread_t *thread, const pthread_attr_t *attr, void *(*start)(void *), void *argument) {
  expect_run("pthread_create");
  expect_stays("pthread_create", CALLED_FROM);
  go_inband();
  at_call();
  int number = make_task(start, argument, NULL);
  int policy = SCHED_OTHER, inherits = PTHREAD_INHERIT_SCHED;
  struct sched_param param;
  memset(&param, 0, sizeof param);
  if (attr != NULL && pthread_attr_getinheritsched(attr, &inherits) == 0 && inherits == PTHREAD_EXPLICIT_SCHED) {
    pthread_attr_getschedpolicy(attr, &policy);
    pthread_attr_getschedparam(attr, &param);
    set_param((pthread_t)number, policy, &param);
  }
  *thread = (pthread_t)number;
  return 0;
}

static int join(pthread_t thread, void **value) {
  go_inband();
  if (thread < BODY || thread >= run->made.tasks) return ESRCH;
  if ((int)thread == run->now) return EDEADLK;
  at_call();
  tasks[run->now].awaits = AN_END;
  tasks[run->now].target = (int)thread;
  wait_here();
  if (value != NULL) *value = tasks[thread].value;
  return 0;
}

int evlsim_pthread_join(pthread_t thread, void **value) {
  expect_run("pthread_join");
  expect_stays("pthread_join", CALLED_FROM);
  return join(thread, value);
}

int evlsim_pthread_detach(pthread_t thread) { return thread < run->made.tasks ? 0 : ESRCH; }
pthread_t evlsim_pthread_self(void) { return run != NULL && run->is_on ? (pthread_t)run->now : pthread_self(); }
void evlsim_pthread_exit(void *value) {
  expect_run("pthread_exit");
  go_inband();
  finish_task(value);
}

int evlsim_pthread_setname_np(pthread_t thread, const char *name) {
  expect_run("pthread_setname_np");
  expect_stays("pthread_setname_np", CALLED_FROM);
  if (thread >= run->made.tasks) return ESRCH;
  snprintf(tasks[thread].name, sizeof tasks[thread].name, "%s", name);
  return 0;
}

CALLER static void *run_simply(void *it) {
  tasks[run->now].simple(it);
  return NULL;
}

int evlsim_thread(void (*start)(void *it), void *it, const char *name) {
  expect_run("evlsim_thread");
  at_call();
  int number = make_task(run_simply, it, name);
  tasks[number].simple = start;
  return number;
}

/* Names that have it are then the same in each run, so that reports and outcomes can be compared. */
pid_t evlsim_getpid(void) {
  expect_stays("getpid", CALLED_FROM);
  return run != NULL && run->is_on ? RUN_PROCESS : getpid();
}

void evlsim_join(int thread) {
  expect_run("evlsim_join");
  (void)join((pthread_t)thread, NULL);
}
int evlsim_self(void) { return run->now; }
