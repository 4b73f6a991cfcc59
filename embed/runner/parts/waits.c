/*
 * Part of evlsim_runner.c: waits in the core, and the elements that end them: semaphores, flag groups, cross-buffers.
 */

/* What a wait writes, and where what it reads goes. */
struct transfer {
  const void *bytes;
  size_t length;
  void *out;
  size_t room;
};
static const struct transfer no_bytes = {NULL, 0, NULL, 0};

/* Waits for what `begin` begins, and returns what ended the wait. There is no moment before it begins, so what its
   caller saw since the last one is still so. */
static evlsim_answer wait_at_once(evlsim_call begin, uint64_t date, struct transfer with) {
  struct task *task = &tasks[run->now];
  if (date != NEVER) begin = evlsim_until(begin, date);
  evlsim_answer answer = do_bytes(run->now, begin, with.bytes, with.length, NULL, 0);
  if (!evlsim_is_begun(answer)) {
    go_on();
    return answer;
  }
  task->awaits = THE_CORE;
  task->date = date;
  run_oob_handlers();
  wait_here();
  task->date = NEVER;
  at_call();
  answer = do_bytes(run->now, evlsim_call_finish(task->held != 0 || task->keeps_stage), NULL, 0, with.out, with.room);
  if (task->policy == 3) task->is_oob = evlsim_see_stage(&run->kernel, (uint16_t)run->now) == EVLSIM_OOB;
  go_on();
  return answer;
}

static evlsim_answer wait_in_core(evlsim_call begin, uint64_t date, struct transfer with) {
  at_call();
  return wait_at_once(begin, date, with);
}

static evlsim_answer simple_wait(evlsim_call begin, uint64_t date) { return wait_in_core(begin, date, no_bytes); }

/* Notes a new element: its place, or the run begins again, since the board lacks it. `is_same` tells of a known one. */
static int note_element(unsigned *made, unsigned *known, unsigned opened, unsigned most, bool is_same) {
  unsigned place = (*made)++;
  if (place >= most) return -1;
  if (place >= *known) *known = place + 1;
  if (run->is_open && (place >= opened || !is_same)) begin_again();
  return (int)place;
}

static int make_sem(uint32_t count) {
  unsigned place = run->made.sems;
  bool is_same = place < run->opened.sems && run->opened.sem[place] == count;
  if (place < ELEMENTS) kept->known.sem[place] = count;
  return note_element(&run->made.sems, &kept->known.sems, run->opened.sems, ELEMENTS, is_same);
}

static int make_flags(uint32_t bits) {
  unsigned place = run->made.groups_of_flags;
  bool is_same = place < run->opened.groups_of_flags && run->opened.flags[place] == bits;
  if (place < ELEMENTS) kept->known.flags[place] = bits;
  return note_element(&run->made.groups_of_flags, &kept->known.groups_of_flags, run->opened.groups_of_flags, ELEMENTS,
                      is_same);
}

/* Semaphores. */
int evl_create_sem(struct evl_sem *sem, int clockfd, int initval, int flags, const char *format, ...) {
  (void)clockfd, (void)flags;
  expect_run("evl_create_sem");
  if (initval < 0) return invalid();
  int number = make_sem((uint32_t)initval);
  if (number < 0) return -EMFILE;
  sem->magic = EVLSIM_MADE;
  sem->number = number;
  va_list values;
  va_start(values, format);
  note_name(A_SEM, number, format, values);
  va_end(values);
  return fd_of(FD_SEM, number);
}

/* The semaphore's number, made where it has only its initializer; -1 where it is none. */
static int number_of_sem(struct evl_sem *sem) {
  expect_run("a semaphore");
  if (sem->magic == EVLSIM_UNMADE) {
    (void)evl_create_sem(sem, sem->clockfd, sem->initval, sem->flags, "%s", sem->name == NULL ? "" : sem->name);
  }
  return sem->magic == EVLSIM_MADE ? sem->number : -1;
}

int evl_close_sem(struct evl_sem *sem) {
  if (sem->magic != EVLSIM_MADE) return invalid();
  sem->magic = 0;
  return 0;
}

static int get_sem(struct evl_sem *sem, uint64_t date) {
  int number = number_of_sem(sem);
  int error = number < 0 ? invalid() : go_oob();
  if (error != 0) return error;
  return error_of(simple_wait(evlsim_call_begin_get((uint16_t)number), date));
}

int evl_get_sem(struct evl_sem *sem) { return get_sem(sem, NEVER); }

int evl_timedget_sem(struct evl_sem *sem, const struct timespec *date) {
  uint64_t until;
  return read_deadline(date, &until) ? get_sem(sem, until) : invalid();
}

int evl_tryget_sem(struct evl_sem *sem) {
  int number = number_of_sem(sem);
  return number < 0 ? invalid() : error_of(call_core(evlsim_call_try_get((uint16_t)number)));
}

int evl_put_sem(struct evl_sem *sem) {
  int number = number_of_sem(sem);
  return number < 0 ? invalid() : error_of(call_core(evlsim_call_put((uint16_t)number)));
}

int evl_peek_sem(struct evl_sem *sem, int *value) {
  int number = number_of_sem(sem);
  if (number < 0) return invalid();
  evlsim_answer answer = call_core(evlsim_call_peek((uint16_t)number));
  *value = (int)answer.count;
  return error_of(answer);
}

/* Flag groups. */
int evl_create_flags(struct evl_flags *group, int clockfd, int initval, int flags, const char *format, ...) {
  (void)clockfd, (void)flags;
  expect_run("evl_create_flags");
  int number = make_flags((uint32_t)initval);
  if (number < 0) return -EMFILE;
  group->magic = EVLSIM_MADE;
  group->number = number;
  va_list values;
  va_start(values, format);
  note_name(A_FLAG_GROUP, number, format, values);
  va_end(values);
  return fd_of(FD_FLAGS, number);
}

static int number_of_flags(struct evl_flags *group) {
  expect_run("a flag group");
  if (group->magic == EVLSIM_UNMADE) {
    (void)evl_create_flags(group, group->clockfd, group->initval, group->flags, "%s",
                           group->name == NULL ? "" : group->name);
  }
  return group->magic == EVLSIM_MADE ? group->number : -1;
}

int evl_close_flags(struct evl_flags *group) {
  if (group->magic != EVLSIM_MADE) return invalid();
  group->magic = 0;
  return 0;
}

static int take_flags(struct evl_flags *group, evlsim_take choice, int bits, uint64_t date, int *taken) {
  int number = number_of_flags(group);
  int error = number < 0 ? invalid() : go_oob();
  if (error != 0) return error;
  evlsim_answer answer = simple_wait(evlsim_call_begin_take((uint16_t)number, choice, (uint32_t)bits), date);
  if (taken != NULL && evlsim_has(answer, EVLSIM_BITS)) *taken = (int)(uint32_t)answer.number;
  return error_of(answer);
}

static int try_flags(struct evl_flags *group, evlsim_take choice, int bits, int *taken) {
  int number = number_of_flags(group);
  if (number < 0) return invalid();
  evlsim_answer answer = call_core(evlsim_call_try_take((uint16_t)number, choice, (uint32_t)bits));
  if (taken != NULL && evlsim_has(answer, EVLSIM_BITS)) *taken = (int)(uint32_t)answer.number;
  return error_of(answer);
}

int evl_wait_some_flags(struct evl_flags *group, int bits, int *taken) {
  return take_flags(group, EVLSIM_TAKE_OF, bits, NEVER, taken);
}
int evl_timedwait_some_flags(struct evl_flags *group, int bits, const struct timespec *date, int *taken) {
  uint64_t until;
  return read_deadline(date, &until) ? take_flags(group, EVLSIM_TAKE_OF, bits, until, taken) : invalid();
}
int evl_trywait_some_flags(struct evl_flags *group, int bits, int *taken) {
  return try_flags(group, EVLSIM_TAKE_OF, bits, taken);
}
int evl_wait_exact_flags(struct evl_flags *group, int bits) {
  return take_flags(group, EVLSIM_TAKE_EXACT, bits, NEVER, NULL);
}
int evl_timedwait_exact_flags(struct evl_flags *group, int bits, const struct timespec *date) {
  uint64_t until;
  return read_deadline(date, &until) ? take_flags(group, EVLSIM_TAKE_EXACT, bits, until, NULL) : invalid();
}
int evl_trywait_exact_flags(struct evl_flags *group, int bits) {
  return try_flags(group, EVLSIM_TAKE_EXACT, bits, NULL);
}
int evl_wait_flags(struct evl_flags *group, int *taken) { return take_flags(group, EVLSIM_TAKE_ANY, 0, NEVER, taken); }
int evl_timedwait_flags(struct evl_flags *group, const struct timespec *date, int *taken) {
  uint64_t until;
  return read_deadline(date, &until) ? take_flags(group, EVLSIM_TAKE_ANY, 0, until, taken) : invalid();
}
int evl_trywait_flags(struct evl_flags *group, int *taken) { return try_flags(group, EVLSIM_TAKE_ANY, 0, taken); }

int evl_post_flags(struct evl_flags *group, int bits) {
  int number = number_of_flags(group);
  return number < 0 ? invalid() : error_of(call_core(evlsim_call_post_flags((uint16_t)number, (uint32_t)bits)));
}

int evl_peek_flags(struct evl_flags *group, int *bits) {
  int number = number_of_flags(group);
  if (number < 0) return invalid();
  evlsim_answer answer = call_core(evlsim_call_peek_flags((uint16_t)number));
  *bits = (int)(uint32_t)answer.number;
  return error_of(answer);
}
