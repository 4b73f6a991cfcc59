/*
 * Part of evlsim_runner.c: mutexes by a word of their own, which asks the core where it is contended or has a ceiling;
 * and staxes by gates.
 */

int evl_create_mutex(struct evl_mutex *mutex, int clockfd, unsigned ceiling, int flags, const char *format, ...) {
  (void)clockfd;
  expect_run("evl_create_mutex");
  if (ceiling > 99) return invalid();
  bool is_recursive = (flags & EVL_MUTEX_RECURSIVE) != 0;
  unsigned number_of_kind = ceiling != 0 ? EVLSIM_CEILING : is_recursive ? EVLSIM_RECURSIVE : EVLSIM_NORMAL;
  evlsim_mutex kind = {(uint8_t)number_of_kind, (uint8_t)ceiling};
  unsigned place = run->made.mutexes;
  bool is_same = place < run->opened.mutexes && run->opened.mutex[place].kind == kind.kind &&
                 run->opened.mutex[place].ceiling == kind.ceiling;
  if (place < MUTEXES) kept->known.mutex[place] = kind;
  int number = note_element(&run->made.mutexes, &kept->known.mutexes, run->opened.mutexes, MUTEXES, is_same);
  if (number < 0) return -EMFILE;
  struct word word = {-1, false, is_recursive && ceiling == 0, ceiling != 0, 0, (uint8_t)ceiling};
  run->words[number] = word;
  mutex->magic = EVLSIM_MADE;
  mutex->number = number;
  va_list values;
  va_start(values, format);
  note_name(A_MUTEX, number, format, values);
  va_end(values);
  return fd_of(FD_MUTEX, number);
}

static int number_of_mutex(struct evl_mutex *mutex) {
  expect_run("a mutex");
  if (mutex->magic == EVLSIM_UNMADE) {
    (void)evl_create_mutex(mutex, mutex->clockfd, mutex->ceiling, mutex->flags, "%s",
                           mutex->name == NULL ? "" : mutex->name);
  }
  return mutex->magic == EVLSIM_MADE ? mutex->number : -1;
}

int evl_close_mutex(struct evl_mutex *mutex) {
  if (mutex->magic != EVLSIM_MADE) return invalid();
  if (run->words[mutex->number].owner >= 0) return -EBUSY;
  mutex->magic = 0;
  return 0;
}

int evl_get_mutex_ceiling(struct evl_mutex *mutex) {
  int number = number_of_mutex(mutex);
  return number < 0 ? invalid() : run->words[number].ceiling;
}

static void own(struct word *word) {
  word->owner = run->now;
  word->depth = 1;
  tasks[run->now].held++;
}

/* Takes a mutex that is free: a step of its word, or with a ceiling one of the core. */
static int take_free(struct word *word, int number) {
  if (word->has_ceiling) {
    evlsim_answer answer = do_call(run->now, evlsim_call_raise((uint16_t)number));
    if (!evlsim_is_done(answer)) return error_of(answer);
  }
  own(word);
  if (!word->has_ceiling) note_quiet(A_MUTEX, number, true);
  go_on();
  return 0;
}

/* What stands before the first step: who may lock it, and whether it nests. 1: go on. */
static int before_lock(struct word *word) {
  if (in_handler()) fail("a handler locks a mutex");
  int error = go_oob();
  if (error != 0) return error;
  at_call();
  if (word->owner != run->now) return 1;
  if (!word->is_recursive) return refuse("Deadlock", -EDEADLK);
  if (word->depth == 255) return -EAGAIN;
  word->depth++;
  note_quiet(A_MUTEX, word - run->words, true);
  return 0;
}

static int lock_mutex(struct evl_mutex *mutex, uint64_t date) {
  int number = number_of_mutex(mutex);
  if (number < 0) return invalid();
  struct word *word = &run->words[number];
  int before = before_lock(word);
  if (before <= 0) return before;
  if (word->owner < 0) return take_free(word, number);
  word->is_claimed = true;
  evlsim_call claim = evlsim_call_claim((uint16_t)number, (uint16_t)word->owner);
  return error_of(wait_at_once(claim, date, no_bytes)); /* the claim names the owner, who may not change before it */
}

int evl_lock_mutex(struct evl_mutex *mutex) { return lock_mutex(mutex, NEVER); }

int evl_timedlock_mutex(struct evl_mutex *mutex, const struct timespec *date) {
  uint64_t until;
  return read_deadline(date, &until) ? lock_mutex(mutex, until) : invalid();
}

int evl_trylock_mutex(struct evl_mutex *mutex) {
  int number = number_of_mutex(mutex);
  if (number < 0) return invalid();
  struct word *word = &run->words[number];
  int before = before_lock(word);
  if (before <= 0) return before;
  return word->owner < 0 ? take_free(word, number) : -EBUSY;
}

/* The core hands a claimed mutex on: the next owner has it before it goes on. */
static int hand_on(struct word *word, int number) {
  evlsim_answer answer = do_call(run->now, evlsim_call_release((uint16_t)number));
  if (!evlsim_has(answer, EVLSIM_NEXT)) {
    go_on();
    return error_of(answer);
  }
  tasks[run->now].held--;
  word->owner = answer.thread;
  word->is_claimed = answer.more;
  word->depth = answer.thread < 0 ? 0 : 1;
  if (answer.thread >= 0) tasks[answer.thread].held++;
  go_on();
  return 0;
}

int evl_unlock_mutex(struct evl_mutex *mutex) {
  int number = number_of_mutex(mutex);
  if (number < 0) return invalid();
  struct word *word = &run->words[number];
  if (in_handler()) fail("a handler unlocks a mutex");
  at_call();
  if (word->owner != run->now) return refuse("NotOwner", -EPERM);
  if (word->depth > 1) {
    word->depth--;
    note_quiet(A_MUTEX, number, false);
    return 0;
  }
  if (word->is_claimed || word->has_ceiling) return hand_on(word, number);
  word->owner = -1;
  word->depth = 0;
  tasks[run->now].held--;
  note_quiet(A_MUTEX, number, false);
  return 0;
}

/* Staxes. */
void evl_init_stax(struct evl_stax *stax) {
  expect_run("evl_init_stax");
  if (run->gates_made >= STAXES) fail("there are more than %d staxes", STAXES);
  stax->number = (int)run->gates_made++;
  stax->magic = EVLSIM_MADE;
  struct gate gate = {false, make_sem(0), 0, 0};
  run->gates[stax->number] = gate;
}

void evl_destroy_stax(struct evl_stax *stax) { stax->magic = 0; }

static struct gate *gate_of(const struct evl_stax *stax) {
  expect_run("a stax");
  if (stax->magic != EVLSIM_MADE) fail("a stax is used that isn't made");
  return &run->gates[stax->number];
}

static bool enter_gate(struct gate *gate, bool is_oob) {
  if (gate->count > 0 && gate->is_oob != is_oob) return false;
  gate->is_oob = is_oob;
  gate->count++;
  note_quiet(A_STAX, gate - run->gates, true);
  if (!in_handler()) {
    tasks[run->now].held++;
    tasks[run->now].staxes |= 1u << (gate - run->gates);
  }
  return true;
}

static bool holds_gate(const struct gate *gate) {
  return !in_handler() && (tasks[run->now].staxes & 1u << (gate - run->gates)) != 0;
}

int evl_trylock_stax(struct evl_stax *stax) {
  struct gate *gate = gate_of(stax);
  at_call();
  if (holds_gate(gate)) return -EBUSY;
  return enter_gate(gate, !evl_is_inband()) ? 0 : -EAGAIN;
}

int evl_lock_stax(struct evl_stax *stax) {
  struct gate *gate = gate_of(stax);
  if (in_handler()) fail("a handler waits for a stax: it may only try");
  at_call();
  if (holds_gate(gate)) return -EBUSY;
  while (!enter_gate(gate, tasks[run->now].is_oob)) {
    if (tasks[run->now].is_oob) {
      gate->waiting++;
      tasks[run->now].keeps_stage = true;
      (void)simple_wait(evlsim_call_begin_get((uint16_t)gate->sem), NEVER);
      tasks[run->now].keeps_stage = false;
    } else {
      tasks[run->now].awaits = A_GATE;
      tasks[run->now].target = (int)(gate - run->gates);
      wait_here();
    }
  }
  return 0;
}

void evl_unlock_stax(struct evl_stax *stax) {
  struct gate *gate = gate_of(stax);
  at_call();
  if (gate->count == 0) fail("a stax is unlocked that nobody holds");
  if (!in_handler()) {
    if (!holds_gate(gate)) fail("T%d unlocks a stax that it hasn't", run->now);
    tasks[run->now].held--;
    tasks[run->now].staxes &= ~(1u << (gate - run->gates));
  }
  gate->count--;
  note_quiet(A_STAX, gate - run->gates, false);
  for (; gate->count == 0 && gate->waiting > 0; gate->waiting--) {
    (void)do_call(caller(), evlsim_call_put((uint16_t)gate->sem));
  }
  go_on();
}
