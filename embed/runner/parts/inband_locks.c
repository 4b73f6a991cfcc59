/*
 * Part of evlsim_runner.c: pthread_mutex_t between the threads of a run, in glibc's own fields. The system's calls
 * would take all of them for one thread, which may lock a recursive mutex once more. C++ code may name calls that the
 * runner hasn't: they fail the run.
 */

enum { FIRST_OWNER = 1 << 24, KINDS = 3, MOST_DEPTH = 1 << 16 }; /* owners are no number of a thread of the system */

static bool is_checked(const pthread_mutex_t *mutex) {
  int kind = mutex->__data.__kind & KINDS;
  return kind == PTHREAD_MUTEX_RECURSIVE || kind == PTHREAD_MUTEX_ERRORCHECK;
}

static bool is_lock_free(const void *mutex) { return ((const pthread_mutex_t *)mutex)->__data.__lock == 0; }

/* Takes a mutex for the task that runs: EBUSY where it would have to wait. */
static int take_lock(pthread_mutex_t *mutex) {
  int kind = mutex->__data.__kind & KINDS, own = FIRST_OWNER + run->now;
  if (is_lock_free(mutex)) {
    mutex->__data.__lock = 1;
    mutex->__data.__owner = own;
    mutex->__data.__count = 1;
    tasks[run->now].locks++;
    return 0;
  }
  if (mutex->__data.__owner != own || !is_checked(mutex)) return EBUSY;
  if (kind == PTHREAD_MUTEX_ERRORCHECK) return EDEADLK;
  if (mutex->__data.__count == MOST_DEPTH) return EAGAIN;
  mutex->__data.__count++;
  return 0;
}

static int lock_inband(pthread_mutex_t *mutex, uint64_t date) {
  int error;
  if (in_handler()) fail("a handler locks a mutex");
  go_inband();
  at_call();
  while ((error = take_lock(mutex)) == EBUSY) {
    if (run->date >= date) return ETIMEDOUT;
    tasks[run->now].awaits = A_LOCK;
    tasks[run->now].wanted = mutex;
    tasks[run->now].date = date;
    wait_here();
    tasks[run->now].date = NEVER;
  }
  return error;
}

int evlsim_pthread_mutex_lock(pthread_mutex_t *mutex) {
  expect_stays("pthread_mutex_lock", CALLED_FROM);
  return run == NULL || !run->is_on ? pthread_mutex_lock(mutex) : lock_inband(mutex, NEVER);
}

int evlsim_pthread_mutex_timedlock(pthread_mutex_t *mutex, const struct timespec *date) {
  uint64_t until;
  expect_stays("pthread_mutex_timedlock", CALLED_FROM);
  if (run == NULL || !run->is_on) return pthread_mutex_timedlock(mutex, date);
  return read_point(date, &until) ? lock_inband(mutex, until) : EINVAL;
}

int evlsim_pthread_mutex_trylock(pthread_mutex_t *mutex) {
  if (run == NULL || !run->is_on) return pthread_mutex_trylock(mutex);
  at_call();
  int error = take_lock(mutex);
  return error == EDEADLK ? EBUSY : error;
}

int evlsim_pthread_mutex_unlock(pthread_mutex_t *mutex) {
  if (run == NULL || !run->is_on) return pthread_mutex_unlock(mutex);
  at_call();
  int owner = mutex->__data.__owner - FIRST_OWNER;
  if (is_checked(mutex) && (is_lock_free(mutex) || owner != run->now)) return EPERM;
  if (is_lock_free(mutex) || --mutex->__data.__count > 0) return 0;
  mutex->__data.__lock = mutex->__data.__owner = 0;
  if (owner >= 0 && owner < TASKS) tasks[owner].locks--;
  return 0;
}

/* Names of C++'s own headers; a C source that has one isn't compiled. */
#define NOT_HERE(name, parameters, why)             \
  int evlsim_##name parameters;                     \
  int evlsim_##name parameters {                    \
    expect_run(#name);                              \
    fail("the runner has no " #name ": " why);      \
  }
#define NO_CONDITIONS "use a semaphore or a flag group"
NOT_HERE(pthread_cond_wait, (void), NO_CONDITIONS)
NOT_HERE(pthread_cond_timedwait, (void), NO_CONDITIONS)
NOT_HERE(pthread_mutex_clocklock, (void), "use pthread_mutex_timedlock")
NOT_HERE(pthread_cancel, (void), "let the thread look at a flag")
