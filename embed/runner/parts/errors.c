/*
 * Part of evlsim_runner.c: which refusal of the kernel is which errno (docs/use/DRIVER_CALLS.md has the table).
 */
static int error_of(evlsim_answer answer) {
  if (evlsim_is_timed_out(answer)) return -ETIMEDOUT;
  if (!evlsim_is_refused(answer)) return 0;
  switch (answer.refusal.number) {
    case EVLSIM_REFUSAL_NUMBER_UNKNOWN: return -EBADF;
    case EVLSIM_REFUSAL_NUMBER_INVALID: return -EINVAL;
    case EVLSIM_REFUSAL_NUMBER_AGAIN: return -EAGAIN;
    case EVLSIM_REFUSAL_NUMBER_BUSY: return -EBUSY;
    case EVLSIM_REFUSAL_NUMBER_NOT_OWNER: return -EPERM;
    case EVLSIM_REFUSAL_NUMBER_DEADLOCK: return -EDEADLK;
    case EVLSIM_REFUSAL_NUMBER_LIMIT: return -EMFILE;
    case EVLSIM_REFUSAL_NUMBER_RANGE: return -EOVERFLOW;
    case EVLSIM_REFUSAL_NUMBER_TOO_BIG: return -EFBIG;
    case EVLSIM_REFUSAL_NUMBER_WRONG_STAGE: return -EPERM;
    default: return -EINVAL;
  }
}

/* As libevl's oob_read and oob_write end: -1 with errno, or how many bytes. */
static ssize_t with_errno(int error, ssize_t count) {
  if (error == 0) return count;
  errno = -error;
  return -1;
}

/* A date in nanoseconds; false where it is none. */
static bool read_date(const struct timespec *it, uint64_t *date) {
  if (it == NULL || it->tv_sec < 0 || it->tv_nsec < 0 || it->tv_nsec >= 1000000000) return false;
  *date = (uint64_t)it->tv_sec * 1000000000u + (uint64_t)it->tv_nsec;
  return true;
}

/* A date of the driver's clocks as one of the kernel's, which begins at 0: what lies before that is past. */
static uint64_t since_start(uint64_t date) { return date > kept->limits.starts ? date - kept->limits.starts : 0; }

static bool read_point(const struct timespec *it, uint64_t *date) {
  if (!read_date(it, date)) return false;
  *date = since_start(*date);
  return true;
}

/* The deadline of a wait: a date of 0 is none, as libevl has it. */
static bool read_deadline(const struct timespec *it, uint64_t *date) {
  if (!read_date(it, date)) return false;
  *date = *date == 0 ? NEVER : since_start(*date);
  return true;
}

/* The date of a timer's first fire, after 0 in the kernel. */
static uint64_t first_fire(uint64_t date) {
  uint64_t since = since_start(date);
  return since == 0 ? 1 : since;
}

static void write_date(uint64_t date, struct timespec *it) {
  it->tv_sec = (time_t)(date / 1000000000u);
  it->tv_nsec = (long)(date % 1000000000u);
}

/* A date of the kernel as the driver's clocks have it. */
static void write_point(uint64_t date, struct timespec *it) { write_date(date + kept->limits.starts, it); }
