/*
 * Part of evlsim_runner.c: cross-buffers, by out-of-band and in-band calls.
 */

int evl_create_xbuf(size_t in_size, size_t out_size, int flags, const char *format, ...) {
  expect_run("evl_create_xbuf");
  if (in_size == 0 || in_size > 256 || out_size == 0 || out_size > 256) return invalid();
  unsigned place = run->made.xbufs;
  evlsim_rings rings = {(uint16_t)in_size, (uint16_t)out_size};
  bool is_same = place < run->opened.xbufs && run->opened.rings[place].in_size == rings.in_size &&
                 run->opened.rings[place].out_size == rings.out_size;
  if (place < XBUFS) kept->known.rings[place] = rings;
  int number = note_element(&run->made.xbufs, &kept->known.xbufs, run->opened.xbufs, XBUFS, is_same);
  if (number < 0) return -EMFILE;
  va_list values;
  va_start(values, format);
  note_name(AN_XBUF, number, format, values);
  va_end(values);
  run->blocks[number] = (flags & EVL_CLONE_NONBLOCK) == 0;
  return fd_of(FD_XBUF, number);
}

/* A cross-buffer that was made in this run, or -1. */
static int xbuf_of(int fd) {
  int number = number_of(fd, FD_XBUF);
  if (run == NULL || !run->is_on) return -1;
  return number < (int)run->made.xbufs ? number : -1;
}

static uint16_t most_of(size_t count) { return (uint16_t)(count < 256 ? count : 256); }

static ssize_t told_bytes(evlsim_answer answer) {
  return with_errno(error_of(answer), evlsim_has(answer, EVLSIM_BYTES) ? (ssize_t)answer.number : 0);
}

/* What a read brings goes into the reader's own memory here, so that an exploration sees it. */
static ssize_t read_out_of_band(int xbuf, void *bytes, size_t count) {
  uint8_t got[256];
  int error = run->blocks[xbuf] ? go_oob() : 0;
  if (error != 0) return with_errno(error, -1);
  uint16_t most = most_of(count);
  struct transfer to = {NULL, 0, got, most};
  evlsim_answer answer =
      run->blocks[xbuf]
          ? wait_in_core(evlsim_call_begin_read((uint16_t)xbuf, EVLSIM_IN, most), NEVER, to)
          : call_bytes(evlsim_call_read((uint16_t)xbuf, EVLSIM_IN, most), NULL, 0, got, most);
  ssize_t length = told_bytes(answer);
  if (length > 0) see_write(bytes, (size_t)length), memcpy(bytes, got, (size_t)length);
  return length;
}

ssize_t oob_read(int efd, void *bytes, size_t count) {
  expect_run("oob_read");
  int timer = number_of(efd, FD_TIMER);
  if (timer >= 0) return read_timer(timer, bytes, count);
  int xbuf = xbuf_of(efd);
  return xbuf < 0 ? with_errno(-EBADF, -1) : read_out_of_band(xbuf, bytes, count);
}

ssize_t oob_write(int efd, const void *bytes, size_t count) {
  expect_run("oob_write");
  int xbuf = xbuf_of(efd);
  if (xbuf < 0) return with_errno(-EBADF, -1);
  if (count > 256) return with_errno(-EFBIG, -1);
  int error = run->blocks[xbuf] && !in_handler() ? go_oob() : 0;
  if (error != 0) return with_errno(error, -1);
  uint8_t copy[256];
  see_read(bytes, count), memcpy(copy, bytes, count);
  struct transfer from = {copy, count, NULL, 0};
  evlsim_answer answer =
      run->blocks[xbuf] && !in_handler()
          ? wait_in_core(evlsim_call_begin_write((uint16_t)xbuf, EVLSIM_OUT), NEVER, from)
          : call_bytes(evlsim_call_write((uint16_t)xbuf, EVLSIM_OUT), copy, count, NULL, 0);
  return with_errno(error_of(answer), (ssize_t)count);
}

/* Before a call in-band: a thread that can't go on waits outside of the core, so it needn't be attached. Another may
   take what it waited for before it goes on; then it waits again. No moment follows the last look. */
static void wait_inband(enum awaited awaits, int xbuf, size_t needs) {
  struct task *task = &tasks[run->now];
  open_kernel();
  at_call();
  do {
    task->awaits = awaits;
    task->target = xbuf;
    task->needs = (unsigned)needs;
    wait_here();
    at_call();
  } while (awaits == BYTES ? !has_bytes(xbuf) : !has_room(xbuf, (unsigned)needs));
}

/* Before a call in-band at a buffer: what it needs is there, if it waits for that. */
static void begin_inband(enum awaited awaits, int xbuf, size_t needs) {
  if (run->blocks[xbuf] && needs > 0 && !in_handler()) {
    wait_inband(awaits, xbuf, needs);
  } else {
    at_call();
  }
}

ssize_t evlsim_read(int fd, void *bytes, size_t count) {
  expect_stays("read", CALLED_FROM);
  int xbuf = xbuf_of(fd);
  if (xbuf < 0) return read(fd, bytes, count);
  go_inband();
  uint8_t got[256];
  begin_inband(BYTES, xbuf, count > 0 ? 1 : 0);
  evlsim_call call = evlsim_call_read((uint16_t)xbuf, EVLSIM_OUT, most_of(count));
  evlsim_answer answer = do_bytes(caller(), call, NULL, 0, got, sizeof got);
  go_on();
  ssize_t length = told_bytes(answer);
  if (length > 0) see_write(bytes, (size_t)length), memcpy(bytes, got, (size_t)length);
  return length;
}

ssize_t evlsim_write(int fd, const void *bytes, size_t count) {
  expect_stays("write", CALLED_FROM);
  int xbuf = xbuf_of(fd);
  if (xbuf < 0) return write(fd, bytes, count);
  go_inband();
  bool fits = count <= kept->known.rings[xbuf].in_size;
  if (!fits) return with_errno(-EFBIG, -1);
  uint8_t copy[256];
  see_read(bytes, count), memcpy(copy, bytes, count);
  begin_inband(ROOM, xbuf, count);
  evlsim_answer answer = do_bytes(caller(), evlsim_call_write((uint16_t)xbuf, EVLSIM_IN), copy, count, NULL, 0);
  go_on();
  return with_errno(error_of(answer), (ssize_t)count);
}

int evlsim_close_fd(int fd) {
  expect_stays("close", CALLED_FROM);
  if (fd < FIRST_FD || fd >= FIRST_FD + 256 * 8) return close(fd);
  return 0;
}
