/*
 * Part of evlsim_runner.c: what the driver and its test print in an exploration. It is kept run by run, and only that
 * of the run that fails goes to the program's standard output.
 */

/* From here on standard output is a file of our own; where that can't be had all is printed. */
static void keep_output(void) {
  if (kept->limits.prints) return;
  fflush(stdout);
  int own = memfd_create("evlsim_output", MFD_CLOEXEC);
  int before = own < 0 ? -1 : fcntl(STDOUT_FILENO, F_DUPFD_CLOEXEC, 0);
  if (before >= 0 && dup2(own, STDOUT_FILENO) >= 0) kept->output = before, kept->is_output_kept = true;
  if (own >= 0) close(own);
}

/* At the beginning of a run: what those before it have printed goes. */
static void drop_output(void) {
  if (!kept->is_output_kept) return;
  fflush(stdout);
  if (lseek(STDOUT_FILENO, 0, SEEK_CUR) <= 0) return;
  if (ftruncate(STDOUT_FILENO, 0) == 0) lseek(STDOUT_FILENO, 0, SEEK_SET);
}

/* What the run that failed has printed. */
static void print_output(void) {
  char part[4096];
  if (!kept->is_output_kept) return;
  fflush(stdout);
  ssize_t length = 0;
  for (off_t from = 0; (length = pread(STDOUT_FILENO, part, sizeof part, from)) > 0; from += length) {
    if (write(kept->output, part, (size_t)length) != length) return;
  }
}

static void restore_output(void) {
  drop_output();
  if (kept->is_output_kept && dup2(kept->output, STDOUT_FILENO) >= 0) close(kept->output);
  kept->is_output_kept = false;
}
