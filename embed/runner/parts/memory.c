/*
 * Part of evlsim_runner.c: the program's variables, which are before each run as they were before the first.
 */

extern char __start_evlsim_kept[] __attribute__((weak));
extern char __stop_evlsim_kept[] __attribute__((weak));

static char *variables;

/* Copies without a look at what is being copied: variables are apart from each other where a sanitizer looks. */
__attribute__((no_sanitize("address", "thread"))) static void copy_bytes(char *to, const char *from, size_t size) {
#if defined(__x86_64__)
  __asm__ volatile("rep movsb" : "+D"(to), "+S"(from), "+c"(size) : : "memory");
#else
  for (volatile char *at = to; size > 0; size--) *at++ = *from++;
#endif
}

/* The variables that keep their values lie between two places; there may be none. */
static size_t begin_of_kept(size_t size) {
  return __start_evlsim_kept == NULL ? size : (size_t)(__start_evlsim_kept - __data_start);
}
static size_t end_of_kept(size_t size) {
  return __stop_evlsim_kept == NULL ? size : (size_t)(__stop_evlsim_kept - __data_start);
}

static void keep_variables(void) {
  size_t size = (size_t)(_end - __data_start);
  if (__data_start == NULL || _end == NULL) return;
  variables = pages(size, MAP_PRIVATE);
  copy_bytes(variables, __data_start, size);
}

static void restore_variables(void) {
  size_t size = (size_t)(_end - __data_start);
  size_t from = begin_of_kept(size), to = end_of_kept(size);
  char *saved = variables;
  copy_bytes(__data_start, saved, from);
  copy_bytes(__data_start + to, saved + to, size - to);
}

/* How many bytes this process has that it shares with no other; what is kept isn't among them. */
static size_t own_memory(void) {
  unsigned long all = 0, shared = 0;
  FILE *file = fopen("/proc/self/statm", "r");
  if (file == NULL) return 0;
  bool is_read = fscanf(file, "%*u %lu %lu", &all, &shared) == 2;
  fclose(file);
  return is_read ? (all - shared) * (size_t)sysconf(_SC_PAGESIZE) : 0;
}

static void drop_variables(void) {
  munmap(variables, (size_t)(_end - __data_start));
  variables = NULL;
}
