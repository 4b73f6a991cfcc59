/*
 * Part of evlsim_runner.c: calls that may send an out-of-band thread in-band, as EVL's mode T_WOSS warns of them: by
 * limits.stays_oob each fails the run that an out-of-band thread or handler makes. The system's do nothing else here.
 */

#define CALLED_FROM __builtin_return_address(0)

/* Calls of the test's hardware and of the runner are allowed. */
static void expect_stays(const char *call, const void *from) {
  if (run == NULL || !run->is_on || !kept->limits.stays_oob || run->in_device) return;
  char text[64];
  const struct task *task = &tasks[run->now];
  if (!run->in_oob_handler && (!task->is_oob || task->in_handler)) return;
  run->blamed = from;
  const char *and = run->in_oob_handler ? "" : ", which may send it in-band";
  fail("%s calls %s out-of-band%s", name_of_code(text, sizeof text), call, and);
}

#define INBAND_CALL(type, name, parameters, arguments) \
  type evlsim_##name parameters;                       \
  type evlsim_##name parameters {                      \
    expect_stays(#name, CALLED_FROM);                  \
    return name arguments;                             \
  }
INBAND_CALL(void *, malloc, (size_t size), (size))
INBAND_CALL(void *, calloc, (size_t count, size_t size), (count, size))
INBAND_CALL(void *, realloc, (void *at, size_t size), (at, size))
INBAND_CALL(int, puts, (const char *text), (text))
INBAND_CALL(int, putchar, (int byte), (byte))
INBAND_CALL(int, putc, (int byte, FILE *file), (byte, file))
INBAND_CALL(int, fputc, (int byte, FILE *file), (byte, file))
INBAND_CALL(int, fputs, (const char *text, FILE *file), (text, file))
INBAND_CALL(int, fflush, (FILE *file), (file))
INBAND_CALL(int, fclose, (FILE *file), (file))
INBAND_CALL(FILE *, fopen, (const char *name, const char *mode), (name, mode))
INBAND_CALL(char *, fgets, (char *text, int size, FILE *file), (text, size, file))
INBAND_CALL(size_t, fread, (void *to, size_t size, size_t count, FILE *file), (to, size, count, file))
INBAND_CALL(size_t, fwrite, (const void *from, size_t size, size_t count, FILE *file), (from, size, count, file))

void evlsim_free(void *at);
void evlsim_free(void *at) {
  expect_stays("free", CALLED_FROM);
  free(at);
}

__attribute__((format(printf, 1, 2))) int evlsim_printf(const char *format, ...);
__attribute__((format(printf, 2, 3))) int evlsim_fprintf(FILE *file, const char *format, ...);
__attribute__((format(printf, 1, 0))) int evlsim_vprintf(const char *format, va_list values);
__attribute__((format(printf, 2, 0))) int evlsim_vfprintf(FILE *file, const char *format, va_list values);

int evlsim_printf(const char *format, ...) {
  va_list values;
  expect_stays("printf", CALLED_FROM);
  va_start(values, format);
  int count = vprintf(format, values);
  va_end(values);
  return count;
}

int evlsim_fprintf(FILE *file, const char *format, ...) {
  va_list values;
  expect_stays("fprintf", CALLED_FROM);
  va_start(values, format);
  int count = vfprintf(file, format, values);
  va_end(values);
  return count;
}

int evlsim_vprintf(const char *format, va_list values) {
  expect_stays("vprintf", CALLED_FROM);
  return vprintf(format, values);
}

int evlsim_vfprintf(FILE *file, const char *format, va_list values) {
  expect_stays("vfprintf", CALLED_FROM);
  return vfprintf(file, format, values);
}
