/*
 * Calls that may send an out-of-band thread in-band: by limits.stays_oob each fails the run that makes one out-of-band,
 * in a thread or in a handler, and none otherwise. Prints what isn't so.
 */
#define _GNU_SOURCE
#include <evl/evl.h>
#include <evlsim/runner.h>
#include <linux/interrupt.h>
#include <pthread.h>
#include <stdio.h>
#include <stdlib.h>
#include <string.h>
#include <time.h>
#include <unistd.h>

static pthread_mutex_t mutex = PTHREAD_MUTEX_INITIALIZER;
static const struct timespec soon = {0, 1000};
static struct timespec later = {3, 0};
static char text[8];
static int buffer;
static void *volatile memory;
static FILE *file;

static void *end(void *it) { return it; }
static void starts(void) {
  pthread_t thread;
  pthread_create(&thread, NULL, end, NULL);
}
static void joins(void) { (void)pthread_join(1, NULL); }
static void locks(void) { (void)pthread_mutex_lock(&mutex); }
static void locks_till(void) { (void)pthread_mutex_timedlock(&mutex, &later); }
static void names(void) { (void)pthread_setname_np(pthread_self(), "name"); }
static void prints(void) { printf("a line\n"); }
static void prints_number(void) { printf("%d", buffer); }
static void prints_to(void) { fprintf(file, "%s", text); }
static void prints_line(void) { puts(text); }
static void prints_byte(void) { putchar('\n'); }
static void puts_text(void) { fputs("text", file); }
static void flushes(void) { fflush(file); }
static void takes(void) { memory = malloc(8); }
static void takes_zeros(void) { memory = calloc(2, 4); }
static void takes_more(void) { memory = realloc(memory, 16); }
static void gives_back(void) { free(memory), memory = NULL; }
static void reads(void) { (void)!read(-1, text, 1); }
static void writes(void) { (void)!write(buffer, text, 1); }
static void writes_file(void) { fwrite(text, 1, 1, file); }
static void closes(void) { (void)close(-1); }
static void sleeps(void) { usleep(1); }
static void sleeps_long(void) { sleep(1); }
static void sleeps_short(void) { nanosleep(&soon, NULL); }
static void asks(void) { (void)getpid(); }

static const struct {
  const char *call;
  void (*make)(void);
} calls[] = {{"pthread_create", starts}, {"pthread_join", joins},   {"pthread_mutex_lock", locks},
             {"pthread_mutex_timedlock", locks_till}, {"pthread_setname_np", names},
             {"printf", prints},         {"printf", prints_number}, {"fprintf", prints_to},
             {"puts", prints_line},      {"putchar|putc", prints_byte},  {"fputs", puts_text},
             {"fflush", flushes},        {"malloc", takes},         {"calloc", takes_zeros},
             {"realloc", takes_more}, {"free", gives_back},       {"read", reads},           {"write", writes},
             {"fwrite", writes_file},    {"close", closes},         {"usleep", sleeps},
             {"sleep", sleeps_long},     {"nanosleep", sleeps_short}, {"getpid", asks}};
enum { CALLS = sizeof calls / sizeof *calls };
static unsigned which EVLSIM_KEPT = 0;

static void begin(void) {
  buffer = evl_new_xbuf(16, "buffer");
  file = tmpfile();
}

static void *call_oob(void *it) {
  evl_attach_self("caller");
  calls[which].make();
  return it;
}
static void thread_calls(void) {
  pthread_t thread;
  begin();
  pthread_create(&thread, NULL, call_oob, NULL);
  evlsim_settle();
}

static irqreturn_t on_line(int irq, void *device) {
  (void)irq, (void)device;
  calls[which].make();
  return IRQ_HANDLED;
}
static void handler_calls(void) {
  begin();
  request_irq(5, on_line, IRQF_OOB, "line", NULL);
  evlsim_arrive(5);
}

/* Allowed are calls of in-band threads and of hardware, and those that stay. */
static void *stay(void *it) {
  struct timespec date;
  evl_attach_self("stays");
  evl_printf("%s", "");
  evl_read_clock(EVL_CLOCK_MONOTONIC, &date);
  evl_usleep(1);
  if (evl_switch_inband() == 0) calls[which].make();
  (void)pthread_mutex_unlock(&mutex);
  return it;
}
static irqreturn_t on_nothing(int irq, void *device) {
  (void)irq, (void)device;
  return IRQ_HANDLED;
}
static void print_nothing(void *it) { printf("%s", (const char *)it); }
static void allowed(void) {
  pthread_t thread;
  begin();
  request_irq(5, on_nothing, IRQF_OOB, "line", NULL);
  evlsim_may_arrive(5, 1, print_nothing, text);
  pthread_create(&thread, NULL, stay, NULL);
  if (calls[which].make != joins) pthread_join(thread, NULL);
  evl_attach_self("main");
  evlsim_join((int)thread);
}

static bool holds(bool it, const char *what, const char *more) {
  if (!it) printf("not so: %s: %s\n", what, more);
  return it;
}

/* Whether a body's first run fails, with this text. */
static bool fails(void (*body)(void), bool stays_oob, const char *wanted) {
  evlsim_limits limits = {.quiet = true, .stays_oob = stays_oob};
  bool failed = evlsim_explore_as(body, "stays_oob", &limits, NULL) != 0;
  const char *outcome = evlsim_outcome(0, NULL, NULL);
  return failed && outcome != NULL && strstr(outcome, wanted) != NULL;
}

int main(int count, char **words) {
  bool well = true;
  char wanted[128];
  if (count > 1 && strcmp(words[1], "report") == 0) {
    evlsim_limits limits = {.stays_oob = true};
    for (which = 0; which < CALLS && strcmp(calls[which].call, "malloc") != 0;) which++;
    return evlsim_explore(thread_calls, &limits);
  }
  for (which = 0; which < CALLS; which++) {
    const char *call = calls[which].call;
    bool is_either = strchr(call, '|') != NULL; /* a macro of the library's may be another call */
    snprintf(wanted, sizeof wanted, "caller calls %s%s", is_either ? "put" : call, is_either ? "" : " out-of-band");
    well = holds(fails(thread_calls, true, wanted), "a thread's call fails", call) && well;
    snprintf(wanted, sizeof wanted, "handler of line 5 calls %s", is_either ? "put" : call);
    well = holds(fails(handler_calls, true, wanted), "a handler's call fails", call) && well;
    well = holds(!fails(thread_calls, false, "out-of-band"), "without the limit no call fails", call) && well;
    if (calls[which].make == joins) continue;
    well = holds(!fails(allowed, true, ""), "calls in-band, and those that stay, pass", call) && well;
  }
  return well ? EXIT_SUCCESS : EXIT_FAILURE;
}
