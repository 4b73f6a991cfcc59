/*
 * Structs that are copied while an interrupt writes or reads them: a torn copy has to be found, and what is kept whole
 * by a count has to pass. Prints what isn't so. It is compiled with -fsanitize=thread; clang doesn't call in for a
 * struct's copy before its version 15.
 */
#include <evl/evl.h>
#include <evlsim/runner.h>
#include <linux/interrupt.h>
#include <stdio.h>
#include <string.h>

struct numbers {
  long first, second, third;
};
static struct numbers now, copy, written;
static volatile unsigned count;
static bool was_torn;

static irqreturn_t on_line(int irq, void *device) {
  (void)irq, (void)device;
  count++;
  now.first++, now.second++, now.third++;
  count++;
  if (written.first != written.second || written.second != written.third) was_torn = true;
  return IRQ_HANDLED;
}

static void begin(void) {
  request_irq(5, on_line, IRQF_OOB, "line", NULL);
  evlsim_may_arrive(5, 1, NULL, NULL);
}

static bool is_whole(const struct numbers *it) { return it->first == it->second && it->second == it->third; }

static void by_struct(void) {
  begin();
  copy = now;
  evlsim_require(is_whole(&copy));
}
__attribute__((noinline)) static struct numbers numbers(void) { return now; }
static void by_value(void) {
  begin();
  struct numbers own = numbers();
  evlsim_require(is_whole(&own));
}
static void by_memcpy(void) {
  begin();
  volatile size_t size = sizeof copy;
  memcpy(&copy, &now, size);
  evlsim_require(is_whole(&copy));
}
static void by_memmove(void) {
  begin();
  volatile size_t size = sizeof copy;
  memmove(&copy, &now, size);
  evlsim_require(is_whole(&copy));
}
static void written_by_memcpy(void) {
  static const struct numbers ones = {1, 1, 1};
  begin();
  volatile size_t size = sizeof ones;
  memcpy(&written, &ones, size);
  evlsim_require(!was_torn);
}
static void written_by_memset(void) {
  begin();
  volatile size_t size = sizeof written;
  memset(&written, 1, size);
  evlsim_require(!was_torn);
}

/* Copied again as long as something came between. */
static void by_count(void) {
  unsigned before;
  begin();
  do {
    before = count;
    copy = now;
  } while (before % 2 != 0 || before != count);
  evlsim_require(is_whole(&copy));
  evlsim_rest();
  evlsim_require(now.first == (long)count / 2 && is_whole(&now));
}

/* Long copies are a few steps each, so that many of them are no endless loop. */
static void often(void) {
  static char from[1 << 16], to[1 << 16];
  begin();
  volatile size_t size = sizeof from;
  for (int each = 0; each < 500; each++) memcpy(to, from, size), memset(from, each, size);
  evlsim_require(to[0] == to[size - 1]);
}

static bool ends(void (*body)(void), const char *name, bool fails) {
  evlsim_limits limits = {.quiet = true};
  bool has_failed = evlsim_explore_as(body, name, &limits, NULL) != 0;
  if (has_failed != fails) printf("not so: %s %s\n", name, fails ? "fails" : "passes");
  return has_failed == fails;
}

int main(void) {
  bool well = true;
#if !defined(__clang__)
  well = well && ends(by_struct, "a struct's copy", true) && ends(by_value, "a struct that is returned", true);
#else
  (void)by_struct, (void)by_value;
#endif
  well = well && ends(by_memcpy, "memcpy", true) && ends(by_memmove, "memmove", true);
  well = well && ends(written_by_memcpy, "memcpy into what is read", true);
  well = well && ends(written_by_memset, "memset of what is read", true);
  well = well && ends(by_count, "a copy with a count", false);
  well = well && ends(often, "many long copies", false);
  return well ? 0 : 1;
}
