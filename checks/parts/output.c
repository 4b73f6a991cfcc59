/* What driver and test print, in an exploration or a single run: output KIND. checks/drivers compares it. */
#include <evl/evl.h>
#include <evlsim/runner.h>
#include <linux/interrupt.h>
#include <pthread.h>
#include <stdio.h>
#include <stdlib.h>
#include <string.h>
#include <unistd.h>

static struct evl_sem sem;
static int got;

static irqreturn_t on_line(int irq, void *device) {
  (void)irq, (void)device;
  evl_put_sem(&sem);
  return IRQ_HANDLED;
}

static void *receive(void *it) {
  evl_attach_self("receiver");
  while (evl_get_sem(&sem) == 0) evl_printf("got %d\n", ++got);
  return it;
}

static void come(unsigned times) {
  pthread_t thread;
  evl_new_sem(&sem, "sem");
  request_irq(5, on_line, IRQF_OOB, "line", NULL);
  pthread_create(&thread, NULL, receive, NULL);
  evlsim_settle();
  printf("body\n");
  evlsim_may_arrive(5, times, NULL, NULL);
  evlsim_rest();
  fflush(stdout);
  (void)!write(STDOUT_FILENO, "end\n", 4);
}

static void passes(void) { come(1); }
static void fails(void) {
  come(2);
  evlsim_require(got < 2);
}
/* What is told of an exploration whose first list fails, also where its handler has touched something new. */
static irqreturn_t on_count(int irq, void *device) {
  (void)irq, (void)device;
  got++;
  return IRQ_HANDLED;
}
static void fails_at_once(void) {
  request_irq(5, on_count, IRQF_OOB, "line", NULL);
  evlsim_may_arrive(5, 1, NULL, NULL);
  evlsim_arrive(5);
  evlsim_fail("at once");
}
static void crashes(void) {
  come(1);
  if (got == 1) abort();
}

int main(int count, char **words) {
  const char *kind = count == 2 ? words[1] : "";
  evlsim_limits limits = {.quiet = strcmp(kind, "quiet") == 0, .prints = strcmp(kind, "prints") == 0};
  limits.goes_on = strcmp(kind, "goes_on") == 0;
  limits.forks = strcmp(kind, "forks") == 0 || strcmp(kind, "lost") == 0;
  printf("before\n");
  if (strcmp(kind, "test") == 0) {
    (void)evlsim_test(passes);
  } else if (strcmp(kind, "at_once") == 0) {
    (void)evlsim_explore(fails_at_once, &limits);
  } else if (strcmp(kind, "crashes") == 0 || strcmp(kind, "lost") == 0) {
    (void)evlsim_explore(crashes, &limits);
  } else {
    (void)evlsim_explore_as(strcmp(kind, "passes") == 0 || limits.prints ? passes : fails, "output", &limits, NULL);
  }
  printf("after\n");
  return 0;
}
