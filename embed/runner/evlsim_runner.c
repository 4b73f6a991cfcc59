/*
 * The runner: a driver's own code over a simulated kernel (evlsim/runner.h, docs/use/DRIVERS.md). It is compiled as one
 * file, beside the driver and without -fsanitize=thread:
 *
 *   cc -c -I INCLUDE -I INCLUDE/evlsim/compat evlsim_runner.c
 *
 * The kernel's answers are the library's. This file is C, tested and not proved. Needs glibc, on x86-64.
 */
#define _GNU_SOURCE
#define EVLSIM_RUNNER
#include <errno.h>
#include <evl/evl.h>
#include <evl/kthread.h>
#include <evl/stax.h>
#include <evl/work.h>
#include <evlsim/runner.h>
#include <fcntl.h>
#include <linux/interrupt.h>
#include <linux/irq_pipeline.h>
#include <linux/irqstage.h>
#include <linux/spinlock.h>
#include <malloc.h>
#include <pthread.h>
#include <signal.h>
#include <stdarg.h>
#include <stdio.h>
#include <stdlib.h>
#include <string.h>
#include <sched.h>
#include <sys/mman.h>
#include <sys/prctl.h>
#include <sys/wait.h>
#include <time.h>
#include <unistd.h>
#include <unwind.h>

/* Valgrind is told of the stacks, where its header is there. */
#if defined(__has_include)
#if __has_include(<valgrind/valgrind.h>)
#include <valgrind/valgrind.h>
#endif
#endif
#ifndef VALGRIND_STACK_REGISTER
#define VALGRIND_STACK_REGISTER(from, to) ((void)0)
#endif

/* What the headers of evlsim/compat lead the system's names to. */
ssize_t evlsim_read(int fd, void *bytes, size_t count);
ssize_t evlsim_write(int fd, const void *bytes, size_t count);
int evlsim_close_fd(int fd);
int evlsim_usleep(unsigned microseconds);
pid_t evlsim_getpid(void);
unsigned evlsim_sleep(unsigned seconds);
int evlsim_nanosleep(const struct timespec *span, struct timespec *left);
int evlsim_clock_nanosleep(clockid_t clock, int flags, const struct timespec *span, struct timespec *left);
int evlsim_clock_gettime(clockid_t clock, struct timespec *date);
int evlsim_pthread_create(pthread_t *thread, const pthread_attr_t *attr, void *(*start)(void *), void *argument);
int evlsim_pthread_join(pthread_t thread, void **value);
int evlsim_pthread_detach(pthread_t thread);
void evlsim_pthread_exit(void *value);
pthread_t evlsim_pthread_self(void);
int evlsim_pthread_setschedparam(pthread_t thread, int policy, const struct sched_param *param);
int evlsim_pthread_setname_np(pthread_t thread, const char *name);
int evlsim_pthread_mutex_lock(pthread_mutex_t *mutex);
int evlsim_pthread_mutex_timedlock(pthread_mutex_t *mutex, const struct timespec *date);
int evlsim_pthread_mutex_trylock(pthread_mutex_t *mutex);
int evlsim_pthread_mutex_unlock(pthread_mutex_t *mutex);

#include "parts/state.c"

/* What is used before it stands. */
__attribute__((noreturn)) static void finish_task(void *value);
static void yield_if_due(void);
static void fire_timer(int number);
static void at_call(void);
static void at_return(void);
static void arrive_raised(void);
static void mend_torn(void);
static void at_idle(void);
static void see_read(const void *at, size_t size);
static void see_write(const void *at, size_t size);
static ssize_t read_timer(int number, void *bytes, size_t count);
static bool is_lock_free(const void *mutex);
__attribute__((noreturn)) static void fail_stuck(void);
static void note_outcome(enum ending ending);
static void *do_works(void *nothing);
static void look_at_refusal(evlsim_call call, evlsim_answer answer);
static void look_at_waits(void);
static uint64_t late_date(uint64_t due);
__attribute__((noreturn)) static void fail_misplaced(void);
static void expect_no_spin(int who, const char *what);
static void begin_jobs(void);
static void end_jobs(void);
static bool explore_by_jobs(void);

#include "parts/coroutines.c"
#include "parts/output.c"
#include "parts/seen.c"
#include "parts/machine.c"
#include "parts/names.c"
#include "parts/schedule.c"
#include "parts/refusals.c"
#include "parts/errors.c"
#include "parts/inband_calls.c"
#include "parts/threads.c"
#include "parts/waits.c"
#include "parts/buffers.c"
#include "parts/locks.c"
#include "parts/inband_locks.c"
#include "parts/clocks.c"
#include "parts/lines.c"
#include "parts/works.c"
#include "parts/kernel_names.c"
#include "parts/footprints.c"
#include "parts/moments.c"
#include "parts/choices.c"
#include "parts/copies.c"
#include "parts/memory.c"
#include "parts/reports.c"
#include "parts/ends.c"
#include "parts/runs.c"
#include "parts/divisions.c"
#include "parts/explorations.c"
#include "parts/jobs.c"
#include "parts/hooks.c"
