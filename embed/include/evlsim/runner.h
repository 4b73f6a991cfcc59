/*
 * Runs a driver's own C or C++ code over a simulated kernel, and tries the moments at which its interrupts may come
 * (docs/use/DRIVERS.md). The driver is written for libevl and the kernel's own calls: it is compiled against the
 * headers of evlsim/compat, and embed/runner/evlsim_runner.c is compiled beside it.
 *
 *   static void body(void) {
 *     driver_init();                                    // evl_new_sem, request_irq, pthread_create ..
 *     evlsim_may_arrive(5, 2, byte_comes, NULL);        // line 5, up to two times, at any moment
 *     evlsim_rest();                                    // until all others wait; nothing comes after it
 *     evlsim_require(driver_received == device_sent);
 *   }
 *   int main(void) { return evlsim_explore(body, NULL); }
 *
 * Each thread is a coroutine. Whoever the kernel picks goes on; in-band threads do while it picks nobody. The body is
 * an in-band thread, T1; T0 is the machine, which makes the calls of handlers and of the clock. The date moves to the
 * next due one when all threads wait. The same body with the same choices has always the same run.
 */
#ifndef EVLSIM_RUNNER_H
#define EVLSIM_RUNNER_H

#include <evlsim.h>

#ifdef __cplusplus
extern "C" {
#endif

#if defined(__GNUC__)
#define EVLSIM_PRINTS(place) __attribute__((format(printf, place, place + 1)))
#else
#define EVLSIM_PRINTS(place)
#endif

/* How far to go; 0 means the value that its comment names. */
typedef struct evlsim_limits {
  uint32_t arrivals; /* how many events of sources a run may have: 2 */
  uint64_t runs;     /* how many runs are made at most: 1,000,000 */
  uint32_t history;  /* how many entries the kernel's history may have: 10,000 */
  uint32_t steps;    /* how many loads, stores and calls a run has before it is said to go on for ever: 1,000,000 */
  uint64_t until;    /* the date, from the start, after which the clock isn't moved any more: none */
  bool goes_on;      /* a run that fails is an outcome, and ends nothing; 1 is returned all the same */
  bool whole;        /* each moment is tried, also those that can't make a difference */
  bool forks;        /* each run in a process of its own; with AddressSanitizer it is so always */
  bool quiet;        /* nothing is printed */
  uint64_t starts;   /* the date that libevl's clocks have at the start, in nanoseconds: 1,999,999,999 */
  bool prints;       /* what driver and test print goes to standard output in each run: else that of the failing run */
  bool in_handlers;  /* hardware works on while an out-of-band handler runs; its interrupts stay pending till that ends */
  bool stays_oob;    /* an out-of-band call of what may send its thread in-band fails the run: printf, malloc, read .. */
  bool refusals_fail; /* Deadlock, NotOwner, WrongStage, Invalid, a thread that isn't attached, Busy at a detach */
  bool nobody_waits; /* a thread that waits when the body ends, and may not by evlsim_may_wait_at_rest, fails the run */
  bool names;        /* a failure's trace has the names of threads and elements, and each lock that makes no entry */
  uint32_t part;     /* which of `parts` parts of all lists is tried, 1 to parts; also by EVLSIM_PART=3/16 */
  uint32_t parts;    /* in how many parts: 1, at most 65,536 */
  uint32_t jobs;     /* in how many processes lists are run: 1, at most 256; not if `prints` is set */
} evlsim_limits;

/* For limits.jobs: as many processes as this one may have processors. */
#define EVLSIM_ALL_PROCESSORS UINT32_MAX

/* What came of an exploration. */
typedef struct evlsim_explored {
  uint64_t runs;     /* how many runs were made, those included that were made again */
  uint64_t lists;    /* how many lists of events were tried */
  uint64_t left_out; /* how many moments of these lists were left out, since the one after them gives the same */
  uint64_t steps;    /* loads, stores and calls in all runs */
  uint32_t outcomes; /* how many outcomes there were: evlsim_outcome */
  uint32_t rounds;   /* how often it began again, because a handler was seen to touch more */
  bool failed;
  bool is_cut;       /* limits.runs were made, or more lists noted than there is room for */
  bool sees_accesses; /* whether all loads and stores were seen, or of some handler or thread its calls alone */
  uint64_t not_tried; /* moments within out-of-band handlers, which only limits.in_handlers tries */
  uint64_t waited;   /* lists at whose end a thread waited, and nothing said that it may */
  uint64_t others;   /* runs of lists that count in other parts, for those that they lead to and what events touch */
  uint64_t touched;  /* a sum of all places that events were seen to touch: if all parts have the same, they are all
                        lists; with limits.whole 0 */
} evlsim_explored;

/*
 * Runs the body once, with no event of a source, and reports how it failed if it did: 0 or 1, for main. evlsim_explore
 * runs it again and again, each time with another list of events, fewest first. `limits` may be null.
 * evlsim_replay runs it with one list, as a failure names it: "line 5 @ 31, clock @ 40". Where a line has more than
 * one source, that has the name of its device, as line 5 [frame_is_bad] @ 31, or, if that is none or another has it
 * too, its place among them, as line 5 [2] @ 31.
 *
 * With EVLSIM_REPLAY=".." in the environment, evlsim_explore replays that, with its limits of a run (history, steps,
 * until, starts, and all that may fail it). EVLSIM_FOLDER is where the scenario and the picture of a failure go, else the current one.
 */
#define evlsim_test(body) evlsim_test_as(body, #body)
#define evlsim_explore(body, limits) evlsim_explore_as(body, #body, limits, NULL)
#define evlsim_replay(body, choices) evlsim_replay_as(body, #body, choices)
int evlsim_test_as(void (*body)(void), const char *name);
int evlsim_explore_as(void (*body)(void), const char *name, const evlsim_limits *limits, evlsim_explored *explored);
int evlsim_replay_as(void (*body)(void), const char *name, const char *choices);

/* For evlsim/runner.hpp: the next body is an object, so a failure prints its list in a call of evlsim::replay. */
void evlsim_body_is_nameless(void);

/* The outcomes of the last exploration, each with how many lists led there and the first of them; null past the end. */
const char *evlsim_outcome(uint32_t place, uint64_t *lists, const char **choices);

/* What follows is for the body and the driver's test, while it runs. */

/*
 * Sources of events, which may come at any moment from here on, each up to `times` times in a run: an interrupt on a
 * line, before which `device` is called, if it isn't null, to do what the hardware does; the clock's move to the next
 * due date while threads compute; another in-band thread's turn, unless interrupts are off. A call with the same line,
 * device and `it` as one before adds its times to that source. The macro hands on how the device is written.
 */
void evlsim_may_arrive(unsigned line, unsigned times, void (*device)(void *it), void *it);
void evlsim_may_arrive_as(const char *arguments, unsigned line, unsigned times, void (*device)(void *it), void *it);
#define evlsim_may_arrive(line, times, ...) evlsim_may_arrive_as(#__VA_ARGS__, line, times, __VA_ARGS__)
void evlsim_may_pass(unsigned times);
void evlsim_may_switch(unsigned times);

/* A number below `answers` (1 to 256): 0, and in further lists each other one, as an event: "choice 2 @ 9". For hardware
   that may do one thing or another, and for the test. */
unsigned evlsim_choose(unsigned answers);

/* From here on what is due when all threads wait, timers, deadlines and sleeps, may come late, by up to so many
   nanoseconds: at each next due date before that, and just then. As an event: "late 1 @ 9". */
void evlsim_may_be_late(uint64_t nanoseconds);

/* Waits until all others wait, while events of sources may come; the date stays, so no deadline passes. evlsim_rest then
   closes the sources, and waits until all others wait again. */
void evlsim_settle(void);
void evlsim_rest(void);

/* Fails the run unless a thread waits for an element, by the number that libevl gave for it or for a thread, or for
   anything. Says, too, that it may wait when the body ends; the second call says that alone. */
#define EVLSIM_ANY_ELEMENT (-1)
#define evlsim_require_waits(thread, element) evlsim_require_waits_at((int)(thread), element, __FILE__, __LINE__)
void evlsim_require_waits_at(int thread, int element, const char *file, int line);
void evlsim_may_wait_at_rest(int thread);
#define evlsim_may_wait_at_rest(thread) evlsim_may_wait_at_rest((int)(thread))

/* An interrupt on a line, now. */
void evlsim_arrive(unsigned line);

/* Sleeps for so many nanoseconds, or computes for so many. */
void evlsim_pass(uint64_t nanoseconds);
void evlsim_compute(uint64_t nanoseconds);

/* An in-band thread of the bench, and the wait for its end. */
int evlsim_thread(void (*run)(void *it), void *it, const char *name);
void evlsim_join(int thread);

/* A callback of the kernel's bank on a line, with no handler in C: 1 puts semaphore 0 (docs/use/SCENARIOS.md). */
int evlsim_request(unsigned line, bool is_oob, uint8_t callback);

/* Makes a quota group of so many percent and returns its number, for evl_sched_attrs. */
int evlsim_quota_group(uint8_t percent);

/* Adds to what the outcome of this run is; fails the run. */
EVLSIM_PRINTS(1) void evlsim_say(const char *format, ...);
EVLSIM_PRINTS(1) void evlsim_fail(const char *format, ...);
#define evlsim_require(holds) \
  ((holds) ? (void)0 : evlsim_fail("%s:%d: not so: %s", __FILE__, __LINE__, #holds))

/* The kernel of this run, for evlsim_see_now and its like, and the thread that runs. */
evlsim_kernel *evlsim_running(void);
int evlsim_self(void);

/*
 * Before each run, and when evlsim_test or evlsim_explore returns, the program's variables are as they were when it was
 * called. One that is to keep its value, as a count of runs, is declared with EVLSIM_KEPT and a value: static long runs
 * EVLSIM_KEPT = 0; Where each run has a process of its own it doesn't.
 */
#define EVLSIM_KEPT __attribute__((section("evlsim_kept")))

#ifdef __cplusplus
}
#endif
#endif
