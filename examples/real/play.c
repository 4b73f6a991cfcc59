/*
 * Plays a scenario's steps with real threads, by libevl's calls, and prints a trace of what they were answered:
 *
 *   play FILE
 *
 * On a machine with the EVL core: cc play.c $(pkg-config --cflags --libs evl) -lpthread, and run it as root. Nobody has
 * done that yet. Over the simulated core: with -DOVER_SIMULATOR, the headers of evlsim/compat and the runner; its traces
 * are the scenarios' own there (checks/drivers).
 *
 * Each thread of the board is a pthread that makes the steps which it is told, one at a time. A step that begins a wait
 * is told as begun, and what ended it at its finish. A unit of the scenario's date is UNIT here. A claim's owner locks
 * the mutex first, where it hasn't; libevl tells of no next owner, so a release looks who goes on.
 */
#define _GNU_SOURCE
#include <errno.h>
#include <evl/evl.h>
#include <pthread.h>
#include <sched.h>
#include <stdbool.h>
#include <stdint.h>
#include <stdio.h>
#include <stdlib.h>
#include <string.h>
#include <time.h>
#include <unistd.h>
#ifdef OVER_SIMULATOR
#include <evlsim/runner.h>
#endif

enum { THREADS = 16, ELEMENTS = 8, STEPS = 64, KEYS = 6, TEXT = 40, UNIT = 200000000, POLL = 1000, POLLS = 10 };

struct step {
  char word[TEXT];
  int who;
  int keys;
  char key[KEYS][TEXT];
  char value[KEYS][TEXT];
};

/* A thread, what it is to do, and how its last call ended. */
struct player {
  int number;
  const struct step *volatile told;
  volatile bool has_begun, has_ended, is_waiting;
  volatile int error;
  volatile int value;
  volatile ssize_t length;
  uint8_t bytes[256];
  bool is_oob;
  int efd;
  struct evl_sem go;
};

static struct step step[STEPS];
static int steps, entries;
static struct player player[THREADS];
static int threads, sems, groups, buffers, mutexes;
static int opening_sem[ELEMENTS], opening_flags[ELEMENTS], ring[ELEMENTS][2];
static char mutex_kind[ELEMENTS][TEXT];
static struct evl_sem sem[ELEMENTS];
static struct evl_flags group[ELEMENTS];
static int buffer[ELEMENTS];
static struct evl_mutex mutex[ELEMENTS];
static int owner[ELEMENTS];
static uint64_t base, date;

/* Reading: a line is "key = value" or begins a table; lists are on one line. */
static int read_list(const char *text, int *numbers) {
  int count = 0;
  for (const char *at = text; *at != 0 && count < 2 * ELEMENTS;) {
    char *end;
    long number = strtol(at, &end, 10);
    if (end == at) {
      at++;
      continue;
    }
    numbers[count++] = (int)number;
    at = end;
  }
  return count;
}

static int read_texts(const char *text, char (*texts)[TEXT]) {
  int count = 0;
  for (const char *at = strchr(text, '"'); at != NULL && count < ELEMENTS; at = strchr(at, '"')) {
    size_t length = strcspn(at + 1, "\"");
    snprintf(texts[count++], TEXT, "%.*s", (int)length, at + 1);
    at += length + 2;
  }
  return count;
}

static void read_board(const char *key, const char *value) {
  int numbers[2 * ELEMENTS];
  if (strcmp(key, "threads") == 0) threads = atoi(value);
  if (strcmp(key, "sems") == 0) sems = read_list(value, opening_sem);
  if (strcmp(key, "flags") == 0) groups = read_list(value, opening_flags);
  if (strcmp(key, "mutexes") == 0) mutexes = read_texts(value, mutex_kind);
  if (strcmp(key, "xbufs") == 0) {
    buffers = read_list(value, numbers) / 2;
    memcpy(ring, numbers, sizeof ring);
  }
}

static void read_key(struct step *it, const char *key, const char *value) {
  char plain[TEXT];
  snprintf(plain, sizeof plain, "%.*s", (int)strcspn(value + (*value == '"'), "\"\n"), value + (*value == '"'));
  if (strcmp(key, "do") == 0) {
    snprintf(it->word, sizeof it->word, "%s", plain);
  } else if (strcmp(key, "who") == 0) {
    it->who = atoi(plain);
  } else if (it->keys < KEYS) {
    snprintf(it->key[it->keys], TEXT, "%s", key);
    snprintf(it->value[it->keys++], TEXT, "%s", plain);
  }
}

/* The words of the steps that this program makes. */
static bool is_known(const char *word) {
  static const char *const words[] = {"attach",     "detach",     "set_policy", "set_stage", "put",        "try_get",
                                      "peek",       "begin_get",  "post_flags", "peek_flags", "try_take",  "begin_take",
                                      "read",       "write",      "begin_read", "begin_write", "claim",    "release",
                                      "finish",     "tick",       "now"};
  for (size_t each = 0; each < sizeof words / sizeof *words; each++) {
    if (strcmp(word, words[each]) == 0) return true;
  }
  return false;
}

static bool refuse(int number, const char *what, const char *value) {
  fprintf(stderr, "play: step %d: %s: %s\n", number, what, value);
  return false;
}

/* Whether the board has the element that a step names by this key, if it does. */
static bool has_element(const struct step *it, const char *key, int count) {
  for (int each = 0; each < it->keys; each++) {
    int number = atoi(it->value[each]);
    if (strcmp(it->key[each], key) == 0 && (number < 0 || number >= count)) return false;
  }
  return true;
}

/* Whether all steps can be made: nothing is played of a scenario that has another one. */
static bool can_play(void) {
  for (int each = 0; each < steps; each++) {
    const struct step *it = &step[each];
    if (!is_known(it->word)) return refuse(each + 1, "this program doesn't make the step", it->word);
    if (it->who < 0 || it->who >= threads) return refuse(each + 1, "the board has no such thread in", it->word);
    if (!has_element(it, "sem", sems) || !has_element(it, "flags", groups) || !has_element(it, "xbuf", buffers) ||
        !has_element(it, "mutex", mutexes)) {
      return refuse(each + 1, "the board has no such element in", it->word);
    }
  }
  return true;
}

static bool read_scenario(const char *name) {
  char line[512], key[TEXT], value[400];
  FILE *file = fopen(name, "r");
  if (file == NULL) return false;
  while (fgets(line, sizeof line, file) != NULL && steps < STEPS) {
    if (strncmp(line, "[[step]]", 8) == 0) steps++;
    if (sscanf(line, "%39[a-z_] = %399[^\n]", key, value) != 2) continue;
    if (steps == 0) {
      read_board(key, value);
    } else {
      read_key(&step[steps - 1], key, value);
    }
  }
  fclose(file);
  return threads > 0 && threads <= THREADS && sems <= ELEMENTS && groups <= ELEMENTS;
}

static const char *text_of(const struct step *it, const char *key) {
  for (int each = 0; each < it->keys; each++) {
    if (strcmp(it->key[each], key) == 0) return it->value[each];
  }
  return "";
}
static int number_of(const struct step *it, const char *key) { return atoi(text_of(it, key)); }

/* Dates. */
static uint64_t now(void) {
  struct timespec it;
  evl_read_clock(EVL_CLOCK_MONOTONIC, &it);
  return (uint64_t)it.tv_sec * 1000000000u + (uint64_t)it.tv_nsec;
}

/* The date until which a step waits; false where it has none. */
static bool has_date(const struct step *it, struct timespec *until) {
  const char *text = text_of(it, "until");
  if (*text == 0 || strcmp(text, "none") == 0) return false;
  uint64_t at = base + strtoull(text, NULL, 10) * UNIT;
  until->tv_sec = (time_t)(at / 1000000000u);
  until->tv_nsec = (long)(at % 1000000000u);
  return true;
}

/* What a thread does. */
static int attach(struct player *it, const struct step *told) {
  struct evl_sched_attrs attrs;
  memset(&attrs, 0, sizeof attrs);
  attrs.sched_policy = SCHED_FIFO;
  attrs.sched_priority = atoi(text_of(told, "policy") + 5);
  if (strcmp(told->word, "attach") == 0) it->efd = evl_attach_self("player-%d", it->number);
  if (it->efd < 0) return it->efd;
  return evl_set_schedattr(it->efd, &attrs);
}

static int change_stage(struct player *it, const char *stage) {
  it->is_oob = strcmp(stage, "oob") == 0;
  return it->is_oob ? evl_switch_oob() : evl_switch_inband();
}

static int use_sem(const struct step *it, int *value) {
  struct evl_sem *which = &sem[number_of(it, "sem")];
  struct timespec until;
  if (strcmp(it->word, "put") == 0) return evl_put_sem(which);
  if (strcmp(it->word, "try_get") == 0) return evl_tryget_sem(which);
  if (strcmp(it->word, "peek") == 0) return evl_peek_sem(which, value);
  return has_date(it, &until) ? evl_timedget_sem(which, &until) : evl_get_sem(which);
}

static int use_flags(const struct step *it, int *value) {
  struct evl_flags *which = &group[number_of(it, "flags")];
  struct timespec until = {0, 0};
  int mask = -1;
  bool is_exact = sscanf(text_of(it, "kind"), "exact %d", &mask) == 1, is_dated = has_date(it, &until);
  (void)sscanf(text_of(it, "kind"), "of %d", &mask);
  if (strcmp(it->word, "post_flags") == 0) return evl_post_flags(which, number_of(it, "bits"));
  if (strcmp(it->word, "peek_flags") == 0) return evl_peek_flags(which, value);
  if (is_exact) *value = mask;
  if (strcmp(it->word, "try_take") == 0) {
    return is_exact ? evl_trywait_exact_flags(which, mask) : evl_trywait_some_flags(which, mask, value);
  }
  if (is_dated) {
    return is_exact ? evl_timedwait_exact_flags(which, mask, &until)
                    : evl_timedwait_some_flags(which, mask, &until, value);
  }
  return is_exact ? evl_wait_exact_flags(which, mask) : evl_wait_some_flags(which, mask, value);
}

static int use_buffer(struct player *it, const struct step *told) {
  int fd = buffer[number_of(told, "xbuf")];
  bool is_in = strcmp(text_of(told, "way"), "in") == 0;
  if (strstr(told->word, "read") != NULL) {
    size_t count = (size_t)number_of(told, "len");
    it->length = is_in ? oob_read(fd, it->bytes, count) : read(fd, it->bytes, count);
    return it->length < 0 ? -errno : 0;
  }
  const char *hex = text_of(told, "bytes");
  uint8_t bytes[256];
  size_t count = strlen(hex) / 2;
  for (size_t each = 0; each < count; each++) {
    unsigned byte = 0;
    (void)sscanf(hex + 2 * each, "%2x", &byte);
    bytes[each] = (uint8_t)byte;
  }
  ssize_t written = is_in ? write(fd, bytes, count) : oob_write(fd, bytes, count);
  return written < 0 ? -errno : 0;
}

static int use_mutex(const struct step *it) {
  struct evl_mutex *which = &mutex[number_of(it, "mutex")];
  struct timespec until;
  if (strcmp(it->word, "release") == 0) return evl_unlock_mutex(which);
  return has_date(it, &until) ? evl_timedlock_mutex(which, &until) : evl_lock_mutex(which);
}

static int make_step(struct player *it, const struct step *told) {
  int value = 0, error = 0;
  if (strcmp(told->word, "attach") == 0 || strcmp(told->word, "set_policy") == 0) error = attach(it, told);
  if (strcmp(told->word, "attach") == 0 || strcmp(told->word, "set_stage") == 0) {
    if (error >= 0) error = change_stage(it, text_of(told, "stage"));
  }
  if (strcmp(told->word, "detach") == 0) error = evl_detach_self(), it->is_oob = false;
  if (*text_of(told, "sem") != 0) error = use_sem(told, &value);
  if (*text_of(told, "flags") != 0) error = use_flags(told, &value);
  if (*text_of(told, "xbuf") != 0) error = use_buffer(it, told);
  if (*text_of(told, "mutex") != 0) error = use_mutex(told);
  it->value = value;
  return error < 0 ? error : 0;
}

/* A thread waits for its next step on the stage where it is. */
static void *play_steps(void *argument) {
  struct player *it = argument;
  for (;;) {
    if (it->is_oob) {
      evl_get_sem(&it->go);
    } else {
      while (it->told == NULL) usleep(POLL);
    }
    const struct step *told = it->told;
    it->told = NULL;
    if (told == NULL) continue;
    it->has_begun = true;
    it->error = make_step(it, told);
    it->has_ended = true;
  }
  return NULL;
}

/* Tells a thread its step, and waits until it has made it or waits itself. */
static void tell_step(struct player *it, const struct step *told) {
  bool is_oob = it->is_oob;
  it->has_begun = it->has_ended = false;
  it->error = 0;
  it->told = told;
  if (is_oob) evl_put_sem(&it->go);
  for (int poll = 0; poll < POLLS && !it->has_ended; poll++) usleep(POLL);
}

static const char *name_of(int error) {
  switch (-error) {
    case EAGAIN: return "Again";
    case EBUSY: return "Busy";
    case EDEADLK: return "Deadlock";
    case EFBIG: return "TooBig";
    case EINVAL: return "Invalid";
    case EPERM: return "NotOwner";
    case ETIMEDOUT: return "timed out";
    default: break;
  }
  static char text[TEXT];
  snprintf(text, sizeof text, "errno %d", -error);
  return text;
}

/* The answer of a call that has ended. */
static void print_answer(const struct player *it, const struct step *told) {
  if (it->error != 0) {
    printf("%s\n", name_of(it->error));
  } else if (strcmp(told->word, "peek") == 0) {
    printf("count %d\n", it->value);
  } else if (strstr(told->word, "take") != NULL || strcmp(told->word, "peek_flags") == 0) {
    printf("bits %u\n", (unsigned)it->value);
  } else if (strstr(told->word, "read") != NULL) {
    printf("bytes ");
    for (ssize_t each = 0; each < it->length; each++) printf("%02x", it->bytes[each]);
    printf("%s\n", it->length == 0 ? "-" : "");
  } else {
    printf("done\n");
  }
}

static const struct step *begun[THREADS];

/* Who had the mutex handed on: the thread whose lock has ended. */
static void print_next(int which) {
  int next = -1, more = 0;
  usleep(POLL * POLLS);
  for (int each = 0; each < threads; each++) {
    const struct player *it = &player[each];
    if (begun[each] == NULL || strcmp(begun[each]->word, "claim") != 0) continue;
    if (number_of(begun[each], "mutex") != which) continue;
    if (it->has_ended && it->error == 0 && owner[which] != each) next = each;
    if (!it->has_ended) more++;
  }
  owner[which] = next;
  if (next < 0) {
    printf("next none\n");
  } else {
    printf("next %d%s\n", next, more > 0 ? " more" : "");
  }
}

static void print_finish(int who) {
  struct player *it = &player[who];
  if (begun[who] == NULL) {
    printf("Invalid\n");
  } else if (!it->has_ended) {
    printf("Again\n");
  } else {
    print_answer(it, begun[who]);
    begun[who] = NULL;
  }
}

static bool waits(int who) { return begun[who] != NULL && !player[who].has_ended; }

/* Lets time pass, and prints whose deadline fell due. */
static void let_pass(uint64_t delta) {
  bool did_wait[THREADS], is_first = true;
  for (int each = 0; each < threads; each++) did_wait[each] = waits(each);
  date += delta;
  printf("done\n");
  while (now() < base + date * UNIT + UNIT / 10) usleep(POLL * POLLS);
  for (int each = 0; each < threads; each++) {
    if (!did_wait[each] || waits(each) || player[each].error != -ETIMEDOUT) continue;
    printf("%s  deadline T%d\n", is_first ? "  clock\n" : "", each);
    is_first = false;
  }
}

/* The owner that a claim names has the mutex first. */
static void let_own(const struct step *it) {
  static struct step lock;
  int which = number_of(it, "mutex"), who = number_of(it, "owner");
  if (owner[which] == who) return;
  lock = *it;
  snprintf(lock.value[lock.keys - 1], TEXT, "none");
  tell_step(&player[who], &lock);
  owner[which] = who;
}

/* Who waits can lock nothing: what later claims name as its own it locks before. */
static void own_before_waiting(const struct step *it) {
  for (const struct step *later = it + 1; later < step + steps; later++) {
    if (strcmp(later->word, "claim") == 0 && number_of(later, "owner") == it->who) let_own(later);
  }
}

static void print_step(const struct step *it) {
  printf("%d T%d %s", ++entries, it->who, it->word);
  for (int each = 0; each < it->keys; each++) printf(" %s=%s", it->key[each], it->value[each]);
  printf(" -> ");
}

static void play_step(const struct step *it) {
  struct player *who = &player[it->who];
  bool is_wait = strncmp(it->word, "begin_", 6) == 0 || strcmp(it->word, "claim") == 0;
  print_step(it);
  if (strcmp(it->word, "finish") == 0) {
    print_finish(it->who);
  } else if (begun[it->who] != NULL) {
    printf("Busy\n");
  } else if (strcmp(it->word, "tick") == 0) {
    let_pass(strtoull(text_of(it, "delta"), NULL, 10));
  } else if (strcmp(it->word, "now") == 0) {
    printf("number %llu\n", (unsigned long long)date);
  } else {
    if (strcmp(it->word, "claim") == 0) let_own(it), own_before_waiting(it);
    tell_step(who, it);
    bool is_begun = is_wait && (who->error == 0 || who->error == -ETIMEDOUT);
    if (is_begun) begun[it->who] = it;
    if (is_begun) {
      printf("begun\n");
    } else if (strcmp(it->word, "release") == 0 && who->error == 0) {
      print_next(number_of(it, "mutex"));
    } else {
      print_answer(who, it);
    }
  }
}

/* What a call that makes something has answered; nothing is played without it. */
static int made(int answer, const char *what, int number) {
  if (answer >= 0) return answer;
  fprintf(stderr, "play: %s %d isn't made: %s (errno %d)\n", what, number, strerror(-answer), -answer);
  exit(EXIT_FAILURE);
}

static void make_elements(void) {
  for (int each = 0; each < sems; each++) {
    made(evl_create_sem(&sem[each], EVL_CLOCK_MONOTONIC, opening_sem[each], 0, "sem-%d", each), "sem", each);
  }
  for (int each = 0; each < groups; each++) {
    made(evl_create_flags(&group[each], EVL_CLOCK_MONOTONIC, opening_flags[each], 0, "flags-%d", each), "flags", each);
  }
  for (int each = 0; each < buffers; each++) {
    int fd = evl_create_xbuf((size_t)ring[each][0], (size_t)ring[each][1], 0, "xbuf-%d", each);
    buffer[each] = made(fd, "xbuf", each);
  }
  for (int each = 0; each < mutexes; each++) {
    int flags = strcmp(mutex_kind[each], "recursive") == 0 ? EVL_MUTEX_RECURSIVE : EVL_MUTEX_NORMAL;
    made(evl_create_mutex(&mutex[each], EVL_CLOCK_MONOTONIC, 0, flags, "mutex-%d", each), "mutex", each);
    owner[each] = -1;
  }
}

/* The simulated machine has one processor: all threads stay on the first that this program may use. */
static void stay_on_one_processor(void) {
#ifndef OVER_SIMULATOR
  cpu_set_t may, one;
  int first = 0;
  CPU_ZERO(&one);
  if (sched_getaffinity(0, sizeof may, &may) != 0) made(-errno, "the set of processors of thread", 0);
  while (first < CPU_SETSIZE - 1 && !CPU_ISSET(first, &may)) first++;
  CPU_SET(first, &one);
  if (sched_setaffinity(0, sizeof one, &one) != 0) made(-errno, "the use of processor", first);
#endif
}

static void play(void) {
  stay_on_one_processor();
  made(evl_init(), "the connection to core", 0);
  make_elements();
  for (int each = 0; each < threads; each++) {
    pthread_t thread;
    player[each].number = each;
    made(evl_create_sem(&player[each].go, EVL_CLOCK_MONOTONIC, 0, 0, "go-%d", each), "sem of thread", each);
    made(-pthread_create(&thread, NULL, play_steps, &player[each]), "thread", each);
  }
  printf("board threads=%d sems=%d flags=%d xbufs=%d mutexes=%d groups=0 limit=1000\n", threads, sems, groups, buffers,
         mutexes);
  base = now();
  for (int each = 0; each < steps; each++) play_step(&step[each]);
  fflush(stdout);
}

int main(int count, char **words) {
  if (count != 2 || !read_scenario(words[1])) {
    fprintf(stderr, "play: no scenario that this program can play\n");
    return EXIT_FAILURE;
  }
  if (!can_play()) return EXIT_FAILURE;
#ifdef OVER_SIMULATOR
  return evlsim_test(play);
#else
  play();
  return EXIT_SUCCESS;
#endif
}
