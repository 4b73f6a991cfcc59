/* Runs a task set as threads of this machine under SCHED_FIFO on one processor, for checks/linux. It reads the set from
 * standard input as numbers: the end in nanoseconds; how many mutexes, and of each the ceiling or 0 where it lends ranks; how
 * many semaphores, and of each the count; how many tasks, and of each its priority, the date of its first job, its period or 0,
 * its jobs, its acts, and of each act the kind and the number. It prints what happens in jobs, in order: the task, the job, and
 * -1 for its start, -2 for its end, or the act that is done. Status 0; 5 where this process may not have such threads. */
#define _GNU_SOURCE
#include <pthread.h>
#include <sched.h>
#include <semaphore.h>
#include <stdio.h>
#include <stdlib.h>
#include <sys/mman.h>
#include <time.h>

enum { RUN, LOCK, UNLOCK, GET, PUT };
enum { STARTS = -1, FINISHES = -2, MOST = 4096 };

struct act { int kind; long long number; };
struct task { int priority, number, count; long long at, every, jobs; struct act acts[64]; pthread_t thread; };
struct event { int task, what; long long job; };

static pthread_mutex_t mutexes[8];
static sem_t sems[8];
static struct task tasks[16];
static struct event events[MOST];
static int event_count;
static struct timespec begin;
static const long long SECOND = 1000000000LL;

static long long read_number(void)
{
	long long number;
	if (scanf("%lld", &number) != 1)
		exit(2);
	return number;
}

/* All threads are on one processor, so the one that runs is the only one that counts. */
static void note(struct task *task, long long job, int what)
{
	int place = __atomic_fetch_add(&event_count, 1, __ATOMIC_SEQ_CST);
	if (place < MOST)
		events[place] = (struct event){task->number, what, job};
}

static void wait_until(long long date)
{
	struct timespec then = begin;
	then.tv_sec += (then.tv_nsec + date) / SECOND;
	then.tv_nsec = (then.tv_nsec + date) % SECOND;
	while (clock_nanosleep(CLOCK_MONOTONIC, TIMER_ABSTIME, &then, NULL))
		;
}

static long long computed(void)
{
	struct timespec now;
	clock_gettime(CLOCK_THREAD_CPUTIME_ID, &now);
	return now.tv_sec * SECOND + now.tv_nsec;
}

static void compute(long long time)
{
	long long end = computed() + time;
	while (computed() < end)
		;
}

/* What never waits is noted before it is done, since it may let another thread go on. */
static void do_act(struct task *task, long long job, int place)
{
	struct act act = task->acts[place];
	switch (act.kind) {
	case RUN: compute(act.number); break;
	case LOCK: pthread_mutex_lock(&mutexes[act.number]); break;
	case GET: while (sem_wait(&sems[act.number])) ; break;
	default: break;
	}
	note(task, job, place);
	if (act.kind == UNLOCK)
		pthread_mutex_unlock(&mutexes[act.number]);
	if (act.kind == PUT)
		sem_post(&sems[act.number]);
}

static void *body(void *arg)
{
	struct task *task = arg;
	for (long long job = 0; job < task->jobs; job++) {
		wait_until(task->at + job * task->every);
		note(task, job, STARTS);
		for (int i = 0; i < task->count; i++)
			do_act(task, job, i);
		note(task, job, FINISHES);
	}
	return NULL;
}

static void make_mutex(pthread_mutex_t *mutex, int ceiling)
{
	pthread_mutexattr_t how;
	pthread_mutexattr_init(&how);
	pthread_mutexattr_setprotocol(&how, ceiling ? PTHREAD_PRIO_PROTECT : PTHREAD_PRIO_INHERIT);
	if (ceiling)
		pthread_mutexattr_setprioceiling(&how, ceiling);
	if (pthread_mutex_init(mutex, &how))
		exit(5);
}

static void read_task(struct task *task, int number)
{
	task->number = number;
	task->priority = read_number();
	task->at = read_number();
	task->every = read_number();
	task->jobs = read_number();
	task->count = read_number();
	if (task->count < 0 || task->count > 64)
		exit(2);
	for (int i = 0; i < task->count; i++) {
		task->acts[i].kind = read_number();
		task->acts[i].number = read_number();
	}
}

static void start(struct task *task)
{
	pthread_attr_t how;
	struct sched_param param = {.sched_priority = task->priority};
	pthread_attr_init(&how);
	pthread_attr_setstacksize(&how, 65536);
	pthread_attr_setinheritsched(&how, PTHREAD_EXPLICIT_SCHED);
	pthread_attr_setschedpolicy(&how, SCHED_FIFO);
	pthread_attr_setschedparam(&how, &param);
	if (pthread_create(&task->thread, &how, body, task))
		exit(5);
}

static void be_first_on_one_processor(void)
{
	cpu_set_t all, one;
	struct sched_param first = {.sched_priority = 99};
	CPU_ZERO(&one);
	sched_getaffinity(0, sizeof all, &all);
	for (int i = CPU_SETSIZE - 1; i >= 0; i--)
		if (CPU_ISSET(i, &all)) {
			CPU_SET(i, &one);
			break;
		}
	if (sched_setaffinity(0, sizeof one, &one) || sched_setscheduler(0, SCHED_FIFO, &first))
		exit(5);
	mlockall(MCL_CURRENT | MCL_FUTURE);
}

int main(void)
{
	long long until = read_number();
	int mutex_count = read_number();
	be_first_on_one_processor();
	for (int i = 0; i < mutex_count; i++)
		make_mutex(&mutexes[i], read_number());
	int sem_count = read_number();
	for (int i = 0; i < sem_count; i++)
		sem_init(&sems[i], 0, read_number());
	int task_count = read_number();
	if (mutex_count > 8 || sem_count > 8 || task_count > 16)
		return 2;
	for (int i = 0; i < task_count; i++)
		read_task(&tasks[i], i);
	for (int i = 0; i < task_count; i++)
		start(&tasks[i]);
	/* none of them has run yet, since this one has the processor */
	clock_gettime(CLOCK_MONOTONIC, &begin);
	wait_until(until);
	for (int i = 0; i < event_count && i < MOST; i++)
		printf("%d %lld %d\n", events[i].task, events[i].job, events[i].what);
	fflush(stdout);
	_Exit(0);
}
