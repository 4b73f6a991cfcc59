/*
 * Part of evlsim_runner.c: lists that are run by several processes. Each has a slice of the lists that come next, of
 * one number of events, and begins with what is kept so far. This process adds what they found in the lists' order, so
 * it has what one process would have found. If something came in between on which later lists depend (a place that no
 * event touched before, a new element, a failure, a limit), it drops all that, and runs those lists itself.
 */

static uint32_t processors(void) {
  cpu_set_t set;
  int count = sched_getaffinity(0, sizeof set, &set) == 0 ? CPU_COUNT(&set) : 1;
  return count < 1 ? 1 : (uint32_t)count;
}

/* How many processes there are to be. */
static void begin_jobs(void) {
  evlsim_limits *it = &kept->limits;
  if (it->jobs == EVLSIM_ALL_PROCESSORS) it->jobs = processors();
  if (it->jobs == 0 || it->prints) it->jobs = 1;
  if (it->jobs > MOST_JOBS) it->jobs = MOST_JOBS;
  kept->slice = FEWEST;
  kept->job = it->jobs == 1 ? NULL : pages(it->jobs * sizeof *kept->job, MAP_PRIVATE);
  for (uint32_t each = 0; it->jobs > 1 && each < it->jobs; each++) {
    kept->job[each].own = pages(sizeof *kept, MAP_SHARED);
    kept->job[each].added = pages(NODES * sizeof *kept->node, MAP_SHARED);
  }
}

static void end_jobs(void) {
  if (kept->job == NULL) return;
  for (uint32_t each = 0; each < kept->limits.jobs; each++) {
    munmap(kept->job[each].own, sizeof *kept);
    munmap(kept->job[each].added, NODES * sizeof *kept->node);
  }
  munmap(kept->job, kept->limits.jobs * sizeof *kept->job);
  kept->job = NULL;
}

/* In a job's process: what is kept is a copy of its own from here on, but for the lists so far. */
static void take_copy(struct job *job) {
  struct kept *own = job->own;
  memcpy(own, kept, offsetof(struct kept, outcome));
  memset(&own->explored, 0, sizeof own->explored);
  own->node = kept->node;
  own->added = job->added;
  own->outcomes = 0;
  own->has_grown = false;
  own->is_job = true;
  void *at = mremap(own, sizeof *own, sizeof *own, MREMAP_MAYMOVE | MREMAP_FIXED, kept);
  if (at != (void *)kept) _exit(EXIT_FAILURE);
}

/* A job's process: it prints nothing, as all that fails is run once more by the one that it works for. */
__attribute__((noreturn)) static void work(struct job *job) {
  prctl(PR_SET_PDEATHSIG, SIGKILL);
  int nowhere = open("/dev/null", O_WRONLY | O_CLOEXEC);
  if (nowhere < 0 || dup2(nowhere, STDERR_FILENO) < 0 || dup2(nowhere, STDOUT_FILENO) < 0) _exit(EXIT_FAILURE);
  take_copy(job);
  kept->is_output_kept = false;
  for (kept->at = job->first; kept->at < job->last; kept->at++) {
    if (is_run_here(kept->at)) explore_list(is_in_part(kept->at));
    if (kept->has_grown || (kept->explored.failed && !kept->limits.goes_on)) break;
  }
  _exit(EXIT_SUCCESS);
}

/* How many of the next lists, all of one number of events, the jobs are given. */
static uint32_t next_lists(void) {
  uint32_t depth = kept->node[kept->at].depth, count = 0;
  uint64_t most = (uint64_t)kept->slice * kept->limits.jobs;
  if (depth == kept->limits.arrivals) most *= kept->limits.parts;
  while (count < most && kept->at + count < kept->nodes && kept->node[kept->at + count].depth == depth) count++;
  return count;
}

/* Begins the processes, each with its slice; how many there are. */
static uint32_t begin_slices(uint32_t count) {
  fflush(NULL);
  for (uint32_t each = 0; each < kept->limits.jobs; each++) {
    struct job *job = &kept->job[each];
    job->first = kept->at + (uint32_t)((uint64_t)count * each / kept->limits.jobs);
    job->last = kept->at + (uint32_t)((uint64_t)count * (each + 1) / kept->limits.jobs);
    job->process = fork();
    if (job->process == 0) work(job);
    if (job->process < 0) return each;
  }
  return kept->limits.jobs;
}

/* Whether what a job found is what this process would have found there. */
static bool is_sound(const struct job *job, int status) {
  const struct kept *own = job->own;
  bool is_failed = status != 0 || own->at != job->last || (own->explored.failed && !own->limits.goes_on);
  bool is_other = own->has_grown || own->outcomes == OUTCOMES || own->explored.is_cut ||
                  strcmp(own->unseen, kept->unseen) != 0 || memcmp(&own->known, &kept->known, sizeof own->known) != 0;
  return !is_failed && !is_other;
}

/* Waits for all processes: whether this process may take over what they found. */
static bool end_slices(uint32_t begun) {
  bool is_well = begun == kept->limits.jobs;
  uint64_t runs = kept->explored.runs + kept->explored.others, nodes = kept->nodes;
  for (uint32_t each = 0; each < begun; each++) {
    int status = 0;
    const struct job *job = &kept->job[each];
    is_well &= waitpid(job->process, &status, 0) == job->process && is_sound(job, status);
    runs += job->own->explored.runs + job->own->explored.others;
    nodes += job->own->nodes - kept->nodes;
  }
  return is_well && runs <= kept->limits.runs && nodes <= NODES;
}

static void take_outcome(const struct outcome *found) {
  struct outcome *known = known_outcome(found->digest, found->text);
  if (known != NULL) known->lists += found->lists;
  if (known == NULL && kept->outcomes < OUTCOMES) kept->outcome[kept->outcomes++] = *found;
}

/* Adds what a job found. */
static void take_over(const struct job *job, uint32_t nodes) {
  const struct kept *own = job->own;
  evlsim_explored *sum = &kept->explored;
  sum->runs += own->explored.runs, sum->lists += own->explored.lists, sum->left_out += own->explored.left_out;
  sum->steps += own->explored.steps, sum->not_tried += own->explored.not_tried;
  sum->waited += own->explored.waited, sum->others += own->explored.others, sum->failed |= own->explored.failed;
  for (uint32_t each = 0; each < own->outcomes; each++) take_outcome(&own->outcome[each]);
  memcpy(kept->added, job->added, (own->nodes - nodes) * sizeof *job->added);
  kept->added += own->nodes - nodes;
  kept->nodes += own->nodes - nodes;
}

/* Runs the next lists by jobs; false where this process is to run the next one. */
static bool explore_by_jobs(void) {
  if (kept->limits.jobs <= 1 || kept->at < kept->alone) return false;
  uint32_t count = next_lists(), nodes = kept->nodes;
  bool is_worth = count >= FEWEST, is_well = is_worth && end_slices(begin_slices(count));
  if (!is_well) {
    kept->alone = kept->at + count;
    kept->slice = FEWEST;
    return false;
  }
  for (uint32_t each = 0; each < kept->limits.jobs; each++) take_over(&kept->job[each], nodes);
  if (kept->slice < SLICE) kept->slice *= 2;
  kept->at += count;
  if (has_to_begin_again(kept->at)) begin_round();
  return true;
}
