/*
 * Part of evlsim_runner.c: questions of the test of which each answer is tried: its own, and how late the clock comes.
 * An answer but 0 is an event of a list: "choice 1 @ 4", "late 2 @ 9".
 */

__attribute__((noreturn)) static void fail_misplaced(void) {
  fail("the chosen event can't come there: a list of another build, or a body that isn't the same in each run?");
}

/* Notes that a question has so many answers here, for runs that give another one. */
static void offer_answers(uint32_t step, uint32_t kind, unsigned answers) {
  if (!kept->offers || run->choices_made < kept->choice_count || answers < 2) return;
  if (kept->candidates >= CANDIDATES) fail("a run has more than %d moments", CANDIDATES);
  struct candidate noted = {step, IS_ANSWER | kind | answers};
  kept->candidate[kept->candidates++] = noted;
}

static unsigned answer_of(uint32_t kind, unsigned answers, const void *from) {
  uint32_t step = ++run->step;
  if (!is_chosen(step)) {
    offer_answers(step, kind, answers);
    return 0;
  }
  uint32_t chosen = kept->choices[run->choices_made].source;
  if ((chosen & (IS_ANSWER | IS_LATE)) != (IS_ANSWER | kind) || (chosen & ANSWER_BITS) >= answers) fail_misplaced();
  note_place(from, from == NULL);
  run->choices_made++;
  return chosen & ANSWER_BITS;
}

unsigned evlsim_choose(unsigned answers) {
  expect_run("evlsim_choose");
  if (answers == 0 || answers > ANSWERS) fail("evlsim_choose has 1 to %d answers", ANSWERS);
  mend_torn();
  return answer_of(0, answers, CALLED_FROM);
}

void evlsim_may_be_late(uint64_t nanoseconds) {
  expect_run("evlsim_may_be_late");
  run->lateness = nanoseconds;
}

/* The date at which the clock comes for what is due: then, at one of the next due dates, or as late as it may be. */
static uint64_t late_date(uint64_t due) {
  uint64_t dates[ANSWERS] = {due}, last = due + run->lateness;
  unsigned count = 1;
  if (run->lateness == 0 || last < due) return due;
  for (uint64_t date = due; count < ANSWERS - 1; count++) {
    date = next_due_after(date);
    if (date >= last) break;
    dates[count] = date;
  }
  dates[count++] = last;
  return dates[answer_of(IS_LATE, count, NULL)];
}
