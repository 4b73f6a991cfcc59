/*
 * Part of evlsim_runner.c: refusals that a right driver never meets. By limits.refusals_fail each fails the run.
 */

/* The thread or the handler whose code runs. */
static const char *name_of_code(char *text, size_t size) {
  if (in_handler() && run->handled != NULL) {
    const char *kind = run->handled->is_timer ? "timer" : "line";
    snprintf(text, size, "the handler of %s %u", kind, (unsigned)run->handled->element);
  } else {
    const struct task *task = &tasks[run->now];
    snprintf(text, size, "T%d%s%s", run->now, task->name[0] ? " " : "", task->name);
  }
  return text;
}

/* The runner's own refusal: the error, or the end of the run. */
static int refuse(const char *as, int error) {
  char text[64];
  bool fails = run != NULL && run->is_on && kept->limits.refusals_fail && !run->in_device;
  if (fails) fail("%s is refused: %s", name_of_code(text, sizeof text), as);
  return error;
}

static int invalid(void) { return refuse("Invalid", -EINVAL); }
static int not_attached(void) { return refuse("the thread isn't attached", -EPERM); }

/* The kernel's: the call's entry is the last of the trace. */
static void look_at_refusal(evlsim_call call, evlsim_answer answer) {
  static const struct {
    uint16_t number;
    const char *name;
  } faults[] = {{EVLSIM_REFUSAL_NUMBER_DEADLOCK, "Deadlock"},
                {EVLSIM_REFUSAL_NUMBER_NOT_OWNER, "NotOwner"},
                {EVLSIM_REFUSAL_NUMBER_WRONG_STAGE, "WrongStage"},
                {EVLSIM_REFUSAL_NUMBER_INVALID, "Invalid"}};
  if (!evlsim_is_refused(answer)) return;
  for (size_t each = 0; each < sizeof faults / sizeof *faults; each++) {
    if (answer.refusal.number == faults[each].number) (void)refuse(faults[each].name, 0);
  }
  bool is_detach = call.kind == evlsim_call_detach().kind;
  if (is_detach && answer.refusal.number == EVLSIM_REFUSAL_NUMBER_BUSY) (void)refuse("Busy", 0);
}
