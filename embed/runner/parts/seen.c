/*
 * Part of evlsim_runner.c: whose loads and stores weren't seen, since its code is compiled without -fsanitize=thread.
 */

/* The steps of which a function consists that only returns: how many bytes each has, and which are told. */
static const struct {
  uint8_t length, told;
  uint8_t code[4];
} plain_steps[] = {
    {4, 4, {0xf3, 0x0f, 0x1e, 0xfa}},                                  /* endbr64 */
    {1, 1, {0x55}},             {1, 1, {0x5d}}, {1, 1, {0xc9}},        /* push rbp; pop rbp; leave */
    {3, 3, {0x48, 0x89, 0xe5}}, {1, 1, {0x90}},                        /* mov rbp, rsp; nop */
    {3, 2, {0x89, 0x7d}},       {4, 3, {0x48, 0x89, 0x7d}},            /* the first argument to its place */
    {3, 2, {0x89, 0x75}},       {4, 3, {0x48, 0x89, 0x75}},            /* the second one */
    {3, 2, {0x8b, 0x45}},       {4, 3, {0x48, 0x8b, 0x45}},            /* from there to the result */
    {2, 2, {0x89, 0xf8}},       {3, 3, {0x48, 0x89, 0xf8}},            /* the first argument to the result */
    {5, 1, {0xb8}},             {2, 2, {0x31, 0xc0}},                  /* a constant, or 0, to it */
};

/* Whether a function only returns: then a compiler calls in nowhere, whatever its flags. */
static bool only_returns(const uint8_t *code) {
  size_t count = sizeof plain_steps / sizeof *plain_steps, step = 0;
  for (unsigned steps = 0; step < count && steps < 16; steps++) {
    if (*code == 0xc3) return true;
    for (step = 0; step < count; step++) {
      if (memcmp(code, plain_steps[step].code, plain_steps[step].told) == 0) break;
    }
    if (step < count) code += plain_steps[step].length;
  }
  return false;
}

/* Notes whose loads and stores weren't seen, by the place of its function. */
static void note_unseen(const char *what, int number, const void *function) {
  const uint8_t *code;
  memcpy(&code, function, sizeof code);
  if (!has_hooks || kept->unseen[0] != 0 || only_returns(code)) return;
  snprintf(kept->unseen, sizeof kept->unseen, "%s", what);
  if (number >= 0) snprintf(kept->unseen, sizeof kept->unseen, "%s%d", what, number);
}

/* Those of a run's threads. */
static void note_unseen_threads(void) {
  for (int each = BODY; each < (int)run->made.tasks; each++) {
    const struct task *task = &tasks[each];
    if (!task->has_begun || task->is_seen || task->run == do_works) continue;
    if (each == BODY) {
      note_unseen("T", each, &kept->body);
    } else if (task->simple != NULL) {
      note_unseen("T", each, &task->simple);
    } else {
      note_unseen("T", each, &task->run);
    }
  }
}
