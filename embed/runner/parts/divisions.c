/*
 * Part of evlsim_runner.c: which lists count in this part of an exploration. Lists are numbered in the order in which
 * they are found, and every so many-th is one part's. A part also runs the lists of the others that may lead to more, and
 * the first of all, since events may touch something there alone.
 *
 * Which moments are left out depends on what events were seen to touch. A part that sees as much as each other part
 * does numbers the lists as they do, and as one exploration of all would: their sums of what is touched are then equal.
 */

/* The part of limits, or of EVLSIM_PART. */
static void take_part(void) {
  evlsim_limits *it = &kept->limits;
  const char *text = getenv("EVLSIM_PART");
  unsigned part = it->part, parts = it->parts;
  int length = 0;
  bool is_read = text == NULL || (sscanf(text, "%u/%u%n", &part, &parts, &length) == 2 && text[length] == 0);
  if (text == NULL && part == 0 && parts <= 1) part = parts = 1;
  if (!is_read || part == 0 || part > parts || parts > MOST_PARTS) {
    fprintf(stderr, "evlsim: EVLSIM_PART=%s, limits.part = %u, limits.parts = %u: no part, as 3/16\n",
            text == NULL ? "" : text, (unsigned)it->part, (unsigned)it->parts);
    exit(EXIT_FAILURE);
  }
  it->part = part, it->parts = parts;
}

static bool is_in_part(uint32_t at) { return at % kept->limits.parts == kept->limits.part - 1; }

/* Whether a list is run here, be it counted here or in another part. */
static bool is_run_here(uint32_t at) {
  bool leads_on = kept->node[at].depth < kept->limits.arrivals;
  return is_in_part(at) || leads_on || (at < SAMPLE && !kept->limits.whole);
}

/* Where a noted place is, the same in each process of a program: a variable, or in the stack of a task. */
static uint64_t relative_place(uint64_t place) {
  const char *address = (const char *)(uintptr_t)(place << 3);
  for (unsigned each = 0; each < TASKS; each++) {
    if (!is_on_stack(&tasks[each], address)) continue;
    return ((uint64_t)(each + 1) << 32) + (uint64_t)(address - tasks[each].stack);
  }
  return (uint64_t)(address - (const char *)((uintptr_t)__data_start & ~(uintptr_t)7));
}

/* A sum of what is noted, be it noted in one order or another. */
static uint64_t digest_of_touched(void) {
  uint64_t sum = kept->devices_call;
  for (uint32_t each = 0; each < TOUCHED; each++) {
    const struct touched *it = &kept->touched[each];
    if (it->place == 0) continue;
    uint64_t digest = relative_place(it->place) * UINT64_C(0x9e3779b97f4a7c15);
    digest ^= (uint64_t)it->read | (uint64_t)it->written << 8 | (uint64_t)it->device_read << 16 |
              (uint64_t)it->device_written << 24;
    digest *= UINT64_C(0x100000001b3);
    sum += digest ^ digest >> 29;
  }
  return sum;
}

static void print_part(void) {
  const evlsim_limits *it = &kept->limits;
  if (it->parts <= 1) return;
  fprintf(stderr, "; part %u of %u, with %llu runs of lists of the others", (unsigned)it->part, (unsigned)it->parts,
          (unsigned long long)kept->explored.others);
  if (!it->whole) fprintf(stderr, ", events touch %016llx", (unsigned long long)digest_of_touched());
}
