/*
 * Part of evlsim_runner.c: what was touched, so that events are tried only where they may make a difference.
 *
 * Noted is what runs because of an event while a task is between two of its steps: handlers, and threads that go
 * before that task. A step of a task that touches nothing of this, or only reads what is only read there, gives the
 * same before such an event and after it. So the event is tried after such a step alone; what is noted grows from run
 * to run, and when it has grown the exploration begins again. Calls always count, and so does what lies on the heap.
 * Within an out-of-band handler only hardware works, so a step of the handler counts by what hardware touches.
 */

/* The executable's own variables, which are at one place in each run. */
extern char __data_start[] __attribute__((weak));
extern char _end[] __attribute__((weak));
extern char __executable_start[] __attribute__((weak));
/* What nobody writes: code and constants. */
static bool is_constant(const char *address) {
  return __executable_start != NULL && address >= __executable_start && address < __data_start;
}
static bool is_variable(const char *address) { return address >= __data_start && address < _end; }

/* Whether an address is a local of the code that runs, which nobody else has unless it is handed on. */
static bool is_local(const char *address) {
  if (!is_on_stack(&tasks[run->now], address)) return false;
  return !in_handler() || address < run->below;
}

static bool is_on_a_stack(const char *address) {
  for (unsigned each = 0; each < run->made.tasks; each++) {
    if (is_on_stack(&tasks[each], address)) return true;
  }
  return false;
}

/* The entry of 8 bytes, a free one where there is none. */
static struct touched *entry_of(uint64_t place) {
  uint64_t at = place * UINT64_C(0x9e3779b97f4a7c15) >> 48;
  while (kept->touched[at % TOUCHED].place != 0 && kept->touched[at % TOUCHED].place != place) at++;
  return &kept->touched[at % TOUCHED];
}

/* The bytes of one entry that an access meets, a bit for each. */
static uint8_t bits_of(uint64_t place, const char *address, size_t size) {
  uintptr_t first = (uintptr_t)address, last = first + size - 1;
  unsigned low = first >> 3 == place ? first & 7 : 0, high = last >> 3 == place ? last & 7 : 7;
  return (uint8_t)((0xffu << low) & (0xffu >> (7 - high)));
}

/* Notes an access of a handler, or of a thread that goes before an interrupted one. */
static void note_access(const char *address, size_t size, bool is_write) {
  uint64_t last = ((uintptr_t)address + size - 1) >> 3;
  for (uint64_t place = (uintptr_t)address >> 3; place <= last; place++) {
    struct touched *entry = entry_of(place);
    uint8_t bits = bits_of(place, address, size);
    uint8_t *noted = is_write ? &entry->written : &entry->read;
    uint8_t *of_device = is_write ? &entry->device_written : &entry->device_read;
    uint8_t by_device = run->in_device && kept->limits.in_handlers ? bits : 0;
    if (entry->place != 0 && (*noted & bits) == bits && (*of_device & by_device) == by_device) continue;
    if (entry->place == 0 && ++kept->touches > TOUCHED / 2) fail("handlers touch more than %d places", TOUCHED / 2);
    entry->place = place;
    *noted |= bits;
    *of_device |= by_device;
    kept->has_grown = true;
  }
}

/* Whether an access and something that is noted meet, one of them a write. */
static bool meets_noted(const char *address, size_t size, bool is_write) {
  uint64_t last = ((uintptr_t)address + size - 1) >> 3;
  for (uint64_t place = (uintptr_t)address >> 3; place <= last; place++) {
    const struct touched *entry = entry_of(place);
    uint8_t bits = bits_of(place, address, size);
    uint8_t written = run->in_oob_handler ? entry->device_written : entry->written;
    uint8_t read = run->in_oob_handler ? entry->device_read : entry->read;
    if (entry->place == 0) continue;
    if ((written & bits) != 0 || (is_write && (read & bits) != 0)) return true;
  }
  return false;
}

/* Whether an event before this access may give something else than after it. Of a copy on the heap, where nothing is
   noted, only the first word counts: else a copy of many words would have as many moments. */
static bool is_relevant(const char *address, size_t size, bool is_write, bool is_further) {
  if (kept->limits.whole) return true;
  if (is_constant(address)) return false;
  if (!is_variable(address) && !is_on_a_stack(address)) return !is_further;
  return meets_noted(address, size, is_write);
}
