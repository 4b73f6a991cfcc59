/*
 * Part of evlsim_runner.c: copies, word by word. An event may come between any two of their words.
 */

enum { WORD = 8 };

static size_t length_at(size_t at, size_t size) { return size - at < WORD ? size - at : WORD; }

/* A word of a copy. */
static void see_word(const char *word, size_t at, size_t size, bool is_write, const void *place) {
  struct access access = {word + at, length_at(at, size), is_write, at > 0, false, place};
  see(access);
}

/* memmove. It is one step where both lie over each other, and where it is so long that a driver that copies often would
   run into the limit of steps. */
static void *copy_words(char *to, const char *from, size_t size, const void *place) {
  bool is_apart = to >= from + size || from >= to + size;
  if (!has_hooks || !is_apart || size > MOST_TORN) {
    if (has_hooks) see_access(from, size, false, place), see_access(to, size, true, place);
    return memmove(to, from, size);
  }
  for (size_t at = 0; at < size; at += WORD) {
    char word[WORD];
    see_word(from, at, size, false, place);
    memcpy(word, from + at, length_at(at, size));
    see_word(to, at, size, true, place);
    memcpy(to + at, word, length_at(at, size));
  }
  return to;
}

static void *set_words(char *to, int byte, size_t size, const void *place) {
  if (!has_hooks || size > MOST_TORN) {
    if (has_hooks) see_access(to, size, true, place);
    return memset(to, byte, size);
  }
  for (size_t at = 0; at < size; at += WORD) {
    see_word(to, at, size, true, place);
    memset(to + at, byte, length_at(at, size));
  }
  return to;
}

/*
 * Before a compiler's own copy of a struct, which follows at once. What it reads is what each word was at its own
 * moment: that is put in the struct's place, and taken away again before the next step.
 */
static void read_words(char *from, size_t size, const void *place) {
  char seen[MOST_TORN];
  if (size > MOST_TORN) {
    see_access(from, size, false, place);
    return;
  }
  for (size_t at = 0; at < size; at += WORD) {
    see_word(from, at, size, false, place);
    memcpy(seen + at, from + at, length_at(at, size));
  }
  if (run == NULL || !run->is_on || memcmp(seen, from, size) == 0) return;
  kept->torn.place = from;
  kept->torn.size = size;
  memcpy(kept->torn.own, from, size);
  memcpy(from, seen, size);
}
