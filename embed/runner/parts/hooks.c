/*
 * Part of evlsim_runner.c: what a compiler calls before each load and store of a source that is compiled with
 * -fsanitize=thread, in place of that sanitizer's own library, with which this isn't linked. The names are those of the
 * linker alone, since a compiler has types of its own for them.
 */

#define PLACE __builtin_return_address(0)
#define ACCESS_HOOK(name, size, is_write)                                    \
  void evlsim_on_##name##size(void *at) __asm__("__tsan_" #name #size);      \
  void evlsim_on_##name##size(void *at) { see_access(at, size, is_write, PLACE); }
#define ACCESS_HOOKS(size)                               \
  ACCESS_HOOK(read, size, false)                         \
  ACCESS_HOOK(write, size, true)                         \
  ACCESS_HOOK(unaligned_read, size, false)               \
  ACCESS_HOOK(unaligned_write, size, true)               \
  ACCESS_HOOK(volatile_read, size, false)                \
  ACCESS_HOOK(volatile_write, size, true)                \
  ACCESS_HOOK(unaligned_volatile_read, size, false)      \
  ACCESS_HOOK(unaligned_volatile_write, size, true)      \
  ACCESS_HOOK(read_write, size, true)                    \
  ACCESS_HOOK(unaligned_read_write, size, true)
ACCESS_HOOKS(1)
ACCESS_HOOKS(2)
ACCESS_HOOKS(4)
ACCESS_HOOKS(8)
ACCESS_HOOKS(16)

void evlsim_on_init(void) __asm__("__tsan_init");
void evlsim_on_entry(void *from) __asm__("__tsan_func_entry");
void evlsim_on_exit(void *from) __asm__("__tsan_func_exit");
void evlsim_on_read_range(void *at, size_t size) __asm__("__tsan_read_range");
void evlsim_on_write_range(void *at, size_t size) __asm__("__tsan_write_range");
void evlsim_on_vptr_read(void *at) __asm__("__tsan_vptr_read");
void evlsim_on_vptr_update(void *at, void *to) __asm__("__tsan_vptr_update");
void *evlsim_on_memcpy(void *to, const void *from, size_t size) __asm__("__tsan_memcpy");
void *evlsim_on_memmove(void *to, const void *from, size_t size) __asm__("__tsan_memmove");
void *evlsim_on_memset(void *to, int byte, size_t size) __asm__("__tsan_memset");
void *evlsim_memcpy(void *to, const void *from, size_t size);
void *evlsim_memmove(void *to, const void *from, size_t size);
void *evlsim_memset(void *to, int byte, size_t size);

void evlsim_on_init(void) { has_hooks = true; }

/* Each function calls in where it begins: a handler or a thread that doesn't is compiled without the flag. */
void evlsim_on_entry(void *from) {
  extern const char __start_evlsim_callers[], __stop_evlsim_callers[];
  uintptr_t at = (uintptr_t)from;
  mend_torn();
  bool is_by_runner = at > (uintptr_t)__start_evlsim_callers && at <= (uintptr_t)__stop_evlsim_callers;
  if (run == NULL || !run->is_on || !is_by_runner) return;
  *(in_handler() ? &run->is_seen : &tasks[run->now].is_seen) = true;
}
void evlsim_on_exit(void *from) {
  (void)from;
  mend_torn();
}
void evlsim_on_read_range(void *at, size_t size) { read_words(at, size, PLACE); }
void evlsim_on_write_range(void *at, size_t size) { see_access(at, size, true, PLACE); }
void evlsim_on_vptr_read(void *at) { see_access(at, sizeof(void *), false, PLACE); }
void evlsim_on_vptr_update(void *at, void *to) { (void)to, see_access(at, sizeof(void *), true, PLACE); }

void *evlsim_memcpy(void *to, const void *from, size_t size) { return copy_words(to, from, size, PLACE); }
void *evlsim_memmove(void *to, const void *from, size_t size) { return copy_words(to, from, size, PLACE); }
void *evlsim_memset(void *to, int byte, size_t size) { return set_words(to, byte, size, PLACE); }
void *evlsim_on_memcpy(void *to, const void *from, size_t size) { return evlsim_memcpy(to, from, size); }
void *evlsim_on_memmove(void *to, const void *from, size_t size) { return evlsim_memcpy(to, from, size); }
void *evlsim_on_memset(void *to, int byte, size_t size) { return evlsim_memset(to, byte, size); }

/* Atomic operations: each is one step. */
static void see_atomic(const volatile void *at, size_t size, bool is_write, const void *place) {
  see_access((const void *)(uintptr_t)at, size, is_write, place);
}
#define ATOMIC_FETCH(type, bits, name)                                                                     \
  type evlsim_on_##name##bits(volatile type *at, type value, int order)                                    \
      __asm__("__tsan_atomic" #bits "_fetch_" #name);                                                      \
  type evlsim_on_##name##bits(volatile type *at, type value, int order) {                                  \
    (void)order, see_atomic(at, sizeof *at, true, PLACE);                                                  \
    return __atomic_fetch_##name(at, value, __ATOMIC_SEQ_CST);                                             \
  }
#define ATOMIC_EXCHANGE(type, bits, name)                                                                  \
  int evlsim_on_##name##bits(volatile type *at, type *old, type value, int well, int badly)                \
      __asm__("__tsan_atomic" #bits "_compare_exchange_" #name);                                           \
  int evlsim_on_##name##bits(volatile type *at, type *old, type value, int well, int badly) {              \
    (void)well, (void)badly, see_atomic(at, sizeof *at, true, PLACE);                                      \
    return __atomic_compare_exchange_n(at, old, value, false, __ATOMIC_SEQ_CST, __ATOMIC_SEQ_CST);         \
  }
#define ATOMIC_HOOKS(type, bits)                                                                           \
  type evlsim_on_load##bits(const volatile type *at, int order) __asm__("__tsan_atomic" #bits "_load");    \
  type evlsim_on_load##bits(const volatile type *at, int order) {                                          \
    (void)order, see_atomic(at, sizeof *at, false, PLACE);                                                 \
    return __atomic_load_n(at, __ATOMIC_SEQ_CST);                                                          \
  }                                                                                                        \
  void evlsim_on_store##bits(volatile type *at, type value, int order) __asm__("__tsan_atomic" #bits "_store"); \
  void evlsim_on_store##bits(volatile type *at, type value, int order) {                                   \
    (void)order, see_atomic(at, sizeof *at, true, PLACE);                                                  \
    __atomic_store_n(at, value, __ATOMIC_SEQ_CST);                                                         \
  }                                                                                                        \
  type evlsim_on_exchange##bits(volatile type *at, type value, int order)                                  \
      __asm__("__tsan_atomic" #bits "_exchange");                                                          \
  type evlsim_on_exchange##bits(volatile type *at, type value, int order) {                                \
    (void)order, see_atomic(at, sizeof *at, true, PLACE);                                                  \
    return __atomic_exchange_n(at, value, __ATOMIC_SEQ_CST);                                               \
  }                                                                                                        \
  ATOMIC_EXCHANGE(type, bits, strong)                                                                      \
  ATOMIC_EXCHANGE(type, bits, weak)                                                                        \
  type evlsim_on_val##bits(volatile type *at, type old, type value, int well, int badly)                   \
      __asm__("__tsan_atomic" #bits "_compare_exchange_val");                                              \
  type evlsim_on_val##bits(volatile type *at, type old, type value, int well, int badly) {                 \
    (void)evlsim_on_strong##bits(at, &old, value, well, badly);                                            \
    return old;                                                                                            \
  }                                                                                                        \
  ATOMIC_FETCH(type, bits, add)                                                                            \
  ATOMIC_FETCH(type, bits, sub)                                                                            \
  ATOMIC_FETCH(type, bits, and)                                                                            \
  ATOMIC_FETCH(type, bits, or)                                                                             \
  ATOMIC_FETCH(type, bits, xor)                                                                            \
  ATOMIC_FETCH(type, bits, nand)
ATOMIC_HOOKS(uint8_t, 8)
ATOMIC_HOOKS(uint16_t, 16)
ATOMIC_HOOKS(uint32_t, 32)
ATOMIC_HOOKS(uint64_t, 64)

void evlsim_on_thread_fence(int order) __asm__("__tsan_atomic_thread_fence");
void evlsim_on_signal_fence(int order) __asm__("__tsan_atomic_signal_fence");
void evlsim_on_thread_fence(int order) { (void)order; }
void evlsim_on_signal_fence(int order) { (void)order; }
