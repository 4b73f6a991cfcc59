/*
 * Part of evlsim_runner.c: tasks as coroutines, each on a stack of its own with a page behind it that can't be touched.
 */

/* What AddressSanitizer wants to know of a change of stacks; without it these aren't there. */
extern void __sanitizer_start_switch_fiber(void **save, const void *bottom, size_t size) __attribute__((weak));
extern void __sanitizer_finish_switch_fiber(void *save, const void **bottom, size_t *size) __attribute__((weak));
extern void __asan_init(void) __attribute__((weak));

/*
 * Keeps what a function has to keep, on the stack that it leaves, notes where that is, and goes on with the other
 * stack. swapcontext does the same with two system calls more, and AddressSanitizer warns of it.
 */
#if !defined(__x86_64__)
#error "the runner is for x86-64, as the library is"
#endif
void evlsim_change_stacks(void **from, void *to);
__asm__(
    ".text\n"
    ".globl evlsim_change_stacks\n"
    ".hidden evlsim_change_stacks\n"
    ".type evlsim_change_stacks, @function\n"
    "evlsim_change_stacks:\n"
    "  pushq %rbp\n  pushq %rbx\n  pushq %r12\n  pushq %r13\n  pushq %r14\n  pushq %r15\n"
    "  movq %rsp, (%rdi)\n"
    "  movq %rsi, %rsp\n"
    "  popq %r15\n  popq %r14\n  popq %r13\n  popq %r12\n  popq %rbx\n  popq %rbp\n"
    "  ret\n"
    ".size evlsim_change_stacks, . - evlsim_change_stacks\n");

static bool has_sanitizer(void) { return __asan_init != NULL; }

static void *pages(size_t size, int sharing) {
  void *at = mmap(NULL, size, PROT_READ | PROT_WRITE, sharing | MAP_ANONYMOUS | MAP_NORESERVE, -1, 0);
  if (at == MAP_FAILED) {
    fputs("evlsim: no memory for a run\n", stderr);
    exit(EXIT_FAILURE);
  }
  return at;
}

/* The stack of a task, which it keeps from run to run. */
static void make_stack(struct task *task) {
  if (task->stack != NULL) return;
  size_t page = (size_t)sysconf(_SC_PAGESIZE);
  char *at = pages(STACK_BYTES + page, MAP_PRIVATE);
  mprotect(at, page, PROT_NONE);
  task->stack = at + page;
  VALGRIND_STACK_REGISTER(task->stack, task->stack + STACK_BYTES);
}

/* The task behind whose stack this address lies, or -1. */
static int guarded_by(const char *address) {
  size_t page = (size_t)sysconf(_SC_PAGESIZE);
  for (int each = 0; each < TASKS; each++) {
    const char *stack = tasks[each].stack;
    if (stack != NULL && address >= stack - page && address < stack) return each;
  }
  return -1;
}

static bool is_on_stack(const struct task *task, const char *address) {
  return address >= task->stack && address < task->stack + STACK_BYTES;
}

/* Goes on with a task from another one, or from outside where `from` is null. */
static void change_to(struct task *from, struct task *to) {
  void **fake = from == NULL ? &outside_fake : &from->fake_stack;
  if (__sanitizer_start_switch_fiber != NULL) __sanitizer_start_switch_fiber(fake, to->stack, STACK_BYTES);
  evlsim_change_stacks(from == NULL ? &outside : &from->at, to->at);
  if (__sanitizer_finish_switch_fiber != NULL) __sanitizer_finish_switch_fiber(*fake, NULL, NULL);
}

/* Ends the run, as `run->ending` says; the tasks stay where they are, and are never gone on with. */
__attribute__((noreturn)) static void leave(void) {
  if (__sanitizer_start_switch_fiber != NULL) __sanitizer_start_switch_fiber(NULL, outside_stack, outside_bytes);
  void *here;
  evlsim_change_stacks(&here, outside);
  abort();
}

/* Where each task begins. */
CALLER static void enter(void) {
  bool is_first = run->now == BODY && outside_stack == NULL;
  if (__sanitizer_finish_switch_fiber != NULL) {
    const void *bottom = NULL;
    size_t size = 0;
    __sanitizer_finish_switch_fiber(NULL, &bottom, &size);
    if (is_first) outside_stack = bottom, outside_bytes = size;
  }
  struct task *task = &tasks[run->now];
  task->has_begun = true;
  finish_task(task->run(task->argument));
}

/* A stack whose first step enters the task: behind the six registers stands where to go on, and no way back. */
static void prepare(struct task *task) {
  make_stack(task);
  void **top = (void **)(void *)(task->stack + STACK_BYTES);
  void (*first)(void) = enter;
  memset(top - 8, 0, 8 * sizeof *top);
  memcpy(top - 2, &first, sizeof first);
  task->at = top - 8;
}
