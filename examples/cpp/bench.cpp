// The bench of kernel.c in C++: three threads, a chain of two mutexes, and which ranks the threads have by it. Before
// it a callback of the bench's own.
#include <cstdio>
#include <cstdlib>
#include <cstring>
#include <evlsim.hpp>

namespace {

void require(bool holds, const char *what) {
  if (!holds) {
    std::fprintf(stderr, "not so: %s\n", what);
    std::exit(EXIT_FAILURE);
  }
}

void attach(evlsim::kernel &kernel, std::uint16_t who, std::uint8_t prio) {
  require(kernel.call(who, evlsim_call_attach(evlsim_fifo(prio), EVLSIM_OOB)).is_done(), "attached");
}

// A callback of the bench's own: it posts semaphore 1 at each third event.
void try_third_event() {
  const evlsim_plan plan{1, EVLSIM_ACTION_BIT(EVLSIM_POST_SEM), 1, {{3, EVLSIM_POST_SEM, 1, 0}}};
  const std::uint32_t sems[] = {0, 0};
  evlsim_board board{};
  board.threads = 1, board.sems = sems, board.sem_count = 2;
  evlsim::kernel kernel(board, 1000, evlsim::bank{plan});
  require(kernel.call(0, evlsim_call_request(9, EVLSIM_OOB, 0, 0)).is_done(), "requested");
  for (int event = 0; event < 7; event++) kernel.call(0, evlsim_call_arrive(9));
  require(kernel.call(0, evlsim_call_peek(1)).count == 2, "two posts");
}

evlsim::kernel chained() {
  const evlsim_mutex mutexes[] = {{EVLSIM_NORMAL, 0}, {EVLSIM_NORMAL, 0}};
  evlsim_board board{};
  board.threads = 4, board.mutexes = mutexes, board.mutex_count = 2;
  evlsim::kernel kernel(board);
  attach(kernel, 1, 8);
  attach(kernel, 2, 28);
  attach(kernel, 3, 78);
  require(kernel.call(2, evlsim_call_claim(0, 1)).is_begun(), "thread 2 waits");
  require(kernel.call(3, evlsim_until(evlsim_call_claim(1, 2), 100)).is_begun(), "thread 3 waits");
  return kernel;
}

void try_texts() {
  evlsim::checked checked = evlsim::check("threads = 1\n", "odd.toml");
  require(checked.is_at_fault && checked.lines.rfind("odd.toml:1:1: ", 0) == 0, "a fault with its place");
  std::string picture = evlsim::draw("1 T0 put sem=0 -> done\n", EVLSIM_EVENTS);
  require(picture.find("put sem=0") != std::string::npos, "an event of the put");
  try {
    evlsim::draw("threads = 1\n");
    require(false, "it was drawn");
  } catch (const evlsim::refused &refused) {
    require(refused.status == EVLSIM_BAD_BOARD, "no trace and no scenario");
  }
  try {
    evlsim::play("T0 putt sem=0\n");
    require(false, "it was played");
  } catch (const evlsim::refused &refused) {
    require(refused.step == 1 && std::strstr(refused.what(), "bad step 1: text:1:4: ") == refused.what(), refused.what());
  }
}

void try_boards() {
  const std::uint32_t sems[] = {0, 0x80000000u};
  evlsim_board board{};
  board.threads = 1, board.sems = sems, board.sem_count = 2;
  try {
    evlsim::kernel kernel(board);
    require(false, "it was opened");
  } catch (const evlsim::refused &refused) {
    require(refused.what() == std::string("bad board: sems[1] is 2147483648: 0 to 2147483647 is wanted"), refused.what());
  }
}

/* Two callers of one machine; they may be on two threads (examples/c/machine.c). */
void try_callers() {
  const std::uint32_t sems[] = {0};
  const evlsim_mutex mutexes[] = {{EVLSIM_NORMAL, 0}};
  evlsim_board board{};
  board.threads = 2, board.sems = sems, board.sem_count = 1, board.mutexes = mutexes, board.mutex_count = 1;
  std::vector<evlsim::caller> callers = evlsim::open_machine(board, {1});
  evlsim::caller &first = callers[0], &second = callers[1];
  for (evlsim::caller &caller : callers) {
    require(caller.try_call(evlsim_call_attach(evlsim_fifo(10), EVLSIM_OOB)).is_done(), "attached");
  }
  require(first.try_lock_mutex(0).is_done() && second.begin_lock_mutex(0, 5).is_begun(), "the second waits");
  require(first.unlock_mutex_fast(0).refused_as(EVLSIM_REFUSAL_BUSY), "it is claimed");
  require(first.try_unlock_mutex(0).is_done() && second.finish_lock_mutex().is_done(), "handed on");
  require(first.try_lock_stax(0).is_done() && second.try_lock_stax(0).refused_as(EVLSIM_REFUSAL_LIMIT), "one at most");
  require(first.unlock_stax(0).is_done() && first.trace() == second.trace(), "one trace");
  require(second.unlock_mutex(0).is_done() && first.lock_mutex(0).is_done(), "a lock that may wait");
  require(first.call(evlsim_call_put(0)).is_done() && second.ask(EVLSIM_SEE_COUNT).count == 1, "a count is seen");
  require(second.wait(evlsim_call_begin_get(0)).is_done() && second.thread() == 1, "a wait that is over at once");
  require(second.wait(evlsim_until(evlsim_call_begin_get(0), 0)).is_timed_out(), "and one that is timed out");
  evlsim::caller gone = std::move(first);
  try {
    first.try_lock_stax(0);
  } catch (const evlsim::refused &refused) {
    require(refused.status == EVLSIM_NULL, "no caller is left");
    return;
  }
  require(false, "a caller that is gone was called");
}

}  // namespace

int main() {
  try_third_event();
  try_texts();
  try_boards();
  try_callers();
  evlsim::kernel kernel = chained();
  require(evlsim_see_rank(kernel.get(), 1) == 590, "thread 3's rank");
  evlsim::answer ticked = kernel.call(0, evlsim_call_tick(100));
  require(ticked.events.size() == 2 && ticked.events[1].kind == EVLSIM_PLAY_DEADLINE, "a deadline");
  require(evlsim_see_rank(kernel.get(), 1) == 540, "thread 2's rank");
  require(evlsim::play(kernel.scenario()) == kernel.trace(), "its trace");
  evlsim_call wrong = evlsim_call_now();
  wrong.prio = 1, wrong.timed = 2;
  try {
    kernel.call(0, wrong);
  } catch (const evlsim::refused &refused) {
    return refused.status == EVLSIM_BAD_NUMBER ? EXIT_SUCCESS : EXIT_FAILURE;
  }
  return EXIT_FAILURE;
}
