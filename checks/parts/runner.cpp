// The runner from C++: bodies that capture, outcomes, exceptions, threads, a replay, and headers of the library that
// name what the runner hasn't.
#include <evl/evl.h>
#include <evlsim/runner.hpp>
#include <linux/interrupt.h>

#include <cstdio>
#include <cstdlib>
#include <iostream>
#include <memory>
#include <mutex>
#include <pthread.h>
#include <stdexcept>

namespace {

struct evl_sem ready;
unsigned came, seen;

irqreturn_t on_line(int, void *) {
  evl_put_sem(&ready);
  return IRQ_HANDLED;
}

void event_comes(void *) { came++; }

void wait_for_events(unsigned most) {
  evl_new_sem(&ready, "ready");
  request_irq(5, on_line, IRQF_OOB, "line", nullptr);
  evlsim::thread waiter([] {
    evl_attach_self("waiter");
    while (evl_get_sem(&ready) == 0) seen++;
  }, "waiter");
  evlsim_may_arrive(5, 2, event_comes, nullptr);
  evlsim_rest();
  evlsim_say("%u seen; ", seen);
  if (came > most) throw std::runtime_error("too many came");
  if (seen != came) throw std::runtime_error("one was lost");
}

// A run of its own by the environment: the limits hold, and what came of it is told.
bool replays(const char *choices) {
  evlsim_limits limits{};
  limits.goes_on = limits.quiet = true;
  limits.history = 3;
  setenv("EVLSIM_REPLAY", choices, 1);
  evlsim::explored told = evlsim::explore("once_more", [] { wait_for_events(2); }, limits);
  unsetenv("EVLSIM_REPLAY");
  return told.failed && told.lists == 1 && told.all.size() == 1 &&
         told.all[0].text == "FAILED: the history is full: 3 entries" && told.all[0].choices == choices;
}

// A call that the runner hasn't, and one by its limit.
void waits_for_condition() {
  pthread_mutex_t mutex = PTHREAD_MUTEX_INITIALIZER;
  pthread_cond_t condition = PTHREAD_COND_INITIALIZER;
  evlsim::thread printer([] {
    evl_attach_self("printer");
    std::printf("%.*s", static_cast<int>(came), "x");
  });
  printer.join();
  pthread_cond_wait(&condition, &mutex);
}

bool holds(bool it, const char *what) {
  if (!it) std::printf("not so: %s\n", what);
  return it;
}

}  // namespace

int main() {
  evlsim_limits limits{};
  limits.quiet = true;
  evlsim::explored good = evlsim::explore("good", [] { wait_for_events(2); }, limits);
  bool well = holds(!good.failed && good.all.size() == 3 && good.all[0].lists == 1, "three outcomes");
  limits.goes_on = true;
  unsigned most = 1;
  evlsim::explored bad = evlsim::explore("bad", [most] { wait_for_events(most); }, limits);
  well = holds(bad.failed && bad.all.size() == 3 && bad.all[2].text == "2 seen; FAILED: an exception: too many came", "it throws") && well;
  well = holds(evlsim::replay("good", [] { wait_for_events(2); }, good.all[2].choices.c_str()), "a replay") && well;
  well = holds(replays(good.all[2].choices.c_str()), "a replay by the environment") && well;
  well = holds(int{good} == 0 && int{bad} == 1, "the status for main") && well;
  evlsim::explored refused = evlsim::explore("refused", waits_for_condition, limits);
  std::string wanted = "FAILED: the runner has no pthread_cond_wait: use a semaphore or a flag group";
  well = holds(refused.failed && refused.all[0].text == wanted, "no conditions") && well;
  limits.stays_oob = true;
  evlsim::explored printed = evlsim::explore("printed", waits_for_condition, limits);
  wanted = "FAILED: T2 printer calls printf out-of-band, which may send it in-band";
  well = holds(printed.failed && printed.all[0].text == wanted, "a call that goes in-band") && well;
  limits.forks = true;
  evlsim::explored crashed = evlsim::explore("crashed", [] {
    wait_for_events(2);
    if (came == 1) abort();
  }, limits);
  const char *why = "1 seen; FAILED: T1 body ended by signal 6, ";
  well = holds(crashed.failed && crashed.all.size() == 3 && crashed.all[1].text.find(why) == 0, "a crash") && well;
  return well ? 0 : 1;
}
