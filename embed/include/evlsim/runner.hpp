// evlsim/runner.h for C++17 and later: bodies and threads that may capture, and exceptions that fail a run.
//
//   evlsim::explore("serial", [&] { .. });
//
// A catch block may not wait: what an exception keeps is one for all threads of a run.
#ifndef EVLSIM_RUNNER_HPP
#define EVLSIM_RUNNER_HPP

#include <evlsim/runner.h>

#include <exception>
#include <functional>
#include <string>
#include <utility>
#include <vector>

namespace evlsim {

namespace inside {

inline std::function<void()> *&body() {
  static std::function<void()> *it = nullptr;
  return it;
}

// An exception that leaves the driver's code fails the run.
inline void guarded(const std::function<void()> &run) {
  std::string why;
  try {
    run();
    return;
  } catch (const std::exception &caught) {
    why = caught.what();
  } catch (...) {
    why = "of no known kind";
  }
  evlsim_fail("an exception: %s", why.c_str());
}

inline void run_body() { guarded(*body()); }

inline void run_thread(void *it) {
  auto *run = static_cast<std::function<void()> *>(it);
  guarded(*run);
  delete run;
}

}  // namespace inside

// What came of an exploration: an outcome, how many lists of events led to it, and the first of them.
struct outcome {
  std::string text;
  std::uint64_t lists;
  std::string choices;
};

struct explored : evlsim_explored {
  std::vector<outcome> all;
  // The status for main, as evlsim_explore returns it: int main() { return evlsim::explore(..); }
  operator int() const { return failed ? 1 : 0; }
};

// The name is that of the files of a failure.
inline explored explore(const char *name, std::function<void()> body, evlsim_limits limits = {}) {
  explored told{};
  inside::body() = &body;
  evlsim_body_is_nameless();
  (void)evlsim_explore_as(inside::run_body, name, &limits, &told);
  std::uint64_t lists = 0;
  const char *choices = nullptr;
  for (std::uint32_t place = 0;; place++) {
    const char *text = evlsim_outcome(place, &lists, &choices);
    if (text == nullptr) return told;
    told.all.push_back({text, lists, choices});
  }
}

inline bool test(const char *name, std::function<void()> body) {
  inside::body() = &body;
  evlsim_body_is_nameless();
  return evlsim_test_as(inside::run_body, name) == 0;
}

inline bool replay(const char *name, std::function<void()> body, const char *choices) {
  inside::body() = &body;
  evlsim_body_is_nameless();
  return evlsim_replay_as(inside::run_body, name, choices) == 0;
}

// An in-band thread of the bench.
class thread {
 public:
  explicit thread(std::function<void()> run, const char *name = "")
      : number_(evlsim_thread(inside::run_thread, new std::function<void()>(std::move(run)), name)) {}
  void join() const { evlsim_join(number_); }
  int number() const { return number_; }

 private:
  int number_;
};

}  // namespace evlsim

#endif
