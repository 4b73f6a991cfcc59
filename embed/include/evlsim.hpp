/*
 * The out-of-band core, simulated, for C++17 to C++23, over evlsim.h (docs/use/EMBEDDING.md).
 *
 *   const std::uint32_t sems[] = {0};
 *   evlsim_board board{};
 *   board.threads = 2, board.sems = sems, board.sem_count = 1;
 *   evlsim::kernel kernel(board);
 *   assert(kernel.call(0, evlsim_call_try_get(0)).refused_as(EVLSIM_REFUSAL_AGAIN));
 *
 * A kernel, or a caller of a machine, is given to one call at a time, of any thread (evlsim.h). A refused text, board, plan
 * or number is thrown; a call that the kernel refuses is an answer.
 */
#ifndef EVLSIM_HPP
#define EVLSIM_HPP

#include <evlsim.h>
#include <evlsim/waits.h>

#include <cstdint>
#include <new>
#include <optional>
#include <stdexcept>
#include <string>
#include <string_view>
#include <utility>
#include <vector>

/* Statuses, kinds and refusals are compared with their own kind alone. */
constexpr bool operator==(evlsim_status one, evlsim_status other) noexcept { return one.number == other.number; }
constexpr bool operator!=(evlsim_status one, evlsim_status other) noexcept { return one.number != other.number; }
constexpr bool operator==(evlsim_kind one, evlsim_kind other) noexcept { return one.number == other.number; }
constexpr bool operator!=(evlsim_kind one, evlsim_kind other) noexcept { return one.number != other.number; }
constexpr bool operator==(evlsim_refusal one, evlsim_refusal other) noexcept { return one.number == other.number; }
constexpr bool operator!=(evlsim_refusal one, evlsim_refusal other) noexcept { return one.number != other.number; }

namespace evlsim {

/* A text that is refused, a board, a plan or a number, with its status and the step at fault or 0. what() has both, of a
   text also its first fault ("bad step 1: text:7:1: step 1: put has no key .."), of a board the number at fault. */
struct refused : std::runtime_error {
  evlsim_status status;
  std::uint32_t step;
  explicit refused(evlsim_status why, std::uint32_t number = 0, const std::string &words = std::string())
      : std::runtime_error(evlsim_status_text(why) + (number == 0 ? std::string() : " " + std::to_string(number)) +
                           (words.empty() ? std::string() : ": " + words)),
        status(why),
        step(number) {}
};

/* The callbacks that a scenario names by their numbers. */
using bank = std::vector<evlsim_plan>;

/* Throws a status that is not EVLSIM_OK. */
inline void require_ok(evlsim_status status, std::uint32_t step = 0, const std::string &words = std::string()) {
  if (status == EVLSIM_NO_MEMORY) throw std::bad_alloc();
  if (status != EVLSIM_OK) throw refused(status, step, words);
}

/* What evlsim_check writes: lines of faults, or else of warnings. */
struct checked {
  std::string lines;
  bool is_at_fault;
};

/* Each fault of a text in a file of this name, or else each warning of one run over the bank, if there is one, or over
   the program's callbacks. Throws refused if a plan is or the name is not UTF-8, and std::bad_alloc. */
inline checked check(std::string_view text, const std::string &name = "text",
                     const std::optional<bank> &plans = std::nullopt) {
  std::string lines(4096, '\0');
  auto bytes = reinterpret_cast<const std::uint8_t *>(text.data());
  for (;;) {
    evlsim_checked told{0, false};
    auto out = reinterpret_cast<std::uint8_t *>(lines.data());
    require_ok(plans ? evlsim_check_over(plans->data(), plans->size(), name.c_str(), bytes, text.size(), 0, out,
                                         lines.size(), &told)
                     : evlsim_check(name.c_str(), bytes, text.size(), 0, out, lines.size(), &told));
    bool is_whole = told.length <= lines.size();
    lines.resize(told.length);
    if (is_whole) return checked{lines, told.is_at_fault};
  }
}

namespace inside {

/* The words of a refused text: its first fault, "text:7:1: step 1: ..", if it has one. */
inline std::string words_of(evlsim_status status, std::string_view text) {
  if (status != EVLSIM_BAD_TEXT && status != EVLSIM_BAD_BOARD && status != EVLSIM_BAD_STEP) return std::string();
  checked told = check(text);
  return told.is_at_fault ? told.lines.substr(0, told.lines.find('\n')) : std::string();
}

}  // namespace inside

/* The trace of a scenario's text from a byte on, as evlsim_play writes it, or evlsim_play_over if there is a bank.
   Throws refused and std::bad_alloc. */
inline std::string play(std::string_view text, std::uint32_t limit = 0, std::size_t start = 0,
                        const std::optional<bank> &plans = std::nullopt) {
  std::string trace(4096, '\0');
  auto bytes = reinterpret_cast<const std::uint8_t *>(text.data());
  for (;;) {
    evlsim_played played{0, 0};
    auto out = reinterpret_cast<std::uint8_t *>(trace.data());
    evlsim_status status =
        plans ? evlsim_play_over(plans->data(), plans->size(), bytes, text.size(), limit, start, out, trace.size(), &played)
              : evlsim_play(bytes, text.size(), limit, start, out, trace.size(), &played);
    require_ok(status, played.step, inside::words_of(status, text));
    std::size_t left = played.length < start ? 0 : played.length - start;
    bool is_whole = left <= trace.size();
    trace.resize(left);
    if (is_whole) return trace;
  }
}

/* The picture that evlsim_draw makes of a text, or evlsim_draw_over if there is a bank. Throws refused, with the step at
   fault, and std::bad_alloc. */
inline std::string draw(std::string_view text, std::uint8_t form = EVLSIM_SVG, std::uint32_t page = 1,
                        const std::optional<bank> &plans = std::nullopt) {
  std::string picture(65536, '\0');
  auto bytes = reinterpret_cast<const std::uint8_t *>(text.data());
  for (;;) {
    evlsim_drawn drawn{0, 0, 0, 0};
    auto out = reinterpret_cast<std::uint8_t *>(picture.data());
    evlsim_status status = plans ? evlsim_draw_over(plans->data(), plans->size(), form, page, bytes, text.size(), 0, out,
                                                    picture.size(), &drawn)
                                 : evlsim_draw(form, page, bytes, text.size(), 0, out, picture.size(), &drawn);
    require_ok(status, drawn.step, inside::words_of(status, text));
    bool is_whole = drawn.length <= picture.size();
    picture.resize(drawn.length);
    if (is_whole) return picture;
  }
}

/* What evlsim_orders writes, with its numbers. */
struct ordered : evlsim_ordered {
  std::string text{};
  explicit ordered(const evlsim_ordered &told) : evlsim_ordered(told) {}
  /* 1: what is asked holds, or nothing is; 0: something is against it; -1: longer orders were cut off. */
  int holds() const { return evlsim_holds(this); }
};

/* Every order in which the callers of a text may come, over the bank, if there is one, or the program's callbacks: the
   report, or the scenario of an outcome, from 1; `most` as of evlsim_orders. Throws refused and std::bad_alloc. */
inline ordered orders(std::string_view text, std::size_t most = 0, std::size_t outcome = 0,
                      const std::optional<bank> &plans = std::nullopt) {
  std::string told(1 << 20, '\0');
  auto bytes = reinterpret_cast<const std::uint8_t *>(text.data());
  for (;;) {
    evlsim_ordered numbers{};
    auto out = reinterpret_cast<std::uint8_t *>(told.data());
    evlsim_status status =
        plans ? evlsim_orders_over(plans->data(), plans->size(), most, outcome, bytes, text.size(), 0, out, told.size(),
                                   &numbers)
              : evlsim_orders(most, outcome, bytes, text.size(), 0, out, told.size(), &numbers);
    bool is_whole = numbers.length <= told.size();
    told.resize(numbers.length);
    if (!is_whole) continue;
    require_ok(status, numbers.step, told.empty() ? inside::words_of(status, text) : told);
    ordered found(numbers);
    found.text = std::move(told);
    return found;
  }
}

/* What evlsim_callers writes. Throws refused and std::bad_alloc. */
inline std::string callers(std::string_view text, std::uint32_t limit = 0,
                           const std::optional<bank> &plans = std::nullopt) {
  std::string told(65536, '\0');
  auto bytes = reinterpret_cast<const std::uint8_t *>(text.data());
  for (;;) {
    evlsim_played played{0, 0};
    auto out = reinterpret_cast<std::uint8_t *>(told.data());
    evlsim_status status = plans ? evlsim_callers_over(plans->data(), plans->size(), bytes, text.size(), limit, 0, out,
                                                       told.size(), &played)
                                 : evlsim_callers(bytes, text.size(), limit, 0, out, told.size(), &played);
    bool is_whole = played.length <= told.size();
    told.resize(played.length);
    if (!is_whole) continue;
    require_ok(status, played.step, told.empty() ? inside::words_of(status, text) : told);
    return told;
  }
}

namespace inside {

/* "sems[1] is 2147483648: 0 to 2147483647 is wanted" for a number out of its range, else nothing. */
inline std::string out_of(const std::string &name, std::uint64_t number, std::uint64_t least, std::uint64_t most) {
  if (number >= least && number <= most) return std::string();
  return name + " is " + std::to_string(number) + ": " + std::to_string(least) + " to " + std::to_string(most) +
         " is wanted";
}

/* The same for the first item that is, of a list that is there. */
template <typename Item, typename Number>
std::string out_of(const std::string &name, const Item *list, std::size_t count, std::size_t most_items, Number number,
                   std::uint64_t least, std::uint64_t most) {
  if (count > most_items) return out_of("the length of " + name, count, 0, most_items);
  for (std::size_t at = 0; list != nullptr && at < count; at++) {
    std::string words = out_of(name + "[" + std::to_string(at) + "]", number(list[at]), least, most);
    if (!words.empty()) return words;
  }
  return std::string();
}

/* Which number of a board, or the limit, is out of its range: what a refused board says. */
inline std::string words_of(const evlsim_board &board, std::uint32_t limit) {
  auto itself = [](std::uint64_t number) { return number; };
  auto kind = [](const evlsim_mutex &mutex) { return mutex.kind; };
  auto ceiling = [](const evlsim_mutex &mutex) { return mutex.kind == EVLSIM_CEILING ? mutex.ceiling : 1u; };
  auto in_size = [](const evlsim_rings &rings) { return rings.in_size; };
  auto out_size = [](const evlsim_rings &rings) { return rings.out_size; };
  const std::string found[] = {
      out_of("threads", board.threads, 1, 256),
      out_of("sems", board.sems, board.sem_count, 64, itself, 0, 0x7fffffff),
      out_of("flags", board.flags, board.flag_count, 64, itself, 0, 0xffffffff),
      out_of("in_size of xbufs", board.xbufs, board.xbuf_count, 16, in_size, 1, 256),
      out_of("out_size of xbufs", board.xbufs, board.xbuf_count, 16, out_size, 1, 256),
      out_of("kind of mutexes", board.mutexes, board.mutex_count, 32, kind, 0, EVLSIM_CEILING),
      out_of("ceiling of mutexes", board.mutexes, board.mutex_count, 32, ceiling, 1, 99),
      out_of("groups", board.groups, board.group_count, 16, itself, 1, 100),
      out_of("limit", limit, 1, EVLSIM_MAX_LIMIT),
  };
  for (const std::string &words : found) {
    if (!words.empty()) return words;
  }
  return std::string();
}

}  // namespace inside

/* The callbacks of the program. */
inline bank program_bank() { return bank(evlsim_program_bank, evlsim_program_bank + EVLSIM_PROGRAM_BANK); }

/* What a call answered, with the bytes that it brought and what the kernel played. */
struct answer : evlsim_answer {
  std::string bytes{};
  std::vector<evlsim_event> events{};
  explicit answer(const evlsim_answer &told) : evlsim_answer(told) {}
  bool is_done() const { return evlsim_is_done(*this); }
  bool is_begun() const { return evlsim_is_begun(*this); }
  bool is_timed_out() const { return evlsim_is_timed_out(*this); }
  bool is_refused() const { return evlsim_is_refused(*this); }
  bool refused_as(evlsim_refusal why) const { return evlsim_refused_as(*this, why); }
  bool has(evlsim_kind what) const { return evlsim_has(*this, what); }
};

/* A kernel, which is closed with the object. It can be moved, not copied. */
class kernel {
 public:
  /* Throws refused if the board, the limit or a plan is, and std::bad_alloc. */
  explicit kernel(const evlsim_board &board, std::uint32_t limit = 1000, const bank &plans = program_bank()) {
    evlsim_status status = evlsim_open(&kernel_, &board, plans.data(), plans.size(), limit);
    require_ok(status, 0, status == EVLSIM_BAD_BOARD ? inside::words_of(board, limit) : std::string());
  }
  ~kernel() { evlsim_close(&kernel_); }
  kernel(kernel &&other) noexcept { std::swap(kernel_, other.kernel_); }
  kernel &operator=(kernel &&other) noexcept {
    std::swap(kernel_, other.kernel_);
    return *this;
  }
  kernel(const kernel &) = delete;
  kernel &operator=(const kernel &) = delete;

  /* Makes a call of a thread: kernel.call(1, evlsim_call_put(0)). `bytes` are those of a write. Throws refused if a number
     of the call is out of its range, and std::bad_alloc. */
  answer call(std::uint16_t who, const evlsim_call &asked, std::string_view bytes = {}) {
    evlsim_answer told{};
    std::uint8_t read[256];
    require_ok(evlsim_apply(&kernel_, who, &asked, reinterpret_cast<const std::uint8_t *>(bytes.data()), bytes.size(),
                            read, sizeof read, &told));
    answer whole(told);
    if (told.kind == EVLSIM_BYTES) whole.bytes.assign(read, read + told.number);
    whole.events.resize(told.plays);
    for (std::size_t it = 0; it < told.plays; it++) {
      require_ok(evlsim_event_at(&kernel_, told.first_play + it, &whole.events[it]));
    }
    return whole;
  }

  /* The kernel is as it was made, with an empty history. */
  void reset() { require_ok(evlsim_reset(&kernel_)); }

  /* For the questions of evlsim.h: evlsim_see_rank(kernel.get(), 1). */
  evlsim_kernel *get() { return &kernel_; }

  std::string scenario() { return text(evlsim_scenario); }
  std::string trace() { return text(evlsim_trace); }

 private:
  template <typename Function>
  std::string text(Function function) {
    std::size_t length = 0;
    require_ok(function(&kernel_, 0, nullptr, 0, &length));
    std::string whole(length, '\0');
    require_ok(function(&kernel_, 0, reinterpret_cast<std::uint8_t *>(whole.data()), length, &length));
    return whole;
  }

  evlsim_kernel kernel_ = EVLSIM_NO_KERNEL;
};

/* A caller of a machine, which is closed with the object. It can be moved, not copied; a move is a call of it. */
class caller {
 public:
  caller() = default;
  ~caller() { evlsim_caller_close(&caller_); }
  caller(caller &&other) noexcept { swap(other); }
  caller &operator=(caller &&other) noexcept {
    swap(other);
    return *this;
  }
  caller(const caller &) = delete;
  caller &operator=(const caller &) = delete;

  /* A call of the caller's thread, without waiting. `bytes` are those of a write. Throws refused if a number of the call is
     out of its range, and std::bad_alloc. */
  answer try_call(const evlsim_call &asked, std::string_view bytes = {}) {
    std::uint8_t read[256];
    return told_of(evlsim_try_call_bytes(&caller_, asked, data_of(bytes), bytes.size(), read, sizeof read), read);
  }

  /* The same, however long others have the core; and of a call that begins a wait for an element, until that is over
     (evlsim/waits.h). */
  answer call(const evlsim_call &asked, std::string_view bytes = {}) {
    std::uint8_t read[256];
    return told_of(evlsim_do_call_bytes(&caller_, asked, data_of(bytes), bytes.size(), read, sizeof read), read);
  }
  answer wait(const evlsim_call &begin, std::string_view bytes = {}) {
    std::uint8_t read[256];
    return told_of(evlsim_do_wait(&caller_, thread_, begin, data_of(bytes), bytes.size(), read, sizeof read), read);
  }

  /* What the kernel tells, which enters no call. Throws refused if another caller has the core. */
  evlsim_reading ask(evlsim_question_kind kind, std::uint16_t element = 0, evlsim_stage stage = EVLSIM_INBAND,
                     evlsim_way way = EVLSIM_IN, evlsim_awaited on = EVLSIM_ON_SEM, std::size_t place = 0) {
    evlsim_reading reading{};
    require_ok(evlsim_caller_ask(&caller_, kind, element, stage, way, on, place, &reading));
    return reading;
  }

  /* Its thread: its place among the machine's callers. */
  std::uint16_t thread() const { return thread_; }

  /* Mutexes and staxes, as evlsim/machine.h says of each; none waits. They throw refused if the caller is closed. */
  answer try_lock_mutex(std::uint16_t mutex) { return called(evlsim_try_lock_mutex(&caller_, mutex)); }
  answer unlock_mutex_fast(std::uint16_t mutex) { return called(evlsim_unlock_mutex_fast(&caller_, mutex)); }
  answer try_unlock_mutex(std::uint16_t mutex) { return called(evlsim_try_unlock_mutex(&caller_, mutex)); }
  answer begin_lock_mutex(std::uint16_t mutex) { return called(evlsim_begin_lock_mutex(&caller_, mutex)); }
  answer begin_lock_mutex(std::uint16_t mutex, std::uint64_t until) {
    return called(evlsim_begin_lock_mutex_until(&caller_, mutex, until));
  }
  answer finish_lock_mutex() { return called(evlsim_finish_lock_mutex(&caller_)); }
  answer try_lock_stax(std::uint16_t stax) { return called(evlsim_try_lock_stax(&caller_, stax)); }
  answer unlock_stax(std::uint16_t stax) { return called(evlsim_unlock_stax(&caller_, stax)); }

  /* The same, however long that takes, as evlsim/waits.h says of each. */
  answer lock_mutex(std::uint16_t mutex) { return called(evlsim_lock_mutex(&caller_, mutex)); }
  answer lock_mutex(std::uint16_t mutex, std::uint64_t until) {
    return called(evlsim_lock_mutex_until(&caller_, mutex, until));
  }
  answer unlock_mutex(std::uint16_t mutex) { return called(evlsim_unlock_mutex(&caller_, mutex)); }
  answer lock_stax(std::uint16_t stax) { return called(evlsim_lock_stax(&caller_, stax)); }

  /* For the functions of evlsim/machine.h. */
  evlsim_caller *get() { return &caller_; }

  /* The trace of all calls of the machine's callers. Throws refused if another caller has the core, and std::bad_alloc. */
  std::string trace() {
    std::size_t length = 0;
    require_ok(evlsim_caller_trace(&caller_, 0, nullptr, 0, &length));
    for (;;) {
      std::string whole(length, '\0');
      std::size_t had = length;
      require_ok(evlsim_caller_trace(&caller_, 0, reinterpret_cast<std::uint8_t *>(whole.data()), had, &length));
      whole.resize(length < had ? length : had);
      if (length <= had) return whole;
    }
  }

 private:
  static answer called(const evlsim_answer &told) {
    require_ok(evlsim_why(told));
    return answer(told);
  }
  static answer told_of(const evlsim_answer &told, const std::uint8_t *read) {
    answer whole = called(told);
    if (told.kind == EVLSIM_BYTES) whole.bytes.assign(read, read + told.number);
    return whole;
  }
  static const std::uint8_t *data_of(std::string_view bytes) {
    return reinterpret_cast<const std::uint8_t *>(bytes.data());
  }
  void swap(caller &other) noexcept {
    std::swap(caller_, other.caller_);
    std::swap(thread_, other.thread_);
  }

  friend std::vector<caller> open_machine(const evlsim_board &, const std::vector<std::uint16_t> &, std::uint32_t,
                                          const bank &);
  evlsim_caller caller_ = EVLSIM_NO_CALLER;
  std::uint16_t thread_ = 0;
};

/* The callers of a new machine, in the order of its threads; the last one that goes frees it. Throws refused if the board,
   a stax, the limit or a plan is, and std::bad_alloc. */
inline std::vector<caller> open_machine(const evlsim_board &board, const std::vector<std::uint16_t> &staxes = {},
                                        std::uint32_t limit = 1000, const bank &plans = program_bank()) {
  std::vector<evlsim_caller> opened(board.threads);
  std::vector<caller> callers(board.threads);
  evlsim_caller none = EVLSIM_NO_CALLER;
  evlsim_caller *to = opened.empty() ? &none : opened.data();
  evlsim_status status = evlsim_machine_open(to, opened.size(), &board, staxes.data(), staxes.size(), plans.data(),
                                             plans.size(), limit);
  if (status == EVLSIM_BAD_BOARD) {
    std::string words = inside::words_of(board, limit);
    auto holders = [](std::uint16_t limit_of_stax) { return limit_of_stax; };
    if (words.empty()) words = inside::out_of("staxes", staxes.data(), staxes.size(), 16, holders, 1, 1000);
    require_ok(status, 0, words);
  }
  require_ok(status);
  for (std::size_t place = 0; place < opened.size(); place++) {
    callers[place].caller_ = opened[place];
    callers[place].thread_ = static_cast<std::uint16_t>(place);
  }
  return callers;
}

}  // namespace evlsim

#endif
