// How many moments there are in the orders of four callers of six steps over a semaphore, a flag group and a mutex: a small model of
// these three elements with the list of the ready threads, gone through level by level as the library does.
//
//     g++ -O2 -std=c++17 -o states states.cpp && ./states [answers] [ready]
//
// A state has the callers' places, the elements, and, by the words, what each caller was answered so far, and the order in which
// threads became ready.
#include <cstdio>
#include <cstring>
#include <string>
#include <unordered_map>
#include <vector>

constexpr int CALLERS = 4, STEPS = 6;
constexpr unsigned char NOBODY = 255;
using Byte = unsigned char;
using Count = unsigned __int128;

enum Word { BeginGet, Finish, Put, TryGet, Peek, BeginTake, PostFlags, PeekFlags, Claim, Release };

struct Step {
    Word word;
    int value;  // a mask, or the owner that a claim names
};

using Programs = std::vector<std::vector<Step>>;

struct Queue {
    Byte count, threads[MACHINE], masks[MACHINE];

    // Behind all of at least this rank: a thread's rank is its number.
    void enter(int thread, int mask) {
        int at = count++;
        for (; at > 0 && threads[at - 1] < thread; at--) threads[at] = threads[at - 1], masks[at] = masks[at - 1];
        threads[at] = thread, masks[at] = mask;
    }
    int leave(int at) {
        int thread = threads[at];
        count--;
        for (; at < count; at++) threads[at] = threads[at + 1], masks[at] = masks[at + 1];
        threads[count] = masks[count] = NOBODY;
        return thread;
    }
};

enum : Byte { NoWait, Waits, Ended };

struct State {
    Byte places[MACHINE], answers[MACHINE][STEPS];
    Byte sem, bits, owner;
    Queue gets, takes, claims;
    Byte ready_count, ready[MACHINE];
    Byte waits[MACHINE], gains[MACHINE];
};

static bool keeps_answers, keeps_ready;

static void block(State &s, int thread) {
    s.waits[thread] = Waits;
    if (!keeps_ready) return;
    int left = 0;
    for (int at = 0; at < s.ready_count; at++)
        if (s.ready[at] != thread) s.ready[left++] = s.ready[at];
    for (int at = left; at < CALLERS; at++) s.ready[at] = NOBODY;
    s.ready_count = left;
}

static void wake(State &s, int thread, int gain) {
    s.waits[thread] = Ended, s.gains[thread] = gain;
    if (keeps_ready) s.ready[s.ready_count++] = thread;
}

static void serve_at_once(State &s, int thread, int gain) { s.waits[thread] = Ended, s.gains[thread] = gain; }

static void post_flags(State &s, int bits) {
    s.bits |= bits;
    for (int at = 0; at < s.takes.count;) {
        int gain = s.bits & s.takes.masks[at];
        if (!gain) { at++; continue; }
        s.bits &= ~gain;
        wake(s, s.takes.leave(at), gain);
    }
}

// The answer of a caller's step as a number; 0 where it waits.
static int answer(State &s, int caller, Step step) {
    if (step.word == Finish) {
        if (s.waits[caller] == Waits) return 0;
        if (s.waits[caller] == NoWait) return 9;
        s.waits[caller] = NoWait;
        int gain = s.gains[caller];
        s.gains[caller] = 0;
        return 50 + gain;
    }
    if (s.waits[caller] != NoWait) return 8;
    switch (step.word) {
    case TryGet: return s.sem ? (s.sem--, 1) : 3;
    case Put:
        if (s.gets.count) wake(s, s.gets.leave(0), 0); else s.sem++;
        return 1;
    case Peek: return s.gets.count ? 100 + s.gets.count : 10 + s.sem;
    case BeginGet:
        if (s.sem) s.sem--, serve_at_once(s, caller, 0); else s.gets.enter(caller, 0), block(s, caller);
        return 2;
    case BeginTake:
        if (int gain = s.bits & step.value) s.bits &= ~gain, serve_at_once(s, caller, gain);
        else s.takes.enter(caller, step.value), block(s, caller);
        return 2;
    case PostFlags: return post_flags(s, step.value), 1;
    case PeekFlags: return 20 + s.bits;
    case Claim:
        if (step.value == caller || (s.owner != NOBODY && s.owner != step.value)) return 7;
        s.owner = step.value, s.claims.enter(caller, 0), block(s, caller);
        return 2;
    default: {
        if (s.owner != NOBODY && s.owner != caller) return 6;
        int next = s.claims.count ? s.claims.leave(0) : NOBODY;
        s.owner = s.claims.count ? next : NOBODY;
        if (next != NOBODY) wake(s, next, 0);
        return 30 + next % 16;
    }
    }
}

static State opening() {
    State s;
    memset(&s, 0, sizeof s);
    s.sem = 1, s.owner = NOBODY;
    for (Queue *queue : {&s.gets, &s.takes, &s.claims})
        memset(queue->threads, NOBODY, CALLERS), memset(queue->masks, NOBODY, CALLERS);
    for (int at = 0; at < CALLERS; at++) s.ready[at] = keeps_ready ? at : NOBODY;
    s.ready_count = keeps_ready ? CALLERS : 0;
    return s;
}

static std::string key(const State &s) { return std::string(reinterpret_cast<const char *>(&s), sizeof s); }

static void go_through(const Programs &programs) {
    std::unordered_map<std::string, Count> level{{key(opening()), 1}};
    size_t states = 0, edges = 0, widest = 0, ends = 0;
    Count orders = 0;
    while (!level.empty()) {
        std::unordered_map<std::string, Count> next;
        states += level.size(), widest = std::max(widest, level.size());
        for (const auto &[text, count] : level) {
            bool is_over = true;
            State from;
            memcpy(&from, text.data(), sizeof from);
            for (int caller = 0; caller < CALLERS; caller++) {
                if (from.places[caller] == STEPS) continue;
                State to = from;
                int told = answer(to, caller, programs[caller][from.places[caller]]);
                if (!told) continue;
                if (keeps_answers) to.answers[caller][to.places[caller]] = told;
                to.places[caller]++, edges++, is_over = false;
                next[key(to)] += count;
            }
            if (is_over) ends++, orders += count;
        }
        level.swap(next);
    }
    printf("%zu states, %zu steps between them, at most %zu of one number of steps, %zu ends, %.0f orders\n", states, edges, widest, ends, double(orders));
}

int main(int count, char **words) {
    for (int at = 1; at < count; at++) keeps_answers |= !strcmp(words[at], "answers"), keeps_ready |= !strcmp(words[at], "ready");
    Step finish{Finish, 0}, get{BeginGet, 0}, put{Put, 0}, attempt{TryGet, 0}, peek{Peek, 0}, look{PeekFlags, 0}, give{Release, 0};
    auto take = [](int mask) { return Step{BeginTake, mask}; };
    auto post = [](int bits) { return Step{PostFlags, bits}; };
    go_through({{get, finish, post(1), give, put, peek},
                {Step{Claim, 0}, finish, give, get, finish, put},
                {take(1), finish, post(2), get, finish, put},
                {attempt, put, take(2), finish, post(1), look}});
    go_through({{put, attempt, post(1), attempt, put, peek},
                {attempt, post(2), give, attempt, peek, put},
                {look, attempt, post(2), attempt, peek, put},
                {attempt, put, post(4), look, post(1), look}});
}
