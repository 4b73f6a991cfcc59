"""Whether the calls at each mutex and each stax of a run make one order: each is answered as a small machine of its own
answers it there, and stands between the two stamps that its caller took around it. The machines are written here once more,
by the rules of the words; whom a mutex goes to that is handed on is read in the kernel's history, release by release."""
import collections
import re

NO_MEMORY, HISTORY_FULL, CORE_BUSY, UNKNOWN, INVALID, AGAIN, BUSY, _, DEADLOCK, LIMIT, _, _, WRONG_STAGE, _, RACED = range(1, 16)
PASSED, WAITS, TIMED_OUT, LAST = 100, 101, 102, 103
KINDS = ["normal", "recursive", "ceiling", "normal"]
LIMITS = [2, 1]
MOST_STEPS = 400_000
RELEASE = re.compile(rb"^\d+ T(\d+) release mutex=(\d+) -> next (none|\d+)( more)?", re.M)

Call = collections.namedtuple("Call", "thread step answer begun ended")
Word = collections.namedtuple("Word", "owner offered mark depth released")
Release = collections.namedtuple("Release", "thread next more")


class Mutex:
    """A mutex's word: who has it or has it offered, whether it is claimed, how deep it is held, how often it was released."""

    def __init__(self, kind, releases):
        self.nests, self.ceiling, self.releases = kind == "recursive", kind == "ceiling", releases
        self.first = Word(None, False, False, 0, 0)

    def is_end(self, word):
        return word.released == len(self.releases)

    def taken(self, word, thread):
        """The words after a lock that comes through."""
        if word.owner is None:
            return [word._replace(owner=thread, depth=1)]
        if word.owner == thread and not word.offered and self.nests:
            return [word._replace(depth=word.depth + 1)]
        return []

    def marked(self, word, thread):
        return [word._replace(mark=True)] if word.owner not in (None, thread) else []

    def refused(self, word, call):
        """The words after a try or a beginning that is refused."""
        if call.answer == BUSY:
            return [word] if word.owner not in (None, call.thread) else []
        if call.answer == DEADLOCK:
            return [word] if word.owner == call.thread else self.marked(word, call.thread) if call.step != "try" else []
        return [word]

    def accepted(self, word, thread):
        return [word._replace(offered=False, depth=1)] if word.owner == thread and word.offered else []

    def given(self, word, thread):
        """The words after a pass that was spent with the kernel or without it."""
        if word.owner != thread or word.offered:
            return []
        if word.depth > 1:
            return [word._replace(depth=word.depth - 1)]
        if not (word.mark or self.ceiling):
            return [word._replace(owner=None, depth=0)]
        if self.is_end(word) or self.releases[word.released].thread != thread:
            return []
        release = self.releases[word.released]
        return [Word(release.next, release.next is not None, release.more, 0, word.released + 1)]

    def goes(self, word, call, phase):
        """The words and phases after a step of a call; the phase None is its end."""
        step, answer, thread = call.step, call.answer, call.thread
        done = lambda words: [(it, None) for it in words]
        if step == "finish" or phase == 1:
            if answer == PASSED:
                return done(self.accepted(word, thread))
            return done([word] if not (word.owner == thread and word.offered) else [])
        if step == "unlock_fast" and answer == PASSED:
            return done(self.given(word, thread)) if word.depth > 1 or not (word.mark or self.ceiling) else []
        if step == "unlock" and answer == PASSED:
            return done(self.given(word, thread))
        if step in ("unlock", "unlock_fast"):
            return done([word] if word.owner == thread and (word.mark or self.ceiling) else [])
        if step == "lock" and answer in (PASSED, TIMED_OUT):
            waits = [(it, 1) for it in self.marked(word, thread)]
            return waits + (done(self.taken(word, thread)) if answer == PASSED else [])
        if step == "lock" and answer in (HISTORY_FULL, NO_MEMORY):
            return done([word] + self.marked(word, thread))
        if answer == PASSED:
            return done(self.taken(word, thread))
        if answer == WAITS:
            return done(self.marked(word, thread))
        return done(self.refused(word, call))

    def only_looks(self, call):
        """Whether a call changes no word, so that it may come as soon as it fits."""
        return call.answer in (BUSY, CORE_BUSY, UNKNOWN, WRONG_STAGE, LIMIT) or call.step == "try" and call.answer != PASSED \
            or call.step == "finish" and call.answer == TIMED_OUT or call.step.startswith("unlock") and call.answer != PASSED


class Stax:
    """Who holds a stax, and at which stage."""

    def __init__(self, limit):
        self.limit, self.first = limit, (None, frozenset())

    def is_end(self, _word):
        return True

    def at(self, word, call, stage):
        now, holders = word
        if call.answer == PASSED:
            fits = now in (None, stage) and len(holders) < self.limit and call.thread not in holders
            return [(stage, holders | {call.thread})] if fits else []
        if call.answer == LIMIT:
            return [word] if now == stage and len(holders) == self.limit and call.thread not in holders else []
        if call.answer == AGAIN:
            return [word] if now not in (None, stage) else []
        if call.answer == BUSY:
            return [word] if call.thread in holders else []
        return [word]

    def goes(self, word, call, _phase):
        now, holders = word
        if call.step == "leave":
            left = holders - {call.thread}
            if call.answer not in (PASSED, LAST):
                return [(word, None)] if call.thread not in holders else []
            fits = call.thread in holders and (call.answer == PASSED or not left)
            return [((now if left else None, left), None)] if fits else []
        stages = {"enter_oob": ["oob"], "enter_inband": ["inband"], "enter": ["oob", "inband"]}[call.step]
        return [(it, None) for stage in stages for it in self.at(word, call, stage)]

    def only_looks(self, call):
        return call.answer not in (PASSED, LAST)


class Search:
    """The places of all threads in their calls, each with its phase, while one order of all calls is looked for."""

    def __init__(self, machine, calls):
        self.machine = machine
        by_thread = collections.defaultdict(list)
        for call in sorted(calls, key=lambda it: it.begun):
            by_thread[call.thread].append(call)
        self.rows = list(by_thread.values())

    def looked(self, places, word):
        """The places after all calls that only look and fit here."""
        again = True
        while again:
            again = False
            bound = self.bound(places)
            for row, (place, phase) in enumerate(places):
                call = self.rows[row][place] if place < len(self.rows[row]) else None
                if call and call.begun <= bound and self.machine.only_looks(call) and self.machine.goes(word, call, phase):
                    places = places[:row] + ((place + 1, 0),) + places[row + 1:]
                    again = True
        return places

    def bound(self, places):
        """The first stamp at which a call that isn't made yet was over."""
        return min((self.rows[row][place].ended for row, (place, _) in enumerate(places) if place < len(self.rows[row])), default=0)

    def next_of(self, places, word):
        """What may come next, the call that was over first at the end."""
        bound, found = self.bound(places), []
        for row, (place, phase) in enumerate(places):
            call = self.rows[row][place] if place < len(self.rows[row]) else None
            if call is None or call.begun > bound or self.machine.only_looks(call):
                continue
            for behind, on in self.machine.goes(word, call, phase):
                at = (place + 1, 0) if on is None else (place, on)
                found.append((call.ended, places[:row] + (at,) + places[row + 1:], behind))
        return [(places, word) for _, places, word in sorted(found, key=lambda it: -it[0])]

    def finds(self):
        """Whether there is an order; None where it wasn't found within so many steps."""
        ends = tuple(len(row) for row in self.rows)
        left, seen = [(tuple((0, 0) for _ in self.rows), self.machine.first)], set()
        while left:
            places, word = left.pop()
            places = self.looked(places, word)
            if tuple(place for place, _ in places) == ends:
                if self.machine.is_end(word):
                    return True
                continue
            if (places, word) in seen:
                continue
            seen.add((places, word))
            if len(seen) > MOST_STEPS:
                return None
            left.extend(self.next_of(places, word))
        return False


def releases_of(trace, mutex):
    """Whom a mutex was handed to, release by release."""
    found = []
    for thread, of, to, more in RELEASE.findall(trace):
        if int(of) == mutex:
            found.append(Release(int(thread), None if to == b"none" else int(to), bool(more)))
    return found


def calls_of(words):
    """The calls at each mutex, and at each stax."""
    mutexes, staxes = collections.defaultdict(list), collections.defaultdict(list)
    for line in words.decode().splitlines():
        thread, step, number, answer, begun, ended = line.split()
        into = staxes if step.startswith("enter") or step == "leave" else mutexes
        into[int(number)].append(Call(int(thread), step, int(answer), int(begun), int(ended)))
    return mutexes, staxes


def unordered(trace, words):
    """Which mutexes and staxes have no such order, in words; and how many calls were looked at."""
    mutexes, staxes = calls_of(words)
    found = [(f"mutex {number}", Search(Mutex(KINDS[number], releases_of(trace, number)), calls)) for number, calls in mutexes.items()]
    found += [(f"stax {number}", Search(Stax(LIMITS[number]), calls)) for number, calls in staxes.items()]
    wrong = []
    for name, search in found:
        told = search.finds()
        if not told:
            wrong.append(f"no order of the calls at {name}" if told is False else f"no order found of the calls at {name}")
    return wrong, sum(len(calls) for calls in [*mutexes.values(), *staxes.values()])
