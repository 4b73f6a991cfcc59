"""A driver's own code in Python over a kernel: its threads are generators, and each moment at which an interrupt may
come between two of their steps is tried (docs/use/DRIVERS.md).

>>> def body(bench):
...     sem, seen = bench.sem(0), []
...     def waiter(thread):
...         yield thread.attach("fifo 10")
...         while True:
...             yield thread.get(sem)
...             seen.append(1)
...     bench.thread(waiter)
...     bench.request(5, lambda: bench.put(sem))
...     bench.may_arrive(5, times=2)
...     yield bench.rest()
...     bench.say(f"{len(seen)} seen")
>>> found = explore(body)
>>> found.failed, sorted(found.outcomes)
(False, ['0 seen', '1 seen', '2 seen'])
>>> found.is_cut, explore(body, runs=3).is_cut
(False, True)
>>> explore(body, choices="line 5 @ 9999").why
"RuntimeError: the chosen event line 5 @ 9999 didn't come: a list of another body, or a body that isn't the same in each run?"
>>> explore(body, choices="line 6 @ 3").why
"RuntimeError: the chosen event line 6 @ 3 can't come there: a list of another body, or a body that isn't the same in each run?"
"""

import collections.abc
import inspect
import os
import sys
import traceback
from collections import Counter, deque
from typing import Any, Callable, Deque, Dict, Generator, Iterable, List, NamedTuple, NoReturn, Optional, Tuple

from . import _library as lib
from ._answers import Answer, Line
from ._errors import BadQuestion, CallRefused, items, near, whole, wrong_type
from ._kernel import PROGRAM_BANK, Plan
from ._machine import Kernel
from ._traces import keys_text

__all__ = ["Bench", "Explored", "NotYielded", "Request", "Thread", "explore"]

Step = Tuple[str, str, Dict[str, Any]]
Choices = Tuple[Tuple[int, str], ...]
MACHINE, BODY = 0, 1
OTHER = "a list of another body, or a body that isn't the same in each run?"
ASKED = "the kernel of a run only answers questions, as see_count: a thread yields its calls, a handler has "
ASKED += "bench.put and bench.post, an interrupt comes by bench.may_arrive, and the run closes it"


class Explored(NamedTuple):
    """What came of an exploration: of a run that failed why, its events as a list, and its texts; how many lists were
    tried, how many ended with each outcome, whether some were not tried, since `runs` were made, and where in the test
    a run that failed raised: the file, line and function, or ""."""

    failed: bool
    why: str
    choices: str
    trace: str
    scenario: str
    lists: int
    outcomes: Dict[str, int]
    is_cut: bool
    where: str = ""


class _Stuck(Exception):
    """All threads wait, and nothing is due."""


class NotYielded(RuntimeError):
    """A thread's call was made and not yielded, so nothing was called: `place` says where."""

    def __init__(self, message: str, place: str = "") -> None:
        super().__init__(message)
        self.place = place


class Request:
    """A call of a thread, which is made where it is yielded."""

    __slots__ = ("step", "is_yielded", "_name", "_code", "_line", "_lost")

    def __init__(self, name: str, step: Step, lost: List[NotYielded]) -> None:
        self.step, self.is_yielded, self._name, self._lost = step, False, name, lost
        frame = sys._getframe(2)
        self._code, self._line = frame.f_code, frame.f_lineno

    def __del__(self) -> None:
        if not self.is_yielded:
            place = f"{self._code.co_filename}:{self._line}, in {self._code.co_name}"
            self._lost.append(NotYielded(f"{self._name}(..) was not yielded: answer = yield {self._name}(..)", place))

    def __repr__(self) -> str:
        return f"<{self._name}, to be yielded>"


Steps = Generator[Optional[Request], Any, None]


def _no_steps() -> Steps:
    yield None


class Thread:
    """A thread of a run. Its calls are yielded: answer = yield thread.get(sem). One that the kernel refuses raises
    CallRefused there, unless `explore` allows the refusal."""

    def __init__(self, number: int, lost: List[NotYielded]) -> None:
        self.number = number
        self.steps: Steps = _no_steps()
        self.pending: Optional[Step] = None
        self.value: Any = None
        self.refused: Optional[CallRefused] = None
        self._lost = lost
        self.has_ended = self.is_attached = self.is_oob = self.waits = self.rests = False
        self.date: Optional[int] = None

    def attach(self, policy: str, stage: str = "oob") -> Request:
        """Makes it a thread of the core, out-of-band if no stage is named: "fifo 10", "rr 10 1000" and so on."""
        return Request("thread.attach", ("call", "attach", {"policy": policy, "stage": stage}), self._lost)

    def detach(self) -> Request:
        """Takes it out of the core, in-band."""
        return Request("thread.detach", ("call", "detach", {}), self._lost)

    def switch(self, stage: str) -> Request:
        """Moves it to "inband" or "oob"."""
        return Request("thread.switch", ("call", "set_stage", {"stage": stage}), self._lost)

    def put(self, sem: int) -> Request:
        """Serves the first thread that waits for a semaphore, or raises its count."""
        return Request("thread.put", ("call", "put", {"sem": sem}), self._lost)

    def try_get(self, sem: int) -> Request:
        """Takes one from a semaphore: the answer is false (`Again`) where its count is 0."""
        return Request("thread.try_get", ("call", "try_get", {"sem": sem}), self._lost)

    def get(self, sem: int, until: Optional[int] = None) -> Request:
        """Takes one, and waits for it; the answer is "timed out" at the date `until`, in nanoseconds."""
        return Request("thread.get", ("wait", "begin_get", {"sem": sem, "until": until}), self._lost)

    def post(self, flags: int, bits: int) -> Request:
        """Adds bits to a flag group."""
        return Request("thread.post", ("call", "post_flags", {"flags": flags, "bits": bits}), self._lost)

    def take(self, flags: int, kind: str = "any", until: Optional[int] = None) -> Request:
        """Takes bits, "any", "of MASK" or "exact MASK", and waits for them: the answer's value is the bits."""
        return Request("thread.take", ("wait", "begin_take", {"flags": flags, "kind": kind, "until": until}), self._lost)

    def sleep(self, until: int) -> Request:
        """Sleeps until a date in nanoseconds, in-band."""
        return Request("thread.sleep", ("sleep", "", {"until": until}), self._lost)


class _Asked(Kernel):
    """The kernel of a run: it answers questions, and the run makes its calls."""

    is_called = False

    def _bare(self, kind: int, word: str, key: str, who: int, element: int) -> Answer:
        self._is_of_the_run(f"bench.kernel.{word}(..)")
        return super()._bare(kind, word, key, who, element)

    def _make(self, word: str, who: int, call: lib.CallForm, data: bytes = b"") -> Answer:
        self._is_of_the_run(f"bench.kernel.{word}(..)")
        return super()._make(word, who, call, data)

    def close(self) -> None:
        self._is_of_the_run("bench.kernel.close()")
        super().close()

    def _is_of_the_run(self, what: str) -> None:
        if not self.is_called:
            raise RuntimeError(f"{what}: {ASKED}")

    def copy(self) -> Any:
        return Kernel.from_lines(self.lines(), bank=self._bank)

    __copy__ = copy


class _Source:
    """What may make a line's interrupt arrive: how often still, and what is called before."""

    def __init__(self, line: int, left: int, device: Optional[Callable[[], Any]]) -> None:
        self.line, self.left, self.device = line, left, device


class Bench:
    """A run, for its body. Elements, threads and handlers are made before the body's first yield."""

    def __init__(self, chosen: Choices, allowed: Tuple[str, ...] = ("Again",)) -> None:
        self._chosen: Deque[Tuple[int, str]] = deque(chosen)
        self._allowed = allowed
        self._lost: List[NotYielded] = []
        self._sems: List[int] = []
        self._flags: List[int] = []
        self._threads: List[Thread] = []
        self._handlers: Dict[Tuple[int, str], Callable[[], Any]] = {}
        self._inband: Deque[Callable[[], Any]] = deque()
        self._sources: Dict[str, _Source] = {}
        self._kernel: Optional[_Asked] = None
        self._step = 0
        self.date = 0
        self.offered: List[Tuple[int, str]] = []
        self.said: List[str] = []

    def _make(self, where: List[int], value: int) -> int:
        if self._kernel is not None:
            raise RuntimeError("elements, threads and handlers are made before the body's first yield")
        where.append(value)
        return len(where) - 1

    def sem(self, count: int = 0) -> int:
        """A semaphore's number."""
        return self._make(self._sems, count)

    def flags(self, bits: int = 0) -> int:
        """A flag group's number."""
        return self._make(self._flags, bits)

    def thread(self, run: Callable[[Thread], Steps]) -> Thread:
        """A thread, in-band until it attaches itself."""
        self._make([], 0)
        made = Thread(len(self._threads) + BODY + 1, self._lost)
        made.steps = _steps_of(run(made), f"thread T{made.number}")
        self._threads.append(made)
        return made

    def request(self, line: int, handler: Callable[[], Any], stage: str = "oob") -> None:
        """A handler on a line: a function without a yield, which runs to its end."""
        self._make([], 0)
        self._handlers[line, stage] = _to_its_end(handler, f"the handler of line {line}")

    def may_arrive(self, line: int, times: int = 1, device: Optional[Callable[[], Any]] = None) -> None:
        """A source: line may arrive so often from here on, at any moment, once `device` has been called. A line may have
        several: in a list of events "line 5" is the first, and "line 5 [2]" the second, or "line 5 [bad_frame]", if that
        is the name of its device."""
        line = whole(BadQuestion, "may_arrive: line", line, 0, 4095)
        times = whole(BadQuestion, f"may_arrive: times of line {line}", times, 0, 1 << 32)
        name = self._source_name(line, getattr(device, "__name__", ""))
        called = None if device is None else _to_its_end(device, f"the device of {name}")
        self._sources[name] = _Source(line, times, called)

    def _source_name(self, line: int, device: str) -> str:
        place = 1 + sum(it.line == line for it in self._sources.values())
        named = f"line {line} [{device}]"
        if place == 1:
            return f"line {line}"
        return named if device.isidentifier() and named not in self._sources else f"line {line} [{place}]"

    def rest(self) -> Request:
        """Waits until all others wait; after it no source has an event."""
        return Request("bench.rest", ("rest", "", {}), self._lost)

    def say(self, text: str) -> None:
        """Adds to what the outcome of this run is."""
        self.said.append(text)

    @property
    def kernel(self) -> Kernel:
        """The kernel of the run, for its see_ methods."""
        if self._kernel is None:
            raise RuntimeError("the kernel is there after the body's first yield")
        return self._kernel

    def put(self, sem: int) -> Answer:
        """Puts a semaphore, as the machine: for handlers."""
        return self._call(MACHINE, "put", {"sem": sem})

    def post(self, flags: int, bits: int) -> Answer:
        """Posts bits, as the machine: for handlers."""
        return self._call(MACHINE, "post_flags", {"flags": flags, "bits": bits})

    def _open(self) -> None:
        bank = [*PROGRAM_BANK, *([Plan(1)] * max(0, len(self._handlers) - 2))]
        self._kernel = _Asked(
            threads=len(self._threads) + BODY,
            sems=self._sems,
            flags=self._flags,
            limit=10000,
            bank=bank if len(bank) > len(PROGRAM_BANK) else None,
        )
        for place, (line, stage) in enumerate(self._handlers):
            callback = (0, len(PROGRAM_BANK) - 1)[place] if place < 2 else len(PROGRAM_BANK) + place - 2
            self._call(MACHINE, "request", {"line": line, "stage": stage, "callback": callback})

    def _call(self, who: int, word: str, keys: Dict[str, Any]) -> Answer:
        keys = {key: value for key, value in keys.items() if value is not None}
        kernel = self._kernel
        assert kernel is not None
        kernel.is_called = True
        try:
            answer = kernel.call(word, who, **keys)
        finally:
            kernel.is_called = False
        if answer.kind == "refused" and answer.value not in self._allowed:
            raise CallRefused(f"T{who} {word}{keys_text(keys)}", answer)
        for play in answer.plays:
            if isinstance(play, Line) and (play.line, play.stage) in self._handlers:
                handler = self._handlers[play.line, play.stage]
                if play.stage == "oob":
                    handler()
                else:
                    self._inband.append(handler)
        return answer

    def _can_run(self, thread: Thread) -> bool:
        if thread.has_ended or thread.rests:
            return False
        if thread.waits:
            return self.kernel.see_finished(thread.number)
        return thread.date is None or self.date >= thread.date

    def _next(self) -> Optional[Thread]:
        picked = self.kernel.see_picked()
        for thread in self._threads:
            if thread.number == picked and self._can_run(thread):
                return thread
        while self._inband:
            self._inband.popleft()()
            if self.kernel.see_picked() is not None:
                return self._next()
        return next((it for it in self._threads if not it.is_oob and self._can_run(it)), None)

    def _moment(self) -> bool:
        """A moment, before a step: whether an event came."""
        self._step += 1
        if self._chosen and self._chosen[0][0] == self._step:
            self._bring(self._chosen.popleft()[1])
            return True
        if not self._chosen:
            self.offered += [(self._step, name) for name, source in self._sources.items() if source.left > 0]
        return False

    def _bring(self, name: str) -> None:
        source = self._sources.get(name)
        if source is None or source.left == 0:
            raise RuntimeError(f"the chosen event {name} @ {self._step} can't come there: {OTHER}")
        source.left -= 1
        if source.device is not None:
            source.device()
        self._call(MACHINE, "arrive", {"line": source.line})

    def _make_step(self, thread: Thread, step: Step) -> None:
        how, word, keys = step
        thread.pending = None
        if how == "rest":
            thread.rests = True
        elif how == "sleep":
            thread.date = keys["until"]
        elif how == "finish":
            thread.waits, thread.date = False, None
            thread.value = self._call(thread.number, "finish", {})
            thread.is_oob = self.kernel.see_stage(thread.number) == "oob"
        else:
            thread.value = self._call(thread.number, word, keys)
            if how == "wait" and thread.value.kind == "begun":
                thread.waits, thread.date, thread.pending = True, keys["until"], ("finish", "", {})
            if thread.value and word in ("attach", "set_stage", "detach"):
                thread.is_attached = word != "detach"
                thread.is_oob = thread.is_attached and keys.get("stage") == "oob"

    def _go_on(self, thread: Thread) -> None:
        refused, thread.refused, thread.date = thread.refused, None, None
        try:
            request = thread.steps.send(thread.value) if refused is None else thread.steps.throw(refused)
            if request is not None and not isinstance(request, Request):
                raise TypeError(f"T{thread.number} yields {request!r}: a call, as thread.get(sem), or nothing")
            thread.value, thread.pending = None, ("nothing", "", {})
            if request is not None:
                request.is_yielded, thread.pending = True, request.step
        except StopIteration:
            if thread.is_attached:
                self._call(thread.number, "detach", {})
            thread.has_ended, thread.is_oob = True, False
        if self._lost:
            raise self._lost[0]

    def _step_of(self, thread: Thread) -> None:
        """A thread's next step: its request, or on to its next yield."""
        if thread.pending is None:
            self._go_on(thread)
        elif not self._moment():
            if thread.pending[0] == "nothing":
                thread.pending = None
                return
            try:
                self._make_step(thread, thread.pending)
            except CallRefused as refused:
                thread.refused = refused

    def _idle(self) -> None:
        """All wait: an event comes, or the body has rested, or the date moves."""
        if self._moment():
            return
        resting = [thread for thread in self._threads if thread.rests]
        for thread in resting:
            thread.rests = False
        if resting:
            self._sources.clear()
            return
        due = [it.date for it in self._threads if it.date is not None and it.date > self.date and not it.has_ended]
        if not due:
            waiting = ", ".join(f"T{it.number}" for it in self._threads if not it.has_ended)
            raise _Stuck(f"stuck: {waiting} wait for good")
        delta, self.date = min(due) - self.date, min(due)
        self._call(MACHINE, "tick", {"delta": delta})

    def run(self, body: Callable[["Bench"], Steps]) -> None:
        """Runs the body to its end."""
        first = Thread(BODY, self._lost)
        first.steps = _steps_of(body(self), "the body")
        self._go_on(first)
        self._threads.insert(0, first)
        self._open()
        while not first.has_ended:
            thread = self._next()
            if thread is None:
                self._idle()
            else:
                self._step_of(thread)
        if self._chosen:
            raise RuntimeError(f"the chosen event {_text(tuple(self._chosen))} didn't come: {OTHER}")

    def end(self) -> None:
        """Frees the run's kernel."""
        if self._kernel is not None:
            self._kernel.is_called = True
            self._kernel.close()


def _to_its_end(function: Callable[[], Any], what: str) -> Callable[[], Any]:
    """A handler or device, which has no yield: what a generator does would never run."""
    if not callable(function):
        raise TypeError(f"{what} is {function!r}: a function is wanted")
    if inspect.isgeneratorfunction(function) or inspect.iscoroutinefunction(function):
        _refuse_generator(what)

    def runs() -> None:
        if inspect.isgenerator(function()):
            _refuse_generator(what)

    return runs


def _refuse_generator(what: str) -> NoReturn:
    raise TypeError(f"{what} is a generator, and would never run: a function without a yield is wanted")


def _steps_of(steps: Any, what: str) -> Steps:
    """The steps of a thread, which is a function with a yield."""
    if not isinstance(steps, collections.abc.Generator):
        raise TypeError(f"{what} is no generator: a function with a yield in it is wanted")
    return steps


def _where(why: BaseException) -> str:
    """Where in the test an error was raised: the last place that isn't in this package."""
    if isinstance(why, NotYielded):
        return why.place
    here = os.path.dirname(os.path.abspath(__file__))
    places = traceback.extract_tb(why.__traceback__)
    places = traceback.StackSummary(it for it in places if os.path.dirname(os.path.abspath(it.filename)) != here)
    return f"{places[-1].filename}:{places[-1].lineno}, in {places[-1].name}" if places else ""


def _text(choices: Choices) -> str:
    return ", ".join(f"{name} @ {step}" for step, name in choices)


def _read(choices: str) -> Choices:
    try:
        parts = [part.split(" @ ") for part in choices.split(", ") if part]
        return tuple((int(step), name) for name, step in parts)
    except ValueError:
        raise ValueError(f"choices is {choices!r}: a list as 'line 5 @ 3, line 5 @ 8' is wanted") from None


def _refusals(allowed: Iterable[str]) -> Tuple[str, ...]:
    """The names of refusals."""
    names = items(BadQuestion, "allowed", allowed, "names of refusals")
    for name in names:
        if name not in lib.REFUSALS:
            told = f"allowed has {name!r}: names of refusals are wanted{near(name, lib.REFUSALS)}"
            raise BadQuestion(told) if isinstance(name, str) else wrong_type(BadQuestion, told)
    return names


def explore(
    body: Callable[[Bench], Steps],
    arrivals: int = 2,
    runs: int = 100000,
    choices: Optional[str] = None,
    allowed: Iterable[str] = ("Again",),
) -> Explored:
    """Runs the body, a function with a yield, with each list of up to so many events, fewest first, up to the first run
    that raises or is stuck, or so many `runs`; with `choices`, as a failure names it, with that list alone. A call that
    the kernel refuses raises CallRefused, where it is yielded or in the handler, unless its refusal is `allowed`."""
    if not callable(body):
        raise TypeError(f"body is {body!r}: a function with a yield in it is wanted")
    for name, number, least in (("arrivals", arrivals, 0), ("runs", runs, 1)):
        whole(BadQuestion, name, number, least, (1 << 63) - 1)
    refusals = _refusals(allowed)
    outcomes: Counter[str] = Counter()
    count = 0
    lists: Deque[Choices] = deque([() if choices is None else _read(choices)])
    while lists and count < runs:
        chosen = lists.popleft()
        bench, count = Bench(chosen, refusals), count + 1
        try:
            bench.run(body)
        except Exception as why:  # pylint: disable=broad-except
            texts = (bench.kernel.trace(), bench.kernel.scenario()) if bench._kernel is not None else ("", "")
            told = (f"{type(why).__name__}: {why}", _text(chosen), *texts)
            return Explored(True, *told, count, dict(outcomes), False, _where(why))
        outcomes["; ".join(bench.said)] += 1
        if choices is None and len(chosen) < arrivals:
            lists.extend((*chosen, choice) for choice in bench.offered)
        bench.end()
    return Explored(False, "", "", "", "", count, dict(outcomes), bool(lists))
