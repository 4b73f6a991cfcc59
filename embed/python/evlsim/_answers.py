"""What calls answer and what is played, as values."""

from typing import Any, NamedTuple, Optional, Tuple, Union


class Clock(NamedTuple("Clock", [])):
    """Line 0 was played."""

    kind = "clock"

    def __bool__(self) -> bool:
        return True

    def __str__(self) -> str:
        return "clock"


class Timer(NamedTuple):
    """A timer fired for the `number`-th time, and missed so many periods before."""

    timer: int
    number: int
    missed: int
    handled: bool

    @property
    def kind(self) -> str:
        return "timer"

    def __str__(self) -> str:
        return f"timer {self.timer} count {self.number} missed {self.missed} {_handled(self.handled)}"


class Deadline(NamedTuple):
    """The deadline of a thread ended its wait."""

    thread: int

    @property
    def kind(self) -> str:
        return "deadline"

    def __str__(self) -> str:
        return f"deadline T{self.thread}"


class Line(NamedTuple):
    """The callback of a line on a stage was called for the `number`-th time."""

    line: int
    stage: str
    number: int
    handled: bool

    @property
    def kind(self) -> str:
        return "line"

    def __str__(self) -> str:
        return f"line {self.line} {self.stage} count {self.number} {_handled(self.handled)}"


Play = Union[Clock, Timer, Deadline, Line]


def _handled(handled: bool) -> str:
    return "handled" if handled else "none"


class Next(NamedTuple):
    """Who has a mutex after a release, or None, and whether others still wait."""

    thread: Optional[int]
    more: bool


class _Answer(NamedTuple):
    kind: str
    value: Any = None
    plays: Tuple[Play, ...] = ()


class Answer(_Answer):
    """What a call answered: its `kind`, its `value`, and the `plays` that came of it. It is true unless it's a refusal.

    kind: "done", "begun", "timed out" (no value), "count", "bits", "number" (an int), "bytes" (bytes), "thread" (an int
    or None), "next" (a Next), "refused" (the refusal's name), or, of a machine's callers, "pass" (its name). It equals
    its text, and another Answer with the same kind, value and plays.

    >>> Answer("count", 3) == "count 3", bool(Answer("refused", "Again")), Answer("thread", None).text
    (True, False, 'thread none')
    >>> Answer("done", False).text, Answer("done", True).text
    ('done', 'done, others want in')
    """

    __slots__ = ()

    @property
    def refusal(self) -> Optional[str]:
        """The name of the refusal, or None."""
        return self.value if self.kind == "refused" else None

    @property
    def text(self) -> str:
        """The answer as the trace has it."""
        kind, value = self.kind, self.value
        if kind in ("refused", "pass"):
            return str(value)
        if kind == "done" and isinstance(value, bool):
            return "done, others want in" if value else "done"
        if kind == "done" and value:
            return f"done, {value}"
        if kind == "bytes":
            return f"bytes {value.hex() or '-'}"
        if kind == "next":
            return f"next {_thread(value.thread)}{' more' if value.more else ''}"
        if kind == "thread":
            return f"thread {_thread(value)}"
        return kind if value is None else f"{kind} {value}"

    def __bool__(self) -> bool:
        return self.kind != "refused"

    def __eq__(self, other: object) -> bool:
        if isinstance(other, str):
            return self.text == other
        if isinstance(other, Answer):
            return tuple(self) == tuple(other)
        return NotImplemented

    def __ne__(self, other: object) -> bool:
        return not self == other

    def __hash__(self) -> int:
        return hash(self.text)

    def __str__(self) -> str:
        return self.text

    def __repr__(self) -> str:
        plays = f", plays=[{', '.join(map(str, self.plays))}]" if self.plays else ""
        return f"<{self.text}{plays}>"


def _thread(thread: Optional[int]) -> str:
    return "none" if thread is None else str(thread)
