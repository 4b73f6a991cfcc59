"""What is raised, and how numbers and names are read: each error says what was given and what is wanted."""

import difflib
import operator
from typing import Any, Dict, Iterable, Optional, Tuple, Type


class Refused(Exception):
    """What the library refuses: a text, a board, a plan, a step or a question."""


class BadText(Refused, ValueError):
    """No UTF-8, no TOML, or more than 1,048,576 bytes."""


class BadBoard(Refused, ValueError):
    """The board, the limit, or a key beside them."""


class BadPlan(Refused, ValueError):
    """A plan has a number that it may not have, or there are more than 64."""


class BadQuestion(Refused, ValueError):
    """A question has a number or a name that it may not have, or what `[ask]` asks can't be read or answered."""


class TooManyOrders(Refused, ValueError):
    """There are more orders than can be counted."""


class BadStep(Refused, ValueError):
    """A step can't be read; `step` is its number in a text, from 1, or None where it is a kernel's call."""

    def __init__(self, message: str, step: Optional[int] = None) -> None:
        super().__init__(message)
        self.step = step


class CallRefused(Refused):
    """A kernel that is strict refused a call: `call` and `answer` say which and how, `trace` has the last lines."""

    def __init__(self, call: str, answer: Any, trace: str = "") -> None:
        super().__init__(f"{call} -> {answer}" + (f"\n{trace}" if trace else ""))
        self.call, self.answer, self.trace = call, answer, trace

    def __reduce__(self) -> Tuple[Any, ...]:
        return type(self), (self.call, self.answer, self.trace)


class CoreBusy(Refused):
    """Another caller of the machine has the core; what was asked has changed nothing."""


class KernelClosed(ValueError):
    """The kernel, the caller or the machine is closed."""


class _Typed(TypeError):
    """A TypeError that is one of the errors above too, under whose name it is pickled."""

    def __reduce__(self) -> Tuple[Any, ...]:
        return wrong_type, (type(self).__bases__[0], str(self))


class _BoardType(BadBoard, _Typed):
    __doc__ = BadBoard.__doc__


class _PlanType(BadPlan, _Typed):
    __doc__ = BadPlan.__doc__


class _QuestionType(BadQuestion, _Typed):
    __doc__ = BadQuestion.__doc__


class _StepType(BadStep, _Typed):
    __doc__ = BadStep.__doc__


_TYPE_ERRORS: Dict[Type[Refused], Any] = {
    BadBoard: _BoardType,
    BadPlan: _PlanType,
    BadQuestion: _QuestionType,
    BadStep: _StepType,
}
for _bad, _typed in _TYPE_ERRORS.items():
    _typed.__name__, _typed.__qualname__ = _bad.__name__, _bad.__qualname__


def wrong_type(bad: Type[Refused], message: str) -> Refused:
    """The error for what has a wrong type: it is a TypeError too."""
    made: Refused = _TYPE_ERRORS[bad](message)
    return made


# what is looked for under a name of its own
MEANT = {"see_date": "see_now", "see_time": "see_now", "see_clock": "see_now", "date": "now", "time": "now"}


def near(given: object, names: Iterable[str]) -> str:
    """The names that may be meant: "; did you mean "put"?", or nothing."""
    known, word = list(names), str(given).lower()
    found = [MEANT[word]] if MEANT.get(word) in known else difflib.get_close_matches(word, known, 1, 0.6)
    return f'; did you mean "{found[0]}"?' if found else ""


def is_number(text: str) -> bool:
    """Whether a text is a number below 2 ** 64 as a scenario writes it: digits, with no 0 before them."""
    return len(text) <= 20 and text.isascii() and text.isdecimal() and str(int(text)) == text


def whole(bad: Type[Refused], what: str, value: Any, least: int, most: int) -> int:
    """A whole number in its range: no truth value, no float, no text."""
    if type(value) is not int:
        try:
            if isinstance(value, bool):
                raise TypeError
            value = operator.index(value)
        except TypeError:
            raise wrong_type(bad, f"{what} is {value!r}: a whole number from {least} to {most} is wanted") from None
    if not least <= value <= most:
        raise bad(f"{what} is {value}: a whole number from {least} to {most} is wanted")
    return int(value)


def one_of(bad: Type[Refused], what: str, value: Any, names: Tuple[str, ...]) -> int:
    """The place of a name among those that there are."""
    if isinstance(value, str):
        if value in names:
            return names.index(value)
        raise bad(f"{what} is {value!r}: one of {', '.join(map(repr, names))} is wanted{near(value, names)}")
    raise wrong_type(bad, f"{what} is {value!r}: one of {', '.join(map(repr, names))} is wanted")


def items(bad: Type[Refused], what: str, value: Any, of: str) -> Tuple[Any, ...]:
    """The items of a list of any kind, read once."""
    if isinstance(value, (str, bytes, bytearray)):
        raise wrong_type(bad, f"{what} is {value!r}: a list of {of} is wanted")
    try:
        return tuple(value)
    except TypeError:
        raise wrong_type(bad, f"{what} is {value!r}: a list of {of} is wanted") from None
