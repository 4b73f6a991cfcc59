"""Kernels, and the plans of their callbacks."""

import ctypes
from typing import Any, Dict, Iterable, List, Literal, NoReturn, Optional, Sequence, Tuple, Union

from . import _library as lib
from ._answers import Answer, Clock, Deadline, Line, Next, Play, Timer
from ._errors import (
    BadBoard,
    BadPlan,
    BadQuestion,
    BadStep,
    CallRefused,
    KernelClosed,
    Refused,
    is_number,
    items,
    near,
    one_of,
    whole,
    wrong_type,
)

STAGES = ("inband", "oob")
WAYS = ("in", "out")
AWAITED = ("sem", "flags", "writing", "reading", "mutex")
MUTEXES = ("normal", "recursive", "ceiling")
POLICIES = {"fifo": ("prio",), "rr": ("prio", "span"), "quota": ("other", "prio"), "weak": ("prio",)}
POLICY_TEXTS = "'fifo P', 'rr P SLICE', 'quota GROUP P' or 'weak P'"
TAKES: Dict[str, Tuple[str, ...]] = {"any": (), "of": ("bits",), "exact": ("bits",)}
ACTIONS = ("post_sem", "post_flags", "propagate", "post_oob", "stop_timer")
ROW = "(every, 'propagate'), (every, 'post_flags', group, bits) or (every, action, element)"
MOST = {"prio": 0xFF, "other": 0xFFFF, "bits": 0xFFFFFFFF, "span": (1 << 64) - 1}
KINDS = ("refused", "done", "begun", "count", "bits", "number", "bytes", "thread", "next", "timed out")
DONE = Answer("done")
BEGUN = Answer("begun")

Rows = Union[Tuple[int, str], Tuple[int, str, int], Tuple[int, str, int, int]]
Bytes = Union[bytes, bytearray, memoryview, str, Sequence[int]]
Stage = Literal["inband", "oob"]
Awaited = Literal["sem", "flags", "writing", "reading", "mutex"]
Way = Literal["in", "out"]
Until = Union[int, None, Literal["none"]]

_apply = lib.LIBRARY.evlsim_c_apply
_apply_bare = lib.LIBRARY.evlsim_c_apply_bare
_close = lib.LIBRARY.evlsim_c_close
_size = ctypes.c_size_t
_ref = ctypes.byref


class Plan:
    """What a callback answers: it handles the events whose counts `accepts` divides, and at those whose counts a row's
    first number divides it asks for the row's action; the first event since the request has count 1. At most four rows:
    (every, "post_sem", sem), (every, "post_flags", group, bits), (every, "propagate"), which posts the event's own line
    in-band, (every, "post_oob", line), which posts a line out-of-band, or (every, "stop_timer", timer).

    >>> Plan(1, (2, "post_sem", 0), (1, "post_flags", 0, 3), (1, "propagate"))
    Plan(1, (2, 'post_sem', 0), (1, 'post_flags', 0, 3), (1, 'propagate'))
    """

    __slots__ = ("accepts", "rows", "_form")
    accepts: int
    rows: Tuple[Rows, ...]

    def __init__(self, accepts: int, *rows: Rows) -> None:
        if len(rows) > 4:
            raise BadPlan(f"a plan has {len(rows)} rows: four at most are wanted")
        every = whole(BadPlan, "accepts", accepts, 1, (1 << 64) - 1)
        made = [_row(row) for row in rows]
        kinds = 0
        for _, form in made:
            kinds |= 1 << form.action
        keep = super().__setattr__
        keep("accepts", every)
        keep("rows", tuple(row for row, _ in made))
        keep("_form", lib.PlanForm(every, kinds, len(made), (lib.Row * 4)(*(form for _, form in made))))

    def __setattr__(self, name: str, value: object) -> NoReturn:
        raise AttributeError(f"a plan isn't changed after it is made: {name} stays; make another Plan")

    def __delattr__(self, name: str) -> NoReturn:
        raise AttributeError(f"a plan isn't changed after it is made: {name} stays")

    def __reduce__(self) -> Tuple[Any, ...]:
        return type(self), (self.accepts, *self.rows)

    def __repr__(self) -> str:
        return f"Plan({', '.join(map(repr, (self.accepts, *self.rows)))})"

    def __eq__(self, other: object) -> bool:
        return isinstance(other, Plan) and (self.accepts, self.rows) == (other.accepts, other.rows)

    def __hash__(self) -> int:
        return hash((self.accepts, self.rows))


def _row(row: Any) -> Tuple[Tuple[Any, ...], lib.Row]:
    """A row of a plan, and its form."""
    parts = items(BadPlan, "a row of a plan", row, f"its parts, {ROW},")
    if len(parts) < 2:
        raise BadPlan(f"a row of a plan is {row!r}: {ROW} is wanted")
    action = one_of(BadPlan, f"the action of {row!r}", parts[1], ACTIONS)
    wanted = {"propagate": 2, "post_flags": 4}.get(parts[1], 3)
    if len(parts) != wanted:
        raise BadPlan(f"a row of a plan is {row!r}: {parts[1]!r} is written with {wanted} parts, as {ROW}")
    every = whole(BadPlan, f"the period of {row!r}", parts[0], 1, (1 << 64) - 1)
    element = whole(BadPlan, f"the element of {row!r}", parts[2], 0, 0xFFFF) if wanted > 2 else 0
    bits = whole(BadPlan, f"the bits of {row!r}", parts[3], 0, 0xFFFFFFFF) if wanted > 3 else 0
    return parts, lib.Row(every, action, element, bits)


PROGRAM_BANK = (
    Plan(1), Plan(1, (1, "post_sem", 0)), Plan(1, (2, "post_sem", 0)), Plan(1, (1, "propagate")),
    Plan(1, (1, "post_oob", 4)), Plan(1, (1, "post_flags", 0, 1)), Plan(2, (1, "stop_timer", 0)), Plan(1),
)  # fmt: skip


def read_bank(bank: Optional[Iterable[Plan]]) -> Tuple[Tuple[Plan, ...], Any]:
    """The plans of a bank, the program's where that is None, and their forms."""
    plans = PROGRAM_BANK if bank is None else items(BadPlan, "bank", bank, "at most 64 plans")
    for place, plan in enumerate(plans):
        if not isinstance(plan, Plan):
            raise wrong_type(BadPlan, f"plan {place} of the bank is {plan!r}: an evlsim.Plan is wanted")
    if len(plans) > 64:
        raise BadPlan(f"the bank has {len(plans)} plans: 64 at most are wanted")
    # one more than there are, so that the pointer isn't null
    return plans, (lib.PlanForm * (len(plans) + 1))(*(plan._form for plan in plans))


def _ceiling(place: int, value: Any) -> Tuple[int, int]:
    wanted = f"mutexes[{place}] is {value!r}: 'normal', 'recursive' or 'ceiling P' with P from 1 to 99 is wanted"
    if not isinstance(value, str):
        raise wrong_type(BadBoard, wanted)
    word, blank, ceiling = value.partition(" ")
    if word not in MUTEXES or bool(blank) != (word == "ceiling"):
        raise BadBoard(wanted + ("" if word in MUTEXES else near(word, MUTEXES)))
    if blank and not (is_number(ceiling) and 1 <= int(ceiling) <= 99):
        raise BadBoard(wanted)
    return MUTEXES.index(word), int(ceiling or 0)


def _rings(place: int, value: Any) -> Tuple[int, int]:
    sizes = items(BadBoard, f"xbufs[{place}]", value, "two ring sizes")
    if len(sizes) != 2:
        raise BadBoard(f"xbufs[{place}] is {value!r}: two ring sizes, (in, out), are wanted")
    return (
        whole(BadBoard, f"xbufs[{place}], the size in,", sizes[0], 1, 256),
        whole(BadBoard, f"xbufs[{place}], the size out,", sizes[1], 1, 256),
    )


# of each list of a board: how many it may have, the type of an item in C, and how one is read
LISTS: Dict[str, Tuple[int, Any, Any]] = {
    "sems": (64, ctypes.c_uint32, lambda at, it: whole(BadBoard, f"sems[{at}]", it, 0, 0x7FFFFFFF)),
    "flags": (64, ctypes.c_uint32, lambda at, it: whole(BadBoard, f"flags[{at}]", it, 0, 0xFFFFFFFF)),
    "xbufs": (16, ctypes.c_uint16 * 2, _rings),
    "mutexes": (32, ctypes.c_uint8 * 2, _ceiling),
    "groups": (16, ctypes.c_uint8, lambda at, it: whole(BadBoard, f"groups[{at}]", it, 1, 100)),
}


def read_board(board: Dict[str, Any]) -> Tuple[lib.Board, List[Any]]:
    """A board's form, and what it points to. The lists of `board` are tuples then."""
    form, kept = lib.Board(whole(BadBoard, "threads", board["threads"], 1, 256)), []
    for name, (most, kind, read) in LISTS.items():
        board[name] = items(BadBoard, name, board[name], f"at most {most} items")
        if len(board[name]) > most:
            raise BadBoard(f"{name} has {len(board[name])} items: {most} at most are wanted")
        made = [read(place, item) for place, item in enumerate(board[name])]
        array = (kind * (len(made) + 1))(*made)
        kept.append(array)
        setattr(form, name, ctypes.addressof(array))
        setattr(form, name + "_count", len(made))
    return form, kept


def put_form(
    call: lib.CallForm, word: str, key: str, forms: Dict[str, Tuple[str, ...]], text: Any, wanted: str
) -> None:
    """A policy or a take, as docs/use/SCENARIOS.md writes it, into a call."""
    message = f"{word}: {key} is {text!r}: {wanted} is wanted"
    if not isinstance(text, str):
        raise wrong_type(BadStep, message)
    name, *numbers = text.split(" ")
    if name not in forms:
        raise BadStep(message + near(name, forms))
    if len(numbers) != len(forms[name]) or not all(map(is_number, numbers)):
        raise BadStep(message)
    call.choice = list(forms).index(name)
    for field, number in zip(forms[name], numbers):
        setattr(call, field, whole(BadStep, f"{word}: a number of {key} {text!r}", int(number), 0, MOST[field]))


def read_bytes(word: str, value: Any) -> bytes:
    """The bytes of a write: bytes, a list of numbers, or a text of hexadecimal digits."""
    wanted = "bytes, a list of numbers from 0 to 255, or a text of hexadecimal digits is wanted, of 256 bytes at most"
    try:
        if isinstance(value, (int, float)) or value is None:
            raise TypeError
        made = bytes.fromhex(value) if isinstance(value, str) else bytes(value)
    except ValueError:
        raise BadStep(f"{word}: bytes is {value!r}: {wanted}") from None
    except TypeError:
        raise wrong_type(BadStep, f"{word}: bytes is {value!r}: {wanted}") from None
    if len(made) > 256:
        raise BadStep(f"{word}: bytes has {len(made)} bytes: {wanted}")
    return made


class _Missing:
    def __repr__(self) -> str:
        return "wanted"


# a key that isn't given
MISSING: Any = _Missing()


def no_key(word: str, wrong: Dict[str, Any], **given: Any) -> NoReturn:
    """Raises for a key that a word doesn't have, or else for one that is missing."""
    keys = lib.WORDS[word][1]
    told = f"its keys: {', '.join(keys)}" if keys else "it has none"
    for key in wrong:
        raise wrong_type(BadStep, f'{word} has no key "{key}"{near(key, keys)} ({told})')
    missing = [key for key, value in given.items() if value is MISSING]
    raise wrong_type(BadStep, f'{word} needs the key "{missing[0]}" ({told})')


def refuse_board(what: str, keys: Iterable[str], names: Tuple[str, ...]) -> None:
    """Raises for a board of which no threads are given: a key may be misspelt."""
    told = f"its keys: {', '.join(names)}"
    for key in keys:
        if key not in names:
            raise wrong_type(BadBoard, f'{what} has no key "{key}"{near(key, names)} ({told})')
    raise wrong_type(BadBoard, f'{what} needs the key "threads" ({told})')


BOARD_KEYS = ("threads", *LISTS, "limit", "bank", "strict")


class Calls:
    """What makes the calls of a kernel; the methods, one for each step word, are in _calls.py."""

    def __new__(cls, *given: Any, **board: Any) -> Any:
        if cls.__init__ is Calls.__init__ and not given and "threads" not in board:
            refuse_board("a board", board, BOARD_KEYS)
        return super().__new__(cls)

    def __init__(
        self,
        threads: int,
        sems: Iterable[int] = (),
        flags: Iterable[int] = (),
        xbufs: Iterable[Tuple[int, int]] = (),
        mutexes: Iterable[str] = (),
        groups: Iterable[int] = (),
        limit: int = 1000,
        bank: Optional[Iterable[Plan]] = None,
        strict: bool = False,
        **wrong: NoReturn,
    ) -> None:
        self._handle = lib.Handle()
        self._at = _ref(self._handle)
        self._told: List[Tuple[lib.Told, Any]] = []
        if wrong:
            refuse_board("a board", wrong, BOARD_KEYS)
        self._board: Dict[str, Any] = dict(
            threads=threads, sems=sems, flags=flags, xbufs=xbufs, mutexes=mutexes, groups=groups
        )
        form, _kept = read_board(self._board)
        self._limit = whole(BadBoard, "limit", limit, 1, 1000000)
        self._bank, plans = read_bank(bank)
        self._strict = bool(strict)
        status = lib.LIBRARY.evlsim_c_open(
            _ref(form), plans, _size(len(self._bank)), ctypes.c_uint32(self._limit), self._at
        )
        if status:
            self._raise(status, BadBoard("the board is refused"))

    def _raise(self, status: int, other: Refused) -> NoReturn:
        if status == 4:
            raise MemoryError
        if status == 6:
            raise KernelClosed("the kernel is closed")
        if status == 8:
            raise Refused("the scenario would have more than 1,048,576 bytes")
        raise other

    def _bare(self, kind: int, word: str, key: str, who: int, element: int) -> Answer:
        """A call that has an element and nothing else."""
        if type(who) is not int or type(element) is not int or not (0 <= who <= 65535 and 0 <= element <= 65535):
            if element is MISSING:
                no_key(word, {}, **{key: element})
            who = whole(BadStep, "who", who, 0, 65535)
            element = whole(BadStep, f"{word}: {key}", element, 0, 65535)
        try:
            told, at = pair = self._told.pop()
        except IndexError:
            told = lib.Told()
            at = _ref(told)
            pair = (told, at)
        status = _apply_bare(self._at, who, kind, element, at)
        if not status and told.kind == 1 and not told.plays:
            self._told.append(pair)
            return DONE
        if status:
            self._raise(status, BadStep(f"{word} can't be made"))
        answer = self._answer(told, None)
        self._told.append(pair)
        if self._strict and answer.kind == "refused":
            self._refuse(f"T{who} {word} {key}={element}", answer)
        return answer

    def _make(self, word: str, who: int, call: lib.CallForm, data: bytes = b"") -> Answer:
        """Any call."""
        if type(who) is not int or not 0 <= who <= 65535:
            who = whole(BadStep, "who", who, 0, 65535)
        told = lib.Told()
        out: Any = ctypes.create_string_buffer(256) if word in ("read", "finish") else b""
        status = _apply(self._at, who, _ref(call), data, _size(len(data)), out, _size(len(out)), _ref(told))
        if status:
            self._raise(status, BadStep(f"{word} can't be made"))
        answer = self._answer(told, out)
        if self._strict and answer.kind == "refused":
            self._refuse(f"T{who} {word}", answer)
        return answer

    def _refuse(self, call: str, answer: Answer) -> NoReturn:
        raise CallRefused(call, answer, self._last(8))

    def _answer(self, told: lib.Told, out: Any) -> Answer:
        kind = told.kind
        value: Any = None
        if kind == 0:
            value = lib.REFUSALS[told.refusal]
        elif kind == 3:
            value = told.count
        elif kind == 6:
            value = out.raw[: told.number]
        elif kind == 7:
            value = told.thread if told.thread >= 0 else None
        elif kind == 8:
            value = Next(told.thread if told.thread >= 0 else None, told.more)
        elif kind in (4, 5):
            value = told.number
        elif kind == 2 and not told.plays:
            return BEGUN
        first, count = told.first_play, told.plays
        return Answer(KINDS[kind], value, tuple([self._play(first + it) for it in range(count)]) if count else ())

    def _play(self, index: int) -> Play:
        event = lib.Event()
        status = lib.LIBRARY.evlsim_c_event(self._at, _size(index), _ref(event))
        if status:
            self._raise(status, BadQuestion(f"there is no play {index}"))
        if event.kind == 0:
            return Clock()
        if event.kind == 1:
            return Timer(event.element, event.count, event.missed, event.handled)
        if event.kind == 2:
            return Deadline(event.element)
        return Line(event.element, STAGES[event.stage], event.count, event.handled)

    def _ask(
        self, kind: int, what: str, element: int = 0, stage: int = 0, way: int = 0, on: int = 0, place: int = 0
    ) -> lib.Reading:
        if type(element) is not int or not 0 <= element <= 65535:
            element = whole(BadQuestion, what, element, 0, 65535)
        question, reading = lib.Question(kind, stage, way, on, element, place), lib.Reading()
        status = lib.LIBRARY.evlsim_c_ask(self._at, _ref(question), _ref(reading))
        if status:
            self._raise(status, BadQuestion(f"{what} can't be asked"))
        return reading

    def _text(self, function: Any, start: int) -> str:
        length = _size()
        status, text = lib.whole_text(
            lambda at, part, size: int(function(self._at, at, part, size, _ref(length))), lambda: length.value, start
        )
        if status:
            self._raise(status, BadBoard("the kernel has no scenario"))
        return text.decode()

    def _last(self, count: int) -> str:
        """The last lines of the trace."""
        lines = self._text(lib.LIBRARY.evlsim_c_trace, 0).splitlines()
        return "\n".join(lines[:1] + ["..."] * (len(lines) > count + 1) + lines[max(1, len(lines) - count) :])
