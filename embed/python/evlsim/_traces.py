"""Traces, and the entries that their lines tell of."""

import re
from typing import Any, Dict, Iterator, List, NamedTuple, Optional, Tuple

from ._answers import Answer, Clock, Deadline, Line, Next, Play, Timer
from ._errors import BadBoard, BadText
from ._kernel import Plan
from ._pictures import shown


class Entry(NamedTuple):
    """An entry of a history: its number (None where the history had no room), who called, the step word with its keys,
    the answer, and what was played."""

    number: Optional[int]
    who: int
    word: str
    keys: Dict[str, Any]
    answer: Answer
    plays: Tuple[Play, ...]

    def __str__(self) -> str:
        return f"T{self.who} {self.word}{keys_text(self.keys)} -> {self.answer}"


class Trace(str):
    """The trace of a played text: a str with its `entries`. A notebook shows its picture."""

    _text: Optional[bytes] = None
    _bank: Optional[Tuple[Plan, ...]] = None

    @property
    def entries(self) -> Tuple[Entry, ...]:
        """The entries that the lines tell of."""
        return tuple(read_trace(self))

    def _drawn(self) -> Tuple[Any, Optional[Tuple[Plan, ...]]]:
        # Of a scenario the picture also shows how the machine stands after each call; of a trace it can't.
        return str(self) if self._text is None else self._text, self._bank

    def _repr_svg_(self) -> Optional[str]:
        return shown(self)


def keys_text(keys: Dict[str, Any]) -> str:
    """The keys of a call, as a trace writes them."""
    return "".join(f" {key}={_key_text(value)}" for key, value in keys.items())


def _key_text(value: Any) -> str:
    if isinstance(value, bytes):
        return value.hex() or "-"
    return "none" if value is None else str(value).lower() if isinstance(value, bool) else str(value)


def _key_value(key: str, text: str) -> Any:
    """The value of a key, as the trace has it."""
    if key in ("stage", "way", "policy", "kind", "as", "pass"):
        return text
    if key == "bytes":
        return bytes.fromhex("" if text == "-" else text)
    if key == "keep":
        return text == "true"
    return None if text == "none" else int(text)


def read_trace(text: str) -> Iterator[Entry]:
    """The entries that the lines of a trace tell of."""
    head: Optional[Tuple[Optional[int], int, str, Dict[str, Any], str]] = None
    plays: List[Play] = []
    for line in text.splitlines():
        if line.startswith("  "):
            plays.append(read_play(line[2:]))
            continue
        if head is not None:
            yield _entry(head, plays)
        head, plays = read_call(line), []
    if head is not None:
        yield _entry(head, plays)


def read_history(text: str) -> Iterator[Entry]:
    """The entries of the lines after a board's line; BadText for a line that is neither a call with its answer, a play,
    nor empty.

    >>> [str(it) for it in read_history("1 T0 put sem=0 -> done\\n")]
    ['T0 put sem=0 -> done']
    """
    for number, line in enumerate(text.splitlines(), 2):
        try:
            is_known = not line.strip() or line.startswith("  ") or read_call(line) is not None
        except (ValueError, IndexError):
            is_known = False
        if not is_known:
            raise BadText(f"line {number} is {line[:80]!r}: a call with its answer is wanted, as T0 put sem=0 -> done")
    return read_trace(text)


def _entry(head: Tuple[Optional[int], int, str, Dict[str, Any], str], plays: List[Play]) -> Entry:
    number, who, word, keys, answer = head
    return Entry(number, who, word, keys, read_answer(answer, tuple(plays)), tuple(plays))


def read_call(line: str) -> Optional[Tuple[Optional[int], int, str, Dict[str, Any], str]]:
    """The number, the caller, the word, the keys and the answer of a line; None for a line that tells of no call."""
    call, arrow, answer = line.partition(" -> ")
    number, _, rest = call.partition(" ")
    if not arrow or not rest.startswith("T") or not (number == "-" or number.isdecimal()):
        return None
    who, word, *parts = rest.split(" ")
    pairs: List[List[str]] = []
    for part in parts:
        key, is_key, value = part.partition("=")
        if is_key:
            pairs.append([key, value])
        else:
            pairs[-1][1] += " " + part
    keys = {key: _key_value(key, value) for key, value in pairs}
    return None if number == "-" else int(number), int(who[1:]), word, keys, answer


def read_answer(text: str, plays: Tuple[Play, ...] = ()) -> Answer:
    """An answer, as a trace writes it.

    >>> read_answer("next 3 more").value, read_answer("bytes -").value, read_answer("Again").refusal
    (Next(thread=3, more=True), b'', 'Again')
    """
    if text in ("done", "begun", "timed out"):
        return Answer(text, None, plays)
    word, _, rest = text.partition(" ")
    if word in ("count", "bits", "number"):
        return Answer(word, int(rest), plays)
    if word == "bytes":
        return Answer(word, bytes.fromhex("" if rest == "-" else rest), plays)
    if word == "thread":
        return Answer(word, None if rest == "none" else int(rest), plays)
    if word == "next":
        thread, _, more = rest.partition(" ")
        return Answer(word, Next(None if thread == "none" else int(thread), more == "more"), plays)
    return Answer("refused", text, plays)


def read_play(text: str) -> Play:
    """A play, as a trace writes it.

    >>> read_play("timer 0 count 2 missed 1 handled")
    Timer(timer=0, number=2, missed=1, handled=True)
    """
    word, *rest = text.split(" ")
    if word == "clock":
        return Clock()
    if word == "deadline":
        return Deadline(int(rest[0][1:]))
    numbers = [int(it) for it in re.findall(r"\b\d+\b", text)]
    if word == "timer":
        return Timer(numbers[0], numbers[1], numbers[2], rest[-1] == "handled")
    return Line(numbers[0], rest[1], numbers[1], rest[-1] == "handled")


# what a number stands for in a board's line: so many plain elements
PLAIN: Dict[str, Any] = {"sems": 0, "flags": 0, "xbufs": (256, 256), "mutexes": "normal", "groups": 100}


def board_line(board: Dict[str, Any], limit: int) -> str:
    """The line of a board, with each of its elements."""
    parts = [f"threads={board['threads']}"]
    for name in PLAIN:
        items = [f"[{it[0]}, {it[1]}]" if name == "xbufs" else str(it) for it in board[name]]
        parts.append(f"{name}=[{', '.join(items)}]")
    return f"board {' '.join(parts)} limit={limit}\n"


def read_board_line(line: str) -> Dict[str, Any]:
    """The board that a line names, as the words of a Kernel.

    >>> read_board_line("board threads=2 sems=1 xbufs=[[8, 16]] mutexes=[normal, ceiling 9] limit=5")["xbufs"]
    [(8, 16)]
    """
    found = re.findall(r" (\w+)=(\[.*?\](?= \w+=|$)|\d+)", line.rstrip())
    if not line.startswith("board ") or len(found) != line.count("="):
        raise BadBoard(f"{line[:80]!r} is no line of a board, as board threads=2 sems=[0]")
    if "threads" not in dict(found):
        raise BadBoard(f"{line[:80]!r} has no threads: a line of a board is wanted, as board threads=2 sems=[0]")
    board: Dict[str, Any] = {}
    for key, value in found:
        if value.isdecimal():
            board[key] = [PLAIN[key]] * min(int(value), 1000) if key in PLAIN else int(value)
        elif key == "mutexes":
            board[key] = [it.strip() for it in value[1:-1].split(",") if it.strip()]
        else:
            numbers = [int(it) for it in re.findall(r"\d+", value)]
            board[key] = list(zip(numbers[::2], numbers[1::2])) if key == "xbufs" else numbers
    return board
