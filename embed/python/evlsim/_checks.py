"""The faults of a text, each with its place, and what is raised of a text that is refused."""

import ctypes
import re
from typing import Iterable, List, NamedTuple, Optional

from . import _library as lib
from ._errors import BadBoard, BadPlan, BadQuestion, BadStep, BadText, Refused, TooManyOrders
from ._kernel import Plan, read_bank
from ._texts import Text, text_bytes

NAME = "text.toml"
# of a text that is refused and has no fault
OTHER = "a text of another kind? evlsim.orders takes [ask] and [[setup]], evlsim.callers staxes and their calls, lab a bank"
FOUND = re.compile(r"(?:(\d+):(\d+): )?(?:step (\d+): )?(at the end: )?(warning: )?(.*)")


class Finding(NamedTuple):
    """A fault of a text, or a warning: the line, the byte in it and the step, each from 1 or None, and what it is."""

    line: Optional[int]
    byte: Optional[int]
    step: Optional[int]
    is_warning: bool
    message: str

    def __str__(self) -> str:
        place = "" if self.line is None else f"{self.line}:{self.byte}: "
        step = "" if self.step is None else f"step {self.step}: "
        return f"{place}{step}{'warning: ' if self.is_warning else ''}{self.message}"


def check(text: Text, bank: Optional[Iterable[Plan]] = None) -> List[Finding]:
    """Every fault of a text of any kind, with its place, or, where a scenario has none, the warnings of one run of it.
    Answers that the text expects are passed over; the program lab compares them.

    >>> for found in check('[board]\\nthreads = 1\\n[[step]]\\ndo = "arrive"\\nwho = 0\\nlien = 5\\n'): print(found)
    6:1: step 1: arrive has no key "lien"; did you mean "line"? (keys: line)
    """
    data, name = text_bytes(text), NAME.encode()
    plans, forms = read_bank(bank)
    checked = lib.Checked()

    def tell(at: ctypes.c_size_t, part: object, size: ctypes.c_size_t) -> int:
        asked = (name, ctypes.c_size_t(len(name)), data, ctypes.c_size_t(len(data)), at, part, size)
        return int(lib.PLAYING.evlsim_c_check_over(forms, ctypes.c_size_t(len(plans)), *asked, ctypes.byref(checked)))

    status, told = lib.whole_text(tell, lambda: int(checked.length), 0)
    if status == 5:
        raise BadPlan("a plan has a number that it may not have")
    if status:
        raise MemoryError
    found = []
    for line in told.decode(errors="replace").splitlines():
        name_of, _, rest = line.partition(":")
        if name_of == NAME and rest:
            found.append(_finding(rest if rest[:1].isdigit() else rest.lstrip()))
    return found


def _finding(text: str) -> Finding:
    parts = FOUND.fullmatch(text)
    assert parts is not None
    line, byte, step, ends, warning, message = parts.groups()
    numbers = [None if it is None else int(it) for it in (line, byte, step)]
    return Finding(numbers[0], numbers[1], numbers[2], warning is not None, (ends or "") + message)


def first_fault(text: Text) -> str:
    """The first fault of a text, with its place: "line 7, byte 1: step 1: put has no key .."; "" where it has none."""
    fault = next((it for it in check(text) if not it.is_warning), None)
    if fault is None or fault.line is None:
        return "" if fault is None else str(fault)
    return f"line {fault.line}, byte {fault.byte}: {fault._replace(line=None)}"


def refused(status: int, step: int, words: str, text: Text) -> Exception:
    """What is raised of a text that ended with this status: it says the first fault, where the library has no words."""
    if status == 4:
        return MemoryError()
    if status == 5:
        return BadPlan("a plan has a number that it may not have")
    why = words or (first_fault(text) or OTHER if status <= 3 else "")
    kind = {1: "bad text", 2: "bad board", 3: f"bad step {step}" if step else ""}.get(status, "")
    message = ": ".join(it for it in (kind, why) if it) or "there are more orders than can be counted"
    if status == 3:
        return BadStep(message, step)
    if status == 1:
        return BadText(message + _shown(text))
    return {2: BadBoard, 8: TooManyOrders, 10: BadQuestion}.get(status, Refused)(message)


def _shown(text: Text) -> str:
    """The text that is none, in short; a file's name is often handed in for its text."""
    short = f", in {text[:60]!r}{' ..' if len(text) > 60 else ''}"
    name = text.decode(errors="replace") if isinstance(text, (bytes, bytearray)) else text
    is_name = "\n" not in name and name.endswith((".toml", ".txt", ".trace"))
    return short + (": a file's text is wanted, not its name (path.read_text())" if is_name else "")
