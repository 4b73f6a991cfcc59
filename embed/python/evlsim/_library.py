"""The shared library: where it is, what it takes, and its structs (embed/include/evlsim/abi.h)."""

import ctypes
import os
from typing import Callable, Iterator, List, Tuple, Type

ABI = 0
FILE = "libevlsim.so.0"
HERE = os.path.dirname(os.path.abspath(__file__))
# beside this module (a wheel), in a prefix, in the checkout
PLACES = (
    os.path.join(HERE, FILE),
    os.path.join(HERE, "../../..", FILE),
    os.path.join(HERE, "../../../crates/evl_c/out/library", FILE),
)


def _fields(*pairs: Tuple[type, str]) -> List[Tuple[str, type]]:
    return [(name, kind) for kind, names in pairs for name in names.split()]


class Handle(ctypes.Structure):
    _fields_ = _fields((ctypes.c_bool, "is_open"), (ctypes.c_void_p, "at"))


class Row(ctypes.Structure):
    _fields_ = _fields(
        (ctypes.c_uint64, "every"), (ctypes.c_uint8, "action"), (ctypes.c_uint16, "element"), (ctypes.c_uint32, "bits")
    )


class PlanForm(ctypes.Structure):
    _fields_ = [*_fields((ctypes.c_uint64, "accepts"), (ctypes.c_uint8, "kinds count")), ("rows", Row * 4)]


class Played(ctypes.Structure):
    _fields_ = _fields((ctypes.c_size_t, "length"), (ctypes.c_uint32, "step"))


class Checked(ctypes.Structure):
    _fields_ = _fields((ctypes.c_size_t, "length"), (ctypes.c_bool, "is_at_fault"))


class Ordered(ctypes.Structure):
    _fields_ = _fields(
        (ctypes.c_size_t, "length"),
        (ctypes.c_uint64, "total"),
        (ctypes.c_size_t, "outcomes against state steps never states"),
        (ctypes.c_uint32, "step"),
        (ctypes.c_int32, "wanted"),
        (ctypes.c_uint8, "verdict"),
        (ctypes.c_bool, "always_ends ends_waits as_picked is_whole"),
    )


class Drawn(ctypes.Structure):
    _fields_ = _fields((ctypes.c_size_t, "length pages line"), (ctypes.c_uint32, "step"))


class Board(ctypes.Structure):
    _fields_ = [("threads", ctypes.c_uint16)] + [
        pair
        for name in ("sems", "flags", "xbufs", "mutexes", "groups")
        for pair in ((name, ctypes.c_void_p), (name + "_count", ctypes.c_size_t))
    ]


class CallForm(ctypes.Structure):
    _fields_ = _fields(
        (ctypes.c_uint8, "kind stage way choice prio callback timed"),
        (ctypes.c_uint16, "element other"),
        (ctypes.c_uint32, "bits"),
        (ctypes.c_uint64, "date span"),
    )


class Told(ctypes.Structure):
    _fields_ = _fields(
        (ctypes.c_uint16, "refusal"),
        (ctypes.c_uint8, "kind"),
        (ctypes.c_bool, "more"),
        (ctypes.c_int32, "thread"),
        (ctypes.c_int64, "count"),
        (ctypes.c_uint64, "number"),
        (ctypes.c_size_t, "first_play plays"),
    )


class Event(ctypes.Structure):
    _fields_ = _fields(
        (ctypes.c_uint8, "kind stage"),
        (ctypes.c_bool, "handled"),
        (ctypes.c_uint16, "element"),
        (ctypes.c_uint64, "count missed"),
    )


class Question(ctypes.Structure):
    _fields_ = _fields((ctypes.c_uint8, "kind stage way on"), (ctypes.c_uint16, "element"), (ctypes.c_size_t, "place"))


class Reading(ctypes.Structure):
    _fields_ = _fields((ctypes.c_bool, "there"), (ctypes.c_uint64, "number"), (ctypes.c_int64, "count"))


def _open(kind: Type[ctypes.CDLL]) -> ctypes.CDLL:
    name = os.environ.get("EVLSIM_LIBRARY") or next((it for it in PLACES if os.path.exists(it)), FILE)
    try:
        library = kind(name)
        library.evlsim_version.restype = ctypes.c_char_p
        library.evlsim_is_proved.restype = ctypes.c_bool
        library.evlsim_c_close.restype = None
        abi = library.evlsim_abi()
    except (OSError, AttributeError) as why:
        told = "tools/library builds it, in minutes by --unproved, and prints the FOLDER: set "
        told += "EVLSIM_LIBRARY=FOLDER/libevlsim.so.0; ./install installs it"
        raise ImportError(f"{why} ({told})") from None
    if abi != ABI:
        raise ImportError(f"{name} has the ABI number {abi}, and this module wants {ABI}: install both of one version")
    if not hasattr(library, "evlsim_c_reset"):
        raise ImportError(f"{name} is older than this module: install both of one version")
    library.evlsim_c_caller_close.restype = None
    return library


# Calls of a kernel keep the interpreter's lock, so that two threads are never in one kernel at once. A play has no
# kernel and may take long, so it lets others run.
LIBRARY = _open(ctypes.PyDLL)
PLAYING = _open(ctypes.CDLL)
VERSION: str = LIBRARY.evlsim_version().decode()
IS_PROVED: bool = LIBRARY.evlsim_is_proved()


def _texts(tell: Callable[..., int], first: int) -> Iterator[str]:
    """What the library tells of the numbers from the first on, up to one of which it tells nothing."""
    text, length = ctypes.create_string_buffer(256), ctypes.c_size_t()
    for number in range(first, 256):
        if tell(number, ctypes.c_size_t(0), text, ctypes.c_size_t(256), ctypes.byref(length)):
            return
        yield text.raw[: length.value].decode()


# the words of the calls, each with its kind and its keys
WORDS = {
    word: (kind, tuple(keys))
    for kind, (word, *keys) in enumerate(it.split() for it in _texts(LIBRARY.evlsim_c_call_text, 0))
}
# the names of the refusals, by their numbers
REFUSALS = ("-", *_texts(LIBRARY.evlsim_c_refusal_text, 1))

PART = 1 << 16


def whole_text(
    function: Callable[..., int], length: Callable[[], int], start: int, first: int = PART
) -> Tuple[int, bytes]:
    """A text that the library tells in parts, from a byte on, the first of this size, and the status at which it ended;
    of a refusal the words, if there are some."""
    parts, size, at = [], first, start
    while True:
        part = ctypes.create_string_buffer(size)
        status = function(ctypes.c_size_t(at), part, ctypes.c_size_t(size))
        parts.append(part.raw[: max(0, min(size, length() - at))])
        if status:
            return status, parts[-1]
        at += size
        if at >= length():
            return 0, b"".join(parts)
        size = length() - at
