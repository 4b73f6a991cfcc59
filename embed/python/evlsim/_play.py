"""Plays a scenario's text."""

import ctypes
from typing import Iterable, Optional, Union

from . import _library as lib
from ._checks import refused
from ._errors import BadBoard, whole
from ._kernel import Plan, read_bank
from ._texts import text_bytes
from ._traces import Trace


def play(text: Union[str, bytes, bytearray], limit: int = 0, bank: Optional[Iterable[Plan]] = None) -> Trace:
    """The trace of a scenario's text, in TOML or as lines. `limit`, 1 to 1,000,000, replaces the text's own, 0 keeps it;
    `bank` are the plans of the callbacks, in place of the program's. The trace is a str, with its `entries`; a notebook
    shows its picture.

    Raises BadText, BadBoard or BadStep where the text is refused, with its first fault (`check` tells every one), BadPlan
    and MemoryError."""
    data = text_bytes(text)
    most = whole(BadBoard, "limit", limit, 0, 1000000)
    plans, forms = read_bank(bank)
    played = lib.Played()

    def tell(at: ctypes.c_size_t, part: object, size: ctypes.c_size_t) -> int:
        rest = (data, ctypes.c_size_t(len(data)), ctypes.c_uint32(most), at, part, size, ctypes.byref(played))
        if bank is None:
            return int(lib.PLAYING.evlsim_c_play(*rest))
        return int(lib.PLAYING.evlsim_c_play_over(forms, ctypes.c_size_t(len(plans)), *rest))

    status, told = lib.whole_text(tell, lambda: int(played.length), 0)
    if status:
        raise refused(status, int(played.step), "", text)
    trace = Trace(told.decode())
    if not most:
        trace._text, trace._bank = data, plans
    return trace
