"""Pictures of texts, drawn in the process by the library, as `lab draw` draws them (docs/use/LAB.md)."""

import ctypes
import warnings
from typing import Any, Iterable, Literal, Optional, Tuple

from . import _library as lib
from ._checks import OTHER, first_fault
from ._errors import BadPlan, BadQuestion, BadText, Refused, one_of, whole
from ._kernel import Plan, read_bank
from ._texts import text_bytes

FORMS = ("svg", "perfetto")
Form = Literal["svg", "perfetto"]
# their numbers in embed/include/evlsim/abi.h
NUMBERS = {"svg": 0, "perfetto": 3}
FAULTS = {1: "bad text", 2: "a bad board", 3: "a bad step"}


class Picture(str):
    """A picture, as a text; a notebook shows one in SVG. `form`, `page` and `pages` say what it is."""

    form: Form
    page: int
    pages: int

    def _repr_svg_(self) -> Optional[str]:
        return str(self) if self.form == "svg" else None

    def __repr__(self) -> str:
        return f"<evlsim.Picture, {self.form}, page {self.page} of {self.pages}>"


def draw(what: Any, form: Form = "svg", page: int = 1, bank: Optional[Iterable[Plan]] = None) -> Picture:
    """A picture of a scenario, played over the bank, or of a trace, as a text of either, or of what has one: a played
    text, a kernel, a machine, an outcome (each over its own bank), what callers did. The form is "svg", or "perfetto" for trace
    events (docs/use/LAB.md); more than 2,000 marks make more than one page of SVG. Raises BadText for other texts,
    BadQuestion where there is no such page, BadPlan and MemoryError.

    >>> put = '[[step]]\\ndo = "put"\\nwho = 0\\nsem = 0\\n'
    >>> draw("[board]\\nthreads = 1\\nsems = [0]\\n" + put).count("<title>")
    1
    """
    text, over = what._drawn() if hasattr(what, "_drawn") else (what, bank)
    one_of(BadQuestion, "form", form, FORMS)
    number = whole(BadQuestion, "page", page, 1, 1000000)
    data = text_bytes(text)
    plans, forms = read_bank(over)
    told, pages = _drawn(data, plans, forms, NUMBERS[form], number)
    made = Picture(told)
    made.form, made.page, made.pages = form, page, pages
    return made


def _drawn(data: bytes, plans: Tuple[Plan, ...], forms: Any, form: int, page: int) -> Tuple[str, int]:
    """The picture that the library draws, and how many pages there are."""
    drawn = lib.Drawn()

    def tell(at: ctypes.c_size_t, part: object, size: ctypes.c_size_t) -> int:
        asked = (ctypes.c_uint8(form), ctypes.c_uint32(page), data, ctypes.c_size_t(len(data)), at, part, size)
        return int(lib.PLAYING.evlsim_c_draw_over(forms, ctypes.c_size_t(len(plans)), *asked, ctypes.byref(drawn)))

    status, told = lib.whole_text(tell, lambda: int(drawn.length), 0)
    if status:
        raise _undrawn(status, page, drawn, data)
    return told.decode(), int(drawn.pages)


def _undrawn(status: int, page: int, drawn: lib.Drawn, data: bytes) -> Exception:
    """Why nothing is drawn."""
    if status == 4:
        return MemoryError()
    if status == 5:
        return BadPlan("a plan has a number that it may not have")
    if status == 7:
        return BadQuestion(f"the picture has no page {page}: the last one is {drawn.pages}")
    if drawn.line == 0:
        return BadText("the text is no UTF-8")
    step = f" {drawn.step}" if status == 3 else ""
    why = f"line {drawn.line} is no line of a trace, and as a scenario it has {FAULTS[status]}{step}"
    return BadText(f"{why}: {first_fault(data) or OTHER}")


def shown(what: Any) -> Optional[str]:
    """The picture for a notebook, or None, with a warning, where none can be drawn."""
    try:
        return str(draw(what))
    except (Refused, MemoryError) as why:
        warnings.warn(f"no picture: {why}", RuntimeWarning, stacklevel=3)
        return None
