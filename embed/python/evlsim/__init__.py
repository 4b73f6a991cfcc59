"""The out-of-band core of a dual-kernel machine, simulated: plays scenarios and has kernels, in the process, by the
library libevlsim.so.0.

play, check, draw, orders and callers take a text: its trace, its faults, its picture, every order of its callers, calls
on a machine. Kernel is one to call, with a method for each call and see_.. to ask; Machine has callers for threads of
Python; Plan is what a callback does; evlsim.runner runs a driver's threads, evlsim.strategies is for hypothesis. What
is refused is raised as a Refused; what a kernel refuses is an answer that is false. Dates, intervals and slices are
nanoseconds, from 0 on; elements and threads are numbered from 0. The manual is docs/use/EMBEDDING.md, in a checkout or
in share/doc/evlsim.

>>> import evlsim
>>> print(evlsim.play('[board]\\nthreads = 1\\nsems = [0]\\n[[step]]\\ndo = "put"\\nwho = 0\\nsem = 0\\n'), end="")
board threads=1 sems=1 flags=0 xbufs=0 mutexes=0 groups=0 limit=1000
1 T0 put sem=0 -> done

>>> with evlsim.Kernel(threads=2, sems=[0]) as kernel:
...     assert kernel.try_get(0, sem=0).refusal == "Again"
...     assert kernel.put(1, sem=0)

The library is the one that EVLSIM_LIBRARY names, or else is beside the module, in its prefix, in its checkout, or where
the loader looks."""

from . import _library as _lib
from ._answers import Answer, Clock, Deadline, Line, Next, Play, Timer
from ._callers import Caller, Machine
from ._checks import Finding, check
from ._errors import BadBoard, BadPlan, BadQuestion, BadStep, BadText, CallRefused, CoreBusy
from ._errors import KernelClosed, Refused, TooManyOrders
from ._kernel import PROGRAM_BANK, Awaited, Plan, Stage, Way
from ._library import IS_PROVED, REFUSALS, WORDS
from ._machine import Kernel
from ._pictures import Form, Picture, draw
from ._play import play
from ._reports import Callers, Orders, Outcome, State, Step, callers, orders
from ._traces import Entry, Trace

__version__ = _lib.VERSION.partition(",")[0] + ("" if IS_PROVED else ".unproved")
__all__ = [
    "Answer", "Awaited", "BadBoard", "BadPlan", "BadQuestion", "BadStep", "BadText", "CallRefused", "Caller",
    "Callers", "Clock", "CoreBusy", "Deadline", "Entry", "Finding", "Form", "IS_PROVED", "Kernel", "KernelClosed", "Line",
    "Machine", "Next", "Orders", "Outcome", "PROGRAM_BANK", "Picture", "Plan", "Play", "REFUSALS", "Refused", "Stage",
    "State", "Step", "Timer", "TooManyOrders", "Trace", "WORDS", "Way", "callers", "check", "draw", "orders", "play",
    "version",
]  # fmt: skip


def version() -> str:
    """The version of the library, and whether it is proved."""
    return _lib.VERSION
