"""What a kernel tells besides its answers: a method for each question."""

from typing import NoReturn, Optional

from . import _library as lib
from ._errors import BadQuestion, near, one_of, whole
from ._kernel import AWAITED, STAGES, WAYS, Awaited, Stage, Way


class Questions:
    """Questions to a kernel. They change nothing, and enter nothing into its history."""

    # what is asked, as an error names it
    _asked = "a kernel"

    def __getattr__(self, name: str) -> NoReturn:
        names = [it for it in dir(type(self)) if not it.startswith("_")]
        raise AttributeError(f"{self._asked} has no {name!r}{near(name, names)}")

    def _ask(
        self, kind: int, what: str, element: int = 0, stage: int = 0, way: int = 0, on: int = 0, place: int = 0
    ) -> lib.Reading:
        raise NotImplementedError

    def see_now(self) -> int:
        """The date, in nanoseconds since the kernel was opened."""
        return int(self._ask(0, "see_now").number)

    def see_picked(self) -> Optional[int]:
        """The thread that is picked, by its number, or None."""
        return _number(self._ask(1, "see_picked"))

    def see_rank(self, thread: int) -> Optional[int]:
        """The effective rank of a thread, or None where it isn't attached: 512 + P under "fifo P" and "rr P SLICE",
        256 + P under "quota GROUP P", P under "weak P", or a greater one that it has by a mutex."""
        return _number(self._ask(2, "see_rank: thread", thread))

    def see_ready(self, thread: int) -> bool:
        """Whether a thread is ready: attached, out-of-band and not blocked."""
        return bool(self._ask(3, "see_ready: thread", thread).there)

    def see_waits(self, thread: int) -> bool:
        """Whether a thread has an unfinished wait."""
        return bool(self._ask(4, "see_waits: thread", thread).there)

    def see_finished(self, thread: int) -> bool:
        """Whether a thread's unfinished wait has ended, so that its finish isn't refused as Again."""
        return bool(self._ask(5, "see_finished: thread", thread).there)

    def see_timed_out(self, thread: int) -> bool:
        """Whether a thread's unfinished wait has ended by its deadline."""
        return bool(self._ask(6, "see_timed_out: thread", thread).there)

    def see_stage(self, thread: int) -> str:
        """The stage of a thread: "inband" or "oob"."""
        return STAGES[self._ask(7, "see_stage: thread", thread).number]

    def see_count(self, sem: int) -> Optional[int]:
        """The count of a semaphore, or minus the number of threads that wait; None where there is none."""
        reading = self._ask(8, "see_count: sem", sem)
        return int(reading.count) if reading.there else None

    def see_bits(self, flags: int) -> Optional[int]:
        """The bits of a flag group, or None where there is none."""
        return _number(self._ask(9, "see_bits: flags", flags))

    def see_stored(self, xbuf: int, way: Way) -> Optional[int]:
        """How many bytes are in a way of a cross-buffer ("in" or "out"), or None where there is none."""
        place = one_of(BadQuestion, "see_stored: way", way, WAYS)
        return _number(self._ask(10, "see_stored: xbuf", xbuf, way=place))

    def see_owner(self, mutex: int) -> Optional[int]:
        """Who is recorded as the owner of a mutex, or None."""
        return _number(self._ask(11, "see_owner: mutex", mutex))

    def see_waiters(self, mutex: int) -> int:
        """How many threads wait for a mutex."""
        return int(self._ask(12, "see_waiters: mutex", mutex).number)

    def see_waiter(self, on: Awaited, element: int, place: int = 0, way: Way = "in") -> Optional[int]:
        """The thread at a place of a queue, the first at 0, or None. The queue is that of a "sem", "flags" or "mutex",
        or of those that wait for "writing" or "reading" a way of a cross-buffer."""
        return _number(
            self._ask(
                13,
                "see_waiter: element",
                element,
                on=one_of(BadQuestion, "see_waiter: on", on, AWAITED),
                way=one_of(BadQuestion, "see_waiter: way", way, WAYS),
                place=whole(BadQuestion, "see_waiter: place", place, 0, (1 << 63) - 1),
            )
        )

    def see_pending(self, stage: Stage, line: int) -> bool:
        """Whether an event is pending on a line of a stage."""
        place = one_of(BadQuestion, "see_pending: stage", stage, STAGES)
        return bool(self._ask(14, "see_pending: line", line, stage=place).there)


def _number(reading: lib.Reading) -> Optional[int]:
    return int(reading.number) if reading.there else None
