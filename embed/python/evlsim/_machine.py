"""A kernel with its history."""

from types import TracebackType
from typing import Any, Dict, Iterable, Iterator, NoReturn, Optional, Tuple, Type, TypeVar

from . import _library as lib
from ._answers import Answer
from ._calls import Words
from ._errors import BadQuestion, BadStep, BadText, KernelClosed, Refused, near, whole
from ._kernel import Plan
from ._pictures import shown
from ._questions import Questions
from ._traces import Entry, board_line, read_board_line, read_history, read_trace


Copied = TypeVar("Copied", bound="Kernel")


class Kernel(Words, Questions):
    """A kernel with the program's callbacks, or with those of a `bank`. It is freed with the object, or by `close`.

    A board is `threads`, how many (1 to 256), `sems`, opening counts (to 2,147,483,647), `flags`, opening bits (to
    4,294,967,295), `xbufs`, pairs of ring sizes, in and out (1 to 256 bytes), `mutexes`, each "normal", "recursive" or
    "ceiling P" (P 1 to 99), and `groups`, quota groups in percent (1 to 100). `limit` is how many entries the history
    may have (1 to 1,000,000). There is a method for each step word: the caller's number, then the word's keys by name
    (`raise_` for `raise`). An answer is false where the kernel refused the call; a kernel that is `strict` raises
    CallRefused then. A notebook shows its picture (`draw`).

    >>> kernel = Kernel(threads=2, sems=[0])
    >>> kernel.try_get(0, sem=0).refusal, bool(kernel.put(1, sem=0)), kernel.see_count(0)
    ('Again', True, 1)
    >>> kernel.put(0, sem=70000)
    Traceback (most recent call last):
    evlsim._errors.BadStep: put: sem is 70000: a whole number from 0 to 65535 is wanted
    >>> print(kernel.trace(), end="")
    board threads=2 sems=1 flags=0 xbufs=0 mutexes=0 groups=0 limit=1000
    1 T0 try_get sem=0 -> Again
    2 T1 put sem=0 -> done

    Threads of Python may share a kernel: each call holds the interpreter's lock, so calls come one after the other.
    After a fork each process has a kernel of its own.
    """

    def call(self, word: str, who: int, **keys: Any) -> Answer:
        """Makes the call that a word and its keys are: kernel.call("put", 0, sem=0) is kernel.put(0, sem=0)."""
        if word not in lib.WORDS:
            raise BadStep(f"there is no step word {word!r}{near(word, lib.WORDS)}")
        answer: Answer = getattr(self, word + "_" * (word == "raise"))(who, **keys)
        return answer

    def reset(self) -> None:
        """The kernel is as it was made, with an empty history; this asks for no memory.

        >>> kernel = Kernel(threads=1, sems=[0])
        >>> bool(kernel.put(0, sem=0)), kernel.reset(), kernel.see_count(0), len(kernel)
        (True, None, 0, 0)
        """
        status = lib.LIBRARY.evlsim_c_reset(self._at)
        if status:
            self._raise(status, Refused("the kernel isn't reset"))

    def close(self) -> None:
        """Frees the kernel; what is asked of it then raises KernelClosed."""
        lib.LIBRARY.evlsim_c_close(self._at)

    @property
    def closed(self) -> bool:
        """Whether it is closed."""
        return not self._handle.is_open

    def __enter__(self) -> "Kernel":
        if self.closed:
            raise KernelClosed("the kernel is closed")
        return self

    def __exit__(
        self, kind: Optional[Type[BaseException]], error: Optional[BaseException], trace: Optional[TracebackType]
    ) -> None:
        self.close()

    def __del__(self, close: Any = lib.LIBRARY.evlsim_c_close) -> None:
        if "_at" in self.__dict__:
            close(self._at)

    def __repr__(self) -> str:
        return "<evlsim.Kernel, closed>" if self.closed else f"<evlsim.Kernel: {self._last(12)}>"

    def _drawn(self) -> Tuple[str, Tuple[Plan, ...]]:
        """What its picture is made from, over its bank: the scenario, which also shows how the machine stands after each
        call, or else, where that would be too long, the trace."""
        try:
            return self.scenario(), self._bank
        except Refused:
            return self.trace(), self._bank

    def _repr_svg_(self) -> Optional[str]:
        return None if self.closed else shown(self)

    def __reduce__(self) -> NoReturn:
        raise TypeError("a kernel isn't pickled: its scenario() is a text, and copy() makes another one")

    def copy(self: "Copied") -> "Copied":
        """Another kernel of the same class in the same state, by playing the history again; what a class of its own has
        besides is shared."""
        made = object.__new__(type(self))
        Kernel.__init__(made, **self._board, limit=self._limit, bank=self._bank)
        for entry in self:
            getattr(Kernel, entry.word + "_" * (entry.word == "raise"))(made, entry.who, **entry.keys)
        for name, value in self.__dict__.items():
            made.__dict__.setdefault(name, value)
        made._strict = self._strict
        return made

    __copy__ = copy

    def lines(self) -> str:
        """The history as a text of lines, of any length: its board's, and then those of the trace. Such a text is played again
        by from_lines, and by `lab live` (docs/use/LAB.md)."""
        return board_line(self._board, self._limit) + self.trace().partition("\n")[2]

    @classmethod
    def from_lines(cls, text: str, bank: Optional[Iterable[Plan]] = None, strict: bool = False) -> "Kernel":
        """The kernel whose history a text of lines is, as lines() or a trace: each call with its answer. Raises BadText
        for another line, and where a call is answered otherwise: over another bank, or of a trace over a board whose
        elements aren't plain.

        >>> with Kernel(threads=1, mutexes=["ceiling 50"], sems=[2]) as kernel:
        ...     assert kernel.try_get(0, sem=0)
        ...     print(Kernel.from_lines(kernel.lines()).lines(), end="")
        board threads=1 sems=[2] flags=[] xbufs=[] mutexes=[ceiling 50] groups=[] limit=1000
        1 T0 try_get sem=0 -> done
        """
        if not isinstance(text, str):
            raise TypeError(f"text is {text!r}: a text of lines is wanted, as lines() gives it")
        head, _, rest = text.partition("\n")
        made = cls(**read_board_line(head), bank=bank)
        for entry in read_history(rest):
            answer = made.call(entry.word, entry.who, **entry.keys)
            if str(answer) != str(entry.answer):
                raise BadText(f"{entry.number or '-'} {entry}: here it is answered {answer}")
        made._strict = strict
        return made

    def __deepcopy__(self: "Copied", memo: Dict[int, Any]) -> "Copied":
        return self.copy()

    def trace(self, start: int = 0) -> str:
        """The trace of all calls so far, from a byte on."""
        return self._text(lib.LIBRARY.evlsim_c_trace, whole(BadQuestion, "start", start, 0, (1 << 63) - 1))

    def scenario(self) -> str:
        """The scenario that the calls so far are: the program evl plays it again, if the bank is the program's."""
        return self._text(lib.LIBRARY.evlsim_c_scenario, 0)

    def history(self) -> Tuple[Entry, ...]:
        """The entries of the history, from the first on; a call that made no entry isn't among them."""
        return tuple(read_trace(self.trace()))

    def __iter__(self) -> Iterator[Entry]:
        return iter(self.history())

    def __len__(self) -> int:
        return len(self.history())

    def __bool__(self) -> bool:
        return True
