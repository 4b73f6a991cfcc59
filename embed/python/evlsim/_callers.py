"""Machines, whose callers call the kernel from threads at once."""

import ctypes
import time
from types import TracebackType
from typing import Any, Callable, Dict, Iterable, NoReturn, Optional, Tuple, Type

from . import _library as lib
from ._answers import Answer
from ._calls import OwnWords, Words
from ._errors import BadBoard, BadQuestion, BadStep, CoreBusy, KernelClosed, Refused, items, near, whole
from ._kernel import LISTS, MISSING, Bytes, Plan, Way, refuse_board, no_key, read_bank, read_board
from ._pictures import shown
from ._questions import Questions
from ._traces import Entry, read_trace

_ref = ctypes.byref
_size = ctypes.c_size_t


class _Calls(Words):
    """What makes the calls of a caller: each is of its own thread, and tells of no plays."""

    def __init__(self, handle: lib.Handle) -> None:
        self._handle = handle
        self._at = _ref(handle)
        self._strict = False

    def _raise(self, status: int, other: Refused) -> NoReturn:
        if status == 6:
            raise KernelClosed("the caller is closed")
        if status == 11:
            raise CoreBusy("another caller has the core")
        super()._raise(status, other)

    def _bare(self, kind: int, word: str, key: str, who: int, element: int) -> Answer:
        if element is MISSING:
            no_key(word, {}, **{key: element})
        call = lib.CallForm(kind)
        call.element = whole(BadStep, f"{word}: {key}", element, 0, 0xFFFF)
        return self._make(word, who, call)

    def _make(self, word: str, who: int, call: lib.CallForm, data: bytes = b"") -> Answer:
        told = lib.Told()
        out: Any = ctypes.create_string_buffer(256) if word in ("read", "finish") else b""
        status = lib.LIBRARY.evlsim_c_try_call(
            self._at, _ref(call), data, _size(len(data)), out, _size(len(out)), _ref(told)
        )
        if status:
            self._raise(status, BadStep(f"{word} can't be made"))
        return self._answer(told, out)

    def _ask(
        self, kind: int, what: str, element: int = 0, stage: int = 0, way: int = 0, on: int = 0, place: int = 0
    ) -> lib.Reading:
        question = lib.Question(kind, stage, way, on, whole(BadQuestion, what, element, 0, 65535), place)
        reading = lib.Reading()
        status = lib.LIBRARY.evlsim_c_caller_ask(self._at, _ref(question), _ref(reading))
        if status:
            self._raise(status, BadQuestion(f"{what} can't be asked"))
        return reading


def _at_last(make: Callable[[], Answer], *passing: str) -> Answer:
    """The first answer of a call that is none of these refusals. Other threads of Python run between the calls."""
    while True:
        answer = make()
        if answer.refusal not in passing:
            return answer
        time.sleep(0)


class Caller(OwnWords, Questions):
    """A caller of a machine, for the thread of this number. There is a method for each step word: the word's keys by
    name (`raise_` for `raise`). None of them waits: while another caller has the core an answer is `CoreBusy`. The
    questions `see_..` take the core too, and raise CoreBusy then.

    These wait, while other threads of Python run, and end with their answer: `do`, which makes any call; `get_sem`,
    `wait_flags`, `read_xbuf`, `write_xbuf`, `lock_mutex`, `unlock_mutex`, `lock_stax`. They never end if no other caller
    brings that about."""

    _asked = "a caller"

    def __init__(self, handle: lib.Handle, thread: int) -> None:
        self._calls = _Calls(handle)
        self.thread = thread

    def call(self, word: str, **keys: Any) -> Answer:
        """Makes the call that a word and its keys are: caller.call("put", sem=0) is caller.put(sem=0)."""
        if word not in lib.WORDS:
            raise BadStep(f"there is no step word {word!r}{near(word, lib.WORDS)}")
        answer: Answer = getattr(self, word + "_" * (word == "raise"))(**keys)
        return answer

    def _ask(
        self, kind: int, what: str, element: int = 0, stage: int = 0, way: int = 0, on: int = 0, place: int = 0
    ) -> lib.Reading:
        return self._calls._ask(kind, what, element, stage, way, on, place)

    def do(self, word: str, **keys: Any) -> Answer:
        """Makes the call that a word and its keys are, however long other callers have the core."""
        return _at_last(lambda: self.call(word, **keys), "CoreBusy")

    def _wait(self, word: str, **keys: Any) -> Answer:
        """Makes a call that begins a wait, and where it is begun finishes it once it is over."""
        answer = self.do(word, **keys)
        if answer.kind != "begun":
            return answer
        while not self._is_over():
            time.sleep(0)
        answer = self.do("finish")
        # who holds a mutex or a stax keeps the stage; the caller itself refuses the other form, with nothing done
        return self.do("finish", keep=True) if answer.refusal == "Invalid" else answer

    def _is_over(self) -> bool:
        try:
            return self.see_finished(self.thread)
        except CoreBusy:
            return False

    def get_sem(self, sem: int, until: Optional[int] = None) -> Answer:
        """Takes one from a semaphore's count, and waits where it is 0: done, or timed out at the date `until`."""
        return self._wait("begin_get", sem=sem, until=until)

    def wait_flags(self, flags: int, kind: str, until: Optional[int] = None) -> Answer:
        """Takes bits of a flag group, and waits until it can: the bits, or timed out."""
        return self._wait("begin_take", flags=flags, kind=kind, until=until)

    def read_xbuf(self, xbuf: int, way: Way, len: int, until: Optional[int] = None) -> Answer:
        """Reads up to so many bytes of a cross-buffer, and waits until there are some: the bytes, or timed out."""
        return self._wait("begin_read", xbuf=xbuf, way=way, len=len, until=until)

    def write_xbuf(self, xbuf: int, way: Way, bytes: Bytes, until: Optional[int] = None) -> Answer:
        """Writes all bytes into a cross-buffer, and waits until they fit: done, or timed out."""
        return self._wait("begin_write", xbuf=xbuf, way=way, bytes=bytes, until=until)

    def lock_mutex(self, mutex: int, until: Optional[int] = None) -> Answer:
        """Locks a mutex, however long that takes: done, or timed out. The caller keeps the pass."""
        answer = _at_last(lambda: self.begin_lock_mutex(mutex, until), "CoreBusy", "Again")
        return _at_last(self.finish_lock_mutex, "CoreBusy", "Again") if answer.kind == "begun" else answer

    def unlock_mutex(self, mutex: int) -> Answer:
        """Unlocks a mutex, however long others have the core."""
        return _at_last(lambda: self.try_unlock_mutex(mutex), "CoreBusy")

    def lock_stax(self, stax: int) -> Answer:
        """Enters a stax, however long others keep the caller out. It does not mark the stax as wanted."""
        return _at_last(lambda: self.try_lock_stax(stax), "Again", "Limit", "Raced")

    def try_lock_mutex(self, mutex: int) -> Answer:
        """Locks a mutex, or once more; `Busy` where another has it. The caller keeps the pass that it gets."""
        return self._lock("try_lock_mutex", whole(BadStep, "try_lock_mutex: mutex", mutex, 0, 0xFFFF))

    def begin_lock_mutex(self, mutex: int, until: Optional[int] = None) -> Answer:
        """Begins to lock a mutex: done, or begun where another has it."""
        place = whole(BadStep, "begin_lock_mutex: mutex", mutex, 0, 0xFFFF)
        date = 0 if until is None else whole(BadStep, "begin_lock_mutex: until", until, 0, (1 << 64) - 1)
        return self._lock("begin_lock_mutex", place, ctypes.c_bool(until is not None), ctypes.c_uint64(date))

    def finish_lock_mutex(self) -> Answer:
        """Ends the wait for a mutex: done, timed out, or `Again` while it goes on."""
        return self._lock("finish_lock_mutex")

    def unlock_mutex_fast(self, mutex: int) -> Answer:
        """Unlocks a mutex by its word alone: `Busy` where others claim it, or it has a ceiling."""
        return self._lock("unlock_mutex_fast", whole(BadStep, "unlock_mutex_fast: mutex", mutex, 0, 0xFFFF))

    def try_unlock_mutex(self, mutex: int) -> Answer:
        """Unlocks a mutex, which the kernel hands on where others claim it."""
        return self._lock("try_unlock_mutex", whole(BadStep, "try_unlock_mutex: mutex", mutex, 0, 0xFFFF))

    def try_lock_stax(self, stax: int) -> Answer:
        """Enters a stax at the thread's stage: `Again` where the other stage is in, `Limit`, or `Raced`."""
        return self._lock("try_lock_stax", whole(BadStep, "try_lock_stax: stax", stax, 0, 0xFFFF))

    def unlock_stax(self, stax: int) -> Answer:
        """Leaves a stax. The answer's value is whether the caller was the last one in it and others want in."""
        told = lib.Told()
        place = whole(BadStep, "unlock_stax: stax", stax, 0, 0xFFFF)
        self._tell("unlock_stax", told, place)
        return Answer("done", told.more) if told.kind == 1 else self._calls._answer(told, None)

    def _tell(self, name: str, told: lib.Told, *numbers: Any) -> None:
        if getattr(lib.LIBRARY, f"evlsim_c_{name}")(self._calls._at, *numbers, _ref(told)):
            raise KernelClosed("the caller is closed")

    def _lock(self, name: str, *numbers: Any) -> Answer:
        told = lib.Told()
        self._tell(name, told, *numbers)
        return self._calls._answer(told, None)

    def trace(self, start: int = 0) -> str:
        """The trace of all calls of the machine's callers so far, from a byte on. Raises CoreBusy while another caller has
        the core."""
        return self._calls._text(lib.LIBRARY.evlsim_c_caller_trace, whole(BadQuestion, "start", start, 0, (1 << 63) - 1))

    def close(self) -> None:
        """Frees the caller, and with the last one its machine."""
        lib.LIBRARY.evlsim_c_caller_close(self._calls._at)

    def __del__(self, close: Any = lib.LIBRARY.evlsim_c_caller_close) -> None:
        if "_calls" in self.__dict__:
            close(self._calls._at)

    @property
    def closed(self) -> bool:
        """Whether it is closed."""
        return not self._calls._handle.is_open

    def __repr__(self) -> str:
        return f"<evlsim.Caller of T{self.thread}{', closed' if self.closed else ''}>"

    def __reduce__(self) -> NoReturn:
        raise TypeError("a caller isn't pickled")


MACHINE_KEYS = ("threads", *LISTS, "staxes", "limit", "bank")


class Machine(Questions):
    """A kernel behind one lock, the core, with a `Caller` for each thread of its board, in `callers`. `staxes` has how
    many callers may hold each stax together; the rest is as of a `Kernel`. A notebook shows its picture.

    >>> with Machine(threads=2, mutexes=["normal"], staxes=[1]) as machine:
    ...     first, second = machine.callers
    ...     bool(first.attach(policy="fifo 10", stage="oob")), bool(first.try_lock_mutex(0)), bool(first.unlock_mutex_fast(0))
    ...     first.try_lock_stax(0).text, second.try_lock_stax(0).refusal, first.unlock_stax(0).value
    ...     print(machine.trace().splitlines()[-1])
    (True, True, True)
    ('done', 'Again', False)
    1 T0 attach policy=fifo 10 stage=oob -> done

    Threads of Python may call callers of one machine, and one caller in turn: each call holds the interpreter's lock. A
    machine lives as long as one of its callers does, and is freed with the last one.
    """

    _asked = "a machine"

    def __new__(cls, *given: Any, **board: Any) -> Any:
        if cls.__init__ is Machine.__init__ and not given and "threads" not in board:
            refuse_board("a machine", board, MACHINE_KEYS)
        return super().__new__(cls)

    def __init__(
        self,
        threads: int,
        sems: Iterable[int] = (),
        flags: Iterable[int] = (),
        xbufs: Iterable[Tuple[int, int]] = (),
        mutexes: Iterable[str] = (),
        groups: Iterable[int] = (),
        staxes: Iterable[int] = (),
        limit: int = 1000,
        bank: Optional[Iterable[Plan]] = None,
        **wrong: NoReturn,
    ) -> None:
        if wrong:
            refuse_board("a machine", wrong, MACHINE_KEYS)
        board: Dict[str, Any] = dict(
            threads=threads, sems=sems, flags=flags, xbufs=xbufs, mutexes=mutexes, groups=groups
        )
        form, _kept = read_board(board)
        limits = [
            whole(BadBoard, f"staxes[{place}]", it, 1, 1000)
            for place, it in enumerate(items(BadBoard, "staxes", staxes, "at most 16 items"))
        ]
        if len(limits) > 16:
            raise BadBoard(f"staxes has {len(limits)} items: 16 at most are wanted")
        most = whole(BadBoard, "limit", limit, 1, 1000000)
        self._bank, plans = read_bank(bank)
        handles = (lib.Handle * form.threads)()
        status = lib.LIBRARY.evlsim_c_machine_open(
            _ref(form), (ctypes.c_uint16 * (len(limits) + 1))(*limits), _size(len(limits)), plans,
            _size(len(self._bank)), ctypes.c_uint32(most), handles, _size(form.threads),
        )  # fmt: skip
        if status == 4:
            raise MemoryError
        if status:
            raise BadBoard("the board is refused")
        self.callers = tuple(Caller(handles[place], place) for place in range(form.threads))

    def trace(self, start: int = 0) -> str:
        """The trace of all calls so far, from a byte on, by the first caller that isn't closed."""
        return self._first().trace(start)

    def _first(self) -> Caller:
        for caller in self.callers:
            if not caller.closed:
                return caller
        raise KernelClosed("the machine is closed")

    def history(self) -> Tuple[Entry, ...]:
        """The entries of the kernel's history, from the first on."""
        return tuple(read_trace(self.trace()))

    def _ask(
        self, kind: int, what: str, element: int = 0, stage: int = 0, way: int = 0, on: int = 0, place: int = 0
    ) -> lib.Reading:
        return self._first()._ask(kind, what, element, stage, way, on, place)

    def _drawn(self) -> Tuple[str, Tuple[Plan, ...]]:
        """What its picture is made from: the trace."""
        return self.trace(), self._bank

    def _repr_svg_(self) -> Optional[str]:
        return None if self.closed else shown(self)

    def close(self) -> None:
        """Frees the callers that aren't closed, and the machine."""
        for caller in self.callers:
            caller.close()

    @property
    def closed(self) -> bool:
        """Whether each caller is closed."""
        return all(caller.closed for caller in self.callers)

    def __enter__(self) -> "Machine":
        return self

    def __exit__(
        self, kind: Optional[Type[BaseException]], error: Optional[BaseException], trace: Optional[TracebackType]
    ) -> None:
        self.close()

    def __repr__(self) -> str:
        return f"<evlsim.Machine of {len(self.callers)} callers{', closed' if self.closed else ''}>"

    def __reduce__(self) -> NoReturn:
        raise TypeError("a machine isn't pickled")
