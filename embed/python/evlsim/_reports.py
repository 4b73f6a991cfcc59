"""What the library tells of a text, as values: the orders of its callers, and a machine's callers."""

import ctypes
import re
import threading
from typing import Any, Callable, Dict, Iterable, List, NamedTuple, Optional, Tuple

from . import _library as lib
from ._answers import Answer, Play
from ._checks import refused
from ._errors import BadBoard, BadQuestion, whole, wrong_type
from ._kernel import Plan, read_bank
from ._pictures import shown
from ._play import play
from ._texts import Text, text_bytes
from ._traces import Entry, Trace, keys_text, read_answer, read_call, read_play, read_trace

CUT_OFF = "\n# cut off"
# how great a buffer is handed in for a report, since a further call would go through all orders again
REPORT = 1 << 22
STATE = re.compile(r"# state (\d+): (\w+): (.*): ((?:not )?at (?:a|no|each) moment)( that was gone through)?")
HOLDING = {("never_state", "at no moment"), ("sometimes", "at a moment"), ("always", "at each moment")}


class Outcome(NamedTuple):
    """A way in which orders end: how many do, who is stuck, the answers of each caller, how the machine then is, the
    first such order, and that order as a scenario, over the bank. A notebook shows its picture."""

    number: int
    orders: int
    stuck: Tuple[str, ...]
    answers: Dict[int, Tuple[Answer, ...]]
    state: Tuple[str, ...]
    order: Tuple[int, ...]
    scenario: str
    bank: Optional[Tuple[Plan, ...]]

    def trace(self) -> Trace:
        """The trace of the first order that ends so."""
        return play(self.scenario, bank=self.bank)

    def _drawn(self) -> Any:
        return self.trace()._drawn()

    def _repr_svg_(self) -> Optional[str]:
        return shown(self)

    def __repr__(self) -> str:
        stuck = f", stuck: {'; '.join(self.stuck)}" if self.stuck else ""
        return f"<outcome {self.number}: {_count(self.orders, 'order')}{stuck}>"


class State(NamedTuple):
    """What came of a question about moments: its number, key and text, and whether it holds (None where that isn't known,
    since longer orders were cut off). Where a moment decides it, a shortest order that leads there, and that order as a
    scenario, over the bank; else () and "". A notebook shows its picture."""

    number: int
    key: str
    text: str
    holds: Optional[bool]
    order: Tuple[int, ...]
    scenario: str
    bank: Optional[Tuple[Plan, ...]]

    def trace(self) -> Trace:
        """The trace of the order that leads to the moment."""
        if not self.scenario:
            raise BadQuestion(f"state {self.number} has no moment: {self.key} {self.text}")
        return play(self.scenario, bank=self.bank)

    def _drawn(self) -> Any:
        return self.trace()._drawn()

    def _repr_svg_(self) -> Optional[str]:
        return shown(self) if self.scenario else None


class Orders(NamedTuple):
    """Every order in which the callers of a text may come: the `total`, each way in which they end, what was
    asked (as `lab orders` says it, or ""), whether that holds (None where it isn't known, since longer orders were cut
    off), in `against` the first outcome that is against it, or nothing, whether longer orders were cut off, and each
    question about moments."""

    total: int
    outcomes: Tuple[Outcome, ...]
    verdict: str
    holds: Optional[bool]
    against: Tuple[Outcome, ...]
    is_cut_off: bool
    states: Tuple[State, ...]

    def __repr__(self) -> str:
        told = f": {self.verdict}" if self.verdict else ""
        return f"<{_count(self.total, 'order')}, {_count(len(self.outcomes), 'outcome')}{told}>"


def _count(number: int, word: str) -> str:
    return f"{number} {word}{'' if number == 1 else 's'}"


def orders(
    text: Text, bank: Optional[Iterable[Plan]] = None, most: Optional[int] = None, seconds: Optional[float] = None
) -> Orders:
    """Goes through every order in which the callers of a text may come (docs/use/ORDERS.md). `most` is how many moments
    of one number of steps there may be; after so many `seconds` TimeoutError is raised, and the work goes on to its end
    in a thread of its own.

    >>> steps = "".join(f'[[step]]\\ndo = "try_get"\\nwho = {who}\\nsem = 0\\n' for who in (1, 2))
    >>> found = orders("[board]\\nthreads = 3\\nsems = [1]\\n" + steps)
    >>> found.total, [it.answers for it in found.outcomes]
    (2, [{1: (<done>,), 2: (<Again>,)}, {1: (<Again>,), 2: (<done>,)}])
    """
    data = text_bytes(text)
    plans, forms = read_bank(bank)
    limit = 0 if most is None else whole(BadQuestion, "most", most, 1, (1 << 63) - 1)
    ordered = lib.Ordered()

    def tell(at: ctypes.c_size_t, part: object, size: ctypes.c_size_t) -> int:
        head = (forms, ctypes.c_size_t(len(plans)), ctypes.c_size_t(limit), ctypes.c_size_t(0))
        rest = (data, ctypes.c_size_t(len(data)), at, part, size, ctypes.byref(ordered))
        return int(lib.PLAYING.evlsim_c_orders(*head, *rest))

    status, told = _in_time(lambda: lib.whole_text(tell, lambda: int(ordered.length), 0, REPORT), seconds)
    if status:
        raise refused(status, int(ordered.step), told.decode(), text)
    over = None if bank is None else plans
    head, *parts = re.split(r"^(?=# outcome \d+: )", told.decode(), flags=re.M)
    found = tuple(_outcome(part, over) for part in parts)
    states = tuple(_state(part, over) for part in re.split(r"^(?=# state \d+: )", head, flags=re.M)[1:])
    count = re.match(r"# (\d+) order", head)
    total = int(count[1]) if count else 0
    against = tuple(it for it in found if it.number == ordered.against)
    holds = {0: True, 1: False}.get(ordered.verdict)
    return Orders(total, found, _verdict(ordered, total), holds, against, not ordered.is_whole, states)


def _verdict(ordered: lib.Ordered, total: int) -> str:
    """What came of what is asked, as `lab orders` says it."""
    if ordered.against:
        return f"outcome {ordered.against} is against what is asked"
    if ordered.state:
        return f"state {ordered.state} is against what is asked"
    if ordered.verdict == 1:
        return f"outcomes: {ordered.outcomes}, and not {ordered.wanted}"
    if ordered.verdict:
        return f"not answered: cut off at orders of {ordered.steps} steps"
    counts = ordered.wanted >= 0
    if not (ordered.never or ordered.always_ends or ordered.ends_waits or ordered.states or counts):
        return ""
    ends = ("always_ends, " if ordered.always_ends else "") + ("ends_waits, " if ordered.ends_waits else "")
    states = f", {_count(ordered.states, 'state')}" if ordered.states else ""
    picked = " as threads are picked" if ordered.as_picked else ""
    return f"{ends}{ordered.never} never{states}{', outcomes' if counts else ''}: hold in all {total} orders{picked}"


def _in_time(work: Callable[[], Tuple[int, bytes]], seconds: Optional[float]) -> Tuple[int, bytes]:
    """What comes of the work. It is done in a thread of its own, so that Ctrl-C is heard."""
    if seconds is not None:
        wanted = f"seconds is {seconds!r}: a number from 0 to {threading.TIMEOUT_MAX:.0f}, or None, is wanted"
        if isinstance(seconds, bool) or not isinstance(seconds, (int, float)):
            raise wrong_type(BadQuestion, wanted)
        if not 0 <= seconds <= threading.TIMEOUT_MAX:
            raise BadQuestion(wanted)
    done: List[Tuple[int, bytes]] = []
    failed: List[BaseException] = []

    def run() -> None:
        try:
            done.append(work())
        except BaseException as why:  # told in the thread that asked
            failed.append(why)

    thread = threading.Thread(target=run, daemon=True)
    thread.start()
    thread.join(seconds)
    if failed:
        raise failed[0]
    if not done:
        raise TimeoutError(f"the orders weren't gone through after {seconds} s")
    return done[0]


def _order(line: str) -> Tuple[int, ...]:
    return tuple(int(it[1:]) for it in line[len("# order:") :].split())


def _state(part: str, bank: Optional[Tuple[Plan, ...]]) -> State:
    first, *lines = part.splitlines()
    head = STATE.fullmatch(first)
    assert head is not None
    number, key, text, found, cut_off = head.groups()
    holds = None if cut_off else (key, found) in HOLDING
    if not lines:
        return State(int(number), key, text, holds, (), "", bank)
    return State(int(number), key, text, holds, _order(lines[0]), "\n".join(lines[1:]).strip("\n") + "\n", bank)


def _outcome(part: str, bank: Optional[Tuple[Plan, ...]]) -> Outcome:
    first, *lines = part.splitlines()
    head = re.match(r"# outcome (\d+): (\d+) order", first)
    assert head is not None
    stuck: List[str] = []
    state: List[str] = []
    scenario: List[str] = []
    answers: Dict[int, Tuple[Answer, ...]] = {}
    order: Tuple[int, ...] = ()
    for line in lines:
        if CUT_OFF[1:] in line:
            continue
        if not line.startswith("# "):
            scenario.append(line)
        elif line.startswith("# stuck: "):
            stuck.append(line[9:])
        elif line.startswith("# order:"):
            order = _order(line)
        elif re.match(r"# T\d+ -> ", line):
            who, *told = line[2:].split(" -> ")
            answers[int(who[1:])] = tuple(read_answer(it) for it in told)
        else:
            state.append(line[2:])
    text = "\n".join(scenario).strip("\n") + "\n"
    return Outcome(int(head[1]), int(head[2]), tuple(stuck), answers, tuple(state), order, text, bank)


class Step(NamedTuple):
    """A step of a machine's caller: the number, who, the word with its keys, the answer (of the kind "pass" with its
    name, where it got one), the stax, word or core after it ("" where the step went to none), and what was played."""

    number: Optional[int]
    who: int
    word: str
    keys: Dict[str, Any]
    answer: Answer
    state: str
    plays: Tuple[Play, ...]

    def __str__(self) -> str:
        state = f" | {self.state}" if self.state else ""
        return f"T{self.who} {self.word}{keys_text(self.keys)} -> {self.answer}{state}"


class Callers(str):
    """What `lab callers` prints: a str with its `steps`, how the machine was `closed`, and the `history` that its
    kernel had then. A notebook shows its picture."""

    @property
    def steps(self) -> Tuple[Step, ...]:
        """The steps of the callers."""
        return tuple(_steps(self.partition("\nclose -> ")[0]))

    @property
    def closed(self) -> str:
        """What the machine's close answered."""
        return self.partition("\nclose -> ")[2].partition("\n")[0]

    @property
    def history(self) -> Tuple[Entry, ...]:
        """The entries that the kernel's history had when the machine was closed."""
        return tuple(read_trace(self.partition("\nclose -> ")[2].partition("\n")[2]))

    def _repr_svg_(self) -> Optional[str]:
        return shown(str(self))


def _steps(text: str) -> List[Step]:
    made: List[Step] = []
    for line in text.splitlines():
        if line.startswith("  "):
            last = made[-1]
            plays = last.plays + (read_play(line[2:]),)
            made[-1] = last._replace(plays=plays, answer=last.answer._replace(plays=plays))
            continue
        head = read_call(line)
        if head is None:
            continue
        number, who, word, keys, told = head
        answer, _, state = told.partition(" | ")
        made.append(Step(number, who, word, keys, _step_answer(answer, keys), state, ()))
    return made


def _step_answer(text: str, keys: Dict[str, Any]) -> Answer:
    if text == keys.get("as"):
        return Answer("pass", text)
    word, comma, more = text.partition(", ")
    return Answer("done", more) if comma and word == "done" else read_answer(text)


def callers(text: Text, bank: Optional[Iterable[Plan]] = None, limit: int = 0) -> Callers:
    """Makes the calls of a machine's callers on staxes, mutexes and the core (docs/use/CALLERS_TEXT.md).

    >>> step = '[[step]]\\ndo = "try_lock_stax"\\nwho = 0\\nstax = 0\\nas = "p"\\n'
    >>> told = callers("[board]\\nthreads = 1\\nstaxes = [1]\\n" + step)
    >>> print(told.steps[0])
    T0 try_lock_stax stax=0 as=p -> p | stax 0: in-band, 1 holder
    """
    data = text_bytes(text)
    plans, forms = read_bank(bank)
    most = whole(BadBoard, "limit", limit, 0, 1000000)
    played = lib.Played()

    def tell(at: ctypes.c_size_t, part: object, size: ctypes.c_size_t) -> int:
        head = (forms, ctypes.c_size_t(len(plans)), data, ctypes.c_size_t(len(data)))
        return int(lib.PLAYING.evlsim_c_callers(*head, ctypes.c_uint32(most), at, part, size, ctypes.byref(played)))

    status, told = lib.whole_text(tell, lambda: int(played.length), 0)
    if status:
        raise refused(status, int(played.step), told.decode(), text)
    return Callers(told.decode())
