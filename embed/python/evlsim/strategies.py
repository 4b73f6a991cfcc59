"""Strategies for hypothesis: boards, plans, calls and kernels that have made some.

    from hypothesis import given
    from evlsim import play, strategies

    @given(strategies.kernels())
    def test_a_scenario_plays_as_its_kernel(kernel):
        assert play(kernel.scenario()) == kernel.trace()

A number that names an element is mostly one that is there, and at times the first that isn't, so that refusals come
too. A failing example is shown small: few calls, small numbers."""

from typing import Any, Dict, Iterable, List, NamedTuple, Optional, Sequence, Tuple, cast

from hypothesis import strategies as st

from ._answers import Answer
from ._errors import BadStep, near
from ._kernel import PROGRAM_BANK, STAGES, WAYS, Plan, read_bank
from ._library import WORDS
from ._machine import Kernel
from ._traces import keys_text

Board = Dict[str, Any]
# the greatest line that is drawn; the program's callbacks post line 4
LINES = 8
TIMERS = 3
DATES = 60
BITS = 7
LONGEST = 8
ELEMENTS = {"sem": "sems", "flags": "flags", "xbuf": "xbufs", "mutex": "mutexes"}


class Call(NamedTuple):
    """A call that isn't made yet."""

    who: int
    word: str
    keys: Dict[str, Any]

    def make(self, kernel: Kernel) -> Answer:
        """Makes it."""
        return kernel.call(self.word, self.who, **self.keys)

    def __str__(self) -> str:
        return f"T{self.who} {self.word}{keys_text(self.keys)}"

    def __repr__(self) -> str:
        return str(self)


def boards(threads: int = 4, elements: int = 2) -> st.SearchStrategy[Board]:
    """The words of evlsim.Kernel for a board, with so many threads and elements of each kind at most."""

    def some(items: st.SearchStrategy[Any]) -> st.SearchStrategy[List[Any]]:
        return st.lists(items, max_size=elements)

    rings = st.integers(1, 2 * LONGEST)
    mutexes = st.sampled_from(["normal", "recursive"]) | st.integers(1, 99).map("ceiling {}".format)
    return st.fixed_dictionaries(
        {
            "threads": st.integers(1, threads),
            "sems": some(st.integers(0, 3)),
            "flags": some(st.integers(0, BITS)),
            "xbufs": some(st.tuples(rings, rings)),
            "mutexes": some(mutexes),
            "groups": some(st.integers(1, 100)),
        }
    )


def plans(board: Board) -> st.SearchStrategy[Plan]:
    """Plans of callbacks over a board."""

    def element(name: str) -> st.SearchStrategy[int]:
        return st.integers(0, len(board.get(name, ())))

    rows = st.one_of(
        st.tuples(st.integers(1, 4), st.just("post_sem"), element("sems")),
        st.tuples(st.integers(1, 4), st.just("post_flags"), element("flags"), st.integers(0, BITS)),
        st.tuples(st.integers(1, 4), st.just("propagate")),
        st.tuples(st.integers(1, 4), st.just("post_oob"), st.integers(1, LINES)),
        st.tuples(st.integers(1, 4), st.just("stop_timer"), st.integers(0, TIMERS)),
    )
    return st.builds(lambda accepts, made: Plan(accepts, *made), st.integers(1, 3), st.lists(rows, max_size=4))


def _policies(board: Board) -> st.SearchStrategy[str]:
    rank = st.integers(1, 99)
    return st.one_of(
        rank.map("fifo {}".format),
        st.builds("rr {} {}".format, rank, st.integers(1, DATES)),
        st.builds("quota {} {}".format, st.integers(0, len(board.get("groups", ()))), rank),
        st.integers(0, 99).map("weak {}".format),
    )


def _keys(board: Board, bank: Sequence[Plan]) -> Dict[str, st.SearchStrategy[Any]]:
    """What each key may be."""
    date = st.integers(0, DATES)
    mask = st.integers(0, BITS)
    thread = st.integers(0, board["threads"])
    return {
        **{key: st.integers(0, len(board.get(name, ()))) for key, name in ELEMENTS.items()},
        "line": st.integers(0, LINES),
        "timer": st.integers(0, TIMERS),
        "callback": st.integers(0, len(bank)),
        "stage": st.sampled_from(STAGES),
        "way": st.sampled_from(WAYS),
        "policy": _policies(board),
        "kind": st.just("any") | mask.map("of {}".format) | mask.map("exact {}".format),
        "bytes": st.binary(max_size=LONGEST),
        "len": st.integers(0, LONGEST),
        "until": st.none() | date,
        "date": date,
        "delta": date,
        "interval": date,
        "thread": thread,
        "owner": thread,
        "bits": mask,
        "tag": st.integers(0, 2),
        "keep": st.booleans(),
    }


def calls(
    board: Board, bank: Optional[Iterable[Plan]] = None, words: Optional[Iterable[str]] = None
) -> st.SearchStrategy[Call]:
    """Calls over a board and a bank, of all step words or of those that are named."""
    named = tuple(WORDS) if words is None else tuple(words)
    for word in named:
        if word not in WORDS:
            raise BadStep(f"there is no step word {word!r}{near(word, WORDS)}")
    keys = _keys(board, read_bank(bank)[0])
    who = st.integers(0, board["threads"])
    made = [
        st.builds(Call, who, st.just(word), st.fixed_dictionaries({key: keys[key] for key in WORDS[word][1]}))
        for word in named
    ]
    return st.one_of(made)


@st.composite
def kernels(
    draw: st.DrawFn,
    board: Optional[Board] = None,
    bank: Optional[Iterable[Plan]] = None,
    words: Optional[Iterable[str]] = None,
    most: int = 30,
) -> Kernel:
    """Kernels that have made at most so many calls, over a board, a bank and step words that are given or drawn."""
    chosen = cast(Board, draw(boards())) if board is None else board
    plans = read_bank(bank)[0]
    kernel = Kernel(**chosen, bank=plans)
    for call in draw(st.lists(calls(chosen, plans, words), max_size=most)):
        call.make(kernel)
    return kernel
