"""Random kernels by hypothesis (Debian: python3-hypothesis): what holds of each, whatever was called. Run by
PYTHONPATH=embed/python pytest examples/python/test_random.py, or by python3; a failing run is shown small."""
from typing import Any, Dict, Tuple

import evlsim
from evlsim import strategies
from hypothesis import given, settings
from hypothesis import strategies as st

WAYS: Tuple[evlsim.Way, ...] = ("in", "out")
QUICK = settings(max_examples=50, deadline=None, database=None)


@QUICK
@given(strategies.kernels())
def test_a_scenario_plays_as_its_kernel(kernel: evlsim.Kernel) -> None:
    assert evlsim.play(kernel.scenario()) == kernel.trace() == kernel.copy().trace()


@QUICK
@given(st.data())
def test_a_refused_call_changes_nothing(data: st.DataObject) -> None:
    board = data.draw(strategies.boards())
    kernel = data.draw(strategies.kernels(board))
    call = data.draw(strategies.calls(board))
    other = kernel.copy()
    if not call.make(kernel) and not kernel.history()[-1].plays:
        assert state_of(kernel, board) == state_of(other, board)


def state_of(kernel: evlsim.Kernel, board: Dict[str, Any]) -> Any:
    """What the readers tell of a kernel."""
    threads = range(board["threads"])
    return (
        (kernel.see_now(), kernel.see_picked()),
        [(kernel.see_rank(it), kernel.see_stage(it), kernel.see_waits(it), kernel.see_finished(it)) for it in threads],
        [kernel.see_count(it) for it in range(len(board["sems"]))],
        [kernel.see_bits(it) for it in range(len(board["flags"]))],
        [kernel.see_owner(it) for it in range(len(board["mutexes"]))],
        [kernel.see_stored(it, way) for it in range(len(board["xbufs"])) for way in WAYS],
    )


@QUICK
@given(st.data())
def test_over_callbacks_of_ones_own(data: st.DataObject) -> None:
    board = data.draw(strategies.boards())
    bank = data.draw(st.lists(strategies.plans(board), max_size=4))
    kernel = data.draw(strategies.kernels(board, bank, ("request", "arrive", "post", "stall", "unstall", "tick")))
    assert evlsim.play(kernel.scenario(), bank=bank) == kernel.trace()


@QUICK
@given(strategies.kernels(words=["put", "try_get"], most=12))
def test_counts_add_up(kernel: evlsim.Kernel) -> None:
    words = [entry.word for entry in kernel if entry.answer]
    begun = sum(int(it) for it in kernel.scenario().split("sems = [")[1].split("]")[0].replace(",", " ").split())
    counts = [kernel.see_count(it) or 0 for it in range(8)]
    assert sum(counts) == begun + words.count("put") - words.count("try_get")


if __name__ == "__main__":
    for name, test in sorted(globals().items()):
        if name.startswith("test_"):
            test()
            print(name, "passed")
