"""Plays scenarios from Python: PYTHONPATH=embed/python pytest examples, or the same with python3
examples/python/test_play.py; a copy elsewhere plays those that are installed beside the module."""
import glob
import os
import threading
from typing import Any, Callable, Dict, List, Tuple

import evlsim

TOP = os.path.dirname(os.path.dirname(os.path.dirname(os.path.abspath(__file__))))
if not os.path.isdir(f"{TOP}/scenarios"):
    TOP = os.path.join(os.path.dirname(os.path.abspath(evlsim.__file__)), "../../../../share/doc/evlsim")
BOARD = "[board]\nthreads = 1\nsems = [0]\n"
PUT = '[[step]]\ndo = "put"\nwho = 0\nsem = 0\n'


def text_of(name: str) -> str:
    with open(name, encoding="utf-8") as file:
        return file.read()


def test_each_stored_trace() -> None:
    traces = glob.glob(f"{TOP}/scenarios/**/*.trace", recursive=True)
    assert traces
    for trace in traces:
        assert evlsim.play(text_of(trace[:-6] + ".toml")) == text_of(trace), trace


def test_step_at_fault() -> None:
    try:
        evlsim.play(BOARD + PUT + '[[step]]\ndo = "push"\nwho = 0\n')
    except evlsim.BadStep as refused:
        assert refused.step == 2
    else:
        raise AssertionError("a step that can't be read was played")


def test_limit() -> None:
    assert evlsim.play(BOARD + PUT + PUT, limit=1).endswith("- T0 put sem=0 -> HistoryFull\n")


def test_ranks_along_a_chain() -> None:
    kernel = evlsim.Kernel(threads=4, mutexes=["normal", "normal"])
    for who, prio in ((1, 8), (2, 28), (3, 78)):
        assert kernel.attach(who, policy=f"fifo {prio}", stage="oob").text == "done"
    assert kernel.claim(2, mutex=0, owner=1).text == "begun"
    assert kernel.claim(3, mutex=1, owner=2, until=100).text == "begun"
    assert kernel.rank_of(0, thread=1).text == "number 590"
    ticked = kernel.tick(0, delta=100)
    assert ticked == "done" and ticked.plays == (evlsim.Clock(), evlsim.Deadline(3))
    assert kernel.rank_of(0, thread=1).text == "number 540"
    assert kernel.put(0, sem=0).refusal == "Unknown"
    assert evlsim.play(kernel.scenario()) == kernel.trace()
    assert kernel.see_rank(2) == 540 and kernel.see_rank(0) is None
    assert kernel.see_owner(0) == 1 and kernel.see_waiter("mutex", 0) == 2
    assert kernel.finish(3).text == "timed out" and kernel.see_picked() == 3


def test_callbacks() -> None:
    bank = [evlsim.Plan(1, (3, "post_sem", 1), (1, "post_flags", 0, 6))]
    kernel = evlsim.Kernel(threads=1, sems=[0, 0], flags=[0], bank=bank)
    assert kernel.request(0, line=9, stage="oob", callback=0).text == "done"
    for count in range(1, 8):
        played = kernel.arrive(0, line=9).plays
        assert played == (evlsim.Line(9, "oob", count, True),) and str(played[0]) == f"line 9 oob count {count} handled"
    assert kernel.peek(0, sem=1).text == "count 2"
    assert kernel.peek_flags(0, flags=0).text == "bits 6"


def test_refusals() -> None:
    kernel = evlsim.Kernel(threads=1, sems=[0])
    wrongs: List[Dict[str, Any]] = [{"sem": 65536}, {"sem": -1}, {"mutex": 0}, {}]
    for wrong in wrongs:
        try:
            kernel.put(0, **wrong)
        except (evlsim.BadStep, TypeError):
            continue
        raise AssertionError(wrong)
    assert kernel.see_count(0) == 0 and kernel.see_count(1) is None
    kernel.close()
    try:
        kernel.put(0, sem=0)
    except ValueError:
        pass
    else:
        raise AssertionError("a closed kernel was called")
    boards: List[Dict[str, Any]] = [
        {"threads": 0},
        {"threads": 1, "sems": [1 << 31]},
        {"threads": 1, "limit": 0},
        {"threads": 1, "mutexes": ["weak"]},
    ]
    for board in boards:
        try:
            evlsim.Kernel(**board)
        except evlsim.BadBoard:
            continue
        raise AssertionError(board)


def test_words() -> None:
    assert list(evlsim.WORDS)[:6] == ["request", "free", "arrive", "post", "stall", "unstall"]
    assert evlsim.WORDS["claim"] == (32, ("mutex", "owner", "until")) and evlsim.WORDS["now"] == (7, ())


def test_all_values() -> None:
    kernel = evlsim.Kernel(threads=2, xbufs=[(16, 16)], limit=9)
    assert kernel.attach(0, policy="fifo 1", stage="oob")
    assert kernel.write(1, xbuf=0, way="in", bytes=b"\x00\xff").text == "done"
    assert kernel.read(0, xbuf=0, way="in", len=8).text == "bytes 00ff"
    assert kernel.finish(0, keep=True).refusal == "Invalid"
    assert kernel.tick(0, delta=2**64 - 1).text == "done"
    assert kernel.now(1).value == 2**64 - 1


def test_callers_call_as_threads_do() -> None:
    board: Dict[str, Any] = {"threads": 3, "sems": [1], "flags": [0], "xbufs": [(8, 8)], "limit": 12}
    calls: List[Tuple[int, str, Dict[str, Any]]] = [
        (1, "attach", {"policy": "fifo 10", "stage": "oob"}),
        (2, "attach", {"policy": "fifo 20", "stage": "oob"}),
        (0, "request", {"line": 5, "stage": "oob", "callback": 1}),
        (0, "arrive", {"line": 5}),
        (1, "try_get", {"sem": 0}),
        (2, "begin_get", {"sem": 0, "until": 40}),
        (0, "tick", {"delta": 40}),
        (2, "finish", {}),
        (1, "write", {"xbuf": 0, "way": "in", "bytes": b"abc"}),
        (2, "read", {"xbuf": 0, "way": "in", "len": 2}),
        (1, "pick", {}),
        (1, "try_take", {"flags": 3, "kind": "any"}),
        (0, "now", {}),
    ]
    kernel = evlsim.Kernel(**board)
    with evlsim.Machine(**board) as machine:
        for who, word, keys in calls:
            told, wanted = machine.callers[who].call(word, **keys), kernel.call(word, who, **keys)
            assert (told.kind, told.value) == (wanted.kind, wanted.value), word
        assert machine.trace() == kernel.trace() and machine.history() == kernel.history()
        assert machine.callers[0].now().refusal == "HistoryFull"


def test_callers_wait_for_one_another() -> None:
    machine = evlsim.Machine(threads=2, sems=[0], flags=[0], xbufs=[(8, 8)], mutexes=["normal"], staxes=[1])
    first, second = machine.callers
    assert all(caller.do("attach", policy="fifo 10", stage="oob") for caller in machine.callers)
    told: List[evlsim.Answer] = []
    waits: List[Tuple[Callable[[], evlsim.Answer], Callable[[], evlsim.Answer], Any]] = [
        (lambda: first.get_sem(0), lambda: second.put(sem=0), None),
        (lambda: first.wait_flags(0, "exact 6"), lambda: second.post_flags(flags=0, bits=6), 6),
        (lambda: first.read_xbuf(0, "in", 4), lambda: second.write_xbuf(0, "in", b"ab"), b"ab"),
    ]
    for wait, serve, value in waits:
        if value == b"ab":
            assert second.set_stage(stage="inband")
        waiter = threading.Thread(target=lambda: told.append(wait()))
        waiter.start()
        while not machine.see_waits(0):
            pass
        assert not first.see_finished(0) and serve()
        waiter.join()
        assert told[-1] and told[-1].value == value
    assert machine.see_count(0) == 0 and second.set_stage(stage="oob")
    assert second.lock_mutex(0) and first.lock_mutex(0, until=0).kind == "timed out" and second.unlock_mutex(0)
    assert first.get_sem(0, until=0).kind == "timed out" and first.lock_stax(0) and first.unlock_stax(0)
    assert [it.word for it in machine.history()].count("finish") == 6


def test_entries_of_a_trace() -> None:
    trace = evlsim.play(BOARD + PUT + PUT, limit=1)
    assert [(it.number, it.word, it.answer.refusal) for it in trace.entries] == [
        (1, "put", None),
        (None, "put", "HistoryFull"),
    ]
    for name in glob.glob(f"{TOP}/scenarios/**/*.trace", recursive=True):
        text = text_of(name)
        lines = "".join(
            f"{it.number or '-'} {it}\n" + "".join(f"  {play}\n" for play in it.plays)
            for it in evlsim.Trace(text).entries
        )
        assert lines == text.partition("\n")[2], name


def test_long_history() -> None:
    kernel = evlsim.Kernel(threads=1, sems=[0], limit=30000)
    for _ in range(30000):
        kernel.put(0, sem=0)
    assert kernel.put(0, sem=0).refusal == "HistoryFull" and kernel.trace().count("\n") == 30001
    try:
        kernel.scenario()
    except evlsim.Refused as refused:
        assert "1,048,576" in str(refused)
    else:
        raise AssertionError("a scenario above 1 MiB was written")


def test_answers_as_values() -> None:
    kernel = evlsim.Kernel(threads=2, sems=[0], mutexes=["ceiling 20"])
    assert not kernel.try_get(0, sem=0) and kernel.try_get(0, sem=0).refusal == "Again"
    assert kernel.put(0, sem=0) and kernel.peek(0, sem=0).value == 1
    assert kernel.attach(1, policy="fifo 10", stage="oob") and kernel.pick(0).value == 1
    assert kernel.raise_(1, mutex=0) and kernel.release(1, mutex=0).value == evlsim.Next(None, False)
    strict = evlsim.Kernel(threads=1, sems=[0], strict=True)
    try:
        strict.try_get(0, sem=0)
    except evlsim.CallRefused as refused:
        assert refused.answer == "Again" and "T0 try_get sem=0 -> Again" in refused.trace
    else:
        raise AssertionError("a strict kernel answered a refusal")


def test_history_and_copy() -> None:
    kernel = evlsim.Kernel(threads=2, sems=[0], xbufs=[(8, 8)])
    kernel.request(0, line=5, stage="oob", callback=1)
    kernel.arrive(0, line=5)
    kernel.write(0, xbuf=0, way="in", bytes=b"ab")
    words = [(entry.word, entry.keys, entry.plays) for entry in kernel]
    assert words[1] == ("arrive", {"line": 5}, (evlsim.Line(5, "oob", 1, True),))
    assert words[2][1]["bytes"] == b"ab" and len(kernel) == 3
    assert [str(entry.answer) for entry in kernel] == ["done"] * 3 and all(entry.answer for entry in kernel)
    other = kernel.copy()
    assert other.trace() == kernel.trace() and other.put(0, sem=0) and other.see_count(0) == 2
    assert kernel.see_count(0) == 1 and "T0 arrive line=5 -> done" in repr(kernel)


if __name__ == "__main__":
    for test in [it for name, it in sorted(globals().items()) if name.startswith("test_")]:
        test()
        print(test.__name__, "passed")
