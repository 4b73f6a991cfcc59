"""What the program lab does, from Python, by the library: faults, pictures, orders and a machine's callers as values. Run as
test_play.py is. Where EVLSIM_LAB names the program, or it is on the path, the library is compared with it."""
import glob
import os
import re
import shutil
import subprocess
import tempfile
from typing import Any, Callable, List, Tuple, Type, TypeVar

import evlsim

TOP = os.path.dirname(os.path.dirname(os.path.dirname(os.path.abspath(__file__))))
if not os.path.isdir(f"{TOP}/scenarios"):
    TOP = os.path.join(os.path.dirname(os.path.abspath(evlsim.__file__)), "../../../../share/doc/evlsim")
BOARD = "[board]\nthreads = 2\nsems = [0]\n"
OTHER_KINDS = ("a text for lab orders", "a bank, for --bank")


def text_of(name: str) -> str:
    with open(f"{TOP}/{name}", encoding="utf-8") as file:
        return file.read()


Error = TypeVar("Error", bound=Exception)
FORMS: Tuple[evlsim.Form, ...] = ("svg", "perfetto")


def refused(function: Callable[[], Any], error: Type[Error], part: str) -> Error:
    try:
        function()
    except error as why:
        assert part in str(why), why
        return why
    raise AssertionError(f"no {error.__name__} was raised")


def test_faults_have_their_places() -> None:
    text = BOARD + '[[step]]\ndo = "arrive"\nwho = 0\nlien = 5\n[[step]]\ndo = "put"\nwho = "T1"\nsem = 0\n'
    first, second = evlsim.check(text)
    assert (first.line, first.byte, first.step, first.is_warning) == (7, 1, 1, False)
    assert 'did you mean "line"?' in first.message and (second.line, second.step) == (10, 2)
    (odd,) = evlsim.check(BOARD + '[[step]]\ndo = "put"\nwho = 0\nsem = 7\n')
    assert odd.is_warning and odd.line is None and str(odd).endswith("T0 put sem=7 is refused: Unknown (the board has sems=1)")
    (merged,) = evlsim.check(text_of("scenarios/lessons/stalled_inband_stage.toml"))
    assert merged.step == 6 and merged.message.startswith("T0 arrive line=3, which is pending inband already")
    assert evlsim.check(text[:-8])[0].step == 1


def test_pictures() -> None:
    text = text_of("scenarios/stalled_inband.toml")
    stored = text_of("docs/pictures/stalled_inband.svg")
    assert evlsim.draw(text) == evlsim.play(text)._repr_svg_() == stored
    with evlsim.Kernel(threads=2, sems=[0]) as kernel:
        kernel.put(0, sem=0)
        assert kernel._repr_svg_() == evlsim.draw(kernel.scenario()) == evlsim.draw(kernel)
        assert "put sem=0" in evlsim.draw(kernel, "perfetto")
    assert kernel._repr_svg_() is None
    bank = [evlsim.Plan(2, (1, "post_sem", 0))]
    own = evlsim.Kernel(threads=1, sems=[0], bank=bank)
    own.request(0, line=5, stage="oob", callback=0)
    own.arrive(0, line=5)
    over_it = evlsim.draw(own.scenario(), bank=bank)
    assert own._repr_svg_() == evlsim.play(own.scenario(), bank=bank)._repr_svg_() == over_it
    assert over_it not in (evlsim.draw(own.trace()), evlsim.draw(own.scenario()))
    short = evlsim.play(text, limit=3)
    assert short._repr_svg_() == evlsim.draw(str(short)) != evlsim.draw(text)
    many = evlsim.Kernel(threads=1, sems=[0], limit=5000)
    for _ in range(2100):
        many.put(0, sem=0)
    assert evlsim.draw(many, page=2).pages == 2
    refused(lambda: evlsim.draw(many, page=3), evlsim.BadQuestion, "the last one is 2")
    neither = "line 1 is no line of a trace, and as a scenario it has a bad board"
    refused(lambda: evlsim.draw("x = 1"), evlsim.BadText, neither)
    refused(lambda: evlsim.draw(BOARD + "[[step]]\n"), evlsim.BadText, "it has a bad step 1: line 1, byte 1: ")
    refused(lambda: evlsim.draw(b"\xff"), evlsim.BadText, "no UTF-8")
    wrong: Any = "png"
    refused(lambda: evlsim.draw(text, wrong), evlsim.BadQuestion, "'svg', 'perfetto'")


LAB = os.environ.get("EVLSIM_LAB") or shutil.which("lab")


def by_the_program(data: bytes, *words: str) -> Tuple[int, str, str]:
    """What the program prints and says of a text, and its status."""
    with tempfile.TemporaryDirectory(prefix="evlsim-") as folder:
        with open(f"{folder}/text.toml", "wb") as file:
            file.write(data)
        done = subprocess.run([LAB or "lab", *words, "text.toml"], capture_output=True, cwd=folder)
    said = [it for it in done.stderr.decode().splitlines() if not it.startswith("lab: UNPROVED")]
    return done.returncode, done.stdout.decode(), "\n".join(said)


def checked_by_the_program(data: bytes) -> List[str]:
    """What lab check prints of a text, as str(evlsim.check(..)) has it: the library judges no answer that is expected."""
    printed = by_the_program(data, "check")[1]
    lines = [it[len("text.toml:") :].lstrip() for it in printed.splitlines() if " is expected, " not in it]
    return [it.replace("at the end: warning: ", "warning: at the end: ") for it in lines]


def is_refusal(told: str, why: str) -> bool:
    """Whether the program refuses a picture as the library does, which has the first fault on the same line, and the program
    below it; of orders, a bank and lines the program says more."""
    first, _, below = told.partition("\n")
    says_more = first.endswith(OTHER_KINDS) or re.match(r"lab:\d+:\d+: ", first)
    fault = re.match(r"text\.toml:(\d+):(\d+): (.*)", below)
    whole = f"{first}: line {fault[1]}, byte {fault[2]}: {fault[3]}" if fault else first
    return f"lab: {why}" in (first, whole) or bool(says_more and ", and as a scenario it has " in why)


def test_same_as_the_program() -> None:
    paths = glob.glob(f"{TOP}/scenarios/**/*.t*", recursive=True)
    paths += glob.glob(f"{TOP}/examples/faulty/**/*.t*", recursive=True) + glob.glob(f"{TOP}/callers/*.t*")
    assert len(paths) > 20
    for path in sorted(paths)[::3] if LAB else ():
        with open(path, "rb") as file:
            data = file.read()
        assert [str(it) for it in evlsim.check(data)] == checked_by_the_program(data), path
        # of callers the library draws what was printed, and the program their text too; an empty text is a trace without
        # lines for the library, and refused by the program
        for form in FORMS if data and "/callers/" not in path else ():
            status, out, told = by_the_program(data, "draw", f"--{form}")
            if status == 0:
                assert evlsim.draw(data, form) == out, path
            else:
                why = refused(lambda: evlsim.draw(data, form), evlsim.BadText, "")
                assert is_refusal(told, str(why)), path


def test_lines() -> None:
    lines = "board threads=2 sems=[0]\nT0 put sem=0\nT1 try_get sem=0 -> done\n"
    trace = evlsim.play(lines)
    assert trace.splitlines()[1:] == ["1 T0 put sem=0 -> done", "2 T1 try_get sem=0 -> done"] and evlsim.check(lines) == []
    assert trace._repr_svg_() == evlsim.draw(lines) and evlsim.play(trace) == trace
    (fault,) = evlsim.check("board threads=1 sems=[0]\nT0 put semm=0\n")
    assert (fault.line, fault.byte) == (2, 8) and 'did you mean "sem"?' in fault.message
    why = refused(lambda: evlsim.play("board threads=1\nT0 putt sem=0\n"), evlsim.BadStep, "line 2")
    assert why.step == 2
    found = evlsim.orders("board threads=3 sems=[1]\nsetup T0 peek sem=0\nT1 try_get sem=0\nT2 try_get sem=0\n")
    assert found.total == 2 and found.holds and found.verdict == ""


def test_states() -> None:
    found = evlsim.orders(text_of("examples/orders/asked/inversion_by_a_semaphore.toml"))
    never, waits, picked = found.states
    assert not found.holds and found.verdict == "state 1 is against what is asked" and found.against == ()
    assert (never.number, never.key, never.text) == (1, "never_state", "T2 picked and T3 waits for sem 0")
    assert (never.holds, waits.holds, picked.holds) == (False, True, True) and never.order == (1, 2, 3, 3)
    assert [it.who for it in never.trace().entries][-4:] == [1, 2, 3, 3]
    assert never._repr_svg_() == evlsim.draw(never) == evlsim.draw(never.scenario)
    asked = BOARD + "[ask]\nsometimes = ['sem 0 count = 2']\nalways = ['sem 0 count = 0']\n"
    more = "".join(f"[[step]]\ndo = 'put'\nwho = {who}\nsem = 0\n" for who in (0, 1))
    twice, each = evlsim.orders(asked + more).states
    assert (twice.holds, twice.order, each.holds, each.order) == (True, (0, 1), False, (0,))
    cut = evlsim.orders(asked + more, most=1).states
    assert [(it.holds, it.order) for it in cut] == [(None, ()), (None, ())]
    assert cut[0]._repr_svg_() is None and refused(cut[0].trace, evlsim.BadQuestion, "state 1 has no moment")
    once = evlsim.orders(asked + more[: len(more) // 2]).states[0]
    assert (once.holds, once.scenario) == (False, "")


def test_orders() -> None:
    found = evlsim.orders(text_of("examples/orders/two_locks.toml"))
    assert found.total == 38 and [it.orders for it in found.outcomes] == [18, 20]
    assert found.holds is False and not found.is_cut_off and "outcome 1 is against" in found.verdict
    (stuck,) = found.against
    assert stuck.stuck == ("T1 waits for sem 1", "T2 waits for sem 0") and stuck.order == (1, 1, 2, 1, 2, 2)
    assert [str(it) for it in stuck.answers[1]] == ["begun", "done", "begun"] and stuck.state == (
        "sem 0: -1",
        "sem 1: -1",
    )
    assert [it.who for it in stuck.trace().entries][-6:] == [1, 1, 2, 1, 2, 2]
    assert stuck._repr_svg_() == evlsim.draw(stuck.scenario)
    cut = evlsim.orders(text_of("examples/orders/two_locks.toml"), most=2)
    assert cut.is_cut_off and cut.holds is None
    why = refused(lambda: evlsim.orders(BOARD + '[[step]]\ndo = "puts"\nwho = 0\n'), evlsim.BadStep, "bad step 1")
    assert why.step == 1
    refused(lambda: evlsim.orders("threads = 1"), evlsim.BadBoard, "bad board: line 1, byte 1: there is no key")
    refused(lambda: evlsim.orders(BOARD + "[ask]\nnever = ['T1 -> x']\n"), evlsim.Refused, "[ask]: text 1 of never isn't a caller")
    ask = "[ask]\nnever = ['T0 -> Agian']\n[[step]]\ndo = 'try_get'\nwho = 0\nsem = 0\n"
    refused(lambda: evlsim.orders(BOARD + ask), evlsim.Refused, 'did you mean "Again"?')
    refused(lambda: evlsim.orders(text_of("examples/orders/asked/four_philosophers.toml"), seconds=0), TimeoutError, "after 0 s")
    refused(lambda: evlsim.orders(BOARD, bank=[3]), evlsim.BadPlan, "plan 0")  # type: ignore[list-item]


def test_orders_as_the_program_tells_them() -> None:
    for path in sorted(glob.glob(f"{TOP}/examples/orders/**/*.toml", recursive=True))[::2] if LAB else ():
        with open(path, "rb") as file:
            data = file.read()
        if "/steps/" in path or b"try_lock_" in data or b"staxes" in data:
            continue  # orders of atomic steps are the program's alone
        status, out, told = by_the_program(data, "orders", "--most", "2000")
        if status == 2:
            words = told.partition("\n")[0].partition(": ")[2]
            refused(lambda: evlsim.orders(data, most=2000), evlsim.Refused, words)
            continue
        found = evlsim.orders(data, most=2000)
        assert found.holds is {0: True, 1: False, 5: None}[status], path
        assert told == (f"lab: text.toml: {found.verdict}" if found.verdict else ""), path
        assert out.startswith(f"# {found.total} order") and out.count("\n# outcome ") == len(found.outcomes), path


def test_orders_over_a_bank() -> None:
    steps = '[[setup]]\ndo = "request"\nwho = 0\nline = 5\nstage = "oob"\ncallback = 0\n'
    steps += '[[step]]\ndo = "arrive"\nwho = 0\nline = 5\n[[step]]\ndo = "try_get"\nwho = 1\nsem = 0\n'
    plan = evlsim.Plan(1, (1, "post_sem", 0), (2**64 - 1, "post_flags", 0, 6))
    found = evlsim.orders(BOARD + steps, bank=[plan])
    assert sorted(str(it.answers[1][0]) for it in found.outcomes) == ["Again", "done"]
    assert all("line 5 oob count 1 handled" in it.trace() for it in found.outcomes)
    assert found.outcomes[0]._repr_svg_() == evlsim.draw(found.outcomes[0].trace())


def test_a_long_history_is_played_again() -> None:
    kernel = evlsim.Kernel(threads=2, sems=[0], mutexes=["ceiling 50"], xbufs=[(8, 16)], limit=40000)
    kernel.request(0, line=5, stage="oob", callback=1)
    for _ in range(15000):
        assert kernel.arrive(0, line=5) and kernel.try_get(1, sem=0)
    refused(kernel.scenario, evlsim.Refused, "1,048,576")
    text, trace = kernel.lines(), kernel.trace()
    assert evlsim.Kernel.from_lines(text).trace() == evlsim.Kernel.from_lines(trace).trace() == trace
    refused(lambda: evlsim.Kernel.from_lines(text, bank=[]), evlsim.BadText, "here it is answered")
    refused(lambda: evlsim.Kernel.from_lines("1 T0 now -> number 0\n"), evlsim.BadBoard, "no line of a board")
    for line in ("T0 put sem=0", "1 T0 put sem=zero -> done", "1 T0 put sem -> done"):
        board = "board threads=1 sems=[0]\n\n"
        refused(lambda: evlsim.Kernel.from_lines(board + line), evlsim.BadText, f"line 3 is '{line}'")
    if not LAB:
        return
    board, _, rest = text.partition("\n")
    calls = "".join(f"{it.partition(' ')[2]}\n" for it in rest.splitlines() if not it.startswith(" "))
    with tempfile.TemporaryDirectory(prefix="evlsim-") as folder:
        with open(f"{folder}/board.txt", "w", encoding="utf-8") as file:
            file.write(board + "\n")
        words = [LAB, "live", f"{folder}/board.txt"]
        assert subprocess.run(words, input=calls, stdout=subprocess.PIPE, text=True).stdout == trace


def test_callers() -> None:
    told = evlsim.callers(text_of("callers/contended_mutex.toml"))
    assert told == text_of("callers/contended_mutex.told") and told.closed == "done"
    third = told.steps[2]
    assert (third.who, third.word, third.keys) == (0, "try_lock_mutex", {"mutex": 0, "as": "m0"})
    assert third.answer.kind == "pass" and third.answer.value == "m0" and third.state == "mutex 0: T0"
    assert told.steps[4].answer.refusal == "Again" and [it.word for it in told.history][-2:] == ["release", "finish"]
    assert told._repr_svg_() == evlsim.draw(told)
    lines = told.partition("\nclose")[0].splitlines()[1:]
    assert [f"{it.number} {it}" for it in told.steps] == lines
    refused(lambda: evlsim.callers(BOARD + '[[step]]\ndo = "take"\nwho = 9\n'), evlsim.BadStep, "no such thread")


if __name__ == "__main__":
    for name, test in sorted(globals().items()):
        if name.startswith("test_"):
            test()
            print(name, "passed")
