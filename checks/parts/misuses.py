"""Misuses of the module evlsim: each raises an error that says what was given and what is wanted, which can be pickled, and
none changes the kernel. Run by checks/embed."""
import concurrent.futures
import copy
import gc
import multiprocessing
import os
import pathlib
import pickle
import subprocess
import sys
import threading
import time

import evlsim

BOARD = {"threads": 2, "sems": [0], "xbufs": [(16, 16)], "flags": [0], "mutexes": ["normal"]}
STEP, BAD, PLAN, ASK = evlsim.BadStep, evlsim.BadBoard, evlsim.BadPlan, evlsim.BadQuestion


def board(**other):
    return evlsim.Kernel(**{**BOARD, **other})


KERNEL = board()
K = KERNEL
MACHINE = evlsim.Machine(threads=2, sems=[0], xbufs=[(16, 16)], mutexes=["normal"], staxes=[1])
C = MACHINE.callers[0]
PLANNED = evlsim.Plan(1, (2, "post_sem", 0))
# what is written, the error, and what it says
CALLS = [
    (lambda: K.put(0, semm=0), STEP, 'put has no key "semm"; did you mean "sem"? (its keys: sem)'),
    (lambda: K.put(0), STEP, 'put needs the key "sem"'),
    (lambda: K.put(0, 0), TypeError, "positional"),
    (lambda: K.put(0, sem=0, until=3), STEP, 'put has no key "until"'),
    (lambda: K.put(0, sem="0"), TypeError, "put: sem is '0': a whole number from 0 to 65535"),
    (lambda: K.put(0, sem=0.9), TypeError, "sem is 0.9"),
    (lambda: K.put(0, sem=True), TypeError, "sem is True"),
    (lambda: K.put(0, sem=None), TypeError, "sem is None"),
    (lambda: K.put(0, sem=1 << 16), STEP, "sem is 65536"),
    (lambda: K.put(0, sem=-1), STEP, "sem is -1"),
    (lambda: K.put("T1", sem=0), STEP, "who is 'T1'"),
    (lambda: K.put(-1, sem=0), STEP, "who is -1"),
    (lambda: K.put(1.5, sem=0), STEP, "who is 1.5"),
    (lambda: K.put(True, sem=0), STEP, "who is True"),
    (lambda: K.now(-1), STEP, "who is -1"),
    (lambda: K.call("pust", 0, sem=0), STEP, "no step word 'pust'; did you mean \"put\"?"),
    (lambda: K.call("put", 0), STEP, 'needs the key "sem"'),
    (lambda: K.pust(0, sem=0), AttributeError, "no 'pust'; did you mean \"put\"?"),
    (lambda: K.see_date(), AttributeError, "no 'see_date'; did you mean \"see_now\"?"),
    (lambda: K.claim(0, mutex=0), STEP, 'claim needs the key "owner" (its keys: mutex, owner, until)'),
    (lambda: K.request(0, line=5, stage="oob"), STEP, 'needs the key "callback"'),
    (lambda: K.request(0, line=5, stage="oob", callback=300), STEP, "callback is 300"),
    (lambda: K.attach(1, policy="fifo 10", stage="OOB"), STEP, "stage is 'OOB': one of 'inband', 'oob'"),
    (lambda: K.attach(1, policy="fifo 10", stage=1), TypeError, "stage is 1: one of 'inband', 'oob'"),
    (lambda: K.attach(1, policy=("fifo", 10), stage="oob"), TypeError, "policy is ('fifo', 10): 'fifo P'"),
    (lambda: K.attach(1, policy="fifo", stage="oob"), STEP, "policy is 'fifo'"),
    (lambda: K.attach(1, policy="fif 10", stage="oob"), STEP, 'did you mean "fifo"?'),
    (lambda: K.attach(1, policy="fifo 300", stage="oob"), STEP, "is 300: a whole number from 0 to 255"),
    (lambda: K.attach(1, policy="  fifo   10 ", stage="oob"), STEP, "policy is '  fifo   10 '"),
    (lambda: K.set_policy(1, policy="fifo 0x10"), STEP, "policy is 'fifo 0x10'"),
    (lambda: K.set_policy(1, policy="fifo 1_0"), STEP, "policy is 'fifo 1_0'"),
    (lambda: K.set_policy(1, policy="fifo \u0661"), STEP, "policy is"),
    (lambda: K.set_policy(1, policy="fifo 08"), STEP, "policy is 'fifo 08'"),
    (lambda: K.set_policy(1, policy=f"fifo {'9' * 5000}"), STEP, "policy is"),
    (lambda: K.try_take(0, flags=0, kind="of 03"), STEP, "kind is 'of 03'"),
    (lambda: K.try_take(0, flags=0, kind="of"), STEP, "kind is 'of': 'any', 'of MASK' or 'exact MASK'"),
    (lambda: K.try_take(0, flags=0, kind="of -1"), STEP, "kind is 'of -1'"),
    (lambda: K.try_take(0, flags=0, kind=3), TypeError, "kind is 3"),
    (lambda: K.post_flags(0, flags=0, bits=1 << 32), STEP, "bits is 4294967296"),
    (lambda: K.write(0, xbuf=0, way="in", bytes="hello"), STEP, "bytes is 'hello'"),
    (lambda: K.write(0, xbuf=0, way="in", bytes=5), TypeError, "bytes is 5"),
    (lambda: K.write(0, xbuf=0, way="in", bytes=None), TypeError, "bytes is None"),
    (lambda: K.write(0, xbuf=0, way="in", bytes=[256]), STEP, "bytes is [256]"),
    (lambda: K.write(0, xbuf=0, way="in", bytes=b"x" * 257), STEP, "257 bytes"),
    (lambda: K.write(0, xbuf=0, way="in"), STEP, 'needs the key "bytes"'),
    (lambda: K.write(0, xbuf=0, way="up", bytes=b""), STEP, "way is 'up': one of 'in', 'out'"),
    (lambda: K.read(1, xbuf=0, way="in", len=99999), STEP, "len is 99999"),
    (lambda: K.read(1, xbuf=0, way="in", len=-1), STEP, "len is -1"),
    (lambda: K.begin_get(1, sem=0, until=-5), STEP, "until is -5"),
    (lambda: K.begin_get(1, sem=0, until=1e3), TypeError, "until is 1000.0"),
    (lambda: K.finish(1, keep="false"), TypeError, "keep is 'false': True or False"),
    (lambda: K.finish(1, keep=1), TypeError, "keep is 1: True or False"),
    (lambda: K.tick(0, delta=-1), STEP, "delta is -1"),
    (lambda: K.tick(0, delta=1 << 64), STEP, "delta is 18446744073709551616"),
    (lambda: K.see_count(-1), ASK, "see_count: sem is -1"),
    (lambda: K.see_count(1 << 16), ASK, "sem is 65536"),
    (lambda: K.see_count("x"), TypeError, "sem is 'x'"),
    (lambda: K.see_count(True), TypeError, "sem is True"),
    (lambda: K.see_rank(), TypeError, "thread"),
    (lambda: K.see_now(3), TypeError, "positional"),
    (lambda: K.see_stored(0, "xx"), ASK, "way is 'xx': one of 'in', 'out'"),
    (lambda: K.see_waiter("semaphore", 0), ASK, "on is 'semaphore': one of 'sem', 'flags'"),
    (lambda: K.see_waiter("sem", 0, place=-1), ASK, "place is -1"),
    (lambda: K.see_pending(5, "oob"), TypeError, "stage is 5"),
    (lambda: K.trace(-1), ASK, "start is -1"),
    (lambda: pickle.dumps(K), TypeError, "isn't pickled"),
    (lambda: setattr(K.now(0), "kind", "done"), AttributeError, ""),
]
BOARDS = [
    (lambda: board(threads=0), BAD, "threads is 0: a whole number from 1 to 256"),
    (lambda: board(threads=257), BAD, "threads is 257"),
    (lambda: board(threads="2"), TypeError, "threads is '2'"),
    (lambda: board(threads=2.5), TypeError, "threads is 2.5"),
    (lambda: board(sems=1), TypeError, "sems is 1: a list"),
    (lambda: board(sems="0"), TypeError, "sems is '0': a list"),
    (lambda: board(sems=[-1]), BAD, "sems[0] is -1"),
    (lambda: board(sems=[0, 2**31]), BAD, "sems[1] is 2147483648"),
    (lambda: board(sems=[1.5]), TypeError, "sems[0] is 1.5"),
    (lambda: board(sems=[0] * 65), BAD, "sems has 65 items: 64"),
    (lambda: board(flags=[2**32]), BAD, "flags[0] is 4294967296"),
    (lambda: board(xbufs=[16, 16]), TypeError, "xbufs[0] is 16"),
    (lambda: board(xbufs=[(70000, 16)]), BAD, "is 70000: a whole number from 1 to 256"),
    (lambda: board(xbufs=[(65537, 16)]), BAD, "is 65537"),
    (lambda: board(xbufs=[(16,)]), BAD, "xbufs[0] is (16,): two ring sizes"),
    (lambda: board(xbufs=[(16, 16, 16)]), BAD, "two ring sizes"),
    (lambda: board(mutexes=["Normal"]), BAD, 'did you mean "normal"?'),
    (lambda: board(mutexes=["ceiling 300"]), BAD, "mutexes[0] is 'ceiling 300'"),
    (lambda: board(mutexes=["ceiling 266"]), BAD, "'ceiling P' with P from 1 to 99"),
    (lambda: board(mutexes=["ceiling -206"]), BAD, "'ceiling -206'"),
    (lambda: board(mutexes=["ceiling 050"]), BAD, "'ceiling 050'"),
    (lambda: board(mutexes=["normal 5"]), BAD, "'normal 5'"),
    (lambda: board(mutexes=["ceiling 0"]), BAD, "'ceiling 0'"),
    (lambda: board(mutexes=["ceiling"]), BAD, "mutexes[0] is 'ceiling': 'normal', 'recursive' or 'ceiling P' with P from 1 to 99 is wanted\n"),
    (lambda: evlsim.Kernel(), TypeError, 'a board needs the key "threads" (its keys: threads, sems'),
    (lambda: evlsim.Kernel(thread=3), TypeError, 'a board has no key "thread"; did you mean "threads"?'),
    (lambda: board(mutexes=[7]), TypeError, "mutexes[0] is 7"),
    (lambda: board(groups=[101]), BAD, "groups[0] is 101"),
    (lambda: board(limit=0), BAD, "limit is 0: a whole number from 1 to 1000000"),
    (lambda: board(limit="5"), TypeError, "limit is '5'"),
    (lambda: board(limit=1.5), TypeError, "limit is 1.5"),
    (lambda: board(limit=10**7), BAD, "limit is 10000000"),
    (lambda: board(sem=[1]), BAD, 'a board has no key "sem"; did you mean "sems"?'),
    (lambda: board(bank=[{"accepts": 1}]), TypeError, "plan 0 of the bank is"),
    (lambda: board(bank=[evlsim.Plan(1)] * 65), PLAN, "65 plans: 64"),
    (lambda: board(bank=[(1, (1, "post_sem", 0))]), TypeError, "an evlsim.Plan is wanted"),
    (lambda: setattr(PLANNED, "accepts", 2), AttributeError, "isn't changed after it is made: accepts"),
    (lambda: setattr(PLANNED, "rows", ()), AttributeError, "isn't changed after it is made: rows"),
    (lambda: delattr(PLANNED, "rows"), AttributeError, "isn't changed after it is made: rows"),
    (lambda: evlsim.Plan(0), PLAN, "accepts is 0"),
    (lambda: evlsim.Plan(-1), PLAN, "accepts is -1"),
    (lambda: evlsim.Plan(2**64 + 1), PLAN, "accepts is 18446744073709551617"),
    (lambda: evlsim.Plan(1, (1, "post_semm", 0)), PLAN, 'did you mean "post_sem"?'),
    (lambda: evlsim.Plan(1, (1, "post_sem", 65536)), PLAN, "is 65536"),
    (lambda: evlsim.Plan(1, (1, "post_sem", -1)), PLAN, "is -1"),
    (lambda: evlsim.Plan(1, (0, "post_sem", 0)), PLAN, "the period of (0, 'post_sem', 0) is 0"),
    (lambda: evlsim.Plan(1, "post_sem"), TypeError, "a row of a plan is 'post_sem'"),
    (lambda: evlsim.Plan(1, (1, "post_sem")), PLAN, "3 parts"),
    (lambda: evlsim.Plan(1, (1, "propagate", 4)), PLAN, "2 parts"),
    (lambda: evlsim.Plan(1, (1, "post_flags", 0)), PLAN, "4 parts"),
    (lambda: evlsim.Plan(1, *[(1, "post_sem", 0)] * 5), PLAN, "5 rows: four"),
]
MACHINES = [
    (lambda: evlsim.Machine(threads=0), BAD, "threads is 0"),
    (lambda: evlsim.Machine(thread=1), TypeError, 'a machine has no key "thread"; did you mean "threads"?'),
    (lambda: evlsim.Machine(threads=1, stax=[1]), BAD, 'a machine has no key "stax"; did you mean "staxes"?'),
    (lambda: evlsim.Machine(threads=1, staxes=3), TypeError, "staxes is 3: a list"),
    (lambda: evlsim.Machine(threads=1, staxes=[0]), BAD, "staxes[0] is 0: a whole number from 1 to 1000"),
    (lambda: evlsim.Machine(threads=1, staxes=[1, 1001]), BAD, "staxes[1] is 1001"),
    (lambda: evlsim.Machine(threads=1, staxes=[True]), TypeError, "staxes[0] is True"),
    (lambda: evlsim.Machine(threads=1, staxes=[1] * 17), BAD, "staxes has 17 items: 16"),
    (lambda: evlsim.Machine(threads=1, limit=0), BAD, "limit is 0"),
    (lambda: evlsim.Machine(threads=1, bank=[3]), TypeError, "plan 0 of the bank is 3"),
    (lambda: MACHINE.see_date(), AttributeError, "a machine has no 'see_date'; did you mean \"see_now\"?"),
    (lambda: C.pust(sem=0), AttributeError, "a caller has no 'pust'; did you mean \"put\"?"),
    (lambda: C.put(0, sem=0), TypeError, "positional"),
    (lambda: C.put(semm=0), STEP, 'put has no key "semm"; did you mean "sem"? (its keys: sem)'),
    (lambda: C.put(who=1, sem=0), TypeError, "who"),
    (lambda: C.put(sem=-1), STEP, "sem is -1"),
    (lambda: C.write(xbuf=0, way="up", bytes=b""), STEP, "way is 'up': one of 'in', 'out'"),
    (lambda: C.call("pust", sem=0), STEP, "no step word 'pust'; did you mean \"put\"?"),
    (lambda: C.try_lock_mutex("0"), TypeError, "try_lock_mutex: mutex is '0'"),
    (lambda: C.try_unlock_mutex(-1), STEP, "try_unlock_mutex: mutex is -1"),
    (lambda: C.begin_lock_mutex(0, until=-1), STEP, "begin_lock_mutex: until is -1"),
    (lambda: C.try_lock_stax(1 << 16), STEP, "try_lock_stax: stax is 65536"),
    (lambda: C.unlock_stax(1.0), TypeError, "unlock_stax: stax is 1.0"),
    (lambda: C.trace(-1), ASK, "start is -1"),
    (lambda: pickle.dumps(C), TypeError, "isn't pickled"),
    (lambda: pickle.dumps(MACHINE), TypeError, "isn't pickled"),
]
SMALL = "[board]\nthreads = 1\n"
NOWS = "[board]\nthreads = 2\n" + "".join(f'[[step]]\ndo = "now"\nwho = {it % 2}\n' for it in range(140))
PLAYS = [
    (lambda: evlsim.play(None), TypeError, "text is None"),
    (lambda: evlsim.play(5), TypeError, "text is 5"),
    (lambda: evlsim.play(pathlib.Path("/etc/passwd")), TypeError, "read_text()"),
    (lambda: evlsim.play("x"), evlsim.BadText, "'x'"),
    (lambda: evlsim.play("x"), evlsim.BadText, "bad text: line 1, byte 2: no TOML"),
    (lambda: evlsim.play("scenarios/first_semaphore.toml"), evlsim.BadText, "its name (path.read_text())"),
    (lambda: evlsim.play(SMALL + "\0"), evlsim.BadText, ""),
    (lambda: evlsim.play("\ud800"), evlsim.BadText, "UTF-8"),
    (lambda: evlsim.play("#" * 1048577), evlsim.BadText, "the text has more than 1048576 bytes"),
    (lambda: evlsim.play(""), BAD, 'bad board: line 1, byte 1: the board needs a key "threads"'),
    (lambda: evlsim.play(SMALL + "sems = 1\n"), BAD, "bad board: line 3, byte 8: sems = 1: a list"),
    (lambda: evlsim.play(SMALL + "staxes = [1]\n"), BAD, "bad board: a text of another kind? evlsim.orders"),
    (lambda: evlsim.play("board threads=1\nT0 putt\n"), STEP, 'bad step 2: line 2, byte 4: there is no call "putt"'),
    (lambda: evlsim.play(SMALL, limit=-1), BAD, "limit is -1"),
    (lambda: evlsim.play(SMALL, limit=2**32 + 5), BAD, "limit is 4294967301"),
    (lambda: evlsim.play(SMALL, limit="5"), TypeError, "limit is '5'"),
    (lambda: evlsim.play(SMALL, bank=[3]), TypeError, "plan 0"),
    (lambda: evlsim.play(SMALL + '[[step]]\ndo = "push"\nwho = 0\n'), STEP, "bad step 1: line 4, byte 6: step 1"),
]
LABS = [
    (lambda: evlsim.check(None), TypeError, "text is None"),
    (lambda: evlsim.check("\ud800"), evlsim.BadText, "UTF-8"),
    (lambda: evlsim.check(SMALL, bank=[3]), TypeError, "plan 0 of the bank is 3"),
    (lambda: evlsim.draw(None), TypeError, "text is None"),
    (lambda: evlsim.draw(SMALL, "png"), ASK, "form is 'png': one of 'svg', 'perfetto'"),
    (lambda: evlsim.draw(SMALL, "svgs"), ASK, 'did you mean "svg"?'),
    (lambda: evlsim.draw(SMALL, 3), TypeError, "form is 3"),
    (lambda: evlsim.draw(SMALL, page=0), ASK, "page is 0"),
    (lambda: evlsim.draw(SMALL, page="1"), TypeError, "page is '1'"),
    (lambda: evlsim.orders(5), TypeError, "text is 5"),
    (lambda: evlsim.orders(SMALL, most=0), ASK, "most is 0"),
    (lambda: evlsim.orders(SMALL, most=1.5), TypeError, "most is 1.5"),
    (lambda: evlsim.orders(SMALL, bank="plans"), TypeError, "bank is 'plans': a list"),
    (lambda: evlsim.orders(SMALL + "[ask]\nnever = 3\n"), ASK, "line 4: never is a list"),
    (lambda: evlsim.orders(NOWS + "[ask]\nnever = ['T0 -> Deadlok']\n"), ASK, 'did you mean "Deadlock"?'),
    (lambda: evlsim.orders(NOWS), evlsim.TooManyOrders, "more orders than can be counted"),
    (lambda: evlsim.orders(SMALL, seconds="9"), TypeError, "seconds is '9': a number from 0"),
    (lambda: evlsim.orders(SMALL, seconds=-1), ASK, "seconds is -1: a number from 0"),
    (lambda: evlsim.callers(pathlib.Path("x")), TypeError, "read_text()"),
    (lambda: evlsim.callers(SMALL, limit=-1), BAD, "limit is -1"),
    (lambda: evlsim.Kernel.from_lines(None), TypeError, "text is None"),
    (lambda: evlsim.Kernel.from_lines("board sems=[0]\n"), BAD, "has no threads"),
]


# what the module raises, and one of each kind that was met here
ERRORS = {it for it in vars(evlsim).values() if isinstance(it, type) and issubclass(it, Exception)}
met = {}


def is_same(raised, again):
    """Whether an error is another one's like: its kind, its text and what it has."""
    return type(again) is type(raised) and str(again) == str(raised) and vars(again) == vars(raised)


def try_pickled(raised):
    """An error of the module is the same after it was pickled."""
    if isinstance(raised, tuple(ERRORS)):
        again = pickle.loads(pickle.dumps(raised))
        assert is_same(raised, again), again
        met[type(raised)] = raised


def try_list(name, misuses):
    before = K.trace()
    for number, (function, error, part) in enumerate(misuses):
        try:
            answer = function()
        except error as raised:
            assert part in f"{raised}\n", f"{name} {number}: it says {raised}"
            try_pickled(raised)
        except Exception as raised:
            raise AssertionError(f"{name} {number}: {type(raised).__name__}: {raised}") from None
        else:
            raise AssertionError(f"{name} {number}: it answered {answer!r}")
    assert K.trace().startswith(before)
    return len(misuses)


def try_program():
    """The module as a program: what it can't read, and what it can't write."""
    program = [sys.executable, "-m", "evlsim"]
    with open("/dev/full", "w", encoding="utf-8") as full:
        done = subprocess.run(program, input=SMALL, stdout=full, stderr=subprocess.PIPE, text=True)
    assert done.returncode == 1 and done.stderr.startswith("evlsim: write fault: "), done
    closed = subprocess.run(f"'{sys.executable}' -m evlsim >&-", shell=True, input=SMALL, stderr=subprocess.PIPE, text=True)
    assert closed.returncode == 1 and closed.stderr.startswith("evlsim: write fault: "), closed
    wrong = subprocess.run(program, input="T0 put smm=0\n", capture_output=True, text=True)
    assert wrong.returncode == 2 and wrong.stderr.startswith("evlsim: bad step 1: line 1, byte 8: put has no"), wrong
    none = subprocess.run([*program, "no such file"], capture_output=True, text=True)
    assert none.returncode == 2 and none.stderr.startswith("evlsim: no file: "), none


def refuse_a_call():
    evlsim.Kernel(threads=1, strict=True).put(0, sem=5)


def call_a_closed_kernel():
    kernel = board()
    kernel.close()
    kernel.now(0)


def raise_it(raised):
    raise raised


def try_processes():
    """What is raised in another process is raised here, of each kind that there is."""
    with concurrent.futures.ProcessPoolExecutor(1, multiprocessing.get_context("fork")) as pool:
        for function in (refuse_a_call, call_a_closed_kernel):
            try_pickled(pool.submit(function).exception(60))
        # (a call holds the interpreter's lock, so that no other caller has the core)
        try_pickled(evlsim.CoreBusy("another caller has the core"))
        for raised in met.values():
            again = pool.submit(raise_it, raised).exception(60)
            assert is_same(raised, again), repr(again)
    refused = met[evlsim.CallRefused]
    assert (refused.call, refused.answer) == ("T0 put sem=5", "Unknown") and "T0 put sem=5 -> Unknown" in refused.trace
    kinds = {kind for it in met for kind in it.__mro__}
    assert ERRORS <= kinds, ERRORS - kinds


class Counted(evlsim.Kernel):
    """A kernel with more in it."""

    def __init__(self):
        super().__init__(threads=2, sems=[0])
        self.calls = [1]


def try_copies():
    """A copy is of the same class; a plan is a value."""
    kernel = Counted()
    kernel.put(0, sem=0)
    made = kernel.copy()
    assert type(made) is Counted and made.calls == [1] and made.trace() == kernel.trace()
    assert made.put(0, sem=0) and kernel.see_count(0) == 1
    again = pickle.loads(pickle.dumps(PLANNED))
    assert again == PLANNED == copy.deepcopy(PLANNED) and repr(again) == "Plan(1, (2, 'post_sem', 0))"
    assert len({PLANNED, again}) == 1


def try_resets():
    """A kernel that is reset is as it was made, wherever its callbacks were."""
    kernel = evlsim.Kernel(threads=2, sems=[1], flags=[4], xbufs=[(8, 8)], mutexes=["ceiling 50"], groups=[30])
    opened = kernel.trace()

    def use():
        kernel.attach(0, policy="fifo 10", stage="oob")
        kernel.request(0, line=5, stage="oob", callback=1, tag=0)
        kernel.new_timer(0, callback=0, tag=0)
        kernel.stall(0, stage="inband")
        kernel.arrive(0, line=5)
        kernel.write(0, xbuf=0, way="in", bytes=[1, 2])
        kernel.begin_take(0, flags=0, kind="exact 3")
        kernel.tick(1, delta=100)
        return kernel.trace()

    used = use()
    kernel.reset()
    assert kernel.trace() == opened and kernel.see_count(0) == 1 and kernel.see_now() == 0 and len(kernel) == 0
    assert use() == used and used != opened


def try_lonely_callers():
    """Callers keep their machine alive; the last one that goes frees it."""
    callers = evlsim.Machine(threads=2, sems=[0]).callers
    gc.collect()
    assert callers[0].put(sem=0) and callers[1].see_count(0) == 1
    last = callers[1]
    del callers
    gc.collect()
    assert last.put(sem=0) and last.trace().count("-> done") == 2


def try_right_ones():
    """What looks like a misuse and is none."""
    assert board(sems=(it for it in [1, 2, 3])).see_count(2) == 3
    assert board(groups=iter([50])).see_now() == 0
    assert board(bank=[]).request(0, line=5, stage="oob", callback=0).refusal == "Unknown"
    assert evlsim.Plan(1, [1, "post_sem", 0]) == evlsim.Plan(1, (1, "post_sem", 0))
    kernel = board()
    assert kernel.write(0, xbuf=0, way="in", bytes="41 42") and kernel.write(0, xbuf=0, way="in", bytes=[1, 2])
    assert kernel.write(0, xbuf=0, way="in", bytes=bytearray(b"ab")) and kernel.see_stored(0, "in") == 6
    assert copy.deepcopy(kernel).trace() == copy.copy(kernel).trace() == kernel.trace()
    assert evlsim.play(SMALL.encode()) == evlsim.play(bytearray(SMALL.encode())) == evlsim.play(SMALL)


def try_closed():
    kernel = board()
    with kernel:
        kernel.put(0, sem=0)
    kernel.close()
    for function in (
        lambda: kernel.put(0, sem=0),
        kernel.see_now,
        kernel.trace,
        kernel.scenario,
        kernel.__enter__,
        kernel.copy,
        kernel.reset,
    ):
        try:
            function()
        except evlsim.KernelClosed:
            continue
        raise AssertionError("a closed kernel answered")
    assert "closed" in repr(kernel)


def try_closed_callers():
    machine = evlsim.Machine(threads=2, mutexes=["normal"], staxes=[1])
    first, second = machine.callers
    first.close()
    assert first.closed and not machine.closed and second.now() and machine.trace() == second.trace()
    machine.close()
    for function in (
        lambda: first.put(sem=0),
        lambda: first.try_lock_mutex(0),
        lambda: first.finish_lock_mutex(),
        lambda: second.unlock_stax(0),
        second.trace,
        machine.trace,
    ):
        try:
            function()
        except evlsim.KernelClosed:
            continue
        raise AssertionError("a closed caller answered")
    assert "closed" in repr(first) and "closed" in repr(machine)


def try_fork():
    """After a fork parent and child have a kernel each, in the same state."""
    kernel = board()
    kernel.put(0, sem=0)
    child = os.fork()
    if child == 0:
        kernel.put(0, sem=0)
        os._exit(0 if kernel.see_count(0) == 2 else 1)
    assert os.waitpid(child, 0)[1] == 0 and kernel.see_count(0) == 1
    assert kernel.trace().endswith("1 T0 put sem=0 -> done\n")


def try_threads(puts=50000):
    """Three threads on one kernel: no put is lost, and no answer is another thread's."""
    sys.setswitchinterval(1e-5)
    kernel = evlsim.Kernel(threads=3, sems=[0, 0, 0], limit=1000000)
    wrong = []

    def work(who):
        for count in range(1, puts + 1):
            if not kernel.put(who, sem=who) or kernel.peek(who, sem=who).value != count:
                wrong.append((who, count))

    threads = [threading.Thread(target=work, args=(who,)) for who in range(3)]
    for thread in threads:
        thread.start()
    for thread in threads:
        thread.join()
    assert not wrong and [kernel.see_count(sem) for sem in range(3)] == [puts] * 3


def try_callers(rounds=5000):
    """Two threads, each with a caller of one machine, count under a mutex: no count is lost."""
    counted = [0]
    with evlsim.Machine(threads=2, mutexes=["normal"], limit=1000000) as machine:
        for caller in machine.callers:
            assert caller.attach(policy="fifo 10", stage="oob")

        def work(caller):
            for _ in range(rounds):
                while not caller.try_lock_mutex(0):
                    pass
                was = counted[0]
                time.sleep(0)
                counted[0] = was + 1
                assert caller.unlock_mutex_fast(0)

        threads = [threading.Thread(target=work, args=(caller,)) for caller in machine.callers]
        for thread in threads:
            thread.start()
        for thread in threads:
            thread.join()
    assert counted == [2 * rounds]


tried = try_list("call", CALLS) + try_list("board", BOARDS) + try_list("play", PLAYS) + try_list("lab", LABS)
tried += try_list("machine", MACHINES)
try_program()
try_processes()
try_copies()
try_resets()
try_lonely_callers()
try_right_ones()
try_closed()
try_closed_callers()
try_fork()
try_threads(int(sys.argv[1]) if sys.argv[1:] else 50000)
try_callers(int(sys.argv[1]) // 10 if sys.argv[1:] else 5000)
print(f"{tried} misuses raised what they should")
