"""A bench of a serial driver that is written as steps: an interrupt posts a semaphore, a thread takes a byte for each
count and writes it to a cross-buffer, an in-band reader reads it, and a timer that each byte starts anew watches.
Hypothesis (Debian: python3-hypothesis) mixes the steps of all: no interrupt is lost while the out-of-band stage is
open. While it is stalled two merge, and the driver, which takes one byte for each, leaves one behind
(test_a_bug_is_found)."""
from typing import Any, Callable, List

import evlsim
from hypothesis import settings
from hypothesis import strategies as st
from hypothesis.stateful import RuleBasedStateMachine, invariant, rule, run_state_machine_as_test

LINE, SEM, XBUF, FLAGS, RING, TIMEOUT = 5, 0, 0, 0, 16, 1000
WORLD, TAKER, READER = 0, 1, 2
BANK = [evlsim.Plan(1, (1, "post_sem", SEM)), evlsim.Plan(1, (1, "post_flags", FLAGS, 1))]
run: Callable[..., Any] = run_state_machine_as_test
QUICK = settings(max_examples=60, stateful_step_count=40, deadline=None, database=None)


class Serial:
    """The driver over a kernel, and the device's own bytes."""

    def __init__(self) -> None:
        self.kernel = evlsim.Kernel(
            threads=3, sems=[0], flags=[0], xbufs=[(RING, RING)], limit=100000, bank=BANK, strict=True
        )
        self.device: List[int] = []
        self.taken, self.waits = b"", False
        self.kernel.attach(TAKER, policy="fifo 80", stage="oob")
        self.kernel.request(WORLD, line=LINE, stage="oob", callback=0)
        assert self.kernel.new_timer(WORLD, callback=1).value == 0
        self.watch()

    def watch(self) -> None:
        self.kernel.start_timer(WORLD, timer=0, date=self.kernel.see_now() + TIMEOUT, interval=0)

    def byte_arrives(self, byte: int) -> evlsim.Answer:
        self.device.append(byte)
        return self.kernel.arrive(WORLD, line=LINE)

    def step(self) -> None:
        """One step of the thread: it waits, ends its wait and takes a byte, or writes it if there is room."""
        if self.taken:
            if self.stored() < RING:
                self.kernel.write(TAKER, xbuf=XBUF, way="out", bytes=self.taken)
                self.taken = b""
        elif not self.waits:
            self.kernel.begin_get(TAKER, sem=SEM)
            self.waits = True
        elif self.kernel.see_finished(TAKER):
            self.kernel.finish(TAKER)
            self.taken, self.waits = bytes([self.device.pop(0)]), False
            self.watch()

    def stored(self) -> int:
        return self.kernel.see_stored(XBUF, "out") or 0

    def read(self, most: int) -> bytes:
        return bytes(self.kernel.read(READER, xbuf=XBUF, way="out", len=most).value) if self.stored() else b""


def test_one_byte() -> None:
    serial = Serial()
    serial.step()
    assert serial.byte_arrives(0x41).plays == (evlsim.Line(LINE, "oob", 1, True),)
    serial.step()
    serial.step()
    assert serial.read(8) == b"A"


def test_an_inband_stall_defers_nothing() -> None:
    serial = Serial()
    serial.kernel.stall(WORLD, stage="inband")
    assert serial.byte_arrives(1).plays and serial.kernel.see_count(SEM) == 1


def test_the_timer_watches() -> None:
    serial = Serial()
    assert [str(play) for play in serial.kernel.tick(WORLD, delta=TIMEOUT).plays] == [
        "clock",
        "timer 0 count 1 missed 0 handled",
    ]
    assert serial.kernel.see_bits(FLAGS) == 1


class Open(RuleBasedStateMachine):
    """All that may come while the out-of-band stage is open."""

    def __init__(self) -> None:
        super().__init__()
        self.serial = Serial()
        self.sent: List[int] = []
        self.got: List[int] = []

    def teardown(self) -> None:
        kernel = self.serial.kernel
        assert evlsim.play(kernel.scenario(), bank=BANK) == kernel.trace()
        kernel.close()

    @rule(byte=st.integers(0, 255))
    def byte(self, byte: int) -> None:
        self.sent.append(byte)
        self.serial.byte_arrives(byte)

    @rule()
    def step(self) -> None:
        self.serial.step()

    @rule(most=st.integers(0, 20))
    def read(self, most: int) -> None:
        self.got += self.serial.read(most)

    @rule(delta=st.integers(0, 3 * TIMEOUT))
    def tick(self, delta: int) -> None:
        self.serial.kernel.tick(WORLD, delta=delta)

    @rule()
    def stall_inband(self) -> None:
        self.serial.kernel.stall(WORLD, stage="inband")

    @rule()
    def unstall_inband(self) -> None:
        self.serial.kernel.unstall(WORLD, stage="inband")

    @invariant()
    def in_order(self) -> None:
        assert self.got == self.sent[: len(self.got)]

    @invariant()
    def each_byte_has_its_count(self) -> None:
        kernel, serial = self.serial.kernel, self.serial
        served = serial.waits and kernel.see_finished(TAKER)
        waits = serial.waits and not served
        assert kernel.see_count(SEM) == len(serial.device) - served - waits, "an interrupt was lost"


class Stalled(Open):
    """The same, and stalls of the out-of-band stage."""

    @rule()
    def stall_oob(self) -> None:
        self.serial.kernel.stall(WORLD, stage="oob")

    @rule()
    def unstall_oob(self) -> None:
        self.serial.kernel.unstall(WORLD, stage="oob")


def test_no_interrupt_is_lost() -> None:
    run(Open, settings=QUICK)


def test_a_bug_is_found() -> None:
    try:
        run(Stalled, settings=settings(QUICK, max_examples=500, print_blob=False))
    except AssertionError as lost:
        assert "an interrupt was lost" in str(lost)
    else:
        raise AssertionError("the bug was not found")


if __name__ == "__main__":
    for name, test in sorted(globals().items()):
        if name.startswith("test_"):
            test()
            print(name, "passed")
