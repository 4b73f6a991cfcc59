"""The calls of a kernel, one method each. Written by tools/python_calls, from the library's list of calls and
docs/use/SCENARIOS.md."""

from typing import NoReturn

from ._answers import Answer
from ._errors import BadStep, one_of, whole, wrong_type
from ._kernel import POLICIES, POLICY_TEXTS, STAGES, TAKES, WAYS, Bytes, Calls, Stage, Until, Way
from ._kernel import MISSING, no_key, put_form, read_bytes
from ._library import CallForm


class Words(Calls):
    """A method for each step word: the caller's number, and then the word's keys by name. "Answers count N" is an
    Answer of the kind "count" with the value N. Before all refusals that are named come HistoryFull, Busy of a caller
    that has an unfinished wait (but for finish), and Unknown of a caller that the board doesn't have."""

    def request(
        self,
        who: int,
        *,
        line: int = MISSING,
        stage: Stage = MISSING,
        callback: int = MISSING,
        tag: int = 0,
        **wrong: NoReturn,
    ) -> Answer:
        """Installs a callback of the bank on a line of a stage; its count starts again.

        `line`: an interrupt line, 1 to 4095 (0 is the clock's)
        `stage`: "inband" or "oob", out-of-band
        `callback`: a number in the kernel's bank, from 0
        `tag`: a number up to 4,294,967,295 that the callback gets, and no plan uses

        Answers done. Refusals: Unknown: no such line or callback; Invalid: line 0, or a callback that is not
        allowed on this stage; Busy: the line and stage have a callback already, or this callback is on another line
        or stage, or in a timer.
        """
        if wrong or line is MISSING or stage is MISSING or callback is MISSING:
            no_key("request", wrong, line=line, stage=stage, callback=callback)
        call = CallForm(0)
        call.element = whole(BadStep, "request: line", line, 0, 65535)
        call.stage = one_of(BadStep, "request: stage", stage, STAGES)
        call.callback = whole(BadStep, "request: callback", callback, 0, 255)
        call.bits = whole(BadStep, "request: tag", tag, 0, 4294967295)
        return self._make("request", who, call)

    def free(self, who: int, *, line: int = MISSING, stage: Stage = MISSING, **wrong: NoReturn) -> Answer:
        """Takes the callback off a line, back to the bank, and drops a pending event of that line and stage.

        `line`: an interrupt line, 1 to 4095 (0 is the clock's)
        `stage`: "inband" or "oob", out-of-band

        Answers done. Refusals: Unknown: no such line; Invalid: line 0, on both stages; Unknown: no callback there.
        """
        if wrong or line is MISSING or stage is MISSING:
            no_key("free", wrong, line=line, stage=stage)
        call = CallForm(1)
        call.element = whole(BadStep, "free: line", line, 0, 65535)
        call.stage = one_of(BadStep, "free: stage", stage, STAGES)
        return self._make("free", who, call)

    def arrive(self, who: int, *, line: int = MISSING, **wrong: NoReturn) -> Answer:
        """An interrupt arrives on a line: its event is pending out-of-band if the line has a callback there, else
        in-band if it has one there; else it is spurious and nothing is pending (the trace does not show that).

        `line`: an interrupt line, 1 to 4095 (0 is the clock's)

        Answers done. Refusals: Unknown: no such line.
        """
        if wrong:
            no_key("arrive", wrong, line=line)
        return self._bare(2, "arrive", "line", who, line)

    def post(self, who: int, *, stage: Stage = MISSING, line: int = MISSING, **wrong: NoReturn) -> Answer:
        """Makes an event pending on a line of this stage if it has a callback there; else it is spurious.

        `stage`: "inband" or "oob", out-of-band
        `line`: an interrupt line, 1 to 4095 (0 is the clock's)

        Answers done. Refusals: Unknown: no such line.
        """
        if wrong or stage is MISSING or line is MISSING:
            no_key("post", wrong, stage=stage, line=line)
        call = CallForm(3)
        call.stage = one_of(BadStep, "post: stage", stage, STAGES)
        call.element = whole(BadStep, "post: line", line, 0, 65535)
        return self._make("post", who, call)

    def stall(self, who: int, *, stage: Stage = MISSING, **wrong: NoReturn) -> Answer:
        """Sets the stall bit of a stage: its events stay pending. A second stall changes nothing.

        `stage`: "inband" or "oob", out-of-band

        Answers done.
        """
        if wrong or stage is MISSING:
            no_key("stall", wrong, stage=stage)
        call = CallForm(4)
        call.stage = one_of(BadStep, "stall: stage", stage, STAGES)
        return self._make("stall", who, call)

    def unstall(self, who: int, *, stage: Stage = MISSING, **wrong: NoReturn) -> Answer:
        """Clears the stall bit of a stage.

        `stage`: "inband" or "oob", out-of-band

        Answers done.
        """
        if wrong or stage is MISSING:
            no_key("unstall", wrong, stage=stage)
        call = CallForm(5)
        call.stage = one_of(BadStep, "unstall: stage", stage, STAGES)
        return self._make("unstall", who, call)

    def tick(self, who: int, *, delta: int = MISSING, **wrong: NoReturn) -> Answer:
        """Moves the date on by `delta` nanoseconds; it begins at 0. Line 0 is then pending if something is due.

        `delta`: nanoseconds, up to 18,446,744,073,709,551,615

        Answers done. Refusals: Range: the date would exceed 18,446,744,073,709,551,615.
        """
        if wrong or delta is MISSING:
            no_key("tick", wrong, delta=delta)
        call = CallForm(6)
        call.date = whole(BadStep, "tick: delta", delta, 0, 18446744073709551615)
        return self._make("tick", who, call)

    def now(self, who: int, **wrong: NoReturn) -> Answer:
        """Gives the date.

        Answers number N.
        """
        if wrong:
            no_key("now", wrong)
        call = CallForm(7)
        return self._make("now", who, call)

    def new_timer(self, who: int, *, callback: int = MISSING, tag: int = 0, **wrong: NoReturn) -> Answer:
        """Makes a timer with a callback of the bank; it gets the least free number, from 0 on, and its first fire
        counts 1.

        `callback`: a number in the kernel's bank, from 0
        `tag`: a number up to 4,294,967,295 that the callback gets, and no plan uses

        Answers number N. Refusals: Unknown: no such callback; Invalid: it is not allowed in a timer; Busy: it is on
        a line or in a timer; Limit: there are 64 timers.
        """
        if wrong or callback is MISSING:
            no_key("new_timer", wrong, callback=callback)
        call = CallForm(8)
        call.callback = whole(BadStep, "new_timer: callback", callback, 0, 255)
        call.bits = whole(BadStep, "new_timer: tag", tag, 0, 4294967295)
        return self._make("new_timer", who, call)

    def start_timer(
        self, who: int, *, timer: int = MISSING, date: int = MISSING, interval: int = MISSING, **wrong: NoReturn
    ) -> Answer:
        """Sets the date at which the timer fires next, and its interval; its overruns are 0 again. If the date is not
        after now, line 0 is pending at once.

        `timer`: its number, as new_timer answered it
        `date`: a date, not a duration: nanoseconds, up to 18,446,744,073,709,551,615
        `interval`: nanoseconds, up to 18,446,744,073,709,551,615; 0: it fires once

        Answers done. Refusals: Unknown: no such timer.
        """
        if wrong or timer is MISSING or date is MISSING or interval is MISSING:
            no_key("start_timer", wrong, timer=timer, date=date, interval=interval)
        call = CallForm(9)
        call.element = whole(BadStep, "start_timer: timer", timer, 0, 65535)
        call.date = whole(BadStep, "start_timer: date", date, 0, 18446744073709551615)
        call.span = whole(BadStep, "start_timer: interval", interval, 0, 18446744073709551615)
        return self._make("start_timer", who, call)

    def stop_timer(self, who: int, *, timer: int = MISSING, **wrong: NoReturn) -> Answer:
        """Stops the timer until it is started again.

        `timer`: its number, as new_timer answered it

        Answers done. Refusals: Unknown: no such timer.
        """
        if wrong:
            no_key("stop_timer", wrong, timer=timer)
        return self._bare(10, "stop_timer", "timer", who, timer)

    def drop_timer(self, who: int, *, timer: int = MISSING, **wrong: NoReturn) -> Answer:
        """Takes the timer away; its callback is back in the bank.

        `timer`: its number, as new_timer answered it

        Answers done. Refusals: Unknown: no such timer.
        """
        if wrong:
            no_key("drop_timer", wrong, timer=timer)
        return self._bare(11, "drop_timer", "timer", who, timer)

    def overruns(self, who: int, *, timer: int = MISSING, **wrong: NoReturn) -> Answer:
        """Gives how many periods the timer missed since it was started.

        `timer`: its number, as new_timer answered it

        Answers number N. Refusals: Unknown: no such timer.
        """
        if wrong:
            no_key("overruns", wrong, timer=timer)
        return self._bare(12, "overruns", "timer", who, timer)

    def attach(self, who: int, *, policy: str = MISSING, stage: Stage = MISSING, **wrong: NoReturn) -> Answer:
        """Makes the caller a thread of the core, with this policy, on this stage.

        `policy`: "fifo P", "rr P SLICE", "quota GROUP P" (P from 1 to 99, SLICE 1 to 1,000,000,000 nanoseconds) or
        "weak P" (0 to 99)
        `stage`: "inband" or "oob", out-of-band

        Answers done. Refusals: Unknown: no such quota group; Range: a number of the policy; Busy: the caller is
        attached already.
        """
        if wrong or policy is MISSING or stage is MISSING:
            no_key("attach", wrong, policy=policy, stage=stage)
        call = CallForm(13)
        put_form(call, "attach", "policy", POLICIES, policy, POLICY_TEXTS)
        call.stage = one_of(BadStep, "attach: stage", stage, STAGES)
        return self._make("attach", who, call)

    def detach(self, who: int, **wrong: NoReturn) -> Answer:
        """Takes the caller out of the core.

        Answers done. Refusals: Invalid: the caller is not attached; Busy: it is recorded as the owner of a mutex.
        """
        if wrong:
            no_key("detach", wrong)
        call = CallForm(14)
        return self._make("detach", who, call)

    def set_policy(self, who: int, *, policy: str = MISSING, **wrong: NoReturn) -> Answer:
        """Sets the caller's policy; a ready caller goes to the end of the ready list.

        `policy`: "fifo P", "rr P SLICE", "quota GROUP P" (P from 1 to 99, SLICE 1 to 1,000,000,000 nanoseconds) or
        "weak P" (0 to 99)

        Answers done. Refusals: Unknown: no such quota group; Range: a number of the policy; Invalid: the caller is
        not attached.
        """
        if wrong or policy is MISSING:
            no_key("set_policy", wrong, policy=policy)
        call = CallForm(15)
        put_form(call, "set_policy", "policy", POLICIES, policy, POLICY_TEXTS)
        return self._make("set_policy", who, call)

    def set_stage(self, who: int, *, stage: Stage = MISSING, **wrong: NoReturn) -> Answer:
        """Moves the caller to this stage, with its mutexes and its rank; if it is there already, nothing changes.

        `stage`: "inband" or "oob", out-of-band

        Answers done. Refusals: Invalid: the caller is not attached.
        """
        if wrong or stage is MISSING:
            no_key("set_stage", wrong, stage=stage)
        call = CallForm(16)
        call.stage = one_of(BadStep, "set_stage: stage", stage, STAGES)
        return self._make("set_stage", who, call)

    def pick(self, who: int, **wrong: NoReturn) -> Answer:
        """Gives the thread that is picked.

        Answers thread N, or thread none.
        """
        if wrong:
            no_key("pick", wrong)
        call = CallForm(17)
        return self._make("pick", who, call)

    def rank_of(self, who: int, *, thread: int = MISSING, **wrong: NoReturn) -> Answer:
        """Gives a thread's effective rank.

        `thread`: its number, from 0

        Answers number N. Refusals: Unknown: no such thread; Invalid: it is not attached.
        """
        if wrong:
            no_key("rank_of", wrong, thread=thread)
        return self._bare(18, "rank_of", "thread", who, thread)

    def try_get(self, who: int, *, sem: int = MISSING, **wrong: NoReturn) -> Answer:
        """Takes one from a semaphore.

        `sem`: its number on the board, from 0

        Answers done. Refusals: Unknown: no such semaphore; Again: its count is 0.
        """
        if wrong:
            no_key("try_get", wrong, sem=sem)
        return self._bare(19, "try_get", "sem", who, sem)

    def put(self, who: int, *, sem: int = MISSING, **wrong: NoReturn) -> Answer:
        """Serves the first thread that waits for the semaphore, or raises its count.

        `sem`: its number on the board, from 0

        Answers done. Refusals: Unknown: no such semaphore; Range: its count is 2,147,483,647.
        """
        if wrong:
            no_key("put", wrong, sem=sem)
        return self._bare(20, "put", "sem", who, sem)

    def peek(self, who: int, *, sem: int = MISSING, **wrong: NoReturn) -> Answer:
        """Gives a semaphore's count, or minus the number of waiting threads.

        `sem`: its number on the board, from 0

        Answers count N. Refusals: Unknown: no such semaphore.
        """
        if wrong:
            no_key("peek", wrong, sem=sem)
        return self._bare(21, "peek", "sem", who, sem)

    def begin_get(self, who: int, *, sem: int = MISSING, until: Until = None, **wrong: NoReturn) -> Answer:
        """Begins a wait for a semaphore: the caller is served at once if the count is above 0; else it is blocked
        until a put serves it or the date `until` comes.

        `sem`: its number on the board, from 0
        `until`: the date, in nanoseconds, at which the wait ends as timed out; None: never

        Answers begun. Refusals: Unknown: no such semaphore; Invalid: the caller is not attached; WrongStage: it is
        in-band.
        """
        if wrong:
            no_key("begin_get", wrong, sem=sem)
        if until is None:
            return self._bare(22, "begin_get", "sem", who, sem)
        call = CallForm(22)
        call.element = whole(BadStep, "begin_get: sem", sem, 0, 65535)
        if until is not None and until != "none":
            call.timed, call.date = 1, whole(BadStep, "begin_get: until", until, 0, 18446744073709551615)
        return self._make("begin_get", who, call)

    def try_take(self, who: int, *, flags: int = MISSING, kind: str = MISSING, **wrong: NoReturn) -> Answer:
        """Takes bits from a flag group, even if others wait: all that are there (`any`), those of a mask that are
        there (`of MASK`), or a whole mask (`exact MASK`).

        `flags`: the group's number on the board, from 0
        `kind`: "any", "of MASK" or "exact MASK", a mask up to 4,294,967,295

        Answers bits N. Refusals: Unknown: no such flag group; Invalid: the mask is 0; Again: nothing to take.
        """
        if wrong or flags is MISSING or kind is MISSING:
            no_key("try_take", wrong, flags=flags, kind=kind)
        call = CallForm(23)
        call.element = whole(BadStep, "try_take: flags", flags, 0, 65535)
        put_form(call, "try_take", "kind", TAKES, kind, "'any', 'of MASK' or 'exact MASK'")
        return self._make("try_take", who, call)

    def post_flags(self, who: int, *, flags: int = MISSING, bits: int = MISSING, **wrong: NoReturn) -> Answer:
        """Adds bits to a flag group and goes once through its waiters, by rank and then by arrival: each takes what it
        wants from what is left, or keeps waiting.

        `flags`: the group's number on the board, from 0
        `bits`: up to 4,294,967,295

        Answers done. Refusals: Unknown: no such flag group; Invalid: `bits` is 0.
        """
        if wrong or flags is MISSING or bits is MISSING:
            no_key("post_flags", wrong, flags=flags, bits=bits)
        call = CallForm(24)
        call.element = whole(BadStep, "post_flags: flags", flags, 0, 65535)
        call.bits = whole(BadStep, "post_flags: bits", bits, 0, 4294967295)
        return self._make("post_flags", who, call)

    def peek_flags(self, who: int, *, flags: int = MISSING, **wrong: NoReturn) -> Answer:
        """Gives the bits of a flag group.

        `flags`: the group's number on the board, from 0

        Answers bits N. Refusals: Unknown: no such flag group.
        """
        if wrong:
            no_key("peek_flags", wrong, flags=flags)
        return self._bare(25, "peek_flags", "flags", who, flags)

    def begin_take(
        self, who: int, *, flags: int = MISSING, kind: str = MISSING, until: Until = None, **wrong: NoReturn
    ) -> Answer:
        """Begins a wait for bits: the caller is served at once, before all waiters, if they are there; else it is
        blocked until a post serves it or the date `until` comes.

        `flags`: the group's number on the board, from 0
        `kind`: "any", "of MASK" or "exact MASK", a mask up to 4,294,967,295
        `until`: the date, in nanoseconds, at which the wait ends as timed out; None: never

        Answers begun. Refusals: Unknown: no such flag group; Invalid: the caller is not attached, or the mask is 0;
        WrongStage: it is in-band.
        """
        if wrong or flags is MISSING or kind is MISSING:
            no_key("begin_take", wrong, flags=flags, kind=kind)
        call = CallForm(26)
        call.element = whole(BadStep, "begin_take: flags", flags, 0, 65535)
        put_form(call, "begin_take", "kind", TAKES, kind, "'any', 'of MASK' or 'exact MASK'")
        if until is not None and until != "none":
            call.timed, call.date = 1, whole(BadStep, "begin_take: until", until, 0, 18446744073709551615)
        return self._make("begin_take", who, call)

    def write(
        self, who: int, *, xbuf: int = MISSING, way: Way = MISSING, bytes: Bytes = MISSING, **wrong: NoReturn
    ) -> Answer:
        """Writes all the bytes into a way of a cross-buffer; waiting readers get them. A write of no bytes is always
        done on the right stage.

        `xbuf`: its number on the board, from 0
        `way`: "in" (written in-band, read out-of-band) or "out"
        `bytes`: bytes, a list of numbers, or hexadecimal digits; at most 256 bytes

        Answers done. Refusals: Unknown: no such cross-buffer; WrongStage: way `in` is written in-band, way `out`
        out-of-band; TooBig: longer than the ring; Again: they do not fit, or a writer waits there.
        """
        if wrong or xbuf is MISSING or way is MISSING or bytes is MISSING:
            no_key("write", wrong, xbuf=xbuf, way=way, bytes=bytes)
        call = CallForm(27)
        call.element = whole(BadStep, "write: xbuf", xbuf, 0, 65535)
        call.way = one_of(BadStep, "write: way", way, WAYS)
        return self._make("write", who, call, read_bytes("write", bytes))

    def read(
        self, who: int, *, xbuf: int = MISSING, way: Way = MISSING, len: int = MISSING, **wrong: NoReturn
    ) -> Answer:
        """Reads the next bytes, at most `len`; waiting writers whose bytes then fit are served. A read of 0 bytes is
        always done on the right stage.

        `xbuf`: its number on the board, from 0
        `way`: "in" (written in-band, read out-of-band) or "out"
        `len`: how many bytes at most, 0 to 256

        Answers bytes HEX (bytes - for none). Refusals: Unknown: no such cross-buffer; Range: `len` is above 256;
        WrongStage: way `in` is read out-of-band, way `out` in-band; Again: nothing is there.
        """
        if wrong or xbuf is MISSING or way is MISSING or len is MISSING:
            no_key("read", wrong, xbuf=xbuf, way=way, len=len)
        call = CallForm(28)
        call.element = whole(BadStep, "read: xbuf", xbuf, 0, 65535)
        call.way = one_of(BadStep, "read: way", way, WAYS)
        call.other = whole(BadStep, "read: len", len, 0, 65535)
        return self._make("read", who, call)

    def room(self, who: int, *, xbuf: int = MISSING, way: Way = MISSING, **wrong: NoReturn) -> Answer:
        """Gives how many bytes of a way's ring are free.

        `xbuf`: its number on the board, from 0
        `way`: "in" (written in-band, read out-of-band) or "out"

        Answers number N. Refusals: Unknown: no such cross-buffer.
        """
        if wrong or xbuf is MISSING or way is MISSING:
            no_key("room", wrong, xbuf=xbuf, way=way)
        call = CallForm(29)
        call.element = whole(BadStep, "room: xbuf", xbuf, 0, 65535)
        call.way = one_of(BadStep, "room: way", way, WAYS)
        return self._make("room", who, call)

    def begin_write(
        self,
        who: int,
        *,
        xbuf: int = MISSING,
        way: Way = MISSING,
        bytes: Bytes = MISSING,
        until: Until = None,
        **wrong: NoReturn,
    ) -> Answer:
        """Begins a wait to write: the caller is served at once if `write` would be done; else it is blocked until its
        bytes are written or the date `until` comes.

        `xbuf`: its number on the board, from 0
        `way`: "in" (written in-band, read out-of-band) or "out"
        `bytes`: bytes, a list of numbers, or hexadecimal digits; at most 256 bytes
        `until`: the date, in nanoseconds, at which the wait ends as timed out; None: never

        Answers begun. Refusals: Unknown: no such cross-buffer; Invalid: the caller is not attached; WrongStage,
        TooBig: as `write`.
        """
        if wrong or xbuf is MISSING or way is MISSING or bytes is MISSING:
            no_key("begin_write", wrong, xbuf=xbuf, way=way, bytes=bytes)
        call = CallForm(30)
        call.element = whole(BadStep, "begin_write: xbuf", xbuf, 0, 65535)
        call.way = one_of(BadStep, "begin_write: way", way, WAYS)
        if until is not None and until != "none":
            call.timed, call.date = 1, whole(BadStep, "begin_write: until", until, 0, 18446744073709551615)
        return self._make("begin_write", who, call, read_bytes("begin_write", bytes))

    def begin_read(
        self,
        who: int,
        *,
        xbuf: int = MISSING,
        way: Way = MISSING,
        len: int = MISSING,
        until: Until = None,
        **wrong: NoReturn,
    ) -> Answer:
        """Begins a wait to read: the caller is served at once if `read` would be done; else it is blocked until
        something is there or the date `until` comes.

        `xbuf`: its number on the board, from 0
        `way`: "in" (written in-band, read out-of-band) or "out"
        `len`: how many bytes at most, 0 to 256
        `until`: the date, in nanoseconds, at which the wait ends as timed out; None: never

        Answers begun. Refusals: Unknown: no such cross-buffer; Range: `len` is above 256; Invalid: the caller is
        not attached; WrongStage: as `read`.
        """
        if wrong or xbuf is MISSING or way is MISSING or len is MISSING:
            no_key("begin_read", wrong, xbuf=xbuf, way=way, len=len)
        call = CallForm(31)
        call.element = whole(BadStep, "begin_read: xbuf", xbuf, 0, 65535)
        call.way = one_of(BadStep, "begin_read: way", way, WAYS)
        call.other = whole(BadStep, "begin_read: len", len, 0, 65535)
        if until is not None and until != "none":
            call.timed, call.date = 1, whole(BadStep, "begin_read: until", until, 0, 18446744073709551615)
        return self._make("begin_read", who, call)

    def claim(
        self, who: int, *, mutex: int = MISSING, owner: int = MISSING, until: Until = None, **wrong: NoReturn
    ) -> Answer:
        """Begins a wait for a mutex that thread `owner` has: that thread is recorded as its owner, and the caller is
        blocked until a release hands it the mutex or the date `until` comes.

        `mutex`: its number on the board, from 0
        `owner`: the thread that has it
        `until`: the date, in nanoseconds, at which the wait ends as timed out; None: never

        Answers begun. Refusals: Unknown: no such mutex, or no thread `owner`; Invalid: the caller or the owner is
        not attached, the owner is the caller, or another owner is recorded; WrongStage: the caller is in-band;
        Deadlock: the owner waits for the caller, directly or along a chain.
        """
        if wrong or mutex is MISSING or owner is MISSING:
            no_key("claim", wrong, mutex=mutex, owner=owner)
        call = CallForm(32)
        call.element = whole(BadStep, "claim: mutex", mutex, 0, 65535)
        call.other = whole(BadStep, "claim: owner", owner, 0, 65535)
        if until is not None and until != "none":
            call.timed, call.date = 1, whole(BadStep, "claim: until", until, 0, 18446744073709551615)
        return self._make("claim", who, call)

    def release(self, who: int, *, mutex: int = MISSING, **wrong: NoReturn) -> Answer:
        """Hands a mutex to the first thread that waits for it, and ends its wait.

        `mutex`: its number on the board, from 0

        Answers next N more, next N or next none: who has the mutex now, and whether more wait for it. Refusals:
        Unknown: no such mutex; NotOwner: another thread is recorded as its owner.
        """
        if wrong:
            no_key("release", wrong, mutex=mutex)
        return self._bare(33, "release", "mutex", who, mutex)

    def raise_(self, who: int, *, mutex: int = MISSING, **wrong: NoReturn) -> Answer:
        """Records the caller as the owner of a mutex with a ceiling.

        `mutex`: its number on the board, from 0

        Answers done. Refusals: Unknown: no such mutex; Invalid: it has no ceiling, or the caller is not attached;
        Busy: an owner is recorded, even if it is the caller.
        """
        if wrong:
            no_key("raise", wrong, mutex=mutex)
        return self._bare(34, "raise", "mutex", who, mutex)

    def finish(self, who: int, *, keep: bool = False, **wrong: NoReturn) -> Answer:
        """Gives what ended the caller's wait; a `weak` caller that is out-of-band then goes in-band, unless `keep` is
        true or it got a mutex.

        `keep`: True or False

        Answers done, bits N after a wait for bits, bytes HEX after one to read, or timed out. Refusals: Invalid: it
        has no wait; Again: its wait goes on.
        """
        if wrong:
            no_key("finish", wrong)
        call = CallForm(35)
        if keep is not True and keep is not False:
            raise wrong_type(BadStep, f"finish: keep is {keep!r}: True or False is wanted")
        call.choice = keep
        return self._make("finish", who, call)


class OwnWords:
    """The same of a caller, which calls for its own thread."""

    _calls: Words
    thread: int

    def request(
        self, *, line: int = MISSING, stage: Stage = MISSING, callback: int = MISSING, tag: int = 0, **wrong: NoReturn
    ) -> Answer:
        return self._calls.request(self.thread, line=line, stage=stage, callback=callback, tag=tag, **wrong)

    request.__doc__ = Words.request.__doc__

    def free(self, *, line: int = MISSING, stage: Stage = MISSING, **wrong: NoReturn) -> Answer:
        return self._calls.free(self.thread, line=line, stage=stage, **wrong)

    free.__doc__ = Words.free.__doc__

    def arrive(self, *, line: int = MISSING, **wrong: NoReturn) -> Answer:
        return self._calls.arrive(self.thread, line=line, **wrong)

    arrive.__doc__ = Words.arrive.__doc__

    def post(self, *, stage: Stage = MISSING, line: int = MISSING, **wrong: NoReturn) -> Answer:
        return self._calls.post(self.thread, stage=stage, line=line, **wrong)

    post.__doc__ = Words.post.__doc__

    def stall(self, *, stage: Stage = MISSING, **wrong: NoReturn) -> Answer:
        return self._calls.stall(self.thread, stage=stage, **wrong)

    stall.__doc__ = Words.stall.__doc__

    def unstall(self, *, stage: Stage = MISSING, **wrong: NoReturn) -> Answer:
        return self._calls.unstall(self.thread, stage=stage, **wrong)

    unstall.__doc__ = Words.unstall.__doc__

    def tick(self, *, delta: int = MISSING, **wrong: NoReturn) -> Answer:
        return self._calls.tick(self.thread, delta=delta, **wrong)

    tick.__doc__ = Words.tick.__doc__

    def now(self, **wrong: NoReturn) -> Answer:
        return self._calls.now(self.thread, **wrong)

    now.__doc__ = Words.now.__doc__

    def new_timer(self, *, callback: int = MISSING, tag: int = 0, **wrong: NoReturn) -> Answer:
        return self._calls.new_timer(self.thread, callback=callback, tag=tag, **wrong)

    new_timer.__doc__ = Words.new_timer.__doc__

    def start_timer(
        self, *, timer: int = MISSING, date: int = MISSING, interval: int = MISSING, **wrong: NoReturn
    ) -> Answer:
        return self._calls.start_timer(self.thread, timer=timer, date=date, interval=interval, **wrong)

    start_timer.__doc__ = Words.start_timer.__doc__

    def stop_timer(self, *, timer: int = MISSING, **wrong: NoReturn) -> Answer:
        return self._calls.stop_timer(self.thread, timer=timer, **wrong)

    stop_timer.__doc__ = Words.stop_timer.__doc__

    def drop_timer(self, *, timer: int = MISSING, **wrong: NoReturn) -> Answer:
        return self._calls.drop_timer(self.thread, timer=timer, **wrong)

    drop_timer.__doc__ = Words.drop_timer.__doc__

    def overruns(self, *, timer: int = MISSING, **wrong: NoReturn) -> Answer:
        return self._calls.overruns(self.thread, timer=timer, **wrong)

    overruns.__doc__ = Words.overruns.__doc__

    def attach(self, *, policy: str = MISSING, stage: Stage = MISSING, **wrong: NoReturn) -> Answer:
        return self._calls.attach(self.thread, policy=policy, stage=stage, **wrong)

    attach.__doc__ = Words.attach.__doc__

    def detach(self, **wrong: NoReturn) -> Answer:
        return self._calls.detach(self.thread, **wrong)

    detach.__doc__ = Words.detach.__doc__

    def set_policy(self, *, policy: str = MISSING, **wrong: NoReturn) -> Answer:
        return self._calls.set_policy(self.thread, policy=policy, **wrong)

    set_policy.__doc__ = Words.set_policy.__doc__

    def set_stage(self, *, stage: Stage = MISSING, **wrong: NoReturn) -> Answer:
        return self._calls.set_stage(self.thread, stage=stage, **wrong)

    set_stage.__doc__ = Words.set_stage.__doc__

    def pick(self, **wrong: NoReturn) -> Answer:
        return self._calls.pick(self.thread, **wrong)

    pick.__doc__ = Words.pick.__doc__

    def rank_of(self, *, thread: int = MISSING, **wrong: NoReturn) -> Answer:
        return self._calls.rank_of(self.thread, thread=thread, **wrong)

    rank_of.__doc__ = Words.rank_of.__doc__

    def try_get(self, *, sem: int = MISSING, **wrong: NoReturn) -> Answer:
        return self._calls.try_get(self.thread, sem=sem, **wrong)

    try_get.__doc__ = Words.try_get.__doc__

    def put(self, *, sem: int = MISSING, **wrong: NoReturn) -> Answer:
        return self._calls.put(self.thread, sem=sem, **wrong)

    put.__doc__ = Words.put.__doc__

    def peek(self, *, sem: int = MISSING, **wrong: NoReturn) -> Answer:
        return self._calls.peek(self.thread, sem=sem, **wrong)

    peek.__doc__ = Words.peek.__doc__

    def begin_get(self, *, sem: int = MISSING, until: Until = None, **wrong: NoReturn) -> Answer:
        return self._calls.begin_get(self.thread, sem=sem, until=until, **wrong)

    begin_get.__doc__ = Words.begin_get.__doc__

    def try_take(self, *, flags: int = MISSING, kind: str = MISSING, **wrong: NoReturn) -> Answer:
        return self._calls.try_take(self.thread, flags=flags, kind=kind, **wrong)

    try_take.__doc__ = Words.try_take.__doc__

    def post_flags(self, *, flags: int = MISSING, bits: int = MISSING, **wrong: NoReturn) -> Answer:
        return self._calls.post_flags(self.thread, flags=flags, bits=bits, **wrong)

    post_flags.__doc__ = Words.post_flags.__doc__

    def peek_flags(self, *, flags: int = MISSING, **wrong: NoReturn) -> Answer:
        return self._calls.peek_flags(self.thread, flags=flags, **wrong)

    peek_flags.__doc__ = Words.peek_flags.__doc__

    def begin_take(
        self, *, flags: int = MISSING, kind: str = MISSING, until: Until = None, **wrong: NoReturn
    ) -> Answer:
        return self._calls.begin_take(self.thread, flags=flags, kind=kind, until=until, **wrong)

    begin_take.__doc__ = Words.begin_take.__doc__

    def write(
        self, *, xbuf: int = MISSING, way: Way = MISSING, bytes: Bytes = MISSING, **wrong: NoReturn
    ) -> Answer:
        return self._calls.write(self.thread, xbuf=xbuf, way=way, bytes=bytes, **wrong)

    write.__doc__ = Words.write.__doc__

    def read(self, *, xbuf: int = MISSING, way: Way = MISSING, len: int = MISSING, **wrong: NoReturn) -> Answer:
        return self._calls.read(self.thread, xbuf=xbuf, way=way, len=len, **wrong)

    read.__doc__ = Words.read.__doc__

    def room(self, *, xbuf: int = MISSING, way: Way = MISSING, **wrong: NoReturn) -> Answer:
        return self._calls.room(self.thread, xbuf=xbuf, way=way, **wrong)

    room.__doc__ = Words.room.__doc__

    def begin_write(
        self,
        *,
        xbuf: int = MISSING,
        way: Way = MISSING,
        bytes: Bytes = MISSING,
        until: Until = None,
        **wrong: NoReturn,
    ) -> Answer:
        return self._calls.begin_write(self.thread, xbuf=xbuf, way=way, bytes=bytes, until=until, **wrong)

    begin_write.__doc__ = Words.begin_write.__doc__

    def begin_read(
        self, *, xbuf: int = MISSING, way: Way = MISSING, len: int = MISSING, until: Until = None, **wrong: NoReturn
    ) -> Answer:
        return self._calls.begin_read(self.thread, xbuf=xbuf, way=way, len=len, until=until, **wrong)

    begin_read.__doc__ = Words.begin_read.__doc__

    def claim(
        self, *, mutex: int = MISSING, owner: int = MISSING, until: Until = None, **wrong: NoReturn
    ) -> Answer:
        return self._calls.claim(self.thread, mutex=mutex, owner=owner, until=until, **wrong)

    claim.__doc__ = Words.claim.__doc__

    def release(self, *, mutex: int = MISSING, **wrong: NoReturn) -> Answer:
        return self._calls.release(self.thread, mutex=mutex, **wrong)

    release.__doc__ = Words.release.__doc__

    def raise_(self, *, mutex: int = MISSING, **wrong: NoReturn) -> Answer:
        return self._calls.raise_(self.thread, mutex=mutex, **wrong)

    raise_.__doc__ = Words.raise_.__doc__

    def finish(self, *, keep: bool = False, **wrong: NoReturn) -> Answer:
        return self._calls.finish(self.thread, keep=keep, **wrong)

    finish.__doc__ = Words.finish.__doc__
