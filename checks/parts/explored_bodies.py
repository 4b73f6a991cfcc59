"""Bodies of evlsim.runner.explore that are wrong: each fails or is refused, with what is wrong and where; and bodies that look
wrong and pass. Run by checks/embed."""
import evlsim
from evlsim.runner import explore

ASK = evlsim.BadQuestion


def with_thread(run):
    """A body with this thread, which is attached, and a semaphore."""

    def body(bench):
        sem = bench.sem(0)

        def attached(thread):
            yield thread.attach("fifo 5")
            yield from run(bench, thread, sem)

        bench.thread(attached)
        yield bench.rest()

    return body


def with_handler(handler, times=1, device=None):
    """A body with a handler of line 5, and a source."""

    def body(bench):
        bench.request(5, lambda: handler(bench))
        bench.may_arrive(5, times, device)
        yield bench.rest()

    return body


def generator(*_):
    yield 1


def requests_a_generator(bench):
    bench.request(5, generator)
    yield bench.rest()


def requests_a_number(bench):
    bench.request(5, 7)
    yield bench.rest()


def yields_five(_bench):
    yield 5


def forgets_to_wait(_bench, thread, sem):
    thread.get(sem)
    yield


def forgets_at_its_end(_bench, thread, sem):
    thread.put(sem)
    yield from ()


def forgets_to_rest(bench):
    bench.rest()
    yield


def puts_none(_bench, thread, _sem):
    yield thread.put(9)


def attaches_twice(_bench, thread, _sem):
    yield thread.attach("fifo 6")


def waits_unattached(bench):
    sem = bench.sem(0)

    def run(thread):
        yield thread.get(sem)

    bench.thread(run)
    yield bench.rest()


def requests_the_clock(bench):
    bench.request(0, print)
    yield bench.rest()


def three_sources(wrong):
    """A body with three kinds of arrivals of one line, of which this one fails where it comes alone."""

    def body(bench):
        came = []

        def bad_frame():
            came.append("second")

        bench.request(5, lambda: None)
        bench.may_arrive(5, 1, lambda: came.append("first"))
        bench.may_arrive(5, 1, bad_frame)
        bench.may_arrive(5, 1, lambda: came.append("third"))
        yield bench.rest()
        assert came != [wrong]

    return body


# a body, why its exploration fails, and in which function of it
FAILING = [
    (with_handler(lambda bench: 1 // 0), "ZeroDivisionError: ", "<lambda>"),
    (yields_five, "TypeError: T1 yields 5: a call, as thread.get(sem), or nothing", ""),
    (lambda bench: None, "TypeError: the body is no generator", ""),
    (requests_a_generator, "TypeError: the handler of line 5 is a generator, and would never run", "requests_a_generator"),
    (with_handler(generator), "TypeError: the handler of line 5 is a generator, and would never run", ""),
    (with_handler(print, 1, generator), "TypeError: the device of line 5 is a generator, and would never run", "body"),
    (requests_a_number, "TypeError: the handler of line 5 is 7: a function is wanted", "requests_a_number"),
    (with_handler(print, -3), "BadQuestion: may_arrive: times of line 5 is -3: a whole number from 0", "body"),
    (with_handler(print, 2.5), "BadQuestion: may_arrive: times of line 5 is 2.5: a whole number", "body"),
    (with_handler(print, True), "BadQuestion: may_arrive: times of line 5 is True: a whole number", "body"),
    (with_thread(forgets_to_wait), "NotYielded: thread.get(..) was not yielded: answer = yield thread.get(..)", "forgets_to_wait"),
    (with_thread(forgets_at_its_end), "NotYielded: thread.put(..) was not yielded", "forgets_at_its_end"),
    (forgets_to_rest, "NotYielded: bench.rest(..) was not yielded", "forgets_to_rest"),
    (with_thread(puts_none), "CallRefused: T2 put sem=9 -> Unknown", "puts_none"),
    (with_thread(attaches_twice), "CallRefused: T2 attach policy=fifo 6 stage=oob -> Busy", "attaches_twice"),
    (waits_unattached, "CallRefused: T2 begin_get sem=0 -> Invalid", "run"),
    (with_handler(lambda bench: bench.put(9)), "CallRefused: T0 put sem=9 -> Unknown", "<lambda>"),
    (requests_the_clock, "CallRefused: T0 request line=0 stage=oob callback=0 -> Invalid", ""),
    (
        with_handler(lambda bench: bench.kernel.arrive(0, line=6)),
        "RuntimeError: bench.kernel.arrive(..): the kernel of a run only answers questions",
        "<lambda>",
    ),
    (with_handler(lambda bench: bench.kernel.close()), "RuntimeError: bench.kernel.close(): the kernel of a run", "<lambda>"),
    (three_sources("first"), "AssertionError: ", "body"),
    (three_sources("second"), "AssertionError: ", "body"),
    (three_sources("third"), "AssertionError: ", "body"),
]
# what explore itself refuses
REFUSED = [
    (lambda: explore(5), TypeError, "body is 5: a function with a yield"),
    (lambda: explore(print, arrivals=-1), ASK, "arrivals is -1"),
    (lambda: explore(print, runs="9"), TypeError, "runs is '9'"),
    (lambda: explore(print, allowed=["Unkown"]), ASK, "allowed has 'Unkown': names of refusals are wanted; did you mean \"Unknown\"?"),
    (lambda: explore(print, allowed="Unknown"), TypeError, "allowed is 'Unknown': a list of names of refusals"),
]


def tries_to_get(bench, thread, sem):
    answer = yield thread.try_get(sem)
    bench.say(answer.text)


def prepares_its_calls(bench, thread, sem):
    put, get = thread.put(sem), thread.get(sem)
    for _ in range(2):
        yield put
        bench.say((yield get).text)


def catches_a_refusal(bench, thread, _sem):
    try:
        yield thread.put(9)
    except evlsim.CallRefused as refused:
        bench.say(f"{refused.call} -> {refused.answer.refusal}")


def asks_a_copy(bench):
    sem = bench.sem(0)
    yield bench.rest()
    copied = bench.kernel.copy()
    assert copied.put(0, sem=sem) and copied.see_count(sem) == 1 and bench.kernel.see_count(sem) == 0
    bench.say("copied")


# a body, what is allowed, and its outcome
PASSING = [
    (with_thread(tries_to_get), ["Again"], "Again"),
    (with_thread(prepares_its_calls), ["Again"], "done; done"),
    (with_thread(catches_a_refusal), ["Again"], "T2 put sem=9 -> Unknown"),
    (with_thread(puts_none), ["Unknown"], ""),
    (asks_a_copy, [], "copied"),
]


def try_failing():
    for body, why, where in FAILING:
        found = explore(body)
        assert found.failed and found.why.startswith(why), found
        assert not where or (found.where.startswith(f"{__file__}:") and found.where.endswith(f", in {where}")), found
        if found.choices:
            again = explore(body, choices=found.choices)
            assert (again.why, again.trace, again.lists) == (found.why, found.trace, 1), again


def try_refused():
    for function, error, part in REFUSED:
        try:
            function()
        except error as raised:
            assert part in str(raised), raised
        else:
            raise AssertionError(part)


def try_passing():
    for body, allowed, outcome in PASSING:
        found = explore(body, allowed=allowed)
        assert not found.failed and list(found.outcomes) == [outcome], found


try_failing()
try_refused()
try_passing()
told = [explore(three_sources(it)).choices for it in ("first", "second", "third")]
assert told == ["line 5 @ 1", "line 5 [bad_frame] @ 1", "line 5 [3] @ 1"], told
print(f"{len(FAILING)} bodies fail as they should, {len(PASSING)} pass")
