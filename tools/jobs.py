"""Runs commands side by side, each after those that it needs, and says how far it is: for tools/unproved and ./test."""
import collections
import concurrent.futures
import os
import signal
import subprocess
import sys
import threading
import time

TOP = os.path.dirname(os.path.dirname(os.path.abspath(__file__)))
KEPT = f"{TOP}/out/unproved"
EACH = 30
NOT_RUN = 5
INTERRUPTED = 130

# A job: its name, what it does (a function that answers an Outcome), the names of the jobs that it needs, and whether it
# builds something.
Job = collections.namedtuple("Job", "name call needs builds", defaults=[(), False])
# What came of a job: how much passed, a text for each failure, and why it was not run, where something is missing.
Outcome = collections.namedtuple("Outcome", "passed failures not_run", defaults=[(), ""])


class Children:
    """The commands that run now, so that an interrupt ends them with all that they have started."""

    def __init__(self):
        self.running, self.lock, self.ended = set(), threading.Lock(), False

    def run(self, words, log=subprocess.DEVNULL, timeout=None, **how):
        """Runs a command in a session of its own; its status, or nothing where the time was over."""
        with self.lock:
            if self.ended:
                return INTERRUPTED
            child = subprocess.Popen(words, stdout=log, stderr=subprocess.STDOUT, start_new_session=True, **{"stdin": subprocess.DEVNULL, **how})
            self.running.add(child)
        try:
            return child.wait(timeout)
        except subprocess.TimeoutExpired:
            os.killpg(child.pid, signal.SIGKILL)
            child.wait()
            return None
        finally:
            with self.lock:
                self.running.discard(child)

    def end(self):
        """Ends all that runs, and starts nothing more."""
        with self.lock:
            self.ended = True
            for child in self.running:
                try:
                    os.killpg(child.pid, signal.SIGTERM)
                except ProcessLookupError:
                    pass


CHILDREN = Children()


def interrupt_when_ended():
    """Lets a request to end be what Ctrl-C is, so that nothing that was started goes on."""
    def interrupted(*_):
        raise KeyboardInterrupt

    signal.signal(signal.SIGTERM, interrupted)


def length(seconds):
    """How long a time is: seconds, from two minutes on minutes."""
    return f"{seconds:.0f} s" if seconds < 120 else f"{seconds / 60:.0f} min"


def logged(name, words, **how):
    """Runs a command with its report in a file of that name; its status and the report's path."""
    os.makedirs(KEPT, exist_ok=True)
    path = f"{KEPT}/{name}.log"
    with open(path, "wb") as log:
        return CHILDREN.run(words, log, **how), path


def last_lines(path, count=12):
    """The end of a report."""
    with open(path, encoding="utf-8", errors="replace") as file:
        return [line.rstrip() for line in file.readlines()[-count:]]


def command(name, words, **how):
    """What a job does that is one command: one passed, or one failure with the end of what it printed; with status 5
    something is missing."""
    status, path = logged(name, words, **how)
    if status == 0:
        return Outcome(1)
    if status == NOT_RUN:
        return Outcome(0, [], f"{name}: {' '.join(last_lines(path, 1))}")
    how = "not ended in time" if status is None else f"status {status}"
    return Outcome(0, ["\n    ".join([f"{name}: {how}; {os.path.relpath(path, TOP)} has the whole report:", *last_lines(path)])])


class Times:
    """How long each job took the last time."""

    def __init__(self):
        self.path, self.known = f"{KEPT}/seconds", {}
        if os.path.isfile(self.path):
            with open(self.path, encoding="utf-8") as file:
                self.known = {name: float(seconds) for name, seconds in map(str.split, file)}

    def note(self, name, seconds):
        if seconds >= 3 or name not in self.known:
            self.known[name] = seconds
        os.makedirs(KEPT, exist_ok=True)
        with open(f"{self.path}.new", "w", encoding="utf-8") as file:
            file.writelines(f"{it} {took:.0f}\n" for it, took in self.known.items())
        os.replace(f"{self.path}.new", self.path)

    def left(self, names, lanes):
        """About how long these jobs take, where all of them were timed."""
        if not names or any(it not in self.known for it in names):
            return ""
        return f", some {length(sum(self.known[it] for it in names) / lanes)} by the last time"


class Run:
    """Jobs that run side by side."""

    def __init__(self, who, jobs, lanes):
        self.who, self.lanes, self.times = who, lanes, Times()
        self.left = {job.name: job for job in jobs}
        self.outcomes, self.running, self.ended = {}, {}, threading.Event()

    def say(self, text):
        print(f"{self.who}: {text}", flush=True)

    def state(self):
        """What runs, and what is left."""
        now = time.monotonic()
        running = ", ".join(f"{name} {length(now - begun)}" for name, begun in [*self.running.items()])
        return f"{running or 'nothing'} running; {len(self.left)} left{self.times.left([*self.left], self.lanes)}"

    def tell(self):
        """Says every 30 seconds how far it is, on a terminal and elsewhere."""
        while not self.ended.wait(EACH):
            self.say(self.state())

    def next(self):
        """The first job that can begin; those that need a failed one are given up."""
        for job in [*self.left.values()]:
            lacking = [it for it in job.needs if it in self.outcomes and not self.outcomes[it].passed]
            if lacking:
                del self.left[job.name]
                why = f"{job.name}: not run, since {lacking[0]} is not there"
                self.outcomes[job.name] = Outcome(0, [], why) if self.outcomes[lacking[0]].not_run else Outcome(0, [why])
            elif all(it in self.outcomes for it in job.needs):
                return self.left.pop(job.name)
        return None

    def work(self, job):
        begun = self.running[job.name] = time.monotonic()
        outcome = job.call()
        took = time.monotonic() - begun
        del self.running[job.name]
        if outcome.passed and not outcome.failures:
            self.times.note(job.name, took)
        return job, outcome, took

    def all(self):
        """Runs all jobs, those that are listed first before others; what came of each."""
        for job in self.left.values():
            assert all(it in self.left for it in job.needs), job
        interrupt_when_ended()
        threading.Thread(target=self.tell, daemon=True).start()
        pool, waiting = concurrent.futures.ThreadPoolExecutor(self.lanes), set()
        try:
            while self.left or waiting:
                while len(waiting) < self.lanes:
                    job = self.next()
                    if job is None:
                        break
                    waiting.add(pool.submit(self.work, job))
                if not waiting:
                    continue
                done, waiting = concurrent.futures.wait(waiting, return_when=concurrent.futures.FIRST_COMPLETED)
                for it in done:
                    self.note(*it.result())
        except KeyboardInterrupt:
            undone = len(self.left) + len(self.running)
            CHILDREN.end()
            pool.shutdown(wait=True, cancel_futures=True)
            self.say(f"interrupted; {len(self.outcomes)} parts were done, {undone} weren't; what was built is kept")
            sys.exit(INTERRUPTED)
        finally:
            self.ended.set()
        return self.outcomes

    def note(self, job, outcome, took):
        self.outcomes[job.name] = outcome
        how = "built" if job.builds else f"{outcome.passed} passed"
        how = f"{len(outcome.failures)} FAILED" if outcome.failures else "NOT RUN" if outcome.not_run else how
        left = len(self.left) + len(self.running)
        self.say(f"{job.name}: {how}, {took:.0f} s; {left} of {left + len(self.outcomes)} left")
