"""Plays a task set by itself: threads that compute for stated times, over a core of its own with fifo, round-robin and
weak policies, semaphores, and mutexes that lend ranks or have ceilings. It has random sets too. checks/tasks compares
the program with it."""

MS = 1_000_000


class Thread:
    def __init__(self, number, task):
        self.number, self.task = number, task
        self.oob = task["stage"] == "oob"
        kind, *numbers = task["policy"].split()
        self.base = {"fifo": 512, "rr": 512, "weak": 0}[kind] + int(numbers[0])
        self.slice = int(numbers[1]) if kind == "rr" else None
        self.left = self.slice          # of its slice
        self.wait = None                # what it waits for: (kind, number, deadline, rank), then a text of how it ended
        self.ended = None
        self.job = 0                    # its next job, or the one that it is in
        self.act = None                 # the act that comes next; None between two jobs
        self.due = None                 # the date at which its next job is released
        self.rest = None                # how long it has still to compute
        self.sleeps = None              # until when
        self.calls = False              # whether it waits in a call
        self.over = False


class Machine:
    """One processor. What comes at a date comes before what a task does at it; calls take no time."""

    def __init__(self, text):
        self.text, self.now = text, 0
        self.threads = [Thread(i + 1, task) for i, task in enumerate(text["tasks"])]
        self.ready = []                 # threads that are attached, out-of-band and don't wait, in the order of their coming
        self.sems = list(text["sems"])
        self.sem_queues = [[] for _ in self.sems]
        self.kinds = text["mutexes"]    # "normal", "recursive" or "ceiling P"
        self.holder = [None] * len(self.kinds)      # the word: (thread, depth)
        self.recorded = [None] * len(self.kinds)    # whom the core knows as the owner
        self.queues = [[] for _ in self.kinds]
        self.interrupts = sorted(((date, line) for date, line in text["interrupts"]), key=lambda it: it[0])
        self.events, self.runs, self.end = [], [], None

    # ---- ranks, the ready list, the queues

    def ceiling(self, mutex):
        kind = self.kinds[mutex].split()
        return int(kind[1]) + 512 if kind[0] == "ceiling" else None

    def rank(self, thread, seen=()):
        if thread in seen:
            return thread.base
        ranks = [thread.base]
        for mutex, owner in enumerate(self.recorded):
            if owner is thread:
                if self.ceiling(mutex) is not None:
                    ranks.append(self.ceiling(mutex))
                for waiter in self.queues[mutex]:
                    ranks.append(self.lent(waiter, seen + (thread,)))
        return max(ranks)

    def lent(self, thread, seen):
        """What a thread that waits hands on: the rank of its policy, or of who waits for it; no ceiling."""
        if thread in seen:
            return thread.base
        ranks = [thread.base]
        for mutex, owner in enumerate(self.recorded):
            if owner is thread:
                ranks += [self.lent(waiter, seen + (thread,)) for waiter in self.queues[mutex]]
        return max(ranks)

    def picked(self):
        best = None
        for thread in self.ready:
            if best is None or self.rank(thread) > self.rank(best):
                best = thread
        return best

    def block(self, thread, kind, number, deadline):
        thread.wait, thread.ended = (kind, number, deadline), None
        self.ready.remove(thread)
        queue = {"sem": self.sem_queues, "mutex": self.queues}.get(kind)
        if queue is not None:
            rank = self.rank(thread)
            thread.queued = rank
            place = next((i for i, other in enumerate(queue[number]) if other.queued < rank), len(queue[number]))
            queue[number].insert(place, thread)

    def wake(self, thread, how):
        thread.ended = how
        self.ready.append(thread)

    def expire(self, thread):
        kind, number, _ = thread.wait
        if kind == "sem":
            self.sem_queues[number].remove(thread)
        if kind == "mutex":
            self.queues[number].remove(thread)
            if not self.queues[number] and self.ceiling(number) is None:
                self.recorded[number] = None
        self.wake(thread, "TimedOut")

    def play_deadlines(self):
        while True:
            due = [(t.wait[2], t.number, t) for t in self.threads
                   if t.wait and t.ended is None and t.wait[2] is not None and t.wait[2] <= self.now]
            if not due:
                return
            self.expire(min(due)[2])

    # ---- calls of the core: an answer each, a refusal by its name

    def put(self, sem):
        if sem >= len(self.sems):
            return "Unknown"
        if self.sem_queues[sem]:
            self.wake(self.sem_queues[sem].pop(0), "done")
        else:
            self.sems[sem] += 1
        return "done"

    def begin_get(self, thread, sem, until):
        if sem >= len(self.sems):
            return "Unknown"
        if not thread.oob:
            return "WrongStage"
        if self.sems[sem] > 0:
            self.sems[sem] -= 1
            thread.wait, thread.ended = ("sem", sem, None), "done"
        else:
            self.block(thread, "sem", sem, until)
            self.play_deadlines()
        return "begun"

    def claim(self, thread, mutex, owner):
        after = owner
        for _ in range(len(self.threads) + 1):
            if after is thread:
                return "Deadlock"
            if not (after.wait and after.ended is None and after.wait[0] == "mutex"):
                break
            after = self.recorded[after.wait[1]]
        self.recorded[mutex] = owner
        self.block(thread, "mutex", mutex, None)
        return "begun"

    def release(self, thread, mutex):
        if self.recorded[mutex] is not None and self.recorded[mutex] is not thread:
            return "NotOwner"
        if not self.queues[mutex]:
            self.recorded[mutex] = None
            self.holder[mutex] = None
            return "done"
        following = self.queues[mutex].pop(0)
        kept = self.queues[mutex] or self.ceiling(mutex) is not None
        self.recorded[mutex] = following if kept else None
        self.holder[mutex] = (following, 1)
        self.wake(following, "done")
        return "done"

    def lock(self, thread, mutex):
        if not thread.oob:
            return "WrongStage"
        if mutex >= len(self.kinds):
            return "Unknown"
        if self.holder[mutex] is None:
            if self.ceiling(mutex) is not None:
                if self.recorded[mutex] is not None:
                    return "Busy"
                self.recorded[mutex] = thread
            self.holder[mutex] = (thread, 1)
            return "done"
        owner, depth = self.holder[mutex]
        if owner is thread:
            if self.kinds[mutex] != "recursive":
                return "Deadlock"
            self.holder[mutex] = (thread, depth + 1)
            return "done"
        return self.claim(thread, mutex, owner)

    def unlock(self, thread, mutex):
        if mutex >= len(self.kinds):
            return "Unknown"
        if self.holder[mutex] is None or self.holder[mutex][0] is not thread:
            return "NotOwner"
        if self.holder[mutex][1] > 1:
            self.holder[mutex] = (thread, self.holder[mutex][1] - 1)
            return "done"
        if self.ceiling(mutex) is not None or self.queues[mutex]:
            return self.release(thread, mutex)
        self.holder[mutex] = None
        return "done"

    # ---- the machine

    def tell(self, thread, what):
        self.events.append((self.now, thread.number, thread.job, what))

    def release_of(self, thread, job):
        task = thread.task
        if task["jobs"] is not None and job >= task["jobs"]:
            return None
        if task["every"] is None:
            return task["at"] if job == 0 else None
        return task["at"] + job * task["every"]

    def held(self, thread):
        """Whether it waits for something or for a date."""
        if thread.wait and thread.ended is None:
            return True
        return any(date is not None and self.now < date for date in (thread.due, thread.sleeps))

    def doer(self):
        thread = self.picked()
        if thread is not None:
            return thread
        for thread in self.threads:
            if not thread.oob and not thread.over and not self.held(thread):
                return thread
        return None

    def rest_until(self, thread, date):
        if thread.oob:
            self.block(thread, "date", None, date)

    def next_date(self, thread):
        """Up to which date time passes: the least of those at which something ends or comes."""
        dates = [t.wait[2] for t in self.threads if t.wait and t.ended is None and t.wait[2] is not None]
        dates += [date for t in self.threads if not t.oob for date in (t.due, t.sleeps) if date is not None and date > self.now]
        if self.interrupts:
            dates.append(self.interrupts[0][0])
        if self.text["until"] is not None:
            dates.append(self.text["until"])
        if thread is not None:
            dates.append(self.now + thread.rest)
            if thread.oob and thread.left is not None:
                dates.append(self.now + thread.left)
        return min(dates, default=None)

    def tick(self, date):
        thread = self.picked()
        passed = date - self.now
        if thread is not None and thread.left is not None:
            if passed >= thread.left:
                thread.left = thread.slice
                self.ready.remove(thread)
                self.ready.append(thread)
            else:
                thread.left -= passed
        self.now = date
        self.play_deadlines()

    def play(self):
        for thread in self.threads:
            if thread.oob:
                self.ready.append(thread)
        while self.end is None:
            self.turn()
        return self

    def turn(self):
        if self.interrupts and self.interrupts[0][0] <= self.now:
            _, line = self.interrupts.pop(0)
            if line in self.text["puts"]:
                self.put(self.text["puts"][line])
            return
        if self.text["until"] is not None and self.text["until"] <= self.now:
            self.end = "Until"
            return
        thread = self.doer()
        if thread is not None and thread.rest is None:
            self.go_on(thread)
            return
        date = self.next_date(thread)
        if date is None:
            self.end = "Quiet"
            return
        before = self.now
        self.tick(date)
        if thread is not None:
            self.runs.append((thread.number, thread.job, before, date))
            thread.rest -= date - before
            if thread.rest == 0:
                thread.rest = None
                self.done(thread)
                if thread.act == len(thread.task["does"]):
                    self.finish(thread)

    def done(self, thread):
        self.tell(thread, f"does {thread.act}")
        thread.act += 1

    def finish(self, thread):
        self.tell(thread, "finish")
        thread.job, thread.act = thread.job + 1, None

    def go_on(self, thread):
        if thread.act is None and thread.due is None:
            date = self.release_of(thread, thread.job)
            if date is None:
                if thread.oob:
                    thread.oob = False
                    self.ready.remove(thread)
                thread.over = True
                return
            if self.now < date:
                self.rest_until(thread, date)
            thread.due = date
        elif thread.act is None:
            thread.wait = thread.ended = thread.due = None
            self.tell(thread, "start")
            thread.act = 0
        elif thread.sleeps is not None:
            thread.wait = thread.ended = thread.sleeps = None
            self.done(thread)
        elif thread.calls:
            how, thread.calls = thread.ended, False
            thread.wait = thread.ended = None
            self.answered(thread, how)
        elif thread.act == len(thread.task["does"]):
            self.finish(thread)
        else:
            self.do(thread, thread.task["does"][thread.act])

    def answered(self, thread, answer):
        if answer == "done":
            self.done(thread)
        elif answer == "begun":
            self.tell(thread, f"begins {thread.act}")
            thread.calls = True
        else:
            self.tell(thread, f"timed_out {thread.act}" if answer == "TimedOut" else f"refused {thread.act} {answer}")
            thread.act += 1

    def do(self, thread, act):
        word, *numbers = act
        if word == "run":
            if numbers[0] == 0:
                self.done(thread)
            else:
                self.tell(thread, f"begins {thread.act}")
                thread.rest = numbers[0]
        elif word in ("sleep", "until"):
            date = numbers[0] + (self.now if word == "sleep" else self.release_of(thread, thread.job))
            if date <= self.now:
                self.done(thread)
            else:
                self.tell(thread, f"begins {thread.act}")
                self.rest_until(thread, date)
                thread.sleeps = date
        elif word == "lock":
            self.answered(thread, self.lock(thread, numbers[0]))
        elif word == "unlock":
            self.answered(thread, self.unlock(thread, numbers[0]))
        elif word == "get":
            until = None if numbers[1] is None else self.now + numbers[1]
            self.answered(thread, self.begin_get(thread, numbers[0], until))
        elif word == "put":
            self.answered(thread, self.put(numbers[0]))

    # ---- what comes of it

    def joined(self):
        """The times of computing, of which those of one job that touch are one."""
        runs = []
        for number, job, begin, end in self.runs:
            if runs and runs[-1][:2] == (number, job) and runs[-1][3] == begin:
                runs[-1] = runs[-1][:3] + (end,)
            else:
                runs.append((number, job, begin, end))
        return runs

    def own_rank(self, thread):
        return 0 if thread.task["stage"] == "inband" else 1 + thread.base

    def jobs(self):
        """Of each job (task, job): release, start, finish, preemptions, time held up by lower ranks, and whether it is late."""
        found = []
        for thread in self.threads:
            own = [e for e in self.events if e[1] == thread.number]
            started = [e[2] for e in own if e[3] == "start"]
            following = started[-1] + 1 if started else 0
            release = self.release_of(thread, following)
            numbers = started + ([following] if release is not None and release < self.now else [])
            found += [self.job_of(thread, job, [e for e in own if e[2] == job]) for job in numbers]
        return found

    def job_of(self, thread, job, events):
        release = self.release_of(thread, job)
        dates = {what: date for date, _, _, what in events if what in ("start", "finish")}
        finish = dates.get("finish")
        over = self.now if finish is None else finish
        does = thread.task["does"]
        gaps, last = 0, None
        gone = {date for date, _, _, what in events if what == "finish"
                or what.startswith("begins") and does[int(what.split()[1])][0] != "run"}
        for number, of, begin, end in self.runs:
            if (number, of) == (thread.number, job):
                if last is not None and last != begin and last not in gone:
                    gaps += 1
                last = end
        blocked = 0
        for number, _, begin, end in self.runs:
            if self.own_rank(self.threads[number - 1]) < self.own_rank(thread):
                before = [what for date, _, _, what in events if date <= begin]
                word = before[-1].split() if before else [""]
                if not (word[0] == "begins" and does[int(word[1])][0] in ("sleep", "until")):
                    blocked += max(0, min(end, over) - max(begin, release))
        by = thread.task["by"] if thread.task["by"] is not None else thread.task["every"]
        late = by is not None and release + by < over
        return (thread.number, job, release, dates.get("start"), finish, gaps, blocked, late)


# ---- texts

def duration(rng, time):
    """A time as a text has it, in one of its units."""
    ways = [f'"{time}ns"']
    for unit, size, digits in (("us", 1000, 3), ("ms", MS, 6), ("s", 1000 * MS, 9)):
        whole, rest = divmod(time, size)
        ways.append(f'"{whole}.{rest:0{digits}d}{unit}"' if rest else f'"{whole}{unit}"')
    return rng.choice(ways + [str(time)])


def act_text(rng, act):
    word, *numbers = act
    if word in ("run", "sleep", "until"):
        return f"{word} {bare(duration(rng, numbers[0]), numbers[0])}"
    if word in ("lock", "unlock"):
        return f"{word} mutex={numbers[0]}"
    if word == "get" and numbers[1] is not None:
        return f"get sem={numbers[0]} within={bare(duration(rng, numbers[1]), numbers[1])}"
    return f"{word} sem={numbers[0]}"


def bare(text, time):
    """A duration within a text has a unit."""
    return text.strip('"') if text.startswith('"') else f"{time}ns"


def text_of(rng, made):
    lines = [f'until = {duration(rng, made["until"])}'] if made["until"] is not None else []
    kinds = ", ".join(f'"{kind}"' for kind in made["mutexes"])
    lines += ["[board]", f'sems = {made["sems"]}', f"mutexes = [{kinds}]"]
    for line, sem in made["puts"].items():
        lines += ["[[setup]]", 'do = "request"', "who = 0", f"line = {line}", 'stage = "oob"', f"callback = {sem + 1}", "tag = 0"]
    for i, task in enumerate(made["tasks"]):
        lines += ["[[task]]", f'policy = "{task["policy"]}"', f'stage = "{task["stage"]}"']
        if rng.random() < 0.5:
            lines.append(f'name = "task{i}"')
        for key in ("at", "every", "by"):
            if task[key] is not None:
                lines.append(f"{key} = {duration(rng, task[key])}")
        if task["jobs"] is not None and task["every"] is not None:
            lines.append(f'jobs = {task["jobs"]}')
        acts = ", ".join(f'"{act_text(rng, act)}"' for act in task["does"])
        lines.append(f"does = [{acts}]")
    for date, line in made["interrupts"]:
        lines += ["[[interrupt]]", f"line = {line}", f"at = {duration(rng, date)}"]
    return "\n".join(lines) + "\n"


# ---- random sets

def time(rng, most):
    return rng.choice([rng.randrange(1, most + 1) * MS, rng.randrange(1, most * 1000 + 1) * 1000, rng.randrange(1, most + 1) * MS])


def make_acts(rng, sems, mutexes):
    acts, held = [], []
    for _ in range(rng.randrange(1, 7)):
        kind = rng.random()
        if kind < 0.4:
            acts.append(("run", rng.choice([0, time(rng, 4), time(rng, 4), time(rng, 2)])))
        elif kind < 0.6 and mutexes:
            mutex = rng.randrange(mutexes)
            if mutex in held and rng.random() < 0.7:
                acts.append(("unlock", mutex))
                held.remove(mutex)
            else:
                acts.append(("lock", mutex))
                held.append(mutex)
        elif kind < 0.75 and sems:
            acts.append(("get", rng.randrange(sems), rng.choice([None, 0, time(rng, 5)])))
        elif kind < 0.87 and sems:
            acts.append(("put", rng.randrange(sems)))
        elif kind < 0.94:
            acts.append(("sleep", rng.choice([0, time(rng, 4)])))
        else:
            acts.append(("until", time(rng, 8)))
    rng.shuffle(held)
    return acts + [("unlock", mutex) for mutex in held]


def make_task(rng, sems, mutexes, levels):
    prio = rng.choice(levels)
    policy = rng.choice([f"fifo {prio}", f"fifo {prio}", f"rr {prio} {time(rng, 2)}", f"weak {prio}"])
    every = rng.choice([None, time(rng, 20), time(rng, 20), time(rng, 12)])
    return {
        "policy": policy, "stage": "inband" if rng.random() < 0.15 else "oob",
        "at": rng.choice([0, 0, time(rng, 10)]), "every": every,
        "jobs": 1 if every is None else rng.choice([None, rng.randrange(0, 5)]),
        "by": rng.choice([None, None, time(rng, 15)]), "does": make_acts(rng, sems, mutexes),
    }


def make_set(rng):
    sems, mutexes = rng.randrange(0, 3), rng.randrange(0, 4)
    levels = [rng.randrange(1, 100) for _ in range(rng.randrange(1, 6))]
    puts = {5: 0} if sems and rng.random() < 0.4 else {}
    return {
        "until": time(rng, 120), "sems": [rng.randrange(0, 3) for _ in range(sems)],
        "mutexes": [rng.choice(["normal", "normal", "recursive", f"ceiling {rng.choice(levels)}"]) for _ in range(mutexes)],
        "tasks": [make_task(rng, sems, mutexes, levels) for _ in range(rng.randrange(1, 7))], "puts": puts,
        "interrupts": [(time(rng, 60), 5) for _ in range(rng.randrange(0, 6))] if puts else [],
    }
