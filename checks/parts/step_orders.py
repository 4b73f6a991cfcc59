"""Counts the orders of callers' atomic steps on staxes and mutexes by itself, and compares them with a report of `lab orders`.

Words are plain numbers here, written again by the pages CALLERS_TEXT and ORDERS: a stax's word has how many hold it in its
low half, bit 30 for the stage of the last ones in and bit 31 for the mark; a mutex's has one more than its owner's number.
Nobody claims in a text, so no mark is ever set; and nobody waits, so the kernel refuses each `finish`, in a visit."""
import collections
import re
import subprocess

OOB = 1 << 30
HOLDERS = 0xFFFF
COUNTS = re.compile(r"# (\d+) orders?, (\d+) outcomes?, (\d+) moments?")
OUTCOME = re.compile(r"# outcome \d+: (\d+) orders?")
TURN = re.compile(r"T(\d+) (\w+)")
STEP = re.compile(r"# T(\d+) step (\d+): (.*)")
PART = re.compile(r"(.+?) in (\d+) orders?(?:, |$)")


class Text:
    """Callers on their stages, with their calls: word, key, number and name; or of a `finish` its `keep`, and how it takes the core."""

    def __init__(self, staxes, mutexes, callers):
        self.staxes, self.mutexes, self.callers = staxes, mutexes, callers

    def written(self):
        """The text of callers."""
        kinds = ", ".join(['"normal"'] * self.mutexes)
        lines = [f"[board]\nthreads = {len(self.callers)}\nstaxes = {self.staxes}\nmutexes = [{kinds}]"]
        for who, (stage, calls) in enumerate(self.callers):
            if stage == "oob":
                lines.append(f'[[setup]]\ndo = "attach"\nwho = {who}\npolicy = "fifo 10"\nstage = "oob"')
        for who, (stage, calls) in enumerate(self.callers):
            for do, key, number, name in calls:
                lines.append(f'[[step]]\ndo = "{do}"\nwho = {who}')
                if key == "keep":
                    lines += [f"keep = {number}".lower()] + [f"lasts = {name}".lower()] * (name is not None)
                else:
                    lines.append(f'pass = "{name}"' if key == "pass" else f'{key} = {number}\nas = "{name}"')
        return "\n".join(lines) + "\n"

    def first(self):
        """The state before any step: words, who holds each, where each caller stands, how many of its calls are over, its answers, and
        who has the core."""
        none = (False,) * len(self.callers)
        words = tuple((0, none) for _ in self.staxes), tuple((0, none) for _ in range(self.mutexes))
        return words + ((None,) * len(self.callers), (0,) * len(self.callers), ((),) * len(self.callers), None)

    def refusal(self, stax, word, stage):
        """Why a word of a stax lets nobody of this stage in, if it doesn't."""
        if word & HOLDERS and (word & OOB != 0) != (stage == "oob"):
            return "Again"
        return "Limit" if word & HOLDERS >= self.staxes[stax] else None

    def at_stax(self, who, stage, call, place, word, held):
        """A turn at a stax: the step, the word and who holds it then, and the place or the answer."""
        do, _, stax, _ = call
        if do == "unlock_stax":
            return ("leave", word - 1, False, None, "done") if held else ("refused", word, held, None, "NotOwner")
        if held:
            return "refused", word, held, None, "Busy"
        refusal = self.refusal(stax, word, stage)
        if place is None:
            return "look", word, held, None if refusal else word, refusal
        if place != word:
            return "exchange", word, held, None, refusal or "Raced"
        return "exchange", (word & HOLDERS) + 1 + OOB * (stage == "oob"), True, None, "pass"

    def at_mutex(self, who, stage, call, word, held):
        """And one at a mutex."""
        if call[0] == "unlock_mutex_fast":
            return ("unlock", 0, False, None, "done") if held else ("refused", word, held, None, "NotOwner")
        if stage != "oob" or held:
            return "refused", word, held, None, "Deadlock" if stage == "oob" else "WrongStage"
        return ("try", word, held, None, "Busy") if word else ("try", who + 1, True, None, "pass")

    def at_word(self, who, call, words, place):
        """A turn at a stax or mutex: the step, the words behind it, and the place or the answer."""
        if call[2] >= len(words):
            return "refused", words, None, "Unknown"
        word, held = words[call[2]]
        if call[0].endswith("stax"):
            step, word, holds, place, answer = self.at_stax(who, self.callers[who][0], call, place, word, held[who])
        else:
            step, word, holds, place, answer = self.at_mutex(who, self.callers[who][0], call, word, held[who])
        return step, changed(words, call[2], (word, changed(held, who, holds))), place, answer

    def at_core(self, who, call, core, holds):
        """One of a `finish`: the step, who has the core then, and the answer; none where another has the core, for which it waits."""
        _, _, keep, lasts = call
        if core == who:
            return "give", None, "Invalid"
        if keep != holds:
            return "refused", core, "Invalid"
        if core is not None:
            return ("refused", core, "CoreBusy") if lasts is False else None
        return ("refused", core, "Invalid") if lasts is None else ("take", who, None)

    def turn(self, state, who):
        """A caller's next turn, and the state behind it; none where its calls are over, or it waits for the core."""
        staxes, mutexes, places, made, answers, core = state
        calls, place = self.callers[who][1], None
        if made[who] == len(calls):
            return None
        call = calls[made[who]]
        if call[0] == "finish":
            turn = self.at_core(who, call, core, any(held[who] for _, held in staxes + mutexes))
            if turn is None:
                return None
            step, core, answer = turn
        elif call[0].endswith("stax"):
            step, staxes, place, answer = self.at_word(who, call, staxes, places[who])
        else:
            step, mutexes, place, answer = self.at_word(who, call, mutexes, None)
        if answer is not None:
            made, answers = changed(made, who, made[who] + 1), changed(answers, who, answers[who] + (answer,))
        return step, (staxes, mutexes, changed(places, who, place), made, answers, core)

    def told(self, state):
        """What is reported of a state at the end."""
        staxes, mutexes, _, _, answers, _ = state
        lines = ["# T%d -> %s" % (who, " -> ".join(said)) for who, said in enumerate(answers) if said]
        for number, (word, _) in enumerate(staxes):
            lines.append(f"# stax {number}: {'oob' if word & OOB else 'inband'}, held by {word & HOLDERS}")
        for number, (word, _) in enumerate(mutexes):
            lines.append(f"# mutex {number}: " + (f"T{word - 1}" if word else "free"))
        return "\n".join(lines)


def changed(items, place, item):
    return items[:place] + (item,) + items[place + 1 :]


def counted(text):
    """How many orders lead to each outcome, and how many moments there are."""
    level, ends, moments = {text.first(): 1}, collections.Counter(), 0
    while level:
        moments += len(level)
        after = collections.Counter()
        for state, count in level.items():
            turns = [turn for turn in (text.turn(state, who) for who in range(len(text.callers))) if turn]
            for _, behind in turns:
                after[behind] += count
            if not turns:
                ends[text.told(state)] += count
        level = after
    return ends, moments


def led(text, order):
    """What is told where an order of a report leads, of turns by callers with their steps; none where it doesn't."""
    state = text.first()
    for who, step in order:
        turn = text.turn(state, int(who))
        if turn is None or turn[0] != step:
            return None
        state = turn[1]
    is_over = not any(text.turn(state, who) for who in range(len(text.callers)))
    return text.told(state) if is_over else None


def random_text(dice):
    """Two or three callers, each with two to four calls, by names that it has given, or not."""
    staxes, mutexes, callers = [dice.choice([1, 2]) for _ in range(dice.choice([1, 1, 2]))], dice.choice([0, 1, 1, 2]), []
    for _ in range(dice.choice([2, 2, 3])):
        calls, names = [], {}
        while len(calls) < dice.choice([2, 3, 4]):
            if dice.random() < 0.2:
                calls.append(("finish", "keep", dice.random() < 0.3, dice.choice([None, True, False])))
                continue
            if names and dice.random() < 0.5:
                name = dice.choice(sorted(names))
                calls.append(("unlock_stax" if names[name][0] == "stax" else "unlock_mutex_fast", "pass", names[name][1], name))
                continue
            key = "mutex" if mutexes and dice.random() < 0.5 else "stax"
            number, name = dice.randrange(mutexes if key == "mutex" else len(staxes)), f"{key[0]}{dice.choice('ab')}"
            calls.append((f"try_lock_{key}", key, number, name))
            names[name] = (key, number)
        callers.append((dice.choice(["inband", "oob", "oob"]), calls))
    return Text(staxes, mutexes, callers)


def answers_of(text, wanted):
    """In how many orders each call has each answer, or isn't made, by what is told of the outcomes."""
    counts = collections.Counter()
    for told, count in wanted.items():
        for who, (_, calls) in enumerate(text.callers):
            line = re.search(rf"(?m)^# T{who}( -> .*)$", told)
            answers = line.group(1).split(" -> ")[1:] if line else []
            for n in range(len(calls)):
                counts[who, n + 1, answers[n] if n < len(answers) else "not made"] += count
    return counts


def other_answers(command, text, wanted):
    """Where `--answers` differs from that, as lines."""
    done = subprocess.run(command + ["--answers"], input=text.written(), capture_output=True, text=True, check=False)
    found = collections.Counter()
    for line in done.stdout.splitlines()[1:]:
        who, step, parts = STEP.fullmatch(line).groups()
        for answer, count in PART.findall(parts):
            found[int(who), int(step), answer] += int(count)
    return [] if found == answers_of(text, wanted) else [f"other answers of calls:\n{done.stdout}"]


def compare(command, text):
    """Where the report of a text differs from what is counted here, as lines."""
    done = subprocess.run(command, input=text.written(), capture_output=True, text=True, check=False)
    if done.returncode:
        return [f"status {done.returncode}: {done.stderr.strip()}"]
    wanted, moments = counted(text)
    counts = tuple(map(int, COUNTS.match(done.stdout).groups()))
    faults = [] if counts == (sum(wanted.values()), len(wanted), moments) else [f"{counts}, and not {sum(wanted.values()), len(wanted), moments}"]
    found = {}
    for part in re.split(r"(?m)^(?=# outcome )", done.stdout)[1:]:
        lines = part.splitlines()
        told = "\n".join(lines[1:-1])
        found[told] = int(OUTCOME.match(lines[0]).group(1))
        if led(text, TURN.findall(lines[-1])) != told:
            faults.append(f"{lines[-1]} doesn't lead to\n{told}")
    faults += other_answers(command, text, wanted)
    return faults + [f"{found.get(told)} orders, and not {wanted[told]}, lead to\n{told}" for told in {**wanted, **found} if found.get(told) != wanted.get(told)]
