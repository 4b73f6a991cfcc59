"""Runs the callers of texts on host threads of one machine, and looks for what they are answered among the outcomes that `lab orders`
lists."""
import collections
import pathlib
import re
import subprocess

TOP = pathlib.Path(__file__).resolve().parent.parent.parent
TEXTS = [TOP / "examples" / "orders" / "steps" / f"{name}.toml" for name in ("stax_3", "both_3", "mutex_3", "deadline_4", "all_3")]
PATIENCE = 120
ANSWERS = re.compile(r"# (T\d+ -> .*)")


def listed(lab, text):
    """What callers are answered in the outcomes that are listed; the words and who is stuck are left out."""
    told = subprocess.run([lab, "orders", text], capture_output=True, text=True, check=False).stdout
    outcomes = [part.splitlines()[1:] for part in re.split(r"(?m)^(?=# outcome \d+)", told)[1:]]
    return {"\n".join(found.group(1) for found in map(ANSWERS.fullmatch, lines) if found) for lines in outcomes}


def met(races, text, runs, seed):
    """What callers were answered in so many runs on host threads, each as often as it came; none where they don't end."""
    with open(text, "rb") as given:
        try:
            done = subprocess.run([races, "race", str(runs), str(seed)], stdin=given, capture_output=True, text=True, timeout=PATIENCE, check=False)
        except subprocess.TimeoutExpired:
            return None
    if done.returncode:
        return None
    return collections.Counter(run.strip("\n") for run in done.stdout.split("end\n")[:-1])


def compare(programs, text, runs, seed):
    """A line on a text's runs, and whether each came to a listed outcome."""
    races, lab = programs
    wanted, came = listed(lab, text), met(races, text, runs, seed)
    if not wanted or came is None or sum(came.values()) != runs:
        return f"{text.stem}: no list, or runs that don't end", False
    strange = [told for told in came if told not in wanted]
    rare = min(came.values())
    line = f"{text.stem}: {runs} runs, {len(came) - len(strange)} of {len(wanted)} outcomes met, the rarest {rare} times"
    return "\n".join([line, *(f"  {came[told]} runs, and no order:\n{told}" for told in strange)]), not strange
