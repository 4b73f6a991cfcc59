"""What can be built with nothing proved, as jobs: for tools/unproved and ./test."""
import sys

sys.dont_write_bytecode = True
from jobs import TOP, Job, Outcome, command

TOOLS = f"{TOP}/tools"
# Each with the words that build it where that is due, and what it is made of. The longest is first.
BUILDS = {
    "lab": ([f"{TOOLS}/built", "--unproved-path", "lab"], []),
    "tests": ([f"{TOOLS}/unproved_tests"], []),
    "library": ([f"{TOOLS}/library", "--unproved"], []),
    "page": ([f"{TOOLS}/page", "--unproved"], ["lab"]),
    "test_hosts": ([f"{TOOLS}/built", "--unproved-path", "test_hosts"], []),
    "evl": ([f"{TOOLS}/built", "--unproved-path", "evl"], []),
}


def build(name):
    """Builds one; what isn't built is a failure, whatever the reason."""
    outcome = command(f"build_{name}", BUILDS[name][0])
    return Outcome(0, [outcome.not_run]) if outcome.not_run else outcome


def builds(names):
    """The jobs that build these, and what they are made of."""
    wanted = {it for name in names for it in (name, *BUILDS[name][1])}
    return [Job(name, lambda name=name: build(name), BUILDS[name][1], True) for name in BUILDS if name in wanted]


def program(name):
    """Where a program lies that was built so."""
    return f"{TOP}/out/unproved/tests" if name == "tests" else f"{TOP}/crates/{name}/out/unproved/{name}"
