"""The programs that checks play."""
import os
import subprocess
import sys

TOP = os.path.dirname(os.path.dirname(os.path.dirname(os.path.abspath(__file__))))


def built(name, is_proved=True):
    """Where a program lies, built where that is due: with its proof, or, in minutes, with nothing proved."""
    how = "--path" if is_proved else "--unproved-path"
    words = [os.path.join(TOP, "tools", "built"), how, name]
    done = subprocess.run(words, stdin=subprocess.DEVNULL, stdout=subprocess.PIPE, text=True)
    if done.returncode:
        sys.exit(done.returncode)
    return done.stdout.strip()
