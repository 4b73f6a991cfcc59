#!/usr/bin/env python3
"""Drives a machine through `lab live`: a thread waits for a semaphore, an interrupt raises it.  examples/python/drive.py"""
import os
import subprocess
from typing import List

LAB = os.path.join(os.path.dirname(os.path.dirname(os.path.dirname(os.path.abspath(__file__)))), "lab")
LAB = LAB if os.path.exists(LAB) else "lab"
machine = subprocess.Popen([LAB, "live"], stdin=subprocess.PIPE, stdout=subprocess.PIPE, text=True, bufsize=1)
assert machine.stdin and machine.stdout
to_it, from_it = machine.stdin, machine.stdout


def ask(line: str) -> List[str]:
    """The lines that answer a line: a line with # after it is answered with itself, where they end."""
    to_it.write(line + "\n#\n")
    return list(iter(lambda: from_it.readline().rstrip("\n"), "#"))


from_it.readline()
ask("T0 request line=5 stage=oob callback=1")
ask("T1 attach policy=fifo 10 stage=oob")
assert ask("T1 begin_get sem=0")[0].endswith("-> begun")
assert ask("T0 arrive line=5")[1:] == ["  line 5 oob count 1 handled"]
assert ask("T1 finish")[0].endswith("-> done")
print("\n".join(ask("scenario")))
