"""Rounds of calls through Python: rounds.py ROUNDS, as bench/c/rounds.c makes them."""
import sys
import time

import evlsim


def puts(kernel, rounds):
    done = 0
    for _ in range(rounds):
        put = kernel.put(0, sem=0)
        got = kernel.try_get(0, sem=0)
        done += bool(put) and bool(got)
    return done


kernel = evlsim.Kernel(threads=2, sems=[0], flags=[0], xbufs=[(256, 256)], limit=1_000_000)
start = time.process_time()
done = puts(kernel, int(sys.argv[1]))
print(f"python, puts: {done} rounds in {(time.process_time() - start) * 1e6:.0f} us")
