"""What a type checker finds before anything runs: mypy has to report each line that ends with "# wrong", and no other.
Looked at by checks/embed; it is not run."""
from typing import List, Optional, Tuple

import evlsim

kernel = evlsim.Kernel(threads=2, sems=[0], xbufs=[(8, 8)], mutexes=["normal"])
kernel.put(0, semm=0)  # wrong
kernel.put("T1", sem=0)  # wrong
kernel.put(0, 0)  # wrong
kernel.pust(0, sem=0)  # wrong
kernel.claim(1, mutex=0)  # wrong
kernel.attach(1, policy="fifo 10", stage="OOB")  # wrong
kernel.read(0, xbuf=0, way="up", len=1)  # wrong
kernel.tick(0, delta=1.5)  # wrong
kernel.see_waiter("semaphore", 0)  # wrong
evlsim.Kernel(threads="2")  # wrong
evlsim.Kernel(thread=2)  # wrong
evlsim.Machine()  # wrong
evlsim.Kernel(threads=2, mutexes=[7])  # wrong
evlsim.Plan(1, (1, "post_sem", "0"))  # wrong
evlsim.play(3)  # wrong
evlsim.orders("", most="9")  # wrong
evlsim.draw(kernel, "png")  # wrong
text: str = kernel.put(0, sem=0)  # wrong
count: int = kernel.see_count(0)  # wrong
played: str = evlsim.play("[board]\nthreads = 1\n")
trace: evlsim.Trace = evlsim.play("")
plays: Tuple[evlsim.Play, ...] = kernel.arrive(0, line=5).plays
there: Optional[int] = kernel.see_count(0)
refusal: Optional[str] = kernel.put(0, sem=9).refusal
found: List[evlsim.Finding] = evlsim.check("")
outcomes: Tuple[evlsim.Outcome, ...] = evlsim.orders("").against
with evlsim.Kernel(threads=1, bank=[evlsim.Plan(1, (1, "post_sem", 0), (2, "propagate"))], strict=True) as other:
    other.write(0, xbuf=0, way="in", bytes=b"ab", who=1)  # wrong
    other.begin_get(0, sem=0, until=None)
    other.raise_(0, mutex=0)
with evlsim.Machine(threads=2, mutexes=["normal"], staxes=[1]) as machine:
    caller = machine.callers[0]
    caller.put(0, sem=0)  # wrong
    caller.put(semm=0)  # wrong
    caller.try_lock_mutex("0")  # wrong
    caller.begin_lock_mutex(0, until="never")  # wrong
    left: evlsim.Answer = caller.unlock_stax(0)
    caller.attach(policy="fifo 10", stage="oob")
    caller.finish(keep=True)
evlsim.Machine(threads=2, staxes=["1"])  # wrong
