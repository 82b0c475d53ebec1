"""How much of a core a program uses while one of its tasks waits for another."""
import os
import subprocess
import sys
import time

from . import programs
from .text import aligned

CASES = {
    "receive": "a message",
    "send": "room at an edge",
    "alloc": "a buffer of a pool that is used up",
}

# For how long a task waits.
SECONDS = 3

# It should use less of a core than this.
MOST = 0.05


def once(program, case):
    """The processor time of a run, its own time, and for how long the task waited, in seconds."""
    began = time.monotonic()
    child = subprocess.Popen([program, case, str(SECONDS)], stdout=subprocess.PIPE, text=True)
    waited = child.stdout.read()
    _pid, status, usage = os.wait4(child.pid, 0)
    took = time.monotonic() - began
    child.returncode = os.waitstatus_to_exitcode(status)
    if child.returncode:
        sys.exit(f"bench: {program} {case} ended with status {child.returncode}")
    return usage.ru_utime + usage.ru_stime, took, int(waited) / 1_000


def measure(_given):
    program = programs.idle_bench()
    rows, busy = [["a task waits for", "for s", "the run, s", "processor, s", "of a core"]], []
    for case, words in CASES.items():
        used, took, waited = once(program, case)
        share = used / took
        rows.append([words, f"{waited:.2f}", f"{took:.2f}", f"{used:.3f}", f"{share:.1%}"])
        if share >= MOST:
            busy.append(words)
    text = aligned(rows) + "\n"
    (programs.OUT / "idle.txt").write_text(text)
    if busy:
        print(text)
        sys.exit(f"bench: {MOST:.0%} of a core or more were used by a task that waits for {', for '.join(busy)}")
    return text
