"""Traces of a million lines: `poolctl replay` beside a C program that reads the same lines, parses them and writes as
many answers."""
import resource
import subprocess

from . import programs
from .measure import pinned
from .text import aligned, number

LINES = 1_000_000
KINDS = ["pairs", "replace", "remote", "mesh", "nothing"]

# The kind whose requests are refused. A trace of another kind knows in which order slots come home, so where that
# changes its requests are refused.
REFUSED = "nothing"


def trace(kind):
    """A trace of this kind, made once."""
    path = programs.OUT / f"{kind}.trace"
    if not path.exists():
        with open(path, "w") as file:
            subprocess.run([programs.HERE / "replay" / "traces.py", kind, str(LINES)], stdout=file, check=True)
    return path


def check(poolctl, path):
    """Stops where a request of the trace is refused."""
    with open(path, "rb") as file:
        report = subprocess.run([poolctl, "replay"], stdin=file, stdout=subprocess.PIPE, check=True).stdout
    if b"\nR" in report:
        raise SystemExit(f"bench: the pool refuses a request of {path.name}")


def seconds(command, path, core):
    """The processor time of a run."""
    def used():
        usage = resource.getrusage(resource.RUSAGE_CHILDREN)
        return usage.ru_utime + usage.ru_stime

    before = used()
    quiet = {"stdout": subprocess.DEVNULL, "stderr": subprocess.DEVNULL}
    with open(path, "rb") as file:
        subprocess.run(command, stdin=file, check=True, preexec_fn=pinned(core), **quiet)
    return used() - before


def measure(given):
    poolctl = programs.poolctl()
    commands = {"parse": [programs.parse()], "poolctl": [poolctl, "replay"]}
    traces = {kind: trace(kind) for kind in KINDS}
    for kind in KINDS:
        if kind != REFUSED:
            check(poolctl, traces[kind])
    rounds = max(3, given.rounds // 4)
    least = {}
    for _round in range(rounds):
        for kind, path in traces.items():
            for name, command in commands.items():
                took = seconds(command, path, given.core)
                least[kind, name] = min(took, least.get((kind, name), took))
    rows = [["ns for one line", *commands, "ratio"]]
    for kind in KINDS:
        both = [least[kind, name] / LINES * 1e9 for name in commands]
        rows.append([kind, *map(number, both), f"{both[1] / both[0]:.2f}"])
    text = aligned(rows) + f"\nleast processor time of {rounds} runs of {LINES} lines\n"
    (programs.OUT / "replay.txt").write_text(text)
    return text
