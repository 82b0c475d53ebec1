"""Runs of the two programs."""
import os
import re
import subprocess
from dataclasses import dataclass, field

TURNS = 3


@dataclass(frozen=True)
class Column:
    """A program with the words that stand before and behind the workload, the count and the turns; and the allocator
    that it is started with."""

    name: str
    program: str
    before: tuple = ()
    behind: tuple = ()
    preload: str = ""

    def command(self, workload, count, turns):
        return [str(self.program), *self.before, workload, str(count), str(turns), *self.behind]


@dataclass
class Times:
    """The least nanoseconds for one buffer, by workload and column."""

    least: dict = field(default_factory=dict)
    sums: dict = field(default_factory=dict)

    def note(self, workload, column, nanos, total):
        key = workload, column.name
        self.least[key] = min(nanos, self.least.get(key, nanos))
        if self.sums.setdefault(workload, total) != total:
            raise SystemExit(f"bench: {column.name} didn't lend in {workload} what the others lent")

    def __getitem__(self, key):
        return self.least[key]


def pinned(core):
    return lambda: os.sched_setaffinity(0, {core})


def run(column, workload, given):
    env = {**os.environ, "LD_PRELOAD": column.preload}
    command = column.command(workload, given.count, TURNS)
    ran = subprocess.run(command, env=env, stdout=subprocess.PIPE, text=True, check=True, preexec_fn=pinned(given.core))
    _workload, nanos, total = ran.stdout.split()
    return float(nanos), int(total)


def least(cells, given):
    """Runs each cell, a workload and a column, in turn, as often as there are rounds."""
    times = Times()
    for _round in range(given.rounds):
        for workload, column in cells:
            times.note(workload, column, *run(column, workload, given))
    return times


def instructions(column, workload, count):
    """Instructions for one buffer: the difference of two runs, of which one has twice the buffers."""
    def of_run(many):
        command = ["valgrind", "--tool=callgrind", "--callgrind-out-file=/dev/null", *column.command(workload, many, 1)]
        ran = subprocess.run(command, capture_output=True, text=True, check=True)
        return int(re.search(r"Collected : (\d+)", ran.stderr)[1])

    return (of_run(2 * count) - of_run(count)) / count
