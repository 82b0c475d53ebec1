"""How long single calls take that lend or free a buffer, where four threads hand buffers over."""
import statistics

from . import programs
from .measure import TURNS, Column
from .text import markdown, number
from .threads import Measured, mempools_of, peers_of, said, whole_blocks

LOOPS = {"prodcons4/mixed": "`prodcons`, 4 threads", "ring4/mixed": "`ring`, 4 threads"}
CALLS = ["alloc", "free"]
PARTS = ["p50", "p99", "p99.9"]

# No call is made here: what it takes to read the clock twice.
CLOCK = "the clock"


def columns():
    source = "latency_bench.cpp"
    program = programs.threaded(source)
    clock = Column(CLOCK, program, behind=("nothing",))
    # one call for a block is no single one
    mempools = [it for it in mempools_of(source) if it.name == "mempool"]
    built = programs.with_library_if_built(source)
    ours = [Column("the library", built, behind=("library",))] if built else []
    return [clock, *peers_of(program), *mempools, *ours]


def labels(workload):
    return [f"{LOOPS[workload]}: {call}, {part}" for call in CALLS for part in PARTS]


def run(column, workload, count, measured):
    _workload, *nanos, total = said(column, workload, count, TURNS)
    for label, value in zip(labels(workload), nanos, strict=True):
        measured.note(label, column, float(value), int(total))


def rows(what, times, every):
    found = [[f"ns a call, {what}", *(it.name for it in every)]]
    for workload in LOOPS:
        found += [[label, *(number(times[label, it.name]) for it in every)] for label in labels(workload)]
    return markdown(found)


def measure(given):
    every, measured = columns(), Measured()
    for _round in range(given.rounds):
        for workload in LOOPS:
            for it in every:
                run(it, workload, whole_blocks(given.count), measured)
    tables = [rows(what, measured.by(which), every) for what, which in [("median", statistics.median), ("least", min)]]
    text = "\n\n".join(tables) + "\n"
    (programs.OUT / "latencies.txt").write_text(text)
    return text
