"""The table with threads: workers of a pool, over each of the two inboxes, beside the allocators that a program would
take instead. Each thread is pinned to a core of its own."""
import os
import statistics
import subprocess
from dataclasses import dataclass, field

from . import picture, programs
from .measure import TURNS, Column
from .packages import PEERS
from .text import aligned, number

REPLACE = ["replace1", "replace2", "replace3", "replace4"]
HANDED_OVER = ["prodcons", "ring"]
WORKLOADS = [*REPLACE, *HANDED_OVER]

# Pools over each inbox, with the word by which the program knows them.
POOLS = {
    "Inbox": "inbox",
    "LinkInbox": "linked",
    "Inbox, in parcels": "inbox_parcels",
    "LinkInbox, in parcels": "linked_parcels",
}

# Each pool in C++ with the word by which the program knows it: what a pool of this shape can cost.
SHAPES = {
    "C++ boxes": "boxes",
    "C++ slots": "slots",
    "C++ magazines": "magazines",
    "C++ rings": "rings",
    "C++ parcels": "parcels",
}

# rte_mempool of DPDK, with the word by which the program knows it: buffer by buffer, and by one call for a block.
MEMPOOLS = {"mempool": "mempool", "mempool, bulk": "bulk"}

# These are measured only where buffers are handed over.
ONLY_HANDED_OVER = ["Inbox, in parcels", "LinkInbox, in parcels", "C++ parcels", *MEMPOOLS]

# Buffers are handed over so many at a time.
BLOCK = 64

# A run that takes longer is stuck.
SECONDS = 300


@dataclass
class Pool:
    """What the runs of a workload said of their pools: the most chunks that one drew, of how many, and how often no
    buffer was to be had."""

    drawn: int = 0
    chunks: int = 0
    starved: int = 0

    def note(self, starved, drawn, chunks):
        self.drawn = max(self.drawn, drawn)
        self.chunks = chunks
        self.starved += starved


@dataclass
class Measured:
    """What the runs said, by workload and column: nanoseconds for one buffer, the best turn of each run."""

    nanos: dict = field(default_factory=dict)
    sums: dict = field(default_factory=dict)
    pools: dict = field(default_factory=dict)

    def note(self, workload, column, nanos, total):
        self.nanos.setdefault((workload, column.name), []).append(nanos)
        if total is not None and self.sums.setdefault(workload, total) != total:
            raise SystemExit(f"bench: {column.name} didn't lend in {workload} what the others lent")

    def by(self, which):
        return {key: which(nanos) for key, nanos in self.nanos.items()}


@dataclass(frozen=True)
class Columns:
    peers: list
    workers: list
    shapes: list
    mempools: list
    # the loop and the hand-over alone, in C++ and in Rattle
    alone: Column
    workers_alone: Column

    def every(self):
        return [self.alone, *self.peers, *self.mempools, *self.shapes, self.workers_alone, *self.workers]

    def pairs(self):
        """Each allocator with what is subtracted from it."""
        pairs = [(it, self.alone) for it in [*self.peers, *self.mempools, *self.shapes]]
        return pairs + [(it, self.workers_alone) for it in self.workers]

    def measured_in(self, workload):
        """Those that are measured in this workload."""
        return [it for it in self.every() if workload in HANDED_OVER or it.name not in ONLY_HANDED_OVER]


def peers_of(program):
    """The columns of malloc: a program with each that is installed."""
    installed = [peer for peer in PEERS if peer.path() is not None]
    return [Column(peer.name, program, behind=("malloc",), preload=peer.path()) for peer in installed]


def mempools_of(source):
    """The columns of DPDK's mempool, where it is installed."""
    program = programs.with_mempool(source)
    return [Column(name, program, behind=(word,)) for name, word in MEMPOOLS.items()] if program else []


def columns():
    cpp, jobs = programs.threads_bench(), programs.jobs_bench()
    return Columns(
        peers=peers_of(cpp),
        mempools=mempools_of("threads_bench.cpp"),
        workers=[Column(name, jobs, behind=(word,)) for name, word in POOLS.items()],
        shapes=[Column(name, cpp, behind=(word,)) for name, word in SHAPES.items()],
        alone=Column("hand-over", cpp, behind=("nothing",)),
        workers_alone=Column("our hand-over", jobs, behind=("nothing",)),
    )


def said(column, workload, count, turns):
    """The words that a run prints."""
    env = {**os.environ, "LD_PRELOAD": f"{programs.pin()} {column.preload}"}
    command = column.command(workload, count, turns)
    ran = subprocess.run(command, env=env, stdout=subprocess.PIPE, text=True, check=True, timeout=SECONDS)
    return ran.stdout.split()


def run(column, workload, count, measured):
    _workload, nanos, total, *of_pool = said(column, workload, count, TURNS)
    if of_pool:
        pool = measured.pools.setdefault((workload, column.name), Pool())
        pool.note(*map(int, of_pool))
        if pool.starved:
            # less was lent than the others lent, so the sum isn't comparable
            total = None
    measured.note(workload, column, float(nanos), total and int(total))


def whole_blocks(count):
    """So many buffers, or a few less or more, that blocks of them are full."""
    return max(BLOCK, int(count) // BLOCK * BLOCK)


def measured_by_turns(cells, given, share=lambda _workload: 1):
    """Runs each cell, a workload and a column, in turn, as often as there are rounds. `share` is what part of the
    buffers that are asked for a thread has in a workload."""
    measured = Measured()
    for _round in range(given.rounds):
        for workload, column in cells:
            run(column, workload, whole_blocks(given.count * share(workload)), measured)
    return measured


def net_of(times, all_columns):
    """Nanoseconds without the loop and the hand-over, by workload and column."""
    return {
        workload: {
            it.name: times[workload, it.name] - times[workload, alone.name]
            for it, alone in all_columns.pairs()
            if it in all_columns.measured_in(workload)
        }
        for workload in WORKLOADS
    }


def measured_rows(what, times, all_columns):
    every = all_columns.every()
    rows = [[f"ns, {what}", *(it.name for it in every)]]
    rows += [[workload, *(number(times.get((workload, it.name))) for it in every)] for workload in WORKLOADS]
    return aligned(rows)


def ratio(value, best):
    return "-" if value is None else f"{value / best:.2f}"


def net_rows(what, nets, all_columns):
    peers, mempools = ([it.name for it in some] for some in (all_columns.peers, all_columns.mempools))
    head = [f"{what}, without the hand-over", *peers, *mempools, *SHAPES]
    for name in POOLS:
        head += [name, "to the best"]
    rows = [head]
    for workload, net in nets.items():
        best = min(net[name] for name in peers)
        row = [workload, *(number(net.get(name)) for name in [*peers, *mempools, *SHAPES])]
        for name in POOLS:
            row += [number(net.get(name)), ratio(net.get(name), best)]
        rows.append(row)
    return aligned(rows)


def scaling_rows(times, all_columns):
    """What a buffer of `replace` takes beside other threads, as a multiple of one thread's, with the loop."""
    shown = all_columns.measured_in(REPLACE[0])
    rows = [["to one thread's", *(it.name for it in shown)]]
    for workload in REPLACE[1:]:
        rows.append([workload, *(ratio(times[workload, it.name], times[REPLACE[0], it.name]) for it in shown)])
    return aligned(rows)


def pool_rows(pools, names, labels):
    """What the pools of these names said of each workload; `labels` has what a workload's row is called."""
    rows = [["most chunks drawn", *names, "of", *(f"{name}: no buffer" for name in names)]]
    for workload, label in labels.items():
        of_each = [pools.get((workload, name)) for name in names]
        drawn = ["-" if it is None else str(it.drawn) for it in of_each]
        starved = ["-" if it is None else str(it.starved) for it in of_each]
        rows.append([label, *drawn, str(of_each[0].chunks), *starved])
    return rows


def measure(given):
    all_columns = columns()
    cells = [(workload, it) for workload in WORKLOADS for it in all_columns.measured_in(workload)]
    measured = measured_by_turns(cells, given)
    times = {"median": measured.by(statistics.median), "least": measured.by(min)}
    nets = {what: net_of(it, all_columns) for what, it in times.items()}
    tables = [measured_rows(what, it, all_columns) for what, it in times.items()]
    tables += [net_rows(what, it, all_columns) for what, it in nets.items()]
    tables += [scaling_rows(times["median"], all_columns)]
    tables.append(aligned(pool_rows(measured.pools, POOLS, {it: it for it in WORKLOADS})))
    text = "\n\n".join(tables) + "\n"
    (programs.OUT / "threads.txt").write_text(text)
    names = [it.name for it in [*all_columns.peers, *all_columns.workers]]
    words = "Nanoseconds for one buffer of a thread, without the loop and the hand-over, median; shorter is better"
    (programs.OUT / "threads.svg").write_text(picture.bars(nets["median"], names, words))
    return f"{text}\nbars: {programs.OUT / 'threads.svg'}\n"
