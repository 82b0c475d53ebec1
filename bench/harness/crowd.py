"""Buffers that are handed over among 2 to 64 threads, of three sizes: the C library of ../c beside the allocators that
a program would take instead."""
import statistics

from . import programs
from .measure import Column
from .text import markdown, number
from .threads import measured_by_turns, mempools_of, peers_of, pool_rows, ratio

THREADS = [2, 4, 8, 16, 32, 64]
LOOPS = ["prodcons", "ring"]
SIZES = {"64": "64 bytes", "512": "512 bytes", "mixed": "1 to 512 bytes"}

# What a row is called, by the word that the program knows.
LABELS = {
    f"{loop}{threads}/{size}": f"`{loop}`, {threads} threads, {words}"
    for loop in LOOPS for size, words in SIZES.items() for threads in THREADS
}
MANY = {f"{loop}{threads}/{size}": threads for loop in LOOPS for size in SIZES for threads in THREADS}

# The columns of the library with the word by which the program knows them, and which mempool does the same.
OURS = {"the library": "library", "in bursts": "bursts"}
ALIKE = {"the library": "mempool", "in bursts": "mempool, bulk"}

HAND_OVER = "hand-over"

# So many threads have each as many buffers in a turn as are asked for. More share as many in all.
WHOLE = 4


def library_of(source):
    """The columns of the C library, where it is built."""
    program = programs.with_library_if_built(source)
    return [Column(name, program, behind=(word,)) for name, word in OURS.items()] if program else []


def columns():
    source = "crowd_bench.cpp"
    program = programs.threaded(source)
    return Column(HAND_OVER, program, behind=("nothing",)), peers_of(program), mempools_of(source), library_of(source)


def share(workload):
    return min(1, WHOLE / MANY[workload])


def is_used_up(measured, workload, column):
    """Whether the pool once had no buffer there. Then a time says nothing."""
    pool = measured.pools.get((workload, column.name))
    return pool is not None and pool.starved > 0


def measured_rows(what, times, measured, every):
    rows = [[f"ns a buffer, {what}", *(it.name for it in every)]]
    for workload, label in LABELS.items():
        cells = ["used up" if is_used_up(measured, workload, it) else number(times[workload, it.name]) for it in every]
        rows.append([label, *cells])
    return markdown(rows)


def to(value, best):
    """A ratio, where both were measured and the hand-over hides neither."""
    return "-" if value is None or best is None or best <= 0 or value <= 0 else ratio(value, best)


def net_row(label, nets, peers, mempools, ours):
    best = min(nets[it.name] for it in peers)
    row = [label, *(number(nets[it.name]) for it in [*peers, *mempools])]
    for it in ours:
        net = nets[it.name]
        row += ["used up" if net is None else number(net), to(net, best), to(net, nets.get(ALIKE[it.name]))]
    return row


def net_rows(what, times, measured, peers, mempools, ours):
    head = [f"{what}, without the hand-over", *(it.name for it in [*peers, *mempools])]
    for it in ours:
        head += [it.name, "to the best malloc", f"to {ALIKE[it.name]}"]
    rows = [head]
    for workload, label in LABELS.items():
        def net(it):
            return None if is_used_up(measured, workload, it) else times[workload, it.name] - times[workload, HAND_OVER]

        rows.append(net_row(label, {it.name: net(it) for it in [*peers, *mempools, *ours]}, peers, mempools, ours))
    return markdown(rows)


def measure(given):
    alone, peers, mempools, ours = columns()
    every = [alone, *peers, *mempools, *ours]
    measured = measured_by_turns([(workload, it) for workload in LABELS for it in every], given, share)
    times = {"median": measured.by(statistics.median), "least": measured.by(min)}
    tables = [measured_rows(what, it, measured, every) for what, it in times.items()]
    tables += [net_rows(what, it, measured, peers, mempools, ours) for what, it in times.items()]
    if ours:
        tables.append(markdown(pool_rows(measured.pools, OURS, LABELS)))
    text = "\n\n".join(tables) + "\n"
    (programs.OUT / "crowd.txt").write_text(text)
    return text
