"""The main table: one desk beside the allocators that a program would take instead, in one thread."""
from . import picture, programs
from .measure import Column, instructions, least
from .packages import PEERS, has
from .text import aligned, number

# The same loops in both programs, and those that only a desk has.
WARM = ["pair", "fifo", "replace"]
SHARED = [*WARM, "cold"]
OWN = ["remote", "remote6", "cached", "cached6"]

# Pools of this shape in C++, without checks: what the shape costs.
SHAPES = ["tagged", "pointer", "inside"]

# How many buffers instructions are counted over. No more than that come from a new desk.
COUNTED = 100_000
COUNTED_COLD = 7_000


def columns():
    cpp = programs.cpp_bench()
    desk = programs.desk_bench()
    installed = [peer for peer in PEERS if peer.path() is not None]
    peers = [Column(peer.name, cpp, before=("malloc",), preload=peer.path()) for peer in installed]
    shapes = [Column(shape, cpp, before=(shape,)) for shape in SHAPES]
    loops = Column("loop", cpp, before=("nothing",)), Column("desk's loop", desk, behind=("loop",))
    return peers, shapes, loops, Column("desk", desk)


def counted(desk, loop):
    """Instructions for one buffer, with the loop and without."""
    found = {}
    for workload in SHARED + OWN:
        count = COUNTED_COLD if workload == "cold" else COUNTED
        whole = instructions(desk, workload, count)
        found[workload] = whole, whole - instructions(loop, workload, count)
    return found


def measured_rows(times, columns):
    head = ["ns", *(it.name for it in columns)]
    rows = [[workload, *(number(times.least.get((workload, it.name))) for it in columns)] for workload in SHARED + OWN]
    return aligned([head, *rows])


def without_loop(times, workload, column, loop):
    if (workload, column.name) not in times.least:
        return None
    return times[workload, column.name] - times[workload, loop.name]


def net_rows(nets, peers, shapes, counts):
    names = [it.name for it in peers]
    shape_names = [f"({it.name})" for it in shapes]
    rows = [["ns without the loop", *names, "desk", "to the best", *shape_names, "instructions", "with the loop"]]
    for workload, net in nets.items():
        best = min((net[name] for name in names if net[name] is not None), default=None)
        ratio = "-" if best is None else f"{net['desk'] / best:.2f}"
        whole, alone = counts.get(workload, (None, None))
        of_peers, of_shapes = ([number(net[it.name]) for it in some] for some in (peers, shapes))
        rows.append([workload, *of_peers, number(net["desk"]), ratio, *of_shapes, number(alone), number(whole)])
    return aligned(rows)


def measure(given):
    peers, shapes, (cpp_loop, desk_loop), desk = columns()
    cells = [(workload, it) for workload in SHARED for it in [cpp_loop, *peers]]
    cells += [(workload, it) for workload in WARM for it in shapes]
    cells += [(workload, it) for workload in SHARED + OWN for it in (desk_loop, desk)]
    times = least(cells, given)
    counts = counted(desk, desk_loop) if has("valgrind") else {}
    nets = {}
    for workload in SHARED + OWN:
        nets[workload] = {it.name: without_loop(times, workload, it, cpp_loop) for it in [*peers, *shapes]}
        nets[workload]["desk"] = without_loop(times, workload, desk, desk_loop)
    measured = measured_rows(times, [cpp_loop, *peers, *shapes, desk_loop, desk])
    text = f"{measured}\n\n{net_rows(nets, peers, shapes, counts)}\n"
    (programs.OUT / "table.txt").write_text(text)
    bars = picture.bars({it: nets[it] for it in SHARED}, [*(it.name for it in peers), "desk"])
    (programs.OUT / "table.svg").write_text(bars)
    return f"{text}\nbars: {programs.OUT / 'table.svg'}\n"
