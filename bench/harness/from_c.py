"""The C library of ../c beside the other allocators: the same loops, called as a program in C calls them."""
from . import programs
from .measure import Column, instructions, least
from .packages import PEERS, has
from .table import COUNTED, COUNTED_COLD, SHARED
from .text import aligned, number
from .threads import HANDED_OVER, measured_by_turns, peers_of, ratio

LIBRARY, BURSTS = "the library", "in bursts"


def one_thread():
    """The columns of one thread, and that of the loop alone."""
    program = programs.library_bench()
    installed = [peer for peer in PEERS if peer.path() is not None]
    peers = [Column(peer.name, program, before=("malloc",), preload=peer.path()) for peer in installed]
    return peers, Column(LIBRARY, program, before=("library",)), Column("loop", program, before=("nothing",))


def with_threads():
    """The columns where buffers are handed over, and that of the hand-over alone."""
    program = programs.library_threads_bench()
    ours = [Column(LIBRARY, program, behind=("library",)), Column(BURSTS, program, behind=("bursts",))]
    return peers_of(program), ours, Column("hand-over", program, behind=("nothing",))


def counted(peers, library, loop, workload):
    """Instructions for one buffer, without the loop: by the C library's own malloc, and by ours."""
    if not has("valgrind"):
        return None, None
    count = COUNTED_COLD if workload == "cold" else COUNTED
    alone = instructions(loop, workload, count)
    return tuple(instructions(it, workload, count) - alone for it in (peers[0], library))


def row_of(workload, nets, peers, counts):
    """A row: each of the others, ours, ours in bursts, and both to the best of the others."""
    best = min(nets[it.name] for it in peers)
    ours, bursts = nets[LIBRARY], nets.get(BURSTS)
    cells = [number(nets[it.name]) for it in peers] + [number(ours), ratio(ours, best)]
    return [workload, *cells, number(bursts), ratio(bursts, best), *map(number, counts)]


def measure(given):
    peers, library, loop = one_thread()
    cells = [(workload, it) for workload in SHARED for it in [loop, *peers, library]]
    times = least(cells, given)
    head = ["ns without the loop", *(it.name for it in peers), LIBRARY, "to the best", BURSTS, "to the best"]
    rows = [[*head, "instructions: glibc", LIBRARY]]
    for workload in SHARED:
        nets = {it.name: times[workload, it.name] - times[workload, loop.name] for it in [*peers, library]}
        rows.append(row_of(workload, nets, peers, counted(peers, library, loop, workload)))
    peers, ours, alone = with_threads()
    cells = [(workload, it) for workload in HANDED_OVER for it in [alone, *peers, *ours]]
    nanos = measured_by_turns(cells, given).by(min)
    for workload in HANDED_OVER:
        nets = {it.name: nanos[workload, it.name] - nanos[workload, alone.name] for it in [*peers, *ours]}
        rows.append(row_of(workload, nets, peers, (None, None)))
    text = aligned(rows)
    (programs.OUT / "from_c.txt").write_text(text + "\n")
    return text
