"""The road that users take: three stages over `fustrevol` with real hand-over, beside the same stages over each of the
other allocators with a bounded queue of blocks under a lock. Nothing is subtracted."""
import os
import statistics
import subprocess

from . import programs
from .packages import PEERS
from .text import aligned

BLOCKS = [64, 1]

# Fewer go singly, since each hand-over may wake a thread.
PACKETS = {64: 1_000_000, 1: 200_000}

SECONDS = 300


def once(program, block, preload):
    command = [str(program), str(PACKETS[block]), str(block)]
    env = {**os.environ, "LD_PRELOAD": preload}
    ran = subprocess.run(command, env=env, stdout=subprocess.PIPE, text=True, check=True, timeout=SECONDS)
    _block, intact, nanos = ran.stdout.split()
    if int(intact) != PACKETS[block]:
        raise SystemExit(f"bench: {program} lost packets: {ran.stdout}")
    return float(nanos)


def measure(given):
    cpp, ours = programs.road(), programs.road_bench()
    columns = [(peer.name, cpp, peer.path()) for peer in PEERS if peer.path() is not None]
    columns.append(("this pool", ours, ""))
    nanos = {}
    for _round in range(given.rounds):
        for block in BLOCKS:
            for name, program, preload in columns:
                nanos.setdefault((block, name), []).append(once(program, block, preload))
    rows = [["ns a packet: least, median", *(name for name, _program, _preload in columns), "to the best"]]
    for block in BLOCKS:
        leasts = {name: min(nanos[block, name]) for name, _program, _preload in columns}
        best = min(least for name, least in leasts.items() if name != "this pool")
        cells = [f"{leasts[name]:.0f}, {statistics.median(nanos[block, name]):.0f}" for name in leasts]
        rows.append([f"in blocks of {block}" if block > 1 else "one by one", *cells, f"{leasts['this pool'] / best:.2f}"])
    text = aligned(rows)
    (programs.OUT / "road.txt").write_text(text + "\n")
    return text
