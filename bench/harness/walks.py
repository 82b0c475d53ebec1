"""The calls whose time grows with a list: how long each takes for one buffer that it looks at, at several lengths."""
from argparse import Namespace

from . import programs
from .measure import Column, least
from .text import aligned, number

LENGTHS = [100, 1_000, 10_000, 100_000]
WALKS = {
    "append": "Chain::append, of the buffers that are put on top",
    "send": "Desk::batch_for a desk that owns none of its bucket",
}


def measure(given):
    desk = Column("desk", programs.desk_bench())
    rows = [["ns for one buffer of", *map(str, LENGTHS)]]
    found = {}
    for length in LENGTHS:
        plan = Namespace(rounds=given.rounds, count=length, core=given.core)
        found[length] = least([(walk, desk) for walk in WALKS], plan)
    for walk, words in WALKS.items():
        rows.append([words, *(number(found[length][walk, "desk"]) for length in LENGTHS)])
    text = aligned(rows) + "\n"
    (programs.OUT / "walks.txt").write_text(text)
    return text
