"""How many bytes of memory a live buffer takes, those of the buffer and those beside it."""
import os
import subprocess

from . import programs
from .measure import Column
from .text import markdown, number
from .threads import peers_of

SIZES = [16, 64, 256, 512]

# So many bytes are lent, or few: what one buffer takes is the difference.
MANY, FEW = 3 << 20, 3 << 16


def columns():
    source = "memory_bench.cpp"
    built = programs.with_library_if_built(source)
    ours = [Column("the library", built, behind=("library",))] if built else []
    return [*peers_of(programs.threaded(source)), *ours]


def resident(column, size, count):
    env = {**os.environ, "LD_PRELOAD": column.preload}
    command = [str(column.program), str(size), str(count), *column.behind]
    ran = subprocess.run(command, env=env, stdout=subprocess.PIPE, text=True, check=True)
    return int(ran.stdout.split()[1])


def bytes_of(column, size):
    many, few = MANY // size, FEW // size
    return (resident(column, size, many) - resident(column, size, few)) / (many - few)


def measure(_given):
    every = columns()
    rows = [["bytes resident for a live buffer", *(it.name for it in every)]]
    rows += [[f"{size} bytes", *(number(bytes_of(it, size)) for it in every)] for size in SIZES]
    return markdown(rows) + "\n"
