"""How good the settings are that a pool of `fustrevol` chooses: the same tasks over a pool with its defaults, and over
pools with each limit and each inbox; then, where the limit and the inbox are the best, over digits of some widths."""
import os
import subprocess
from dataclasses import dataclass, field

from . import programs
from .text import aligned, number

SHAPES = ["prodcons", "ring"]
BLOCKS = [64, 1]

# How many buffers each task lends that lends any. Fewer go singly, since each hand-over may wake a thread.
BUFFERS = {64: 1_000_000, 1: 200_000}

LIMITS = [4_096, 16_384, 65_536, 262_144, 1_048_576]
INBOXES = ["linked", "queued"]
WIDTHS = [1, 2, 6]

# What the pool chooses.
DEFAULT = 0

# A default pool should take at most so many times as long as the best of the others.
MOST = 1.1

# A run that takes longer is stuck.
SECONDS = 300


@dataclass(frozen=True)
class Setting:
    limit: int = DEFAULT
    inbox: str = "default"
    width: int = DEFAULT

    def words(self):
        return [str(self.limit), self.inbox, str(self.width)]

    def named(self):
        limit = f" {kilobytes(self.limit)}" if self.limit else ""
        width = f" width {self.width}" if self.width else ""
        return f"{self.inbox}{limit}{width}"


DEFAULTS = Setting()
SETTINGS = [Setting(limit, inbox) for inbox in INBOXES for limit in [*LIMITS, DEFAULT]]


@dataclass
class Measured:
    """The least nanoseconds of a buffer, by row and setting, and where a pool was used up."""

    least: dict = field(default_factory=dict)
    sums: dict = field(default_factory=dict)
    waits: dict = field(default_factory=dict)

    def note(self, row, setting, nanos, total, waits):
        key = row, setting
        self.least[key] = min(nanos, self.least.get(key, nanos))
        self.waits[key] = max(waits, self.waits.get(key, 0))
        if self.sums.setdefault(row, total) != total:
            raise SystemExit(f"bench: with {setting.named()} other buffers were lent in {row_name(row)} than before")

    def best(self, row, settings):
        return min(settings, key=lambda it: self.least[row, it])


def row_name(row):
    shape, block = row
    return f"{shape}, in parcels of {block}" if block > 1 else f"{shape}, one by one"


def run(program, row, setting, measured):
    shape, block = row
    env = {**os.environ, "LD_PRELOAD": str(programs.pin())}
    command = [str(program), shape, str(block), str(BUFFERS[block]), *setting.words()]
    ran = subprocess.run(command, env=env, stdout=subprocess.PIPE, text=True, check=True, timeout=SECONDS)
    nanos, total, waits = ran.stdout.split()
    measured.note(row, setting, float(nanos), int(total), int(waits))


def widths_at(setting):
    """The settings that differ from this one in the width of digits alone."""
    return [Setting(setting.limit, setting.inbox, width) for width in WIDTHS]


def kilobytes(limit):
    return f"{limit // 1_024}K" if limit else "chosen"


def limit_rows(rows, measured):
    """The times by inbox and limit."""
    lines = [["ns a buffer, by inbox and limit", *(kilobytes(limit) for limit in [*LIMITS, DEFAULT])]]
    for row in rows:
        for inbox in INBOXES:
            cells = [number(measured.least[row, it]) for it in SETTINGS if it.inbox == inbox]
            lines.append([f"{row_name(row)}, {inbox}", *cells])
    return aligned(lines)


def ratio_rows(rows, measured, widths):
    """The default beside the best of all settings; and the rows where it is beyond the bound."""
    lines, slow = [["ns a buffer", *(f"width {width}" for width in WIDTHS), "best", "with", "default", "to best"]], []
    for row in rows:
        best = measured.best(row, [*SETTINGS, *widths[row]])
        least, default = measured.least[row, best], measured.least[row, DEFAULTS]
        cells = [number(measured.least[row, it]) for it in widths[row]]
        ratio = default / least
        lines.append([row_name(row), *cells, number(least), best.named(), number(default), f"{ratio:.2f}"])
        if ratio > MOST:
            slow.append(row_name(row))
    return aligned(lines), slow


def used_up(measured):
    """Lines that say where tasks found the pool used up, and how often at most in one run."""
    return [
        f"the pool was used up: {row_name(row)}, {setting.named()}, {waits} times"
        for (row, setting), waits in measured.waits.items()
        if waits
    ]


def measure(given):
    program, measured = programs.defaults_bench(), Measured()
    rows = [(shape, block) for shape in SHAPES for block in BLOCKS]
    for _round in range(given.rounds):
        for row in rows:
            for setting in [DEFAULTS, *SETTINGS]:
                run(program, row, setting, measured)
    widths = {row: widths_at(measured.best(row, SETTINGS)) for row in rows}
    for _round in range(given.rounds):
        for row in rows:
            for setting in [DEFAULTS, *widths[row]]:
                run(program, row, setting, measured)
    ratios, slow = ratio_rows(rows, measured, widths)
    told = "a default pool takes no more than a tenth longer than the best"
    if slow:
        told = f"a default pool takes more than a tenth longer than the best: {'; '.join(slow)}"
    text = "\n".join([limit_rows(rows, measured), "", ratios, "", *used_up(measured), told]) + "\n"
    (programs.OUT / "defaults.txt").write_text(text)
    return text
