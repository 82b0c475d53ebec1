"""The example programs end to end: each beside the same program in C++ over each of the allocators, on the same input.

A further program is one more entry of EXAMPLES."""
import json
import shutil
import subprocess
import sys
from dataclasses import dataclass
from pathlib import Path
from typing import Callable

from . import programs, shipper, traffic
from .packages import PEERS
from .text import aligned

# How many bytes an input has at least.
INPUT = 250_000_000

SECONDS = 300


@dataclass(frozen=True)
class Example:
    """A program with its twin: how its input is made, what is set and to what, the words of both for a setting, and
    what has to be the same in what they print."""

    name: str
    twin: str
    make: Callable
    settings: tuple
    set: str
    ours: Callable
    theirs: Callable
    counted: Callable


def decoded(text):
    """What a decoder counted, of what either program prints as JSON."""
    got = json.loads(text)
    of = lambda count: count["bytes"] if isinstance(count, dict) else count
    protocols = {name: of(count) for name, count in got["protocols"].items()}
    return got["packets"], got["bytes"], got["flows"], protocols, [of(flow) for flow in got["top"]]


def capture(file):
    traffic.write(file, INPUT)


EXAMPLES = [
    Example(
        name="example_decoder",
        twin="decoder.cpp",
        make=capture,
        settings=(1, 2),
        set="decoders",
        ours=lambda file, decoders: [file, "--json", "--decoders", str(decoders)],
        theirs=lambda file, decoders: [file, str(decoders)],
        counted=decoded,
    ),
    Example(
        name="example_shipper",
        twin="shipper.cpp",
        make=shipper.make,
        settings=(1, 2, 4),
        set="parsers",
        ours=lambda file, parsers: [file, "--parsers", str(parsers)],
        theirs=lambda file, parsers: [file, str(parsers)],
        counted=shipper.counted,
    ),
]


@dataclass
class Run:
    """What runs of a program took at least."""

    seconds: float = float("inf")
    processor: float = float("inf")
    kilobytes: float = float("inf")

    def note(self, other):
        self.seconds = min(self.seconds, other.seconds)
        self.processor = min(self.processor, other.processor)
        self.kilobytes = min(self.kilobytes, other.kilobytes)


def usage():
    source = programs.HERE / "cpp" / "usage.cpp"
    return programs.compiled("usage", [source], ["g++", "-std=c++17", "-O2", "-Wall", "-Wextra", source])


def command(program, words, preload):
    return of_path(["env", f"LD_PRELOAD={preload}", program, *words] if preload else [program, *words])


def once(program, words, preload):
    """What a run took whose output goes nowhere."""
    told = programs.OUT / "usage.txt"
    ran = subprocess.run([usage(), told, *command(program, words, preload)], stdout=subprocess.DEVNULL, timeout=SECONDS)
    if ran.returncode:
        sys.exit(f"bench: {program} ended with status {ran.returncode}")
    return Run(*map(float, told.read_text().split()))


def agree(example, file, setting, program, peer_program):
    """Ends all where the program and its twin print different things."""
    both = [(program, example.ours), (peer_program, example.theirs)]
    told = [subprocess.run(command(it, words(file, setting), ""), stdout=subprocess.PIPE, check=True, timeout=SECONDS).stdout
            for it, words in both]
    if example.counted(told[0]) != example.counted(told[1]):
        sys.exit(f"bench: {example.name} prints something else than its twin")


def of_path(command):
    """The command, with its program by its whole path."""
    return [shutil.which(command[0]), *command[1:]]


def twin(example):
    flags = ["-std=c++17", "-O2", "-Wall", "-Wextra", "-fno-builtin-malloc", "-pthread"]
    source = programs.HERE / "cpp" / example.twin
    return programs.compiled(Path(example.twin).stem, [source], ["g++", *flags, source])


def table(example, given):
    program, peer_program = programs.rattle_program(example.name, ["--help"]), twin(example)
    file = programs.WORK / f"{example.name}.input"
    example.make(file)
    size, runs = file.stat().st_size, {}
    columns = [(peer.name, peer_program, example.theirs, peer.path()) for peer in PEERS if peer.path() is not None]
    columns.append(("this pool", program, example.ours, ""))
    for setting in example.settings:
        agree(example, file, setting, program, peer_program)
    for _round in range(given.rounds):
        for setting in example.settings:
            for name, path, words, preload in columns:
                runs.setdefault((setting, name), Run()).note(once(path, words(file, setting), preload))
    rows = [[f"{example.name}, {size / 1e6:.0f} MB", *(name for name, *_ in columns), "to the best"]]
    for setting in example.settings:
        of = lambda name: runs[setting, name]
        peers = [name for name, *_ in columns if name != "this pool"]
        for word, number, form in [
            ("MB/s", lambda run: size / 1e6 / run.seconds, "{:.0f}"),
            ("processor s", lambda run: run.processor, "{:.2f}"),
            ("peak MB", lambda run: run.kilobytes / 1024, "{:.1f}"),
        ]:
            best = (max if word == "MB/s" else min)(number(of(name)) for name in peers)
            cells = [form.format(number(of(name))) for name, *_ in columns]
            rows.append([f"{example.set}: {setting}, {word}", *cells, f"{number(of('this pool')) / best:.2f}"])
    return aligned(rows)


def measure(given):
    text = "\n\n".join(table(example, given) for example in EXAMPLES)
    (programs.OUT / "programs.txt").write_text(text + "\n")
    return text
