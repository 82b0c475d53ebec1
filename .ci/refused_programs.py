#!/usr/bin/env python3
"""Runs the example programs with each of their allocations refused in turn.

    python3 .ci/refused_programs.py [--most N] [NAME ..]

takes the programs of these crates, or of `PROGRAMS`. Each runs with the files args, stdin and data/ beside its src/, as
`rt ci` runs it, in a folder of its own. Where an allocation is refused it has to end by itself. It may end with status
1, or one that `ENDS_WITH` has for it, and words on standard error. With status 0 it has to print what it prints
where there is memory, except a program in `GOES_ON`: it prints a tally, which tells how many buffers there were, and
that the audit had no memory.

With `--most N` at most N allocations of a program are refused, spread evenly. The programs are the built ones,
`crates/NAME/out/NAME`, which `rt ci` and `rt run` leave. Prints a line for each program, and one for each refusal that
one doesn't bear. The exit status is 1 where there is one, and 2 where a program isn't built.
"""
import argparse
import concurrent.futures
import os
import pathlib
import shutil
import subprocess
import sys
import tempfile
import time

import before_libc
from refused_memory import LIBRARY, spread

TOP = pathlib.Path(__file__).resolve().parent.parent
SECONDS = 60
PROGRAMS = ["first_pool", "line_search", "pipeline", "example_decoder", "example_shipper"]
GOES_ON = {"first_pool", "pipeline"}
ENDS_WITH = {"example_decoder": (1, 3)}


def ran(crate, library, refused, folder):
    """What became of a run in which the allocation of this number is refused, and how many it asked for."""
    if (crate / "data").is_dir():
        shutil.copytree(crate / "data", folder, dirs_exist_ok=True)
    words = (crate / "args").read_text().splitlines() if (crate / "args").is_file() else []
    given = (crate / "stdin").read_bytes() if (crate / "stdin").is_file() else b""
    counted = folder / "counted"
    environment = {"LD_PRELOAD": str(library), "REFUSE": str(refused), "COUNTED": str(counted)}
    command = [crate / "out" / crate.name, *words]
    run = subprocess.run(command, cwd=folder, env=environment, input=given, capture_output=True, timeout=SECONDS)
    return run, int(counted.read_text()) if counted.exists() else 0


def fault(crate, library, refused, wanted, folder):
    """Why the program doesn't bear this refusal, or None where it does."""
    try:
        run, _ = ran(crate, library, refused, folder)
    except subprocess.TimeoutExpired:
        return f"it had not ended after {SECONDS} seconds"
    said = run.stderr.decode(errors="replace").strip()
    if run.returncode == 0 and (run.stdout == wanted or crate.name in GOES_ON):
        return None
    if run.returncode == 0:
        return f"status 0, and other output: {run.stdout.decode(errors='replace')[-300:]}"
    if run.returncode in ENDS_WITH.get(crate.name, (1,)) and said:
        return None
    return f"status {run.returncode}: {said[-300:]}"


def faults(name, library, most, work):
    """How many refusals were tried, and those that the program doesn't bear."""
    crate = TOP / "crates" / name
    first = work / name
    first.mkdir()
    run, count = ran(crate, library, 0, first)
    if run.returncode or not count:
        return 0, [f"with no refusal: status {run.returncode}, {count} allocations"]
    numbers = list(spread(count, most))

    def one(number):
        with tempfile.TemporaryDirectory(dir=work) as folder:
            return fault(crate, library, number, run.stdout, pathlib.Path(folder))

    with concurrent.futures.ThreadPoolExecutor(len(os.sched_getaffinity(0))) as pool:
        found = list(zip(numbers, pool.map(one, numbers)))
    return len(numbers), [f"allocation {number} refused: {why}" for number, why in found if why]


def main():
    parser = argparse.ArgumentParser(description=__doc__.split("\n", maxsplit=1)[0])
    parser.add_argument("--most", type=int, help="refuse at most so many allocations of a program")
    parser.add_argument("names", nargs="*", metavar="NAME", help=f"of {', '.join(PROGRAMS)}")
    asked = parser.parse_args()
    names, bad = asked.names or PROGRAMS, False
    for name in names:
        if not (TOP / "crates" / name / "out" / name).exists():
            print(f"{name} isn't built: run `rt run` in crates/{name}")
            sys.exit(2)
    with tempfile.TemporaryDirectory() as folder:
        work = pathlib.Path(folder)
        library = before_libc.compiled(LIBRARY, work)
        for name in names:
            start = time.monotonic()
            count, failed = faults(name, library, asked.most, work)
            for line in failed:
                print(f"NOT BORNE: {name}: {line}")
            verdict = f"{len(failed)} not borne" if failed else "all borne"
            print(f"{name}: {count} refusals, {verdict}, {time.monotonic() - start:.0f} s", flush=True)
            bad = bad or bool(failed)
    sys.exit(1 if bad else 0)


main()
