#!/usr/bin/env python3
"""Whether the compiler still reads the benchmark's Rattle programs over the crates as they are. They are no crates of
the repository, so that the gate doesn't prove them, and a name that changes in a crate would be missed there.

Each is tried on a copy, with a function at its end whose type is wrong. That has to be the only error that the compiler
finds: it looks for errors before any proof, and stops at one, so nothing is proved and no library is built. Prints a
line for each program. The exit status is 1 where one has an error of its own."""
import argparse
import concurrent.futures
import os
import pathlib
import re
import subprocess
import sys
import tempfile

sys.dont_write_bytecode = True
TOP = pathlib.Path(__file__).resolve().parent.parent
sys.path.insert(0, str(TOP / "bench"))
from harness import programs

# How the compiler's errors begin, as in `src/main.rt:1:1: error[mismatched-types]: ..`; a module may be called `error` too.
ERROR = re.compile(r"\berror(\[[a-z-]+\])?: ")

WRONG = "\nfn no_number() -> u32 {\n    true\n}\n"


def errors(name):
    """What the compiler finds in the program, with the wrong function behind it."""
    with tempfile.TemporaryDirectory() as work:
        at = pathlib.Path(work)
        # Where a crate has a folder for what is kept, rt takes over nothing that another copy on this machine kept.
        for to in [*programs.lay_out(name, at), at / "crates" / name]:
            (to / "out" / "incremental").mkdir(parents=True)
        crate = at / "crates" / name
        with open(crate / "src/main.rt", "a") as main:
            main.write(WRONG)
        command = ["rt", "check", "--jobs", "1", "--only", ""]
        run = subprocess.run(command, cwd=crate, capture_output=True, text=True)
    return [line for line in (run.stdout + run.stderr).splitlines() if ERROR.search(line)]


def main():
    argparse.ArgumentParser(description=__doc__, formatter_class=argparse.RawDescriptionHelpFormatter).parse_args()
    failed = 0
    names = list(programs.listed(TOP / "bench/crates.txt.in"))
    with concurrent.futures.ThreadPoolExecutor(len(os.sched_getaffinity(0))) as pool:
        for name, found in zip(names, pool.map(errors, names)):
            good = len(found) == 1 and "src/main.rt" in found[0] and "mismatched-types" in found[0]
            told = "\n".join([f"DOES NOT COMPILE: bench/{name}", *found])
            print(f"compiles: bench/{name}" if good else told, flush=True)
            failed += not good
    sys.exit(1 if failed else 0)


main()
