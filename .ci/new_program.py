#!/usr/bin/env python3
"""Lays out a program in an empty folder as docs/START.md says, adds a second one, and tries both.

    python3 .ci/new_program.py [--check]

With --check it proves them too: in a minute or two where `rt run` in crates/pipeline has kept the proofs of the crates
below, and else in some twenty. The exit status is 1 where anything failed, or a program printed something else.
"""
import argparse
import pathlib
import subprocess
import sys
import tempfile

TOP = pathlib.Path(__file__).resolve().parent.parent

# A reader has every second line: 500 of "line ", one to three digits and a newline.
BYTES = 500 * 6 + 5 * 1 + 45 * 2 + 450 * 3
PRINTS = ["Some(Ok(0))", f"Some(Ok({BYTES}))", f"Some(Ok({BYTES}))", "Tally { counts: BufferCounts { allocated: 1000, "
          "freed: 1000, starved: 0, lost: 0 }, audit: Ok(()) }"]


def said(command, folder):
    """Runs the command; answers what it printed, or None where it failed."""
    ran = subprocess.run(command, cwd=folder, capture_output=True, text=True)
    if ran.returncode:
        print(f"FAILED: {' '.join(map(str, command))}\n{ran.stdout}{ran.stderr}")
        return None
    return ran.stdout.splitlines()


def stands(name, folder, is_checked):
    """Whether the program of this name can be laid out, runs as it should, and is proved where that is asked for."""
    crate = folder / "crates" / name
    if said([TOP / "tools/new-program", name, folder], TOP) is None:
        return False
    printed = said(["rt", "try"], crate)
    if printed is None or printed[: len(PRINTS)] != PRINTS:
        print(f"{name} printed {printed}")
        return False
    return not is_checked or said(["rt", "check"], crate) is not None


def main():
    parser = argparse.ArgumentParser(description="Lays out two programs, and tries them.")
    parser.add_argument("--check", action="store_true", help="proves them, too")
    is_checked = parser.parse_args().check
    with tempfile.TemporaryDirectory() as room:
        folder = pathlib.Path(room) / "mine"
        return 0 if all(stands(name, folder, is_checked) for name in ("first", "second")) else 1


if __name__ == "__main__":
    sys.exit(main())
