#!/usr/bin/env python3
"""Tries the edits crates/NAME/must-not-compile/*.edit, each on a copy of the repository.

Each breaks a rule of borrowing, as keeping a slot past the borrow of its region, so it is the
compiler that must refuse it and not the prover, whom the edits in must-fail/ are for. An edit has
the same lines: `file: PATH` and then pairs of `old: TEXT`, which stands in that file exactly once,
and `new: TEXT`. Its line `says: TEXT` is what the compiler must say.

Prints a line for each edit. The exit status is 1 where one was not refused in these words. As many are tried at a
time as there are processors. One that was not refused then is tried again alone: where two copies build a library at
the same time, rt may begin with what the other has kept, and find it gone.
"""
import argparse
import concurrent.futures
import os
import pathlib
import shutil
import subprocess
import sys
import tempfile

TOP = pathlib.Path(__file__).resolve().parent.parent


def read(edit):
    """The file, the words of the compiler and the pairs of old and new text of an edit."""
    file, says, old, pairs = None, None, None, []
    for line in edit.read_text().splitlines():
        key, _, text = line.partition(": ")
        if key == "file":
            file = text
        elif key == "says":
            says = text
        elif key == "old":
            old = text
        elif key == "new":
            pairs.append((old, text))
    if not (file and says and pairs):
        sys.exit(f"{edit}: it needs lines file:, old:, new: and says:")
    return file, says, pairs


def refused(edit):
    """Whether the compiler refuses the edit in its words, and all that was said."""
    file, says, pairs = read(edit)
    with tempfile.TemporaryDirectory() as work:
        repository = pathlib.Path(work) / "repository"
        shutil.copytree(TOP, repository, ignore=shutil.ignore_patterns("out", ".git"))
        # Where a crate has a folder for what is kept, though an empty one, rt takes over nothing that another copy on
        # this machine kept of other sources. It would build the libraries over that before it looks at the edit.
        for folder in (repository / "crates").iterdir():
            (folder / "out" / "incremental").mkdir(parents=True)
        crate = repository / "crates" / edit.parent.parent.name
        path = crate / file
        text = path.read_text()
        for old, new in pairs:
            if text.count(old) != 1:
                return False, f"`{old}` stands in {file} {text.count(old)} times, and not once"
            text = text.replace(old, new)
        path.write_text(text)
        command = ["rt", "check", "--jobs", "1", "--only", ""]
        run = subprocess.run(command, cwd=crate, capture_output=True, text=True)
    said = run.stdout + run.stderr
    return run.returncode != 0 and says in said, said[-3000:]


def main():
    argparse.ArgumentParser(description=__doc__, formatter_class=argparse.RawDescriptionHelpFormatter).parse_args()
    failed = 0
    edits = sorted(TOP.glob("crates/*/must-not-compile/*.edit"))
    with concurrent.futures.ThreadPoolExecutor(len(os.sched_getaffinity(0))) as pool:
        tried = list(zip(edits, pool.map(refused, edits)))
    for edit, (good, said) in tried:
        if not good:
            good, said = refused(edit)
        name = edit.relative_to(TOP)
        print(f"refused: {name}" if good else f"NOT REFUSED AS IT MUST BE: {name}\n{said}", flush=True)
        failed += not good
    sys.exit(1 if failed else 0)


main()
