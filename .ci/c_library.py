#!/usr/bin/env python3
"""Builds the C library over what `rt ci` has just proved, and runs its tests: `make -C c check`.

`rt ci` checks the static library `fustrevol_c` and doesn't build it. `rt lib` would build each library below it once
more, since it takes no library of `rt ci` for its own. So this proves and builds `fustrevol_c` alone over those of
`rt ci`, by the module that `rt` itself is made of. Where that isn't as it was, it calls `rt lib`.

The exit status is that of what failed first.
"""
import argparse
import os
import pathlib
import shutil
import subprocess
import sys

TOP = pathlib.Path(__file__).resolve().parent.parent
CRATE = TOP / "crates" / "fustrevol_c"
JOBS = ["--jobs", "4"]


def kit():
    """The folder of the kit, and of its programs."""
    page = subprocess.run(["rt", "doc"], capture_output=True, text=True, check=True).stdout.split()[0]
    return pathlib.Path(page).parent


def build_over_the_gate():
    """Builds the library over those that lie in out/. The status is None where the kit has another form."""
    sys.path.insert(0, str(kit() / "bin"))
    try:
        import rtlib

        crate = rtlib.Crate(str(CRATE), str(TOP), {}, name=None)
        if not all(os.path.isdir(it.rlib) for it in crate.below()):
            return None
        crate.held = rtlib.lock([*crate.below(), crate])
        return crate.build_static(JOBS)
    except (ImportError, AttributeError, TypeError):
        return None


def main():
    argparse.ArgumentParser(description=__doc__, formatter_class=argparse.RawDescriptionHelpFormatter).parse_args()
    os.chdir(CRATE)
    (CRATE / "out").mkdir(exist_ok=True)
    status = build_over_the_gate()
    if status is None:
        status = subprocess.run(["rt", "lib", *JOBS]).returncode
    if status:
        print("the C library was not built")
        return status
    if not shutil.which("cc") or not shutil.which("make"):
        print("there is no C compiler, or no make: the C library's tests were not run")
        return 0
    return subprocess.run(["make", "-C", str(TOP / "c"), "check"]).returncode


if __name__ == "__main__":
    sys.exit(main())
