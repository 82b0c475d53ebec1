#!/usr/bin/env python3
"""Whether each edit of `must-fail/` and `wrong-bodies/` can still be applied: each text that it takes away stands once in
its file. Nothing is compiled or proved. Prints a line for each edit that can't, and how many there are. The exit status
is 1 where there is one.
"""
import argparse
import sys

import edits


def main():
    argparse.ArgumentParser(description=__doc__, formatter_class=argparse.RawDescriptionHelpFormatter).parse_args()
    paths = sorted(path for folder in edits.FOLDERS for path in edits.TOP.glob(f"crates/*/{folder}/*.edit"))
    bad = 0
    for path in paths:
        try:
            edits.read(path)
        except edits.BadEdit as fault:
            bad += 1
            print(f"{path.relative_to(edits.TOP)}: {fault}")
    print(f"{len(paths)} edits, {bad} can't be applied")
    sys.exit(1 if bad or not paths else 0)


if __name__ == "__main__":
    main()
