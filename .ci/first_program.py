#!/usr/bin/env python3
"""Whether the first Rattle code of the README is the program `first_pool`, to the letter, and at most 40 lines long.

Prints one line. The exit status is 1 where it is another, or longer."""
import argparse
import pathlib
import re
import sys

TOP = pathlib.Path(__file__).resolve().parent.parent
MOST_LINES = 40

argparse.ArgumentParser(description=__doc__, formatter_class=argparse.RawDescriptionHelpFormatter).parse_args()

shown = re.search(r"^```rust\n(.*?)^```$", (TOP / "README.md").read_text(), re.M | re.S)
program = (TOP / "crates/first_pool/src/main.rt").read_text()
lines = program.count("\n")
same = shown is not None and shown[1] == program
print(f"README's first program: {'that of the crate' if same else 'ANOTHER'}, {lines} lines")
sys.exit(0 if same and lines <= MOST_LINES else 1)
