#!/usr/bin/env python3
"""Whether each code block of a document that is said to be from a file of this repository stands in that file.

    python3 .ci/excerpts.py

Such a block stands behind a line of its own, with a path from the top of the repository and a link to that file:

    From [`crates/first_pool/src/main.rt`](../crates/first_pool/src/main.rt):

It has to be whole lines of the file, one behind the other. Indentation that all of them have in common and blanks at a
line's end don't count. In docs/GUIDE.md each block that names its language has such a line.

Prints each that is otherwise, with its document, line and file, and how many there are. The exit status is 1 where one
is, or where there is no such block at all.
"""
import argparse
import pathlib
import re
import sys
import textwrap

TOP = pathlib.Path(__file__).resolve().parent.parent
DOCUMENTS = ["README.md", "docs/*.md", "c/README.md", "bindings/rust/README.md", "crates/*/README.md"]
# Here no code is of the document's own.
GUIDE = TOP / "docs/GUIDE.md"
SOURCE = re.compile(r"From \[`([^`]+)`\]\(([^)\s]+)\):")


def plain(lines):
    """The lines without the indentation that they have in common, and without blanks at their ends."""
    return textwrap.dedent("\n".join(line.rstrip() for line in lines)).split("\n")


def stands_in(file, block):
    """Whether the lines of the block stand in the file, one behind the other."""
    wanted = plain(block)
    lines = file.read_text().splitlines()
    return any(plain(lines[at : at + len(wanted)]) == wanted for at in range(len(lines) - len(wanted) + 1))


def blocks(lines):
    """Each code block of a document: the place of its fence, and its lines."""
    fence = None
    for at, line in enumerate(lines):
        if line.startswith("```") and fence is None:
            fence = at
        elif line.startswith("```"):
            yield fence, lines[fence + 1 : at]
            fence = None


def line_before(lines, at):
    """The place of the last line ahead of this one that isn't empty, or -1."""
    return next((before for before in range(at - 1, -1, -1) if lines[before].strip()), -1)


def fault_of(page, source, block):
    """What is wrong with a block that is said to be from a file, or nothing."""
    path, link = source.groups()
    file = TOP / path
    if not file.is_file():
        return f"{path} is no file"
    if (page.parent / link).resolve() != file.resolve():
        return f"{path}: the link leads to another file"
    if not block or not stands_in(file, block):
        return f"{path} doesn't have these lines"
    return None


def looked_at(page):
    """How many blocks of a document are said to be from a file, and what is wrong: each with its line."""
    lines = page.read_text().splitlines()
    said = {at for at, line in enumerate(lines) if SOURCE.fullmatch(line.strip())}
    found, faults = 0, []
    for fence, block in blocks(lines):
        before = line_before(lines, fence)
        if before in said:
            said.remove(before)
            found += 1
            fault = fault_of(page, SOURCE.fullmatch(lines[before].strip()), block)
        else:
            fault = "no line says from which file this is" if page == GUIDE and lines[fence] != "```" else None
        if fault:
            faults.append((fence + 1, fault))
    faults += [(at + 1, f"no code block behind: {lines[at].strip()}") for at in said]
    return found, sorted(faults)


def main():
    argparse.ArgumentParser(
        description=__doc__, formatter_class=argparse.RawDescriptionHelpFormatter
    ).parse_args()
    found, lost = 0, 0
    for page in sorted(path for pattern in DOCUMENTS for path in TOP.glob(pattern)):
        count, faults = looked_at(page)
        found += count
        lost += len(faults)
        for line, fault in faults:
            print(f"{page.relative_to(TOP)}:{line}: {fault}")
    print(f"{found} code blocks are said to be from a file, {lost} faults")
    return 1 if lost or not found else 0


if __name__ == "__main__":
    sys.exit(main())
