#!/usr/bin/env python3
"""For who changes a picture of the documents, or the crates.

Writes docs/pictures/*.svg: a buffer's journey, and which crate stands on which, as crates.txt says.

    python3 tools/pictures.py            # writes them
    python3 tools/pictures.py --check    # says which are not as they would be written; the exit status is 1 then
"""
import argparse
import pathlib
import sys

sys.dont_write_bytecode = True
TOP = pathlib.Path(__file__).resolve().parent.parent
sys.path.insert(0, str(TOP / "tools"))
from drawing import crates, journey

FOLDER = TOP / "docs" / "pictures"


def drawn():
    """The text of each picture, by the name of its file."""
    return {"journey.svg": journey.picture(), "crates.svg": crates.picture((TOP / "crates.txt").read_text())}


def stale(pictures):
    """The names of those whose files are missing, or other than they would be written."""
    kept = {path.name: path.read_text() for path in FOLDER.glob("*.svg")}
    return [name for name, text in pictures.items() if kept.get(name) != text]


def main():
    parser = argparse.ArgumentParser(description="Writes the pictures of the documents.")
    parser.add_argument("--check", action="store_true", help="write nothing; say which files are not up to date")
    given = parser.parse_args()
    pictures = drawn()
    names = stale(pictures)
    if given.check:
        for name in names:
            print(f"docs/pictures/{name} is not up to date: python3 tools/pictures.py writes it")
        print(f"{len(pictures)} pictures, {len(names)} not up to date")
        return 1 if names else 0
    FOLDER.mkdir(parents=True, exist_ok=True)
    for name in names:
        (FOLDER / name).write_text(pictures[name])
        print(f"docs/pictures/{name} is written")
    return 0


if __name__ == "__main__":
    sys.exit(main())
