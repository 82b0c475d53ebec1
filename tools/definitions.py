#!/usr/bin/env python3
"""Counts what a reader of a contract has to know: the definitions that its clauses reach.

    python3 tools/definitions.py CRATE FILE NAME..

takes the public function NAME of `crates/CRATE/src/FILE` (or those of several names, counted together), the names in
its clauses, and follows them through the `ghost use` and `use` lines into the `specs/` of the crates of this
repository. `NAME:CLAUSE` takes the clause of that name alone. The kit's words are known to a reader and not counted,
nor are the types of the code, the fields of a record, and what a definition binds.

Prints how many definitions are reached and how many lines they have, then the files with their counts. With
`--list` it prints each definition.
"""
import collections
import pathlib
import re
import sys

TOP = pathlib.Path(__file__).resolve().parent.parent
CRATES = {path.name for path in (TOP / "crates").iterdir() if path.is_dir()}
WORD = re.compile(r"[^\s(){}\[\],;.:λ→×⟦⟧\"]+")
START = re.compile(r"^(?:abbrev |unfoldable )?(?:pub )?(?:abbrev |unfoldable )?(?:(data|record) )?([^\s:({,]+)(?=[\s:({])")


def without_comments(text):
    return "\n".join(line for line in text.splitlines() if not line.lstrip().startswith(("--", "//")))


def imports(text, word):
    """The names that the lines `use` or `ghost use` of a text bring in: name here, file of specs/ and name there."""
    found = {}
    for match in re.finditer(rf"^\s*(?:pub )?{word} Rattle\.(\w+)\.([\w.]+?)(?:\.\{{([^}}]*)\}})?(?: as (\w+))?;?\s*$", text, re.M):
        crate, path, names, other = match.groups()
        if crate not in CRATES or not path.startswith("specs.") or ".declared" in path:
            continue
        file = TOP / "crates" / crate / "/".join(path.split(".")[:1] + path.split(".")[1:])
        for name in (names or "").split(","):
            there, _, here = (part.strip() for part in name.partition(" as "))
            if there:
                found[here or there] = (file.with_suffix(".antt"), there)
    return found


def definitions(text):
    """The definitions of a file of specs/: name, lines and the names that stand in them."""
    found, name = {}, None
    for line in without_comments(text).splitlines():
        if not line.strip():
            continue
        if line[0].isspace() or line[0] in "})]":
            if name:
                found[name].append(line)
            continue
        match = START.match(line)
        if not match or line.startswith(("use ", "pub use ", "pub mod ", "module ", "unfolding ")):
            name = None
            continue
        kind, first = match.groups()
        signed = re.match(r"^(?:abbrev |unfoldable |pub |data |record )+", line)
        if signed:
            name = first
            found.setdefault(name, [])
        elif first in found:
            name = first
        elif " : " in line:
            name = first
            found.setdefault(name, [])
        if name:
            found[name].append(line)
    return found


FILES = {}


def read(path):
    """The imports and the definitions of a file of specs/."""
    if path not in FILES:
        text = path.read_text() if path.exists() else ""
        FILES[path] = (imports(without_comments(text), "use"), definitions(text))
    return FILES[path]


def free_words(name, lines):
    """The words of a definition that may name another one: none that it binds, and no field."""
    text = re.sub(r"(?<=[\w)\]])\.\w+", "", "\n".join(lines))
    bound = {word for names in re.findall(r"[({]([\w ]+) : ", text) for word in names.split()}
    bound |= {word for names in re.findall(r"λ ([\w ]+)\.", text) for word in names.split()}
    bound |= set(re.findall(r"^ +pub (\w+) : ", text, re.M)) | set(re.findall(r"(\w+) = ", text))
    for line in lines[1:]:
        if line.startswith(name + " ") and " = " in line:
            bound |= set(re.findall(r"\w+", line.partition(" = ")[0]))
    return [word for word in WORD.findall(text) if word not in bound and word != name]


def clauses(path, name):
    """The clauses of the function's contract, or the one that is named behind a colon."""
    text = without_comments(path.read_text())
    name, _, label = name.partition(":")
    match = re.search(rf"\bfn {re.escape(name)}\b", text)
    if not match:
        sys.exit(f"{path}: there is no function {name}")
    at = match.end()
    end = re.search(r"\n\s*\{\}?\n", text[at:])
    head = text[at : at + end.start()] if end else text[at:]
    every = re.split(r"\n(?=\s*(?:requires|ensures)\b)", head)[1:]
    if label:
        every = [clause for clause in every if re.match(rf"\s*(?:requires|ensures) {re.escape(label)} ", clause)]
        if not every:
            sys.exit(f"{path}: {name} has no clause {label}")
    return "\n".join(every)


def reached(path, names):
    """All definitions that the clauses of these functions reach."""
    text = without_comments(path.read_text())
    known = imports(text, "ghost use")
    found, left = set(), []
    for name in names:
        for word in WORD.findall(clauses(path, name)):
            if word in known:
                left.append(known[word])
    while left:
        file, name = left.pop()
        uses, own = read(file)
        if (file, name) in found or name not in own:
            if name not in own and name in uses:
                left.append(uses[name])
            continue
        found.add((file, name))
        for word in free_words(name, own[name]):
            if word in own:
                left.append((file, word))
            elif word in uses:
                left.append(uses[word])
    return found


def main():
    words = [word for word in sys.argv[1:] if word != "--list"]
    if len(words) < 3:
        sys.exit(__doc__)
    crate, file, names = words[0], words[1], words[2:]
    found = reached(TOP / "crates" / crate / "src" / file, names)
    count, files = 0, collections.Counter()
    for path, name in found:
        lines = len(read(path)[1][name])
        count += lines
        files[path.relative_to(TOP / "crates")] += 1
    print(f"{crate}, {' '.join(names)}: {len(found)} definitions, {count} lines")
    for path, number in sorted(files.items()):
        print(f"  {number:3} {path}")
        if "--list" in sys.argv:
            for name in sorted(name for at, name in found if at.relative_to(TOP / "crates") == path):
                print(f"        {name}: {len(read(TOP / 'crates' / path)[1][name])}")


main()
