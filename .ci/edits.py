"""What an edit is that gives a function a wrong body: how it is read, which functions it changes, where the lines of
these and the proofs by hand for them are, and the copy of the repository that edits are tried in.
"""
import collections
import dataclasses
import os
import pathlib
import re
import shutil
import subprocess
import sys

TOP = pathlib.Path(__file__).resolve().parent.parent
FOLDERS = ("must-fail", "wrong-bodies")
PARTS = ("src", "specs", "proofs")
FUNCTION = re.compile(r"^( *)(?:(?:pub(?:\([a-z: ]+\))?|const|unsafe) )*fn (\w+)(.*)", re.M)
BLOCK = re.compile(r"^impl\b([^{]*)\{", re.M)


class BadEdit(Exception):
    """An edit that can't be tried."""


@dataclasses.dataclass(frozen=True)
class Function:
    """A function: its file, its name, and how many of this name stand above it in the file."""

    file: str
    name: str
    above: int


@dataclasses.dataclass(frozen=True)
class Change:
    """What an edit puts in the place of the text from `start` to `end` of a file."""

    file: str
    start: int
    end: int
    text: str


@dataclasses.dataclass(frozen=True)
class Edit:
    """A wrong body: the functions that it changes, mostly one, and its changes. One that changes anything but bodies has
    no function."""

    crate: str
    name: str
    functions: frozenset
    changes: tuple


def spans(text):
    """Each function of the text with where it and its body start and where it ends, as `rt fmt` lays it out: it ends at
    the first `}` in the column that it begins in, and its body starts behind the first `{` that ends a line of it."""
    above = collections.Counter()
    for it in FUNCTION.finditer(text):
        line = it[3].rstrip()
        closing = it.end() if line.endswith("}") else None
        if closing is None and not line.endswith(";"):
            found = re.compile(rf"^{it[1]}\}}", re.M).search(text, it.end())
            closing = found and found.end()
        body = re.compile(rf"^{it[1]}\{{$|^{it[1]}\S.* \{{$", re.M).search(text, it.start())
        if closing:
            yield it[2], above[it[2]], it.start(), body.end() if body and body.end() < closing else it.start(3), closing
        above[it[2]] += 1


def function_at(file, text, start, end):
    """The innermost function of the file whose body has all from `start` to `end`."""
    found = [Function(file, name, above) for name, above, _, body, to in spans(text) if body <= start and end <= to]
    return found[-1] if found else None


def read(path):
    """The edit in this file."""
    crate = path.parent.parent
    file, old, changes, functions = None, None, [], set()
    for line in path.read_text().splitlines():
        key, _, text = line.partition(": ")
        if key == "file":
            file = text.strip()
        elif key == "old":
            old = text
        elif key in ("new", "new:"):
            if file is None or old is None or not (crate / file).is_file():
                raise BadEdit("it has no line `file:` of a file of the crate, or no line `old:` before this `new:`")
            if old == text:
                raise BadEdit(f"`{old}` is put in its own place")
            source = (crate / file).read_text()
            if source.count(old) != 1:
                raise BadEdit(f"`{old}` stands in {file} {source.count(old)} times, and not once")
            start, same = source.index(old), len(os.path.commonprefix([old, text]))
            change = Change(file, start + same, start + len(old), text[same:])
            functions.add(function_at(file, source, change.start, change.end) if file.startswith("src/") else None)
            changes.append(change)
            old = None
        elif line.strip() and not line.startswith("#"):
            raise BadEdit(f"`{line}` is no line of `file:`, `old:` or `new:`: a change takes one line")
    if not changes:
        raise BadEdit("it has no lines `old:` and `new:`")
    return Edit(crate.name, path.stem, frozenset(() if None in functions else functions), tuple(changes))


def batch_of(edits):
    """As many of the edits, in order, as give no function two bodies, or one that changes something else."""
    batch = []
    for edit in edits:
        if edit.functions and all(edit.functions.isdisjoint(other.functions) for other in batch):
            batch.append(edit)
    return batch or edits[:1]


def place_of(function, text):
    """Where the function starts and ends in this text of its file."""
    for name, above, start, _, end in spans(text):
        if (name, above) == (function.name, function.above):
            return start, end
    raise BadEdit(f"{function.file} has no function `{function.name}`")


def lines_of(function, text):
    """The first and the last line of the function in this text of its file, with the attributes above it."""
    start, end = place_of(function, text)
    first = text.count("\n", 0, start)
    lines = text.split("\n")
    while first and lines[first - 1] and not lines[first - 1].endswith(("{", "}", ";")):
        first -= 1
    return first + 1, text.count("\n", 0, end) + 1


def type_of(header):
    """The type whose block has this header, behind `impl`."""
    depth, start = 0, 0
    for at, char in enumerate(header):
        depth += (char == "<") - (char == ">" and header[at - 1] not in "-=")
        if depth == 0 and not char.isspace():
            start = at + (char == ">")
            break
    named = re.split(r"\bfor\b", re.split(r"\bwhere\b", header[start:])[0])[-1]
    return re.search(r"\b[A-Z]\w*", named)[0]


def proofs_of(function, text):
    """What the paths of proofs by hand for this function look like: they lie below its type's module, or its own."""
    start, _ = place_of(function, text)
    block = [it for it in BLOCK.finditer(text, 0, start)][-1:]
    if block and re.compile(r"^}", re.M).search(text, block[0].end(), start) is None:
        return re.compile(rf"proofs/(?:\w+/)*{type_of(block[0][1])}(?:[A-Z]\w*)?/{function.name}/")
    module = function.file.removeprefix("src/").removesuffix(".rt")
    return re.compile(rf"proofs/{'' if module in ('lib', 'main') else f'{module}/'}{function.name}/")


def copied(crate, room):
    """A copy of the repository in which only this crate's own files are new, and the others are links."""
    def link(source, target):
        try:
            os.link(source, target)
        except OSError:
            shutil.copy2(source, target)

    for name in ("crates.txt", "HANDLES"):
        shutil.copy2(TOP / name, room / name)
    subprocess.run(["git", "init", "-q", room], check=True)
    for folder in sorted((TOP / "crates").iterdir()):
        unread = [*FOLDERS, "must-not-compile", "rlib" if folder.name == crate else "incremental"]
        shutil.copytree(folder, room / "crates" / folder.name, ignore=shutil.ignore_patterns(*unread),
                        copy_function=shutil.copy2 if folder.name == crate else link)
    return room / "crates" / crate


def answered_by(crate, functions):
    """The files with answers to goals of these functions, below the crate's folder."""
    folder = TOP / "crates" / crate
    proofs = [proofs_of(it, (folder / it.file).read_text()) for it in functions]
    files = [str(it.relative_to(folder)) for it in folder.glob("proofs/**/Answers.antt")]
    return {file for file in files if any(it.match(file) for it in proofs)}


def written(folder, batch, left_out=()):
    """Gives the crate in this folder the changes of the batch, and nothing else, and takes from it the files that are
    left out; answers the texts of its files. Ends the program where a function of an edit isn't found in them."""
    texts, own = {}, TOP / "crates" / folder.name
    for path in sorted(it for part in PARTS for it in (own / part).rglob("*.*t*") if it.is_file()):
        file = str(path.relative_to(own))
        if file in left_out:
            (folder / file).unlink(missing_ok=True)
            continue
        text = path.read_text()
        changes = [change for edit in batch for change in edit.changes if change.file == file]
        for change in sorted(changes, key=lambda it: it.start, reverse=True):
            text = text[: change.start] + change.text + text[change.end :]
        if not (folder / file).exists() or (folder / file).read_text() != text:
            (folder / file).write_text(text)
        texts[file] = text
    for edit in batch:
        try:
            for function in edit.functions:
                place_of(function, texts[function.file])
        except BadEdit as why:
            sys.exit(f"{edit.crate}/{edit.name}: with this edit {why}")
    return texts
