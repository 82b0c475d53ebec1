#!/usr/bin/env python3
"""Tries edits that give functions wrong bodies, many in one check: crates/NAME/must-fail/*.edit, which the gate tries
too, and crates/NAME/wrong-bodies/*.edit, which it doesn't.

    python3 tools/wrong_bodies.py [--jobs N] [--without-answers] [CRATE[:EDIT,..] ..]

The gate tries an edit by a check of its own, so must-fail/ has those that tell most. This is for who changes a crate:
it tries all, and says by which clause each is refused. A function is proved from the contracts of those that it calls
and never from their bodies, so wrong bodies of different functions are tried together. The prover leaves out goals of
a function that calls one that isn't proved; an edit that nothing is said against is tried again without those that
were refused, with ever fewer others, and in the end alone. So is an edit of anything but bodies, such as a constant, a
definition or a law.

An edit is refused where the prover says, at a place in this function, which clause it can't prove, or refuses a proof
written by hand for this function. That shows nothing of a clause where such a proof only names what the edit took away,
and where the crate isn't proved but nothing is said of the function, as for a form that the checker doesn't cover. Such
an edit counts as a failure: give it a form that keeps the calls and turns a value. Where an open goal and such a proof
come together the line tells both: see whether the goal is false, or has only lost its proof. A crate of which out/
keeps no proofs is checked first. At most N crates at a time, and without --jobs as many as there are processors.

With --without-answers an edit of a function that has answers to goals (Answers.antt) is tried without them, so that
none of them can be what refuses it. The right body is checked without them too: what is open then says nothing of the
edit. It is refused where a goal is open that states what no open goal of the right body does; the line has what it
states, and `false` where the prover has found values at which it fails. A true one may be open, only for want of its
answer: read it. Where none but goals of the right body are open the edit counts as not shown to be refused: read
whether one of them is false by now. Where none is open, the contract lets the edit through.

Prints a line for each edit as soon as its verdict is known, and in the last line how many were refused, let through,
and not shown to be refused. The exit status is 1 where one was not refused, or not shown to be, and 2 where an edit
can't be applied, the compiler can't read it, or the libraries aren't there.
"""
import argparse
import collections
import concurrent.futures
import enum
import os
import pathlib
import re
import subprocess
import sys
import tempfile
import time

sys.path.insert(0, str(pathlib.Path(__file__).resolve().parent.parent / ".ci"))
from edits import FOLDERS, TOP, BadEdit, answered_by, batch_of, copied, lines_of, proofs_of, read, written

SAID = re.compile(r"^(?:note: )?(?:\./)?((?:src|specs|proofs)/\S+?):(\d+):\d+: (.*)")
UNPROVED = re.compile(r"(?:error: )?(?:it is not proved that|`search` found no proof)")
STALE = re.compile(r"error: .*(?:has no field|is not in scope|has no `|was not admitted)")
GOAL = re.compile(r"\(`([^`]+)`\)")
NAMED = re.compile(r"error: `([^`]+)`")
STATED = re.compile(r"^note: `([^`]+)` of (?:\./)?(proofs/\S+) must prove: (.*)", re.M)


class Verdict(enum.Enum):
    """What a check says of an edit."""

    REFUSED = "refused"
    UNSHOWN = "NOT SHOWN TO BE REFUSED"
    PASSED = "NOT REFUSED"
    BAD = "BAD EDIT"


def refusal(function, text, said):
    """What the prover says against the function, which its file has in this text: goals, proofs by hand that it
    refuses, and those of them that only name what is gone."""
    first, last = lines_of(function, text)
    proofs = proofs_of(function, text)
    goals, refused, stale = [], [], []
    for file, line, what in said:
        if file == function.file and first <= int(line) <= last and UNPROVED.match(what):
            goals.append((GOAL.search(what) or [0, what[:100]])[1])
        elif proofs.match(file) and what.startswith("error"):
            (stale if STALE.match(what) else refused).append(what[:160])
    return goals, refused, stale


def answer(edit, texts, said):
    """The verdict on an edit, and why."""
    goals, refused, stale = [], [], []
    for function in edit.functions:
        for all_of_it, more in zip((goals, refused, stale), refusal(function, texts[function.file], said)):
            all_of_it += more
    gone = f"a proof names what the edit took away: {stale[0]}" if stale else ""
    if goals:
        return Verdict.REFUSED, "; ".join(filter(None, [f"not proved: {', '.join(dict.fromkeys(goals))}", gone]))
    if refused:
        names = dict.fromkeys(it[1] for it in map(NAMED.match, refused) if it)
        return Verdict.REFUSED, "; ".join(filter(None, [f"no proof fits: {', '.join(names)}: {refused[0]}", gone]))
    if stale:
        return Verdict.UNSHOWN, gone
    return Verdict.PASSED, "nothing is said of it"


def check_of(folder):
    """The command that checks the crate in this folder: with its tests, where all its modules are read for them alone."""
    root = next(it for it in (folder / "src" / "lib.rt", folder / "src" / "main.rt") if it.is_file()).read_text()
    is_read = re.search(r"(?<!#\[cfg\(test\)\]\n)^(?:pub )?mod ", root, re.M)
    return ["rt", "check", *([] if is_read else ["--test"])]


def said_of(folder):
    """What a check of the crate in this folder says at places of its files, or None and all that it says where it
    didn't reach the prover."""
    run = subprocess.run([*check_of(folder), "--jobs", "1"], cwd=folder, capture_output=True, text=True)
    told = run.stdout + run.stderr
    is_tried = re.search(r"^logic=(not-)?proved", told, re.M)
    return [it.groups() for it in map(SAID.match, told.splitlines()) if it] if is_tried else None, told


def alone(edit, said, told):
    """The verdict on an edit that was tried alone, where nothing is said against a function of its, and why."""
    if said is None:
        return Verdict.BAD, told[-600:]
    if not re.search(r"^logic=not-proved", told, re.M):
        return Verdict.PASSED, "the crate is proved"
    if edit.functions:
        return Verdict.UNSHOWN, "the crate is not proved, but nothing is said of the function that it changes"
    return Verdict.REFUSED, next((what[:160] for _, _, what in said if "error" in what or UNPROVED.match(what)), "")


def next_size(size, batch, is_any_found):
    """How many edits are tried together next: half as many where nothing was found of these."""
    return size if is_any_found else max(1, len(batch) // 2)


def tried(crate, edits, tell):
    """Tells for each edit of the crate the verdict and why, as soon as it is found. Returns how many checks it took."""
    waiting, checks = list(edits), 0
    with tempfile.TemporaryDirectory(prefix="wrong-bodies-") as room:
        folder = copied(crate, pathlib.Path(room))
        size = len(waiting)
        while waiting:
            batch = batch_of(waiting)[:size]
            texts = written(folder, batch)
            said, told = said_of(folder)
            checks += 1
            found = [(edit, *answer(edit, texts, said or [])) for edit in batch]
            found = [it for it in found if it[1] is not Verdict.PASSED]
            found = found or [(it, *alone(it, said, told)) for it in batch if len(batch) == 1]
            size = next_size(size, batch, found)
            tell(found)
            done = {edit for edit, _, _ in found}
            waiting = [it for it in waiting if it not in done and it not in batch] + [it for it in batch if it not in done]
    return checks


def left_open(edit, texts, said, told):
    """What this check left open of the edit's functions: the name of each goal, what it states, as far as that is told,
    and whether the prover knows it to be false; the proofs by hand that only name what is gone; and whether goals of
    one were left out, since it calls a function that isn't proved."""
    false = {it[1] for _, _, what in said if "is false" in what for it in [GOAL.search(what)] if it}
    goals, gone, is_partial = {}, [], False
    for function in edit.functions:
        proofs = proofs_of(function, texts[function.file])
        stated = {name: what for name, file, what in STATED.findall(told) if proofs.match(file)}
        names, refused, stale = refusal(function, texts[function.file], said)
        goals |= {name: (stated.get(name, ""), name in false) for name in names + refused}
        gone += stale
        is_partial |= re.search(rf"^fn \S*::{function.name}: no proof: .*it calls", told, re.M) is not None
    return goals, gone, is_partial


def compared(right, wrong, gone):
    """The verdict on an edit where these goals are open of the right body and of the wrong one, both without answers,
    and why."""
    # what some goals state isn't told: they are known by their names
    own = {name: (what, is_false) for name, (what, is_false) in wrong.items()
           if name not in right or what and right[name][0] not in ("", what)}
    each = [f"{name}{' (false)' if is_false else ''}: {what[:300]}" for name, (what, is_false) in (own or wrong).items()]
    if own:
        return Verdict.REFUSED, f"open without answers: {'; '.join(each)}"
    if wrong or gone:
        return Verdict.UNSHOWN, f"open without answers, as of the right body: {'; '.join(each + gone[:1])}"
    return Verdict.PASSED, "nothing is open without answers"


def tried_without(crate, edits, tell):
    """As `tried`, with the answers to goals of the edits' functions left out."""
    waiting, checks = list(edits), 0
    with tempfile.TemporaryDirectory(prefix="wrong-bodies-") as room:
        folder = copied(crate, pathlib.Path(room))
        size, rights = len(waiting), {}
        while waiting:
            batch = batch_of(waiting)[:size]
            functions = frozenset().union(*(it.functions for it in batch))
            left_out = answered_by(crate, functions)
            if functions not in rights:
                rights[functions] = written(folder, (), left_out), *said_of(folder)
                checks += 1
            texts, said, told = written(folder, batch, left_out), *said_of(folder)
            checks += 1
            found = [(it, Verdict.BAD, told[-600:]) for it in batch if said is None and len(batch) == 1]
            for edit in batch if said is not None else ():
                right, _, is_part = left_open(edit, *rights[functions])
                wrong, gone, is_part_of_wrong = left_open(edit, texts, said, told)
                if len(batch) == 1 or not is_part and not is_part_of_wrong:
                    found.append((edit, *compared(right, wrong, gone)))
            size = next_size(size, batch, found)
            tell(found)
            done = {edit for edit, _, _ in found}
            waiting = [it for it in waiting if it not in done and it not in batch] + [it for it in batch if it not in done]
    return checks


def main():
    parser = argparse.ArgumentParser(description=__doc__.split("\n", maxsplit=1)[0])
    parser.add_argument("--jobs", type=int, default=len(os.sched_getaffinity(0)))
    parser.add_argument("--without-answers", action="store_true")
    parser.add_argument("crates", nargs="*", metavar="CRATE[:EDIT,..]")
    given = parser.parse_args()
    wanted = {}
    for name, _, names in (it.partition(":") for it in given.crates):
        wanted.setdefault(name, set()).update(filter(None, names.split(",")))
    of_crate, bad = collections.defaultdict(list), 0
    for path in sorted(it for folder in FOLDERS for it in TOP.glob(f"crates/*/{folder}/*.edit")):
        crate = path.parent.parent.name
        if wanted and (crate not in wanted or wanted[crate] and path.stem not in wanted[crate]):
            continue
        try:
            of_crate[crate].append(read(path))
        except BadEdit as why:
            print(f"{crate}/{path.name}: BAD EDIT: {why}")
            bad += 1
    if bad:
        return 2
    began, verdicts = time.monotonic(), collections.Counter()
    # what a check keeps is what the copies are tried over
    for line in (TOP / "crates.txt").read_text().splitlines():
        name = line.partition(":")[0].partition(" ")[0]
        if name in of_crate and not (TOP / "crates" / name / "out" / "incremental").is_dir():
            folder = TOP / "crates" / name
            subprocess.run(check_of(folder), cwd=folder, capture_output=True, check=True)

    def tell(found):
        for edit, verdict, why in found:
            print(f"{edit.crate}/{edit.name}: {verdict.value}: {why}", flush=True)
            verdicts[verdict] += 1

    size = lambda name: sum(it.stat().st_size for it in (TOP / "crates" / name).rglob("*.*tt"))
    with concurrent.futures.ThreadPoolExecutor(given.jobs) as pool:
        runs = []
        for crate in sorted(of_crate, key=size, reverse=True):
            bare = [it for it in of_crate[crate] if given.without_answers and answered_by(crate, it.functions)]
            others = [it for it in of_crate[crate] if it not in bare]
            ways = (tried, others), (tried_without, bare)
            runs += [pool.submit(way, crate, some, tell) for way, some in ways if some]
        checks_in_all = sum(run.result() for run in concurrent.futures.as_completed(runs))
    seconds = time.monotonic() - began
    others = "".join(f", {verdicts[it]} {it.value}" for it in Verdict if it is not Verdict.REFUSED and verdicts[it])
    counts = f"{verdicts[Verdict.REFUSED]} of {verdicts.total()} wrong bodies refused{others}"
    print(f"{counts}, in {checks_in_all} checks and {seconds:.0f} seconds")
    return 2 if verdicts[Verdict.BAD] else 0 if verdicts[Verdict.REFUSED] == verdicts.total() else 1


if __name__ == "__main__":
    sys.exit(main())
