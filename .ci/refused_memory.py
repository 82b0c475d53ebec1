#!/usr/bin/env python3
"""Runs tests with each of their allocations refused in turn, until a run meets no refusal.

    python3 .ci/refused_memory.py [--most N] [CRATE[:WORD,..] ..]

takes the tests of these crates, or of all that have some; behind a colon those whose names have one of the words.
A test has to hold whichever one of its allocations is refused: it ends by itself, and what it compares is as it has
to be. Of a crate in `WRITTEN_FOR_IT` only the tests with these words are written so, and of one in
`NOT_WRITTEN_FOR_IT` none; the others compare what comes out where there is memory. With `--most N` at most N
allocations of a test are refused, spread evenly. Of the tests in `DEEP` only a part is ever refused.

The tests are the built ones, `crates/NAME/out/NAME_tests`, which `rt ci` and `rt test` leave; where a crate has none,
or one that is older than its sources, `rt test` makes it first. A small library that stands before the C library's
refuses the allocation.

Prints a line for each crate, and one for each refusal that a test doesn't bear. The exit status is 1 where there is
one, and 2 where a test can't be run.
"""
import argparse
import concurrent.futures
import os
import pathlib
import subprocess
import sys
import tempfile
import time

import before_libc
import built_tests

TOP = pathlib.Path(__file__).resolve().parent.parent
SECONDS = 60
WRITTEN_FOR_IT = {
    "fabric_uses": "given_back::,memory::",
    "fustrevol_tests": "refused::",
    "inbox_tests": "deep::,dropped::,given_back::,order::,users::",
    "jobs_uses": "refused::,words::",
    "link_tests": "deep::,dropped::,given_back::,half::,no_memory::,nodes::,order::,users::",
    "trace_uses": "growing,each_slot_once,the_least_fault_is_named,the_number_is_not_enough",
}
NOT_WRITTEN_FOR_IT = {"work_tests"}

# These show that a list of 102,400 or 204,800 buffers takes no depth of the stack. Each buffer is a box of its own,
# made by the same call as the one before, so refusing each in turn would take hours and look at one step again and
# again. In place of all, the first `DEEP_FIRST` allocations are refused and `DEEP_SPREAD` spread evenly over all.
DEEP = {
    "chain_tests": "long::,a_long_list",
    "desk_tests": "deep::",
    "inbox_tests": "deep::",
    "link_tests": "deep::",
}
DEEP_FIRST = 100
DEEP_SPREAD = 100

# Counts the allocations, and answers none for the one whose number is in REFUSE. At the end it tells the count.
LIBRARY = r"""
#define _GNU_SOURCE
#include <dlfcn.h>
#include <stdio.h>
#include <stdlib.h>
#include <fcntl.h>
#include <unistd.h>

static unsigned long count, refused;

__attribute__((constructor)) static void start(void) {
    const char *text = getenv("REFUSE");
    refused = text ? strtoul(text, 0, 10) : 0;
    count = 0;
}

static int is_refused(void) { return __atomic_add_fetch(&count, 1, __ATOMIC_RELAXED) == refused; }

void *malloc(size_t size) {
    static void *(*next)(size_t);
    if (!next) next = dlsym(RTLD_NEXT, "malloc");
    return is_refused() ? 0 : next(size);
}

void *realloc(void *old, size_t size) {
    static void *(*next)(void *, size_t);
    if (!next) next = dlsym(RTLD_NEXT, "realloc");
    return is_refused() ? 0 : next(old, size);
}

__attribute__((destructor)) static void tell(void) {
    const char *path = getenv("COUNTED");
    int file = path ? open(path, O_WRONLY | O_CREAT | O_TRUNC, 0600) : -1;
    if (file >= 0) {
        dprintf(file, "%lu", count);
        close(file);
    }
}

// A test ends by this call, and no destructor runs then.
void _exit(int status) {
    void (*next)(int) = dlsym(RTLD_NEXT, "_exit");
    tell();
    next(status);
    __builtin_unreachable();
}
"""


def ran(library, program, test, refused, counted):
    """Why the test doesn't bear this refusal, None where it does, and how many allocations it asked for."""
    environment = {**os.environ, "LD_PRELOAD": str(library), "REFUSE": str(refused), "COUNTED": str(counted)}
    try:
        run = subprocess.run([program, test], env=environment, capture_output=True, timeout=SECONDS)
    except subprocess.TimeoutExpired:
        return f"it had not ended after {SECONDS} seconds", refused
    asked = int(counted.read_text()) if counted.exists() else None
    counted.unlink(missing_ok=True)
    if run.returncode != 0:
        said = (run.stdout + run.stderr).decode(errors="replace").strip()
        return f"status {run.returncode}: {said[-600:]}", refused
    return ("it told no count of its allocations", refused) if asked is None else (None, asked)


def spread(count, most):
    """The numbers from 1 to count, or `most` of them."""
    if most is None or count <= most:
        return range(1, count + 1)
    return sorted({1 + turn * (count - 1) // max(1, most - 1) for turn in range(most)})


def chosen(count, most, is_deep):
    """The numbers of the allocations to refuse, of so many."""
    if most is None and is_deep:
        return sorted({*range(1, min(count, DEEP_FIRST) + 1), *spread(count, DEEP_SPREAD)})
    return spread(count, most)


def tried(library, program, test, most, is_deep, counted):
    """How many refusals were tried, and those that the test doesn't bear."""
    why, count = ran(library, program, test, 0, counted)
    if why:
        return 0, [f"{test}, with no refusal: {why}"]
    failed, numbers, turn = [], list(chosen(count, most, is_deep)), 0
    while turn < len(numbers):
        why, asked = ran(library, program, test, numbers[turn], counted)
        if why:
            failed.append(f"{test}, allocation {numbers[turn]} refused: {why}")
        # behind a refusal a test may ask for more than it does without one
        if most is None and not is_deep:
            numbers.extend(range(count + 1, asked + 1))
            count = max(count, asked)
        turn += 1
    return len(numbers), failed


def main():
    parser = argparse.ArgumentParser(description="Runs tests with each of their allocations refused in turn.")
    parser.add_argument("--most", type=int, help="refuse at most so many allocations of a test")
    parser.add_argument("crates", nargs="*", help="names of crates; none: all that have tests")
    asked = parser.parse_args()
    with_tests = {path.parent.parent.name for path in (TOP / "crates").glob("*/src/tests.rt")}
    names = asked.crates or sorted(with_tests - NOT_WRITTEN_FOR_IT)
    bad = False
    with tempfile.TemporaryDirectory() as work:
        library = before_libc.compiled(LIBRARY, pathlib.Path(work))
        for name in names:
            start = time.monotonic()
            name, _, words = name.partition(":")
            words = [word for word in (words or WRITTEN_FOR_IT.get(name, "")).split(",") if word]
            program, tests = built_tests.of(TOP / "crates" / name)
            tests = [test for test in tests if not words or any(word in test for word in words)]
            deep = [test for test in tests if name in DEEP and any(word in test for word in DEEP[name].split(","))]
            with concurrent.futures.ThreadPoolExecutor(len(os.sched_getaffinity(0))) as pool:
                jobs = [
                    pool.submit(
                        tried, library, program, test, asked.most, test in deep, pathlib.Path(work) / f"{name}-{place}"
                    )
                    for place, test in enumerate(tests)
                ]
                ended = [job.result() for job in jobs]
            failed = [line for _, lines in ended for line in lines]
            for line in failed:
                print(f"NOT BORNE: {name}: {line}")
            count, seconds = sum(count for count, _ in ended), time.monotonic() - start
            verdict = f"{len(failed)} not borne" if failed else "all borne"
            part = f" (a part of {', '.join(deep)})" if deep else ""
            print(f"{name}: {len(tests)} tests, {count} refusals{part}, {verdict}, {seconds:.0f} s", flush=True)
            bad = bad or bool(failed)
    sys.exit(1 if bad else 0)


if __name__ == "__main__":
    main()
