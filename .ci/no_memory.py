#!/usr/bin/env python3
"""Runs the tests of calls that take no memory, those of what gives its boxes back, and those of a steady state.

    python3 .ci/no_memory.py [CRATE ..]

takes the built tests of these crates, or of `CRATES`, whose names have `no_memory::`, `given_back::` or `steady::`, and
runs each under a small library that stands before the C library's. A test can't call that library. It sets marks in place of it:
`memory_marks::set` asks for a vector of a size that nothing else asks for (`MARKS`). The library knows these sizes and
refuses them, so that a mark itself lends nothing.

- From `TakesNone` to `MayTake` each allocation is refused and counted. The test fails where there is one.
- At `GivenBack` as many blocks have to be lent as at the last `Lent`. The test fails where there are more or fewer.
- From one `Window` to the next is a window, whatever the thread. Allocations and frees of all threads are counted in it,
  and none is refused. The test fails where fewer than `QUIET` of a hundred windows have none: which thread waits for
  which is the scheduler's matter, so a longer list than any before may come at any time.

A test of `no_memory::` without a pair of the first, one of `given_back::` without a pair of the second, one of
`steady::` with fewer than `WINDOWS` windows, and a crate without such a test fail too.

Prints a line for each crate, and one for each test that fails. The exit status is 1 where there is one, and 2 where a
test can't be run.
"""
import argparse
import os
import pathlib
import subprocess
import sys
import tempfile

import before_libc
import built_tests

TOP = pathlib.Path(__file__).resolve().parent.parent
SECONDS = 60
CRATES = ["chain_tests", "desk_tests", "fabric_uses", "fustrevol_tests", "inbox_tests", "link_tests", "route_uses"]
KINDS = ("no_memory::", "given_back::", "steady::")

# How many windows a test of a steady state has at least, and how many of a hundred are without an allocation or a free.
WINDOWS, QUIET = 16, 50

# As `Mark::bytes` of `memory_marks` has them.
MARKS = {"TAKES_NONE": 65521, "MAY_TAKE": 65519, "LENT": 65497, "GIVEN_BACK": 65479, "WINDOW": 65449}

LIBRARY = "".join(f"#define {name} {size}\n" for name, size in MARKS.items()) + r"""
#define _GNU_SOURCE
#include <dlfcn.h>
#include <errno.h>
#include <fcntl.h>
#include <stdio.h>
#include <stdlib.h>
#include <unistd.h>

static long none_marks, may_marks, lent_marks, back_marks, asked, first_asked, uneven, first_uneven;
static long windows, quiet;
static long lent, lent_then, calls, calls_then;
static int takes_none;

static void window(void) {
    long now = __atomic_load_n(&calls, __ATOMIC_RELAXED);
    if (windows++ && now == calls_then) quiet++;
    calls_then = now;
}

// Whether it was a mark.
static int is_mark(size_t size) {
    switch (size) {
    case TAKES_NONE: none_marks++; takes_none = 1; return 1;
    case MAY_TAKE: may_marks++; takes_none = 0; return 1;
    case LENT: lent_marks++; lent_then = lent; return 1;
    case GIVEN_BACK:
        back_marks++;
        if (lent != lent_then && !uneven++) first_uneven = lent - lent_then;
        return 1;
    case WINDOW: window(); return 1;
    }
    return 0;
}

static int is_refused(size_t size) {
    if (!takes_none) return 0;
    if (!asked++) first_asked = (long)size;
    return 1;
}

static void *counted(void *block) {
    __atomic_add_fetch(&calls, 1, __ATOMIC_RELAXED);
    if (block) __atomic_add_fetch(&lent, 1, __ATOMIC_RELAXED);
    return block;
}

static void returned(void) {
    __atomic_add_fetch(&calls, 1, __ATOMIC_RELAXED);
    __atomic_sub_fetch(&lent, 1, __ATOMIC_RELAXED);
}

#define NEXT(name) if (!next) next = dlsym(RTLD_NEXT, name)

void *malloc(size_t size) {
    static void *(*next)(size_t);
    NEXT("malloc");
    return is_mark(size) || is_refused(size) ? 0 : counted(next(size));
}

// dlsym itself may ask for a block before the next calloc is known.
extern void *__libc_calloc(size_t, size_t);
void *calloc(size_t count, size_t size) {
    return is_refused(count * size) ? 0 : counted(__libc_calloc(count, size));
}

void *realloc(void *old, size_t size) {
    static void *(*next)(void *, size_t);
    NEXT("realloc");
    if (is_refused(size)) return 0;
    void *block = next(old, size);
    if (!old) return counted(block);
    if (!block && !size) returned();
    else __atomic_add_fetch(&calls, 1, __ATOMIC_RELAXED);
    return block;
}

void *aligned_alloc(size_t alignment, size_t size) {
    static void *(*next)(size_t, size_t);
    NEXT("aligned_alloc");
    return is_refused(size) ? 0 : counted(next(alignment, size));
}

int posix_memalign(void **block, size_t alignment, size_t size) {
    static int (*next)(void **, size_t, size_t);
    NEXT("posix_memalign");
    if (is_refused(size)) return ENOMEM;
    int error = next(block, alignment, size);
    if (!error) counted(*block);
    return error;
}

void free(void *block) {
    static void (*next)(void *);
    NEXT("free");
    if (block) returned();
    next(block);
}

__attribute__((destructor)) static void tell(void) {
    const char *path = getenv("TOLD");
    int file = path ? open(path, O_WRONLY | O_CREAT | O_TRUNC, 0600) : -1;
    if (file >= 0) {
        dprintf(file, "%ld %ld %ld %ld %ld %ld %ld %ld %ld %ld", none_marks, may_marks, lent_marks, back_marks, asked,
            first_asked, uneven, first_uneven, windows, quiet);
        close(file);
    }
}

// A test ends by this call, and no destructor runs then.
void _exit(int status) {
    void (*next)(int) = dlsym(RTLD_NEXT, "_exit");
    tell();
    next(status);
    __builtin_unreachable();
}
"""


def tests_of(crate):
    """The built tests of the crate, and the names of those of the two kinds."""
    program, names = built_tests.of(crate)
    return program, [name for name in names if any(kind in name for kind in KINDS)]


def faults_of(library, program, test, told):
    """What is wrong with the test's run."""
    environment = {**os.environ, "LD_PRELOAD": str(library), "TOLD": str(told)}
    told.unlink(missing_ok=True)
    try:
        run = subprocess.run([program, test], env=environment, capture_output=True, timeout=SECONDS)
    except subprocess.TimeoutExpired:
        return [f"it had not ended after {SECONDS} seconds"]
    faults = []
    if run.returncode != 0:
        faults.append(f"status {run.returncode}: {(run.stdout + run.stderr).decode(errors='replace').strip()[-600:]}")
    if not told.exists():
        return faults + ["it told no count"]
    numbers = map(int, told.read_text().split())
    none, may, lent, back, asked, first_asked, uneven, first_uneven, windows, quiet = numbers
    if asked:
        faults.append(f"{asked} allocations where none is wanted, the first of {first_asked} bytes")
    if uneven:
        faults.append(f"blocks were not given back at {uneven} marks, {first_uneven:+} at the first")
    if windows and quiet * 100 < QUIET * (windows - 1):
        faults.append(f"{windows - 1 - quiet} of {windows - 1} windows have allocations or frees")
    if "steady::" in test and windows <= WINDOWS:
        faults.append(f"marks are missing: {windows} Window")
    if none != may or lent != back or ("no_memory::" in test and not none) or ("given_back::" in test and not back):
        faults.append(f"marks are missing: {none} TakesNone, {may} MayTake, {lent} Lent, {back} GivenBack")
    return faults


def main():
    parser = argparse.ArgumentParser(description=__doc__, formatter_class=argparse.RawDescriptionHelpFormatter)
    parser.add_argument("crates", nargs="*", help="those whose tests are run (default: all that mark calls)")
    given = parser.parse_args()
    bad = False
    with tempfile.TemporaryDirectory() as work:
        library = before_libc.compiled(LIBRARY, pathlib.Path(work))
        for name in given.crates or CRATES:
            program, tests = tests_of(TOP / "crates" / name)
            failed = 0
            for test in tests:
                faults = faults_of(library, program, test, pathlib.Path(work) / "told")
                for fault in faults:
                    print(f"FAILED: {name}: {test}: {fault}")
                failed += bool(faults)
            print(f"{name}: {len(tests)} tests, {failed} failed" if tests else f"FAILED: {name}: no such test", flush=True)
            bad = bad or bool(failed) or not tests
    sys.exit(1 if bad else 0)


main()
