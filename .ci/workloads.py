#!/usr/bin/env python3
"""Runs each workload of `poolctl work` many times, and holds what it prints to what the workload does.

    python3 .ci/workloads.py [--times N]

Each of `prodcons`, `ring` and `replace` runs N times (200 without --times) at each of 2, 4, 16 and 64 threads: with
counts, rounds, widths of a digit, limits and regions that change from run to run, the least and the greatest of each
among them. A run has to end within a minute, with an audit that is `yes`. It frees whatever it allocated, loses
nothing, and each buffer that was asked for was allocated or is told as starved; where the region has chunks enough
for all sizes at each worker, none is. Each tenth run drops one buffer: then one is lost, and the audit names a slot
that is missing. Of a region of one chunk, no more buffers are allocated than it has slots where a cache may keep all of
its bytes, and many more where a cache may keep none.

The program is `crates/poolctl/out/poolctl`, which `rt ci` and `rt run` leave. Prints a line for each workload and
count of threads, and each run that went otherwise. The exit status is 1 where one did, and 2 with no program.
"""
import argparse
import concurrent.futures
import itertools
import os
import pathlib
import re
import subprocess
import sys
import time

PROGRAM = pathlib.Path(__file__).resolve().parent.parent / "crates" / "poolctl" / "out" / "poolctl"
SECONDS = 60
THREADS = (2, 4, 16, 64)
COUNTS = (1, 7, 16, 100, 1000)
ROUNDS = (1, 2, 5)
WIDTHS = (1, 2, 3, 4, 5, 6)
LIMITS = (0, 64, 4096, 1_048_576)
CHUNKS = (1024, 1, 64, 0)
CLASSES = 16
PLACES = 16
CHUNK = 4096

# The most slots that a chunk is cut into.
SLOTS = 256

# How many runs show how the limit is used.
TRIED = 100


def asked(workload, threads, count, rounds):
    """How many buffers the workers of a run ask for together."""
    if workload == "prodcons":
        return (threads + 1) // 2 * count
    if workload == "ring":
        return threads * count
    return threads * (PLACES + rounds * count)


def has_enough(workload, threads, count, chunks):
    """Whether each worker can have a chunk of each class, and all slots that it could have alive at a time: the
    largest class has 8 slots to a chunk."""
    alive = PLACES if workload == "replace" else count
    return chunks >= threads * (CLASSES + alive // 8)


def wrong(workload, threads, number, choice):
    """What is wrong with this run of the workload, or None."""
    count, rounds, width, limit, chunks = choice
    drops = number % 10 == 9
    options = {"threads": threads, "count": count, "rounds": rounds, "width": width, "limit": limit, "chunks": chunks,
               "seed": 7 * number}
    words = ["work", workload, *(f"--{name}={value}" for name, value in options.items()), *["--drop"] * drops]
    try:
        run = subprocess.run([PROGRAM, *words], capture_output=True, text=True, timeout=SECONDS)
    except subprocess.TimeoutExpired:
        return f"{' '.join(words)}: it had not ended after {SECONDS} seconds"
    lines = run.stdout.splitlines()
    told = dict(line.partition(" ")[::2] for line in lines)
    names = ["workload", "threads", "allocated", "freed", "starved", "lost", "audit"]
    good = [line.partition(" ")[0] for line in lines] == names and told["workload"] == workload
    if good:
        allocated, freed, starved, lost = (int(told[name]) for name in names[2:6])
        can_lose = drops and allocated > 0
        good = int(told["threads"]) == threads and freed + lost == allocated
        good = good and allocated + starved == asked(workload, threads, count, rounds)
        good = good and not (starved and has_enough(workload, threads, count, chunks))
        # where a region is used up, worker 0 may have had no buffer to drop
        if lost:
            good = good and can_lose and lost == 1 and run.returncode == 1 and re.fullmatch(r"missing \d+\.\d+", told["audit"])
        else:
            good = good and not (drops and not starved) and run.returncode == 0 and told["audit"] == "yes"
    return None if good else f"{' '.join(words)}: status {run.returncode}: {run.stdout!r} {run.stderr!r}"


def ignored_limit():
    """What is wrong with how the limit is used, or None. A producer may end before anything comes home, by the schedule,
    so a run in which much is posted is looked for among many."""
    def allocated(limit):
        words = ["work", "prodcons", "--threads=2", "--count=100000", "--chunks=1", f"--limit={limit}"]
        run = subprocess.run([PROGRAM, *words], capture_output=True, text=True, timeout=SECONDS)
        return int(re.search(r"^allocated (\d+)$", run.stdout, re.MULTILINE)[1])

    kept = max(allocated(CHUNK) for _run in range(TRIED))
    posted = itertools.takewhile(lambda count: count <= SLOTS, (allocated(0) for _run in range(TRIED)))
    if kept > SLOTS:
        return f"of one chunk {kept} buffers, where a cache may keep all of its bytes"
    if len(list(posted)) == TRIED:
        return f"of one chunk never more than {SLOTS} buffers in {TRIED} runs, where a cache may keep none"
    return None


def main():
    parser = argparse.ArgumentParser(description="Runs each workload of `poolctl work` many times.")
    parser.add_argument("--times", type=int, default=200, help="runs of each workload at each count of threads")
    times = parser.parse_args().times
    if not PROGRAM.exists():
        print(f"{PROGRAM} is not there: `rt ci`, or `rt run` in crates/poolctl, makes it")
        return 2
    failed = 0
    choices = list(itertools.product(COUNTS, ROUNDS, WIDTHS, LIMITS, CHUNKS))
    with concurrent.futures.ThreadPoolExecutor(len(os.sched_getaffinity(0))) as pool:
        for workload, threads in itertools.product(("prodcons", "ring", "replace"), THREADS):
            start = time.monotonic()
            # a step that shares no divisor with their number takes the choices in a mixed order, each once
            turns = [(number, choices[number * 389 % len(choices)]) for number in range(times)]
            said = [it for it in pool.map(lambda turn: wrong(workload, threads, *turn), turns) if it]
            for line in said:
                print(f"NOT AS IT SHOULD BE: {line}")
            print(f"{workload} with {threads} threads: {times} runs, {len(said)} failed, "
                  f"{time.monotonic() - start:.0f} s", flush=True)
            failed += len(said)
    if said := ignored_limit():
        print(f"NOT AS IT SHOULD BE: {said}")
        failed += 1
    return 1 if failed else 0


if __name__ == "__main__":
    sys.exit(main())
