#!/usr/bin/env python3
"""Runs the built program `poolctl` for each row of the table of exit statuses in docs/FORMATS.md: its tests.

Compares the status, the words on standard error and what stands on standard output. Want of memory is had by a limit
on the program's memory: each limit from where the program starts to where it is done is tried, and whatever it says
must be one of the table's rows; each row must come up. Reads and writes that fail at a given call are had by a small
library that stands before the C library's.

The program is `crates/poolctl/out/poolctl`, which `rt ci` and `rt run` leave. Where it is missing, or older than a
source, `rt run` makes it first. Prints a line for each row; the exit status is 1 where one is not as it should be.
"""
import argparse
import errno
import os
import pathlib
import resource
import subprocess
import sys
import tempfile

import before_libc

TOP = pathlib.Path(__file__).resolve().parent.parent
CRATE = TOP / "crates" / "poolctl"
PROGRAM = CRATE / "out" / "poolctl"

GOOD = b"pool 1 1 2\nadopt 0 5\nclaim 0 0\nalloc 0 16\nfree 0 0.0\n"
REPORT = (
    b"ok\nchunk 0\nslot 0.0\nhome\n"
    b"desk 0 home 256 cached 0 queued 0\nend chunks 1 lent 0 home 256 cached 0 queued 0\n"
)
CUT = b"pool 1 1 2\nadopt 0 0\nclaim 0 0"
CUT_REPORT = b"ok\nR17 BadLine 3\nend chunks 0 lent 0 home 0 cached 0 queued 0\n"
TRAVEL = (
    b"ok\nok\nok\nok\nchunk 0\nchunk 1\nchunk 2\nslot 0.0\nslot 1.0\nslot 2.0\ncached\ncached\ncached\n"
    b"batch 1 3\nok\nhome 1 on 2\nbatch 2 2\nok\nhome 1 on 1\nbatch 3 1\nok\nhome 1 on 0\n"
    b"desk 7 home 8 cached 0 queued 0\ndesk 11 home 8 cached 0 queued 0\n"
    b"desk 27 home 8 cached 0 queued 0\nend chunks 3 lent 0 home 24 cached 0 queued 0\n"
)
# Each of 1,024 desks claims a chunk of class 0, so that an audit looks at every slot that a region can have.
DESKS, SLOTS = 1024, 256
WIDE = f"pool2 {DESKS} {DESKS} 1\n" + "".join(f"adopt {desk} 0\nclaim {desk} 0\n" for desk in range(DESKS))
WIDE_REPORT = "".join(
    [f"ok\nchunk {chunk}\n" for chunk in range(DESKS)]
    + [f"desk {desk} home {SLOTS} cached 0 queued 0\n" for desk in range(DESKS)]
    + [f"end chunks {DESKS} lent 0 home {DESKS * SLOTS} cached 0 queued 0\n"]
)
CLASS_ROWS = [
    (0, 16, 256, 0), (1, 32, 128, 0), (2, 48, 85, 16), (3, 64, 64, 0), (4, 80, 51, 16), (5, 96, 42, 64),
    (6, 112, 36, 64), (7, 128, 32, 0), (8, 160, 25, 96), (9, 192, 21, 64), (10, 224, 18, 64), (11, 256, 16, 0),
    (12, 320, 12, 256), (13, 384, 10, 256), (14, 448, 9, 64), (15, 512, 8, 0), (16, 640, 6, 256), (17, 768, 5, 256),
    (18, 896, 4, 512), (19, 1024, 4, 0),
]  # fmt: skip
CLASSES, CLASSES2 = (b"".join(b"%d %d %d %d\n" % row for row in CLASS_ROWS[:count]) for count in (16, 20))
# The words of a route, and the digits of both numbers and how many they share.
ROUTES = [
    ("route 2 0 27", "0 0 0", "3 2 1", 0),
    ("route 2 7 27", "3 1 0", "3 2 1", 1),
    ("route 6 5 5", "5", "5", 1),
    ("route 4 17 33", "1 1", "1 2", 1),
    ("route 1 0 32", "0 0 0 0 0 0", "0 0 0 0 0 1", 5),
    ("route 5 63 31", "31 1", "31 0", 1),
    ("route2 5 0 4095", "0 0 0", "31 31 3", 0),
    ("route2 6 65 129", "1 1", "1 2", 1),
]
# Words that are refused, and the text: all of it, but for what clap says behind every refusal.
MORE = "\n\nFor more information, try '--help'.\n"
REFUSALS = [
    (
        "",
        "error: 'poolctl' requires a subcommand but one was not provided\n"
        "  [subcommands: classes, classes2, route, route2, replay, work, help]\n\nUsage: poolctl <COMMAND>",
    ),
    (
        "reply",
        "error: unrecognized subcommand 'reply'\n\n  tip: a similar subcommand exists: 'replay'\n\n"
        "Usage: poolctl <COMMAND>",
    ),
    ("classes 3", "error: unexpected argument '3' found\n\nUsage: poolctl classes"),
    (
        "work juggle",
        "error: no workload has this name [possible values: prodcons, ring, replace]\n\n"
        "Usage: poolctl work [OPTIONS] <NAME>",
    ),
]
OUT_OF_RANGE = [
    *("route 0 0 0", "route 7 0 0", "route 2 64 0", "route2 2 0 4096", "route 2 0 x"),
    *("work ring --threads 1", "work ring --threads 65", "work ring --count 0", "work ring --count 100001"),
    *("work ring --rounds 0", "work ring --rounds 1001", "work ring --chunks 1025", "work ring --width 0"),
    *("work ring --width 7", "work ring --limit 1048577", "work ring --seed 4294967296"),
]
HELP = {
    "--help": ["Usage: poolctl <COMMAND>", "  classes   Print the size classes", "  replay    Replay a trace"],
    "replay --help": ["Usage: poolctl replay [OPTIONS]", "      --audit  Audit the pool at the end"],
}

# The stacks, in bytes, from which on `replay` and `work` do what they are to do.
REPLAY_STACK, WORK_STACK, MOST_STACK = 64 << 10, 72 << 10, 512 << 10

# Reads of standard input fail from the call FAIL_READ on, writes to standard output from FAIL_WRITE on, both with the
# error FAIL_WITH; with FAIL_ONCE that call alone fails. The file CALLED gets a letter for each such call.
LIBRARY = r"""
#define _GNU_SOURCE
#include <dlfcn.h>
#include <errno.h>
#include <fcntl.h>
#include <stdlib.h>
#include <unistd.h>

static long reads, writes;

static long number(const char *name) {
    const char *text = getenv(name);
    return text ? strtol(text, 0, 10) : 0;
}

static int fails(long *count, const char *from, const char *letter) {
    static ssize_t (*next)(int, const void *, size_t);
    if (!next) next = dlsym(RTLD_NEXT, "write");
    int file = open(getenv("CALLED"), O_WRONLY | O_CREAT | O_APPEND, 0600);
    if (file < 0 || next(file, letter, 1) != 1) abort();
    close(file);
    *count += 1;
    if (!number(from) || *count < number(from)) return 0;
    if (number("FAIL_ONCE") && *count > number(from)) return 0;
    errno = number("FAIL_WITH");
    return 1;
}

ssize_t read(int file, void *piece, size_t size) {
    static ssize_t (*next)(int, void *, size_t);
    if (!next) next = dlsym(RTLD_NEXT, "read");
    return file == 0 && fails(&reads, "FAIL_READ", "r") ? -1 : next(file, piece, size);
}

ssize_t write(int file, const void *piece, size_t size) {
    static ssize_t (*next)(int, const void *, size_t);
    if (!next) next = dlsym(RTLD_NEXT, "write");
    return file == 1 && fails(&writes, "FAIL_WRITE", "w") ? -1 : next(file, piece, size);
}
"""


def tally(name, threads, allocated, freed, starved, lost, audit):
    """What `work` prints."""
    lines = [f"workload {name}", f"threads {threads}", f"allocated {allocated}", f"freed {freed}", f"starved {starved}"]
    return "".join(f"{line}\n" for line in [*lines, f"lost {lost}", f"audit {audit}"]).encode()


failed = []


def is_fresh():
    """Whether the program is there, and younger than the sources of all that it stands on."""
    sources = [path for kind in ("src", "specs", "proofs") for path in TOP.glob(f"crates/*/{kind}/**/*") if path.is_file()]
    return PROGRAM.exists() and all(path.stat().st_mtime <= PROGRAM.stat().st_mtime for path in sources)


def ran(words, given=b"", memory=None, stack=None, more=None, **streams):
    """The status, standard output and standard error of the program with these words, in an environment with more. Where
    the stack is limited, there is no more than that in the environment, since it lies on the stack."""

    def limit():
        if memory:
            resource.setrlimit(resource.RLIMIT_AS, (memory, memory))
        if stack:
            resource.setrlimit(resource.RLIMIT_STACK, (stack, stack))

    how = {"stdin": subprocess.PIPE, "stdout": subprocess.PIPE, "stderr": subprocess.PIPE, **streams}
    environment = {**({} if stack else os.environ), **(more or {})}
    started = subprocess.Popen([PROGRAM, *words], preexec_fn=limit, cwd="/", env=environment, **how)
    out, err = started.communicate(given if how["stdin"] == subprocess.PIPE else None, timeout=120)
    return started.returncode, out, err


def tell(name, good, got):
    print(f"{'ok' if good else 'NOT AS IT SHOULD BE'}: {name}" + ("" if good else f": {got}"), flush=True)
    if not good:
        failed.append(name)


def row(name, got, status, out, err):
    """Says whether the program did what the row says. None stands for any output."""
    tell(name, got[0] == status and out in (None, got[1]) and (err(got[2]) if callable(err) else got[2] == err), got)


def closed(words, descriptor, given):
    """The same with one of its streams closed, by a shell."""
    words = ["sh", "-c", f'exec "$@" {descriptor}', "", PROGRAM, *words]
    run = subprocess.run(words, input=given, capture_output=True, timeout=120)
    return run.returncode, run.stdout, run.stderr


def is_error(text):
    return text.startswith(b"error: ") and text.endswith(b"For more information, try '--help'.\n")


def is_out_of_range(text):
    return text.startswith(b"error: invalid value") and is_error(text)


def is_help(text, parts):
    has_parts = all(part.encode() in text for part in parts)
    return b"Usage: poolctl" in text and not text.startswith(b"error: ") and has_parts


def done():
    travel = (CRATE / "data" / "travel.trace").read_bytes()
    row("0: a buffer's journey, audited", ran(["replay", "--audit"], travel), 0, TRAVEL + b"audit yes\n", b"")
    stranger, report = ((CRATE / "data" / f"stranger.{kind}").read_bytes() for kind in ("trace", "report"))
    row("0: a stranger frees a buffer", ran(["replay"], stranger), 0, report, b"")
    row("0: a whole trace", ran(["replay"], GOOD), 0, REPORT, b"")
    row("0: a whole trace, audited", ran(["replay", "--audit"], GOOD), 0, REPORT + b"audit yes\n", b"")
    wide = ran(["replay", "--audit"], WIDE.encode())
    row("0: 262,144 slots, audited", wide, 0, WIDE_REPORT.encode() + b"audit yes\n", b"")
    row("0: the classes", ran(["classes"]), 0, CLASSES, b"")
    row("0: all classes", ran(["classes2"]), 0, CLASSES2, b"")
    for words, one, other, common in ROUTES:
        text = f"digits {len(one.split())}\nfrom {one}\nowner {other}\ncommon {common}\n"
        row(f"0: {words}", ran(words.split()), 0, text.encode(), b"")


def worked():
    for words, status, text in [
        ("prodcons --threads 4 --count 1000", 0, tally("prodcons", 4, 2000, 2000, 0, 0, "yes")),
        ("prodcons --threads 2 --count 10 --drop", 1, tally("prodcons", 2, 10, 9, 0, 1, "missing 0.0")),
        ("prodcons --threads 2 --count 5 --chunks 0", 0, tally("prodcons", 2, 0, 0, 5, 0, "yes")),
        ("prodcons --threads 3 --count 7 --limit 0 --width 6", 0, tally("prodcons", 3, 14, 14, 0, 0, "yes")),
        ("replace --threads 4 --count 100 --rounds 3", 0, tally("replace", 4, 1264, 1264, 0, 0, "yes")),
        ("ring --threads 4 --count 200", 0, tally("ring", 4, 800, 800, 0, 0, "yes")),
        ("ring --threads 64 --count 20 --limit 0 --seed 4294967295", 0, tally("ring", 64, 1280, 1280, 0, 0, "yes")),
    ]:
        row(f"{status}: work {words}", ran(["work", *words.split()]), status, text, b"")
    # where memory for threads is refused, the table has a row for that too
    words, told = ["work", "ring", "--threads", "64", "--count", "1"], {}
    for limit in range(8 << 20, 800 << 20, 8 << 20):
        told[ran(words, memory=limit)[2]] = limit
    tell("1: no thread, at some limit of the memory", b"poolctl: no thread\n" in told, told)
    strange = set(told) - {b"", b"poolctl: no memory\n", b"poolctl: no thread\n"}
    tell("no limit of a workload's memory leads out of the table", not strange, strange)


def stopped():
    row("1: a bad line", ran(["replay"], CUT), 1, CUT_REPORT, b"")
    row("1: a bad line, audited", ran(["replay", "--audit"], CUT), 1, CUT_REPORT + b"audit yes\n", b"")
    row("1: a bad header", ran(["replay"], b"pool 0 1 2\n"), 1, b"R17 BadLine 1\n", b"")
    row("1: no audit behind a bad header", ran(["replay", "--audit"], b"pool 0 1 2\n"), 1, b"R17 BadLine 1\n", b"")


def refused():
    for words, text in REFUSALS:
        row(f"2: {words or 'no words'}", ran(words.split(), GOOD), 2, b"", (text + MORE).encode())
    for words in ["route 2 0", "replay --audits", "work"]:
        row(f"2: {words}", ran(words.split(), GOOD), 2, b"", is_error)
    for words in OUT_OF_RANGE:
        row(f"2: {words}", ran(words.split()), 2, b"", is_out_of_range)
    for words in ["--help", "-h", "help", "help replay", "replay --help", "work --help"]:
        parts = HELP.get(words, [])
        row(f"2: {words}", ran(words.split(), GOOD), 2, b"", lambda text: is_help(text, parts))
    row("2: a word that is no UTF-8", ran([b"\xff"]), 2, b"", b"poolctl: a word is not UTF-8\n")


def streams():
    read, write = b"poolctl: read failed\n", b"poolctl: write failed\n"
    folder = os.open("/", os.O_RDONLY)
    row("3: standard input is a folder", ran(["replay"], stdin=folder), 3, b"", read)
    row("3: standard input is closed", closed(["replay"], "<&-", b""), 3, b"", read)
    with open("/dev/full", "wb") as full:
        for words in [["replay"], ["classes"], ["route", "2", "7", "27"], ["work", "ring", "--count", "2"]]:
            row(f"3: {words[0]} to a full device", ran(words, GOOD, stdout=full), 3, None, write)
        row("3: a bad line, to a full device", ran(["replay"], CUT, stdout=full), 3, None, write)
    row("3: standard output is closed", closed(["replay"], ">&-", GOOD), 3, None, write)
    # a failed read leaves what was answered before it
    ends = os.pipe()
    os.close(ends[0])
    row("3: nobody reads standard output", ran(["classes"], stdout=ends[1]), 3, None, write)


def failing():
    """Reads and writes that fail at a given call: which calls were made, the last of them the failed one, but for a write
    that was interrupted, which is made again."""
    read, write = b"poolctl: read failed\n", b"poolctl: write failed\n"
    replies = REPORT[: REPORT.index(b"desk")]
    with tempfile.TemporaryDirectory() as folder:
        folder = pathlib.Path(folder)
        library, called = before_libc.compiled(LIBRARY, folder), folder / "called"
        for status, name, words, fails, with_error, out, err, calls in [
            (3, "the rest is written behind a failed read", ["replay"], {"READ": 2}, errno.EIO, replies, read, "rrw"),
            (3, "the rest can't be written", ["replay"], {"READ": 2, "WRITE": 1}, errno.EIO, b"", write, "rrw"),
            (3, "nothing follows a failed write", ["classes"], {"WRITE": 1}, errno.EPIPE, b"", write, "w"),
            (3, "nothing follows a failed write of a report", ["replay"], {"WRITE": 1}, errno.ENOSPC, b"", write, "rrw"),
            (0, "an interrupted write is tried again", ["classes"], {"WRITE": 1, "ONCE": 1}, errno.EINTR, CLASSES, b"", "ww"),
            (3, "an interrupted read is an error", ["replay"], {"READ": 1, "ONCE": 1}, errno.EINTR, b"", read, "r"),
        ]:
            more = {f"FAIL_{kind}": str(call) for kind, call in fails.items()}
            more |= {"FAIL_WITH": str(with_error), "LD_PRELOAD": str(library), "CALLED": str(called)}
            called.write_text("")
            row(f"{status}: {name}", ran(words, GOOD, more=more), status, out, err)
            tell(f"{status}: {name}: the calls", called.read_text() == calls, called.read_text())


def memory():
    """Whatever the limit, a row of the table is met; and each row of want of memory comes up."""
    claims = b"".join(b"claim %d 0\n" % desk for desk in range(64))
    trace = b"pool 64 64 1\n" + b"".join(b"adopt %d 0\n" % desk for desk in range(64)) + claims
    whole = ran(["replay", "--audit"], trace)
    row("0: 64 chunks, audited", whole, 0, None, b"")
    no_audit = whole[1].replace(b"audit yes\n", b"audit no memory\n")
    wanted = {"no memory": 0, "no room": 0, "audit no memory": 0, "done": 0}
    strange, limit, step = [], 1 << 20, 8 << 10
    while limit < 64 << 20 and wanted["done"] < 3:
        got = ran(["replay", "--audit"], trace, memory=limit)
        if got == (1, b"", b"poolctl: no memory\n"):
            wanted["no memory"] += 1
        elif got == (1, b"R15 NoMemory\n", b""):
            wanted["no room"] += 1
        elif got == (1, no_audit, b""):
            wanted["audit no memory"] += 1
        elif got == whole:
            wanted["done"] += 1
        elif any(wanted.values()) and not (got[0] in (0, 1) and b"R15 NoMemory\n" in got[1] and not got[2]):
            strange.append((limit, got[0], got[1][-60:], got[2][-60:]))
        limit += step
    for name, count in wanted.items():
        tell(f"{0 if name == 'done' else 1}: {name}, at {count} limits of the memory", count > 0, wanted)
    tell("no limit leads out of the table", not strange, strange[:3])


def memory_of_threads():
    """Whatever the limit, a workload is done, or ends for want of memory or of a thread, and no signal ends it. Where
    there is memory for the threads and none for buffers, its report tells so."""
    words = ["work", "ring", "--threads", "4", "--count", "200"]
    whole = ran(words)
    row("0: work, to be run in little memory", whole, 0, None, b"")
    counts = {"0: work: done": 0, "1: work: no memory": 0, "1: work: no thread": 0, "1: work: audit no memory": 0}
    strange, limit = [], 1 << 20
    while limit < 128 << 20 and counts["0: work: done"] < 3:
        got = ran(words, memory=limit)
        if got == whole:
            counts["0: work: done"] += 1
        elif got == (1, b"", b"poolctl: no memory\n"):
            counts["1: work: no memory"] += 1
        elif got == (1, b"", b"poolctl: no thread\n"):
            counts["1: work: no thread"] += 1
        elif got[0] == 1 and got[1].endswith(b"\naudit no memory\n") and not got[2]:
            counts["1: work: audit no memory"] += 1
        elif any(counts.values()) and not (got[0] == 0 and got[1].endswith(b"\naudit yes\n") and not got[2]):
            strange.append((limit, got[0], got[1][-60:], got[2][-60:]))
        limit += 8 << 10
    for name, count in counts.items():
        tell(f"{name}, at {count} limits of the memory", count > 0, counts)
    tell("no limit leads a workload out of the table", not strange, (len(strange), strange[:3]))


def stacks():
    """From some size of the stack on, the program does what it does in any other."""
    ring = ["work", "ring", "--threads", "4", "--count", "200"]
    for words, given, least in [(["replay", "--audit"], GOOD, REPLAY_STACK), (ring, b"", WORK_STACK)]:
        whole = ran(words, given)
        row(f"0: {words[0]}, to be run in small stacks", whole, 0, None, b"")
        sizes = range(least, MOST_STACK + 1, 8 << 10)
        strange = [(size, got) for size in sizes if (got := ran(words, given, stack=size)) != whole]
        tell(f"0: {words[0]} in each stack from {least >> 10} KB on", not strange, strange[:3])


def main():
    argparse.ArgumentParser(description=__doc__, formatter_class=argparse.RawDescriptionHelpFormatter).parse_args()
    if not is_fresh():
        built = subprocess.run(["rt", "run", "--", "classes"], cwd=CRATE, capture_output=True, text=True)
        if built.returncode != 0:
            print(built.stdout + built.stderr)
            sys.exit(2)
    done()
    worked()
    stopped()
    refused()
    streams()
    failing()
    memory()
    memory_of_threads()
    stacks()
    print(f"{len(failed)} rows of the table failed")
    sys.exit(1 if failed else 0)


main()
