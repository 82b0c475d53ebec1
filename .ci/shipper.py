#!/usr/bin/env python3
"""Runs the built program `example_shipper` over logs that this script makes: its tests.

    .ci/shipper.py [PROGRAM]

What the program has to write is computed here, from the lines themselves or from what a line was put together of, and
read back with Python's `json`. PROGRAM is `crates/example_shipper/out/example_shipper` where it isn't given, which
`rt ci` and `rt run` leave; where that is missing, or older than a source, `rt run` makes it first. Prints a line for each
test; the exit status is 1 where one failed.
"""
import argparse
import collections
import concurrent.futures
import json
import os
import pathlib
import re
import resource
import signal
import subprocess
import sys
import tempfile
import time

TOP = pathlib.Path(__file__).resolve().parent.parent
CRATE = TOP / "crates" / "example_shipper"
PROGRAM = CRATE / "out" / "example_shipper"

# The longest piece of a line, as the help says.
MOST = 1004
TEXTS = ("time", "host", "app", "procid", "msgid", "data", "message")
SEVERITIES = "emerg alert crit err warning notice info debug".split()

failed = []


def tell(name, good, got=""):
    print(f"{'ok' if good else 'NOT AS IT SHOULD BE'}: {name}" + ("" if good else f": {str(got)[:600]}"), flush=True)
    if not good:
        failed.append(name)


def ran(words=(), given=b"", folder="/", limit=None, **streams):
    """The status, standard output and standard error."""
    how = {"stdin": subprocess.PIPE, "stdout": subprocess.PIPE, "stderr": subprocess.PIPE, **streams}
    started = subprocess.Popen([PROGRAM, *words], cwd=folder, preexec_fn=limit, **how)
    out, err = started.communicate(given if how["stdin"] == subprocess.PIPE else None, timeout=120)
    return started.returncode, out, err


def bytes_of(text, escaped):
    """The bytes that a text stands for."""
    if not escaped:
        return text.encode()
    parts = re.findall(r"\\\\|\\x[0-9a-f]{2}|[^\\]", text, re.DOTALL)
    assert "".join(parts) == text and text.isascii(), text
    return b"".join(b"\\" if part == "\\\\" else bytes([int(part[2:], 16)]) if part[0] == "\\" else part.encode() for part in parts)


def objects(out):
    """The objects that were written, one a line, with the bytes of their texts."""
    assert out == b"" or out.endswith(b"\n"), out[-80:]
    found = []
    for line in out.split(b"\n")[:-1]:
        one = json.loads(line.decode())
        escaped = one.pop("escaped", False)
        found.append({key: bytes_of(value, escaped) if key in TEXTS else value for key, value in one.items()})
    return found


def pieces(line):
    """A line in pieces. None begins within a character, unless the bytes there are none."""
    found = []
    while len(line) > MOST:
        at = next((MOST - back for back in range(4) if line[MOST - back] & 0xC0 != 0x80), MOST)
        found.append(line[:at])
        line = line[at:]
    return [*found, line]


def lines_of(log):
    """The lines of a log."""
    lines = log.split(b"\n")
    return lines if lines[-1] else lines[:-1]


def bare(log, keeps=lambda line: True):
    """What is to be written of lines without heads."""
    found = []
    for number, line in enumerate(lines_of(log), 1):
        parts = pieces(line)
        for at, part in enumerate(parts, 1):
            place = {} if len(parts) == 1 else {"piece": at, "last": at == len(parts)}
            found += [{"line": number, **place, "message": part}] * keeps(parts[0])
    return found


def same(name, words, given, want, status=0, err=b""):
    got = ran(words, given)
    if got[0] != status or got[2] != err:
        return tell(name, False, got)
    written = objects(got[1])
    differ = next(((one, other) for one, other in zip(written, want) if one != other), (len(written), len(want)))
    tell(name, written == want, differ)


def heads():
    """Lines and the parts of their heads, by hand; the first are the examples of RFC 5424 and RFC 3164."""
    su = {"priority": 34, "facility": "auth", "severity": "crit"}
    local4 = {"priority": 165, "facility": "local4", "severity": "notice"}
    user = {"priority": 13, "facility": "user", "severity": "notice"}
    iut = rb'[exampleSDID@32473 iut="3" eventSource="Application" eventID="1011"]'
    cases = [
        (
            b"<34>1 2003-10-11T22:14:15.003Z mymachine.example.com su - ID47 - \xef\xbb\xbf'su root' failed",
            su | {"time": b"2003-10-11T22:14:15.003Z", "host": b"mymachine.example.com", "app": b"su", "msgid": b"ID47"},
            b"\xef\xbb\xbf'su root' failed",
        ),
        (
            b"<165>1 2003-08-24T05:14:15.000003-07:00 192.0.2.1 myproc 8710 - - %% It's time to make the do-nuts.",
            local4 | {"time": b"2003-08-24T05:14:15.000003-07:00", "host": b"192.0.2.1", "app": b"myproc", "procid": b"8710"},
            b"%% It's time to make the do-nuts.",
        ),
        (
            b"<165>1 2003-10-11T22:14:15.003Z host evntslog - ID47 " + iut + b" An entry",
            local4 | {"time": b"2003-10-11T22:14:15.003Z", "host": b"host", "app": b"evntslog", "msgid": b"ID47", "data": iut},
            b"An entry",
        ),
        (
            b"<165>1 2003-10-11T22:14:15.003Z host evntslog - ID47 " + iut + b"[b@1 c=\"x\\\"]\\\\\"]",
            local4 | {"time": b"2003-10-11T22:14:15.003Z", "host": b"host", "app": b"evntslog", "msgid": b"ID47", "data": iut + b"[b@1 c=\"x\\\"]\\\\\"]"},
            b"",
        ),
        (b"<13>1 - - - - - -", user, b""),
        (b"<13>1 - - - - - - ", user, b""),
        (b"<13>1 - - - - -", user, b"1 - - - - -"),
        (b"<13>1 - - - - - [open", user, b"1 - - - - - [open"),
        (b"<13>1 yesterday - - - - - x", user, b"1 yesterday - - - - - x"),
        (b"<13>2 - - - - - - x", user, b"2 - - - - - - x"),
        (
            b"<34>Oct 11 22:14:15 mymachine su: 'su root' failed for lonvick on /dev/pts/8",
            su | {"time": b"Oct 11 22:14:15", "host": b"mymachine", "app": b"su"},
            b"'su root' failed for lonvick on /dev/pts/8",
        ),
        (b"<13>Feb  5 17:32:18 10.0.0.99 Use the BFG!", user | {"time": b"Feb  5 17:32:18", "host": b"10.0.0.99"}, b"Use the BFG!"),
        (b"<13>Feb  5 17:32:18 cron[99]: no host", user | {"time": b"Feb  5 17:32:18", "app": b"cron", "procid": b"99"}, b"no host"),
        (b"Feb  5 17:32:18 box cron[9]:none", {"time": b"Feb  5 17:32:18", "host": b"box", "app": b"cron", "procid": b"9"}, b"none"),
        (b"2026-01-02T03:04:05+01:00 box a[b c", {"time": b"2026-01-02T03:04:05+01:00", "host": b"box"}, b"a[b c"),
        (b"<13>Fob  5 17:32:18 box a: b", user, b"Fob  5 17:32:18 box a: b"),
        (b"<0>", {"priority": 0, "facility": "kern", "severity": "emerg"}, b""),
        (b"<191>x", {"priority": 191, "facility": "local7", "severity": "debug"}, b"x"),
        (b"<192>x", {}, b"<192>x"),
        (b"<013>x", {}, b"<013>x"),
        (b"<>x", {}, b"<>x"),
        (b"<999>x", {}, b"<999>x"),
        (b"<13", {}, b"<13"),
        (b" <13>x", {}, b" <13>x"),
        (b"", {}, b""),
        (b"no head", {}, b"no head"),
    ]
    want = [{"line": number, **found, "message": message} for number, (_, found, message) in enumerate(cases, 1)]
    same("heads", [], b"".join(line + b"\n" for line, _, _ in cases), want)


def all_bytes():
    """Bytes come back, whatever they are."""
    others = bytes(byte for byte in range(256) if byte != 10)
    controls = bytes(byte for byte in range(128) if byte != 10)
    log = b"\n".join([
        others, controls, b"\0", b"\\x41 \\\\ \"", b"\xff\\x41\\", "ä€😀".encode(), b"\xc3", b"a\xc3", b"\xed\xa0\x80", b"\xc0\xaf", b"x\r", b"",
        b"", b"\xf0\x9f\x98", b"end",
    ])  # fmt: skip
    same("each byte comes back", [], log, bare(log))
    status, out, _ = ran([], log)
    plain = all(byte >= 32 or byte == 10 for byte in out)
    utf8 = out.decode()
    tell("the output is UTF-8, with no control character but its line feeds", status == 0 and plain and utf8 is not None)
    marked = [json.loads(line).get("escaped", False) for line in out.splitlines()]
    want = [not is_utf8(line) for line in lines_of(log)]
    tell("just the lines that aren't UTF-8 are marked", marked == want, (marked, want))


def is_utf8(line):
    try:
        line.decode()
        return True
    except UnicodeDecodeError:
        return False


def long_lines():
    parts = [b"x" * size for size in (MOST - 1, MOST, MOST + 1, 2 * MOST, 2 * MOST + 1, 100_000, 65_535, 65_536, 131_072)]
    parts += [("y" * (MOST - 4 + ahead) + "€ä😀" * 500).encode() for ahead in range(8)]
    parts += [b"\x80" * 3000, b"z" * (MOST - 1) + b"\xf0\x9f\x98\x80" + b"\x80" * 2000, b"\x01" * 5000, b'"' * 2500]
    log = b"\n".join(parts) + b"\n"
    same("long lines come in pieces", [], log, bare(log))
    same("a long last line without a line feed", [], log + b"w" * 3000, bare(log + b"w" * 3000))
    head = b"<34>Oct 11 22:14:15 mymachine su: "
    line = head + b"m" * 3000
    first, *others = pieces(line)
    want = {"line": 1, "piece": 1, "last": False, "priority": 34, "facility": "auth", "severity": "crit"}
    want |= {"time": b"Oct 11 22:14:15", "host": b"mymachine", "app": b"su", "message": first[len(head) :]}
    later = [{"line": 1, "piece": at, "last": at == len(others) + 1, "message": part} for at, part in enumerate(others, 2)]
    same("the first piece has the head", [], line, [want, *later])
    for count in (1, 2, 8):
        log = b"".join(b"%d " % number * (1 + number % 1500) + b"\n" for number in range(300))
        same(f"long and short lines, {count} parsers", ["-p", str(count), "-c", "64"], log, bare(log))


def mixed(count):
    """A log of so many lines, some with heads."""
    lines = []
    for number in range(count):
        kind = number % 7
        if kind < 3:
            lines.append(b"<%d>1 2026-01-02T03:04:05.678Z host%d app%d %d ID%d [x@1 n=\"%d\"] message %d" % (number % 192, kind, kind, number, kind, number, number))
        elif kind < 5:
            lines.append(b"<%d>Jan  2 03:04:05 host app[%d]: message %d %s" % (number % 192, number, number, b"-" * (number % 400)))
        else:
            lines.append(b"line %d %s" % (number, b"\xc3\x28" if kind == 5 else "ü".encode()))
    return b"".join(line + b"\n" for line in lines)


def order():
    """However many parsers there are, the output is that of one."""
    log = mixed(100_000)
    first = ran(["-p", "1"], log)
    numbers = [one["line"] for one in objects(first[1])]
    tell("100,000 lines in their order", first[0] == 0 and numbers == list(range(1, 100_001)), first[2])
    for parsers, chunks in [(2, 256), (8, 64), (8, 1024), (16, 256)]:
        got = ran(["-p", str(parsers), "-c", str(chunks)], log)
        tell(f"the same with {parsers} parsers and {chunks} chunks", got == first, (got[0], len(got[1]), got[2]))


def filters():
    log = mixed(5_000)
    whole = objects(ran([], log)[1])
    for at, level in enumerate(SEVERITIES):
        want = [one for one in whole if "severity" in one and SEVERITIES.index(one["severity"]) <= at]
        same(f"--level {level}", ["--level", level], log, want)
    lines = lines_of(log)
    for pattern in ["message [0-9]*7 ", "host1|line .*5", r"(?-u:\xc3\()", "^<1[0-9]?>"]:
        want = [one for one in whole if re.search(pattern.replace("(?-u:", "(?:").encode(), lines[one["line"] - 1])]
        same(f"--match {pattern}", ["--match", pattern], log, want)
        want = [one for one in want if one.get("severity") in SEVERITIES[:4]]
        same(f"--match {pattern} --level err", ["-m", pattern, "-l", "err"], log, want)
    same("--match that nothing matches", ["-m", "nowhere"], log, [])
    long = b"\n".join(b"%d " % number + b"x" * 3000 + b"needle" for number in range(400))
    keeps = lambda line: b"7" in line.split(b" ")[0]
    same("a long line is kept or left as a whole", ["-m", "^[0-9]*7[0-9]* ", "-p", "3"], long, bare(long, keeps))
    same("--match looks at the first piece", ["-m", "needle"], long, [])


def files(folder):
    logs = {"one": b"a\nb", "two": b"c\n", "three": b"", "four": b"d\ne"}
    for name, text in logs.items():
        (folder / name).write_bytes(text)
    got = ran(list(logs), folder=folder)
    want = bare(b"a\nb\nc\nd\ne\n")
    tell("several files", got[0] == 0 and objects(got[1]) == want, got)
    got = ran(["one", "-", "four"], b"s\nt", folder=folder)
    tell("standard input between files", got[0] == 0 and objects(got[1]) == bare(b"a\nb\ns\nt\nd\ne\n"), got)
    got = ran(["one", "missing", "four"], folder=folder)
    told = got[2].startswith(b"example_shipper: missing") and b"No such file" in got[2]
    tell("a file that isn't there", got[0] == 1 and objects(got[1]) == bare(b"a\nb\n") and told, got)
    got = ran([".", "four"], folder=folder)
    tell("a folder in the place of a file", got[0] == 1 and got[1] == b"" and got[2].startswith(b"example_shipper: ."), got)


def rotation(folder):
    log = mixed(2_000)
    whole = ran([], log)[1]
    for limit in (1, 500, 20_000, 10_000_000):
        place = folder / f"limit{limit}"
        place.mkdir()
        got = ran(["-o", "out.json", "-r", str(limit)], log, folder=place)
        names = sorted((path for path in place.iterdir() if path.name != "out.json"), key=lambda path: int(path.suffix[1:]))
        texts = [path.read_bytes() for path in [*names, place / "out.json"]]
        numbered = [path.name for path in names] == [f"out.json.{number}" for number in range(1, len(names) + 1)]
        small = all(len(text) <= limit or text.count(b"\n") == 1 for text in texts)
        full = all(len(one) + len(other.split(b"\n")[0]) + 1 > limit for one, other in zip(texts, texts[1:]))
        good = got == (0, b"", b"") and b"".join(texts) == whole and numbered and small and full
        tell(f"files of at most {limit} bytes", good, (got, len(texts), numbered, small, full))
    place = folder / "append"
    place.mkdir()
    (place / "out.json").write_bytes(b"{}\n")
    (place / "out.json.1").write_bytes(b"kept")
    got = ran(["-o", "out.json"], b"a\n", folder=place)
    tell("a file is appended to", got[0] == 0 and (place / "out.json").read_bytes() == b'{}\n{"line":1,"message":"a"}\n', got)
    got = ran(["-o", "out.json", "-r", "40"], b"b\nc\n", folder=place)
    texts = [(place / name).read_bytes() for name in ("out.json.1", "out.json.2", "out.json")]
    lines = [b'{"line":1,"message":"b"}\n', b'{"line":2,"message":"c"}\n']
    third = (place / "out.json.3").read_bytes() if (place / "out.json.3").exists() else b""
    good = got[0] == 0 and texts[0] == b"kept" and texts[1].startswith(b"{}\n") and [third, texts[2]] == lines
    tell("no file that is there is overwritten", good, (got, texts, third))


def failures(folder):
    none = rb"example_shipper: write failed: .*; no line was written\n"
    with open("/dev/full", "wb") as full:
        got = ran([], mixed(10), stdout=full)
        tell("a full device", got[0] == 1 and re.fullmatch(none, got[2]) and b"No space left" in got[2], got)
        endless = subprocess.Popen(["yes", "line"], stdout=subprocess.PIPE)
        got = ran(["-p", "8", "-c", "64"], stdin=endless.stdout, stdout=full)
        endless.stdout.close()
        endless.wait()
        tell("a full device ends the reading of an endless input", got[0] == 1 and re.fullmatch(none, got[2]), got)
    ends = os.pipe()
    os.close(ends[0])
    got = ran([], mixed(10), stdout=ends[1])
    os.close(ends[1])
    tell("a closed pipe", got[0] == 1 and re.fullmatch(none, got[2]) and b"Broken pipe" in got[2], got)

    # A limit on the size of a file cuts a write short: what was written says which line has to be named.
    log = mixed(3_000) + b"x" * 50_000 + b"\n" + mixed(1_000)
    for size in [*range(1, 2_000, 333), 65_536, 300_001, 777_777, *range(802_000, 840_000, 4_999)]:

        def limit():
            signal.signal(signal.SIGXFSZ, signal.SIG_IGN)
            resource.setrlimit(resource.RLIMIT_FSIZE, (size, size))

        path = folder / "cut"
        with open(path, "wb") as file:
            got = ran(["-p", "3"], log, stdout=file, limit=limit)
        text = path.read_bytes()
        whole = text[: text.rindex(b"\n") + 1] if b"\n" in text else b""
        last = objects(whole)[-1] if whole else None
        if last is None:
            told = b"no line was written"
        elif "piece" in last:
            told = b"the last one written is piece %d of line %d" % (last["piece"], last["line"])
        else:
            told = b"the last line written is %d" % last["line"]
        good = got[0] == 1 and len(text) == size and got[2].endswith(b"; " + told + b"\n")
        tell(f"{size} bytes can be written", good, (got, len(text), told))

    # Parcels pile up where one parser is held up, as it is where many run at a time. Then the reader waits for slots while
    # the writer gives up.
    def on_full_device(_):
        with open("/dev/full", "wb") as full:
            return ran(["-p", "3"], log, stdout=full)[0]

    with concurrent.futures.ThreadPoolExecutor(12) as many:
        ended = collections.Counter(many.map(on_full_device, range(600)))
    tell("a full device, 12 at a time", ended == {1: 600}, ended)
    got = ran(["-o", "/nowhere/out"], b"a\n")
    tell("an output that can't be opened", got[0] == 1 and got[2].startswith(b"example_shipper: the output file"), got)


def live():
    """A line is written when it is complete, while the input goes on."""
    started = subprocess.Popen([PROGRAM, "-p", "3"], stdin=subprocess.PIPE, stdout=subprocess.PIPE)
    good = True
    for number in range(1, 11):
        started.stdin.write(b"line %d\nhal" % number if number < 10 else b"\n")
        started.stdin.flush()
        line = json.loads(started.stdout.readline())
        good = good and line["line"] == number
    started.stdin.close()
    rest = started.stdout.read()
    tell("lines of a pipe are written at once", good and started.wait(10) == 0 and rest == b"", rest)


def words():
    status, out, err = ran(["--help"])
    parts = [b"Usage:", b"--match <REGEX>", b"--level <LEVEL>", b"--rotate <BYTES>", b"--progress", b"%d" % MOST if MOST < 1000 else b"1,004 bytes"]
    tell("--help", status == 0 and err == b"" and all(part in out for part in parts), (status, out, err))
    for given in ["--nothing", "--level loud", "--parsers 0", "--parsers 17", "--chunks 63", "--chunks 1025", "--rotate 5", "-o a -r 0", "--match"]:
        status, out, err = ran(given.split())
        tell(f"refused: {given}", status == 2 and out == b"" and err.startswith(b"error: "), (status, out, err))
    status, out, err = ran(["--match", "(a"], b"a\n")
    tell("refused: --match (a", status == 2 and out == b"" and err.startswith(b"example_shipper: --match"), (status, out, err))
    status, out, err = ran(["--progress"], mixed(1_000))
    want = rb"1000 lines, %d bytes read, 1000 lines written; a second: \d+ lines, \d+ bytes\n" % len(mixed(1_000))
    tell("--progress says how much it was", status == 0 and re.fullmatch(want, err), err)
    # standard input that stays open for longer than a second
    started = subprocess.Popen([PROGRAM, "--progress"], stdin=subprocess.PIPE, stdout=subprocess.PIPE, stderr=subprocess.PIPE)
    for _ in range(5):
        started.stdin.write(b"a\n")
        started.stdin.flush()
        time.sleep(0.5)
    _, err = started.communicate(timeout=10)
    tell("--progress says so each second", re.match(rb"\d lines, \d+ bytes read; a second: ", err) and err.count(b"\n") in (2, 3, 4), err)


def is_fresh():
    """Whether the program is there, and younger than the sources of all that it stands on."""
    sources = [path for kind in ("src", "specs", "proofs") for path in TOP.glob(f"crates/*/{kind}/**/*") if path.is_file()]
    return PROGRAM.exists() and all(path.stat().st_mtime <= PROGRAM.stat().st_mtime for path in sources)


def main():
    parser = argparse.ArgumentParser(description=__doc__, formatter_class=argparse.RawDescriptionHelpFormatter)
    parser.add_argument("program", nargs="?", help="what is tried (default: what the gate built)")
    given = parser.parse_args()
    global PROGRAM
    if given.program:
        PROGRAM = pathlib.Path(given.program).resolve()
    elif not is_fresh():
        built = subprocess.run(["rt", "run"], cwd=CRATE, capture_output=True, text=True)
        if built.returncode != 0:
            print(built.stdout + built.stderr)
            sys.exit(2)
    heads()
    all_bytes()
    long_lines()
    order()
    filters()
    live()
    words()
    for part in (files, rotation, failures):
        with tempfile.TemporaryDirectory() as folder:
            part(pathlib.Path(folder))
    print(f"{len(failed)} tests failed")
    sys.exit(1 if failed else 0)


main()
