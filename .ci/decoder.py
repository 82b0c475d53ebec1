#!/usr/bin/env python3
"""Runs the built program `example_decoder` over captures that `captures.py` makes, and compares what it counts, what it
says of broken captures, and its exit statuses.

The program is `crates/example_decoder/out/example_decoder`, which `rt ci` and `rt run` leave, or the one that is named.
Prints a line for each case; the exit status is 1 where one is not as it should be.
"""
import argparse
import json
import pathlib
import random
import resource
import struct
import subprocess
import sys
import tempfile

sys.dont_write_bytecode = True
from captures import (
    ETHERNET, GRE, ICMPV6, RAW, SCTP, TCP, UDP, Packet, arp, authentication, bare, capture, counted, ethernet, extension,
    file_header, fragment, icmp, icmpv6, ipv4, ipv6, other, record, tcp, udp, unknown, vlan,
)  # fmt: skip

TOP = pathlib.Path(__file__).resolve().parent.parent
PROGRAM = TOP / "crates" / "example_decoder" / "out" / "example_decoder"

A, B, C = "10.0.0.1", "10.0.0.2", "192.168.255.254"
A6, B6 = "2001:db8::1", "fe80::a:b"
V4, V6, ARP = 0x0800, 0x86DD, 0x0806

failed = []


def ran(words=(), given=b"", **streams):
    how = {"stdin": subprocess.PIPE, "stdout": subprocess.PIPE, "stderr": subprocess.PIPE, **streams}
    started = subprocess.Popen([PROGRAM, *words], cwd="/", **how)
    out, err = started.communicate(given if how["stdin"] == subprocess.PIPE else None, timeout=120)
    return started.returncode, out, err


def tell(name, good, got=""):
    print(f"{'ok' if good else 'NOT AS IT SHOULD BE'}: {name}" + ("" if good else f": {str(got)[:2000]}"), flush=True)
    if not good:
        failed.append(name)


def difference(got, wanted):
    return {name: (got.get(name), wanted.get(name)) for name in {*got, *wanted} if got.get(name) != wanted.get(name)}


def check(name, given, wanted, words=(), status=0, err=b""):
    """Whether the answer as JSON is what is wanted, and the audit says that each buffer came home."""
    code, out, said = ran([*words, "--json", "--audit", "--top", "1000000"], given)
    wanted = {**wanted, "audit": {"read": wanted["packets"], "lost": 0, "fault": None}}
    try:
        got = json.loads(out)
    except ValueError:
        got = {"text": out}
    good = code == status and said == err and got == wanted
    tell(name, good, (code, said, difference(got, wanted)))


def good_packets():
    """A packet of each kind."""
    v4 = lambda layer, **more: ethernet(V4, ipv4(A, B, layer, **more))
    v6 = lambda layer, **more: ethernet(V6, ipv6(A6, B6, layer, **more))
    chain = extension(0, extension(43, authentication(extension(60, tcp(1, 2, b"all")))))
    return [
        v4(tcp(80, 40000, b"hello")),
        v4(tcp(40000, 80, options=b"\x02\x04\x05\xb4\x01\x01\x04\x02")),
        v4(tcp(40000, 80, options=bytes(40))),
        v4(udp(53, 5353, b"x" * 30)),
        v4(udp(0, 65535)),
        v4(icmp(b"ping")),
        v4(udp(7, 7, b"options"), options=b"\x94\x04\0\0" * 10),
        v4(other(GRE, b"tunnel")),
        v4(other(SCTP, b"")),
        v4(other(50, b"encrypted")),
        ethernet(V4, ipv4(B, C, tcp(22, 22)), padding=6),
        ethernet(V4, ipv4(B, C, tcp(22, 22, b"offloaded"), size=0)),
        v4(udp(1, 2, b"first", size=4000), more=True),
        v4(tcp(1, 2, b"first of TCP"), more=True),
        v4(bare(UDP, b"middle"), offset=100, more=True),
        v4(bare(UDP, b"last"), offset=200),
        v4(bare(TCP, b""), offset=8191),
        v6(tcp(443, 50000, b"six")),
        v6(udp(53, 53, b"six")),
        v6(icmpv6()),
        v6(other(59, b"")),
        v6(other(50, b"encrypted")),
        v6(chain),
        v6(extension(60, udp(5, 6), options=bytes(6 + 8 * 20))),
        v6(extension(135, other(59, b""))),
        v6(fragment(udp(9, 10, b"first of six", size=3000), 0, True)),
        v6(fragment(bare(UDP, b"middle of six"), 200, True)),
        v6(fragment(bare(ICMPV6, b"last of six"), 8000, False)),
        v6(fragment(udp(11, 12, b"atomic"), 0, False)),
        v6(extension(0, fragment(bare(60, b"options, split"), 3, True))),
        ethernet(ARP, arp()),
        ethernet(ARP, arp(16), padding=4),
        ethernet(0x8100, vlan(5, V4, ipv4(A, C, udp(1000, 2000)))),
        ethernet(0x88A8, vlan(5, 0x8100, vlan(4095, V6, ipv6(B6, A6, tcp(3, 4))))),
        ethernet(0x8100, vlan(1, ARP, arp())),
        ethernet(0x9100, vlan(1, 0x88CC, unknown(b"lldp"))),
        ethernet(0x88CC, unknown(b"lldp")),
        ethernet(46, unknown(bytes(46))),
        ethernet(0x0800, ipv4("0.0.0.0", "255.255.255.255", udp(68, 67, bytes(300)))),
        ethernet(V6, ipv6("::", "ff02::1:ff00:1", icmpv6(bytes(24)))),
    ]


def bad_packets():
    """Packets with something wrong, each in its last header."""
    short = lambda packet, count, fault="short_header": Packet(packet.data[:count], [], fault)
    v4 = lambda layer, **more: ethernet(V4, ipv4(A, B, layer, **more))
    v6 = lambda layer, **more: ethernet(V6, ipv6(A6, B6, layer, **more))
    tagged = ethernet(0x8100, vlan(5, V4, ipv4(A, C, udp(1000, 2000))))
    short_tag = Packet(tagged.data[:17], tagged.steps[:1], "short_header")
    whole = v4(tcp(1, 2, b"whole"))
    cut_ip = Packet(whole.data[:30], whole.steps[:1], "short_header")
    six = v6(udp(1, 2))
    asks = ethernet(ARP, arp())
    long_options = v6(extension(0, udp(1, 2)))
    data = bytearray(long_options.data)
    data[55] = 9
    return [
        short(whole, 0),
        short(whole, 13),
        short_tag,
        cut_ip,
        Packet(six.data[:53], six.steps[:1], "short_header"),
        Packet(asks.data[:21], asks.steps[:1], "short_header"),
        Packet(asks.data[:41], asks.steps[:1], "short_header"),
        Packet(bytes(data), long_options.steps[:2], "short_header"),
        v4(tcp(1, 2, fault="short_header"), version=5, fault="wrong_version"),
        v6(tcp(1, 2), version=4, fault="wrong_version"),
        v4(tcp(1, 2), words=4, fault="header_length"),
        v4(tcp(1, 2), words=0, fault="header_length"),
        v4(bare(TCP, b""), words=15, fault="short_header"),
        v4(tcp(1, 2), size=19, fault="length"),
        v4(tcp(1, 2), size=41, fault="length"),
        v4(tcp(1, 2), size=65535, fault="length"),
        v6(tcp(1, 2), size=21, fault="length"),
        v6(tcp(1, 2), size=65535, fault="length"),
        v4(tcp(1, 2, offset=4, fault="header_length")),
        v4(tcp(1, 2, offset=15, fault="short_header")),
        v4(udp(1, 2, size=7, fault="length")),
        v4(udp(1, 2, size=9, fault="length")),
        v6(udp(1, 2, b"six", size=12, fault="length")),
        ethernet(V4, ipv4(A, B, shortened(tcp(1, 2), 19))),
        ethernet(V4, ipv4(A, B, shortened(udp(1, 2), 7))),
        ethernet(V4, ipv4(A, B, shortened(icmp(), 7))),
        ethernet(V6, ipv6(A6, B6, shortened(icmpv6(), 3))),
        ethernet(V6, ipv6(A6, B6, shortened(fragment(udp(1, 2), 0, True), 7))),
    ]


def shortened(layer, count):
    """A layer that ends inside its first header."""
    layer.data, layer.steps, layer.fault = layer.data[:count], [], "short_header"
    return layer


def kinds():
    packets = good_packets() + bad_packets()
    for order in "<>":
        for unit in ("microseconds", "nanoseconds"):
            name = f"each kind of packet, {'little' if order == '<' else 'big'} end first, {unit}"
            check(name, capture(packets, order, unit), counted(packets))
    for packet in packets:
        check(f"one packet: {packet.data.hex()[:60]}", capture([packet]), counted([packet]))


def raw():
    packets = [ipv4(A, B, tcp(1, 2)).packet(), ipv6(A6, B6, udp(3, 4)).packet(), Packet(b"", [], "short_header")]
    packets += [Packet(b"\x75" + bytes(40), [], "wrong_version"), Packet(b"\x60" + bytes(30), [], "short_header")]
    packets += [Packet(b"\x45", [], "short_header")]
    for link in (12, 14, RAW, 228, 229):
        check(f"raw IP, link type {link}", capture(packets, link=link), counted(packets))
    check("the upper half of the link type tells of checks", capture(packets, link=0x14000000 | RAW), counted(packets))


def cuts():
    """Each packet, captured up to each of its bytes."""
    packets = [packet.kept_by(snap) for packet in good_packets() for snap in range(len(packet.data) + 1)]
    for snap in (0, 1, 96, 65535, 262144, 2**31, 2**32 - 1):
        check(f"each packet cut at each byte, snap length {snap}", capture(packets, snap=snap), counted(packets))
    for words in ([], ["--decoders", "1"], ["--decoders", "5"], ["--wide"], ["--chunks", "32"]):
        check(f"each packet cut at each byte, {words}", capture(packets, ">"), counted(packets), words)


def sized(size):
    """A packet of this size."""
    return ethernet(V4, ipv4(A, B, udp(size % 65536, 99, bytes(max(0, size - 42)), size=max(8, min(size - 34, 65535))), size=0))


def large():
    sizes = [42, 43, 47, 48, 49, 64, 65, 511, 512, 513, 600, 1023, 1024, 1025, 1514, 9000, 65535, 100000, 262144]
    packets = [sized(size) for size in sizes]
    check("packets of up to 262,144 bytes, cut to 512", capture(packets), counted(packets))
    check("the same, cut to 1,024", capture(packets), counted(packets, 1024), ["--wide"])
    cut = [packet.kept_by(snap) for packet in packets for snap in (511, 512, 513, 1024, 1025)]
    check("the same, cut by the capture as well", capture(cut), counted(cut))
    check("the same, cut by the capture as well, wide", capture(cut), counted(cut, 1024), ["--wide"])
    options = ethernet(V6, ipv6(A6, B6, extension(60, tcp(1, 2), options=bytes(6 + 8 * 80))))
    check("a header behind the first 512 bytes", capture([options]), counted([options]))
    check("the same, wide", capture([options]), counted([options], 1024), ["--wide"])


def many():
    """Numbers of packets around those that go together; and the answer doesn't hang on the threads, or on the pool."""
    draw = random.Random(7)
    kinds = good_packets() + bad_packets()
    for count in (0, 1, 2, 62, 63, 64, 65, 127, 128, 129, 191, 192, 193, 256, 257):
        packets = [kinds[draw.randrange(len(kinds))] for _ in range(count)]
        check(f"{count} packets", capture(packets), counted(packets))
    packets = [kinds[draw.randrange(len(kinds))] for _ in range(20000)]
    packets += [ethernet(V4, ipv4(A, B, udp(port, port ^ 1, bytes(port % 400)))) for port in range(0, 60000, 7)]
    draw.shuffle(packets)
    given, wanted = capture(packets), counted(packets)
    for words in ([], ["--decoders", "1"], ["--decoders", "3"], ["--decoders", "16"], ["--decoders", "62"]):
        check(f"{len(packets)} packets, {words}", given, wanted, words)
    for words in (["--chunks", "32"], ["--chunks", "33", "--decoders", "7"], ["--chunks", "1024"], ["--chunks", "32", "--wide"]):
        check(f"{len(packets)} packets, {words}", given, counted(packets, 1024) if "--wide" in words else wanted, words)
    for top in (0, 1, 3, 100000):
        code, out, said = ran(["--json", "--top", str(top)], given)
        tell(f"the {top} flows with most bytes", (code, said) == (0, b"") and json.loads(out)["top"] == wanted["top"][:top], said)


def broken():
    """Captures that end, or go wrong, at some byte."""
    packets = good_packets()[:4]
    for order in "<>":
        given = capture(packets, order)
        ends = [24]
        for packet in packets:
            ends.append(ends[-1] + 16 + len(packet.data))
        for end in range(len(given) + 1):
            if end < 24:
                text = "the file is empty" if end == 0 else f"the file ends after {end} of the 24 bytes of its header"
                refused(f"a file of {end} bytes", given[:end], text)
                continue
            whole = max(number for number, at in enumerate(ends) if at <= end)
            over, name = end - ends[whole], f"a capture that ends at byte {end}"
            if over == 0:
                check(name, given[:end], counted(packets[:whole]))
            elif over < 16:
                text = f"the file ends after {over} of the 16 bytes of a packet's header"
                stopped(name, given[:end], packets[:whole], ends[whole], text)
            else:
                text = f"the file ends inside a packet of {len(packets[whole].data)} captured bytes"
                stopped(name, given[:end], packets[:whole], ends[whole], text)
        at = len(given)
        for captured, size, text in [
            (262145, 262145, "impossible length: 262145 captured bytes, and a packet has at most 262144"),
            (2**32 - 1, 2**32 - 1, "impossible length: 4294967295 captured bytes, and a packet has at most 262144"),
            (61, 60, "impossible length: 61 captured bytes of a packet that had 60"),
        ]:
            bad = struct.pack(f"{order}IIII", 1, 2, captured, size) + bytes(300000)
            stopped(f"{captured} captured bytes of {size}", given + bad, packets, at, text)
        longest = Packet(bytes(262144), [], "").kept_by(262143)
        end = capture(packets, order) + record(order, longest)[:-1]
        text = "the file ends inside a packet of 262143 captured bytes"
        stopped("the end lies in what is passed over", end, packets, at, text)
        many_packets = packets * 100
        end = capture(many_packets, order)
        stopped("many packets before the end", end + b"\0", many_packets, len(end), "the file ends after 1 of the 16 bytes of a packet's header")
        stopped("the same in a small pool", end + b"\0", many_packets, len(end), "the file ends after 1 of the 16 bytes of a packet's header", ["--chunks", "32"])
    refused("an unknown magic number", b"\0" * 24, "unknown magic number: this is no pcap file")
    refused("a text", b"GET / HTTP/1.1\r\nHost: localhost\r\n", "unknown magic number: this is no pcap file")
    refused("pcapng", b"\x0a\x0d\x0d\x0a" + bytes(40), "this is a pcapng file; `editcap -F pcap` makes a pcap file of it")
    refused("another version", file_header("<", "microseconds", version=1), "unknown version of the format")
    text = "unknown link type 113: only Ethernet (1) and raw IP (101) are known"
    refused("another link type", file_header(">", "nanoseconds", link=113), text)


def refused(name, given, text):
    """Nothing is reported where the file's header is none."""
    got = ran([], given)
    tell(name, got == (1, b"", f"example_decoder: standard input: offset 0: {text}\n".encode()), got)


def stopped(name, given, packets, offset, text, words=()):
    error = {"offset": offset, "message": f"offset {offset}: {text}"}
    said = f"example_decoder: standard input: offset {offset}: {text}\n".encode()
    check(name, given, {**counted(packets), "error": error}, words, 1, said)


def files():
    packets = good_packets()
    with tempfile.TemporaryDirectory() as folder:
        file = pathlib.Path(folder) / "some.pcap"
        file.write_bytes(capture(packets))
        check("a file that is named", b"", counted(packets), [str(file)])
        check("standard input by a dash", capture(packets), counted(packets), ["-"])
        file.write_bytes(capture(packets)[:-1])
        said = ran([str(file)])
        text = f"example_decoder: {file}: offset "
        tell("a broken file is named", said[0] == 1 and said[2].decode().startswith(text) and b"ethernet" in said[1], said)
        missing = ran([f"{folder}/none.pcap"])
        tell("a file that isn't there", missing[0] == 3 and missing[1] == b"" and b"none.pcap" in missing[2], missing)
        a_folder = ran([folder])
        tell("a folder", a_folder[0] == 3 and a_folder[1] == b"" and folder.encode() in a_folder[2], a_folder)
    with open("/dev/full", "wb") as full:
        for words in ([], ["--json"]):
            got = ran(words, capture(packets), stdout=full)
            tell(f"a full device, {words}", got[0] == 3 and b"No space left" in got[2], got)


def memory():
    """Whatever memory there is, the whole answer comes with status 0, or it is said what was missing; no signal ends it."""
    given, told = capture(good_packets() * 20), {}
    whole = ran(["--json", "--audit"], given)
    tell("a capture, to be read in little memory", whole[0] == 0, whole)
    strange = []
    for limit in range(4 << 20, 64 << 20, 256 << 10):
        limited = lambda: resource.setrlimit(resource.RLIMIT_AS, (limit, limit))
        status, out, err = got = ran(["--json", "--audit"], given, preexec_fn=limited)
        told[status] = told.get(status, 0) + 1
        if status < 0 or (got != whole if status == 0 else not err):
            strange.append((limit, got))
    tell("no limit of the memory ends it without a word", not strange, strange[:2])
    tell("some limits are enough, and some are not", told.get(0, 0) > 0 and told.get(3, 0) > 0, told)


def words():
    for given in (["--help"], ["-h"]):
        got = ran(given)
        parts = [b"Usage: ", b"[FILE]", b"--top <N>", b"--decoders <N>", b"--json", b"--audit", b"Exit status: "]
        tell(f"{given}", got[0] == 0 and got[2] == b"" and all(part in got[1] for part in parts), got)
    for given in (["--top"], ["--top", "x"], ["--decoders", "0"], ["--decoders", "63"], ["--chunks", "31"], ["--chunks", "1025"], ["a", "b"], ["--xml"]):
        got = ran(given)
        tell(f"refused: {given}", got[0] == 2 and got[1] == b"" and got[2].startswith(b"error: "), got)


def main():
    parser = argparse.ArgumentParser(description=__doc__, formatter_class=argparse.RawDescriptionHelpFormatter)
    parser.add_argument("program", nargs="?", help="what is tried (default: what the gate built)")
    given = parser.parse_args()
    global PROGRAM
    if given.program:
        PROGRAM = pathlib.Path(given.program).resolve()
    elif not PROGRAM.exists():
        subprocess.run(["rt", "run", "--", "--help"], cwd=PROGRAM.parent.parent, check=True, stdout=subprocess.DEVNULL)
    for part in (kinds, raw, cuts, large, many, broken, files, memory, words):
        part()
    print(f"{len(failed)} cases of the decoder failed")
    sys.exit(1 if failed else 0)


if __name__ == "__main__":
    main()
