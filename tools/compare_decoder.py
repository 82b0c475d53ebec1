#!/usr/bin/env python3
"""Compares what `example_decoder` counts with what `tshark` and `tcpdump` count, where they are installed.

    python3 tools/compare_decoder.py [--program PROGRAM] [FILE ..]

Without a FILE it takes the capture that stands in the repository, one of each kind of packet that `.ci/captures.py`
makes, and one that `tools/record_capture.py` records, if it may. Of tshark it takes each frame's length, its protocols
down to the first of TCP, UDP, ICMP and ICMPv6, its addresses and ports; tcpdump counts what its filters let through.
A tool that isn't there is passed over, and the script says so. The exit status is 1 where something differs.
"""
import argparse
import collections
import json
import pathlib
import shutil
import subprocess
import sys
import tempfile

sys.dont_write_bytecode = True
TOP = pathlib.Path(__file__).resolve().parent.parent
sys.path.insert(0, str(TOP / ".ci"))
import captures
import decoder

PROGRAM = TOP / "crates/example_decoder/out/example_decoder"
LOOPBACK = TOP / "crates/example_decoder/data/loopback.pcap"

# What tshark calls the protocols, and what the decoder does.
NAMES = {"vlan": "vlan", "arp": "arp", "ip": "ipv4", "ipv6": "ipv6", "tcp": "tcp", "udp": "udp", "icmp": "icmp", "icmpv6": "icmpv6"}
TRANSPORTS = ("tcp", "udp", "icmp", "icmpv6")
FIELDS = ["frame.len", "frame.protocols", "ip.src", "ip.dst", "ipv6.src", "ipv6.dst", "tcp.srcport", "tcp.dstport", "udp.srcport", "udp.dstport"]
WHOLE_ALONE = ["ip.defragment:FALSE", "ipv6.defragment:FALSE", "udp.check_checksum:FALSE"]


def frames(file):
    """What tshark says of each frame."""
    command = ["tshark", "-n", "-r", file, "-T", "fields", "-E", "occurrence=f", "-E", "separator=;"]
    command += [word for field in FIELDS for word in ("-e", field)] + [word for option in WHOLE_ALONE for word in ("-o", option)]
    ran = subprocess.run(command, capture_output=True, text=True, check=True)
    for line in ran.stdout.splitlines():
        yield dict(zip(FIELDS, line.split(";")))


def layers(frame):
    """Its protocols, down to the first that a packet carries: behind it may stand a packet that a message is about."""
    found = []
    for name in frame["frame.protocols"].split(":"):
        if name in NAMES:
            found.append(name)
        if name in TRANSPORTS:
            break
    return found


def by_tshark(file):
    """Packets and bytes of each protocol, and of each flow with ports."""
    protocols, flows, total = collections.Counter(), collections.Counter(), 0
    for frame in frames(file):
        size, found = int(frame["frame.len"]), layers(frame)
        total += 1
        for name in set(found):
            protocols[NAMES[name]] += size
        if found and found[-1] in ("tcp", "udp"):
            version = "ipv6" if "ipv6" in found else "ip"
            ends = [frame[f"{version}.{end}"] for end in ("src", "dst")]
            ports = [int(frame[f"{found[-1]}.{end}port"]) for end in ("src", "dst")]
            flows[found[-1], *ends, *ports] += size
    return total, dict(protocols), dict(flows)


def by_decoder(file):
    ran = subprocess.run([PROGRAM, "--json", "--top", "1000000", file], capture_output=True, check=True)
    got = json.loads(ran.stdout)
    protocols = {name: count["bytes"] for name, count in got["protocols"].items() if name in NAMES.values()}
    flows = {}
    for flow in got["top"]:
        if flow["source_port"] is not None:
            key = flow["name"], flow["source"], flow["destination"], flow["source_port"], flow["destination_port"]
            flows[key] = flow["bytes"]
    return got, protocols, flows


def differences(one, other):
    return {key: (one.get(key), other.get(key)) for key in {*one, *other} if one.get(key) != other.get(key)}


def same(name, tool, wanted, got):
    differ = differences(wanted, got)
    print(f"{'DIFFERS' if differ else 'same'}: {name}: {tool}: {differ or f'{len(wanted)} numbers'}"[:1000])
    return not differ


def compare(name, file, has_tags):
    got, protocols, flows = by_decoder(file)
    good = True
    if shutil.which("tshark"):
        total, their_protocols, their_flows = by_tshark(file)
        good &= same(name, "tshark, packets", {"all": total}, {"all": got["packets"]})
        good &= same(name, "tshark, bytes by protocol", their_protocols, protocols)
        good &= same(name, "tshark, bytes of flows with ports", their_flows, flows)
    if shutil.which("tcpdump"):
        filters = {"": "all"} if has_tags else {"": "all", "arp": "arp", "ip": "ipv4", "ip6": "ipv6"}
        wanted = {word: counted_by_tcpdump(file, word) for word in filters}
        ours = {word: got["packets"] if not word else count_of(got, name) for word, name in filters.items()}
        good &= same(name, "tcpdump, packets", wanted, ours)
    return good


def count_of(got, protocol):
    return got["protocols"].get(protocol, {"packets": 0})["packets"]


def counted_by_tcpdump(file, word):
    command = ["tcpdump", "-n", "-r", file, "--count", *([word] if word else [])]
    return int(subprocess.run(command, capture_output=True, text=True, check=True).stdout.split()[0])


def main():
    global PROGRAM
    parser = argparse.ArgumentParser(description=__doc__.split("\n")[0])
    parser.add_argument("--program", default=PROGRAM)
    parser.add_argument("files", nargs="*", metavar="FILE")
    given = parser.parse_args()
    PROGRAM = pathlib.Path(given.program).resolve()
    absent = [tool for tool in ("tshark", "tcpdump") if not shutil.which(tool)]
    for tool in absent:
        print(f"passed over: {tool} isn't installed; it stands in the Debian package of this name")
    if len(absent) == 2:
        return
    cases = [(file, file, True) for file in given.files]
    with tempfile.TemporaryDirectory() as folder:
        if not cases:
            made, recorded = f"{folder}/made.pcap", f"{folder}/recorded.pcap"
            pathlib.Path(made).write_bytes(captures.capture(decoder.good_packets(), ">", "nanoseconds"))
            cases = [("loopback.pcap", str(LOOPBACK), False), ("each kind of packet", made, True)]
            ran = subprocess.run([sys.executable, TOP / "tools/record_capture.py", recorded], capture_output=True, text=True)
            if ran.returncode == 0:
                cases.append(("recorded now", recorded, False))
            else:
                print(f"passed over: nothing could be recorded: {ran.stderr.strip()}")
        good = [compare(*case) for case in cases]
    sys.exit(0 if all(good) else 1)


main()
