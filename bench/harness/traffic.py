"""A large capture, made from scratch: what a busy link carries, by sizes and by flows."""
import random
import sys

from . import programs

sys.path.insert(0, str(programs.TOP / ".ci"))
import captures

# How many packets differ; the file repeats them.
DIFFERENT = 60_000

# How many flows there are, and of how many each second packet is.
FLOWS, HEAVY = 20_000, 20

# Sizes of packets and how often they come: small ones, those in between, and full ones, as links have them.
SIZES = [(64, 7), (576, 4), (1514, 5)]


def address(number, is_of_6):
    return f"2001:db8::{number >> 16:x}:{number & 0xFFFF:x}" if is_of_6 else f"10.{number >> 16 & 255}.{number >> 8 & 255}.{number & 255}"


def packet(draw):
    """A packet of TCP or UDP, one in five of IPv6, one in ten with a tag."""
    flow = draw.randrange(HEAVY if draw.random() < 0.5 else FLOWS)
    size = draw.choices([size for size, _ in SIZES], [often for _, often in SIZES])[0]
    is_of_6, is_tagged = flow % 5 == 0, flow % 10 == 0
    is_udp = flow % 4 == 3
    room = size - 14 - 4 * is_tagged - (40 if is_of_6 else 20) - (8 if is_udp else 20)
    make = captures.udp if is_udp else captures.tcp
    layer = make(flow % 50_000 + 1024, 443, draw.randbytes(max(room, 0)))
    ip = captures.ipv6 if is_of_6 else captures.ipv4
    carried = ip(address(flow, is_of_6), address(flow * 7 % 65_536, is_of_6), layer)
    kind = 0x86DD if is_of_6 else 0x0800
    if is_tagged:
        return captures.ethernet(0x8100, captures.vlan(7, kind, carried))
    return captures.ethernet(kind, carried)


def write(file, least):
    """Writes a capture of at least so many bytes, unless it stands there. Returns how many packets it has."""
    draw = random.Random(1)
    records = b"".join(captures.record("<", packet(draw)) for _ in range(DIFFERENT))
    times = -(-least // len(records))
    if not file.exists() or file.stat().st_size != 24 + times * len(records):
        with open(file, "wb") as out:
            out.write(captures.file_header("<", "microseconds"))
            for _ in range(times):
                out.write(records)
    return times * DIFFERENT
