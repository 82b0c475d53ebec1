"""Captures made from scratch, with what has to be counted of them. Nothing here is taken from a decoder: each packet is
built header by header, and knows which bytes each header needs."""
import dataclasses
import ipaddress
import struct

# The magic numbers, by unit of the times.
MAGICS = {"microseconds": 0xA1B2C3D4, "nanoseconds": 0xA1B23C4D}
ETHERNET, RAW = 1, 101
TCP, UDP, ICMP, ICMPV6, GRE, SCTP = 6, 17, 1, 58, 47, 132
TRANSPORTS = {TCP: "tcp", UDP: "udp", ICMP: "icmp", ICMPV6: "icmpv6"}
NAMES = {**TRANSPORTS, GRE: "gre", SCTP: "sctp", 50: "esp"}


@dataclasses.dataclass
class Step:
    """A header: what it is counted under (or nothing), how many bytes of the packet have to be there for it, and what
    it makes known of the flow."""

    needs: int
    protocols: tuple = ()
    flow: dict = dataclasses.field(default_factory=dict)


@dataclasses.dataclass
class Packet:
    """A packet: its bytes, its headers, what is wrong with it behind them, and how much of it was captured."""

    data: bytes
    steps: list
    fault: str = ""
    captured: int = -1

    def kept_by(self, snap):
        """The same packet, of which at most so many bytes were captured."""
        return dataclasses.replace(self, captured=min(len(self.data), snap))

    @property
    def there(self):
        return len(self.data) if self.captured < 0 else self.captured


def checksum(data):
    data += b"\0" * (len(data) % 2)
    total = sum(struct.unpack(f"!{len(data) // 2}H", data))
    while total > 0xFFFF:
        total = (total & 0xFFFF) + (total >> 16)
    return 0xFFFF ^ total


class Layer:
    """What stands behind some header: bytes, and the steps of the headers in them, counted from its beginning."""

    def __init__(self, data, steps=(), fault="", number=None):
        self.data, self.steps, self.fault, self.number = data, list(steps), fault, number

    def behind(self, header, step):
        """This layer, with a header before it."""
        moved = [dataclasses.replace(one, needs=one.needs + len(header)) for one in self.steps]
        return Layer(header + self.data, [step, *moved], self.fault)

    def packet(self):
        return Packet(self.data, self.steps, self.fault)


def tcp(source, destination, payload=b"", options=b"", offset=None, fault=""):
    size = 20 + len(options)
    words = size // 4 if offset is None else offset
    header = struct.pack("!HHIIBBHHH", source, destination, 1, 2, words << 4, 0x18, 1024, 0, 0) + options
    step = Step(size, ("tcp",), {"source_port": source, "destination_port": destination})
    return Layer(header + payload, [] if fault else [step], fault, TCP)


def udp(source, destination, payload=b"", size=None, fault=""):
    size = 8 + len(payload) if size is None else size
    header = struct.pack("!HHHH", source, destination, size, 0)
    step = Step(8, ("udp",), {"source_port": source, "destination_port": destination})
    return Layer(header + payload, [] if fault else [step], fault, UDP)


def icmp(payload=b""):
    header = struct.pack("!BBHHH", 8, 0, 0, 7, 1)
    return Layer(header + payload, [Step(8, ("icmp",))], number=ICMP)


def icmpv6(payload=b"\0\0\0\0"):
    return Layer(struct.pack("!BBH", 128, 0, 0) + payload, [Step(4, ("icmpv6",))], number=ICMPV6)


def other(number, payload):
    """Something that isn't looked into."""
    return Layer(payload, [Step(0, ("other transport",))], number=number)


def bare(number, payload):
    """The middle of something: no header of it is there."""
    return Layer(payload, [], number=number)


def ipv4(source, destination, layer, options=b"", offset=0, more=False, **wrong):
    """An IPv4 packet. What is wrong: version, words (the header's length), size, and the fault that this is."""
    words = wrong.get("words", 5 + len(options) // 4)
    size = wrong.get("size", 20 + len(options) + len(layer.data))
    first = (wrong.get("version", 4) << 4) | words
    place = offset | (0x2000 if more else 0)
    fields = [first, 0, size & 0xFFFF, 1, place, 64, layer.number, 0]
    addresses = ipaddress.IPv4Address(source).packed + ipaddress.IPv4Address(destination).packed
    header = struct.pack("!BBHHHBBH", *fields) + addresses
    fields[-1] = checksum(header + options)
    header = struct.pack("!BBHHHBBH", *fields) + addresses + options
    if "fault" in wrong:
        return Layer(header + layer.data, [], wrong["fault"])
    protocols = ("ipv4", "ip fragment") if offset or more else ("ipv4",)
    flow = {"source": source, "destination": destination, "protocol": layer.number}
    return layer.behind(header, Step(len(header), protocols, flow))


def extension(number, layer, options=b"\x01\x04\0\0\0\0"):
    """An extension of this number: options, routes and their like, in units of eight bytes."""
    header = bytes([layer.number, (len(options) + 2) // 8 - 1]) + options
    extended = layer.behind(header, Step(len(header), (), {"protocol": layer.number}))
    extended.number = number
    return extended


def authentication(layer, check=b"\0" * 12):
    header = struct.pack("!BBHII", layer.number, (12 + len(check)) // 4 - 2, 0, 1, 1) + check
    extended = layer.behind(header, Step(len(header), (), {"protocol": layer.number}))
    extended.number = 51
    return extended


def fragment(layer, offset, more):
    header = struct.pack("!BBHI", layer.number, 0, offset << 3 | more, 99)
    protocols = ("ip fragment",) if offset or more else ()
    extended = layer.behind(header, Step(8, protocols, {"protocol": layer.number}))
    extended.number = 44
    return extended


def ipv6(source, destination, layer, **wrong):
    size = wrong.get("size", len(layer.data))
    header = struct.pack("!IHBB", wrong.get("version", 6) << 28, size, layer.number, 64)
    header += ipaddress.IPv6Address(source).packed + ipaddress.IPv6Address(destination).packed
    if "fault" in wrong:
        return Layer(header + layer.data, [], wrong["fault"])
    flow = {"source": source, "destination": destination, "protocol": layer.number}
    return layer.behind(header, Step(40, ("ipv6",), flow))


def arp(size=4):
    data = struct.pack("!HHBBH", 1, 0x0800, 6, size, 1) + bytes(12 + 2 * size)
    return Layer(data, [Step(len(data), ("arp",))])


def unknown(payload):
    return Layer(payload, [Step(0, ("other network",))])


def vlan(network, kind, layer):
    return layer.behind(struct.pack("!HH", network, kind), Step(4, ("vlan",)))


def ethernet(kind, layer, padding=0):
    header = bytes.fromhex("020000000002020000000001") + struct.pack("!H", kind)
    frame = layer.behind(header, Step(14, ("ethernet",)))
    frame.data += bytes(padding)
    return frame.packet()


def file_header(order, unit, link=ETHERNET, snap=262144, version=2):
    return struct.pack(f"{order}IHHiIII", MAGICS[unit], version, 4, 0, 0, snap, link)


def record(order, packet, number=0):
    head = struct.pack(f"{order}IIII", 1700000000 + number, number, packet.there, len(packet.data))
    return head + packet.data[: packet.there]


def capture(packets, order="<", unit="microseconds", link=ETHERNET, snap=262144):
    records = [record(order, packet, number) for number, packet in enumerate(packets)]
    return file_header(order, unit, link, snap) + b"".join(records)


def counted(packets, keep=512):
    """What has to be counted of these packets, where so many bytes of each are kept."""
    protocols, flows = {}, {}
    names = ["malformed", "short_header", "wrong_version", "header_length", "length"]
    damage = dict.fromkeys([*names, "cut_by_capture", "cut_to_buffer", "cut_in_header"], 0)
    for packet in packets:
        kept, size, flow, seen = min(packet.there, keep), len(packet.data), {}, set()
        damage["cut_by_capture"] += packet.there < size
        damage["cut_to_buffer"] += kept < packet.there
        for step in packet.steps:
            if step.needs > kept:
                damage["cut_in_header"] += 1
                break
            seen |= set(step.protocols)
            flow.update(step.flow)
        else:
            if packet.fault:
                damage["malformed"] += 1
                damage[packet.fault] += 1
        for name in seen:
            add(protocols, name, size)
        if flow:
            add(flows, tuple(sorted(flow.items())), size)
    none = {"source_port": None, "destination_port": None}
    top = [{**none, **dict(flow), "name": NAMES.get(dict(flow)["protocol"], ""), **count} for flow, count in flows.items()]
    sums = {"packets": len(packets), "bytes": sum(len(packet.data) for packet in packets)}
    return {**sums, "protocols": protocols, "damage": damage, "flows": len(flows), "top": sorted(top, key=place), "error": None}


def add(counts, key, size):
    count = counts.setdefault(key, {"packets": 0, "bytes": 0})
    count["packets"] += 1
    count["bytes"] += size


def place(flow):
    """The flow's place: those with most bytes first, and those with as many in the order of addresses and ports."""
    ends = [ipaddress.ip_address(flow[name]) for name in ("source", "destination")]
    ports = [-1 if flow[name] is None else flow[name] for name in ("source_port", "destination_port")]
    return (-flow["bytes"], *[(end.version, int(end)) for end in ends], flow["protocol"], *ports)
