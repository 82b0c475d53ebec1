"""What a measurement needs of the machine, and which Debian packages have it."""
import shutil
import subprocess
import sys
from dataclasses import dataclass
from pathlib import Path


@dataclass(frozen=True)
class Peer:
    """An allocator that a program can be started with in place of the C library's."""

    name: str
    library: str
    package: str

    def path(self):
        """Its library's file, or None where it isn't installed. The C library's own has the empty path."""
        if not self.library:
            return ""
        found = sorted(Path("/usr/lib").glob(f"*-linux-gnu/{self.library}"))
        return str(found[0]) if found else None


PEERS = [
    Peer("glibc", "", "libc6"),
    Peer("jemalloc", "libjemalloc.so.2", "libjemalloc2"),
    Peer("tcmalloc", "libtcmalloc_minimal.so.4", "libtcmalloc-minimal4"),
    Peer("mimalloc", "libmimalloc.so.2", "libmimalloc2.0"),
    Peer("tbbmalloc", "libtbbmalloc_proxy.so.2", "libtbbmalloc2"),
]


def has(command):
    return shutil.which(command) is not None


def dpdk():
    """What the compiler is told of DPDK: words for sources, and words for libraries. None where it isn't installed."""
    if not has("pkg-config"):
        return None
    asked = [["pkg-config", which, "libdpdk"] for which in ("--cflags", "--libs")]
    told = [subprocess.run(command, stdout=subprocess.PIPE, stderr=subprocess.DEVNULL, text=True) for command in asked]
    return None if any(it.returncode for it in told) else tuple(it.stdout.split() for it in told)


def missing():
    """Lines that say what is missing and which packages have it. Without a compiler or rt it stops."""
    absent = [peer for peer in PEERS if peer.path() is None]
    lines = [f"bench: no {peer.name}: it stands in the Debian package {peer.package}" for peer in absent]
    if dpdk() is None:
        lines.append("bench: no mempool: it needs the Debian packages libdpdk-dev and pkg-config")
    if not has("valgrind"):
        lines.append("bench: no instruction counts: valgrind stands in the Debian package valgrind")
    if not has("g++"):
        sys.exit("bench: g++ is needed, of the Debian package g++")
    if not has("rt"):
        sys.exit("bench: rt is needed, the command of the Rattle kit")
    return lines
