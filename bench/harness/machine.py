"""On what a measurement was made."""
import datetime
import os
import re
import subprocess
from pathlib import Path

from .programs import TOP


def processor():
    found = re.search(r"model name\s*: (.*)", Path("/proc/cpuinfo").read_text())
    return found[1] if found else "a processor that tells no name"


def commit():
    ran = subprocess.run(["git", "describe", "--always", "--dirty"], cwd=TOP, capture_output=True, text=True)
    return ran.stdout.strip() or "no commit"


def described(given):
    load = os.getloadavg()[0]
    return (
        f"{datetime.date.today()}, {commit()}, {processor()}, {os.cpu_count()} cores, load {load:.1f}, "
        f"pinned to core {given.core}, or each thread to a core of its own\n"
        f"{given.rounds} runs of 3 turns of {given.count} buffers, in turn"
    )
