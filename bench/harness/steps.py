"""The atomic steps of a post and a take by themselves, in C++."""
import subprocess

from . import programs
from .measure import pinned


def measure(given):
    program = programs.steps()
    ran = subprocess.run([program], stdout=subprocess.PIPE, text=True, check=True, preexec_fn=pinned(given.core))
    (programs.OUT / "steps.txt").write_text(ran.stdout)
    return ran.stdout
