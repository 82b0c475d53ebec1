"""Any other program of this folder: what it prints."""
import subprocess

from . import programs


def measure(name, trial=(), words=()):
    """What prints the output of this program with these words. `trial` are those of the run that builds it."""

    def measured(_given):
        program = programs.rattle_program(name, trial)
        ran = subprocess.run([program, *words], stdout=subprocess.PIPE, text=True, check=True)
        (programs.OUT / f"{name}.txt").write_text(ran.stdout)
        return ran.stdout

    return measured
