"""The test programs that the gate built, for the scripts that run them once more."""
import subprocess
import sys


def is_fresh(program, crate):
    """Whether the program is younger than the crate's sources."""
    sources = [path for kind in ("src", "specs", "proofs") for path in (crate / kind).rglob("*") if path.is_file()]
    return program.exists() and all(path.stat().st_mtime <= program.stat().st_mtime for path in sources)


def of(crate):
    """The built tests of the crate, and their names."""
    program = crate / "out" / f"{crate.name}_tests"
    if not is_fresh(program, crate):
        run = subprocess.run(["rt", "test"], cwd=crate, capture_output=True, text=True)
        if run.returncode != 0:
            print(run.stdout + run.stderr)
            sys.exit(2)
    listed = subprocess.run([program, "--list"], capture_output=True, text=True, check=True).stdout
    return program, [line[: -len(": test")] for line in listed.splitlines() if line.endswith(": test")]
