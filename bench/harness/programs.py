"""Builds what is measured.

A Rattle program of this folder is no crate of the repository, so that `rt ci` doesn't prove it: its files end in `.in`.
It is built in a work folder outside, together with copies of the crates that it stands on. Proofs that a check of those
crates has kept are copied too, and nothing is written back."""
import contextlib
import fcntl
import os
import shutil
import subprocess
import sys
from pathlib import Path

from . import packages

HERE = Path(__file__).resolve().parent.parent
TOP = HERE.parent
OUT = HERE / "out"
WORK = Path(os.environ.get("XDG_CACHE_HOME") or Path.home() / ".cache") / "fustrevol-bench"


@contextlib.contextmanager
def only_one():
    """Waits until no other measurement runs: two would disturb one another, and they share the work folder."""
    WORK.mkdir(parents=True, exist_ok=True)
    OUT.mkdir(exist_ok=True)
    with open(WORK / "lock", "w") as lock:
        fcntl.flock(lock, fcntl.LOCK_EX)
        yield


def compiled(name, sources, command):
    """A program in out/, made anew where a source is newer."""
    OUT.mkdir(exist_ok=True)
    program = OUT / name
    newest = max(source.stat().st_mtime for source in sources)
    if not program.exists() or program.stat().st_mtime < newest:
        subprocess.run([*command, "-o", program], check=True)
    return program


def cpp_bench():
    folder = HERE / "cpp"
    flags = ["-std=c++17", "-O2", "-Wall", "-Wextra", "-fno-builtin-malloc"]
    return compiled("cpp_bench", [*folder.iterdir()], ["g++", *flags, folder / "cpp_bench.cpp"])


# How programs with threads are compiled.
THREADED = ["-std=c++17", "-O2", "-Wall", "-Wextra", "-fno-builtin-malloc", "-pthread"]


def threaded(source):
    """A program in C++ with threads, which lends from malloc."""
    folder = HERE / "cpp"
    return compiled(Path(source).stem, [*folder.iterdir()], ["g++", *THREADED, folder / source])


def with_mempool(source):
    """The same, which also lends from DPDK's rte_mempool; None where DPDK isn't installed."""
    folder, told = HERE / "cpp", packages.dpdk()
    if told is None:
        return None
    includes, libraries = told
    command = ["g++", *THREADED, "-DMEMPOOL", *includes, folder / source, *libraries]
    return compiled(f"mempool_{Path(source).stem}", [*folder.iterdir()], command)


def threads_bench():
    return threaded("threads_bench.cpp")


PROVED = TOP / "crates/fustrevol_c/out/libfustrevol_c.a"
NOT_BUILT = "bench: the C library isn't built: run `rt lib` in crates/fustrevol_c"


def library():
    """The C library, whose proved part `rt lib` has built."""
    if not PROVED.exists():
        sys.exit(NOT_BUILT)
    subprocess.run(["make", "-s", "-C", TOP / "c", "build/libfustrevol.a"], check=True)
    return TOP / "c/build/libfustrevol.a"


def with_library(source):
    """A program in C++ that lends from the C library, too."""
    folder, archive = HERE / "cpp", library()
    name = f"library_{Path(source).stem}"
    command = ["g++", *THREADED, "-DLIBRARY", "-I", TOP / "c", folder / source, archive]
    return compiled(name, [*folder.iterdir(), archive], command)


def with_library_if_built(source):
    """The same, or None where the C library isn't built."""
    if PROVED.exists():
        return with_library(source)
    print(f"{NOT_BUILT}; its columns are left out of {Path(source).stem}", file=sys.stderr)
    return None


def library_bench():
    return with_library("cpp_bench.cpp")


def library_threads_bench():
    return with_library("threads_bench.cpp")


def pin():
    source = HERE / "cpp" / "pin.cpp"
    flags = ["-std=c++17", "-O2", "-Wall", "-Wextra", "-shared", "-fPIC"]
    return compiled("pin.so", [source], ["g++", *flags, source])


def road():
    source = HERE / "cpp" / "road.cpp"
    return compiled("road", [source], ["g++", *THREADED, source])


def steps():
    source = HERE / "cpp" / "steps.cpp"
    return compiled("steps", [source], ["g++", "-std=c++17", "-O2", "-Wall", "-Wextra", source])


def parse():
    source = HERE / "replay" / "parse.c"
    return compiled("parse", [source], ["gcc", "-O2", "-Wall", "-Wextra", source])


def listed(file):
    """The lines of a list of crates, by the crate's name."""
    lines = file.read_text().splitlines()
    return {line.partition(":")[0].split()[0]: line for line in lines if line.strip() and not line.startswith("#")}


# Those that a table is of, or that go by another name.
OF_TABLES = ["desk_bench", "jobs_bench", "road_bench", "defaults_bench", "idle_bench", "edges_bench"]


def further():
    """The programs of crates.txt.in beside these: each prints a table of its own."""
    return [name for name in listed(HERE / "crates.txt.in") if name not in OF_TABLES]


def needed(name, lines):
    """The crate and all of ours that it stands on."""
    found = [name]
    for crate in found:
        found += [it for it in lines[crate].partition(":")[2].split() if it in lines and it not in found]
    return found


def renew(folder, at):
    """Makes `at` a copy of the folder, with no `.in` behind the names of its files."""
    shutil.rmtree(at, ignore_errors=True)
    for source in folder.rglob("*"):
        if source.is_file():
            to = at / source.relative_to(folder)
            to.parent.mkdir(parents=True, exist_ok=True)
            shutil.copyfile(source, to.with_name(to.name.removesuffix(".in")))


def take_proofs(crate, to):
    """Copies the proofs that the crate has kept, unless they were taken before."""
    stamp, taken = crate / "out/rlib/stamp", to / "taken"
    if stamp.exists() and (not taken.exists() or taken.read_text() != stamp.read_text()):
        shutil.rmtree(to / "out/rlib", ignore_errors=True)
        shutil.copytree(crate / "out/rlib", to / "out/rlib")
        shutil.copyfile(stamp, taken)


def lay_out(name, at):
    """Copies a Rattle program, and the sources of the crates that it stands on, to a folder. Gives these crates, by
    where their copies lie."""
    lines = listed(TOP / "crates.txt") | listed(HERE / "crates.txt.in")
    names, ours = needed(name, lines), {}
    for it in names:
        is_ours = (HERE / it).is_dir()
        crate, to = HERE / it if is_ours else TOP / "crates" / it, at / "crates" / it
        for part in ("src", "specs", "proofs"):
            renew(crate / part, to / part)
        if not is_ours:
            ours[to] = crate
    (at / "crates.txt").write_text("".join(f"{lines[it]}\n" for it in names))
    shutil.copyfile(TOP / "HANDLES", at / "HANDLES")
    return ours


def rattle_program(name, words):
    """Proves and builds a Rattle program, and runs it once with these words."""
    for to, crate in lay_out(name, WORK).items():
        take_proofs(crate, to)
    print(f"bench: building {name} in {WORK}; the first time proves it, which takes minutes", file=sys.stderr)
    with open(OUT / f"{name}.log", "w") as log:
        command = ["rt", "run", "--jobs", "1", "--", *words]
        ran = subprocess.run(command, cwd=WORK / "crates" / name, stdin=subprocess.DEVNULL, stdout=log, stderr=log)
    if ran.returncode:
        sys.exit(f"bench: {name} was not built: {log.name} says why")
    return WORK / "crates" / name / "out" / name


def desk_bench():
    return rattle_program("desk_bench", ["pair", "1000", "1"])


def jobs_bench():
    return rattle_program("jobs_bench", ["replace1", "1000", "1", "inbox"])


def road_bench():
    return rattle_program("road_bench", ["1000", "64"])


def defaults_bench():
    return rattle_program("defaults_bench", ["prodcons", "64", "1000", "0", "default", "0"])


def idle_bench():
    return rattle_program("idle_bench", ["receive", "1"])


def poolctl():
    return rattle_program("poolctl", ["classes"])
