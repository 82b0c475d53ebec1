"""Compiles small libraries that stand before the C library's, for the scripts that let its calls fail."""
import os
import pathlib
import shutil
import subprocess
import sys


def compiled(text, folder):
    """The library of this text, compiled into the folder; `cc`, or the kit's clang, compiles it."""
    source, library = folder / "before.c", folder / "before.so"
    source.write_text(text)
    kit = pathlib.Path(os.path.realpath(shutil.which("rt") or "rt")).parent.parent
    for compiler in ["cc", "gcc", "clang", str(kit / "toolchain" / "bin" / "clang")]:
        if shutil.which(compiler):
            words = [compiler, "-O1", "-shared", "-fPIC", "-o", str(library), str(source), "-ldl"]
            if subprocess.run(words, capture_output=True).returncode == 0:
                return library
    sys.exit("no compiler of C makes the library that lets a call fail")
