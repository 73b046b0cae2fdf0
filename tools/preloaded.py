"""C files that are loaded before a program, compiled by the toolchain's own compiler, which is there wherever the program was
proved. It has no headers: tools/c_library.h is in their place."""
import pathlib
import shutil
import subprocess
import sys

TOOLS = pathlib.Path(__file__).resolve().parent


def compiler():
    """The path of the compiler, next to the command rt."""
    found = shutil.which("rt")
    if not found:
        sys.exit("the Rattle toolchain is not on the path")
    return pathlib.Path(found).resolve().parent.parent / "toolchain/bin/clang"


def compile_library(source, library):
    """Makes the shared library of a C file, or of a text in C."""
    words = ["-O2", "-shared", "-fPIC", "-nostdinc", "-nostdlib", "-fuse-ld=lld", f"-I{TOOLS}", "-o", library]
    if isinstance(source, str):
        subprocess.run([compiler(), *words, "-x", "c", "-"], input=source.encode(), check=True)
    else:
        subprocess.run([compiler(), *words, source], check=True)
