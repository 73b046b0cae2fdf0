"""Proves and builds a program of this folder over the crates of the repository."""
import pathlib
import shutil
import subprocess
import sys

HERE = pathlib.Path(__file__).resolve().parent
ROOT = HERE.parent


def build(folder, name, libraries, arguments):
    """Builds bench/NAME.rattle in a folder of its own, runs it once with these arguments, and returns the program's path.
    What its functions pick for proofs alone is in bench/NAME_proofs, a file a function. (The gate takes no file of code
    outside crates/, so these have names of their own.)"""
    shutil.copytree(ROOT / "crates", folder / "crates", ignore=shutil.ignore_patterns("wrong-bodies"))
    source = folder / "crates/nmvs_bench/src"
    source.mkdir(parents=True)
    shutil.copy(HERE / f"{name}.rattle", source / "main.rt")
    for picked in (HERE / f"{name}_proofs").glob("*"):
        of_function = folder / "crates/nmvs_bench/proofs" / picked.name
        of_function.mkdir(parents=True)
        shutil.copy(picked, of_function / "Invariants.antt")
    lines = (ROOT / "crates.txt").read_text() + f"nmvs_bench: {libraries} anyhow\n"
    (folder / "crates.txt").write_text(lines)
    shutil.copy(ROOT / "HANDLES", folder)
    subprocess.run(["git", "init", "-q"], cwd=folder, check=True)
    crate = folder / "crates/nmvs_bench"
    subprocess.run(["rt", "run", "--", *arguments], cwd=crate, stdin=subprocess.DEVNULL, stdout=sys.stderr, check=True)
    return crate / "out/nmvs_bench"
