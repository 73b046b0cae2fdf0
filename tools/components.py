"""The components of the programs: the ported crates that they are built from, with the versions that the toolchain names, and what
the package needs. As a bill of materials in CycloneDX's form."""
import os
import pathlib
import re
import shutil
import uuid

TOP = pathlib.Path(__file__).resolve().parent.parent
# What the package needs of the system: by packaging/debian/control.
SYSTEM = {"python3": "nmvs-ctl, nmvs-qualify and nmvs-workbook", "adduser": "the installation", "libc6": "the programs", "haproxy": "the gateway", "rsync": "back-ups"}


def direct():
    """The crates of crates.txt, each with the libraries that its line names."""
    lines = re.findall(r"^(nmvs_\w+)[^:\n]*:(.*)$", (TOP / "crates.txt").read_text(), re.M)
    return {name: listed.split() for name, listed in lines}


def ported():
    """The libraries of the toolchain that crates.txt names."""
    named = direct()
    return sorted({it for listed in named.values() for it in listed} - set(named))


def differences():
    """Where docs/PROOFS.md lists other ported crates than are in use."""
    page = (TOP / "docs/PROOFS.md").read_text()
    listed = re.search(r"Ported crates in use:\n(.*?)\n\n(?!-)", page, re.S)
    names = set(re.findall(r"`(\w+)`", listed[1])) if listed else set()
    in_tests = {it for path in (TOP / "tests").rglob("*.rattle") for it in re.findall(r"^ *(?:pub )?use (\w+)::", path.read_text(), re.M)}
    yield from (f"docs/PROOFS.md does not list {it}, which crates.txt names" for it in ported() if it not in names)
    yield from (f"docs/PROOFS.md lists {it}, which nothing uses" for it in names - {*ported(), *in_tests, "FoldHasher"})


def kit():
    """The folder of the toolchain, and its name."""
    command = shutil.which("rt")
    if not command:
        return None, "unknown"
    folder = pathlib.Path(os.path.realpath(command)).parent.parent
    return folder, (folder / "KIT-ID").read_text().splitlines()[0]


def version_of(folder, name):
    """The Rust crate that a library ports, with its version, by the toolchain's page of the library; or nothing."""
    page = folder / "rattle" / name / "README.md" if folder else None
    head = page.read_text()[:1500] if page and page.is_file() else ""
    found = re.search(r"Rust crates? `([\w-]+)` (\d+\.\d+[\w.+-]*\w)", head)
    return (found[1], found[2]) if found else None


def part(kind, name, version, why, scope=None):
    """A component in CycloneDX's form."""
    more = {key: value for key, value in (("version", version), ("scope", scope)) if value}
    return {"type": kind, "bom-ref": name, "name": name, "description": why, **more}


def component(folder, toolchain, name):
    """A ported crate. Its own version is the toolchain's, and its ancestor is the Rust crate."""
    it = part("library", name, toolchain, "ported crate of the Rattle toolchain")
    if origin := version_of(folder, name):
        ancestor = {"type": "library", "name": origin[0], "version": origin[1], "purl": f"pkg:cargo/{origin[0]}@{origin[1]}"}
        it["pedigree"] = {"ancestors": [ancestor]}
    return it


def bill(commit, moment):
    """The bill of materials of this commit."""
    folder, toolchain = kit()
    version = re.search(r'VERSION: &str = "([\d.]+)', (TOP / "crates/nmvs_operator/src/command_line.rt").read_text())[1]
    own = [part("library", it, version, "crate of the repository") for it in direct()]
    system = [part("application", it, None, f"for {why}", "optional" if it in ("haproxy", "rsync") else "required") for it, why in SYSTEM.items()]
    compiler = part("application", "rattle", toolchain, "compiler, prover and standard library", "excluded")
    return {
        "bomFormat": "CycloneDX",
        "specVersion": "1.5",
        "serialNumber": f"urn:uuid:{uuid.uuid5(uuid.NAMESPACE_URL, commit)}",
        "version": 1,
        "metadata": {"timestamp": moment, "component": part("application", "nmvs", version, f"commit {commit}")},
        "components": [*own, *(component(folder, toolchain, it) for it in ported()), compiler, *system],
        "dependencies": [{"ref": "nmvs", "dependsOn": [*direct()]}, *({"ref": name, "dependsOn": listed} for name, listed in direct().items())],
    }
