"""The evidence in the sources of the repository: definitions, functions with their contracts, laws, wrong bodies, examples and
tests. Each has its file and line, and the articles of Regulation (EU) 2016/161 that its comment names."""
import collections
import functools
import importlib.machinery
import importlib.util
import pathlib
import re
import sys

TOP = pathlib.Path(__file__).resolve().parent.parent
CRATES = TOP / "crates"

# A thing of the sources: its crate (or tool), the module or type that has it, its name, its place, its comment, and its text.
Thing = collections.namedtuple("Thing", "crate owner name file line comment text")
Function = collections.namedtuple("Function", (*Thing._fields, "kind"))
# The articles that a text names, as 'Article 13(1)(b)' and 'Articles 22, 25 and 40'.
POINT = r"\d+(?: ?\(\w+\))*"
NAMED = re.compile(rf"Articles?\s+({POINT}(?:(?:, | and |, and | or | to |\s+--\s*|\s+///\s*){POINT})*)")
DEFINITION = re.compile(r"^(?:abbrev|unfoldable)(?: mutual)? pub (?P<name>[^\s:(]+)|^pub (?:record|data) (?P<other>[^\s:(]+)")
FUNCTION = re.compile(r"^(?P<indent> *)(?P<pub>pub(?:\(crate\))? )?(?:const )?fn (?P<name>\w+)")
CLAUSE = re.compile(r"\b(?:ensures|requires)\b")
# A name in a clause, and the module in front of it.
CITED = re.compile(r"(?<![\w.◌-])(\w+\.)?([A-Za-z_◌][\w◌-]*)")


def articles_of(text):
    """The articles that a text names, each with its points: '13(1)(b)'. A range of articles is each of them."""
    found = set()
    for named in NAMED.findall(re.sub(r"\s+(?:--|///|//!)?\s*", " ", text)):
        parts = re.findall(rf"({POINT})( to)?", named)
        for (point, is_first), (last, _) in zip(parts, [*parts[1:], ("0", "")]):
            found.add(point.replace(" ", ""))
            found |= {str(it) for it in range(int(point), int(last))} if is_first and point.isdigit() and last.isdigit() else set()
    return found


def place(path):
    return str(path.relative_to(TOP))


def sources(folder, suffix):
    """The files of each crate below a folder of it: the crate's name, and the path."""
    return [(crate.name, it) for crate in sorted(CRATES.iterdir()) for it in sorted((crate / folder).rglob(f"*{suffix}"))]


def comment_above(lines, at, mark):
    """The comment that ends right above a line."""
    first = at
    while first and (lines[first - 1].lstrip().startswith(mark) or lines[first - 1].lstrip().startswith("#[")):
        first -= 1
    return " ".join(it.strip().removeprefix(mark).strip() for it in lines[first:at] if it.lstrip().startswith(mark))


def definitions():
    """Each public definition, with its text up to the next blank line."""
    for crate, path in sources("specs", ".antt"):
        lines = path.read_text().splitlines()
        module = ".".join(path.relative_to(CRATES / crate / "specs").with_suffix("").parts)
        head = " ".join(it[2:].strip() for it in lines[: next((n for n, it in enumerate(lines) if not it.startswith("--")), 0)])
        for at, line in enumerate(lines):
            if found := DEFINITION.match(line):
                end = next((it for it in range(at, len(lines)) if not lines[it].strip()), len(lines))
                comment = comment_above(lines, at, "--")
                text = "\n".join(lines[at:end])
                inner = " ".join(it.strip()[2:] for it in lines[at:end] if it.strip().startswith("--"))
                yield Thing(crate, module, found["name"] or found["other"], place(path), at + 1, f"{comment} {inner} {head * (not comment)}".strip(), text)


def contract_from(lines, at, indent):
    """The lines of a function from its head to the line that begins its body, and whether the body is empty."""
    for last in range(at, len(lines)):
        line = lines[last]
        if line in (indent + "{", indent + "{}") or (last == at and line.rstrip().endswith("{")):
            return "\n".join(lines[at:last]), line == indent + "{}"
        if line == indent + "}" or line.rstrip().endswith(";") and last == at:
            break
    return "", False


def functions():
    """Each function with a contract: law, public or private. A law has an empty body and no parameters. Its text is its clauses."""
    owner_of = wrong_bodies().owner_of
    for crate, path in sources("src", ".rt"):
        lines, owner, of_trait = path.read_text().splitlines(), "", False
        for at, line in enumerate(lines):
            if line.startswith("impl"):
                head = " ".join(map(str.strip, lines[at : at + 6])).partition("{")[0]
                owner, of_trait = owner_of(head), " for " in head
            elif line == "}":
                owner, of_trait = "", False
            if not (found := FUNCTION.match(line)):
                continue
            text, is_empty = contract_from(lines, at, found["indent"])
            head, clause, rest = re.split(r"\b((?:ensures|requires)\b)", text, maxsplit=1) if CLAUSE.search(text) else (text, "", "")
            if clause:
                is_law = is_empty and found["pub"] == "pub " and re.search(r"fn \w+(?:<[^>]*>)?\(\)", head)
                kind = "law" if is_law else "public" if found["pub"] == "pub " or of_trait else "private"
                yield Function(crate, owner, found["name"], place(path), at + 1, comment_above(lines, at, "///"), clause + rest, kind)


@functools.cache
def wrong_bodies():
    """The tool that reads and tries edits."""
    sys.dont_write_bytecode = True
    loader = importlib.machinery.SourceFileLoader("wrong_bodies", str(TOP / "tools/wrong-bodies"))
    module = importlib.util.module_from_spec(importlib.util.spec_from_loader("wrong_bodies", loader))
    loader.exec_module(module)
    return module


def edits():
    """Each wrong body: its path, whether the gate tries it, and the functions that it changes, as crate, owner and name."""
    read = wrong_bodies().read_edit
    for crate in sorted(CRATES.iterdir()):
        for path in sorted([*crate.glob("must-fail/*.edit"), *crate.glob("wrong-bodies/**/*.edit")]):
            changed = {(crate.name, it.owner, it.name) for it in read(path, crate).functions}
            yield place(path), path.parent.name in ("must-fail", "gate"), changed


def gate_tools():
    """The tools that ./nmvs-test runs."""
    return set(re.findall(r"^add (\S+/[\w-]+)", (TOP / "nmvs-test").read_text(), re.M))


def tests():
    """Each test by its name on a page, with its place and whether the gate runs it."""
    for path in [*sorted((TOP / "tests").rglob("*.rattle")), *sorted((CRATES / "nmvs_tests/src").rglob("*.rt"))]:
        lines = path.read_text().splitlines()
        for at, line in enumerate(lines):
            if line.strip() == "#[test]" and (found := FUNCTION.match(lines[at + 1])):
                yield found["name"], place(path), at + 2, True
    for path in [*(TOP / "tools").iterdir(), *(TOP / "packaging").iterdir()]:
        if path.is_file() and path.name.endswith(("-tests", "-growths", "-in-browser", "-faults")):
            for number, line in enumerate(path.read_text().splitlines(), 1):
                if found := re.match(r"def (\w+)\(|function (\w+)|(\w+)\(\) \{", line):
                    yield f"{path.name} {next(filter(None, found.groups()))}", place(path), number, place(path) in gate_tools()
    for crate, path in sources("proofs", "Example.antt"):
        lines = path.read_text().splitlines()
        for at, line in enumerate(lines):
            if found := re.match(r"([\w-]+) : ", line):
                yield f"{path.stem}.{found[1]}", place(path), at + 1, True


@functools.cache
def imports_of(file):
    """The definitions that a file imports: crate, module and name of each, by its name there. A whole module, by its name there with
    a dot, has no name of a definition."""
    found, text = {}, (TOP / file).read_text()
    for crate, module, names in re.findall(r"^(?:ghost |pub )*use Rattle\.(\w+)\.specs\.([\w.]+)\.\{([^}]*)\}", text, re.M):
        for name in filter(None, map(str.strip, names.split(","))):
            first, _, other = name.partition(" as ")
            found[other or first] = (crate, module, first)
    for crate, module, other in re.findall(r"^(?:ghost |pub )*use Rattle\.(\w+)\.specs\.([\w.]+) as (\w+)", text, re.M):
        found[other + "."] = (crate, module, None)
    return found


def key(thing):
    return thing.crate, thing.owner, thing.name


def cited_by(thing):
    """The definitions that a contract or a definition cites by itself, as crate, module and name."""
    imported, cited = imports_of(thing.file), set()
    for front, word in CITED.findall(thing.text):
        if front in imported:
            cited.add((*imported[front][:2], word))
        else:
            cited.add(imported.get(word, (thing.crate, thing.owner, word)))
    return cited


def used_by_contracts(defined, with_contract):
    """The definitions that some contract cites, by itself or through others."""
    through = {key(it): cited_by(it) for it in defined}
    found, new = set(), {it for one in with_contract for it in cited_by(one)} & set(through)
    while new:
        found |= new
        new = {it for one in new for it in through[one]} & set(through) - found
    return found
