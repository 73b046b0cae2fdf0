"""The rows of the program, read from its sources: the words of the formats, the problems of HTTP, and the metrics.

Where a row has a form that this reader does not know, an error ends the tool that reads it. So no row is left out in silence.
"""
import json
import pathlib
import re

TOP = pathlib.Path(__file__).resolve().parent.parent


def source(path):
    return (TOP / "crates" / path).read_text()


def families():
    """Name, type, help and two labels of each metric."""
    row = r'Family \{\s+name: "(\w+)",\s+kind: "(\w+)",\s+help: "([^"]*)",\s+labels: \("(\w*)", "(\w*)"\),'
    return re.findall(row, source("nmvs_metrics/src/registry.rt"))


def read(path, name, form):
    """What this form finds in the rows of a constant, a word first. There is nothing else in them, and no word twice."""
    body = re.search(rf"const {name}: [^=]*= &?\[\n(.*?)^\];", source(path), re.M | re.S)
    found = re.findall(form, body[1]) if body else []
    if not found or re.sub(form, "", body[1]).strip(" ,\n") or len({word for word, *_ in found}) != len(found):
        raise ValueError(f"{path}: {name} has no rows, a row of another form, or a word twice")
    return found


def table(path, name):
    """Word, value and source of each row. The source stands after the row, or for all rows in the comment above."""
    found = read(path, name, r'\(\s*"([A-Z_]+)",\s*([\w:]+(?:\([\w:()]+\))?),?\s*\),(?: // (.+))?')
    comment = re.search(rf"((?:^/// .*\n)+)^pub const {name}:", source(path), re.M)
    of_all = comment and re.search(r"(?<=\()own\b|(?:after )?Articles? [^().]+", comment[1])
    if not (of_all or all(own for *_, own in found)):
        raise ValueError(f"{path}: a row of {name} has no source")
    return [(word, value.removeprefix("Problem::"), own or of_all[0]) for word, value, own in found]


def found_in(path, form, sign):
    """What this form finds in a file. Outside of what it finds there is no such sign of more."""
    found = re.findall(form, source(path))
    if not found or sign in re.sub(form, "", source(path)):
        raise ValueError(f"{path} has nothing of the form {form}, or {sign} in another form")
    return found


WORDS = "nmvs_words/src/words.rt"
QUESTIONS = table("nmvs_words/src/question_kind.rt", "QUESTIONS")
REPLIES = table("nmvs_words/src/reply_kind.rt", "REPLIES")
FAULTS = table("nmvs_messages/src/fault.rt", "FAULTS")
ROLES, REFUSALS, CAUSES = table(WORDS, "ROLES"), table(WORDS, "REFUSALS"), table(WORDS, "CAUSES")
# A report is no question of the trail, and so it has no row.
REPORT = ("REPORT", "Report", "own, after Articles 36 and 39")
# The fields of a reply that are words, with their rows. Those of two words have a function in place of rows.
PAIRS = found_in(WORDS, r"(?s)pub fn (\w+)_named\(word: &str\) -> Option<bool>(.*?)\n}", "Option<bool>")
PAIR_OF = {name: [(word, "", "own") for word in re.findall(r'"(\w+)" =>', body)] for name, body in PAIRS}
FIELDS = {
    "own": table(WORDS, "OWN_STATUSES"), "lock": table(WORDS, "LOCKS"), "onward": table(WORDS, "ONWARDS"),
    "validity": PAIR_OF["validity"], "cause": CAUSES, "flag": PAIR_OF["flag"], "refusal": REFUSALS,
}
# The members of a question over HTTP, and the faults of a scan.
MEMBERS = found_in("nmvs_json/src/refusal.rt", r'Member::\w+ => "(\w+)"', '=> "')
SCAN_FAULTS = found_in("nmvs_json/src/reply.rt", r'ScanFault::\w+(?:\(_\))? => b"(\w+)"', "ScanFault::")


def words(rows):
    return [word for word, *_ in rows]


def lines():
    """The word of each question with the fields after it, and that of a report."""
    found = found_in("nmvs_json/src/asked_kind.rt", r"Kind::(\w+)(?:\(_\))?\)? => (?:\{\s+)?&\[(.*?)\]", "&[Member::")
    members = {kind: [it.lower() for it in re.findall(r"Member::(\w+)", text)] for kind, text in found}
    return {word: members[value.partition("(")[0]] for word, value, _ in (*QUESTIONS, REPORT)}


def reply_fields():
    """The word of each reply with the names of the fields after it, and that of a report."""
    form = r'\(\s*"([A-Z_]+)",\s*&\[((?:\s*Place::(?:Label|\w+\(b"\w+"\)),?)*)\s*\],?\s*\)'
    found = {word: re.findall(r'b"(\w+)"', places) for word, places in read("nmvs_json/src/reply.rt", "ROWS", form)}
    if list(found) != [*words(REPLIES), "PRODUCT"]:
        raise ValueError("nmvs_json/src/reply.rt: ROWS has other words than the replies")
    return found


def request_problems():
    """The problem of each fault of a request, by its word."""
    form = r'(?s)b"(\{\\"type\\".*?)(?:\}\\n)?",?\n'
    found = [text for path in ("nmvs_http/src/response.rt", "nmvs_json/src/refusal.rt") for text in found_in(path, form, '\\"fault\\":')]
    problems = [json.loads(re.sub(r"\\\n *", "", text).replace('\\"', '"') + "}") for text in found]
    return {one["fault"]: one for one in problems}


def question_problems():
    """The problem of each fault of a question, with whether its response has the field Retry-After."""
    form = r'Some\(Problem::(\w+)\) =>\s+b"HTTP/1\.1 (\d+) ([\w ]+)\\r\\n(retry-after: 1)?'
    of_problem = {name: it for name, *it in found_in("nmvs_http/src/response.rt", form, "Some(Problem::")}
    recorded = dict(found_in("nmvs_json/src/reply.rt", r'(?:Problem::)?(\w+) => b",\\"recorded\\":\\"(\w+)\\""', '\\"recorded\\":'))
    details = dict(read("nmvs_json/src/reply.rt", "DETAILS", r'\(\s*"([A-Z]+)",\s*"([^"\\]+)",?\s*\)'))
    of_fault = {word: problem for word, problem, _ in FAULTS}
    for word in [word for word in of_fault if word in details] + [word for word in details if word not in of_fault]:
        problem = of_fault.get(word, "Unknown")
        status, title, retry = of_problem[problem]
        yield {
            "type": f"/problems#{word}", "title": title, "status": int(status), "detail": details[word], "fault": word,
            "recorded": recorded.get(problem, recorded["_"]),
        }, bool(retry)


def problems():
    """The problem of each fault, by its word."""
    return request_problems() | {one["fault"]: one for one, _ in question_problems()}


def by_status(problems):
    """The words of these problems, by status and whether the question is recorded, in the order of the statuses."""
    found = {}
    for one in sorted(problems, key=lambda it: (it["status"], it["recorded"])):
        found.setdefault((one["status"], one["title"], one["recorded"]), []).append(one["fault"])
    return found
