#!/usr/bin/env python3
"""The tables of the pages that are made of the program's rows.

  tools/tables.py           writes them into their pages
  tools/tables.py --check   prints each difference between a page and the rows, and ends with status 1 if there is one

A cell that says more than the row stays as a person wrote it.
"""
import difflib
import pathlib
import re
import sys

import model
import rows

TOP = pathlib.Path(__file__).resolve().parent.parent


def option_rows():
    """The row of each option of the server, by its name, in the order of the help."""
    text = re.sub(r"\\\n *", "", rows.source("nmvs_operator/src/options.rt"))
    row = r'name: "([a-z-]+)",\s+value: Value::(\w+)([^;]*?),\s+default: (?:Some\("(.*)"\)|None),\s+help: "(.+)",'
    for name, kind, value, default, text in re.findall(row, text):
        words = {"Address": ["ADDRESS"], "Number": ["N"]}.get(kind, re.findall(r'"([\w-]+)"', value))
        text += f"; one of {', '.join(f'`{it}`' for it in words[1:])}" if words[1:] else ""
        yield name, f"| `{' '.join([f'--{name}', *words[:1]])}` | {default or ('none' if words else 'off')} | {text} |"


def metric_rows():
    for name, kind, text, *labels in rows.families():
        labels = ",".join(filter(None, labels))
        yield f"`{name}{f'{{{labels}}}' if labels else ''}`", kind, text.removesuffix(".")


def order_rows():
    """A row for each line of HELP, with the effect in the comment on it."""
    table = re.search(r"^const ROWS: .*?^\];", rows.source("nmvs_operator/src/order.rt"), re.M | re.S)[0]
    for comment, word, fields in re.findall(r'((?:^    // .*\n)+)    \(\s*"(\w+)",\s*"([^"]*)",', table, re.M):
        yield f"`{word}{fields}`", " ".join(re.findall(r"// (.*)", comment))


def code(texts):
    return ", ".join(f"`{text}`" for text in texts)


def who_may_ask():
    """By the rules in plain Python, with which the tests compare the program."""
    roles = rows.words(rows.ROLES)
    for word, _, own in (*rows.QUESTIONS, rows.REPORT):
        may = [role for role in roles if role in model.ROLES.get(word, roles)]
        yield f"`{word}`", None, "all roles" if may == roles else code(may), own


def question_lines():
    for word, fields in rows.lines().items():
        yield f"`user {' '.join([word, *fields])}`", None, None


def reply_lines():
    fields = rows.reply_fields()
    for word, _, own in rows.REPLIES:
        yield f"`{' '.join([word, *fields[word]])}`", None, own


def field_words():
    for name, table in {**rows.FIELDS, "role": rows.ROLES}.items():
        sources = {own for *_, own in table}
        yield f"`{name}`", code(rows.words(table)), sources.pop() if len(sources) == 1 else "each its own: [Terminals](TERMINALS.md#refusals)"


def refusals():
    for number, (word, _, own) in enumerate(rows.REFUSALS, 1):
        yield f"`{number} {word}`", None, own


def request_statuses():
    for (status, *_), faults in rows.by_status(rows.request_problems().values()).items():
        yield str(status), code(faults)


def question_statuses():
    problems = list(rows.question_problems())
    retried = {one["fault"] for one, retry in problems if retry}
    for (status, _, recorded), faults in rows.by_status(one for one, _ in problems).items():
        yield str(status), code(faults), f"`{recorded}`", "`1`" if retried.issuperset(faults) else ""


def table_of(page, head):
    """The rows of the table under this head, as text and as cells."""
    above = "| " + " | ".join(head) + " |\n" + "|---" * len(head) + "|\n"
    table = re.search(re.escape(above) + r"((?:\|.*\n)+)", page)
    if not table:
        raise ValueError(f"a page lacks the table {head}")
    return table, [[cell.strip() for cell in line.strip("| ").split(" | ")] for line in table[1].splitlines()]


def word_of(cell):
    return re.search(r"[A-Z][A-Z_]+", cell)[0]


def with_rows(head, made_rows):
    """Makes a page of one: the table under this head has these rows. A cell that is None stays as it is in the row of the same word."""

    def page_of(page):
        (table, cells), text = table_of(page, head), ""
        for row in made_rows():
            old = [it for it in cells if None in row and len(it) == len(row) and word_of(it[0]) == word_of(row[0])]
            text += "| " + " | ".join(cell if cell is not None else old[0][place] if old else "" for place, cell in enumerate(row)) + " |\n"
        return page[: table.start(1)] + text + page[table.end(1) :]

    return page_of


def with_options(page):
    """The page with the row of each option in its place, and of a new one behind the row of the option before it."""
    left, lines = dict(option_rows()), []
    order = list(left)
    for line in page.split("\n"):
        name = re.match(r"\| `--([a-z-]+)", line)
        if name and name[1] in left:
            lines.append(left.pop(name[1]))
        elif not name or name[1] in ("help", "version"):
            lines.append(line)
    for name in left:
        before = [place for place, line in enumerate(lines) if order.index(name) and line.startswith(f"| `--{order[order.index(name) - 1]}")]
        lines.insert(before[0] + 1 if before else len(lines), left[name])
    return "\n".join(lines)


# Each page, and what makes it of itself.
MADE = {
    "docs/OPTIONS.md": [with_options],
    "docs/MONITORING.md": [with_rows(("Metric", "Type", "Help"), metric_rows)],
    "docs/COMMANDS.md": [with_rows(("Command", "Effect"), order_rows)],
    "docs/RULES.md": [with_rows(("Word", "Question", "Roles", "Source"), who_may_ask)],
    "docs/TERMINALS.md": [
        with_rows(("Line", "When", "Reply when all is well"), question_lines),
        with_rows(("Refusal", "Action", "Source"), refusals),
    ],
    "docs/PROTOCOL.md": [
        with_rows(("Reply", "Meaning", "Source"), reply_lines),
        with_rows(("Field", "Words", "Source"), field_words),
        with_rows(("Status", "`fault`"), request_statuses),
        with_rows(("Status", "`fault`", "`recorded`", "`Retry-After`"), question_statuses),
    ],
}
# The tables that a person writes. Each word of the rows stands in one first cell, in the rows' order.
WRITTEN = {"docs/TERMINALS.md": [(("Fault", "Action"), rows.FAULTS)]}


def made(name):
    """A page as its rows make it."""
    page = (TOP / name).read_text()
    for make in MADE[name]:
        page = make(page)
    return page


def differences():
    """Each page of rows, and how it differs from them. A cell that nobody has written yet is a difference too."""
    for name in MADE:
        page = (TOP / name).read_text()
        found = list(difflib.unified_diff(page.split("\n"), made(name).split("\n"), "the page", "the program", n=0, lineterm=""))
        found += [f"{line} has an empty cell" for line in page.split("\n") if re.match(r"\| `[A-Za-z].*\|  ?\|", line)]
        for head, table in WRITTEN.get(name, []):
            said = re.findall(r"`([A-Z_]+)`", " ".join(cells[0] for cells in table_of(page, head)[1]))
            wanted = rows.words(table)
            found += [f"the table {head} has {said} in place of {wanted}"] * (said != wanted)
        yield name, found


if __name__ == "__main__":
    if "--check" in sys.argv:
        found = [f"{name}: {line}" for name, faults in differences() for line in faults]
        sys.exit("\n".join(found) or None)
    for name in MADE:
        (TOP / name).write_text(made(name))
