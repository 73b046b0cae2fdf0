#!/usr/bin/env python3
"""The pages as one HTML file, to read without a net or to print.

  tools/manual.py FILE   writes it

Of Markdown it knows headings, paragraphs, lists, tables, blocks of code and pictures. Within a line it knows code, bold and slanted
text, and links. A link to a page leads to its part of the file, one to another file of the repository becomes its path.
"""
import base64
import html
import pathlib
import re
import sys

TOP = pathlib.Path(__file__).resolve().parent.parent
STYLE = (
    "body{font:11pt/1.45 sans-serif;max-width:54em;margin:auto;padding:1em}table{border-collapse:collapse}pre,code{font-family:monospace}"
    "pre{background:#f3f3f3;padding:.6em;overflow-x:auto}td,th{border:1px solid #999;padding:.2em .5em;text-align:left;vertical-align:top}"
    "img{max-width:100%}article{break-before:page}h1{border-bottom:2px solid}"
    "@page{size:A4;margin:18mm 15mm;@bottom-center{content:counter(page)}}@media print{body{font-size:9pt;max-width:none;padding:0}"
    "pre{white-space:pre-wrap;overflow-wrap:anywhere}table{font-size:8pt}h2,h3{break-after:avoid}}"
)


def pages():
    """The pages by name: README.md, then those of docs in the order in which its own page names them, then the others."""
    listed = ["README.md", "docs/QUICKSTART.md", *(f"docs/{it}" for it in re.findall(r"\]\(([A-Z]+\.md)", (TOP / "docs/README.md").read_text()))]
    others = [f"docs/{it.name}" for it in sorted((TOP / "docs").glob("*.md"))] + ["CHANGELOG.md", "SECURITY.md", "CONTRIBUTING.md"]
    names = dict.fromkeys(it for it in [*listed, *others] if it != "docs/README.md")
    return {name: (TOP / name).read_text() for name in names}


def anchor(heading):
    """The anchor of a heading, as the pages' links name it."""
    words = re.sub(r"[^\w\- ]", "", re.sub(r"\[([^]]*)\]\([^)]*\)", r"\1", heading).replace("`", "").strip().lower())
    return words.replace(" ", "-")


class Page:
    """A page, line by line, as HTML."""

    def __init__(self, name, text, known):
        self.name, self.known = name, known
        self.lines, self.seen = text.split("\n"), {}

    def place(self, target):
        """Where a link leads: a part of the file, an address, or nothing for another file."""
        path, _, part = target.partition("#")
        if path.startswith(("http:", "https:", "mailto:")):
            return target
        full = str((TOP / self.name).parent.joinpath(path).resolve().relative_to(TOP)) if path else self.name
        if full == "docs/README.md":
            return "#manual"
        return f"#{full}{'--' * bool(part)}{part}" if full in self.known else None

    def link(self, text, target):
        if place := self.place(target):
            return f'<a href="{place}">{text}</a>'
        path = target.replace("../", "").partition("#")[0]
        return text if text == f"<code>{path}</code>" else f"{text} (<code>{path}</code>)"

    def inline(self, text):
        """A text with its code, links, and bold and slanted words; code is laid aside meanwhile."""
        kept = []
        text = re.sub(r"`([^`]*)`", lambda it: kept.append(f"<code>{html.escape(it[1], quote=False)}</code>") or f"\0{len(kept) - 1}\0", text)
        back = lambda part: re.sub(r"\0(\d+)\0", lambda it: kept[int(it[1])], part)
        text = html.escape(text, quote=False)
        text = re.sub(r"\*\*(.+?)\*\*", r"<b>\1</b>", text)
        text = re.sub(r"(?<![\w*])\*([^*\s][^*]*)\*(?!\w)", r"<i>\1</i>", text)
        return back(re.sub(r"\[((?:[^][]|\[[^]]*\])*)\]\(([^)\s]+)\)", lambda it: self.link(back(it[1]), it[2]), text))

    def heading(self, line):
        marks, _, words = line.partition(" ")
        name = anchor(words)
        self.seen[name] = self.seen.get(name, -1) + 1
        name += f"-{self.seen[name]}" * bool(self.seen[name])
        own = f'id="{self.name}--{name}"'
        return f"<h{len(marks)} {own}>{self.inline(words)}</h{len(marks)}>"

    def table(self, rows):
        cells = [[self.inline(it.strip().replace("\\|", "|")) for it in re.split(r"(?<!\\)\|", row.strip()[1:-1])] for row in rows]
        line = lambda row, mark: "<tr>" + "".join(f"<{mark}>{it}</{mark}>" for it in row) + "</tr>"
        return "\n".join(["<table>", line(cells[0], "th"), *(line(row, "td") for row in cells[2:]), "</table>"])

    def picture(self, line):
        words, path = re.fullmatch(r"!\[([^]]*)\]\(([^)]*)\)", line).groups()
        content = base64.b64encode((TOP / self.name).parent.joinpath(path).read_bytes()).decode()
        return f'<p><img alt="{html.escape(words)}" src="data:image/png;base64,{content}"></p>'

    def take(self, holds):
        """The next lines for which something holds."""
        taken = []
        while self.lines and holds(self.lines[0]):
            taken.append(self.lines.pop(0))
        return taken

    def code(self):
        indent = len(self.lines[0]) - len(self.lines.pop(0).lstrip())
        taken = self.take(lambda line: not line.strip().startswith("```"))
        self.lines.pop(0)
        return "<pre>" + html.escape("\n".join(it[indent:] for it in taken), quote=False) + "</pre>"

    def goes_on(self, holds):
        """Whether something holds of the next line, if need be after empty ones, which are dropped then."""
        empty = next((place for place, line in enumerate(self.lines) if line.strip()), None)
        if empty is None or not holds(self.lines[empty]):
            return False
        del self.lines[:empty]
        return True

    def listed(self):
        """A list, each item with the lines, lists and blocks that are indented below it."""
        blanks, mark = re.match(r"(\s*)(-|\d+\.) ", self.lines[0]).groups()
        kind, item = ("ul", rf"{blanks}- +") if mark == "-" else ("ol", rf"{blanks}\d+\. +")
        text = []
        while self.goes_on(lambda line: re.match(item, line)):
            text.append("<li>" + self.inline(re.sub(f"^{item}", "", self.lines.pop(0))))
            while self.goes_on(lambda line: line.startswith(blanks + "  ")):
                text.append(self.block())
            text.append("</li>")
        return f"<{kind}>" + "\n".join(text) + f"</{kind}>"

    def block(self):
        line = self.lines[0]
        if line.strip().startswith("```"):
            return self.code()
        if re.match(r"\s*(-|\d+\.) ", line):
            return self.listed()
        if line.startswith("|"):
            return self.table(self.take(lambda it: it.startswith("|")))
        self.lines.pop(0)
        if line.startswith("#"):
            return self.heading(line)
        if line.startswith("!["):
            return self.picture(line)
        return f"<p>{self.inline(line.strip())}</p>" if line.strip() else ""

    def text(self):
        parts = []
        while self.lines:
            parts.append(self.block())
        return f'<article id="{self.name}">\n' + "\n".join(filter(None, parts)) + "\n</article>\n"


def text():
    """The whole file."""
    known = pages()
    title = lambda page: html.escape(re.match(r"# (.*)", page)[1])
    contents = "".join(f'<li><a href="#{name}">{title(page)}</a></li>\n' for name, page in known.items())
    parts = [Page(name, page, known).text() for name, page in known.items()]
    head = f"<!doctype html><html lang=en><meta charset=utf-8><title>Manual</title><style>{STYLE}</style>\n<h1 id=manual>Manual</h1>\n<ol>\n{contents}</ol>\n"
    return head + "".join(parts) + "</html>\n"


def faults():
    """Links of the file that lead nowhere, and marks of Markdown that were not read."""
    made = text()
    ids = set(re.findall(r'\bid="?([^">]+)"?', made))
    yield from (f"{it} leads nowhere" for it in re.findall(r'href="#([^"]*)"', made) if it not in ids)
    prose = re.sub(r"<pre>.*?</pre>|<code>.*?</code>|<img [^>]*>", "", made, flags=re.S)
    yield from (f"{it!r} was not read" for it in re.findall(r".{0,30}(?:\]\(|\*\*|`|\0|^\||^#).{0,30}", prose, re.M))


if __name__ == "__main__":
    if len(sys.argv) != 2:
        sys.exit(__doc__)
    pathlib.Path(sys.argv[1]).write_text(text())
