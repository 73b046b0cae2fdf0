"""The content of the text of a program's --help, and the parts that the package makes from it: man pages, completions, a file
of options."""
import dataclasses
import re
import textwrap

# What a value's name in the help stands for when bash completes it.
FILES = {"FILE": "-f", "PATH": "-f", "PAGE": "-f", "DIR": "-d", "FOLDER": "-d"}
# The options that a file of options can't have.
COMMAND_LINE = {"check", "config", "help", "version"}
PROGRAMS = ("nmvs-check", "nmvs-ctl", "nmvs-qualify", "nmvs-replica", "nmvs-serve", "nmvs-workbook")


@dataclasses.dataclass
class Help:
    """A help text: its paragraphs, its usage, and the rows of each section as pairs of term and text."""

    paragraphs: list
    usage: str
    sections: dict

    def rows(self, section):
        return self.sections.get(section, [])

    def commands(self):
        return [term for term, _ in self.rows("Commands")]

    def options(self):
        return [option_of(term, text) for term, text in self.rows("Options")]

    def summary(self):
        """The first clause, without a capital."""
        clause = re.split(r"[:.]", self.paragraphs[0])[0]
        return clause[0].lower() + clause[1:]


@dataclasses.dataclass
class Option:
    """An option: its names with dashes, the names of its values, what it does, its default, and the values that it may have."""

    names: list
    values: list
    text: str
    default: str | None
    choices: list

    def key(self):
        return self.names[-1].lstrip("-")


def option_of(term, text):
    default = re.search(r" ?\[default: ([^]]*)\]", text)
    choices = re.search(r" ?\[possible values: ([^]]*)\]", text)
    return Option(
        names=re.findall(r"--?[a-zA-Z][a-z-]*", re.sub(r"<[^>]*>", "", term)),
        values=re.findall(r"<([^>]*)>", term),
        text=re.sub(r" ?\[(default|possible values): [^]]*\]", "", text),
        default=default[1] if default else None,
        choices=choices[1].split(", ") if choices else [],
    )


def read_help(text):
    read = Help([], "", {})
    for block in text.strip("\n").split("\n\n"):
        first, *rest = block.split("\n")
        if block.startswith(("Usage: ", "  ")):
            read.usage = block.removeprefix("Usage: ").strip()
        elif first.endswith(":") and rest:
            read.sections[first[:-1]] = [tuple(re.split(r" {2,}", row.strip(), maxsplit=1)) for row in rest]
        else:
            read.paragraphs.append(" ".join(block.split()))
    return read


def roff(text):
    """A text as it stands in a man page."""
    return re.sub(r"(?m)^([.'])", r"\\&\1", text.replace("\\", "\\e").replace("-", "\\-"))


def prose(paragraphs):
    return [line for paragraph in paragraphs for line in (".PP", roff(paragraph))]


def definitions(rows):
    return [line for term, text in rows for line in (".TP", f".B {roff(term)}", roff(text))]


def command_part(name, read):
    """The part of a man page about one command of a program."""
    rows = [row for row in read.rows("Arguments") + read.rows("Options") if "--help" not in row[0]]
    return [f".SS {roff(name)}", f".B {roff(read.usage)}", *prose(read.paragraphs), *definitions(rows)]


def man_page(name, read, commands, more, version, date):
    """A man page, with a part for each command: `commands` has their help texts by name. `more` has the rows of further sections."""
    lines = [
        f'.TH {roff(name.upper())} 1 {roff(date)} "nmvs {version}" "User Commands"',
        ".SH NAME", f"{roff(name)} \\- {roff(read.summary())}",
        ".SH SYNOPSIS", f".B {roff(read.usage)}",
        ".SH DESCRIPTION", *prose(read.paragraphs),
    ]
    for section in ("Arguments", "Options"):
        if read.rows(section):
            lines += [f".SH {section.upper()}", *definitions(read.rows(section))]
    if commands:
        lines.append(".SH COMMANDS")
        for command, its in commands.items():
            lines += command_part(command, its)
    for section, rows in more.items():
        lines += [f".SH {section}", *definitions(rows)]
    lines += [".SH SEE ALSO", ", ".join(f"{roff(it)}(1)" for it in PROGRAMS if it != name)]
    return "\n".join(lines) + "\n"


def words_of(read):
    return " ".join([*read.commands(), *(name for option in read.options() for name in option.names)])


def value_words(option):
    """The arguments of compgen that complete the value of an option."""
    return f'-W "{" ".join(option.choices)}"' if option.choices else FILES.get(option.values[0], '-W ""')


def value_cases(helps):
    """The lines of a completion for what stands after an option that has a value."""
    names = {}
    for option in (it for read in helps for it in read.options() if it.values):
        names.setdefault(value_words(option), {}).update(dict.fromkeys(option.names))
    return [f"    {'|'.join(options)}) what=({words}) ;;" for words, options in names.items()]


def completion(name, read, commands):
    """The completions of a program for bash."""
    function = "_" + name.replace("-", "_")
    lines = ["  local word=${COMP_WORDS[COMP_CWORD]}", f'  local words="{words_of(read)}"']
    if commands:
        cases = [f'    {command}) words="{words_of(its)}" ;;' for command, its in commands.items()]
        lines += ["  case ${COMP_WORDS[1]} in", *cases, "  esac"]
    lines.append('  local what=(-W "$words")')
    if re.search("FILE|PATH", read.usage):
        lines.append("  [[ $word == -* ]] || what+=(-f)")
    if cases := value_cases([read, *commands.values()]):
        lines += ["  case ${COMP_WORDS[COMP_CWORD - 1]} in", *cases, "  esac"]
    lines.append('  mapfile -t COMPREPLY < <(compgen "${what[@]}" -- "$word")')
    return "\n".join([
        f"# Completions of {name}, made from its --help.",
        f"{function}() {{", *lines, "}",
        f"complete -o filenames -F {function} {name}",
    ]) + "\n"


def toml_line(option, value):
    """An option as TOML has it: its value is a number, a text in quotes, or a boolean."""
    is_text = option.values and option.values != ["N"]
    return f'{option.key()} = "{value}"' if is_text else f"{option.key()} = {value}"


def toml_entry(option, given):
    """The lines of the file about an option: its text, and its default, both as comments."""
    text = option.text
    if option.choices:
        text += f"; one of {', '.join(option.choices)}"
    if given:
        text += f". nmvs.service gives {given}, which wins"
    none = f"<{option.values[0]}>" if option.values else "false"
    default = none if option.default is None else option.default
    return [*textwrap.wrap(text, 110, initial_indent="# ", subsequent_indent="# "), f"#{toml_line(option, default)}"]


def toml(read, settings, given):
    """A file of options: each one with its default in a comment, and those of `settings` with their value. `given` has the
    options that the unit gives on the command line."""
    lines = ["# Options of nmvs-serve(1). What stands in a comment is the default, or <..> where there is none."]
    for option in read.options():
        key = option.key()
        if key not in COMMAND_LINE:
            lines += ["", *toml_entry(option, given.get(key))]
        if key in settings:
            lines.append(toml_line(option, settings[key]))
    return "\n".join(lines) + "\n"
