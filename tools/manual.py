#!/usr/bin/env python3
"""Makes the manual page of `radoscls` and its completions for bash, from the program's own help.

    tools/manual.py [--check] [RADOSCLS]

RADOSCLS is the program as `rt run` or `rt ci` leaves it. It writes tools/radoscls.1 and
tools/radoscls.bash; the page's description and exit statuses are the first part of
docs/PROGRAM.md, its version that of the file VERSION. With --check it writes neither, and names
each that isn't what it would write, and each place that says another version than that file: the
program, the header, the Python package and CHANGELOG.md. The status is 0 if nothing differs, 1 if
something does, and 2 if there is no program, or its help, that page or VERSION can't be read.

`man -l tools/radoscls.1` shows the page; `. tools/radoscls.bash` in bash has words completed."""
import os, re, subprocess, sys, textwrap

TOP = os.path.join(os.path.dirname(os.path.abspath(__file__)), "..")
PAGE = os.path.join(TOP, "docs", "PROGRAM.md")
PURPOSE = """A class is a file of methods in BPF code, which are called on an object. `radoscls`
makes such files, tells whether their methods are safe, and calls them: on one object, in a group of
nodes that a file of events describes, or on a cluster in threads."""
EXAMPLES = r"""The files stand in the folder \fIexamples\fR of the project, or are made as its pages
tell."""
PAGES = r"The pages of the project in its folder \fIdocs\fR:"
# No line of the manual page's text is wider.
COLUMNS = 78
# In a help, the name of a row begins within these columns, and text that goes on after them.
NAME_COLUMNS = 6


def printed(program, *words):
    """What the program writes to standard error, as help and version are."""
    ended = subprocess.run(["radoscls", *words], executable=program, env={},
                           stdin=subprocess.DEVNULL, stdout=subprocess.DEVNULL,
                           stderr=subprocess.PIPE)
    return ended.stderr.decode()


class Help:
    """A command's help: what it is for, its usage, the rows below each heading, its examples."""

    def __init__(self, text):
        self.about = text.partition("\n")[0]
        self.usage = re.search(r"^Usage: radoscls (.*)$", text, re.M)[1]
        self.rows = {"Commands": [], "Arguments": [], "Options": []}
        self.examples = []
        heading = ""
        for line in text.split("\n")[1:]:
            if re.fullmatch(r"[A-Z][a-z]+:", line):
                heading = line[:-1]
            elif line.startswith("  "):
                self.add(heading, line)

    def add(self, heading, line):
        """Adds a line that stands below a heading."""
        row = line.strip()
        if heading in ("Example", "Examples"):
            self.examples.append(row)
        elif len(line) - len(line.lstrip()) <= NAME_COLUMNS:
            name, _, text = re.sub("  +", "\t", row, count=1).partition("\t")
            self.rows[heading].append((name, text))
        else:
            name, text = self.rows[heading][-1]
            self.rows[heading][-1] = name, f"{text} {row}".strip()

    def options(self):
        """The long options, each with its value's name, or with none."""
        for name, _ in self.rows["Options"]:
            option, value = re.search(r"(--[a-z0-9-]+)(?: <(.*)>)?", name).groups()
            yield option, value


class Page:
    """The first part of docs/PROGRAM.md: its paragraphs, its statuses, and all pages it links."""

    def __init__(self, text):
        first = text.partition("\n## ")[0].rpartition("\n```\n")[2]
        blocks = [block for block in first.split("\n\n") if block.strip()]
        self.paragraphs = [block for block in blocks if "\n---|" not in block]
        table = next(block for block in blocks if block.startswith("status | when\n"))
        self.statuses = [line.split(" | ", 1) for line in table.strip().split("\n")[2:]]
        self.links = list(dict.fromkeys(re.findall(r"\]\(([A-Z_]+\.md)", text)))


SIGNS = {"\\": r"\e", "-": r"\-", "'": r"\(aq", "`": r"\(ga", "^": r"\(ha", "~": r"\(ti"}


def signs(text):
    """A text with the signs that roff would take for its own."""
    return re.sub(r"[\\'`^~-]", lambda sign: SIGNS[sign[0]], text)


def filled(text):
    """The lines of a paragraph. One that begins with a dot would be a command of roff."""
    lines = textwrap.wrap(text, COLUMNS, break_long_words=False, break_on_hyphens=False)
    return [r"\&" + line if line.startswith(".") else line for line in lines]


def prose(text):
    """A paragraph of Markdown, with its code in bold and without its links."""
    parts = re.sub(r"\[([^]]*)\]\([^)]*\)", r"\1", " ".join(text.split())).split("`")
    return filled("".join(rf"\fB{signs(part)}\fR" if at % 2 else signs(part)
                          for at, part in enumerate(parts)))


def names(text):
    """Words of a usage: options and commands in bold, what stands for a value in italics."""
    parts = re.split(r"(<[^>]*>|\[OPTIONS\]|\.\.\.|, | )", text)
    made = []
    for part in parts:
        if part.startswith("<"):
            made.append(rf"\fI{signs(part[1:-1])}\fR")
        elif part == "[OPTIONS]":
            made.append(r"[\fIOPTIONS\fR]")
        elif part in ("...", ", ", " "):
            made.append(part)
        elif part:
            made.append(rf"\fB{signs(part)}\fR")
    return "".join(made)


def rows(pairs):
    """A paragraph for each name, indented below it."""
    return [line for name, text in pairs for line in (".TP", names(name), *filled(signs(text)))]


def manual(version, whole, commands, page):
    """The manual page."""
    lines = [r'.\" Made by tools/manual.py from the help of the program.',
             f'.TH RADOSCLS 1 "" "{signs(version)}" "User Commands"', ".nh",
             ".SH NAME", rf"radoscls \- {signs(whole.about)}", ".SH SYNOPSIS"]
    for help in (*commands.values(), whole):
        lines += [rf"\fBradoscls\fR {names(help.usage)}", ".br"]
    lines[-1] = ".SH DESCRIPTION"
    for paragraph in (PURPOSE, *page.paragraphs):
        lines += [*prose(paragraph), ".PP"]
    lines[-1:] = [".SH OPTIONS", *rows(whole.rows["Options"]), ".SH COMMANDS"]
    for name, help in commands.items():
        lines += [f".SS {signs(name)}", *filled(signs(help.about) + ".")]
        lines += rows(help.rows["Arguments"] + help.rows["Options"])
    lines += [".SH EXIT STATUS"]
    for status, text in page.statuses:
        lines += [".TP", names(status), *prose(text[:1].upper() + text[1:] + ".")]
    lines += [".SH EXAMPLES", *filled(EXAMPLES)]
    for help in commands.values():
        lines += [".PP", ".nf", *map(signs, help.examples), ".fi"]
    lines += [".SH SEE ALSO", *filled(PAGES)]
    lines += [rf"\fI{signs(link)}\fR," for link in page.links]
    lines[-1] = lines[-1][:-1] + "."
    return "\n".join(lines) + "\n"


BASH = """\
# Completions of radoscls for bash, made by tools/manual.py from the help of the program.
_radoscls() {
    # of NAME=FILE, bash gives FILE as the word to complete
    local word=${2-${COMP_WORDS[COMP_CWORD]}} words="COMMANDS"
    COMPREPLY=()
    if [ "$COMP_CWORD" = 1 ]; then
        mapfile -t COMPREPLY < <(compgen -W "$words OPTIONS" -- "$word")
        return
    fi
    case ${COMP_WORDS[1]} in
        help)
            mapfile -t COMPREPLY < <(compgen -W "$words" -- "$word")
            return
            ;;
CASES        *) return ;;
    esac
    case ${COMP_WORDS[COMP_CWORD - 1]} in
        NUMBERS) return ;;
    esac
    case $word in
        -*) mapfile -t COMPREPLY < <(compgen -W "$words" -- "$word") ;;
        @*) mapfile -t COMPREPLY < <(compgen -P @ -f -- "${word#@}") ;;
        *)
            mapfile -t COMPREPLY < <(compgen -f -- "$word")
            compopt -o filenames 2> /dev/null
            ;;
    esac
}
complete -F _radoscls radoscls
"""


def completions(whole, commands):
    """The completions: commands, then a command's options, a file's name elsewhere."""
    cases, numbers = [], []
    for name, help in commands.items():
        options = list(help.options())
        cases.append(f'        {name}) words="{" ".join(option for option, _ in options)}" ;;\n')
        numbers += [option for option, value in options if value == "N"]
    parts = {
        "COMMANDS": " ".join(name for name, _ in whole.rows["Commands"]),
        "OPTIONS": " ".join(option for option, _ in whole.options()),
        "CASES": "".join(cases),
        "NUMBERS": " | ".join(dict.fromkeys(numbers)),
    }
    return re.sub(r"COMMANDS|OPTIONS|CASES|NUMBERS", lambda part: parts[part[0]], BASH)


def its_version():
    """What VERSION has, and the number in it: between releases `-dev` follows that."""
    version = re.fullmatch(r"(\d+\.\d+\.\d+(?:-dev)?)\n", text_of(os.path.join(TOP, "VERSION")))[1]
    return version, version.removesuffix("-dev")


def versions(program):
    """Each place that says the version in words of its own, what it says, and what it should."""
    version, number = its_version()

    def said(path, line):
        """What a file's first line of that form says, or nothing."""
        return "".join(re.findall(rf"^{line}$", text_of(os.path.join(TOP, path)) or "", re.M)[:1])

    first_line = printed(program, "--version").partition("\n")[0]
    yield "radoscls --version", first_line, f"radoscls {number}"
    header = "include/sillarnica.h"
    yield header, said(header, '#define SILLARNICA_VERSION "(.*)"'), version
    python = "python/sillarnica/__init__.py"
    yield python, said(python, '__version__ = "(.*)"'), version.replace("-dev", ".dev0")
    # (changes since a release stand under `Since` and its number)
    heading = "Since" if version != number else number
    yield "the first heading of CHANGELOG.md", said("CHANGELOG.md", r"## (\S+).*"), heading


def made_of(program):
    """The files' names and texts."""
    whole = Help(printed(program, "--help"))
    version = f"radoscls {its_version()[0]}"
    known = [name for name, _ in whole.rows["Commands"] if name != "help"]
    commands = {name: Help(printed(program, name, "--help")) for name in known}
    with open(PAGE, encoding="utf-8") as file:
        page = Page(file.read())
    return {"radoscls.1": manual(version, whole, commands, page),
            "radoscls.bash": completions(whole, commands)}


def text_of(path):
    """A file's text, or None without the file."""
    if not os.path.exists(path):
        return None
    with open(path, encoding="utf-8") as file:
        return file.read()


def main():
    words = sys.argv[1:]
    is_checked = words[:1] == ["--check"]
    words = words[is_checked:]
    program = words[0] if words else os.path.join(TOP, "crates/radoscls/out/radoscls")
    if len(words) > 1 or program.startswith("-"):
        print(__doc__, file=sys.stderr)
        sys.exit(2)
    if not os.path.isfile(program):
        print(f"no program: {program}", file=sys.stderr)
        sys.exit(2)
    program = os.path.abspath(program)
    try:
        made = made_of(program)
        said = list(versions(program)) if is_checked else []
    except (LookupError, StopIteration, TypeError, OSError) as error:
        print(f"the help, docs/PROGRAM.md or VERSION has another form: {error!r}", file=sys.stderr)
        sys.exit(2)
    differ = 0
    for place, what, wanted in said:
        if what != wanted:
            print(f"{place} says {what!r}, and by VERSION it should say {wanted!r}")
            differ = 1
    for name, text in made.items():
        path = os.path.join(TOP, "tools", name)
        if not is_checked:
            with open(path, "w", encoding="utf-8") as file:
                file.write(text)
        elif text_of(path) != text:
            print(f"tools/{name} isn't what tools/manual.py makes")
            differ = 1
    sys.exit(differ)


main()
