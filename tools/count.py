#!/usr/bin/env python3
"""Counts lines by block and kind, functions, lines over 120 columns, silent files, crates, edits, pages and words.

    tools/count.py [BLOCK | --check]

The blocks are the comment lines of crates.txt; of BLOCK each crate is counted, and nothing else. --check says where lines are over
120 columns, which files are silent, which items have a library's name, and which of tools/ docs/CONTRIBUTING.md leaves out; the status
is 1 if there is one. Lines are of src/, specs/ and proofs/; an edit is a file of must-fail/ or wrong/. A word has a letter or a digit.
A file of src/ is silent if neither a first line `//!` nor a type says what it is for that has its name or ends with it, as `DataEdit`
in edit.rt; those of tests and of bench may be."""
import re
import sys
from fnmatch import fnmatch
from pathlib import Path

TOP = Path(__file__).resolve().parent.parent
KINDS = {"src": "*.rt", "specs": "*.antt", "proofs": "*.antt"}
OTHERS = ("README.md", "examples/README.md", "CHANGELOG.md")
COLUMNS = 120
ITEM = re.compile(r"(?m)^\s*(?:pub(?:\([^)]*\))? )?(?:mod|struct|enum|trait|type)\s+(\w+)")
FUNCTION = re.compile(r'\s*(pub(\([^)]*\))? )?(const )?(unsafe )?(extern "C" )?fn \w')


def blocks():
    """The blocks of crates.txt: a name, and its crates."""
    found = []
    for line in (TOP / "crates.txt").read_text(encoding="utf-8").split("\n"):
        head = re.match(r"# (\w+): ", line)
        if head and (not found or found[-1][0] != head[1]):
            found.append((head[1], []))
        elif line and not line.startswith("#"):
            found[-1][1].append(re.match(r"\w+", line)[0])
    return found


def lines_of(crates, folder, pattern):
    """The lines of such files in the crates."""
    return [line for crate in crates for file in sorted((TOP / "crates" / crate / folder).rglob(pattern))
            for line in file.read_text(encoding="utf-8").splitlines()]


def is_silent(file):
    """True if neither its first line nor a type of its name says what a file of src/ is for."""
    text, name = file.read_text(encoding="utf-8"), file.stem.replace("_", "")
    return not text.startswith("//!") and not re.search(rf"\b(struct|enum|trait) \w*{name}\b", text, re.IGNORECASE)


def is_wide(line):
    return len(line) > COLUMNS


def silent_files(crates):
    return [file for crate in crates if not crate.startswith(("tests_", "bench"))
            for file in sorted((TOP / "crates" / crate / "src").rglob("*.rt")) if is_silent(file)]


def unlisted_tools():
    """The files of tools/ that the tables of CONTRIBUTING's section `Scripts` don't name."""
    page = (TOP / "docs/CONTRIBUTING.md").read_text(encoding="utf-8")
    section = page.split("\n## Scripts\n")[1].split("\n## ")[0]
    names = [name for row in re.findall(r"(?m)^(`.*?) \| ", section) for name in re.findall(r"`([^`]+)`", row)]
    return [file for file in sorted((TOP / "tools").iterdir())
            if file.is_file() and not any(fnmatch(file.name, name) for name in names)]


def below():
    """The libraries below each crate, the kit's among them."""
    named = {}
    for line in (TOP / "crates.txt").read_text(encoding="utf-8").split("\n"):
        if line and not line.startswith("#"):
            crate, libraries = line.split(":")
            named[crate.split()[0]] = set(libraries.split())
    found = {}

    def all_of(crate):
        if crate not in found:
            found[crate] = named.get(crate, set()).union(*(all_of(it) for it in named.get(crate, ())))
        return found[crate]

    return {crate: all_of(crate) for crate in named}


def taken_names(crates):
    """The items of a crate that have the name of a library below it: `rt ci` refuses them, `rt check` doesn't."""
    libraries = below()
    return [f"{file.relative_to(TOP)}: {name} is the name of a library" for crate in crates
            for file in sorted((TOP / "crates" / crate / "src").rglob("*.rt"))
            for name in ITEM.findall(file.read_text(encoding="utf-8")) if name in libraries[crate]]


def check():
    """Says where lines are too wide, which files are silent, which names taken, which tools unlisted; returns the status."""
    crates = [crate for _, crates in blocks() for crate in crates]
    found = [f"{file.relative_to(TOP)}:{number}: over {COLUMNS} columns" for crate in crates for kind in ("src", "specs")
             for file in sorted((TOP / "crates" / crate / kind).rglob(KINDS[kind]))
             for number, line in enumerate(file.read_text(encoding="utf-8").splitlines(), 1) if is_wide(line)]
    found += [f"{file.relative_to(TOP)}: it doesn't say what it is for" for file in silent_files(crates)]
    found += taken_names(crates)
    found += [f"{file.relative_to(TOP)}: docs/CONTRIBUTING.md doesn't say what it is" for file in unlisted_tools()]
    print("\n".join(found or [f"no line over {COLUMNS} columns, no silent file, no name of a library, and no unlisted tool"]))
    return int(bool(found))


def row(name, crates):
    counts = {kind: lines_of(crates, kind, pattern) for kind, pattern in KINDS.items()}
    edits = sum(1 for crate in crates for folder in ("must-fail", "wrong")
                for _ in (TOP / "crates" / crate).glob(f"{folder}/*.edit"))
    wide = sum(is_wide(line) for kind in ("src", "specs") for line in counts[kind])
    functions = sum(bool(FUNCTION.match(line)) for line in counts["src"])
    return [name, len(crates), *(len(counts[kind]) for kind in KINDS), functions, edits, wide, len(silent_files(crates))]


def words(files):
    return sum(bool(re.search(r"\w", word)) for file in files for word in file.read_text(encoding="utf-8").split())


def print_rows(rows):
    """Prints rows, and their sums at the end."""
    rows.append(["all", *(sum(column) for column in list(zip(*rows))[1:])])
    for name, *numbers in [["block", "crates", *KINDS, "fns", "edits", "wide", "silent"], *rows]:
        print(f"{name:<17}", *(f"{it:>8}" for it in numbers))


def main(words_of_line):
    if words_of_line == ["--check"]:
        return check()
    if words_of_line:
        print_rows([row(crate, [crate]) for crate in dict(blocks())[words_of_line[0]]])
        return 0
    print_rows([row(name, crates) for name, crates in blocks()])
    pages = sorted((TOP / "docs").glob("*.md"))
    scripts = [file for folder in ("tools", "ceph", "examples", "include") for file in sorted((TOP / folder).rglob("*"))
               if file.suffix in (".sh", ".py", ".c", ".h", ".cc") or file.name == "radosbpf"]
    scripts = sum(len(file.read_text(encoding="utf-8").splitlines()) for file in scripts)
    others = "; ".join(f"{it} {words([TOP / it]):,}" for it in OTHERS)
    print(f"\n{len(pages)} pages of {words(pages):,} words; {others}")
    print(f"{scripts:,} lines of scripts, C and C++ in tools, ceph, examples and include")
    print(f"wide: lines of src and specs over {COLUMNS} columns; silent: files that don't say what they are for")
    return 0


if __name__ == "__main__":
    sys.exit(main(sys.argv[1:]))
