#!/usr/bin/env python3
"""Prints which lines of crates/*/specs/ define the given names, with all that they cite of this repository, and the types
of the code that they name. `--` begins a second table, of what the first lacks. docs/TRUST.md shows how it is called; with
`--page` alone it writes what that page's command prints into the page, and `--check` tells by the status whether it would
change it."""
import os, re, sys

TOP = os.path.join(os.path.dirname(os.path.abspath(__file__)), "..")
CRATES = os.path.join(TOP, "crates")
PAGE = os.path.join(TOP, "docs", "TRUST.md")
HEAD = re.compile(r"^(?:pub |unfoldable |abbrev |opaque )*(?:record |data |indexed )?([^\s:(]+)")


def bare(name):
    """An operator without its places."""
    return name.replace("◌", "") or name


class Module:
    """A file of specs: its imports, and its definitions with their lines."""

    def __init__(self, name):
        crate, path = name.split(":")
        self.file = f"{crate}/specs/{path.replace('.', '/')}.antt"
        with open(os.path.join(CRATES, self.file), encoding="utf-8") as it:
            self.lines = it.read().split("\n")
        self.names, self.parts, self.passed = {}, {}, {}
        start = block = None
        for at, line in enumerate(self.lines + ["", "end"]):
            if block is not None and line.startswith("  "):
                line = line[2:]
            elif line.strip() and not line.startswith("--"):
                block = None
            if line.startswith(("use ", "pub use ")):
                self.add_use(line)
            elif line.startswith("module _"):
                block = at
            elif line.strip() == "" and start is not None:
                self.close(start, at, block)
                start = None
            elif line.strip() and not line.startswith(("--", " ")) and start is None:
                start = at

    def add_use(self, line):
        found = re.match(r"(pub )?use Rattle\.(\w+)\.specs\.([\w.]+?)(?:\.\{(.*)\}| as (\w+))\s*$", line)
        if not found or found.group(2) == "std":
            return
        module = f"{found.group(2)}:{found.group(3)}"
        if found.group(5):
            self.names[found.group(5)] = (module, None)
            return
        for word in found.group(4).split(", "):
            name, _, other = word.partition(" as ")
            self.names[bare(other or name)] = (module, bare(name))
            if found.group(1):
                self.passed[bare(other or name)] = (module, bare(name))

    def close(self, start, end, block):
        indent = "" if block is None else "  "
        first = start
        while first > 0 and self.lines[first - 1].startswith(indent + "--"):
            first -= 1
        lines = [it.removeprefix(indent) for it in self.lines[start:end]]
        # (what a block is over is cited by each of its definitions)
        over = [] if block is None else [self.lines[block]]
        for line in lines:
            found = HEAD.match(line)
            if found and not line.startswith(" "):
                part = (first, end, "\n".join(over + lines), block)
                self.parts.setdefault(bare(found.group(1)), []).append(part)


def source_of(module):
    """The file of src/ that declares a type: `insn.Insn` stands in insn.rt or in insn/insn.rt."""
    crate, path = module.split(":")
    words = path.split(".")[1:]
    words = words[: words.index("TheVariants")] if "TheVariants" in words else words
    while words:
        file = f"{crate}/src/{'/'.join(words)}.rt"
        if os.path.exists(os.path.join(CRATES, file)):
            return file
        words.pop()
    return f"{crate}/src/lib.rt"


def closure(roots):
    """All that the roots cite: the lines of each module of specs, and the types that code declares, by file."""
    modules, done, wanted, types = {}, set(), {}, {}
    todo = [(word.rpartition(".")[0], word.rpartition(".")[2]) for word in roots]
    while todo:
        module, name = todo.pop(0)
        if (module, name) in done:
            continue
        done.add((module, name))
        if module.split(":")[1].startswith("declared."):
            named = types.setdefault(source_of(module), [])
            last = [it for it in module.split(".") if it != "TheVariants"][-1]
            if last not in named:
                named.append(last)
            continue
        if module not in modules:
            path = module.replace(":", "/specs/").replace(".", "/") + ".antt"
            if not os.path.exists(os.path.join(CRATES, path)):
                # (a library of the kit)
                continue
            modules[module] = Module(module)
        it = modules[module]
        if name in it.passed:
            todo.append(it.passed[name])
            continue
        for first, end, text, block in it.parts.get(name, []):
            lines = wanted.setdefault(it.file, {})
            for at in range(first, end):
                lines[at + 1] = None
            if block is not None:
                lines[block + 1] = None
            for other in sorted(set(re.findall(r"[^\s(){}.,;λ→]+", text))):
                if other in it.parts:
                    todo.append((module, other))
                elif other in it.names and it.names[other][1]:
                    todo.append(it.names[other])
            for other, inner in re.findall(r"(\w+)\.([\w-]+)", text):
                if other in it.names and it.names[other][1] is None:
                    todo.append((it.names[other][0], inner))
    return wanted, types


def ranges(lines):
    """Runs of lines; one empty line between two doesn't part them."""
    runs = []
    for at in sorted(lines):
        if runs and at <= runs[-1][1] + 2:
            runs[-1][1] = at
        else:
            runs.append([at, at])
    return ", ".join(f"{a}-{b}" for a, b in runs)


def found(words):
    """Of each table the lines of files, how many there are, and the types: what the tables before it lack."""
    seen, named = {}, set()
    for group in " ".join(words).split(" -- "):
        wanted, types = closure(group.split())
        rows, whole, lacking = [], 0, {}
        for file, lines in wanted.items():
            new = [at for at in lines if at not in seen.setdefault(file, set())]
            seen[file].update(new)
            whole += len(new)
            if new:
                rows.append(f"`{file}` | {ranges(new)}\n")
        for file, names in types.items():
            new = [it for it in names if (file, it) not in named]
            named.update((file, it) for it in new)
            if new:
                lacking[file] = new
        yield "file | lines\n---|---\n" + "".join(rows), whole, lacking


def show(words):
    for table, whole, types in found(words):
        print(f"{table}\n{whole} lines\n")
        for file, names in types.items():
            print(f"`{file}`: {', '.join(names)}")
        print()


def replaced(text, pattern, news):
    """The text with the first group of each match replaced, in order."""
    places = [it.span(1) for it in re.finditer(pattern, text)]
    assert len(places) == len(news), pattern
    for (start, end), new in reversed(list(zip(places, news))):
        text = text[:start] + new + text[end:]
    return text


def write_page(only_checks):
    with open(PAGE, encoding="utf-8") as it:
        text = was = it.read()
    tables, counts, types = zip(*found(re.search(r"python3 tools/trust.py (.*)", text).group(1).split()))
    text = replaced(text, r"(file \| lines\n(?:.*\|.*\n)+)", tables)
    text = replaced(text, r"(\d+) lines(?= more:|:)", [str(it) for it in counts])
    text = replaced(text, r"of the code: (`.*`)", [", ".join(f"`{file}`" for file in it) for it in types])
    if only_checks:
        sys.exit(text != was)
    with open(PAGE, "w", encoding="utf-8") as it:
        it.write(text)


if sys.argv[1:] in (["--page"], ["--check"]):
    write_page(sys.argv[1] == "--check")
else:
    show(sys.argv[1:])
