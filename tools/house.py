#!/usr/bin/env python3
"""Counts what makes a stranger stop in the product's crates, and says where.

    tools/house.py [arguments | types | unused | copies]

Without a word it prints a count of each; with one, the places:

arguments   functions of six arguments or more, without `self`
types       names of types that are declared in two crates
unused      public functions that no other file of a crate or test names
copies      places where six lines or more stand that stand elsewhere too, and at the end how many lines they have

Of copies only statements count: no imports, comments, contracts and lone brackets, no lines of a constant text (a class in
assembly is data), and no six lines with one between them that is a row of a table (an arm of a match in one line, a field or a
variant of a type, an argument in a function's head), since rows of two tables have to be alike.

Product are all blocks of crates.txt but `bench` and `tests`.
"""
import re
import sys
from collections import defaultdict

import count

ARGUMENTS, LINES = 6, 6
HEAD = re.compile(r'(?m)^\s*(?:pub(?:\([^)]*\))? )?(?:const )?(?:unsafe )?(?:extern "C" )?fn (\w+)')
TYPE = re.compile(r"(?m)^\s*pub (?:struct|enum|trait) (\w+)")
PUBLIC = re.compile(r'(?m)^\s*pub fn (\w+)')
BODY = re.compile(r"(?m)^\s*(?:pub(?:\([^)]*\))? )?(?:struct|enum) (\w+)[^;({]*(?={)")
TEXT = re.compile(r'(?s)\bconst \w+: &str = "(.*?)";')
ROW = re.compile(r"[^=]+ => [^{]*,$")
SILENT = ("//", "use ", "ghost ", "#[", "ensures", "requires", "mod ", "pub mod ")


def sources(blocks):
    """The texts of the files of src/ by path, of the crates of some blocks."""
    return {file.relative_to(count.TOP): file.read_text(encoding="utf-8") for _, crates in blocks for crate in crates
            for file in sorted((count.TOP / "crates" / crate / "src").rglob("*.rt"))}


def parameters(text, start):
    """The parameters of the function whose name ends at a place, but for `self`."""
    found, depth, angles, word = [], 0, 0, ""
    for at in range(text.index("(", start), len(text)):
        letter = text[at]
        depth += letter in "([{"
        depth -= letter in ")]}"
        angles += letter == "<"
        angles -= letter == ">" and text[at - 1] != "-"
        if depth == 0 or (depth == 1 and not angles and letter == ","):
            found.append(word.strip("( \n"))
            word = ""
            if depth == 0:
                break
        else:
            word += letter
    return [it for it in found if it and it.replace("mut ", "").replace("&", "").split(":")[0].strip() != "self"
            and not re.fullmatch(r"&?('\w+ )?(mut )?self", it)]


def long_heads(product):
    return [f"{file}:{text.count(chr(10), 0, it.start(1)) + 1}: {it[1]} has {len(taken)} arguments"
            for file, text in product.items() for it in HEAD.finditer(text)
            if len(taken := parameters(text, it.end(1))) >= ARGUMENTS]


def shared_types(product):
    places = defaultdict(set)
    for file, text in product.items():
        for it in TYPE.finditer(text):
            places[it[1]].add(file.parts[1])
    return [f"{name}: {', '.join(sorted(crates))}" for name, crates in sorted(places.items()) if len(crates) > 1]


def unused_calls(product, everything):
    """Public functions whose names stand nowhere but at their heads."""
    words = defaultdict(int)
    for text in everything.values():
        for word in re.findall(r"\w+", re.sub(r"(?m)^\s*//.*|^ghost use.*", "", text)):
            words[word] += 1
    heads = defaultdict(list)
    for file, text in product.items():
        for it in PUBLIC.finditer(text):
            heads[it[1]].append(file)
    return [f"{file}: {name}" for name, files in sorted(heads.items()) for file in files
            if words[name] <= len(files) and not re.search(rf'extern "C" fn {name}\b', product[file])]


def heads(text):
    """The numbers of the lines of a head that lists its arguments a line each, or that are a struct or an enum."""
    found = set()
    for start, opening in [(it.end(1), "(") for it in HEAD.finditer(text)] + [(it.end(1), "{") for it in BODY.finditer(text)]:
        at, depth = text.index(opening, start), 0
        for end in range(at, len(text)):
            depth += text[end] in "([{"
            depth -= text[end] in ")]}"
            if depth == 0:
                break
        first, last = (text.count("\n", 0, it) + 1 for it in (start, end))
        found.update(range(first, last + 1) if first < last else ())
    return found


def plain_lines(text):
    """The lines of a file that say something, by number, with None in place of one that is a row of a table."""
    rows = heads(text)
    text = TEXT.sub(lambda it: "\n" * it.group(0).count("\n"), text)
    for number, line in enumerate(text.split("\n"), 1):
        line = line.strip()
        if re.search(r"\w", line) and not line.startswith(SILENT):
            yield number, None if number in rows or ROW.match(line) else line


def copied_lines(product):
    """The numbers of the lines, by file, that stand in six which stand elsewhere too."""
    places = defaultdict(list)
    for file, text in product.items():
        lines = list(plain_lines(text))
        for at in range(len(lines) - LINES + 1):
            six = lines[at:at + LINES]
            if all(line for _, line in six):
                places[tuple(line for _, line in six)].append((file, [number for number, _ in six]))
    found = defaultdict(set)
    for several in places.values():
        for file, numbers in several if len(several) > 1 else ():
            found[file].update(numbers)
    return found


def copied_places(product):
    found = copied_lines(product)
    return [f"{file}:{min(numbers)}: {len(numbers)} lines up to {max(numbers)}" for file, numbers in sorted(found.items())]


def main(words):
    blocks = count.blocks()
    product = sources([it for it in blocks if it[0] not in ("bench", "tests")])
    found = {
        "arguments": long_heads(product),
        "types": shared_types(product),
        "unused": unused_calls(product, sources(blocks)),
        "copies": copied_places(product),
    }
    if words and words[0] not in found:
        print(__doc__.strip(), file=sys.stderr)
        return 2
    if words:
        print("\n".join(found[words[0]]))
    else:
        print("\n".join(f"{name:<10} {len(places):>4}" for name, places in found.items()))
        print(f"{'copied':<10} {sum(len(it) for it in copied_lines(product).values()):>4} lines")
    return 0


if __name__ == "__main__":
    sys.exit(main(sys.argv[1:]))
