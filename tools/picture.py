#!/usr/bin/env python3
"""Draws docs/calls.svg: the calls a second of the table in docs/CEPH.md, as bars.

    tools/picture.py [--check]

The table is the block whose first line begins with `bytes of data: clients`: that line has, for each
size of the data, its numbers of clients; each other line has a name and a number for each of these.
`counter: lua` begins a group of bars, and ` lua` goes on with it. Drawn are the numbers of the first
size and of its most clients. With --check nothing is written, and the status is 1 if the picture
isn't what would be drawn."""
import os, re, sys

TOP = os.path.join(os.path.dirname(os.path.abspath(__file__)), "..")
PAGE = os.path.join(TOP, "docs", "CEPH.md")
PICTURE = os.path.join(TOP, "docs", "calls.svg")
HEAD = "    bytes of data: clients "
# Where bars begin, the length of the longest, the height of a line, and the picture's width.
NAMES, LONGEST, LINE, WIDTH = 190, 420, 20, 700
STYLE = """text { font: 13px sans-serif; fill: #333 } .other { fill: #9aa5b1 } .ours { fill: #2f7ed8 }
@media (prefers-color-scheme: dark) { text { fill: #ddd } .other { fill: #6b7785 } .ours { fill: #58a6ff } }"""


def table(text):
    """The size and the clients that are drawn, and the groups, each with its names and numbers."""
    lines = text[text.index(HEAD) :].split("\n\n")[0].split("\n")
    sizes = re.findall(r"([\d,]+):((?: +\d+\b(?![,:]))+)", lines[0][len(HEAD) :])
    clients = sizes[0][1].split()
    groups = []
    for line in lines[1:]:
        name, numbers = re.fullmatch(r"    (\s*\S.*?)((?:\s+\d+)+)", line).groups()
        group, colon, name = name.rpartition(":") if not name.startswith(" ") else ("", "", name)
        if colon:
            groups.append((group, []))
        groups[-1][1].append((name.strip(), int(numbers.split()[len(clients) - 1])))
    return sizes[0][0], clients[-1], groups


def picture(size, clients, groups):
    most = max(number for _, rows in groups for _, number in rows)
    title = f"Calls a second in a Ceph OSD: {clients} clients, objects of {size} bytes"
    made, at = [f'<text x="10" y="22" font-weight="bold">{title}</text>'], 34
    for group, rows in groups:
        made.append(f'<text x="10" y="{at + 15}" font-weight="bold">{group}</text>')
        for name, number in rows:
            at += LINE
            kind = "ours" if name.startswith("ours") else "other"
            long = round(LONGEST * number / most)
            made.append(f'<text x="{NAMES - 8}" y="{at + 15}" text-anchor="end">{name}</text>')
            made.append(f'<rect class="{kind}" x="{NAMES}" y="{at + 3}" width="{long}" height="{LINE - 5}"/>')
            made.append(f'<text x="{NAMES + long + 6}" y="{at + 15}">{number:,}</text>')
        at += LINE + 8
    made[:0] = ['<svg xmlns="http://www.w3.org/2000/svg" role="img" '
                f'viewBox="0 0 {WIDTH} {at}" width="{WIDTH}" height="{at}">',
                f"<title>{title}</title>", f"<style>{STYLE}</style>"]
    return "\n".join([*made, "</svg>", ""])


with open(PAGE, encoding="utf-8") as file:
    drawn = picture(*table(file.read()))
if sys.argv[1:] == ["--check"]:
    with open(PICTURE, encoding="utf-8") as file:
        if file.read() != drawn:
            sys.exit("docs/calls.svg isn't the table of docs/CEPH.md: run tools/picture.py")
else:
    with open(PICTURE, "w", encoding="utf-8") as file:
        file.write(drawn)
