"""Finds where straight pieces of the library's code begin in a linked program, for tools/fuzz_blocks.c.

    fuzz_blocks.py PROGRAM MAP ARCHIVE

MAP is what the linker wrote (-Wl,-Map) of PROGRAM, ARCHIVE the library's name in it. Prints their addresses in hexadecimal, a line
each: the first instruction of a piece of text, each behind a jump or a return, and each that a jump goes to."""
import bisect, re, subprocess, sys

ENDS = re.compile(r"(j\w+|bnd jmp|notrack jmp|ret\w?|repz ret|ud2|hlt)\b")


def pieces(path, archive):
    """Where the archive's pieces of text lie: pairs of the first address and the one behind."""
    found, section = [], ""
    for line in open(path):
        section = line.split()[0] if re.match(r" \.\S", line) else section
        at = re.search(r"\s(0x[0-9a-f]+)\s+(0x[0-9a-f]+)\s+(\S*)\(", line)
        if at and at[3].endswith(archive) and section.startswith(".text") and int(at[2], 16):
            found.append((int(at[1], 16), int(at[1], 16) + int(at[2], 16)))
    return sorted(found)


def main(program, path, archive):
    all_pieces = pieces(path, archive)
    begins, starts, code, is_begin = [it[0] for it in all_pieces], set(), set(), True
    bounds = [f"--start-address={all_pieces[0][0]}", f"--stop-address={all_pieces[-1][1]}"]
    words = ["objdump", "-d", "--no-show-raw-insn", *bounds, program]
    for line in subprocess.run(words, capture_output=True, text=True, check=True).stdout.splitlines():
        at = re.match(r"\s*([0-9a-f]+):\t(\S.*)", line)
        place = int(at[1], 16) if at else 0
        piece = bisect.bisect(begins, place) - 1
        if piece < 0 or place >= all_pieces[piece][1]:
            continue
        code.add(place)
        if is_begin or place == begins[piece]:
            starts.add(place)
        ends = ENDS.match(at[2])
        is_begin = bool(ends)
        to = re.match(r"j\w+\s+(?:0x)?([0-9a-f]+)\b", at[2])
        if to:
            starts.add(int(to[1], 16))
    for place in sorted(starts & code):
        print(f"{place:x}")


main(*sys.argv[1:])
