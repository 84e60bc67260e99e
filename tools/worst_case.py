#!/usr/bin/env python3
"""Measures the most expensive things that accepted classes can do.

    tools/worst_case.py [RADOSCLS] [--loops]

RADOSCLS is what `rt run` leaves, if it isn't given. It writes each class below into a folder that is
deleted, and prints a line for each: what was measured, milliseconds of processor time, and megabytes
of memory. Processor time is the least of five runs. A call's is the difference of a class with all of
its steps and one with few, and an entry's that of two files with a hundred requests more.

With --loops it measures loops instead, each of one thing done over and over, by two budgets: what a call takes over one that
goes round once, of processor time and of memory.
"""
import os
import sys
import tempfile
from pathlib import Path

TOP = Path(__file__).resolve().parent.parent
SLOTS = 4096
VALUE = 4096
DATA = 65536
MOST = 65535


def truncating(times):
    """An object is created, and its data cut to nothing and filled with zeros by turns."""
    pair = ["mov r1, 0", "call 4", f"mov r1, {DATA}", "call 4"]
    return [".method f rw 0 0", "mov r1, 0", "call 14"] + pair * times + ["exit"]


def writing(times):
    """The whole input, of 65,535 bytes, is written over the data, again and again."""
    write = ["mov r1, 0", "mov r2, r6", f"mov r3, {MOST}", "call 3"]
    return [".rules 3", f".method f rw {MOST} 0", "mov r6, r1"] + write * times + ["exit"]


def filling(keys):
    """Each key of two bytes gets the input, of 4,096 bytes, as its value."""
    lines = [f".method f rw {VALUE} 0", "mov r6, r1", "mov r7, r10", "add r7, -8"]
    for key in range(keys):
        lines += [f"sth [r7+0], {key}", "mov r1, r7", "mov r2, 2", "mov r3, r6", f"mov r4, {VALUE}", "call 10"]
    return lines + ["mov r0, 0", "exit"]


def branching(rules, methods):
    """Half of each method's slots branch to slots of the other half, each to its own."""
    lines = [f".rules {rules}"] if rules > 1 else []
    for method in range(methods):
        lines.append(f".method f{method:02} r 0 0")
        lines += [f"jne r2, {slot}, +{SLOTS // 2 - 1}" for slot in range(SLOTS // 2 - 1)]
        lines += [f"jne r2, {slot}, +0" for slot in range(SLOTS // 2 - 1)]
        lines += ["mov r0, 0", "exit"]
    return lines


def telling(methods):
    """The same in rule set 3, where all registers and slots of the stack are copies of what is compared."""
    copies = [f"mov r{register}, r2" for register in (1, *range(3, 10))] + [f"stxdw [r10-{8 * slot}], r2" for slot in range(1, 65)]
    half = (SLOTS - len(copies) - 2) // 2
    lines = [".rules 3"]
    for method in range(methods):
        lines += [f".method f{method:02} r {MOST} 0"] + copies
        lines += [f"jne r2, {slot}, +{half - 1}" for slot in range(half)]
        lines += [f"jne r2, {slot}, +0" for slot in range(half)]
        lines += ["mov r0, 0", "exit"]
    return lines


BUDGETS = 131_072, 1_048_576
# What a round does, by name: before the loop r6 is the input, r7 the output, r8 16 bytes below the stack's end; the round's
# instructions; and options of `run`. The input is a name of eight bytes and zeros.
ROUNDS = {
    "additions": (["add r4, r5"], ()),
    "divisions": (["div r4, r5"], ()),
    "loads of 8 bytes": (["ldxdw r4, [r6+8]"], ()),
    "stores of 8 bytes": (["stxdw [r7+8], r5"], ()),
    "reads of 65,535 bytes": (["mov r1, 0", "mov r2, r7", f"mov r3, {MOST}", "call 2"], ("--object", "@data")),
    "writes of 65,535 bytes": (["mov r1, 0", "mov r2, r6", f"mov r3, {MOST}", "call 3"], ("--object", "@data")),
    "writes of 4,096 bytes": (["mov r1, 0", "mov r2, r6", f"mov r3, {VALUE}", "call 3"], ("--object", "@data")),
    "writes of a byte in 64 KB": (["mov r1, 30000", "mov r2, r6", "mov r3, 1", "call 3"], ("--object", "@data")),
    "cuts and zeros of 65,536 bytes": (["mov r1, 0", "call 4", f"mov r1, {DATA}", "call 4"], ("--object", "@data")),
    "xattrs read": (["mov r1, r6", "mov r2, 8", "mov r3, r7", f"mov r4, {VALUE}", "call 6"], ("--xattr", "abcdefgh=@value")),
    "xattrs set": (["mov r1, r6", "mov r2, 8", "mov r3, r7", f"mov r4, {VALUE}", "call 7"], ()),
    "keys read": (["mov r1, r6", "mov r2, 8", "mov r3, r7", f"mov r4, {VALUE}", "call 9"], ("--key", "abcdefgh=@value")),
    "keys set": (["mov r1, r6", "mov r2, 8", "mov r3, r7", f"mov r4, {VALUE}", "call 10"], ()),
    "keys set, of 512 names": (["mov r4, r9", "and r4, 511", "stxh [r8+0], r4", "mov r1, r8", "mov r2, 2", "mov r3, r7",
                                f"mov r4, {VALUE}", "call 10"], ()),
    "next keys": (["mov r1, r6", "mov r2, 0", "mov r3, r7", "mov r4, 64", "call 12"], ("--key", "abcdefgh=@value")),
    "removals and creations": (["call 5", "mov r1, 0", "call 14"], ("--object", "@data")),
    "comparisons of 65,535 bytes": (["mov r1, r7", f"mov r2, {MOST}", "mov r3, r7", f"mov r4, {MOST}", "call 16"], ()),
    "copies of 65,535 bytes": (["mov r1, r7", f"mov r2, {MOST}", "mov r3, r6", f"mov r4, {MOST}", "call 17"], ()),
}
SETTING = ["mov r6, r1", "mov r7, r3", "mov r8, r10", "add r8, -16", "mov r4, -1", "mov r5, 3", "mov r9, 0"]


def looping(body, rounds):
    """A method that goes round so often, and not once more."""
    ending = ["add r9, 1", f"jlt r9, {rounds}, again", "mov r0, 0", "exit"]
    return [".rules 3", f".method f rw {MOST} {MOST}", *SETTING, "again:", *body, *ending]


def rounds_in(body, budget):
    """How often a round fits into a budget."""
    round_weight = sum(64 if it.startswith("call") else 1 for it in body) + 2
    return (budget - len(SETTING) - 2) // round_weight


class Program:
    """The program, and the folder that it runs in."""

    def __init__(self, path, folder):
        self.path = path
        self.folder = Path(folder)

    def file(self, name, text):
        """Writes a file."""
        path = self.folder / name
        path.write_text(text)
        return str(path)

    def image(self, name, lines):
        """The image of a class."""
        text = self.file(name + ".txt", "\n".join(lines) + "\n")
        image = str(self.folder / (name + ".img"))
        self.once(["asm", text, image])
        return image

    def looped(self, name, budget, rounds):
        """The image of a method that goes round so often, with its heads."""
        text = self.file("looped.txt", "\n".join(looping(ROUNDS[name][0], rounds)) + "\n")
        image = str(self.folder / f"looped{rounds}.img")
        self.once(["heads", text, image, "--budget", str(budget)])
        return image

    def once(self, words):
        """Runs it: seconds of processor time, and the most kilobytes that it held."""
        out = os.open(self.folder / "out", os.O_WRONLY | os.O_CREAT | os.O_TRUNC)
        child = os.posix_spawn(self.path, [self.path, *words], os.environ, file_actions=[(os.POSIX_SPAWN_DUP2, out, 1)])
        os.close(out)
        _, status, used = os.wait4(child, 0)
        printed = (self.folder / "out").read_text()
        if status != 0 or "refused" in printed:
            sys.exit(f"{' '.join(words)[:200]}: status {status}\n{printed[-500:]}")
        return used.ru_utime + used.ru_stime, used.ru_maxrss

    def least(self, words):
        """The least of five runs."""
        runs = [self.once(words) for _ in range(5)]
        return min(time for time, _ in runs), min(memory for _, memory in runs)


def line(what, time, kilobytes):
    """Prints a line of the table."""
    print(f"{what}: {time * 1000:.1f} ms, {kilobytes / 1024:.1f} MB", flush=True)


def measure_loops(program):
    """Each loop by each budget, and the worst."""
    program.file("data", "a" * DATA), program.file("value", "a" * VALUE)
    given = "@" + program.file("input", "abcdefgh" + "\0" * (MOST - 8))
    for budget in BUDGETS:
        worst = 0, ""
        for name, (body, options) in ROUNDS.items():
            rounds = rounds_in(body, budget)
            options = [it.replace("@", f"@{program.folder}/") for it in options]
            took = []
            for count in (rounds, 1):
                words = ["run", program.looped(name, budget, count), "f", "--loops", "--input", given, *options]
                took.append(program.least(words))
                printed = (program.folder / "out").read_text()
                if not printed.startswith("code 0\n"):
                    sys.exit(f"{name}: {printed[:100]}")
            (many, most), (few, least) = took
            line(f"budget {budget}, {rounds} rounds of {name}", many - few, most - least)
            worst = max(worst, (many - few, name))
        print(f"budget {budget}: the worst are {worst[1]}, {worst[0] * 1000:.1f} ms", flush=True)


def main():
    words = [it for it in sys.argv[1:] if it != "--loops"]
    path = words[0] if words else str(TOP / "crates/radoscls/out/radoscls")
    with tempfile.TemporaryDirectory() as folder:
        program = Program(os.path.abspath(path), folder)
        if "--loops" in sys.argv:
            return measure_loops(program)

        most = (SLOTS - 3) // 4
        many, memory = program.least(["run", program.image("many", truncating(most)), "f", "--object", "00"])
        few, _ = program.least(["run", program.image("few", truncating(1)), "f", "--object", "00"])
        line(f"a call of {4 * most + 3} steps, {2 * most} of which truncate", many - few, memory)

        most, text = (SLOTS - 2) // 4, program.file("input", "a" * MOST)
        many, memory = program.least(["run", program.image("writes", writing(most)), "f", "--input", f"@{text}", "--object", "00"])
        few, _ = program.least(["run", program.image("write", writing(1)), "f", "--input", f"@{text}", "--object", "00"])
        line(f"a call of {4 * most + 2} steps, {most} of which write {MOST} bytes", many - few, memory)

        keys = (SLOTS - 5) // 6
        image = program.image("fill", filling(keys))
        opening = "map 1\nsee 1 1\ndeliver 1\ndeliver 2\n"
        asked = "".join(f"req 1 1 {number} a fill f {'61' * VALUE}\n" for number in range(1, 111))
        requests = asked.splitlines(keepends=True)
        some = program.file("some.sim", opening + "".join(requests[:10]))
        more = program.file("more.sim", opening + asked)
        short = program.least(["sim", some, "--class", f"fill={image}"])
        long = program.least(["sim", more, "--class", f"fill={image}"])
        line(f"an entry that sets {keys} keys", (long[0] - short[0]) / 100, (long[1] - short[1]) / 100)

        for rules in (1, 2, 3):
            image = program.image(f"branches{rules}", branching(rules, 32))
            line(f"verify of {os.path.getsize(image)} bytes in rule set {rules}", *program.least(["verify", image]))
        image = program.image("telling", telling(2))
        line(f"verify of {os.path.getsize(image)} bytes, two methods, all places linked", *program.least(["verify", image]))


main()
