"""The rows of tools/process.py: a folder's files, and runs of `radoscls` in it.

What the program prints itself is here to the letter, as docs/ has it. `clap` words help and usage:
of a usage a row has the first line, in the form that clap documents, of help the names that stand
in it. Of what --explain adds it has the place: below the line, indented."""
import os, re, struct
from pathlib import Path


def bytes_of(digits):
    return bytes.fromhex(digits.replace(" ", ""))


# `mov r0, 0`, `exit`: its code, its image and its text.
CODE = bytes_of("b700000000000000 9500000000000000")
TWO = bytes_of("52434c31 0100 0000 01 66 01 0000 0000 0200") + CODE
TWO_TEXT = ".method f r 0 0\nmov r0, 0\nexit\n"
# Keeps four bytes of input in the object, and reads them.
KEEP = bytes_of("""52434c31 0100 0000 04 6b656570 03 0400 0400 0e00
    bf36000000000000 bf12000000000000 b701000000000000 b703000004000000 8500000003000000
    b701000000000000 bf62000000000000 b703000004000000 8500000002000000 bf07000000000000
    b701000004000000 850000000d000000 bf70000000000000 9500000000000000""")
# The lock of the built-in class, whose xattr `lock` has the owner's number.
LOCK = bytes_of("""52434c31 0100 0000 04 6c6f636b 03 0000 0000 1900
    850000000f000000 bf06000000000000 620afcff6c6f636b bfa1000000000000 07010000fcffffff
    b702000004000000 bfa3000000000000 07030000f0ffffff b704000008000000 8500000006000000
    7500090000000000 7b6af0ff00000000 bfa1000000000000 07010000fcffffff b702000004000000
    bfa3000000000000 07030000f0ffffff b704000008000000 8500000007000000 9500000000000000
    79a1f0ff00000000 b700000000000000 1d61010000000000 b7000000f0ffffff 9500000000000000""")
# `lddw r0, 1`, `exit`; and `exit` alone.
WIDE = bytes_of("""52434c31 0100 0000 01 66 01 0000 0000 0300
    1800000001000000 0000000000000000 9500000000000000""")
UNSET = bytes_of("52434c31 0100 0000 01 66 01 0000 0000 0100 9500000000000000")
# The largest class, which is of rule set 3: 32 methods with names of 64 bytes and 4,096 instructions each.
NAMES = [f"{n:064}" for n in range(32)]
LARGEST_TEXT = ".rules 3\n" + "".join(
    f".method {name} rw 65535 65535\n" + "mov r0, 0\n" * 4095 + "exit\n" for name in NAMES)
LARGEST = b"RCL3" + struct.pack("<HH", 32, 0) + b"".join(
    b"\x40" + name.encode() + struct.pack("<BHHH", 3, 65535, 65535, 4096)
    + CODE[:8] * 4095 + CODE[8:] + bytes(2) for name in NAMES)
# A method of rule set 3 that copies its input to its output, each of up to 65,535 bytes.
COPIES_TEXT = """.rules 3
.method f r 65535 65535
mov r4, r2
mov r2, r3
mov r3, r1
mov r1, r2
mov r2, 65535
call 17
mov r6, r0
jslt r0, 0, +2
mov r1, r0
call 13
mov r0, r6
exit
"""
# A method with a loop, which adds the bytes of its input, and what it declares of the loop: its jump back is at slot 8.
BARE_TEXT = """.rules 3
.method s r 16 0
mov r0, 0
mov r4, 0
jge r4, r2, +6
mov r5, r1
add r5, r4
ldxb r5, [r5+0]
add r0, r5
add r4, 1
ja -7
exit
"""
LOOP_TEXT = BARE_TEXT.replace("16 0\n", "16 0\n.budget 100\n").replace("jge", ".head r0 any, r4 0 16\njge")
# A method with a loop, which writes the bytes of its input to the object, one by one: by its budget no more than two.
WRITES_TEXT = """.rules 3
.method w rw 16 0
.budget 200
mov r6, r1
mov r7, r2
mov r8, 0
.head r1 unset, r2 unset, r3 unset, r8 0 16
jge r8, r7, +7
mov r1, r8
mov r2, r6
add r2, r8
mov r3, 1
call 3
add r8, 1
ja -8
mov r0, r8
exit
"""
# A class whose text is longer than any image: its 32 methods have 4,096 instructions each.
LARGER_TEXT = "".join(f".method m{n:02} r 0 0\n" + "mov r0, 0\n" * 4095 + "exit\n" for n in range(32))
# The longest text that there may be.
LIMIT = 16_777_216
LONGEST_TEXT = TWO_TEXT + ";" * (LIMIT - len(TWO_TEXT))
# A lock that two clients want of one node, and what each line comes to.
OPENING = "map 1\nsee 1 1\ndeliver 1\ndeliver 2\n"
OPENED = "map 1 prev 0\nm1 1->mon AskActivate 1\nm2 mon->1 Activated 1\nnothing\n"
LOCKS = OPENING + """req 1 1 1 a lock lock -
req 1 2 1 a lock lock -
req 1 1 2 a lock unlock -
req 1 2 2 a lock lock -
"""
LOCKED = OPENED + """m3 1->c1 Reply 1 0 0 -
m4 1->c2 Reply 1 1 -16 -
m5 1->c1 Reply 2 2 0 -
m6 1->c2 Reply 2 3 0 -
"""
NUMBERS = "cluster nodes 3 replicas 3 groups 64 shards 4 workers 4 tries 100000000\n"
LETTERS = "a" * 1_000_000

# What lies in the folder, beside an empty folder of the name `folder`.
FILES = {
    "two.img": TWO,
    "two.txt": TWO_TEXT,
    "keep.img": KEEP,
    "lock.img": LOCK,
    "wide.img": WIDE,
    "unset.img": UNSET,
    "long.img": TWO + b"\0",
    "opcode.img": TWO.replace(b"\xb7", b"\0"),
    "empty": b"",
    "code": CODE,
    "word.txt": ".method f r 0 0\nfoo r1\nexit\n",
    "cut": b"before",
    "latin1": b".method f r 0 0\nexit ; \xe9\n",
    # names that could be read as something else
    "-": TWO,
    "--show": TWO,
    "a b": TWO,
    "a=b": TWO,
    "a:b": CODE,
    "\u00e9.img": TWO,
    "locks.sim": LOCKS,
    "bad.sim": "map 1\nmap\nsee one 1\nmap 2\n",
    "two.sim": OPENING + "req 1 1 1 a two f -\n",
    "last.sim": OPENING + "req 1 1 1 a c61 f -\n",
    "calls": NUMBERS + "client 1 a lock lock -\nclient 1 a lock unlock -\n",
    "clients": NUMBERS + "client 1 a lock lock -\nmap 0 1\nclient 2 a lock lock -\n",
    "refused": NUMBERS + "client 1 a lock lock 00\nclient 1 a none f -\nclient 1 a lock f -\n",
    "two.calls": NUMBERS + "client 1 a two f -\n",
    "bad.calls": NUMBERS + "client 1 a lock lock -\nclient 3 a lock lock -\n",
    "map.calls": NUMBERS + "client 1 a lock lock -\nmap\n",
    "limit.calls": NUMBERS.replace("nodes 3", "nodes 17"),
    "loop.txt": LOOP_TEXT,
    "bare.txt": BARE_TEXT,
    "writes.txt": WRITES_TEXT,
    "three.txt": TWO_TEXT + ".method g r 0 0\nexit\n" + TWO_TEXT.replace(" f ", " h "),
    "held": "data 6162\nxattr a 01\nkey k -\n",
    "bad.held": "data 6162\nxattr a\n",
    "full": b"o" * 65536,
    # bytes that a terminal obeys: in a wrong line, in a comment, in the words of events and calls
    "escape.txt": b".method f r 0 0\nmov r0, \x1b[31m0\\ \xc3\xa9\x7f\t~\nexit\n",
    "escape.unsafe": b".method f r 0 0\nexit ; \x1b]0;a\x07\n",
    "escape.sim": OPENING.encode() + b"req 1 1 1 a\x1b[2J\xc3\xa9 lock lock -\n",
    "escape.bad": b"map 1\n\x1b[2J 1\n",
    "escape.calls": NUMBERS.encode() + b"client 1 a \x1b[2J f\xc3\xa9~ -\n",
    # a fault at the end of a million lines, in a line of a million letters, at the end of an unsafe
    # class; events
    "lines.txt": "\n" * 999_999 + "foo\n",
    "letters.txt": LETTERS,
    "lines.unsafe": ".method f r 0 0\n" + "\n" * 999_998 + "exit\n",
    "lines.sim": "\n" * 99_999 + "foo\n",
    "largest.txt": LARGEST_TEXT,
    "copies.txt": COPIES_TEXT,
    "larger.txt": LARGER_TEXT,
    "longest.txt": LONGEST_TEXT,
    "over.txt": LONGEST_TEXT + ";",
    "kept": "data 6162\nxattr a 01\n",
    "largest.img": LARGEST,
}

# The modes of files that have another than 0644, which stay; the symbolic links beside them.
MODES = {"kept": 0o640, "lock.img": 0o755}
LINKS = {"link": "kept", "far": "./link", "dangling": "made", "lost": "missing/made"}
# Folders, and the files in them: of classes, of none, and one whose name isn't UTF-8.
FOLDERS = {
    "folder": {}, "one": {"two.img": TWO}, "mixed": {"good.txt": TWO_TEXT.encode(), "bad.img": b"", "b": b"", "b.md": b""},
    "order": {"b.txt": TWO_TEXT.encode(), "a.img": TWO, "Z.img": TWO, ".img": b"", ".c.img": b"", "d.img~": b"", "img": b""},
    "notes": {"README": b"", "a.imgs": b""}, "odd": {"two.img": TWO, "\udcff.txt": b""},
}
# A new file that wasn't put in its place, since the process was killed.
NEW = ".radoscls-"

# What each command takes, as docs/PROGRAM.md has it: places, and options with their values.
COMMANDS = {
    "verify": (["<IN>..."], {"--all": "", "--loops": "", "--json": "", "--explain": ""}),
    "run": (["<IN>", "<METHOD>"], {
        "--input": " <HEX>", "--input-text": " <TEXT>", "--input-u64": " <N,..>", "--caller": " <N>", "--object": " <HEX>", "--xattr": " <NAME=HEX>",
        "--key": " <KEY=HEX>", "--limits": " <LIMITS>", "--loops": "", "--load": " <FILE>", "--save": " <FILE>",
        "--show": "", "--trace": "", "--json": "", "--explain": ""}),
    "asm": (["<IN>", "<OUT>"], {"--all": "", "--heads": "", "--budget": " <N>", "--explain": ""}),
    "pack": (["<OUT>", "<METHOD>..."], {"--rules": " <N>", "--heads": "", "--budget": " <N>", "--explain": ""}),
    "dis": (["<IN>"], {"--slots": "", "--explain": ""}),
    "heads": (["<IN>", "<OUT>"], {"--budget": " <N>"}),
    "sim": (["<FILE>"], {"--class": " <NAME=IMAGE>", "--trace": "", "--objects": "", "--explain": ""}),
    "cluster": (["<FILE>"], {"--class": " <NAME=IMAGE>", "--show": "", "--stats": "", "--strict": "",
        "--explain": "", "--follow": ""}),
}
# Words that each command does, and a value of each option that is right.
DONE = {
    "verify": "verify two.img", "run": "run keep.img keep", "asm": "asm two.txt out",
    "pack": "pack out f:r:0:0:code", "dis": "dis two.img", "heads": "heads two.txt out", "sim": "sim locks.sim",
    "cluster": "cluster calls",
}
RIGHT = {"--input": "00", "--input-text": "a", "--input-u64": "5", "--caller": "1", "--object": "00", "--rules": "1", "--budget": "1", "--limits": "ceph", "--load": "held",
         "--save": "out"}
OF_ALL = "--help", "--version"
# The program says the number alone, without the `-dev` that VERSION has between releases.
NUMBER = (Path(__file__).resolve().parent.parent / "VERSION").read_text().strip().removesuffix("-dev")
VERSION = f"radoscls {NUMBER}\nlogic dac8208d650f15bf\n"
OPTIONS = sorted({option for _, options in COMMANDS.values() for option in options})


def usage(first="", last="\nFor more information, try '--help'.\n"):
    """Whether a text is clap's of wrong words: an error that begins so, and where to look."""
    return lambda text: text.startswith(f"error: {first}") and text.endswith(last)


def mistake(words, value, argument):
    """Whether a text says that the value isn't what the argument wants, and then the command's use."""
    start = usage(f"invalid value '{value}' for '{argument}': expected ")
    return lambda text: start(text) and f"\n\nUsage: radoscls {words.split()[0]} " in text


def helps(use, *names):
    """Whether a text is clap's help: what the command is for, its use, and a line a name."""

    def is_help(text):
        first, empty, line = (text + "\n\n\n").split("\n")[:3]
        named = (re.search(f"^ +(-., )?{re.escape(name)}( |$)", text, re.M) for name in names)
        return first != "" and empty == "" and line.startswith(use) and all(named)

    return is_help


def tells(first, least=1):
    """Whether a text is that line and so many or more below it, which are indented."""

    def is_told(text):
        line, *more, end = text.split("\n")
        return line == first and end == "" and len(more) >= least and all(
            below.startswith("  ") for below in more)

    return is_told


def shows(first, line):
    """Whether a text is the first line and then more that is indented, with this one among it, and
    has printable ASCII alone."""
    is_told = tells(first)

    def is_shown(text):
        return is_told(text) and "  " + line in text.split("\n") and all(
            letter == "\n" or " " <= letter <= "~" for letter in text)

    return is_shown


def figures(calls):
    """Whether a text is what --stats writes of that many calls."""
    names = ("calls a second", "mean microseconds", "median microseconds", "99 % microseconds", "worst microseconds",
             "map to last answer microseconds", "messages", "repeats", "nudges")
    lines = f"calls {calls}\n" + "".join(f"{name} [0-9]+\n" for name in names)
    return lambda text: re.fullmatch(f"(answered [0-9]+ of {calls}\n)*{lines}", text) is not None


def ran(code, output, steps, held, *more):
    """The lines of a call."""
    lines = f"code {code}", f"output {output}", f"steps {steps}", f"object {held}", *more
    return "".join(line + "\n" for line in lines)


class Row:
    """Words after the program's name, in a text with blanks between them or in a list; what they
    print on standard output and on standard error, as a text or a test of it; the status; what
    standard input has; which files are written, and with what. `to` and `err_to` are where the two
    streams go, if it is nowhere: then the row has None of what they get. `room` is how many bytes
    standard output takes, if it is a file, and each file that is written; `killed` is true if a
    write of more ends the process. `space` is how many megabytes the process has, if each of its
    threads wants 256; `stack` is how many kilobytes its first thread has. `slow` is true if checks of
    memory make it take minutes. `then` is a row of words that come after these, while what they wrote
    is still there; of it the streams and the status are compared."""

    def __init__(self, words, out="", err="", status=0, stdin=b"", wrote=(), to=None, err_to=None,
                 room=None, space=None, killed=False, stack=None, slow=False, then=None):
        self.words = words.split() if isinstance(words, str) else words
        self.out, self.err, self.status = out, err, status
        self.stdin, self.wrote, self.room, self.space = stdin, dict(wrote), room, space
        self.to, self.err_to, self.killed, self.stack = to, err_to, killed, stack
        self.slow, self.then = slow, then


def lines_of(text=""):
    """The lines of a text that has ` / ` between them, or ` // ` before one that is indented."""
    return text.replace(" // ", "\n  ").replace(" / ", "\n") + "\n" if text else ""


def rows_of(table):
    """The rows of a table, of two lines each: words and, after them, the lines of standard input;
    then, after `=>`, the status and what is printed. A line goes on in the next one, four blanks from
    its beginning."""
    lines = table.strip("\n").replace("\n    ", " ").split("\n")
    for asked, answer in zip(lines[::2], lines[1::2], strict=True):
        words, _, text = asked.partition(" / ")
        arrow, status, *printed = answer.split(" ", 2)
        if arrow != "=>":
            raise ValueError(f"no answer: {answer}")
        yield Row(words, lines_of(*printed), "", int(status), stdin=lines_of(text).encode())


# Streams that take nothing: a full device, a pipe that nobody reads, a closed one. A terminal, for
# standard error, is read.
FULL, UNREAD, CLOSED, TERMINAL = "/dev/full", "unread", "closed", "terminal"
RAN = ran(0, "-", 2, "absent")
SLOTS = ".method f r 0 0\nmov r0, 0 ; slot 0\nexit ; slot 1\n"
CALLED = "client 1 call 0 place 0 code 0 output -\n"
CALLS = CALLED + "client 1 call 1 place 1 code 0 output -\n"
CLIENTS = CALLED + "client 2 call 0 place 1 code -16 output -\n"
REPLY = OPENED + "m3 1->c1 Reply 1 0 0 -\n"
NO_IMAGE = "image refused after 0 methods: 1 Truncated\n"
UNSAFE = "refused method 0 slot 0: 5 UnsetRead\n"
NO_CLASS = "client 1 call 0 refused 5 NoClass\n"
ESCAPED = r"line 2: mov r0, \x1b[31m0\ \xc3\xa9\x7f\x09~"
ESCAPED_COMMENT = r"line 2: exit ; \x1b]0;a\x07"
ESCAPED_DRAWING = r"""c1          1           mon         event
|           |           *           map 1: map 1 prev 0
|           *           |           see 1 1 => m1
|           |--m1------>|           AskActivate 1 => m2
|           |<------m2--|           Activated 1
|--req----->|           |           req 1 1 1 a\x1b[2J\xc3\xa9 lock lock - => m3
|<------m3--|           |           Reply 1 0 0 -
"""
WORD_AT_END, WORD_AT_ONCE = "line 1000000: 1 Word", "line 1: 1 Word"
NOT_GIVEN = "the following required arguments were not provided:\n"
KEEPS, KEPT = ran(0, "-", 2, "2 1 0"), b"data 6162\nxattr a 01\n"
SAVED = "radoscls: standard output failed; the object was saved to {}\n"
TOO_LONG = "text too long: at most 16777216 bytes\n"
# What reads the class of a file, and what is written of it if no text is read.
READERS = ("verify {}", "verify --all {}", "dis {}", "run {} f", "run {} f --save kept", "asm {} two.img",
           "sim two.sim --class two={}", "cluster two.calls --class two={}")

ROWS = [
    # each command
    Row("verify two.img", "f ok 2\n"),
    Row("run two.img f", RAN),
    Row("run lock.img lock", ran(0, "-", 20, "0 1 0")),
    Row("run keep.img keep --input 726f6f74", ran(4, "726f6f74", 14, "4 0 0")),
    Row("asm two.txt out", wrote={"out": TWO}),
    Row("pack out f:r:0:0:code", wrote={"out": TWO}),
    Row("dis two.img", TWO_TEXT),
    Row("sim locks.sim", LOCKED),
    Row("cluster calls", CALLS),
    Row("cluster clients", CLIENTS),
    Row("cluster calls --strict", CALLS),
    # --strict: 1 if a call is refused, and what is printed is the same
    Row("cluster --strict refused", "client 1 call 0 refused 7 InputTooLong\n"
        "client 1 call 1 refused 5 NoClass\nclient 1 call 2 refused 6 NoMethod\n", "", 1),
    Row("cluster refused", "client 1 call 0 refused 7 InputTooLong\n"
        "client 1 call 1 refused 5 NoClass\nclient 1 call 2 refused 6 NoMethod\n"),
    # what OUT held is gone, and it may be IN
    Row("asm two.txt lock.img", wrote={"lock.img": TWO}),
    Row("asm two.txt two.txt", wrote={"two.txt": TWO}),
    Row("pack code f:r:0:0:code", wrote={"code": TWO}),
    # a text in place of an image
    Row("verify two.txt", "f ok 2\n"),
    Row("run two.txt f", RAN),
    Row("dis two.txt", TWO_TEXT),
    Row("verify word.txt", "line 2: 1 Word\n", "", 1),
    # each method's verdict
    Row("verify --all two.img", "f ok 2\n"),
    Row("verify three.txt --all", "f ok 2\nrefused method 1 slot 0: 5 UnsetRead\nh ok 2\n", "", 1),
    Row("verify three.txt", "refused method 1 slot 0: 5 UnsetRead\n", "", 1),
    Row("verify --all empty", NO_IMAGE, "", 1),
    # an object that lasts
    Row("run two.img f --load held --show",
        ran(0, "-", 2, "2 1 1", "data 6162", "xattr a 01", "key k -")),
    Row("run keep.img keep --input 726f6f74 --load held --save held",
        ran(4, "726f6f74", 14, "4 1 1"), wrote={"held": b"data 726f6f74\nxattr a 01\nkey k -\n"}),
    Row("run two.img f --save out", RAN, wrote={"out": b""}),
    Row("run two.img f --load empty --show", RAN),
    Row("run two.img f --load - --show", ran(0, "-", 2, "0 0 0", "data -"), stdin=b"data -\n"),
    Row("run two.img f --load bad.held --save out", "object line 2: bad\n", "", 1),
    Row("run two.img f --load missing", "cannot read\n", "", 1),
    Row("run two.img f --load latin1", "cannot read\n", "", 1),
    Row("run two.img f --save folder", "cannot write\n", "", 1),
    Row("run two.img f --save missing/out --explain", tells("cannot write"), "", 1),
    Row("run two.img f --load bad.held --explain", tells("object line 2: bad"), "", 1),
    # a file is written whole or not at all: of a link the target, and its mode stays
    Row("run two.img f --load kept --save kept", KEEPS, wrote={"kept": KEPT}),
    Row("run two.img f --load kept --save link", KEEPS, wrote={"kept": KEPT}),
    Row("run two.img f --load kept --save folder/../far", KEEPS, wrote={"kept": KEPT}),
    Row("asm two.txt dangling", wrote={"made": TWO}),
    Row("pack dangling f:r:0:0:code", wrote={"made": TWO}),
    Row("asm two.txt lost", "cannot write\n", "", 1),
    Row("asm two.txt " + "n" * 255, wrote={"n" * 255: TWO}),
    Row("asm two.txt " + "n" * 256, "cannot write\n", "", 1),
    *(Row(words, "cannot write\n", "", 1, room=room) for room in (13, 20) for words in (
        "run two.img f --load kept --save kept", "run two.img f --load kept --save link",
        "run two.img f --load kept --save out", "asm two.txt two.txt", "asm two.txt lock.img",
        "asm two.txt dangling", "pack out f:r:0:0:code", "pack code f:r:0:0:code")),
    Row("run two.img f --load kept --save kept", "", "", -25, wrote={NEW: KEPT[:13]}, room=13,
        killed=True),
    Row("asm two.txt lock.img", "", "", -25, wrote={NEW: TWO[:13]}, room=13, killed=True),
    # in place: what is no regular file
    Row("asm two.txt /dev/stdout", lambda text: text.encode("latin1", "ignore")[:4] == b"RCL1"),
    Row("run two.img f --load kept --save /dev/stdout", KEPT.decode() + KEEPS),
    Row("asm two.txt /dev/null"),
    Row("run two.img f --load kept --save /dev/full", "cannot write\n", "", 1),
    # an object that is saved, though standard output takes nothing, or a part
    *(Row(f"run two.img f --load kept --save {name}", None, SAVED.format(name), 1, to=to,
          wrote={"out" if name == "out" else "kept": KEPT})
      for to in (FULL, UNREAD, CLOSED) for name in ("kept", "link", "out")),
    *(Row("run two.img f --load kept --save kept", KEEPS[:room], SAVED.format("kept"), 1,
          wrote={"kept": KEPT}, room=room) for room in (21, 36)),
    *(Row(words, None, "", 1, to=to) for to in (FULL, UNREAD, CLOSED) for words in (
        "run two.img f --load kept", "run two.img g --save kept",
        "run two.img f --load kept --save missing/kept")),
    # texts that are longer than an image, as long as they may be, and longer
    Row("verify larger.txt", "".join(f"m{n:02} ok 4096\n" for n in range(32))),
    Row("dis larger.txt", LARGER_TEXT),
    Row("run larger.txt m31", ran(0, "-", 4096, "absent")),
    Row("verify longest.txt", "f ok 2\n"),
    Row("asm - out", stdin=LONGEST_TEXT.encode(), wrote={"out": TWO}),
    Row("sim two.sim --class two=longest.txt", REPLY),
    *(Row(words.format("over.txt"), TOO_LONG, "", 1) for words in READERS),
    Row("verify -", TOO_LONG, "", 1, stdin=b"\xff" * (LIMIT + 1)),
    Row("verify -", "image refused after 0 methods: 2 Magic\n", "", 1, stdin=b"\xff" * LIMIT),
    Row("verify -", "image refused after 0 methods: 2 Magic\n", "", 1, stdin=b"a" * LIMIT + b"\0"),
    Row("verify -", "image refused after 1 methods: 11 Trailing\n", "", 1, stdin=TWO + b"a" * LIMIT),
    # refusals, which write no file
    Row("verify missing", "cannot read\n", "", 1),
    Row("verify folder", "cannot read\n", "", 1),
    Row(["verify", ""], "cannot read\n", "", 1),
    Row("verify empty", NO_IMAGE, "", 1),
    Row("verify long.img", "image refused after 1 methods: 11 Trailing\n", "", 1),
    Row("verify opcode.img", "image refused after 0 methods, slot 0: 3 Opcode\n", "", 1),
    Row("verify unset.img", UNSAFE, "", 1),
    Row("run unset.img f", UNSAFE, "", 1),
    Row("run two.img f --input 0", "input is not hex\n", "", 1),
    Row("run two.img f --input=00", "call refused: 2 InputTooLong\n", "", 1),
    Row("run two.img g", "call refused: 1 NoMethod\n", "", 1),
    Row("run two.img f --object 0g", "object is not hex\n", "", 1),
    Row("asm word.txt two.img", "line 2: 1 Word\n", "", 1),
    Row("asm latin1 two.img", "cannot read\n", "", 1),
    Row("asm two.txt folder", "cannot write\n", "", 1),
    Row("asm two.txt missing/out", "cannot write\n", "", 1),
    Row("asm two.txt /dev/full", "cannot write\n", "", 1),
    Row("pack folder f:r:0:0:code", "cannot write\n", "", 1),
    Row("pack two.img f:r:0:0:two.img", NO_IMAGE, "", 1),
    Row("dis empty", NO_IMAGE, "", 1),
    Row("sim missing", "cannot read\n", "", 1),
    Row("sim latin1", "cannot read\n", "", 1),
    Row("sim bad.sim", "map 1 prev 0\nrefused 1 BadActing\nline 3: bad\n", "", 1),
    Row("sim locks.sim --class two=unset.img", UNSAFE, "", 1),
    Row("cluster latin1", "cannot read\n", "", 1),
    Row("cluster empty", "line 1: bad\n", "", 1),
    Row("cluster bad.calls", "line 3: bad\n", "", 1),
    Row("cluster map.calls", "line 3: refused 1 NoneUp\n", "", 1),
    Row("cluster limit.calls", "line 1: refused 1 Limit\n", "", 1),
    # --input, --caller, --object, --xattr, --key, --show, in any order
    Row("run keep.img keep --input 7A", ran(4, "7a000000", 14, "4 0 0")),
    Row("run keep.img keep --input-text root", ran(4, "726f6f74", 14, "4 0 0")),
    Row(["run", "keep.img", "keep", "--input-text", "a+ "], ran(4, "612b2000", 14, "4 0 0")),
    Row("run keep.img keep --input-text=", ran(4, "00000000", 14, "4 0 0")),
    Row("run copies.txt f --input-u64 1,18446744073709551615",
        ran(16, "0100000000000000ffffffffffffffff", 12, "absent")),
    Row("run keep.img keep --input-u64 1", "call refused: 2 InputTooLong\n", "", 1),
    Row("run lock.img lock --caller=7 --show",
        ran(0, "-", 20, "0 1 0", "data -", "xattr lock 0700000000000000")),
    Row("run --show --caller 4294967295 lock.img lock",
        ran(0, "-", 20, "0 1 0", "data -", "xattr lock ffffffff00000000")),
    Row("run lock.img lock --xattr lock=0100000000000000", ran(0, "-", 15, "0 1 0")),
    Row("run --caller 2 lock.img --xattr lock=0100000000000000 lock", ran(-16, "-", 16, "0 1 0")),
    Row("run two.img f --show", RAN),
    Row(["run", "two.img", "f", "--object", "", "--show"], ran(0, "-", 2, "0 0 0", "data -")),
    Row(["run", "two.img", "f", "--key", "b=", "--key", "0x61=00", "--xattr", "a b=01", "--show"],
        ran(0, "-", 2, "0 1 2", "data -", "xattr 0x612062 01", "key a 00", "key b -")),
    # --slots, --rules
    Row("dis wide.img --slots",
        ".method f r 0 0\nlddw r0, 0x0000000000000001 ; slot 0\nexit ; slot 2\n"),
    Row("dis --slots two.img", SLOTS),
    Row("pack --rules 2 out f:r:0:0:code", wrote={"out": b"RCL2" + TWO[4:]}),
    Row("pack --rules 3 out f:r:0:0:code", wrote={"out": b"RCL3" + TWO[4:] + bytes(2)}),
    Row("pack out f:r:0:0:code --rules=1", wrote={"out": TWO}),
    # --explain: of a failure alone
    Row("verify two.img --explain", "f ok 2\n"),
    Row("run --explain two.img f", RAN),
    Row("dis two.img --explain", TWO_TEXT),
    Row("asm --explain two.txt out", wrote={"out": TWO}),
    Row("pack out f:r:0:0:code --explain", wrote={"out": TWO}),
    Row("verify --explain unset.img", tells(UNSAFE[:-1]), "", 1),
    Row("run unset.img f --explain", tells(UNSAFE[:-1]), "", 1),
    Row("run two.img g --explain", tells("call refused: 1 NoMethod"), "", 1),
    Row("asm word.txt out --explain", tells("line 2: 1 Word"), "", 1),
    Row("dis empty --explain", tells(NO_IMAGE[:-1]), "", 1),
    Row("verify missing --explain", "cannot read\n  missing: No such file or directory (os error 2)\n", "", 1),
    Row("asm missing out --explain", tells("cannot read"), "", 1),
    Row("asm two.txt folder --explain", "cannot write\n  folder: Is a directory (os error 21)\n", "", 1),
    Row("pack out f:r:0:0:missing --explain", tells("cannot read"), "", 1),
    # --class, --trace
    Row("sim two.sim --class two=two.img", REPLY),
    Row("sim two.sim --class two=two.txt", REPLY),
    Row("sim two.sim", OPENED + "refused 5 NoClass\n"),
    Row("cluster two.calls --class two=two.img", CALLED),
    Row("cluster --class one=lock.img --class two=two.img two.calls", CALLED),
    Row("cluster two.calls", NO_CLASS),
    Row("cluster two.calls --show --class two=two.img",
        CALLED.replace("call 0", "call 0 group 12 request a two f -")),
    Row("cluster --show two.calls", NO_CLASS.replace("call 0", "call 0 group 12 request a two f -")),
    Row("cluster two.calls --class two=missing", "cannot read\n", "", 1),
    Row("sim --trace locks.sim", lambda text: re.match("c1 +c2 +1 +mon +event\n", text)),
    Row("sim bad.sim --trace", lambda text: text.endswith("\nline 3: bad\n"), "", 1),
    # --stats: on standard error, if all calls were made, refused ones too
    Row("cluster calls --stats", CALLS, figures(2)),
    Row("cluster --stats two.calls", NO_CLASS, figures(1)),
    Row("cluster --stats two.calls --strict", NO_CLASS, figures(1), 1),
    Row("cluster map.calls --stats", "line 3: refused 1 NoneUp\n", "", 1),
    Row("cluster bad.calls --stats", "line 3: bad\n", "", 1),
    # standard input, for each file that is read; a file of its name
    Row("verify -", "f ok 2\n", stdin=TWO),
    Row("verify -", NO_IMAGE, "", 1),
    Row("run - f", RAN, stdin=TWO),
    Row("dis - --slots", SLOTS, stdin=TWO),
    Row("asm - out", stdin=TWO_TEXT.encode(), wrote={"out": TWO}),
    Row("asm - out", "cannot read\n", "", 1, stdin=b"\xff"),
    Row("pack out f:r:0:0:-", stdin=CODE, wrote={"out": TWO}),
    Row("sim -", LOCKED, stdin=LOCKS.encode()),
    Row("sim two.sim --class two=-", REPLY, stdin=TWO),
    Row("cluster -", CALLED, stdin=NUMBERS.encode() + b"client 1 a lock lock -\n"),
    Row("cluster two.calls --class two=-", CALLED, stdin=TWO),
    Row("verify ./-", "f ok 2\n"),
    # names of files
    Row("verify -- --show", "f ok 2\n"),
    Row("verify -- -", "f ok 2\n", stdin=TWO),
    Row(["verify", "a b"], "f ok 2\n"),
    Row("verify \u00e9.img", "f ok 2\n"),
    Row("cluster two.calls --class two=a=b", CALLED),
    Row("pack out f:r:0:0:a:b", wrote={"out": TWO}),
    # words that are no UTF-8, as wrong words
    *(Row(words, "", usage("invalid UTF-8 was detected in one or more arguments\n", "\n"), 2)
      for words in (
          [b"\xff"], ["verify", b"\xff"], ["verify", "two.img", b"\xc3\x28"],
          ["verify", b"\xe9.img"], ["run", "keep.img", "keep", b"--input=\xff"],
          ["run", "keep.img", "keep", "--input", "726f6f74", "--caller", "9", "--show", "--xattr",
           "a=00", "--key", b"\xed\xa0\x80=00"])),
    # long words (Linux hands over 131,071 bytes at most), many words, large files
    Row("verify " + "0" * 5000, "cannot read\n", "", 1),
    Row("run two.img f --object @full", ran(0, "-", 2, "65536 0 0")),
    Row("run two.img f --object @largest.txt", "object refused: 4 TooBig\n", "", 1),
    Row("run two.img f --object @- --show", ran(0, "-", 2, "2 0 0", "data 6162"), stdin=b"ab"),
    Row("run two.img f --input - --object - --xattr a=- --xattr b=@empty --key k=@code --show",
        ran(0, "-", 2, "0 2 1", "data -", "xattr a -", "xattr b -", "key k " + CODE.hex())),
    *(Row(f"run two.img f {value}", "cannot read\n", "", 1) for value in (
        "--input @missing", "--object @folder", "--object g --xattr a=@missing", "--key a=@")),
    Row("run two.img f --object @missing --explain", tells("cannot read"), "", 1),
    Row(["run", "two.img", "f", "--object", "6f" * 65535, "--show"],
        ran(0, "-", 2, "65535 0 0", "data " + "6f" * 65535)),
    Row("run keep.img keep --input 726f6f74 --caller 9 --object 6162 --xattr a=01 --xattr b= "
        "--key k=02 --show --explain",
        ran(4, "726f6f74", 14, "4 2 1", "data 726f6f74", "xattr a 01", "xattr b -", "key k 02")),
    Row("run keep.img keep --input 726f6f74 --caller 9 --xattr a=01 --key k=0",
        "object is not hex\n", "", 1),
    Row(["run", "two.img", "f", "--show", *(f"--xattr=x{n:02}={n:02x}" for n in range(31, -1, -1))],
        ran(0, "-", 2, "0 32 0", "data -", *(f"xattr x{n:02} {n:02x}" for n in range(32)))),
    Row(["run", "two.img", "f", "--show", *(f"--key=k{n:04}={n:04x}" for n in range(1023, -1, -1))],
        ran(0, "-", 2, "0 0 1024", "data -", *(f"key k{n:04} {n:04x}" for n in range(1024)))),
    Row(["run", "two.img", "f", *(f"--xattr=x{n}=" for n in range(33))],
        "object refused: 5 TooMany\n", "", 1),
    Row(["run", "two.img", "f", *(f"--key=k{n}=" for n in range(1025))],
        "object refused: 5 TooMany\n", "", 1),
    Row(["sim", "last.sim", *(f"--class=c{n:02}=two.img" for n in range(62))], REPLY),
    Row(["sim", "last.sim", *(f"--class=c{n:02}=two.img" for n in range(63))], "", usage(), 2),
    Row("asm largest.txt out", wrote={"out": LARGEST}),
    Row("verify largest.img", "".join(f"{name} ok 4096\n" for name in NAMES)),
    Row("verify -", "".join(f"{name} ok 4096\n" for name in NAMES), stdin=LARGEST),
    Row("dis largest.img", LARGEST_TEXT),
    Row(f"run largest.img {NAMES[31]}", ran(0, "-", 4096, "absent")),
    # bytes of a file are shown in printable ASCII alone
    *(Row(f"{words} --explain", shows("line 2: 2 Operand", ESCAPED), "", 1) for words in (
        "verify escape.txt", "run escape.txt f", "asm escape.txt out", "dis escape.txt")),
    *(Row(f"{words} --explain", shows(UNSAFE[:-1], ESCAPED_COMMENT), "", 1) for words in (
        "verify escape.unsafe", "run escape.unsafe f")),
    Row("sim escape.sim", REPLY),
    Row("sim --trace escape.sim", ESCAPED_DRAWING),
    Row("sim escape.bad", "map 1 prev 0\nline 2: bad\n", "", 1),
    Row("sim --trace escape.bad",
        "mon         event\n*           map 1: map 1 prev 0\nline 2: bad\n", "", 1),
    Row("cluster escape.calls", NO_CLASS),
    Row("cluster --show escape.calls",
        r"client 1 call 0 group 12 request a \x1b[2J f\xc3\xa9~ - refused 5 NoClass" + "\n"),
    # a million lines, and a line of a million letters, with a stack of 256 kilobytes
    *(Row(words, fault + "\n", "", 1, stack=256)
      for text, fault in (("lines.txt", WORD_AT_END), ("letters.txt", WORD_AT_ONCE))
      for words in (f"verify {text}", f"asm {text} out", f"dis {text}", f"run {text} f",
                    f"sim locks.sim --class a={text}", f"cluster calls --class a={text}")),
    *(Row(f"{words} --explain", shows(fault, line), "", 1, stack=256)
      for text, fault, line in (("lines.txt", WORD_AT_END, "line 1000000: foo"),
                                ("letters.txt", WORD_AT_ONCE, "line 1: " + LETTERS))
      for words in (f"verify {text}", f"asm {text} out", f"dis {text}", f"run {text} f")),
    *(Row(words, UNSAFE, "", 1, stack=256)
      for words in ("verify lines.unsafe", "run lines.unsafe f",
                    "sim locks.sim --class a=lines.unsafe",
                    "cluster calls --class a=lines.unsafe")),
    *(Row(f"{words} --explain", shows(UNSAFE[:-1], "line 1000000: exit"), "", 1, stack=256)
      for words in ("verify lines.unsafe", "run lines.unsafe f")),
    Row("dis lines.unsafe", ".method f r 0 0\nexit\n", stack=256),
    Row("sim lines.sim", "line 100000: bad\n", "", 1, stack=256),
    Row("sim --trace lines.sim", "event\nline 100000: bad\n", "", 1, stack=256),
    # standard output that takes nothing; standard error that takes nothing
    *(Row(words, None, "", 1, to=to) for to in (FULL, UNREAD, CLOSED) for words in (
        "verify two.img", "verify empty", "run two.img f", "dis two.img", "sim locks.sim",
        "sim --trace locks.sim", "cluster calls", "cluster bad.calls", "cluster calls --stats")),
    *(Row(words, "", None, 2, err_to=to) for to in (FULL, UNREAD, CLOSED)
      for words in ("", "--help", "erase", "verify")),
    *(Row("cluster clients --stats", CLIENTS, None, err_to=to) for to in (FULL, UNREAD, CLOSED)),
    # standard output that takes so many bytes: it gets these
    *(Row(words, text[:room], "", status if room == len(text) else 1, room=room)
      for words, text, status in (
          ("verify two.img", "f ok 2\n", 0), ("verify unset.img", UNSAFE, 1),
          ("run two.img f", RAN, 0), ("dis two.img", TWO_TEXT, 0), ("sim locks.sim", LOCKED, 0),
          ("cluster calls", CALLS, 0), ("cluster bad.calls", "line 3: bad\n", 1))
      for room in (0, 5, len(text) - 1, len(text))),
    # no memory for a thread; for one of them alone, which serves for all workers
    Row("cluster calls", "no memory\n", "", 1, space=200),
    Row("cluster clients --stats", "no memory\n", "", 1, space=200),
    Row("cluster bad.calls", "line 3: bad\n", "", 1, space=200),
    Row("cluster clients", CLIENTS, space=400),
    # help and the version, on standard error
    *(Row(words, "", helps("Usage: radoscls <COMMAND>", *COMMANDS, "help", *OF_ALL), 2)
      for words in ("", "--help", "-h", "help")),
    *(Row(words, "", helps(f"Usage: radoscls {name} ", *places, OF_ALL[0],
                           *(option + value for option, value in options.items())), 2)
      for name, (places, options) in COMMANDS.items()
      for words in (f"{name} --help", f"{name} -h", f"help {name}", f"{DONE[name]} --help")),
    Row("--version", "", VERSION, 2),
    Row("-V", "", VERSION, 2),
    # wrong words, by clap: commands, places
    Row("erase two.img", "", usage("unrecognized subcommand 'erase'\n"), 2),
    Row([""], "", usage("unrecognized subcommand ''\n"), 2),
    Row("help erase", "", usage("unrecognized subcommand 'erase'\n"), 2),
    Row("-- verify two.img", "", usage("unexpected argument 'verify' found\n"), 2),
    *(Row(name, "", usage(NOT_GIVEN), 2) for name in COMMANDS),
    Row("run two.img", "", usage(NOT_GIVEN + "  <METHOD>\n"), 2),
    Row("asm two.txt", "", usage(NOT_GIVEN + "  <OUT>\n"), 2),
    Row("pack out", "", usage(NOT_GIVEN + "  <METHOD>...\n"), 2),
    *(Row(DONE[name] + " more", "", usage("unexpected argument 'more' found\n"), 2)
      for name in COMMANDS if name not in ("verify", "pack")),
    # by clap: options of other commands and of none; without a value, with one too many, twice
    *(Row(f"{DONE[name]} {option}", "", usage(f"unexpected argument '{option}' found\n"), 2)
      for name, (_, options) in COMMANDS.items()
      for option in (*OPTIONS, "--nope", "-x", "--version") if option not in options),
    *(Row(f"{DONE[name]} {option}", "",
          usage(f"a value is required for '{option}{value}' but none was supplied\n"), 2)
      for name, (_, options) in COMMANDS.items() for option, value in options.items() if value),
    *(Row(f"{DONE[name]} {option}=yes", "",
          usage(f"unexpected value 'yes' for '{option}' found; no more were expected\n"), 2)
      for name, (_, options) in COMMANDS.items() for option, value in options.items() if not value),
    *(Row(f"{DONE[name]} {option}" + (f" {RIGHT[option]} {option} {RIGHT[option]}" if value
                                      else f" {option}"), "",
          usage(f"the argument '{option}{value}' cannot be used multiple times\n"), 2)
      for name, (_, options) in COMMANDS.items() for option, value in options.items()
      if not value or option in RIGHT),
    *(Row(f"run two.img f --caller {number}", "",
          usage(f"invalid value '{number}' for '--caller <N>': "), 2)
      for number in ("0", "4294967296", "18446744073709551616", "one", "1.0", "0x1")),
    # wrong words, by the program: the value, its argument, what it wants, and the command's usage
    *(Row(words, "", mistake(words, value, argument), 2) for words, value, argument in (
        *((f"pack out {method}", method.split()[-1], "<METHOD>...") for method in (
            "f", "f:r:0:0", "f:x:0:0:code", "f:r:65536:0:code", "f:r:0:-1:code", "f:r:00:0:code",
            "f:r:0:+1:code", "f:r:0:0:code g")),
        ("pack --rules 4 out f:r:0:0:code", "4", "--rules <N>"),
        *((f"run two.img f --caller {number}", number, "--caller <N>")
          for number in ("+7", "007")),
        ("run two.img f --xattr a", "a", "--xattr <NAME=HEX>"),
        ("run two.img f --key a", "a", "--key <KEY=HEX>"),
        *((f"sim locks.sim --class {value}", value, "--class <NAME=IMAGE>")
          for value in ("two", "=two.img", "lock=two.img")),
        ("cluster calls --class obj=two.img", "obj=two.img", "--class <NAME=IMAGE>"),
        ("cluster calls --class a=two.img --class a=empty", "a=empty", "--class <NAME=IMAGE>"),
        *((f"run two.img f --limits {limits}", limits, "--limits <LIMITS>") for limits in ("Ceph", "osd", "1")),
        ("run two.img f --save -", "-", "--save <FILE>"),
        ("run two.img f --save two.img", "two.img", "--save <FILE>"),
        ("run two.txt f --load kept --save two.txt", "two.txt", "--save <FILE>"),
        ("asm two.txt -", "-", "<OUT>"), ("pack - f:r:0:0:code", "-", "<OUT>"))),
    # an object of a file and of words
    *(Row(f"run two.img f --load held {words}", "",
          usage("the argument '--load <FILE>' cannot be used with '--object <HEX>', "), 2)
      for words in ("--object -", "--xattr a=00", "--key a=00")),
    # standard input, read twice
    *(Row(words, "", usage("standard input ('-') can be read by one argument alone\n\nUsage: "), 2)
      for words in ("pack out f:r:0:0:- g:r:0:0:-", "sim - --class two=-", "run - f --input @-",
                    "run - f --load -",
                    "run two.img f --object @- --key a=@-",
                    "cluster calls --class a=- --class b=-")),
]

# The examples' wrong states, and the right ones beside them: a value that isn't there counts as 0,
# any other error of a helper is the code, a shorter value or key is -5, and what was there stays.
# Steps are counted in the texts.
EXAMPLES = os.path.join(os.path.dirname(os.path.abspath(__file__)), "..", "examples")
for example in ("count.txt", "patterns.txt", "queue.txt"):
    with open(os.path.join(EXAMPLES, example), "rb") as text:
        FILES[example] = text.read()
FIVE, SIX, LONGER, SHORTER = "0500000000000000", "0600000000000000", "05" + "00" * 8, "05" + "00" * 6
QUEUED = "key 0x0000000000000000 6f6c64"
ROWS += [
    # a counter in a key, and one in an xattr: no object, no value, 5, and values of other lengths
    *(Row(f"run {text} count {words} --show", ran(code, output, steps, *held))
      for text, option, name, one in (
          ("count.txt", "--key", "key n", "0 0 1"), ("patterns.txt", "--xattr", "xattr n", "0 1 0"))
      for words, code, output, steps, held in (
          ("", 1, "0100000000000000", 24, (one, "data -", f"{name} 0100000000000000")),
          ("--object -", 1, "0100000000000000", 23, (one, "data -", f"{name} 0100000000000000")),
          (f"{option} n={FIVE}", 6, SIX, 22, (one, "data -", f"{name} {SIX}")),
          (f"{option} n={LONGER}", -34, "-", 12, (one, "data -", f"{name} {LONGER}")),
          (f"{option} n={SHORTER}", -5, "-", 13, (one, "data -", f"{name} {SHORTER}")),
          (f"{option} n=-", -5, "-", 13, (one, "data -", f"{name} -")))),
    # a push: no object, no number, 5, and numbers of other lengths
    Row("run queue.txt push --input 6f6c64 --show",
        ran(0, "-", 34, "0 1 1", "data -", "xattr n 0100000000000000", QUEUED)),
    Row("run queue.txt push --input 6f6c64 --object - --show",
        ran(0, "-", 33, "0 1 1", "data -", "xattr n 0100000000000000", QUEUED)),
    Row(f"run queue.txt push --input 6e6577 --xattr n={FIVE} --key 0x0000000000000000=6f6c64 --show",
        ran(0, "-", 32, "0 1 2", "data -", f"xattr n {SIX}", QUEUED,
            "key 0x0000000000000005 6e6577")),
    *(Row(f"run queue.txt push --input 6e6577 --xattr n={number} --key 0x0000000000000000=6f6c64 "
          "--show", ran(code, "-", steps, "0 1 1", "data -", f"xattr n {number}", QUEUED))
      for number, code, steps in ((LONGER, -34, 15), (SHORTER, -5, 16), ("-", -5, 16))),
    # a pop: no object, no value, one, a longer one than the output, and keys of other lengths
    Row("run queue.txt pop --show", ran(-2, "-", 10, "absent")),
    Row("run queue.txt pop --object - --show", ran(-61, "-", 10, "0 0 0", "data -")),
    Row("run queue.txt pop --key 0x0000000000000000=6f6c64 --show",
        ran(0, "6f6c64", 24, "0 0 0", "data -")),
    *(Row(f"run queue.txt pop --key 0x{key}={value} --show",
          ran(code, "-", steps, "0 0 1", "data -", f"key {shown} {value}"))
      for key, shown, value, code, steps in (
          ("00" * 8, "0x" + "00" * 8, "6f" * 1025, -34, 16),
          ("00" * 9, "0x" + "00" * 9, "6f6c64", -34, 10),
          ("00" * 7, "0x" + "00" * 7, "6f6c64", -5, 11), ("61", "a", "6f6c64", -5, 11))),
]
