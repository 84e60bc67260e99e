"""Rows of tools/process.py on classes whose methods may loop.

What `heads` finds is told by the verdict alone: of the image that it wrote only the places, the kinds and the bounds
are left open."""
import re
import struct
from pathlib import Path

import process_reports
from process_rows import (BARE_TEXT, CLOSED, FILES, FULL, KEPT, NO_IMAGE, SAVED, TWO, TWO_TEXT, Row, bytes_of, ran,
                          rows_of, usage)

TOP = Path(__file__).resolve().parent.parent

# What is printed of the texts after the words.
LOOPS = r"""
verify - --loops / .rules 3 / .method s r 16 0 / .budget 100 / mov r0, 0 / mov r4, 0 / .head r0 any, r4 0 16 /
    jge r4, r2, +6 / mov r5, r1 / add r5, r4 / ldxb r5, [r5+0] / add r0, r5 / add r4, 1 / ja -7 / exit
=> 0 s ok 10 budget 100
verify - --loops / .rules 3 / .method s r 16 0 / .budget 100 / mov r0, 0 / mov r4, 0 / .head r4 0 16 /
    jge r4, r2, +6 / mov r5, r1 / add r5, r4 / ldxb r5, [r5+0] / add r0, r5 / add r4, 1 / ja -7 / exit
=> 1 refused method 0 slot 8: 1 Backward
verify - --loops --explain / .rules 3 / .method s r 16 0 / .budget 100 / mov r0, 0 / mov r4, 0 / .head r4 0 16 /
    jge r4, r2, +6 / mov r5, r1 / add r5, r4 / ldxb r5, [r5+0] / add r0, r5 / add r4, 1 / ja -7 / exit
=> 1 refused method 0 slot 8: 1 Backward // at its target, slot 2, radoscls heads IN OUT declares .head r0 any, r4 0 16
verify loop.txt
=> 1 refused method 0 slot 8: 1 Backward
verify loop.txt --explain
=> 1 refused method 0 slot 8: 1 Backward // method s, IN 16, OUT 0 // ja -7 //
    wanted: a jump forward: the distance is at least 0 // see docs/VERIFIER.md, 1 Backward //
    jumps go forward: write a loop out, with an exit where it may end early //
    in rule set 3 a loop may be declared: radoscls heads IN OUT, then verify --loops // line 13: ja -7
verify bare.txt
=> 1 refused method 0 slot 8: 1 Backward
verify bare.txt --loops
=> 1 refused method 0 slot 8: 1 Backward
verify --explain bare.txt --loops
=> 1 refused method 0 slot 8: 1 Backward // no head is declared at its target: radoscls heads IN OUT finds heads //
    at its target, slot 2, radoscls heads IN OUT declares .head r0 any, r4 0 16
verify - --loops --explain / .rules 3 / .method f r 0 0 / exit / .method s r 0 0 / mov r0, 0 / ja -2 / exit
=> 1 refused method 0 slot 0: 5 UnsetRead
verify - --loops --explain / .method f r 0 0 / mov r0, 0 / exit / .method g r 0 0 / mov r0, 0 / ja -2 / exit
=> 1 refused method 1 slot 1: 1 Backward // no head is declared at its target: radoscls heads IN OUT finds heads //
    g: loops need rule set 3
verify - --loops --explain / .rules 3 / .method f r 0 0 / mov r0, 0 / ja +1 / exit / ja -2
=> 1 refused method 0 slot 3: 1 Backward // no head is declared at its target: radoscls heads IN OUT finds heads //
    f slot 3: no head found
verify - --loops / .rules 3 / .method f r 0 0 / mov r0, 0 / exit / .method g r 0 0 / .budget 1048576 / mov r0, 0 /
    .head / ja -1
=> 0 f ok 2 / g ok 2 budget 1048576
verify two.img --loops
=> 0 f ok 2
verify --loops unset.img --explain
=> 1 refused method 0 slot 0: 5 UnsetRead
verify --loops word.txt
=> 1 line 2: 1 Word
verify --loops missing
=> 1 cannot read
verify --loops missing --explain
=> 1 cannot read // missing: No such file or directory (os error 2)
verify --loops loop.txt two.img
=> 0 loop.txt: s ok 10 budget 100 / two.img: f ok 2
verify --loops bare.txt missing loop.txt
=> 1 bare.txt: refused method 0 slot 8: 1 Backward / missing: cannot read / loop.txt: s ok 10 budget 100
run loop.txt s --loops --input 010203
=> 0 code 6 / output - / steps 25 / object absent
run loop.txt s --loops --input 01010101010101010101010101
=> 0 code 13 / output - / steps 95 / object absent
run loop.txt s --loops --input 0101010101010101010101010101
=> 0 code -62 / output - / steps 100 / object absent
run --loops loop.txt s --object 6162 --xattr a=01 --show --limits profile
=> 0 code 0 / output - / steps 4 / object 2 1 0 / data 6162 / xattr a 01
run writes.txt w --loops --input 6162 --show
=> 0 code 2 / output - / steps 22 / object 2 0 0 / data 6162
run writes.txt w --loops --input 616263 --show
=> 0 code -62 / output - / steps 200 / object absent
run writes.txt w --loops --input 616263 --show --object 7878 --key n=01
=> 0 code -62 / output - / steps 200 / object 2 0 1 / data 7878 / key n 01
run - who --loops --caller 7 / .rules 3 / .method who r 0 0 / .budget 200 / mov r6, 0 /
    .head r0 any, r1 unset, r2 unset, r3 unset, r6 0 1 / call 15 / jne r6, 0, +2 / mov r6, 1 / ja -4 / exit
=> 0 code 7 / output - / steps 8 / object absent
run two.img f --loops
=> 0 code 0 / output - / steps 2 / object absent
run loop.txt s --input 010203
=> 1 refused method 0 slot 8: 1 Backward
run bare.txt s --loops
=> 1 refused method 0 slot 8: 1 Backward
run bare.txt s --loops --explain --input 0g
=> 1 refused method 0 slot 8: 1 Backward // no head is declared at its target: radoscls heads IN OUT finds heads //
    at its target, slot 2, radoscls heads IN OUT declares .head r0 any, r4 0 16
run - s --loops --explain / .rules 3 / .method s r 16 0 / .budget 100 / mov r0, 0 / mov r4, 0 / .head r4 0 16 /
    jge r4, r2, +6 / mov r5, r1 / add r5, r4 / ldxb r5, [r5+0] / add r0, r5 / add r4, 1 / ja -7 / exit
=> 1 refused method 0 slot 8: 1 Backward // at its target, slot 2, radoscls heads IN OUT declares .head r0 any, r4 0 16
run unset.img f --loops --explain
=> 1 refused method 0 slot 0: 5 UnsetRead
run word.txt f --loops
=> 1 line 2: 1 Word
run missing f --loops --explain
=> 1 cannot read // missing: No such file or directory (os error 2)
run loop.txt s --loops --input @missing
=> 1 cannot read
run loop.txt t --loops --input 0g --object g
=> 1 input is not hex
run loop.txt t --loops --object g
=> 1 object is not hex
run loop.txt t --loops --load bad.held
=> 1 object line 2: bad
run loop.txt t --loops --explain
=> 1 call refused: 1 NoMethod // wanted: a method of the class; `radoscls verify --loops` lists them
run loop.txt s --loops --input-u64 0,0,0
=> 1 call refused: 2 InputTooLong
test loop.txt - --loops / call s 010203 -> 6 / call s u8:1,1,1,1,1,1,1,1,1,1,1,1,1 -> 13 /
    call s u8:1,1,1,1,1,1,1,1,1,1,1,1,1,1 -> -62 / call s - -> 0
=> 0 ok 4
test writes.txt - --loops / object 7878 / key n 01 / as 7 / call w 616263 -> -62 / is data 7878 / is key n 01 /
    call w 61 -> 1 / is data 6178 / object none / call w 616263 -> -62 - / is data none / call w 6162 -> 2 / is data 6162
=> 0 ok 9
test - missing --loops / .rules 3 / .method f r 0 0 / mov r0, 0 / exit
=> 1 cannot read
test loop.txt - --loops / call s 010203 -> 6 / call s u8:1,1,1,1,1,1,1,1,1,1,1,1,1,1 -> 14
=> 1 line 2: differs // wanted: code 14 output - // found: code -62 output -
test writes.txt - --loops / object 7878 / call w 616263 -> -62 / is data 6162
=> 1 line 3: differs // wanted: 6162 // found: 7878
test loop.txt - --loops / call s 01 -> 1 / call t 01 -> 1
=> 1 line 2: differs // wanted: code 1 output - // found: no such method
test loop.txt - --loops / call s 0000000000000000000000000000000000 -> 0
=> 1 line 1: differs // wanted: code 0 output - // found: the input is too long
test loop.txt - --loops / call s 01 -> 1 / call s
=> 1 line 2: bad
test two.img - --loops / call f - -> 0 -
=> 0 ok 1
test loop.txt -
=> 1 refused method 0 slot 8: 1 Backward
test bare.txt - --loops
=> 1 refused method 0 slot 8: 1 Backward
test bare.txt missing --loops --explain
=> 1 refused method 0 slot 8: 1 Backward // no head is declared at its target: radoscls heads IN OUT finds heads //
    at its target, slot 2, radoscls heads IN OUT declares .head r0 any, r4 0 16
test missing - --loops --explain
=> 1 cannot read // missing: No such file or directory (os error 2)
heads - out / .method f r 0 0 / mov r0, 0 / ja -2 / exit
=> 1 f: loops need rule set 3
heads - out / .rules 2 / .method f r 0 0 / mov r0, 0 / exit / .method g r 0 0 / jeq r2, 0, -1 / exit
=> 1 g: loops need rule set 3
heads - out / .rules 3 / .method f r 0 0 / mov r0, 0 / ja +1 / exit / ja -2
=> 1 f slot 3: no head found
heads missing out
=> 1 cannot read
heads word.txt out
=> 1 line 2: 1 Word
heads bare.txt missing/out
=> 1 cannot write
heads bare.txt folder
=> 1 cannot write
heads grow.img out
=> 1 s slot 117: no head found, r6 has no bound
asm - out --heads / .rules 3 / .method f r 0 0 / mov r0, 0 / ja +1 / exit / ja -2
=> 1 f slot 3: no head found
asm - out --heads / .method f r 0 0 / mov r0, 0 / ja -2 / exit
=> 1 f: loops need rule set 3
asm missing out --heads
=> 1 cannot read
asm word.txt out
=> 1 line 2: 1 Word
asm word.txt out --heads
=> 1 line 2: 1 Word
asm --heads bare.txt folder --budget 7
=> 1 cannot write
pack --rules 3 --heads out a:r:0:0:code s:r:16:0:grow.bin
=> 1 s slot 117: no head found, r6 has no bound
pack out s:r:16:0:bare.bin --heads
=> 1 s: loops need rule set 3
pack --rules 2 out f:r:0:0:code s:r:16:0:bare.bin --heads
=> 1 s: loops need rule set 3
pack out --heads --rules 3 s:r:16:0:bare.bin t:r:16:0:missing
=> 1 cannot read
pack out --heads --rules 3 e:r:0:0:bare.bin f:r:0:0:empty
=> 1 image refused after 1 methods: 10 Limit
pack out --heads --rules 3 s:r:16:0:grow.bin s:r:0:0:code
=> 1 image refused after 1 methods: 8 Order
pack folder --heads --rules 3 s:r:16:0:bare.bin
=> 1 cannot write
"""
# The method of BARE_TEXT as an image has it, and what stands before its heads.
METHOD = bytes_of("""52434c33 0100 0000 01 73 01 1000 0000 0a00
    b700000000000000 b704000000000000 3d24060000000000 bf15000000000000 0f45000000000000
    7155000000000000 0f50000000000000 0704000001000000 0500f9ff00000000 9500000000000000""")
# A number moves down the stack, a slot a round, and from the last one to r6: more rounds than the search makes. The
# jump back is at slot 117.
SLOTS = 38
CODE = b"".join(struct.pack("<BBhi", *words) for words in (
    (0xb7, 0, 0, 0), (0xb7, 6, 0, 0), *((0x7a, 10, -8 * slot, 0) for slot in range(1, SLOTS + 1)),
    (0x79, 0xa6, -8 * SLOTS, 0), *(words for slot in range(SLOTS, 1, -1) for words in (
        (0x79, 0xa3, 8 - 8 * slot, 0), (0x7b, 0x3a, -8 * slot, 0))),
    (0x7b, 0x0a, -8, 0), (7, 0, 0, 1), (0xa5, 0, -78, 1_000_000), (0xb7, 0, 0, 0), (0x95, 0, 0, 0)))
FILES.update({"bare.bin": METHOD[17:], "grow.bin": CODE,
              "grow.img": METHOD[:15] + struct.pack("<H", len(CODE) // 8) + CODE + bytes(2)})
# The examples, each a class whose loops get heads.
EXAMPLES = {path.name: path.read_text() for path in (TOP / "examples/loops").glob("*.txt")}
FILES.update(EXAMPLES)
FILES.update((path.name, path.read_text()) for path in (TOP / "examples/loops").glob("*.test"))
MANY = ".rules 3\n.method f r 0 0\nmov r0, 0\n" + "jeq r0, 1, -1\n" * 65 + "exit\n"
NO_HEADS = "the argument '--budget <N>' cannot be used without '--heads'"
HEADS_ALONE = "the argument '--heads' cannot be used with '--all' or '--explain'"
NO_MORE = "the argument '--loops' cannot be used with '--all' or '--json'\n\nUsage: radoscls verify "
NOT_PLAIN = "the argument '--loops' cannot be used with '--trace' or '--limits ceph'\n\nUsage: radoscls "


class Headed:
    """Equal to the image of BARE_TEXT's method with that budget, and one head, at slot 2."""

    def __init__(self, budget):
        self.start = METHOD + bytes_of("0100") + budget.to_bytes(4, "little") + bytes_of("0200")

    def __eq__(self, image):
        return image.startswith(self.start) and len(image) > len(self.start)


class Same:
    """Equal to the first image that is compared with it, and then to no other."""

    def __init__(self):
        self.image = None

    def __eq__(self, image):
        self.image = self.image or image
        return image == self.image


def is_accepted(text):
    """Whether a text accepts each method of a class, with the usual budget if it has loops."""
    return re.fullmatch(r"(\S+ ok \d+( budget 131072)?\n)+", text) is not None


def finds(words, budget, stdin=b""):
    """The row of words that find a head for BARE_TEXT's method, and then of the verdict on what they wrote."""
    verdict = Row("verify --loops out", f"s ok 10 budget {budget}\n")
    return Row(words, wrote={"out": Headed(budget)}, stdin=stdin, then=verdict)


def finds_alike(*commands):
    """The rows of commands that write one image, each with a row of the verdict on it."""
    image = Same()
    return [Row(words, wrote={"out": image}, then=Row("verify --loops out", is_accepted)) for words in commands]


LOOP_ROWS = [
    *rows_of(LOOPS),
    finds("heads bare.txt out", 131072), finds("heads loop.txt out", 131072),
    finds("heads - out", 131072, BARE_TEXT.encode()), finds("asm - out --heads", 131072, BARE_TEXT.encode()),
    finds("pack out --rules 3 --heads s:r:16:0:-", 131072, METHOD[17:]),
    *(finds(f"{words} --budget {budget}", budget) for budget in (1, 4096, 1048576) for words in (
        "heads bare.txt out", "asm bare.txt out --heads", "pack --heads out s:r:16:0:bare.bin --rules=3")),
    *finds_alike("heads bare.txt out", "asm loop.txt out --heads", "pack --rules 3 out s:r:16:0:bare.bin --heads"),
    *(row for name in sorted(EXAMPLES) for row in finds_alike(f"heads {name} out", f"asm {name} out --heads")),
    Row("asm bare.txt bare.txt --heads", wrote={"bare.txt": Headed(131072)}),
    Row("pack bare.bin s:r:16:0:bare.bin --heads --rules 3", wrote={"bare.bin": Headed(131072)}),
    # no jump goes back: no heads
    Row("heads two.txt out", wrote={"out": TWO}), Row("heads two.img two.img", wrote={"two.img": TWO}),
    Row("heads - out", wrote={"out": b"RCL3" + TWO[4:] + bytes(2)}, stdin=(".rules 3\n" + TWO_TEXT).encode()),
    Row("asm two.txt out --heads", wrote={"out": TWO}), Row("pack out f:r:0:0:code --heads", wrote={"out": TWO}),
    Row("heads - out", "f: more than 64 heads\n", "", 1, stdin=MANY.encode()),
    Row("heads empty out", NO_IMAGE, "", 1),
    *(Row("verify loop.txt --loops", None, "", 1, to=to) for to in (FULL, CLOSED)),
    Row("verify loop.txt two.img --loops", "loop.txt: s ok 10 bu", "", 1, room=20),
    *(Row(words, None, "", 1, to=FULL) for words in (
        "heads missing out", "heads - out", "asm word.txt out --heads", "pack out s:r:16:0:bare.bin --heads")),
    # --budget without --heads, or with a number that is none; --heads with what it doesn't tell
    *(Row(f"{words} --budget {number}", "", usage(f"{NO_HEADS}\n\nUsage: radoscls {words.split()[0]} "), 2)
      for words in ("asm bare.txt out", "pack out f:r:0:0:code", "asm bare.txt out --all --explain") for number in "10"),
    *(Row(f"{words} --heads --budget {number}", "", usage(f"invalid value '{number}' for '--budget <N>': expected "), 2)
      for words in ("asm bare.txt out", "pack out f:r:0:0:code") for number in ("0", "1048577", "01", "x")),
    *(Row(f"{words} --heads", "", usage(f"{HEADS_ALONE}\n\nUsage: radoscls {words.split()[0]} "), 2)
      for words in ("asm bare.txt out --all", "asm bare.txt out --explain", "pack out f:r:0:0:code --explain",
                    "asm bare.txt out --budget 0 --all")),
    *(Row(f"verify two.img --loops {more}", "", usage(NO_MORE), 2)
      for more in ("--all", "--json", "loop.txt --json", "--explain --all")),
    # the tests of an example: five calls, and a line on the object
    Row("test sum.txt sum.test --loops", "ok 6\n"),
    *(Row(words, "", usage(f"{NOT_PLAIN}test "), 2) for words in (
        "test loop.txt - --loops --trace", "test --trace missing missing --loops --explain")),
    *(Row(words, None, "", 1, to=FULL) for words in ("test sum.txt sum.test --loops", "test missing - --loops")),
    *(Row(f"run loop.txt s --loops {more}", "", usage(f"{NOT_PLAIN}run "), 2)
      for more in ("--trace", "--limits ceph", "--limits ceph --trace --json", "--trace --input 0g")),
    # what is saved: nothing of what was refused, and of a spent budget the object as it was
    Row("run writes.txt w --loops --input 6162 --save out", ran(2, "-", 22, "2 0 0"), wrote={"out": b"data 6162\n"}),
    Row("run writes.txt w --loops --input 616263 --load kept --save out", ran(-62, "-", 200, "2 1 0"),
        wrote={"out": KEPT}),
    Row("run writes.txt w --loops --input 616263 --save out", ran(-62, "-", 200, "absent"), wrote={"out": b""}),
    Row("run writes.txt w --loops --input 61 --save out", None, SAVED.format("out"), 1, to=FULL,
        wrote={"out": b"data 61\n"}),
    Row("run loop.txt t --loops --load kept --save out", "call refused: 1 NoMethod\n", "", 1),
    Row("run bare.txt s --loops --save out", "refused method 0 slot 8: 1 Backward\n", "", 1),
    Row("run loop.txt s --loops --save folder", "cannot write\n", "", 1),
    Row("run loop.txt t --loops", None, "", 1, to=FULL),
    # in JSON
    Row("run writes.txt w --loops --json --input 616263 --object 7878 --show", process_reports.objects(
        process_reports.ran(-62, "", 200, (2, 0, 0), "data 7878\n"))),
    *(Row(f"run {words} --loops --json", process_reports.objects({"error": error}), "", 1) for words, error in (
        ("bare.txt s", "refused method 0 slot 8: 1 Backward"), ("loop.txt t", "call refused: 1 NoMethod"),
        ("loop.txt s --input @missing", "cannot read"), ("loop.txt s --save folder", "cannot write"))),
    Row("heads bare.txt out", wrote={"out": Headed(131072)},
        then=Row("run out s --loops --input 0102", ran(3, "-", 18, "absent"))),
]
