"""Rows of tools/process.py on classes: their texts, their images, raw code, and calls."""
import os, struct

from process_rows import CODE, EXAMPLES, FILES, KEEP, Row, TWO, WIDE, bytes_of, lines_of, ran, rows_of


def image_of(*methods, rules=1):
    """The image of methods: name, flags, IN, OUT and code."""
    return b"RCL%d" % rules + struct.pack("<HH", len(methods), 0) + b"".join(
        struct.pack("<B", len(name)) + name.encode()
        + struct.pack("<BHHH", flags, in_cap, out_cap, len(code) // 8) + code
        for name, flags, in_cap, out_cap, code in methods)


# Texts as people write them, and the line that refuses each.
TEXTS = r"""
asm - out / .method f r 0 0 / # a comment / exit
=> 1 line 2: 1 Word
asm - out / .method f r 0 0 / r0 = 0 / exit
=> 1 line 2: 1 Word
asm - out / .method f r 0 0 / goto done / exit
=> 1 line 2: 1 Word
asm - out / .method f r 4 0 / ldxw r0, [r1 + 4] / exit
=> 1 line 2: 2 Operand
asm - out / .method f r 0 0 / ja 0 / exit
=> 1 line 2: 2 Operand
asm - out / .method f r 0 0 / jeq r0, 0, 5 / exit
=> 1 line 2: 2 Operand
asm - out / .method f r 0 0 / mov w0, 0 / exit
=> 1 line 2: 2 Operand
asm - out / .method f r 0 0 / call read / exit
=> 1 line 2: 2 Operand
asm - out / .method F ro 0 0 / mov r0, 0 / exit
=> 1 line 1: 2 Operand
asm - out / .method f r 0 0 / mov r0, 0xffffffff / exit
=> 1 line 2: 3 Range
asm - out / .method f r 0 0
=> 1 line 1: 3 Range
asm - out / mov r0, 0 / exit
=> 1 line 1: 1 Word
asm - out / .method g r 0 0 / mov r0, 0 / exit / .method f r 0 0 / mov r0, 0 / exit
=> 1 line 4: 4 Label
asm - out / .method f r 0 0 / a: / mov r0, 0 / a: / exit
=> 1 line 4: 4 Label
verify - / .method f r 0 0 / foo
=> 1 line 2: 1 Word
"""

# Classes as people write them, and their verdicts: each rule of the verifier, and what mends some.
CLASSES = r"""
verify - / .method f r 0 0 / mov r0, 0 / ja -2 / exit
=> 1 refused method 0 slot 1: 1 Backward
verify - / .method f r 0 0 / mov r0, 0 / ja +2 / lddw r0, 0x0000000000000000 / exit
=> 0 f ok 4
verify - / .method f r 0 0 / mov r0, 0 / exit / mov r0, 1
=> 1 refused method 0 slot 2: 3 FallsOff
verify - / .method f r 0 0 / call local +1 / exit / exit
=> 1 refused method 0 slot 0: 4 LocalCall
verify - / .method f r 0 0 / mov r1, 0 / call 13 / mov r0, r1 / exit
=> 1 refused method 0 slot 2: 5 UnsetRead
verify - / .method f r 0 8 / mov r1, 0 / call 13 / stb [r3+0], 1 / mov r0, 0 / exit
=> 1 refused method 0 slot 2: 5 UnsetRead
verify - / .rules 2 / .method f r 0 0 / stxdw [r10-8], r3 / stw [r10-8], 0 / ldxdw r0, [r10-8] / exit
=> 1 refused method 0 slot 2: 5 UnsetRead
verify - / .method f r 0 0 / mov r0, 0 / add r10, -8 / exit
=> 1 refused method 0 slot 1: 6 WritesR10
verify - / .method f r 0 0 / mov32 r0, r1 / exit
=> 1 refused method 0 slot 0: 7 PointerArithmetic
verify - / .method f r 0 0 / mov r0, 0 / jeq r1, 0, none / mov r0, 1 / none: / exit
=> 1 refused method 0 slot 1: 8 PointerCompare
verify - / .method f r 0 0 / stxdw [r10-8], r1 / mov r0, 0 / exit
=> 1 refused method 0 slot 0: 9 PointerStored
verify - / .method f r 0 8 / stxdw [r10-8], r3 / mov r0, 0 / exit
=> 1 refused method 0 slot 0: 9 PointerStored
verify - / .method f r 16 0 / ldxb r4, [r1+0] / add r1, r4 / ldxb r0, [r1+0] / exit
=> 1 refused method 0 slot 2: 10 Bounds
verify - / .method f r 8 16 / ldxdw r4, [r1+0] / mov r0, 0 / jgt32 r4, 15, +2 / add r3, r4 / stb [r3+0], 1 / exit
=> 1 refused method 0 slot 4: 10 Bounds
verify - / .method hello r 0 4 / stw [r3], 0x6c6c6568 / stb [r3+4], 0x6f / mov r1, 5 / call 13 / exit
=> 1 refused method 0 slot 1: 10 Bounds
verify - / .method f r 8 0 / stb [r1+0], 1 / mov r0, 0 / exit
=> 1 refused method 0 slot 0: 11 ReadOnlyRegion
verify - / .method f r 0 0 / call 16 / mov r0, 0 / exit
=> 1 refused method 0 slot 0: 12 UnknownHelper
verify - / .method f r 16 8 / mov r1, r2 / call 13 / exit
=> 1 refused method 0 slot 1: 13 HelperArgument
verify - / .rules 3 / .method f r 0 256 / mov r1, 0 / mov r2, r3 / mov r3, 256 / call 2 / jslt r0, 0, +2 /
    mov r1, r0 / call 13 / exit
=> 0 f ok 8
verify - / .rules 2 / .method f r 0 256 / mov r1, 0 / mov r2, r3 / mov r3, 256 / call 2 / jslt r0, 0, +2 /
    mov r1, r0 / call 13 / exit
=> 1 refused method 0 slot 6: 13 HelperArgument
verify - / .rules 3 / .method f r 65535 65535 / add r1, 32767 / ldxb r0, [r1+32767] / exit
=> 0 f ok 3
verify - / .rules 3 / .method f r 65534 65535 / add r1, 32767 / ldxb r0, [r1+32767] / exit
=> 1 refused method 0 slot 1: 10 Bounds
verify - / .rules 3 / .method f r 65536 0 / mov r0, 0 / exit
=> 1 line 2: 3 Range
verify - / .rules 2 / .method f r 4096 4097 / mov r0, 0 / exit
=> 1 line 2: 3 Range
verify - / .rules 4 / .method f r 0 0 / mov r0, 0 / exit
=> 1 line 1: 2 Operand
verify - / .rules 3 / .method f r 0 0 / call 19 / exit
=> 1 refused method 0 slot 0: 12 UnknownHelper
verify - / .rules 2 / .method f r 8 8 / mov r2, 8 / mov r4, 8 / call 17 / exit
=> 1 refused method 0 slot 2: 12 UnknownHelper
verify - / .rules 3 / .method f r 8 8 / mov r2, 8 / mov r4, 8 / call 17 / exit
=> 1 refused method 0 slot 2: 11 ReadOnlyRegion
verify - / .rules 3 / .method f r 0 8 / stxdw [r10-8], r3 / mov r1, r10 / add r1, -8 / mov r2, 8 / mov r3, r10 /
    add r3, -16 / mov r4, 8 / call 17 / ldxdw r0, [r10-8] / exit
=> 1 refused method 0 slot 8: 5 UnsetRead
verify - / .rules 3 / .method f r 0 8 / stxdw [r10-16], r3 / mov r1, r10 / add r1, -8 / mov r2, 8 / mov r3, r10 /
    add r3, -16 / mov r4, 8 / call 17 / ldxdw r0, [r10-16] / exit
=> 1 refused method 0 slot 7: 17 PointerBytes
run - f / .rules 3 / .method f r 0 0 / stb [r10-8], 97 / stb [r10-16], 98 / mov r1, r10 / add r1, -8 / mov r2, 8 /
    mov r3, r10 / add r3, -16 / mov r4, 8 / call 16 / exit
=> 0 code -1 / output - / steps 10 / object absent
run - f / .rules 3 / .method f r 0 0 / mov r1, r10 / add r1, -8 / mov r2, 8 / mov r3, r10 / add r3, -16 /
    mov r4, 8 / mov r4, 7 / call 16 / exit
=> 0 code 1 / output - / steps 9 / object absent
run - f / .rules 3 / .method f r 0 0 / lddw r1, 0x0807060504030201 / stxdw [r10-16], r1 / mov r1, r10 / add r1, -8 /
    mov r2, 8 / mov r3, r10 / add r3, -16 / mov r4, 8 / add r1, -7 / call 17 / ldxdw r0, [r10-16] / exit
=> 0 code 506097522914230529 / output - / steps 12 / object absent
run - f / .rules 3 / .method f r 0 0 / mov r1, r10 / add r1, -8 / mov r2, 8 / mov r3, r10 / add r3, -16 /
    mov r4, 8 / mov r2, 7 / call 17 / exit
=> 0 code -34 / output - / steps 9 / object absent
run - f / .rules 3 / .method f r 0 8 / mov r1, r3 / mov r2, 0 / mov r4, 8 / call 18 / exit
=> 0 code -2 / output - / steps 5 / object absent
run - f / .rules 3 / .method f w 4097 0 / mov r3, r1 / mov r4, 4097 / stb [r10-8], 97 / mov r1, r10 / add r1, -8 /
    mov r2, 1 / call 7 / exit
=> 0 code -27 / output - / steps 8 / object absent
run - f / .rules 3 / .method f w 4096 0 / mov r3, r1 / mov r4, 4096 / stb [r10-8], 97 / mov r1, r10 / add r1, -8 /
    mov r2, 1 / call 7 / exit
=> 0 code 0 / output - / steps 8 / object 0 1 0
verify - / .method f r 0 0 / mov r1, 0 / mov r2, r10 / mov r3, 0 / call 3 / exit
=> 1 refused method 0 slot 3: 14 WriteHelperInReader
verify - / .method f r 0 0 / call 5 / exit
=> 1 refused method 0 slot 0: 14 WriteHelperInReader
verify - / .method f r 0 0 / mov r0, 0 / exit / .method g r 0 0 / exit / .method h r 0 0 / mov r0, r1 / exit
=> 1 refused method 1 slot 0: 5 UnsetRead
verify - --all / .method f r 0 0 / mov r0, 0 / exit / .method g r 0 0 / exit / .method h r 0 0 / mov r0, r1 / exit
=> 1 f ok 2 / refused method 1 slot 0: 5 UnsetRead / refused method 2 slot 1: 15 ReturnsPointer
verify --all - / .method f r 0 0 / mov r0, 0 / exit / .method g r 0 0 / mov r0, 1 / exit
=> 0 f ok 2 / g ok 2
verify --all --explain - / .method f r 0 0 / mov r0, 0 / exit / .method g r 0 0 / mov r0, 1 / exit
=> 0 f ok 2 / g ok 2
verify - --all / .method f r 0 0 / exit / .method g r 0 0 / mov r0, 0 / exit
=> 1 refused method 0 slot 0: 5 UnsetRead / g ok 2
verify missing --all
=> 1 cannot read
dis missing
=> 1 cannot read
verify - --all / .method f r 0 0 / foo
=> 1 line 2: 1 Word
dis - --slots / .method f r 0 0 / mov r0, 0 / exit
=> 0 .method f r 0 0 / mov r0, 0 ; slot 0 / exit ; slot 1
dis - --slots / .method f r 0 0 / lddw r0, 1 / exit
=> 0 .method f r 0 0 / lddw r0, 0x0000000000000001 ; slot 0 / exit ; slot 2
verify - / .method greet r 0 16 / ; writes "hi" and answers 2 / stb [r3+0], 104 / stb [r3+1], 105 / mov r1, 2 /
    call 13 / mov r0, 2 / exit
=> 0 greet ok 6
run - greet / .method greet r 0 16 / ; writes "hi" and answers 2 / stb [r3+0], 104 / stb [r3+1], 105 / mov r1, 2 /
    call 13 / mov r0, 2 / exit
=> 0 code 2 / output 6869 / steps 6 / object absent
"""

# The classes in examples/.
EXAMPLE_CALLS = r"""
verify count.txt
=> 0 count ok 27
verify counter_o0.txt
=> 0 inc ok 64
run counter_o0.txt inc
=> 0 code 0 / output 0100000000000000 / steps 46 / object 0 1 0
verify hello.txt
=> 0 hello ok 5
run hello.txt hello
=> 0 code 0 / output 68656c6c6f / steps 5 / object absent
dis hello.txt
=> 0 .method hello r 0 5 / stw [r3+0], 1819043176 / stb [r3+4], 111 / mov r1, 5 / call 13 / exit
verify patterns.txt
=> 0 copy ok 14 / count ok 27 / get ok 8 / set ok 14 / sum ok 10
run patterns.txt copy
=> 0 code -22 / output - / steps 3 / object absent
run patterns.txt copy --input 00000000000000000500000000000000
=> 0 code -2 / output - / steps 10 / object absent
run patterns.txt get --input 61
=> 0 code -2 / output - / steps 4 / object absent
run patterns.txt set --input 02616278797a
=> 0 code 0 / output - / steps 14 / object 0 1 0
run patterns.txt set --input 036162
=> 0 code -22 / output - / steps 8 / object absent
run patterns.txt sum --input 01020304
=> 0 code 10 / output - / steps 10 / object absent
"""
for example in ("hello.txt", "c/counter_o0.txt"):
    with open(os.path.join(EXAMPLES, example), "rb") as text:
        FILES[os.path.basename(example)] = text.read()

# Raw code that clang 14 makes of examples/c: counter.c, without optimization too, swap.c and sum.c.
INC = bytes_of("""
bf36000000000000b401000074000000731afcff00000000b4010000636f756e631af8ff00000000b7010000000000007b1af0ff00000000
bfa100000000000007010000f8ffffffbfa300000000000007030000f0ffffffb702000005000000b7040000080000008500000006000000
bf0100000000000065010400ffffffff15010500c3ffffffbf1000000000000015010300feffffff0500110000000000b7000000fbffffff
55010f000800000079a1f0ff0000000007010000010000007b1af0ff00000000bfa100000000000007010000f8ffffffbfa3000000000000
07030000f0ffffffb702000005000000b7040000080000008500000007000000c50004000000000079a1f0ff000000007b16000000000000
b701000008000000850000000d0000009500000000000000""")
SPILLED = bytes_of("""
7b1af0ff000000007b2ae8ff000000007b3ae0ff00000000b401000074000000731adcff00000000b4010000636f756e631ad8ff00000000
b7010000000000007b1ad0ff00000000bfa100000000000007010000d8ffffffb702000005000000bfa300000000000007030000d0ffffff
b70400000800000085000000060000007b0ac8ff0000000079a1c8ff0000000065010a00ffffffff050000000000000079a1c8ff00000000
15010700feffffff050000000000000079a1c8ff0000000015010400c3ffffff050000000000000079a1c8ff000000007b1af8ff00000000
050021000000000079a1c8ff00000000c501070000000000050000000000000079a1c8ff0000000015010400080000000500000000000000
b7010000fbffffff7b1af8ff00000000050018000000000079a1d0ff0000000007010000010000007b1ad0ff00000000bfa1000000000000
07010000d8ffffffb702000005000000bfa300000000000007030000d0ffffffb70400000800000085000000070000007b0ac0ff00000000
79a1c0ff0000000065010400ffffffff050000000000000079a1c0ff000000007b1af8ff00000000050007000000000079a1d0ff00000000
79a2e0ff000000007b12000000000000b701000008000000850000000d0000007b0af8ff00000000050000000000000079a0f8ff00000000
9500000000000000""")
SWAP = bytes_of("""
bf16000000000000b7010000000000007b1af8ff00000000b7000000eaffffff5502130010000000bfa200000000000007020000f8ffffff
b701000000000000b703000008000000850000000200000065000100ffffffff55000c00feffffffb7000000f0ffffff7961000000000000
79a2f8ff000000005d120800000000000706000008000000b701000000000000bf62000000000000b7030000080000008500000003000000
bf01000000000000c70000003f0000005f100000000000009500000000000000""")
SUM = bytes_of("""
711401000000000071120000000000000f4200000000000071140200000000000f4200000000000071140300000000000f42000000000000
71140400000000000f4200000000000071140500000000000f4200000000000071140600000000000f420000000000007114070000000000
0f4200000000000071140800000000000f4200000000000071140900000000000f4200000000000071140a00000000000f42000000000000
71140b00000000000f4200000000000071140c00000000000f4200000000000071140d00000000000f4200000000000071140e0000000000
0f4200000000000071110f00000000000f120000000000007b23000000000000b701000008000000850000000d0000009500000000000000""")
FILES.update({"inc.bin": INC, "spilled.bin": SPILLED, "swap.bin": SWAP, "sum.bin": SUM,
              "cut.bin": CODE[:12], "opcode.bin": CODE[:8] + b"\xff" + CODE[9:]})
INC_IMAGE = image_of(("inc", 3, 0, 8, INC))
SPILLED_IMAGE = image_of(("inc", 3, 0, 8, SPILLED), rules=2)
SWAP_IMAGE = image_of(("swap", 3, 16, 0, SWAP))
SUM_IMAGE = image_of(("sum", 1, 16, 8, SUM))
BOTH = image_of(("e", 3, 1, 2, CODE), ("f", 2, 0, 4096, CODE))
# What `pack` refuses: the first file that can't be read, then the fields in the order of an image.
UNPACKED = r"""
pack out f:r:0:0:missing
=> 1 cannot read
pack out f:r:0:0:code g:r:0:0:missing
=> 1 cannot read
pack out f:r:0:0:cut.bin
=> 1 image refused after 0 methods: 1 Truncated
pack out e:r:0:0:empty f:r:0:0:opcode.bin
=> 1 image refused after 1 methods, slot 1: 3 Opcode
pack out f:r:0:0:empty
=> 1 image refused after 0 methods: 10 Limit
pack out F:r:0:0:code
=> 1 image refused after 0 methods: 7 Name
pack out g:r:0:0:code f:r:0:0:code
=> 1 image refused after 1 methods: 8 Order
pack out f:r:4097:0:code
=> 1 image refused after 0 methods: 10 Limit
pack out f:w:0:65535:code
=> 1 image refused after 0 methods: 10 Limit
"""

# A class of two methods, of which the first begins with a wide load: `lddw r0, 1`, `exit`, and
# `mov r0, 0`, `mov r0, 0`, `exit`. One whose second method isn't safe: `mov r0, r1` stands last.
EF = image_of(("e", 1, 0, 0, WIDE[17:]), ("f", 1, 0, 0, CODE[:8] + CODE))
SECOND = image_of(("e", 1, 0, 0, CODE),
                  ("f", 1, 0, 0, CODE[:8] + bytes_of("bf10000000000000") + CODE[8:]))
# Four bytes of input after the object's first, which is 0; an xattr; three keys.
MANY = image_of(("f", 2, 4, 0, bytes_of("""
bf16000000000000bf12000000000000b701000001000000b7030000040000008500000003000000bf61000000000000b702000001000000
bf63000000000000b7040000000000008500000007000000bf61000000000000b702000001000000bf63000000000000b704000004000000
850000000a000000bf61000000000000b702000002000000bf63000000000000b704000004000000850000000a000000bf61000000000000
b702000003000000bf63000000000000b704000000000000850000000a0000009500000000000000""")))
HELLO = image_of(("hello", 1, 0, 5, bytes_of(
    "6203000068656c6c 720304006f000000 b701000005000000 850000000d000000 9500000000000000")))
KEEP_TEXT = lines_of(".method keep rw 4 4 / mov r6, r3 / mov r2, r1 / mov r1, 0 / mov r3, 4 / call 3 / "
                     "mov r1, 0 / mov r2, r6 / mov r3, 4 / call 2 / mov r7, r0 / mov r1, 4 / call 13 / "
                     "mov r0, r7 / exit")
# A jump to a label over one instruction, with tabs, a comment, an empty line and no last line feed.
LOOSE_TEXT = ("; a label\n\n.method\tf  r 0 0\n\tmov r0 ,0x0 ; none\n jeq r0, 0, done\nmov r0, 1\n"
              "done:\nexit")
LOOSE = image_of(("f", 1, 0, 0, CODE[:8] + bytes_of("1500010000000000 b700000001000000") + CODE[8:]))
FIVE_HUNDRED = image_of(("f", 1, 0, 0, CODE[:8] * 500 + CODE[8:]))

CLASS_ROWS = [
    *rows_of(TEXTS), *rows_of(CLASSES), *rows_of(EXAMPLE_CALLS), *rows_of(UNPACKED),
    # line feeds of another system; a text of no line; an image in place of a text
    Row("asm - out", "line 3: 1 Word\n", "", 1, stdin=b".method f r 0 0\nmov r0, 0\nexit\r\n"),
    Row("asm - out", "line 1: 2 Operand\n", "", 1, stdin=b".method f r 0 0\r\nmov r0, 0\r\nexit\r\n"),
    Row("asm - out", "line 1: 3 Range\n", "", 1),
    Row("asm two.img out", "cannot read\n", "", 1),
    # images of texts, and texts of images
    *(Row("asm - out", stdin=text.encode(), wrote={"out": image}) for text, image in (
        (KEEP_TEXT, KEEP), (LOOSE_TEXT, LOOSE),
        (".rules 2\n.method f r 0 0\nmov r0, 0\nexit\n", b"RCL2" + TWO[4:]),
        (".rules 3\n.method f r 0 0\nmov r0, 0\nexit\n", b"RCL3" + TWO[4:] + bytes(2)))),
    *(Row("dis -", text, stdin=image) for text, image in (
        (".method e r 0 0\nlddw r0, 0x0000000000000001\nexit\n"
         ".method f r 0 0\nmov r0, 0\nmov r0, 0\nexit\n", EF),
        (".rules 2\n.method f r 0 0\nmov r0, 0\nexit\n", b"RCL2" + TWO[4:]),
        (".rules 3\n.method f r 0 0\nmov r0, 0\nexit\n", b"RCL3" + TWO[4:] + bytes(2)),
        (".method e rw 1 2\nmov r0, 0\nexit\n.method f w 0 4096\nmov r0, 0\nexit\n", BOTH),
        (".method f r 0 0\n" + "mov r0, 0\n" * 500 + "exit\n", FIVE_HUNDRED))),
    Row("dis unset.img", ".method f r 0 0\nexit\n"),
    Row("dis -", "image refused after 0 methods, slot 1: 3 Opcode\n", "", 1,
        stdin=TWO[:25] + b"\xff" + TWO[26:]),
    # another third byte, and nothing that isn't UTF-8: zeros tell it from a text
    Row("verify -", "image refused after 0 methods: 2 Magic\n", "", 1, stdin=b"RCM1\0\0\0\0"),
    # images that are judged and called
    Row("verify -", "e ok 2\nf ok 3\n", stdin=EF),
    Row("run - f", ran(0, "-", 3, "absent"), stdin=EF),
    Row("verify -", "refused method 1 slot 2: 15 ReturnsPointer\n", "", 1, stdin=SECOND),
    Row("run - f --input 61626364", ran(0, "-", 26, "5 1 3"), stdin=MANY),
    Row("run - hello", ran(0, "68656c6c6f", 5, "absent"), stdin=HELLO),
    Row(f"run largest.img {31:064} --input=" + "a5" * 4096, ran(0, "-", 4096, "absent")),
    Row(f"run largest.img {31:064} --input @-", ran(0, "-", 4096, "absent"), stdin=b"a" * 65535),
    Row(f"run largest.img {31:064} --input @-", "call refused: 2 InputTooLong\n", "", 1, stdin=b"a" * 65536),
    # the whole input is copied, and logged with the output
    *(Row("run copies.txt f --input @-", ran(count, "5a" * count or "-", 12, "absent"), stdin=b"Z" * count) for count in (0, 5, 65535)),
    # raw code that is packed, and is called then
    Row("pack out inc:rw:0:8:inc.bin", wrote={"out": INC_IMAGE}),
    Row("verify -", "inc ok 38\n", stdin=INC_IMAGE),
    Row("run - inc", ran(0, "0100000000000000", 35, "0 1 0"), stdin=INC_IMAGE),
    Row("pack --rules 2 out inc:rw:0:8:spilled.bin", wrote={"out": SPILLED_IMAGE}),
    Row("verify -", "inc ok 64\n", stdin=SPILLED_IMAGE),
    Row("run - inc", ran(0, "0100000000000000", 46, "0 1 0"), stdin=SPILLED_IMAGE),
    # a swap of 0, as of an absent object, for 7; one of another number; an input that is too short
    Row("pack out swap:rw:16:0:swap.bin", wrote={"out": SWAP_IMAGE}),
    Row("verify -", "swap ok 25\n", stdin=SWAP_IMAGE),
    *(Row(f"run - swap --input {words}", ran(code, "-", steps, held), stdin=SWAP_IMAGE)
      for words, code, steps, held in (
          ("00000000000000000700000000000000", 0, 25, "8 0 0"),
          ("01000000000000000700000000000000", -16, 17, "absent"), ("00", -22, 6, "absent"))),
    Row("pack out sum:r:16:8:sum.bin", wrote={"out": SUM_IMAGE}),
    Row("verify -", "sum ok 35\n", stdin=SUM_IMAGE),
    Row("run - sum --input 010203", ran(0, "0600000000000000", 35, "absent"), stdin=SUM_IMAGE),
    Row("pack out e:rw:1:2:code f:w:0:4096:code", wrote={"out": BOTH}),
]
