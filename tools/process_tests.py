"""Rows of tools/process.py on `test`: lines that hold, that differ, and that are malformed."""
from process_rows import EXAMPLES, FILES, FULL, UNSAFE, Row, lines_of, rows_of, tells

# A class of each call on an object; `who` answers the client's number.
with open(f"{EXAMPLES}/embed/parts.txt", "rb") as text:
    FILES["parts.txt"] = text.read()

TABLE = r"""
test two.txt -
=> 0 ok 0
test two.img - / call f - -> 0 - / is data none
=> 0 ok 2
test count.txt - / call count - -> 1 u64:1 / call count - -> 2 0200000000000000 / is key n u64:2 / is data -
=> 0 ok 4
test two.txt - / call f - -> -1
=> 1 line 1: differs // wanted: code -1 output - // found: code 0 output -
test two.txt - / call f - -> 0 00
=> 1 line 1: differs // wanted: code 0 output 00 // found: code 0 output -
test count.txt - / call count - -> 1
=> 1 line 1: differs // wanted: code 1 output - // found: code 1 output 0100000000000000
test two.txt - / call f - -> 0 / call g - -> 0
=> 1 line 2: differs // wanted: code 0 output - // found: no such method
test two.txt - / call f 00 -> 0
=> 1 line 1: differs // wanted: code 0 output - // found: the input is too long
test two.txt - / object text:ab / is data text:ab / is data none
=> 1 line 3: differs // wanted: none // found: 6162
test two.txt - / is data -
=> 1 line 1: differs // wanted: - // found: none
test two.txt - / xattr a - / is xattr a - / is data - / is xattr b none / is key a none / is xattr a 00
=> 1 line 6: differs // wanted: 00 // found: -
test two.txt - / key 0x00ff 01 / is key 0x00FF 01 / key 0x00ff 02 / is key 0x00ff 02 / object none / is key 0x00ff none
=> 0 ok 3
test two.txt - / object none / is data none / object - / is data -
=> 0 ok 2
test parts.txt - / call who - -> 1 / as 2 / call who - -> 2 / object none / call who - -> 1
=> 0 ok 3
test parts.txt - / as 4294967295 / call who - -> 4294967295
=> 0 ok 1
test parts.txt - / call put u8:2+text:ab+text:x+u16:513 -> 0 / is key ab 780102 / call remove - -> 0 / is data none
=> 0 ok 4
test two.txt - / object u16:1,65535+u32:4294967295+u64:18446744073709551615,0+Ff / is data 0100ffffffffffffffffffffffffffff0000000000000000ff
=> 0 ok 1
test two.txt - / object text:a:b+text: / is data 613a62
=> 0 ok 1
test two.txt - / call f - -> 9223372036854775807
=> 1 line 1: differs // wanted: code 9223372036854775807 output - // found: code 0 output -
test two.txt - / call f - -> -9223372036854775808
=> 1 line 1: differs // wanted: code -9223372036854775808 output - // found: code 0 output -
test two.txt - / call f - -> 1 / foo
=> 1 line 1: differs // wanted: code 1 output - // found: code 0 output -
test two.txt - / call f - -> 0 / foo / call f - -> 1
=> 1 line 2: bad
"""

# With --trace a call that answers otherwise is shown step by step, as of `run --trace`: with the
# object, the client and the input that it has there. What makes no call, or is refused, has no steps.
TRACED = r"""
test two.img - --trace / call f - -> 0 / call f - -> 1
=> 1 line 2: differs // wanted: code 1 output - // found: code 0 output - /
    slot 0: mov r0, 0; r0 = 0 / slot 1: exit
test count.txt - --trace / call count - -> 1 u64:1 / key n 050000000000000000 / call count - -> 0
=> 1 line 3: differs // wanted: code 0 output - // found: code -34 output - /
    slot 0 line 3: mov r6, r3; r6 = output + 0 / slot 1 line 4: stb [r10-1], 110; [stack - 1] = 6e /
    slot 2 line 5: mov r1, r10; r1 = stack + 0 / slot 3 line 6: add r1, -1; r1 = stack - 1 /
    slot 4 line 7: mov r2, 1; r2 = 1 / slot 5 line 8: mov r4, 8; r4 = 8 /
    slot 6 line 9: call 9; map_get([stack - 1] = 6e, [output + 0] of 8) = -34 ERANGE /
    slot 7 line 10: jeq r0, 8, +5 / slot 8 line 11: jeq r0, -61, +4 / slot 9 line 12: jeq r0, -2, +3 /
    slot 10 line 13: jslt r0, 0, +15 / slot 26 line 31: exit
test lock.img - --trace / as 2 / call lock - -> 1
=> 1 line 2: differs // wanted: code 1 output - // found: code 0 output - /
    slot 0: call 15; caller() = 2 / slot 1: mov r6, r0; r6 = 2 /
    slot 2: stw [r10-4], 1801678700; [stack - 4] = 6c6f636b / slot 3: mov r1, r10; r1 = stack + 0 /
    slot 4: add r1, -4; r1 = stack - 4 / slot 5: mov r2, 4; r2 = 4 / slot 6: mov r3, r10; r3 = stack + 0 /
    slot 7: add r3, -16; r3 = stack - 16 / slot 8: mov r4, 8; r4 = 8 /
    slot 9: call 6; getxattr([stack - 4] = 6c6f636b, [stack - 16] of 8) = -2 ENOENT /
    slot 10: jsge r0, 0, +9 / slot 11: stxdw [r10-16], r6; [stack - 16] = 0200000000000000 /
    slot 12: mov r1, r10; r1 = stack + 0 / slot 13: add r1, -4; r1 = stack - 4 / slot 14: mov r2, 4; r2 = 4 /
    slot 15: mov r3, r10; r3 = stack + 0 / slot 16: add r3, -16; r3 = stack - 16 / slot 17: mov r4, 8; r4 = 8 /
    slot 18: call 7; setxattr([stack - 4] = 6c6f636b, [stack - 16] = 0200000000000000) = 0 / slot 19: exit
test two.img - --trace / call f - -> 0
=> 0 ok 1
test two.img - --trace / call g - -> 0
=> 1 line 1: differs // wanted: code 0 output - // found: no such method
test two.img - --trace / call f 00 -> 0
=> 1 line 1: differs // wanted: code 0 output - // found: the input is too long
test two.img - --trace / is data -
=> 1 line 1: differs // wanted: - // found: none
test two.img - --trace / is foo -
=> 1 line 1: bad
"""

# Lines that are malformed, or past a limit of an object: a name of 65 bytes, data of 65,537.
BAD = ("foo", "object", "object 0", "object none none", "object x:00", "object text", "object u8:", "object u8:256",
       "object u8:1,", "object u16:65536", "object u32:4294967296", "object u64:18446744073709551616", "object u64:01",
       "object u8:-1", "object 00+", "object +00", "object -+00", "object 0g", "object @two.img", "xattr a", "xattr a 00 00",
       "xattr 0x0 00", "xattr 0x 00", "xattr a none", "key a", "key a zz", "key 0xa -", f"xattr {'a' * 65} -",
       f"key {'a' * 65} -", "as", "as 0", "as 4294967296", "as 01", "as 1 2", "call", "call f -", "call f - 0",
       "call f - -> ", "call f - -> x", "call f - -> +1", "call f - -> 01", "call f - -> -0", "call f - -> 0 - -",
       "call f - -> 9223372036854775808", "call f - -> -9223372036854775809", "call f none -> 0", "call f - -> 0 none",
       "call f - => 0", "is", "is data", "is data - -", "is foo -", "is xattr a", "is key 0xa none", "is absent", "Object none")

TEST_ROWS = [
    *rows_of(TABLE),
    *rows_of(TRACED),
    *(Row("test two.txt -", "line 2: bad\n", "", 1, stdin=lines_of(f"is data none / {line}").encode()) for line in BAD),
    # comments and blank lines say nothing, the last line may go without its end, and blanks are ignored
    Row("test two.txt -", "ok 1\n", stdin=b"# a comment\n\n \t\n#call\ncall f - -> 0\n"),
    Row("test two.txt -", "ok 1\n", stdin=b" \t call\tf  - -> 0"),
    Row("test two.txt -", "line 1: bad\n", "", 1, stdin=b"call f - -> 0\r\n"),
    Row("test two.txt nothing", "cannot read\n", "", 1), Row("test nothing -", "cannot read\n", "", 1),
    Row("test two.txt latin1", "cannot read\n", "", 1),
    Row("test unset.img -", "refused method 0 slot 0: 5 UnsetRead\n", "", 1),
    Row("test empty -", "image refused after 0 methods: 1 Truncated\n", "", 1),
    Row("test word.txt -", "line 2: 1 Word\n", "", 1),
    Row("test unset.img - --explain", tells(UNSAFE[:-1]), "", 1),
    Row("test two.txt nothing --explain", tells("cannot read"), "", 1),
    Row("test two.txt -", None, "", 1, to=FULL),
    Row("test - -", "", lambda text: text.startswith(
        "error: standard input ('-') can be read by one argument alone\n\nUsage: radoscls test "), 2),
    Row("test two.txt", "", lambda text: text.startswith(
        "error: the following required arguments were not provided:\n  <FILE>\n"), 2),
]
