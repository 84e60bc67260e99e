"""Rows of tools/process.py on the object beside a call: what words and texts spell, and what is saved."""
from process_rows import EXAMPLES, FILES, Row, lines_of, ran, rows_of

# The object beside a call that leaves it as it is: what words spell, in the order of the names'
# bytes, with names that would be read as others in hexadecimal; which refusal comes first.
OBJECTS = r"""
run two.img f --object=00ff
=> 0 code 0 / output - / steps 2 / object 2 0 0
run two.img f --xattr b=01 --xattr a= --xattr 0x00=02 --xattr 0x41=03 --show
=> 0 code 0 / output - / steps 2 / object 0 4 0 / data - / xattr 0x00 02 / xattr A 03 / xattr a - / xattr b 01
run two.img f --object 0
=> 1 object is not hex
run two.img f --xattr a=0
=> 1 object is not hex
run two.img f --key a==00
=> 1 object is not hex
run two.img f --key 0xf=00
=> 1 object is not hex
run two.img f --xattr =00
=> 1 object refused: 6 Range
run two.img f --key 0x=00
=> 1 object refused: 6 Range
run two.img f --key =00 --xattr a=g
=> 1 object is not hex
run two.img f --xattr =00 --xattr a=g
=> 1 object refused: 6 Range
run two.img f --xattr =00 --object g
=> 1 object is not hex
run two.img f --object @cut --show
=> 0 code 0 / output - / steps 2 / object 6 0 0 / data 6265666f7265
run two.img f --xattr a=@cut --key b=@cut --key c=@empty --show
=> 0 code 0 / output - / steps 2 / object 0 1 2 / data - / xattr a 6265666f7265 / key b 6265666f7265 / key c -
run two.img f --input - --object - --xattr a=- --show
=> 0 code 0 / output - / steps 2 / object 0 1 0 / data - / xattr a -
run two.img f --input @cut
=> 1 call refused: 2 InputTooLong
run empty f --key a=@missing
=> 1 cannot read
run two.img f --object g --xattr a=@missing
=> 1 cannot read
run empty f --object g
=> 1 image refused after 0 methods: 1 Truncated
run empty f --input 0g
=> 1 image refused after 0 methods: 1 Truncated
run unset.img f --input 0g
=> 1 refused method 0 slot 0: 5 UnsetRead
run two.img f --object g --input g
=> 1 input is not hex
run two.img g --input 0g
=> 1 input is not hex
run keep.img keep --input 616
=> 1 input is not hex
run two.img g --object g
=> 1 object is not hex
run missing f
=> 1 cannot read
run keep.img keep --input 726F6f74
=> 0 code 4 / output 726f6f74 / steps 14 / object 4 0 0
run count.txt count --object 6162 --show
=> 0 code 1 / output 0100000000000000 / steps 23 / object 2 0 1 / data 6162 / key n 0100000000000000
run count.txt count --key=n=01 --key=m=FF --key=n=0200000000000000
=> 0 code 3 / output 0300000000000000 / steps 22 / object 0 0 2
run count.txt count --load - --show / data - / key n 0200000000000000
=> 0 code 3 / output 0300000000000000 / steps 22 / object 0 0 1 / data - / key n 0300000000000000
run two.img f --object @65537
=> 1 object refused: 4 TooBig
"""
FILES["65537"] = b"\7" * 65537
# Texts that spell an object, and what is shown of it: in any order, in digits of either case, with
# more blanks, the later of two, and names that are read as others without `0x`.
LOADED = (
    ("", "absent"), ("data -", "0 0 0", "data -"),
    ("data 6162 / xattr 0x00 02 / xattr a - / key b 01", "2 2 1",
     "data 6162", "xattr 0x00 02", "xattr a -", "key b 01"),
    ("data\t- / key  b 01 / xattr a FF / key a 02 ", "0 1 2",
     "data -", "xattr a ff", "key a 02", "key b 01"),
    ("data - / key b 01 / key 0x62 03", "0 0 1", "data -", "key b 03"),
    ("data - / key 0x3078 01 / key - 02", "0 0 2", "data -", "key - 02", "key 0x3078 01"))
# Texts that spell none, and the line that is bad: a name of no byte too, which no object has.
UNLOADED = (
    (1, b"\n", b"data\n", b"data 0\n", b"data 0g\n", b"data 00 00\n", b"xattr a 00\n",
     b"object 0 0 0\ndata -\n", b"no object"),
    (2, b"data -\n\n", b"data -\ndata -\n", b"data -\nkey a\n", b"data -\nxattr a 00 00\n",
     b"data -\nKey a 00\n", b"data -\nkey 0x 00\nkey\n"),
    (3, b"data -\nkey a 00\nkey 0xf 00\n", b"data -\nkey a 00\nxattr a 0\n"))
BAD_OBJECT = """object line 1: bad
  wanted: in the file of --load first `data HEX`, then lines `xattr NAME HEX` and `key NAME HEX`, with - for no byte
  see docs/PROGRAM.md
"""

# The fullest object: names of 64 bytes, values of 4,096 and the data of files.
FULL_WORDS = [*(f"--xattr={n:064}=@4096" for n in range(32)),
              *(f"--key={n:064}=@4096" for n in range(1024))]
FILES["4096"] = b"\xa5" * 4096
FULL_SHOWN = ran(0, "-", 2, "65536 32 1024", "data " + "6f" * 65536,
                 *(f"xattr {n:064} " + "a5" * 4096 for n in range(32)),
                 *(f"key {n:064} " + "a5" * 4096 for n in range(1024)))

# By an OSD's limits: a method for each call on an object (its steps are counted in the text), a class
# that sets xattrs named by one byte, and objects past the profile's. Numbers in inputs are little-endian.
with open(f"{EXAMPLES}/embed/parts.txt", "rb") as text:
    FILES["parts.txt"] = text.read()
SETS = "stb [r10-1], {}\nmov r1, r10\nadd r1, -1\nmov r2, 1\nmov r3, r1\nmov r4, 1\ncall 7\n"
for count in (32, 33):
    FILES[f"sets{count}.txt"] = ".method f w 0 0\n" + "".join(map(SETS.format, range(65, 65 + count))) + "exit\n"
FILES["200000"] = b"\7" * 199996 + b"tail"
FORTY = " ".join(f"--xattr x{n:02}={n:02}" for n in range(40))
LARGE_ROWS = [
    # data read at its end, written at the last place of it, and past that
    Row("run parts.txt read --limits ceph --object @200000 --input 3c0d030064000000",
        ran(4, "7461696c", 12, "200000 0 0")),
    Row("run parts.txt read --limits profile --object @200000 --input 3c0d030064000000",
        "object refused: 4 TooBig\n", "", 1),
    Row("run parts.txt write --limits ceph --input ffffff0779", ran(1, "-", 9, "134217728 0 0")),
    Row("run parts.txt write --limits ceph --input 0000000879", ran(-27, "-", 9, "absent")),
    Row("run parts.txt write --limits profile --input ffffff0779", ran(-27, "-", 9, "absent")),
    # 40 xattrs: one of them, and one more
    Row(f"run parts.txt getx --limits ceph {FORTY} --input 783339", ran(1, "39", 8, "0 40 0")),
    Row(f"run parts.txt getx --limits ceph {FORTY} --input 79", ran(-61, "-", 4, "0 40 0")),
    Row(f"run parts.txt putx --limits ceph {FORTY} --input 016105", ran(0, "-", 14, "0 41 0")),
    Row(f"run parts.txt putx {FORTY} --input 016105", "object refused: 5 TooMany\n", "", 1),
    # a key, set and saved, found and listed
    Row("run parts.txt put --limits ceph --input 016b76 --save out", ran(0, "-", 14, "0 0 1"),
        wrote={"out": b"data -\nkey k 76\n"}),
    Row("run parts.txt get --limits ceph --load - --input 6b --show", ran(1, "76", 8, "0 0 1", "data -", "key k 76"),
        stdin=b"data -\nkey k 76\n"),
    Row("run parts.txt next --limits ceph --load - --input -", ran(1, "6b", 8, "0 0 1"),
        stdin=b"data -\nkey k 76\n"),
    Row("run parts.txt next --limits ceph --load - --input 6b30393939", ran(5, "6b31303030", 8, "0 0 2000"),
        stdin=b"data -\n" + b"".join(b"key k%04d 00\n" % n for n in range(2000))),
    Row("run parts.txt remove --limits ceph --object 00 --save out", ran(0, "-", 2, "absent"), wrote={"out": b""}),
    # 32 xattrs can be set by one call, and no more
    Row("run sets32.txt f --limits ceph", ran(0, "-", 225, "0 32 0")),
    Row("run sets33.txt f --limits ceph --save out", "call refused: 4 Full\n", "", 1),
    # refusals are those without the option
    Row("run two.img f --limits ceph --object 0", "object is not hex\n", "", 1),
    Row("run two.img f --limits ceph --key =00", "object refused: 6 Range\n", "", 1),
    Row("run two.img f --limits ceph --xattr a=" + "00" * 4097, "object refused: 4 TooBig\n", "", 1),
    Row("run two.img f --limits ceph --load -", "object line 2: bad\n", "", 1, stdin=b"data -\nkey k\n"),
    Row("run two.img g --limits ceph", "call refused: 1 NoMethod\n", "", 1),
    Row("run two.img f --limits ceph --input 00", "call refused: 2 InputTooLong\n", "", 1),
]

OBJECT_ROWS = [
    *rows_of(OBJECTS),
    *LARGE_ROWS,
    Row(["run", "two.img", "f", "--caller", "4294967295", "--input", ""], ran(0, "-", 2, "absent")),
    # objects that words spell
    Row(["run", "two.img", "f", "--key", "0x3078=01", "--key", "0x613d=02", "--key", "a b=03", "--show"],
        ran(0, "-", 2, "0 0 3", "data -", "key 0x3078 01", "key 0x612062 03", "key 0x613d 02")),
    Row("run two.img f --xattr a=" + "00" * 4097, "object refused: 4 TooBig\n", "", 1),
    Row(["run", "two.img", "f", "--show", "--object=@full", *FULL_WORDS], FULL_SHOWN),
    *(Row(["run", "two.img", "f", "--object=@full", *FULL_WORDS, more], "object refused: 5 TooMany\n", "", 1)
      for more in ("--xattr=a=00", "--key=a=00")),
    # objects that texts spell
    Row("run two.img f --load - --show", ran(0, "-", 2, "2 0 0", "data 6162"), stdin=b"data 6162"),
    *(Row("run two.img f --load - --show", ran(0, "-", 2, *shown), stdin=lines_of(text).encode())
      for text, *shown in LOADED),
    *(Row("run two.img f --load - --show", f"object line {line}: bad\n", "", 1, stdin=text)
      for line, *texts in UNLOADED for text in texts),
    Row("run two.img f --load - --explain", BAD_OBJECT, "", 1, stdin=b"no object"),
    Row("run two.img f --load -", "cannot read\n", "", 1, stdin=b"data \xff"),
    # of what is refused nothing is saved; each call finds what the one before it left
    Row("run two.img f --load missing --save out", "cannot read\n", "", 1),
    Row("run two.img g --load - --save out", "object line 1: bad\n", "", 1, stdin=b"no object"),
    Row("run two.img g --save out", "call refused: 1 NoMethod\n", "", 1),
    Row("run count.txt count --save out", ran(1, "0100000000000000", 24, "0 0 1"),
        wrote={"out": b"data -\nkey n 0100000000000000\n"}),
    Row("run count.txt count --load - --save out", ran(2, "0200000000000000", 22, "0 0 1"),
        stdin=b"data -\nkey n 0100000000000000\n",
        wrote={"out": b"data -\nkey n 0200000000000000\n"}),
]
