"""Rows of tools/process.py on several files, on JSON, and on each wrong line of a text.

An object of JSON is read by Python's own reader, and compared as what it says."""
import json

from process_rows import CLOSED, FULL, KEPT, NO_IMAGE, SAVED, TWO, TWO_TEXT, UNSAFE, Row, tells, usage

# A text of which six lines are wrong, and how each is told.
WRONG = (".method f r 0 0\nmvo r0, 0\njmp end\nadd r0, 1.5\nend:\nexit\n.method F r 0 0\nexit\n.method g r 0 0\nend:\n"
         "end:\nja ned\nexit\n")
LINES = "line 2: 1 Word\nline 3: 1 Word\nline 4: 2 Operand\nline 7: 2 Operand\nline 11: 4 Label\nline 12: 4 Label\n"
NO_MORE = "the argument '--json' cannot be used with '--all' or '--explain'\n\nUsage: radoscls "


def after(name, text):
    """The lines of a text, each after a file's name."""
    return "".join(f"{name}: {line}" for line in text.splitlines(keepends=True))


def objects(*wanted):
    """Whether a text is those objects of JSON, one a line, and nothing else."""

    def are_objects(text):
        *lines, end = text.split("\n")
        return end == "" and [json.loads(line) for line in lines] == list(wanted)

    return are_objects


def accepted(file, method, count):
    return {"file": file, "method": method, "ok": True, "instructions": count}


def ran(code, output, steps, held, shown="", trace=""):
    """A call's report; of an object its bytes, xattrs and keys."""
    return {"code": code, "output": output, "steps": steps, "shown": shown, "trace": trace,
            "object": held and dict(zip(("bytes", "xattrs", "keys"), held))}


UNSET = {"file": "unset.img", "method": 0, "ok": False, "rule": 5, "name": "UnsetRead", "slot": 0}

REPORT_ROWS = [
    # several files, in the order given, each once for each time that it is named
    Row("verify two.img keep.img", "two.img: f ok 2\nkeep.img: keep ok 14\n"),
    Row("verify keep.img two.txt two.img two.txt",
        "keep.img: keep ok 14\ntwo.txt: f ok 2\ntwo.img: f ok 2\ntwo.txt: f ok 2\n"),
    Row(["verify", "a b", "\u00e9.img", "./-"], "a b: f ok 2\n\u00e9.img: f ok 2\n./-: f ok 2\n"),
    Row("verify two.img -", "two.img: f ok 2\n-: f ok 2\n", stdin=TWO),
    # one that is refused or missing among them: the others are judged
    Row("verify unset.img two.img", after("unset.img", UNSAFE) + "two.img: f ok 2\n", "", 1),
    Row("verify two.img missing keep.img", "two.img: f ok 2\nmissing: cannot read\nkeep.img: keep ok 14\n", "", 1),
    Row("verify two.img more", "two.img: f ok 2\nmore: cannot read\n", "", 1),
    Row("verify folder empty word.txt unset.img two.img", "folder: cannot read\n" + after("empty", NO_IMAGE)
        + "word.txt: line 2: 1 Word\n" + after("unset.img", UNSAFE) + "two.img: f ok 2\n", "", 1),
    Row("verify missing two.img --explain", "missing: cannot read\nmissing:   missing: No such file or directory "
        "(os error 2)\ntwo.img: f ok 2\n", "", 1),
    Row("verify --all two.img keep.img", "two.img: f ok 2\nkeep.img: keep ok 14\n"),
    Row("verify three.txt two.img --all", after("three.txt", f"f ok 2\n{UNSAFE.replace('0', '1', 1)}h ok 2\n")
        + "two.img: f ok 2\n", "", 1),
    *(Row("verify two.img keep.img", None, "", 1, to=to) for to in (FULL, CLOSED)),
    # a folder stands for its files of classes; without any, or if it can't be listed, it is no file
    *(Row(f"verify {words}", "order/Z.img: f ok 2\norder/a.img: f ok 2\norder/b.txt: f ok 2\n")
      for words in ("order", "order/", "order --all", "--loops order")),
    Row("verify two.img ./order keep.img", "two.img: f ok 2\n./order/Z.img: f ok 2\n./order/a.img: f ok 2\n"
        "./order/b.txt: f ok 2\nkeep.img: keep ok 14\n"),
    *(Row(words, "f ok 2\n") for words in ("verify one", "verify --all one")),
    Row("verify one --json", objects(accepted("one/two.img", "f", 2))),
    *(Row(f"verify mixed {option}", after("mixed/bad.img", NO_IMAGE) + "mixed/good.txt: f ok 2\n", "", 1)
      for option in ("", "--all", "--loops")),
    Row("verify one mixed", "one/two.img: f ok 2\n" + after("mixed/bad.img", NO_IMAGE) + "mixed/good.txt: f ok 2\n", "", 1),
    *(Row(words, "cannot read\n", "", 1) for words in ("verify notes", "verify odd", "run one f", "dis one", "test one two.img")),
    Row("verify folder one", "folder: cannot read\none/two.img: f ok 2\n", "", 1),
    Row("verify two.img keep.img", "two.img: f ok 2\nk", "", 1, room=17),
    # each wrong line of a text
    Row("verify - --all", LINES, "", 1, stdin=WRONG.encode()),
    Row("verify - two.img --all", after("-", LINES) + "two.img: f ok 2\n", "", 1, stdin=WRONG.encode()),
    Row("verify -", LINES.split("\n")[0] + "\n", "", 1, stdin=WRONG.encode()),
    Row("asm - out --all", LINES, "", 1, stdin=WRONG.encode()),
    Row("asm - two.img --all", LINES, "", 1, stdin=WRONG.encode()),
    Row("asm - out", LINES.split("\n")[0] + "\n", "", 1, stdin=WRONG.encode()),
    Row("asm word.txt out --all", "line 2: 1 Word\n", "", 1),
    Row("asm word.txt out --all --explain", tells("line 2: 1 Word"), "", 1),
    Row("asm missing out --all", "cannot read\n", "", 1),
    Row("asm --all two.txt out", wrote={"out": TWO}),
    # verdicts in JSON
    Row("verify two.img --json", objects(accepted("two.img", "f", 2))),
    Row("verify --json keep.img two.txt", objects(accepted("keep.img", "keep", 14), accepted("two.txt", "f", 2))),
    Row("verify - --json", objects(accepted("-", "f", 2), accepted("-", "g", 2)),
        stdin=(TWO_TEXT + TWO_TEXT.replace(" f ", " g ")).encode()),
    Row("verify unset.img --json", objects(UNSET), "", 1),
    Row("verify missing --json", objects({"file": "missing", "error": "cannot read"}), "", 1),
    Row("verify unset.img empty two.img missing --json", objects(
        UNSET, {"file": "empty", "error": NO_IMAGE[:-1]}, accepted("two.img", "f", 2),
        {"file": "missing", "error": "cannot read"}), "", 1),
    Row(["verify", "\u00e9\"\\\t\x1b", "--json"], objects({"file": "\u00e9\"\\\t\x1b", "error": "cannot read"}), "", 1),
    # calls in JSON
    Row("run two.img f --json", objects(ran(0, "", 2, None))),
    Row("run keep.img keep --input 726f6f74 --json", objects(ran(4, "726f6f74", 14, (4, 0, 0)))),
    Row("run --caller 2 lock.img --json --xattr lock=0100000000000000 lock --show",
        objects(ran(-16, "", 16, (0, 1, 0), "data -\nxattr lock 0100000000000000\n"))),
    Row("run two.img f --json --trace", objects(ran(
        0, "", 2, None, trace="slot 0: mov r0, 0; r0 = 0\nslot 1: exit\n"))),
    Row("run two.img f --json --limits ceph --load held", objects(ran(0, "", 2, (2, 1, 1)))),
    Row("run two.img f --load kept --save out --json", objects(ran(0, "", 2, (2, 1, 0))), wrote={"out": KEPT}),
    Row("run two.img f --load kept --save out --json", None, SAVED.format("out"), 1, to=FULL, wrote={"out": KEPT}),
    *(Row(f"run {words} --json", objects({"error": error}), "", 1) for words, error in (
        ("two.img g", "call refused: 1 NoMethod"), ("unset.img f", UNSAFE[:-1]), ("missing f", "cannot read"),
        ("two.img f --input @missing", "cannot read"), ("two.img f --save folder", "cannot write"))),
    # wrong words
    *(Row(words, "", usage(NO_MORE + words.split()[0]), 2, stdin=TWO) for words in (
        "verify two.img --json --all", "verify two.img keep.img --explain --json", "run two.img f --json --explain")),
    Row("verify - two.img -", "", usage("standard input ('-') can be read by one argument alone\n\nUsage: "), 2),
]
