"""Rows of tools/process.py on wrong words and on help: what stands in what is told of them."""
from process_rows import Row

# What each command is for, as the help has it, and the command's use.
PURPOSES = {
    "verify": ("Tells whether the methods of a class are safe", "[OPTIONS] <IN>..."),
    "run": ("Runs a method of a class beside an object", "[OPTIONS] <IN> <METHOD>"),
    "test": ("Runs the tests of a class", "[OPTIONS] <IN> <FILE>"),
    "asm": ("Writes the image of a class from its text", "[OPTIONS] <IN> <OUT>"),
    "pack": ("Writes the image of a class from raw code", "[OPTIONS] <OUT> <METHOD>..."),
    "dis": ("Prints the text of a class", "[OPTIONS] <IN>"),
    "heads": ("Writes the image of a class with the heads of its loops", "[OPTIONS] <IN> <OUT>"),
    "sim": ("Plays a group of nodes from a file of events", "[OPTIONS] <FILE>"),
    "cluster": ("Plays clients' calls on a cluster in threads", "[OPTIONS] <FILE>"),
}
# The first line below `Examples:` at the end of a command's help.
FIRST_EXAMPLES = {
    "run": "radoscls run keep.img keep --input 726f6f74",
    "verify": "radoscls verify count.img",
    "pack": "radoscls pack sum.img sum:r:16:8:sum.bin",
    "heads": "radoscls heads loops/sum.txt loop.img",
    "cluster": "radoscls cluster lost_primary.cluster",
}
NUMBER = "a number from 1 to 4294967295, without a sign or a leading zero"
NUMBERS = "numbers from 0 to 18446744073709551615, with ',' between them"
BUDGET = "a number from 1 to 1048576, without a sign or a leading zero"
METHOD = "NAME:FLAGS:IN:OUT:FILE, FLAGS r, w or rw, IN and OUT 0 to 65535"
CLASS = "a name, '=' and the file of the class: its image or text"
FULL_NAME = "a name that isn't empty and has no blank"
NEW_NAME = "a name other than lock, obj and earlier ones"
OUTPUT = "a file, and not standard input ('./-' is a file of that name)"
# Words with a value that is no such argument's, and what is expected there.
MISTAKEN = (
    ("run two.img f --caller 007", "007", "--caller <N>", NUMBER),
    ("run two.img f --caller +7", "+7", "--caller <N>", NUMBER),
    *(("run two.img f --input-u64 " + numbers, numbers, "--input-u64 <N,..>", NUMBERS)
      for numbers in ("5,", "5,,6", "05", "+5", "0x5", "18446744073709551616")),
    ("run two.img f --limits Ceph", "Ceph", "--limits <LIMITS>", "profile or ceph"),
    ("run two.img f --xattr a", "a", "--xattr <NAME=HEX>", "a name, '=' and the value"),
    ("run two.img f --key a=00 --key b", "b", "--key <KEY=HEX>", "a key, '=' and the value"),
    (["run", "two.img", "f", "--key", "a=00", "--key", ""], "", "--key <KEY=HEX>", "a key, '=' and the value"),
    ("pack out --rules 4 f:r:0:0:code", "4", "--rules <N>", "1, 2 or 3"),
    ("pack out --rules=02 f:r:0:0:code", "02", "--rules <N>", "1, 2 or 3"),
    *((f"heads two.txt out --budget {number}", number, "--budget <N>", BUDGET)
      for number in ("0", "1048577", "01", "+1", "1.0", "0x1", "18446744073709551616")),
    ("pack out f:r:0:0:code f:x:0:0:code", "f:x:0:0:code", "<METHOD>...", METHOD),
    ("pack out f:r:0:0 g:r:0:0:code", "f:r:0:0", "<METHOD>...", METHOD),
    *((f"pack out {method}", method, "<METHOD>...", METHOD)
      for method in ("f::0:0:code", "f:r::0:code", "f:r:+0:0:code", "f:r:0:00:code")),
    ("sim --class two locks.sim", "two", "--class <NAME=IMAGE>", CLASS),
    ("sim --class =two.img locks.sim", "=two.img", "--class <NAME=IMAGE>", FULL_NAME),
    (["sim", "--class", "a b=two.img", "locks.sim"], "a b=two.img", "--class <NAME=IMAGE>", FULL_NAME),
    (["sim", "--class", "two\t=two.img", "locks.sim"], "two\t=two.img", "--class <NAME=IMAGE>", FULL_NAME),
    ("sim --class obj=two.img locks.sim", "obj=two.img", "--class <NAME=IMAGE>", NEW_NAME),
    ("cluster --class lock=two.img calls", "lock=two.img", "--class <NAME=IMAGE>", NEW_NAME),
    ("sim --class two=two.img --class two=two.img locks.sim", "two=two.img", "--class <NAME=IMAGE>", NEW_NAME),
    ("sim --class two=two.img --class hi=cut --class two=empty locks.sim", "two=empty", "--class <NAME=IMAGE>",
     NEW_NAME),
    ("asm two.txt -", "-", "<OUT>", OUTPUT), ("heads two.txt -", "-", "<OUT>", OUTPUT), ("run two.img f --save -", "-", "--save <FILE>", OUTPUT))
GIVEN_TWICE = ("error: the argument '--load <FILE>' cannot be used with '--object <HEX>', '--xattr <NAME=HEX>' or "
               "'--key <KEY=HEX>'\n\nUsage: radoscls run ")
INPUTS = ("error: the arguments '--input <HEX>', '--input-text <TEXT>' and '--input-u64 <N,..>' cannot be used with one "
          "another\n\nUsage: radoscls run ")
READ_TWICE = "error: standard input ('-') can be read by one argument alone\n\nUsage: radoscls {} "


def first_word(words):
    return (words.split() if isinstance(words, str) else words)[0]


def told(words, *parts):
    """The row of words of which these parts are told on standard error, and nothing is printed."""
    return Row(words, "", lambda text: all(part in text for part in parts), 2)


WORD_ROWS = [
    told("--help", "RADOS object classes in verified BPF\n\nUsage: radoscls <COMMAND>\n",
         *(f"  {name:7}  {purpose}\n" for name, (purpose, _) in PURPOSES.items())),
    *(told(f"{name} --help", f"{purpose}\n\nUsage: radoscls {name} {use}\n")
      for name, (purpose, use) in PURPOSES.items()),
    *(told(f"{name} --help", f"\n\nExamples:\n  {example}\n") for name, example in FIRST_EXAMPLES.items()),
    told("verify", "error: the following required arguments were not provided:\n  <IN>...\n"),
    told("sim --trace", "error: the following required arguments were not provided:\n  <FILE>\n"),
    *(told(words, f"error: invalid value '{value}' for '{argument}': expected {wanted}\n\n"
           f"Usage: radoscls {first_word(words)} {PURPOSES[first_word(words)][1]}\n\n"
           "For more information, try '--help'.\n") for words, value, argument, wanted in MISTAKEN),
    *(told(f"run two.img f --load held {words}", GIVEN_TWICE)
      for words in ("--object -", "--xattr a=00", "--key a=00")),
    *(told(f"run two.img f {words}", INPUTS) for words in (
        "--input 00 --input-text a", "--input - --input-u64 5", "--input-text a --input-u64 5",
        "--input @- --input-text a --input-u64 5")),
    told("run two.img f --limits ceph --trace",
         "error: the argument '--trace' cannot be used with '--limits ceph'\n\nUsage: radoscls run "),
    told("sim survive.sim --objects --trace",
         "error: the argument '--objects' cannot be used with '--trace'\n\nUsage: radoscls sim "),
    told("run - f --load -", READ_TWICE.format("run")), told("sim --class two=- -", READ_TWICE.format("sim")),
]
