"""What tools/pages.sh runs, with the program and the number of its own words.

The words of a command are the page's, and so is what it should print: below the command each line
of a block is one line, and so is each word in backticks. A line is printed for each command, and a
count; a difference is shown on standard error. A command that a page has and no row below names is
a difference too. The status is 0 if nothing differs and nothing was left out, but for commands
whose program isn't here if RADOSCLS was given. Files are copies, in a folder that is deleted."""
import fnmatch, os, re, shutil, subprocess, sys, tempfile
from collections import Counter
from pathlib import Path

TOP = Path(__file__).resolve().parent.parent
C_TOOLS = ("clang", "llvm-objcopy", "llvm-readelf", "llvm-objdump")
NAMES = (r"(radoscls|rt|clang|llvm-[a-z]*|sh|cc|python3|bash|cat|cd|rm|find|for(?! \()|tools/[a-z.]*|\./[a-z/]*) "
         r"|tools.*sh$|rt run$")
# What other parts of the gate run: tests of the program (forms, with words in capitals),
# tools/embed.sh, tools/release_test.sh, `rt ci`.
ELSEWHERE = re.compile(r"radoscls (verify|run|test|asm|pack|dis|heads|sim|cluster) .*[A-Z].*|tools/try\.sh"
                       r"|tools/(test|edits|changed|library|embed|fuzz|refuse|pages|release|release_test)\b.*|cc -I lib host.*|cc host.c .*"
                       r"|radoscls verify --(all|loops)|radoscls (run|test) --loops|cd crates/radoscls && rt run .*|rt run|rt try --test|\./out/bench --dry")


def blocks(text):
    """The indented blocks of a text, as lists of lines."""
    return [[line[4:] for line in it.strip("\n").split("\n")] for it in re.findall(r"(?:^    .*\n)+", text, re.M)]


def shown(text, below, first, last):
    """The lines FIRST to LAST that a page shows below a text, and the rest of LAST's block."""
    head, _, rest = text.partition(below)
    # (a block's other commands are none of its lines)
    own = (head.rpartition("\n")[2] + below).startswith("    ")
    fenced, found, lines = False, [], rest.split("\n")

    def prose(line):
        found.extend(re.findall("`([^`]+)`", line)[: max(last - len(found), 0)])

    if not own:
        prose(lines[0].removeprefix("`"))
    for line in lines[1:]:
        if not fenced and not line.startswith("    "):
            own = False
        if line.startswith("```"):
            fenced = not fenced
        elif fenced or line.startswith("    "):
            found += [] if own else [line if fenced else line[4:]]
            continue
        else:
            prose(line)
        if not fenced and len(found) >= last:
            break
    return found[first - 1 :]


class Pages:
    """The page and folder of the commands that follow, those that are known, and a count."""

    def __init__(self, program, work):
        self.program, self.work, self.count, self.known = program, work, Counter(), set()
        self.tools, self.any_code, self.lacking = work / "kit", False, None

    def on(self, page, folder, *needs):
        """Which page's commands follow, the folder that they run in, and what they need."""
        self.page, self.folder, self.text = page, folder, (TOP / page).read_text()
        path = os.pathsep.join((str(folder), str(self.tools), os.environ["PATH"]))
        self.lacking = next((it for it in needs if not shutil.which(folder / it if "/" in it else it, path=path)), None)

    def run(self, command, given=""):
        env = {**os.environ, "PATH": f"{self.work}/bin:{self.tools}:{os.environ['PATH']}"}
        its_input = {"input": given} if given else {"stdin": subprocess.DEVNULL}
        return subprocess.run(["bash", "-c", command], cwd=self.folder, env=env, capture_output=True,
                              text=True, **its_input)

    def settle(self, what, right, wanted="", ended=None):
        self.count["ok" if right else "differ"] += 1
        print("ok" if right else "differs", what, flush=True)
        if not right:
            print(f"-- {self.page} wants:\n{wanted}", file=sys.stderr)
            if ended:
                print(f"-- printed, status {ended.returncode}:\n{ended.stdout}{ended.stderr[-2000:]}", file=sys.stderr)

    def knows(self, command):
        self.known.add((self.page, command))
        return command in self.text

    def row(self, command, how="any", first=1, last=0, below=None, instead=None, status=0):
        """Runs the page's command, or `instead`: it prints all of the lines shown, some, the end of
        what it prints is these, it prints none, or any."""
        if not self.knows(command):
            return self.settle(command, False, "a command of the page")
        if self.lacking:
            self.count["not run"] += 1
            return print(f"not run: {command}: {self.lacking} isn't here")
        wanted = shown(self.text, below or command, first, last) if last else []
        ended = self.run(instead or command)
        lines = [self.plain(it) for it in ended.stdout.rstrip("\n").split("\n")] if ended.stdout else []
        wanted, rest = [self.plain(it) for it in wanted], iter(lines)
        fits = {"any": True, "all": lines == wanted, "none": not lines, "end": lines[-len(wanted) :] == wanted,
                "some": bool(wanted) and all(it in rest for it in wanted)}[how]
        self.settle(command, fits and ended.returncode == status, "\n".join(wanted), ended)

    def plain(self, line):
        """A line without what another clang's code changes: instructions, and steps."""
        return re.sub(r"^(steps|[a-z]+ ok) \d+\b", r"\1 N", line) if self.any_code else line

    def answers(self, command, *wanted, given="", status=0):
        """Compares what a command prints, without its steps, with lines worked out by hand."""
        ended = self.run(command, given)
        lines = [it for it in ended.stdout.split("\n") if it and not it.startswith("steps ")]
        self.settle(command, lines == list(wanted) and ended.returncode == status, "\n".join(wanted), ended)

    def is_read(self, text, wanted, command):
        """Compares the line by which a command refuses a text; if none is wanted, its status."""
        ended = self.run(command, text)
        right = re.fullmatch(wanted, ended.stdout) and ended.returncode == 1 if wanted else ended.returncode == 0
        shown_text = " / ".join(text.split("\n")[:-1])
        self.settle(f"{wanted.strip() or 'accepted'}: {shown_text}", bool(right), wanted, ended)


def whole(lines, head):
    """A class's text of these lines, with a head if they lack one."""
    has_head = any(it.startswith(".method") for it in lines)
    return "\n".join(lines if has_head else [*head, *lines]) + "\n"


def code_of(lines):
    """The lines of a text without comments and blanks around them."""
    return "\n".join(it for it in (line.partition(";")[0].strip() for line in lines) if it)


def try_rules(pages):
    """docs/VERIFIER.md: each example is refused at its marked line, by its section's rule, and
    accepted with what stands after `instead`. Those before the rules are accepted by rule set 3 alone."""
    pages.on("docs/VERIFIER.md", pages.work)
    before, *sections = re.split(r"^### ", pages.text.partition("\n## Numbers")[0], flags=re.M)
    for block in (it for it in blocks(before) if it[0] == ".rules 3"):
        text = whole(block, [])
        pages.is_read(text, "", "radoscls verify -")
        pages.is_read(text.replace(".rules 3", ".rules 2"), r"refused method 0 slot \d+: 1[03] \w+\n", "radoscls verify -")
    for section in sections:
        rule = section.partition("\n")[0]
        for block in blocks(section):
            lines, mended, slot = [], [], 0
            for line in block:
                code, _, note = line.partition(";")
                if "refused" in note:
                    at = slot
                slot += 0 if code.startswith(".") else 2 if code.startswith("lddw") else 1
                lines.append(code.strip())
                mended += note.partition("instead: ")[2].split(" / ") if "instead: " in note else [code.strip()]
            refused = f"refused method 0 slot {at}: {rule}\n"
            pages.is_read(whole(lines, [".method f r 0 0"]), refused, "radoscls verify -")
            pages.is_read(whole(mended, [".method f r 0 0"]), "", "radoscls verify -")
    lacking = [it.partition("\n")[0] for it in sections if not blocks(it)]
    pages.settle("each rule has an example", len(sections) == 17 and lacking == ["16 NoMemory"])


def try_mistakes(pages):
    """docs/WRITING.md: what its table says of a text, and that what to write instead is read; its
    code stands in examples/."""
    pages.on("docs/WRITING.md", pages.work)
    asm = "radoscls asm - /dev/null"

    def text_of(code):
        return whole(code.split(" / "), [".method f r 16 16"]) + ("" if ".method" in code else "mov r0, 0\nexit\n")

    for wrote, says, instead in re.findall(r"^`([^`|]*)` \| `([^`]*)` \| (.*)$", pages.text, re.M):
        pages.is_read(text_of(wrote), rf"line \d+: {says}\n", asm)
        for code in re.findall(r"`([^`]*)`", instead):
            pages.is_read(text_of(code), "", asm)
    pages.is_read(".method f r 0 0\nmov r0, 0\nexit\r\n", "line 3: 1 Word\n", asm)
    pages.is_read(".method f r 0 0\r\nmov r0, 0\r\nexit\r\n", "line 1: 2 Operand\n", asm)
    paths = [path for kind in ("*.txt", "*.test", "loops/*.txt") for path in (TOP / "examples").glob(kind)]
    texts = [code_of(path.read_text().split("\n")) for path in paths]
    for block in blocks(pages.text):
        if not re.match(r"radoscls |refused |client |m5 |slot 0 ", block[0]):
            pages.settle(f"in examples: {block[0]}", any(code_of(block) in it for it in texts))


def try_patterns(pages):
    """The classes of examples/patterns.txt and docs/ASSEMBLY.md; answers worked out by hand."""
    pages.on("docs/ASSEMBLY.md", pages.work / "examples")
    (pages.folder / "greet.txt").write_text(re.search(r"^```\n(.*?)^```", pages.text, re.M | re.S)[1])
    verdict, *run = shown(pages.text, "`verify` prints", 1, 5)
    pages.answers("radoscls verify greet.txt", verdict)
    pages.answers("radoscls run greet.txt greet", *(it for it in run if not it.startswith("steps")))
    pages.answers("radoscls verify c/counter_o0.txt", "inc ok 64")
    pages.answers("radoscls dis - --slots", ".method f r 0 0", "lddw r0, 0x0000000000000001 ; slot 0", "exit ; slot 2",
                  given=".method f r 0 0\nlddw r0, 1\nexit\n")
    none = ("output -", "object absent")
    for words, code, *rest in (
        # no offset and length; then of an absent object
        ("copy", -22, *none), ("copy --input 00000000000000000500000000000000", -2, *none),
        ("count", 1, "output 0100000000000000", "object 0 1 0"), ("get --input 61", -2, *none),
        # a name of two bytes and a value of three; a name that is cut
        ("set --input 02616278797a", 0, "output -", "object 0 1 0"), ("set --input 036162", -22, *none),
        ("sum --input 01020304", 10, *none),
    ):
        pages.answers(f"radoscls run patterns.txt {words}", f"code {code}", *rest)


def try_tests(pages):
    """Each class that is a text in examples/, and two below it, pass their tests."""
    pages.on("examples/README.md", pages.work / "examples")
    pages.row("radoscls test queue.txt queue.test")
    for text in sorted(it.name for it in (TOP / "examples").glob("*.txt")):
        holds(pages, text, text.replace(".txt", ".test"))
    holds(pages, "c/counter_o0.txt", "c/counter.test")
    holds(pages, "embed/parts.txt", "embed/parts.test")
    pages.row("radoscls test loops/sum.txt loops/sum.test --loops")


def holds(pages, a_class, tests):
    """A class passes its tests: as many lines hold as say something, `call` and `is`."""
    lines = (pages.folder / tests).read_text().split("\n") if (pages.folder / tests).exists() else []
    count = sum(it.startswith(("call ", "is ")) for it in lines)
    ended = pages.run(f"radoscls test {a_class} {tests}")
    pages.settle(f"{tests}: {count}", count > 0 and ended.stdout == f"ok {count}\n" and ended.returncode == 0, f"ok {count}", ended)


def try_readme(pages):
    pages.on("README.md", pages.work / "examples")
    call, tried = "tools/try.sh run examples/keep.img keep --input 726f6f74", f"'{TOP}/tools/try.sh'"
    pages.row(call, "all", 1, 4, instead=f"{tried} run keep.img keep --input 726f6f74")
    # without commands, with some on standard input and in a file; and without `rt`
    (pages.work / "commands").write_text("radoscls run keep.txt keep --input 726f6f74\n")
    for way in ("< /dev/null", "<&-", "< ../commands", "../commands"):
        pages.row("tools/try.sh", "all", 1, 4, below=call, instead=f"{tried} {way}")
    (pages.work / "few").mkdir()
    (pages.work / "few" / "dirname").symlink_to(shutil.which("dirname"))
    pages.row("tools/try.sh", instead=f"""said=$(PATH=../few "$BASH" {tried} 2>&1)
        [ $? = 2 ] && [[ $said == "rt isn't on the path"* && $said != *$'\\n'* ]]""")
    pages.row("radoscls verify hello.txt", "all", 1, 1)
    pages.row("radoscls run hello.txt hello", "all", 2, 5)
    pages.row(".method hello r 0 4", "all", 1, 1, instead="radoscls verify ../refused.txt", status=1)
    pages.row("radoscls sim --trace survive.sim")


def try_examples(pages):
    """examples/README.md, docs/WRITING.md, docs/PROGRAM.md and the examples of each help."""
    pages.on("examples/README.md", pages.work / "examples")
    same = f"radoscls asm $it.txt $it.img && cmp $it.img '{TOP}/examples/'$it.img || exit"
    same = f"for it in two hello keep count; do {same}; done"
    pages.row("radoscls asm hello.txt hello.img", "none", instead=same)
    for command, how, first, last in (
        ("radoscls run two.txt f", "all", 1, 4), ("radoscls run hello.txt hello", "all", 1, 4),
        ("radoscls run keep.txt keep --input 726f6f74", "all", 1, 4), ("radoscls run count.txt count", "all", 1, 4),
        ("radoscls verify patterns.txt", "all", 1, 5), ("radoscls run patterns.txt sum --input 01020304", "all", 6, 9),
        ("radoscls verify keep.txt", "all", 1, 1), ("radoscls dis hello.img", "all", 1, 6),
        ("cat survive.sim", "any", 1, 0),
        ("radoscls sim survive.sim", "end", 1, 7), ("radoscls sim --trace survive.sim", "any", 1, 0),
        ("radoscls cluster lost_primary.cluster", "all", 1, 2), ("radoscls sim --trace lost_ack.sim", "all", 1, 20),
        ("radoscls cluster queue.cluster --class queue=queue.txt", "all", 1, 5),
        ("radoscls run swap.txt swap --object 0500 --input 05000000000000000700000000000000", "all", 1, 4),
        ("radoscls sim one_node.sim --class queue=queue.txt", "end", 1, 6),
    ):
        pages.row(command, how, first, last)
    pages.on("docs/WRITING.md", pages.work / "examples")
    pages.row("radoscls verify hello.txt", "all", 1, 1)
    pages.row("radoscls run hello.txt hello", "all", 2, 5)
    pages.row("radoscls test hello.txt hello.test", "all", 1, 1)
    pages.row("radoscls verify loops/sum.txt --loops", "all", 1, 1)
    pages.row("radoscls run loops/sum.txt sum --loops --input 0102ff", "all", 2, 5)
    # without its two lines of loops, as in one's own text
    bare = (pages.folder / "loops/sum.txt").read_text()
    (pages.folder / "mine.txt").write_text(re.sub(r"(?m)^\.(budget|head).*\n", "", bare))
    pages.row("radoscls heads mine.txt mine.img", "none")
    pages.row("radoscls dis mine.img")
    pages.row("radoscls verify --explain", "all", 1, 9, instead="radoscls verify --explain ../refused.txt", status=1)
    pages.row("radoscls run count.txt count --key n=050000000000000000 --show", "all", 1, 6)
    pages.row("radoscls run lock.txt lock --trace --caller 2 --xattr lock=0100000000000000", "all", 1, 20)
    pages.row("radoscls run swap.txt swap --object 0500 --input 05000000000000000700000000000000 --show", "all", 1, 5)
    pages.row("radoscls cluster queue.cluster --class queue=queue.txt", "some", 2, 2)
    pages.on("docs/LOOPS.md", pages.work / "examples")
    pages.row("radoscls run loops/sum.txt sum --loops --input 0102ff", "all", 1, 4)
    pages.on("docs/PROGRAM.md", pages.work / "examples")
    pages.row("radoscls test count.txt count.test")
    pages.row("radoscls test loops/sum.txt loops/sum.test --loops", "all", 1, 1)
    count = "radoscls sim --class count=count.txt FILE"
    pages.row(count, instead=f"{count} | grep 'Reply 1 0 1 0100000000000000'")
    pages.row("radoscls sim --objects survive.sim", "end", 1, 4)
    pages.on("docs/LOOPS.md", pages.work / "examples")
    pages.row("radoscls asm loops/sum.txt loop.img --heads --budget 4096", "none")
    pages.row("radoscls verify loop.img --loops", "all", 1, 1)
    pages.on("docs/PROGRAM.md", pages.work / "examples")
    # two instructions, `mov r0, 0` and `exit`
    (pages.folder / "sum.bin").write_bytes(bytes.fromhex("b700000000000000" "9500000000000000"))
    for command in ("verify", "run", "test", "asm", "pack", "dis", "heads", "sim", "cluster"):
        for example in re.findall(r"^  (radoscls .*)$", pages.run(f"radoscls {command} --help").stderr, re.M):
            ended = pages.run(example)
            pages.settle(example, ended.returncode == 0, "status 0", ended)


def try_c(pages):
    """The commands of docs/FROM_C.md. The numbers of instructions are those of clang 14."""
    pages.on("docs/FROM_C.md", pages.work, "clang")
    pages.any_code = "clang version 14." not in pages.run("clang --version").stdout
    tool = f"'{TOP}/tools/radoscls-cc' --radoscls '{pages.program}'"
    build = "tools/radoscls-cc examples/c/account.c -o account.img"
    pages.row(build, "all", 2, 4, instead=build.replace("tools/radoscls-cc", tool))
    pages.row("radoscls run account.img deposit --input 6400000000000000", "all", 1, 4)
    looped = "tools/radoscls-cc examples/loops/adler.c -o adler.img --loops"
    pages.row(looped, "all", 1, 1, instead=looped.replace("tools/radoscls-cc", tool))
    pages.row("radoscls run adler.img adler --loops --input-text hello", "some", 1, 1)
    pages.row("radoscls test adler.img examples/loops/adler.test --loops")
    pages.any_code = False
    if not pages.lacking:
        pages.row(build, "any", instead=f"for it in counter swap sum queue; do {tool} examples/c/$it.c -o c/$it.img || exit; done")
        pages.folder = pages.work / "c"
        try_answers(pages)
        for tests in ("queue", "swap", "c/counter", "c/sum"):
            shutil.copy(pages.work / f"examples/{tests}.test", pages.folder)
            name = Path(tests).name
            holds(pages, f"{name}.img", f"{name}.test")
        pages.folder = pages.work
        holds(pages, "account.img", "examples/c/account.test")
        touched = "radoscls run touch.img touch --object - --xattr 0x0074696d65=15cd5b0700000000"
        method = shown(pages.text, "so a method asks for an object:", 1, 9)
        (pages.work / "touch.c").write_text("\n".join(["#include <sillarnica/class.h>", *method]) + "\n")
        pages.row(touched, instead=f"{tool} touch.c -o touch.img")
        pages.answers("radoscls run touch.img touch", "code -55", "output -", "object absent")
        pages.answers(touched, "code 0", "output -", "object 0 2 0")
    pages.on("docs/FROM_C.md", pages.work, "cc")
    pages.row("cc -g -fsanitize=address,undefined -I examples/c/include examples/c/account.c examples/c/class_native.c -o account", "none")
    pages.row("./account deposit 6400000000000000 withdraw 6500000000000000", "all", 1, 4)


def try_answers(pages):
    """The answers of the classes in C, worked out by hand: a first count; a swap that is made, one of
    another number, one of a short input; a queue as its text has it; numbers and a key of another
    length than 8, which stay."""
    one, none, seven = "0100000000000000", "0000000000000000", "0700000000000000"
    pages.answers("radoscls run counter.img inc", "code 0", f"output {one}", "object 0 1 0")
    pages.answers(f"radoscls run swap.img swap --input {none}{seven}", "code 0", "output -", "object 8 0 0")
    pages.answers(f"radoscls run swap.img swap --input {one}{seven}", "code -16", "output -", "object absent")
    pages.answers("radoscls run swap.img swap --input 00", "code -22", "output -", "object absent")
    pages.answers("radoscls run sum.img sum --input 010203", "code 0", "output 0600000000000000", "object absent")
    called = ("0 output -", "0 output -", "0 output 6162", "0 output 6364", "-61 output -")
    pages.answers("radoscls cluster ../examples/queue.cluster --class queue=queue.img",
                  *(f"client 1 call {at} place {at} code {it}" for at, it in enumerate(called)))
    for code, number in (-34, "050000000000000000"), (-5, "05000000000000"):
        kept = (f"code {code}", "output -")
        pages.answers(f"radoscls run counter.img inc --xattr count={number} --show",
                      *kept, "object 0 1 0", "data -", f"xattr count {number}")
        pages.answers(f"radoscls run queue.img push --input 6e6577 --xattr n={number} --key a=6f6c64 --show",
                      *kept, "object 0 1 1", "data -", f"xattr n {number}", "key a 6f6c64")
        pages.answers(f"radoscls run queue.img pop --key 0x{number}=6f6c64", *kept, "object 0 0 1")


def try_tools(pages):
    """Commands of maintainers, on one crate, on one row, once."""
    one = pages.work / "one" / "crates" / "placement"
    pages.on("docs/CONTRIBUTING.md", one)
    pages.row("rm -rf out; bash -c 'time rt check --jobs 1'      # a crate's proof; --test for a crate of tests")
    pages.row(next(iter(re.findall("find out/incremental .*", pages.text)), "find out/incremental"))
    pages.row("rt check --only PATH", instead="rt check --only score")
    rows = TOP / "crates/tests_memory_rows/out/tests_memory_rows"
    pages.on("docs/CONTRIBUTING.md", TOP, str(rows), "cc")
    pages.row("tools/refuse.sh ROWS - ROW", instead=f"tools/refuse.sh '{rows}' - decode")
    pages.row("tools/refuse.sh ROWS - ROW", instead=f"tools/refuse.sh '{rows}' '{pages.program}'")
    pages.on("docs/CHANGING.md", pages.work / "one")
    pages.row("rt new crates/NAME start_lib", instead="rt new crates/fresh start_lib")
    bench = pages.work / "crates" / "bench"
    pages.on("docs/PERFORMANCE.md", bench, "out/bench")
    pages.row("for i in 1 2 3 4 5 6 7 8; do ./out/bench; done", instead="./out/bench")
    pages.row("./out/bench memory")
    pages.on("docs/PERFORMANCE.md", bench, str(TOP / "crates/radoscls/out/radoscls"))
    pages.row("tools/worst_case.py", instead=f"'{TOP}/tools/worst_case.py'")
    pages.on("docs/PERFORMANCE.md", bench, "cc")
    pages.row("cc -O2 baseline.c -o baseline && ./baseline")
    pages.on("docs/TRUST.md", TOP)
    pages.row(re.search("python3 tools/trust.py .*", pages.text)[0], instead="python3 tools/trust.py --check")
    ended = pages.run("python3 tools/picture.py --check")
    pages.settle("tools/picture.py --check", ended.returncode == 0, "the table's picture", ended)


def slugs(text):
    """The anchors of a page's headings."""
    heads = re.findall(r"^#+ (.*)$", re.sub(r"^```.*?^```", "", text, flags=re.M | re.S), re.M)
    return {re.sub(r"[^\w -]", "", it.lower()).replace(" ", "-") for it in heads}


def try_links(pages):
    """Links and paths that pages name are there."""
    bare = {it.name for it in TOP.rglob("*") if it.is_file() and "out" not in it.parts}
    crates = {it.name for it in (TOP / "crates").iterdir()}
    for page in PAGES:
        pages.on(page, TOP)
        for file, anchor in re.findall(r"\]\((?!http)([^)#\s]*)#?([^)\s]*)\)", pages.text):
            to = (TOP / page).parent / file if file else TOP / page
            if not to.exists() or anchor and anchor not in slugs(to.read_text()):
                pages.settle(f"the link {file}#{anchor}", False)
        for path in re.findall(r"`([\w.*/-]+)`", pages.text):
            first, slash, _ = path.partition("/")
            found = first != ".." or ((TOP / page).parent / path).exists()
            if first in ("", ".", ".."):
                pass
            elif slash and "/out" not in path and (first in crates or (TOP / first).is_dir()):
                at = ("crates/" if first in crates else "") + re.sub(r"NAME|\*", "*", path)
                found = any(TOP.glob(at))
            elif not slash and re.search(r"\.(rt|antt|py|sh|md|sim|cluster|edit)$", path):
                found = bool(fnmatch.filter(bare, path))
            if not found:
                pages.settle(f"the path {path}", False)


def try_claims(pages):
    """docs/PROVED.md names edits that there are, and all of them."""
    pages.on("docs/PROVED.md", TOP)
    words = {"both": 2}
    words.update(zip("two three four five six seven eight nine ten eleven twelve thirteen fourteen fifteen sixteen "
                     "seventeen eighteen nineteen twenty".split(), range(2, 21)))

    def there(crates, name):
        return [it for crate in crates for folder in ("wrong", "must-fail")
                for it in (TOP / "crates" / crate).glob(f"{folder}/{name}.edit")]

    had, crates = Counter(), ()
    for line in pages.text.partition("\n## What contracts")[0].split("\n"):
        if not line.startswith(("`", "| | ")):
            continue
        crates = tuple(re.findall("`([^`]*)`", line.split(" | ")[0])) or crates
        edits = "" if line.endswith("|") else line.split(" | ")[-1]
        for name in re.findall("`([^`]*)`", re.sub("in `[^`]*`", "", edits)):
            if not there(crates, name):
                pages.settle(f"the edit {name} of {', '.join(crates)}", False)
            had[crates] += 1
        had[crates] += sum(words.get(it, 0) for it in re.findall(r"\w+", re.sub("`[^`]*`", "", edits)))
    for crates, number in had.items():
        if (TOP / "crates" / crates[0]).is_dir() and number != len(there(crates, "*")):
            pages.settle(f"{number} edits of {', '.join(crates)}, of {len(there(crates, '*'))}", False)


def find_others(pages):
    """Tells of commands that no row names: lines of blocks, and words in backticks."""
    for page in PAGES:
        pages.on(page, TOP)
        fenced = False
        for line in pages.text.split("\n"):
            fenced ^= line.startswith("```")
            block = [line.removeprefix("    ")] if fenced or line.startswith("    ") else None
            for command in block or [it for it in line.split("`")[1::2] if re.search(r" .* |^tools.*sh$", it)]:
                if re.match(NAMES, command) and (page, command) not in pages.known and not ELSEWHERE.fullmatch(command):
                    pages.settle(command, False, "a row of tools/pages.py that runs it")


def make_copies(work, program):
    """The copies that the commands run in, and the tools by their names."""
    for folder in ("bin", "kit", "c", "one/crates", "crates/radoscls/out", "crates/bench/out"):
        (work / folder).mkdir(parents=True)
    shutil.copytree(TOP / "examples", work / "examples")
    shutil.copy(TOP / "crates/bench/baseline.c", work / "crates/bench")
    (work / "crates/bench/out/bench").symlink_to(TOP / "crates/bench/out/bench")
    (work / "crates/radoscls/out/radoscls").symlink_to(program)
    (work / "bin/radoscls").symlink_to(program)
    shutil.copy(TOP / "HANDLES", work / "one")
    shutil.copytree(TOP / "crates/placement", work / "one/crates/placement", ignore=shutil.ignore_patterns("out"))
    (work / "one/crates.txt").write_text("placement: thiserror\n")
    kit = Path(subprocess.run(["rt", "doc"], capture_output=True, text=True).stdout.strip()).parent
    for tool in C_TOOLS:
        (work / "kit" / tool).symlink_to(kit / "toolchain/bin/clang")
        if subprocess.run([work / "kit" / tool, "--version"], capture_output=True).returncode:
            (work / "kit" / tool).unlink()
    # The pages' FILE, and the class that they show refused.
    (work / "examples/FILE").write_text("map 1\nsee 1 1\ndeliver 1\ndeliver 2\nreq 1 1 1 a count count -\n")
    (work / "refused.txt").write_text((TOP / "examples/hello.txt").read_text().replace("hello r 0 5", "hello r 0 4"))


PAGES = ["README.md", *sorted(f"docs/{it.name}" for it in (TOP / "docs").glob("*.md")), "examples/README.md"]


def main():
    program, is_given = Path(sys.argv[1]), sys.argv[2] != "0"
    with tempfile.TemporaryDirectory() as work:
        work = Path(work)
        make_copies(work, program)
        pages = Pages(program, work)
        for part in (try_readme, try_examples, try_tests, try_rules, try_mistakes, try_patterns, try_c):
            part(pages)
        # (the system's clang, if it is there, makes classes that answer alike)
        pages.tools = work / "bin"
        if shutil.which("llvm-objcopy") and "bpf" in pages.run("clang -print-targets").stdout:
            try_c(pages)
        for part in (try_tools, try_links, try_claims, find_others):
            part(pages)
    print(", ".join(f"{pages.count[it]} {it}" for it in ("ok", "differ", "not run")))
    return pages.count["differ"] > 0 or pages.count["not run"] > 0 and not is_given


sys.exit(main())
