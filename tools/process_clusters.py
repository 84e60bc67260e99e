"""Rows of tools/process.py on files of calls, and on tenants' classes in these and in files of events."""
import re

from process_classes import HELLO
from process_rows import FILES, NUMBERS, OPENED, OPENING, TERMINAL, Row, bytes_of, figures, lines_of, rows_of

# Tenants' classes: one that writes five bytes, one of rule set 2 that stores a pointer, and the same
# in set 1.
SPILLS = bytes_of("""52434c32 0100 0000 01 66 01 0000 0100 0500
    7b3af8ff00000000 b700000000000000 79a4f8ff00000000 7204000001000000 9500000000000000""")
FILES.update({"hello.img": HELLO, "its=hello.img": HELLO, "spills.img": SPILLS,
              "spills1.img": b"RCL1" + SPILLS[4:], "map.sim": "map 1\n",
              "hi.sim": OPENING + "req 1 1 1 a hi hello -\n"})
# The classes are read in their order, and before the file: no file, no image, an unsafe class.
TENANTS = r"""
sim --class hi=missing map.sim
=> 1 cannot read
sim --class hi= map.sim
=> 1 cannot read
sim --class hi=empty map.sim
=> 1 image refused after 0 methods: 1 Truncated
sim --class hi=unset.img map.sim
=> 1 refused method 0 slot 0: 5 UnsetRead
sim --class a=hello.img --class b=cut --class c=missing map.sim
=> 1 line 1: 1 Word
sim --class b=cut missing
=> 1 line 1: 1 Word
sim --trace missing
=> 1 cannot read
sim --class hi=spills1.img map.sim
=> 1 refused method 0 slot 0: 9 PointerStored
cluster --class hi=cut missing
=> 1 line 1: 1 Word
cluster --class hi=hello.img missing
=> 1 cannot read
cluster missing
=> 1 cannot read
cluster - --class hi=spills.img / cluster nodes 1 replicas 1 groups 1 shards 1 workers 1 tries 100000000 /
    client 1 a hi f -
=> 0 client 1 call 0 place 0 code 0 output -
cluster --class hi=hello.img - --class=obj2=its=hello.img / cluster nodes 2 replicas 2 groups 4 shards 2 workers 2
    tries 100000000 / client 1 a hi hello - / client 1 a obj2 hello - / client 1 a lo hello - / client 1 a lock lock -
=> 0 client 1 call 0 place 0 code 0 output 68656c6c6f / client 1 call 1 place 1 code 0 output 68656c6c6f /
    client 1 call 2 refused 5 NoClass / client 1 call 3 place 2 code 0 output -
"""
ASKED = lines_of("m3 1->c1 Reply 1 0 0 68656c6c6f / m4 1->c1 Reply 2 1 0 68656c6c6f / m5 1->c1 Reply 3 2 0 - / "
                 "m6 1->c1 Reply 4 3 0 - / refused 5 NoClass / refused 6 NoMethod")
TENANT_DRAWN = """\
c1          1           event
|--req----->|           req 1 1 1 a hi hello -: refused 1 NotPrimary
"""

# Files of calls below the first line, what they print, and the status: calls that are refused leave
# the status; lines by client; offsets and lengths of 2^32 and more; maps that are refused, alone; the
# log of the only node that was up.
CALLS = r"""
map 2 / map 1 / map 0 2
=> 0
client 1 a lock lock 00 / client 1 a lock keep - / client 1 a other lock -
=> 0 client 1 call 0 refused 7 InputTooLong / client 1 call 1 refused 6 NoMethod / client 1 call 2 refused 5 NoClass
client 1 a lock lock - / map 0 1 2 / client 2 a lock lock - / map 0 1 2 / client 1 a lock unlock -
=> 0 client 1 call 0 place 0 code 0 output - / client 1 call 1 place 2 code 0 output - /
    client 2 call 0 place 1 code -16 output -
client 1 a obj write 000000000100000061 / client 1 a obj write 000000000000000061 /
    client 1 a obj read 00000000010000000500000000000000 / client 1 a obj read 00000000000000000500000001000000
=> 0 client 1 call 0 place 0 code -27 output - / client 1 call 1 place 1 code 1 output - /
    client 1 call 2 place 2 code 0 output - / client 1 call 3 place 3 code -22 output -
map
=> 1 line 2: refused 1 NoneUp
map 3
=> 1 line 2: refused 2 Limit
map 1 1
=> 1 line 2: refused 2 Limit
client 1 a lock lock - / map 99999999999999999999 / client 1 a lock lock -
=> 1 line 3: refused 2 Limit
map 0 1 / map 1 1 / client 1 a lock lock - / map
=> 1 line 3: refused 2 Limit
client 1 a lock lock - / map / map 3
=> 1 line 3: refused 1 NoneUp
map 1 / client 1 a lock lock - / map 0 1 2 / client 1 a lock lock - / client 1 a lock unlock -
=> 0 client 1 call 0 place 0 code 0 output - / client 1 call 1 place 1 code 0 output - /
    client 1 call 2 place 2 code 0 output -
"""
# Lines that are malformed as the second one, and first lines that are malformed.
BAD_CALLS = (
    "", " ", "\t", " \t", "# a comment", "client", "clients 1 a lock lock -", "Client 1 a lock lock -",
    "client 2 a lock lock -", "client 0 a lock lock -", "client 01 a lock lock -", "client +1 a lock lock -",
    "client 65 a lock lock -", "client one a lock lock -", "client 4294967297 a lock lock -",
    "client 1 a lock lock", "client 1 a lock lock 0", "client 1 a lock lock 0x00", "client 1 a lock lock xy",
    "client 1 a lock lock --", "client 1 a lock lock - -", "client 1 a lock lock -\r", "map one", "map -1",
    "map 0 -1", "map 01", "maps 1", "see 1 1", f"client 1 {'a' * 256} lock lock -")
BAD_FIRST = (
    "", "\n", "map 0", "cluster", "clusters nodes 3 replicas 3 groups 64 shards 4 workers 4 tries 1",
    "cluster nodes 3 replicas 3 groups 64 shards 4 workers 4 tries",
    "cluster nodes 3 replicas 3 groups 64 shards 4 workers 4 tries 1 1",
    "cluster replicas 3 nodes 3 groups 64 shards 4 workers 4 tries 1",
    "cluster nodes 03 replicas 3 groups 64 shards 4 workers 4 tries 1",
    "cluster nodes three replicas 3 groups 64 shards 4 workers 4 tries 1",
    "cluster nodes 3 replicas 3 groups 64 shards 4 workers 05 tries 1",
    "cluster nodes 3 replicas 3 groups 64 shards 4 workers 4 tries -1",
    "cluster nodes 3 replicas three groups 64 shards 4 workers 4 tries 1",
    "cluster nodes 3 replicas 3 groups 64 shards 4 workers 4\n tries 1")
# Numbers that no cluster may have, in the place of those of this one.
LEAST = {"nodes": 3, "replicas": 3, "groups": 64, "shards": 4, "workers": 4, "tries": 1}
REFUSED_NUMBERS = (("nodes", 0), ("nodes", 17), ("replicas", 0), ("replicas", 4), ("groups", 3), ("groups", 0),
                   ("groups", 128), ("shards", 0), ("shards", 65), ("workers", 0), ("workers", 17), ("tries", 0),
                   ("tries", 4294967296))


def cluster(**numbers):
    """The first line of a file with these numbers."""
    return "cluster " + " ".join(f"{name} {number}" for name, number in (LEAST | numbers).items()) + "\n"


def calls(lines, printed="", status=0, first=NUMBERS, words="cluster -", err=""):
    """The row of a file of calls."""
    return Row(words, printed, err, status, stdin=(first + lines).encode())


def called(table):
    """The rows of a table of the lines below the first one."""
    lines = table.strip("\n").replace("\n    ", " ").split("\n")
    for asked, answer in zip(lines[::2], lines[1::2], strict=True):
        yield from rows_of(f"cluster - / {NUMBERS.strip()} / {asked}\n{answer}")


def told(count):
    """Whether a text is how far a run of that many calls was, each time over the last, which stays; a
    run of less than a second tells nothing."""
    return lambda text: re.fullmatch(f"((\ranswered [0-9]+ of {count})+\ranswered {count} of {count}\r\n)?", text)


def measured(count, holds):
    """Whether a text is what --stats writes of that many calls, numbers that fit one another too: no
    call is longer than all of them, or than the run, half of the calls take no longer than 99 of 100,
    and a session nudges before each repeat."""
    is_written = figures(count)

    def is_measured(text):
        if not is_written(text):
            return False
        it = {name: int(number) for name, number in re.findall(r"(?m)^(\D+|99 %\D+) (\d+)$", text)}
        worst, mean = it["worst microseconds"], it["mean microseconds"]
        fit = mean <= worst < (mean + 1) * max(count, 1) and it["calls a second"] * worst <= count * 1_000_000
        shares = it["median microseconds"] <= it["99 % microseconds"] <= worst
        return fit and shares and it["repeats"] <= it["nudges"] and holds(it)

    return is_measured


# By FNV-1a of 64 bits, `a` hashes to 0xaf63dc4c8601ec8c, `b` to 0xaf63df4c8601f1a5 and `c` to
# 0xaf63de4c8601eff2: of 64 groups they are in 12, 37 and 50, of two in 0, 1 and 0. Places are of a
# group. A letter of UTF-8 is shown byte by byte.
SHOWN = (
    (64, "map 0 1", ""),
    (64, "client 1 a lock lock - / client 1 b lock lock - / client 1 c lock lock - / client 1 a lock unlock -",
     "client 1 call 0 group 12 request a lock lock - place 0 code 0 output - / "
     "client 1 call 1 group 37 request b lock lock - place 0 code 0 output - / "
     "client 1 call 2 group 50 request c lock lock - place 0 code 0 output - / "
     "client 1 call 3 group 12 request a lock unlock - place 1 code 0 output -"),
    (2, "client 1 c obj write 000000000000000068656C6c6f / map 0 1 / client 2 a lock lock - / map 0 / "
     "client 1 b obj read 00000000000000000500000000000000",
     "client 1 call 0 group 0 request c obj write 000000000000000068656c6c6f place 0 code 5 output - / "
     "client 1 call 1 group 1 request b obj read 00000000000000000500000000000000 place 0 code -2 output - / "
     "client 2 call 0 group 0 request a lock lock - place 1 code 0 output -"),
    (1, "client 1 a lock lock 00 / client 1 \u00e9 other lock -",
     "client 1 call 0 group 0 request a lock lock 00 refused 7 InputTooLong / "
     r"client 1 call 1 group 0 request \xc3\xa9 other lock - refused 5 NoClass"),
    (64, "client 1 b \x1b[2J\\ \x01\u00e9\x1f~\x7f\u20ac -",
     r"client 1 call 0 group 37 request b \x1b[2J\ \x01\xc3\xa9\x1f~\x7f\xe2\x82\xac - refused 5 NoClass"))
REFUSED = lines_of("client 1 call 0 refused 7 InputTooLong / client 1 call 1 refused 5 NoClass / "
                   "client 1 call 2 refused 6 NoMethod")
LOCK, PLACE = "client 1 a lock lock -\n", "client 1 call {0} place {0} code 0 output -\n"
LINES = "client 1 a lock lock -\nclient 1 a lock unlock -\nclient 2 b lock lock -\nmap 0 1 2\nclient 2 c lock lock -\n"

CLUSTER_ROWS = [
    # tenants' classes, by their words, and the built-in ones
    *rows_of(TENANTS),
    Row("sim --class hi=hello.img --class=obj2=its=hello.img -", OPENED + ASKED,
        stdin=(OPENING + "req 1 1 1 a hi hello -\nreq 1 1 2 a obj2 hello -\nreq 1 1 3 a lock lock -\n"
               "req 1 1 4 a obj stat -\nreq 1 1 5 a lo hello -\nreq 1 1 5 a hi f -\n").encode()),
    Row(["sim", "-", "--class", "#\u00e4-=hello.img"], OPENED + "m3 1->c1 Reply 1 0 0 68656c6c6f\n",
        stdin=(OPENING + "req 1 1 1 a #\u00e4- hello -\n").encode()),
    Row("sim hi.sim", OPENED + "refused 5 NoClass\n"),
    Row("sim --class hi=spills.img -", OPENED + "m3 1->c1 Reply 1 0 0 -\n",
        stdin=(OPENING + "req 1 1 1 a hi f -\n").encode()),
    Row("sim --trace --class hi=hello.img -", TENANT_DRAWN, stdin=b"req 1 1 1 a hi hello -\n"),
    # files of calls
    *called(CALLS), calls(""),
    calls("client 1 a obj write 000000000000000068656C6c6f\nclient 1 a obj read 00000000000000000500000000000000",
          "client 1 call 0 place 0 code 5 output -\nclient 1 call 1 place 1 code 5 output 68656c6c6f\n"),
    calls("\t client  1\ta lock lock - \nmap 2 0", PLACE.format(0)),
    calls(f"client 1 {'a' * 255} lock lock -\n", PLACE.format(0)),
    *(calls(line + "\nmap\nclient\n", "line 2: bad\n", 1) for line in BAD_CALLS),
    *(calls("", "line 1: bad\n", 1, first=line) for line in BAD_FIRST),
    calls("map\nmap 1\n#\nsee\n", "line 4: bad\n", 1),
    # 64 clients, and a 65th
    calls("".join(f"client {n} a lock none -\n" for n in range(1, 65)),
          "".join(f"client {n} call 0 refused 6 NoMethod\n" for n in range(1, 65))),
    calls("".join(f"client {n} a lock none -\n" for n in range(1, 66)), "line 66: bad\n", 1),
    # a malformed line comes before a refused cluster
    *(calls(lines, printed, 1, first=cluster(**{name: number})) for name, number in REFUSED_NUMBERS
      for lines, printed in ((LOCK + "map\n", "line 1: refused 1 Limit\n"),
                             ("client 1 a lock lock\n", "line 2: bad\n"))),
    # one try; the least cluster, and a large one
    calls(LOCK, "client 1 call 0 refused 9 Unanswered\n",
          first=cluster(nodes=1, replicas=1, groups=1, shards=1, workers=1)),
    calls("client 1 a lock lock -\nclient 1 b lock lock -\n", PLACE.format(0) + PLACE.format(1),
          first=cluster(nodes=1, replicas=1, groups=1, shards=1, workers=1, tries=4294967295)),
    calls(LOCK + "map 15\nclient 1 a lock unlock -\n", PLACE.format(0) + PLACE.format(1),
          first=cluster(nodes=16, replicas=2, groups=2, shards=64, workers=16, tries=100000000)),
    # --show; a line that says why stands alone, as without it
    *(calls(lines_of(asked), lines_of(printed), first=cluster(groups=groups, tries=100000000),
            words="cluster --show -") for groups, asked, printed in SHOWN),
    calls("map\n", "line 2: refused 1 NoneUp\n", 1, words="cluster --show -"),
    # --stats: a lock goes to two other nodes, both answer, and so does the primary: five messages
    calls(LINES, PLACE.format(0) + PLACE.format(1) + "client 2 call 0 place 0 code 0 output -\n"
          "client 2 call 1 place 0 code 0 output -\n", words="cluster --stats -",
          err=measured(4, lambda it: it["messages"] >= 20 and it["worst microseconds"] > 0
                       and it["map to last answer microseconds"] > 0)),
    # a node that is alone sends replies, one for each request at most; one try is no repeat
    calls("client 1 a lock lock -\nclient 1 a lock unlock -\n", PLACE.format(0) + PLACE.format(1),
          first=cluster(nodes=1, replicas=1, groups=1, shards=1, workers=1, tries=4294967295),
          words="cluster --stats -",
          err=measured(2, lambda it: 2 <= it["messages"] <= it["repeats"] + 2
                       and it["map to last answer microseconds"] == 0)),
    calls(LOCK, "client 1 call 0 refused 9 Unanswered\n", words="cluster --stats -",
          first=cluster(nodes=1, replicas=1, groups=1, shards=1, workers=1),
          err=measured(1, lambda it: it["repeats"] == it["nudges"] == 0)),
    # if nothing is called, all are 0; what 64 groups send for their first map, five each, isn't counted. A nudge,
    # after a thousand looks in vain, sends more
    calls("map 0 1\n", words="cluster --stats -", err=measured(0, lambda it: not any(it.values()))),
    calls(LOCK, PLACE.format(0), words="cluster --stats -",
          err=measured(1, lambda it: it["messages"] == 5 or it["nudges"] > 0)),
    # maps are made, and each after the calls above it: to a map of two of three nodes belong three
    # questions, an answer, an install and its answer, to one of all again two, one, two and two; a lock
    # in a group of two nodes is three messages; 40 of three nodes are 200, though the last map has one
    calls(LOCK + f"map 0 1\n{LOCK}map 0 1 2\n{LOCK}" * 10, "".join(map(PLACE.format, range(21))),
          first=cluster(groups=1, shards=1, workers=1, tries=100000000), words="cluster --stats -",
          err=measured(21, lambda it: it["messages"] >= 5 + 10 * (6 + 3 + 7 + 5))),
    calls(LOCK * 40 + "map 0\n", "".join(map(PLACE.format, range(40))), words="cluster --stats -",
          first=cluster(groups=1, shards=1, workers=1, tries=100000000),
          err=measured(40, lambda it: it["messages"] >= 200)),
    # --follow: the same lines as they come, in the file's order; also of calls above a refused map
    calls("client 1 a lock lock -\nclient 2 b lock lock -\nclient 1 a lock unlock -\n",
          PLACE.format(0) + PLACE.format(1) + "client 2 call 0 place 0 code 0 output -\n", words="cluster - --follow",
          err=PLACE.format(0) + "client 2 call 0 place 0 code 0 output -\n" + PLACE.format(1)),
    *(calls(lines_of(asked), lines_of(printed), first=cluster(groups=groups, tries=100000000),
            words="cluster --show --follow -", err=lines_of(printed)) for groups, asked, printed in SHOWN[1:2]),
    calls(LOCK * 200, "".join(map(PLACE.format, range(200))), words="cluster --follow -",
          err="".join(map(PLACE.format, range(200)))),
    Row("cluster map.calls --follow", "line 3: refused 1 NoneUp\n", PLACE.format(0), 1),
    Row("cluster refused --strict --follow", REFUSED, REFUSED, 1),
    Row("cluster calls --follow --stats", PLACE.format(0) + PLACE.format(1),
        lambda text: text.startswith(PLACE.format(0)) and figures(2)(text[len(PLACE.format(0) + PLACE.format(1)):])),
    Row("cluster calls --follow", PLACE.format(0) + PLACE.format(1),
        (PLACE.format(0) + PLACE.format(1)).replace("\n", "\r\n"), err_to=TERMINAL),
    # on a terminal, without --stats, how far it is, in one line
    Row("cluster calls", PLACE.format(0) + PLACE.format(1), "", err_to=TERMINAL),
    Row("cluster map.calls", "line 3: refused 1 NoneUp\n", "", 1, err_to=TERMINAL),
    Row("cluster calls --stats", PLACE.format(0) + PLACE.format(1),
        lambda text: figures(2)(text.replace("\r", "")), err_to=TERMINAL),
    Row("cluster -", "".join(map(PLACE.format, range(40_000))), told(40_000), err_to=TERMINAL, slow=True,
        stdin=(NUMBERS + LOCK * 40_000).encode()),
]
