"""Rows of tools/process.py on files of events.

Of a script each line is an event and, after `=>`, what it prints; ` / ` stands for a line feed."""
import os

from process_rows import EXAMPLES, FILES, Row, lines_of


def script(*texts, status=0, words="sim -"):
    """The row of a script."""
    lines = [line.partition(" => ") for text in texts for line in text.strip("\n").split("\n")]
    events = "".join(event + "\n" for event, _, _ in lines)
    return Row(words, "".join(lines_of(printed) for _, _, printed in lines), "", status, stdin=events.encode())


ALONE = """
map 1 => map 1 prev 0
see 1 1 => m1 1->mon AskActivate 1
deliver 1 => m2 mon->1 Activated 1
deliver 2 => nothing
"""
THREE = """
map 1 2 3 => map 1 prev 0
see 1 1 => m1 1->2 Install 1 0 / m2 1->3 Install 1 0
deliver 1 => m3 2->1 Installed 1
deliver 2 => m4 3->1 Installed 1
deliver 3 => nothing
deliver 4 => m5 1->mon AskActivate 1
deliver 5 => m6 mon->1 Activated 1
deliver 6 => nothing
"""
# A request that a node can't serve yet: it waits, it has installed, it leads and installs, and all
# have installed.
EARLY = """
map 1 2 3 => map 1 prev 0
see 2 1 => nothing
show 2 => node 2 epoch 1 waiting length 0 committed 0
req 2 1 1 a lock lock - => refused 1 NotPrimary
see 1 1 => m1 1->2 Install 1 0 / m2 1->3 Install 1 0
show 1 => node 1 epoch 1 installing length 0 committed 0
req 1 1 1 a lock lock - => refused 2 Peering
deliver 1 => m3 2->1 Installed 1
show 2 => node 2 epoch 1 installed length 0 committed 0
req 2 1 1 a lock lock - => refused 1 NotPrimary
deliver 2 => m4 3->1 Installed 1
deliver 3 => nothing
deliver 4 => m5 1->mon AskActivate 1
req 1 1 1 a lock lock - => refused 2 Peering
deliver 5 => m6 mon->1 Activated 1
req 1 1 1 a lock lock - => refused 2 Peering
deliver 6 => nothing
"""
# After that: a request that is logged and isn't committed yet is met by silence, and one that is by
# its reply. Each comes once more after each acknowledgement. So does a Rep.
LOGGED = """
req 1 1 7 a lock lock - => m7 1->2 Rep 1 0 / m8 1->3 Rep 1 0
req 1 1 7 a lock lock - => nothing
show 1 => node 1 epoch 1 active length 1 committed 0
deliver 7 => m9 2->1 Ack 1 1
deliver 7 => m10 2->1 Ack 1 1
deliver 9 => nothing
deliver 10 => nothing
req 1 1 7 a lock lock - => nothing
deliver 8 => m11 3->1 Ack 1 1
deliver 11 => m12 1->c1 Reply 7 0 0 -
deliver 11 => nothing
req 1 1 7 a lock lock - => m13 1->c1 Reply 7 0 0 -
req 1 1 7 a lock lock - => m14 1->c1 Reply 7 0 0 -
"""
# After that: an activation that is asked for again is told again, and changes nothing; an Install is
# answered again; and of a next primary each Query is answered, of the answers the first is taken, and
# so on.
AGAIN = """
deliver 5 => m15 mon->1 Activated 1
deliver 15 => nothing
deliver 1 => m16 2->1 Installed 1
deliver 16 => nothing
map 2 3 => map 2 prev 1
see 2 2 => m17 2->1 Query 2 / m18 2->2 Query 2 / m19 2->3 Query 2
deliver 19 => m20 3->2 Log 2 1
deliver 19 => m21 3->2 Log 2 1
deliver 17 => m22 1->2 Log 2 1
deliver 17 => m23 1->2 Log 2 1
deliver 20 => m24 2->3 Install 2 1
deliver 20 => nothing
deliver 21 => nothing
deliver 22 => nothing
deliver 18 => m25 2->2 Log 2 1
deliver 25 => nothing
deliver 24 => m26 3->2 Installed 2
deliver 24 => m27 3->2 Installed 2
deliver 26 => m28 2->mon AskActivate 2
deliver 27 => nothing
deliver 28 => m29 mon->2 Activated 2
deliver 28 => m30 mon->2 Activated 2
deliver 29 => nothing
deliver 30 => nothing
deliver 20 => nothing
show 2 => node 2 epoch 2 active length 1 committed 1
deliver 5 => refused 2 NotNewest
deliver 7 => nothing
deliver 9 => nothing
"""
# An asking and an installing primary send again; an activation isn't the newest.
PEERING_AGAIN = """
map 3 2 => map 2 prev 1
see 3 2 => m7 3->1 Query 2 / m8 3->2 Query 2 / m9 3->3 Query 2
resend 3 => again m7 / again m8 / again m9
deliver 9 => m10 3->3 Log 2 0
deliver 10 => m11 3->2 Install 2 0
resend 3 => again m11
deliver 5 => refused 2 NotNewest
"""
# Requests that are refused leave no entry; so do maps without a member, and of a node that there
# can't be.
REFUSED = """
req 1 1 1 a lock lock 00 => refused 7 InputTooLong
show 1 => node 1 epoch 1 active length 0 committed 0
req 1 1 1 a nope lock - => refused 5 NoClass
req 1 1 1 a lock nope - => refused 6 NoMethod
req 1 1 2 a lock lock - => m3 1->c1 Reply 2 0 0 -
req 1 1 1 a lock lock - => refused 4 StaleNumber
map => refused 1 BadActing
map 16 => refused 1 BadActing
map 1 1 => refused 1 BadActing
map 18446744073709551617 => refused 1 BadActing
"""
# Objects of a node: by their names' bytes, those that its log makes alone. A write of nothing makes one, and
# a look none; one that was removed isn't there. A node that is stopped has what it had.
OBJECTS = """
show 1 => node 1 epoch 1 active length 0 committed 0
req 1 1 1 b obj write 00000000000000006f6f => m3 1->c1 Reply 1 0 2 -
req 1 1 2 a lock lock - => m4 1->c1 Reply 2 1 0 -
req 1 1 3 b obj setxattr 017800 => m5 1->c1 Reply 3 2 0 -
req 1 1 4 b obj setxattr 023d78 => m6 1->c1 Reply 4 3 0 -
req 1 1 5 ä obj write 0000000000000000 => m7 1->c1 Reply 5 4 0 -
req 1 1 6 c obj write 000000000000000001 => m8 1->c1 Reply 6 5 1 -
req 1 1 7 c obj remove - => m9 1->c1 Reply 7 6 0 -
req 1 1 8 d obj stat - => m10 1->c1 Reply 8 7 -2 -
show 1 => node 1 epoch 1 active length 8 committed 8 / object a 0 1 0 / data - / xattr lock 0100000000000000 / object b 2 2 0 / data 6f6f / xattr 0x3d78 - / xattr x 00 / object 0xc3a4 0 0 0 / data -
show 2 => node 2 epoch 0 out length 0 committed 0
stop 1 => nothing
req 1 1 9 a lock unlock - => stopped
show 1 => node 1 epoch 1 active length 8 committed 8 / object a 0 1 0 / data - / xattr lock 0100000000000000 / object b 2 2 0 / data 6f6f / xattr 0x3d78 - / xattr x 00 / object 0xc3a4 0 0 0 / data -
"""
# Of entries that aren't committed yet too; each node has its own.
OWN_OBJECTS = """
req 1 1 7 a lock lock - => m7 1->2 Rep 1 0 / m8 1->3 Rep 1 0
show 1 => node 1 epoch 1 active length 1 committed 0 / object a 0 1 0 / data - / xattr lock 0100000000000000
show 2 => node 2 epoch 1 installed length 0 committed 0
deliver 7 => m9 2->1 Ack 1 1
show 2 => node 2 epoch 1 installed length 1 committed 0 / object a 0 1 0 / data - / xattr lock 0100000000000000
show 3 => node 3 epoch 1 installed length 0 committed 0
"""
# A tenant's class that counts in the omap.
COUNTED = """
req 1 1 1 a count count - => m3 1->c1 Reply 1 0 1 0100000000000000
req 1 1 2 a count count - => m4 1->c1 Reply 2 1 2 0200000000000000
show 1 => node 1 epoch 1 active length 2 committed 2 / object a 0 0 1 / data - / key n 0200000000000000
"""
# Words between blanks of either kind, an input in either case, comments and empty lines.
LOOSE = """\
# The class obj is behind lock.
\x20
 \t\x20
 \treq  1 1\t1   a obj\twrite 00000000000000006F6f\t\x20 => m3 1->c1 Reply 1 0 2 -
req 1 2 4294967295 a obj read 00000000000000000200000000000000 => m4 1->c2 Reply 4294967295 1 2 6f6f
  show 1\t => node 1 epoch 1 active length 2 committed 2

#show 1
# no line: bad
"""
# Lines that are bad: words, numbers, a node, a map and a message that there aren't, half a byte of
# input, a line feed of another system; before a stopped node, and after comments and empty lines.
BAD = (
    "halt 1", "Map 1", " # 1", "show", "show 1 2", "req 1 1 1 a lock lock", "req 1 1 1 a lock lock - -",
    "show +1", "show -1", "show 01", "show 0x1", "map 1 a", "map 01", "req 16 1 1 a lock lock -",
    "stop 16", "go 16", "resend 16", "show 16", "see 1 1", "deliver 1", "deliver", "see 2",
    "req 1 0 1 a lock lock -", "req 1 4294967296 1 a lock lock -", "req 1 1 0 a lock lock -",
    "req 1 1 1 a lock lock 0", "show 1\r ", f"req 1 1 1 {'a' * 256} lock lock -")
BAD_AFTER = (
    *("map 1 => map 1 prev 0\n" + line for line in ("see 1", "see 1 1 1", "see 16 1", "see 1 0", "see 1 2")),
    *("map 1 => map 1 prev 0\nsee 1 1 => m1 1->mon AskActivate 1\n" + line
      for line in ("deliver 2", "deliver 0")),
    "show 15 => node 15 epoch 0 out length 0 committed 0\nshow 16",
    "stop 1 => nothing\nreq 1 1 4294967296 a lock lock -", "#\n\nmap 1 => map 1 prev 0\nbad")


def bad(text):
    """The row of a script whose last line is bad: nothing is done after it."""
    return script(f"{text} => line {text.count(chr(10)) + 1}: bad\nmap 1", status=1)


# Files of events in examples/, and their drawings.
for example in ("lost_ack.sim", "survive.sim"):
    with open(os.path.join(EXAMPLES, example), "rb") as events:
        FILES[example] = events.read()
LOST_ACK = """\
c1          1           2           3           mon         event
|           |           |           |           *           map 1 2 3: map 1 prev 0
|           *           |           |           |           see 1 1 => m1 m2
|           |--m1------>|           |           |           Install 1 0 => m3
|           |--m2 Install---------->|           |           Install 1 0 => m4
|           |<------m3--|           |           |           Installed 1
|           |<--------m4 Installed--|           |           Installed 1 => m5
|           |--m5 AskActivate------------------>|           AskActivate 1 => m6
|           |<--------------------m6 Activated--|           Activated 1
|--req----->|           |           |           |           req 1 1 7 a lock lock - => m7 m8
|           |--m7 Rep-->|           |           |           Rep 1 0 => m9
|           |--m8 Rep-------------->|           |           Rep 1 0 => m10
|           |  x-----------m10 Ack--|           |           Ack 1 1, lost
|           |<--m9 Ack--|           |           |           Ack 1 1
|           *           |           |           |           show 1: node 1 epoch 1 active length 1 committed 0
|           *           |           |           |           resend 1: again m8
|           |--m8 Rep-------------->|           |           Rep 1 0 => m11
|           |<-------------m11 Ack--|           |           Ack 1 1 => m12
|<-----m12--|           |           |           |           Reply 7 0 0 -
|           *           |           |           |           show 1: node 1 epoch 1 active length 1 committed 1
"""
SURVIVED = lines_of(
    "map 1 prev 0 / m1 1->2 Install 1 0 / m2 1->3 Install 1 0 / m3 2->1 Installed 1 / m4 3->1 Installed 1 / "
    "nothing / m5 1->mon AskActivate 1 / m6 mon->1 Activated 1 / nothing / m7 1->2 Rep 1 0 / "
    "m8 1->3 Rep 1 0 / m9 2->1 Ack 1 1 / m10 3->1 Ack 1 1 / nothing / stopped / map 2 prev 1 / "
    "m11 2->1 Query 2 / m12 2->2 Query 2 / m13 2->3 Query 2 / m14 3->2 Log 2 1 / m15 2->3 Install 2 1 / "
    "m16 3->2 Installed 2 / m17 2->mon AskActivate 2 / m18 mon->2 Activated 2 / nothing / "
    "m19 2->c1 Reply 7 0 0 - / m20 2->3 Rep 2 1 / m21 3->2 Ack 2 2 / m22 2->c2 Reply 1 1 -16 - / "
    "node 2 epoch 2 active length 2 committed 2")
SURVIVE = """\
c1          c2          1           2           3           mon         event
|           |           |           |           |           *           map 1 2 3: map 1 prev 0
|           |           *           |           |           |           see 1 1 => m1 m2
|           |           |--m1------>|           |           |           Install 1 0 => m3
|           |           |--m2 Install---------->|           |           Install 1 0 => m4
|           |           |<------m3--|           |           |           Installed 1
|           |           |<--------m4 Installed--|           |           Installed 1 => m5
|           |           |--m5 AskActivate------------------>|           AskActivate 1 => m6
|           |           |<--------------------m6 Activated--|           Activated 1
|--req----------------->|           |           |           |           req 1 1 7 a lock lock - => m7 m8
|           |           |--m7 Rep-->|           |           |           Rep 1 0 => m9
|           |           |--m8 Rep-------------->|           |           Rep 1 0 => m10
|           |           |  x-----------m10 Ack--|           |           Ack 1 1, lost
|           |           *           |           |           |           stop 1
|           |           :  x----m9--|           |           |           Ack 1 1: stopped
|           |           :           |           |           *           map 2 3: map 2 prev 1
|           |           :           *           |           |           see 2 2 => m11 m12 m13
|           |           :  x---m11--|           |           |           Query 2, lost
|           |           :           |  x--m12   |           |           Query 2, lost
|           |           :           |--m13----->|           |           Query 2 => m14
|           |           :           |<-m14 Log--|           |           Log 2 1 => m15
|           |           :           |--m15----->|           |           Install 2 1 => m16
|           |           :           |<-----m16--|           |           Installed 2 => m17
|           |           :           |--m17 AskActivate----->|           AskActivate 2 => m18
|           |           :           |<-------m18 Activated--|           Activated 2
|--req----------------------------->|           |           |           req 2 1 7 a lock lock - => m19
|<-----------------------m19 Reply--|           |           |           Reply 7 0 0 -
|           |--req----------------->|           |           |           req 2 2 1 a lock lock - => m20
|           |           :           |--m20 Rep->|           |           Rep 2 1 => m21
|           |           :           |<-m21 Ack--|           |           Ack 2 2 => m22
|           |<-----------m22 Reply--|           |           |           Reply 1 1 -16 -
|           |           :           *           |           |           show 2: node 2 epoch 2 active length 2 committed 2
"""
DRAWN = """\
1           mon         event
|           *           map 1: map 1 prev 0
*           |           see 1 1 => m1
|--m1----x  |           AskActivate 1, lost
line 3: bad
"""
# A label of 8 letters over one column would touch the arrow's head, so its number stands there alone.
ALONE_DRAWN = """\
c1          1           mon         event
|           |           *           map 1: map 1 prev 0
|           *           |           see 1 1 => m1
|           |--m1------>|           AskActivate 1 => m2
|           |<------m2--|           Activated 1
|--req----->|           |           req 1 1 1 a lock lock - => m3
|<------m3--|           |           Reply 1 0 0 -
"""


def unacknowledged():
    """A script of 1,200 requests that nobody acknowledges; all are sent again to one member and then
    to the other."""
    requests = (f"req 1 1 {n + 1} a lock unlock - => m{2 * n + 7} 1->2 Rep 1 {n} / m{2 * n + 8} 1->3 Rep 1 {n}"
                for n in range(1200))
    again = " / ".join(f"again m{2 * n + first}" for first in (7, 8) for n in range(1200))
    return "\n".join([*requests, "show 1 => node 1 epoch 1 active length 1200 committed 0",
                      "resend 1 => " + again])


def full_log():
    """A script of 70,000 requests, more than a log has room for. Node 1 leads node 2, which takes none,
    and sends all that it logged again; then node 3 leads alone and takes the whole log."""
    opened = """map 1 2 => map 1 prev 0
see 1 1 => m1 1->2 Install 1 0
deliver 1 => m2 2->1 Installed 1
deliver 2 => m3 1->mon AskActivate 1
deliver 3 => m4 mon->1 Activated 1
deliver 4 => nothing"""
    next_one = """map 3 => map 2 prev 1
see 3 2 => m65541 3->1 Query 2 / m65542 3->2 Query 2
deliver 65541 => m65543 1->3 Log 2 65536
deliver 65543 => m65544 3->mon AskActivate 2
deliver 65544 => m65545 mon->3 Activated 2
deliver 65545 => nothing
show 3 => node 3 epoch 2 active length 65536 committed 65536
req 3 1 65536 a lock lock - => m65546 3->c1 Reply 65536 65535 0 -
req 3 1 70000 a lock lock - => refused 3 LogFull"""
    requests = (f"req 1 1 {n + 1} a lock lock - => "
                + (f"m{n + 5} 1->2 Rep 1 {n}" if n < 65536 else "refused 3 LogFull") for n in range(70000))
    again = " / ".join(f"again m{n + 5}" for n in range(65536))
    return "\n".join([opened, *requests, "show 1 => node 1 epoch 1 active length 65536 committed 0",
                      "resend 1 => " + again, next_one])


SIM_ROWS = [
    script(EARLY, LOGGED, AGAIN), script(THREE, PEERING_AGAIN), script(ALONE, REFUSED), script(ALONE, LOOSE),
    script(THREE, unacknowledged()), script(full_log()), Row("sim -"),
    script(f"req 1 1 1 {'a' * 255} lock lock - => refused 1 NotPrimary"),
    *(bad(text) for text in (*BAD, *BAD_AFTER)),
    script(ALONE, OBJECTS, words="sim - --objects"), script(THREE, OWN_OBJECTS, words="sim --objects -"),
    script(ALONE, COUNTED, words="sim - --objects --class count=count.txt"),
    script(ALONE, "show 1 => node 1 epoch 1 active length 0 committed 0", "show 16 => line 6: bad", status=1,
           words="sim - --objects"),
    Row("sim --objects survive.sim", SURVIVED + "object a 0 1 0\ndata -\nxattr lock 0100000000000000\n"),
    Row("sim --objects missing", "cannot read\n", "", 1),
    # drawings: of a run, of the lines above a bad one, of nothing
    Row("sim --trace lost_ack.sim", LOST_ACK), Row("sim survive.sim", SURVIVED),
    Row("sim --trace survive.sim", SURVIVE),
    Row("sim --trace -", DRAWN, "", 1, stdin=b"map 1\nsee 1 1\nhalt\n"),
    Row("sim --trace -", ALONE_DRAWN, stdin=b"map 1\nsee 1 1\ndeliver 1\ndeliver 2\nreq 1 1 1 a lock lock -\n"),
    Row("sim --trace -", "event\n"),
]
