"""The self-test of tools/judge.py: small histories that are right, and changes that make them
wrong, each with its fault. What lists and answers should be was found by hand."""

# A run of two clients on three nodes that all act: object `a` lies in group 0, `b` in group 1.
PLAN = """cluster 3 3 2 1 1 3000
trouble 1 0 0 0 0 1
call 0 a 0 lock - 0 1
call 1 a 0 lock - 0 0
call 0 a 1 write 00000000000000007878 0 0
call 1 a 1 read 00000000000000000800000000000000 0 0
call 1 a 1 read 00000000000000000800000000000000 0 0
call 0 b 0 unlock - 0 0
map
map 0 1 2
stop 3
calm
"""
LAST = "call 1 3 7 13 14 place 0 code -2 output -"
HISTORY = f"""map 8 refused 1 NoneUp
map 9 2
stop 10 refused
call 1 1 2 0 2 place 0 code 0 output -
call 1 1 2 3 4 place 0 code 0 output -
call 2 1 3 5 6 place 1 code -16 output -
call 1 2 4 7 10 place 3 code 2 output -
call 2 2 5 8 9 place 2 code 0 output -
call 2 3 6 11 12 place 4 code 2 output 7878
{LAST}
messages 0 0 0
log 0 0 1.1.0 2.1.-16 2.2.0 1.2.2 2.3.2
log 0 1 1.3.-2
log 1 0 1.1.0 2.1.-16 2.2.0 1.2.2 2.3.2
log 1 1 1.3.-2
log 2 0 1.1.0 2.1.-16 2.2.0 1.2.2 2.3.2
log 2 1 1.3.-2
the run has ended
"""
UNANSWERED = "call 1 3 7 13 14 refused 9 Unanswered"
# In a row: a change of the history, old and new; and the fault. A log of one node is named by its
# first words.
CHANGES = [
    ("", "", None),
    # answers: of another call's place, another code, another output, two; a read of before the
    # write that had been answered
    ("place 1 code -16", "place 2 code -16", "client 2 number 1 has a wrong place"),
    ("place 2 code 0", "place 2 code 1", "client 2 number 2 has a wrong answer"),
    ("output 7878", "output 7879", "client 2 number 3 has a wrong answer"),
    ("place 4 code 2 output 7878", "place 4 code 0 output -", "client 2 number 3 has a wrong answer"),
    ("3 4 place 0 code 0", "3 4 place 0 code 1", "client 1 number 1 has two answers"),
    # a read that began after the write was answered stands before it: it is stale, though the list
    # gives its answer
    ("call 1 2 4 7 10", "call 1 2 4 5 7", "group 0 place 2 is earlier than its time"),
    # refusals that aren't deserved; a call in the trouble may stay unanswered, and a repeat
    (LAST, "call 1 3 7 13 14 refused 3 LogFull", "client 1 number 3 is wrongly refused"),
    (LAST, "call 1 3 7 13 14 refused 6 NoMethod", "client 1 number 3 is wrongly refused"),
    (LAST, "call 1 3 7 13 14 refused 4 StaleNumber", "client 1 number 3 is wrongly refused"),
    (LAST, UNANSWERED, None),
    ("3 4 place 0 code 0 output -", "3 4 refused 9 Unanswered", None),
    # the order of a client's calls, maps, nodes, the end
    ("call 2 2 5 8 9", "call 2 2 5 4 9", "client 2 is out of order"),
    ("call 2 2 5", "call 2 3 5", "client 2 is out of order"),
    ("map 9 2", "map 9 3", "map 9 is wrong"),
    ("map 8 refused 1 NoneUp", "map 8 2", "map 8 is wrong"),
    ("stop 10 refused", "stop 10", "stop 10 is wrong"),
    ("the run has ended\n", "", "it says log 2 1 1.3.-2"),
    # all logs: another code, a swapped pair, an entry twice, nobody's, of another group, a dropped
    # one
    (" 2.1.-16 ", " 2.1.0 ", "group 0 place 1 has a wrong code"),
    (" 2.2.0 1.2.2 ", " 1.2.2 2.2.0 ", "client 1 number 2 has a wrong place"),
    (" 2.3.2", " 2.1.-16", "group 0 place 4 is out of order"),
    (" 2.2.0 ", " 3.2.0 ", "group 0 place 2 is no call"),
    (" 2.2.0 ", " 1.3.-2 ", "group 0 place 2 is no call"),
    (" 2.2.0 ", " ", "group 0 has not one list of all answers"),
    (" 1.3.-2", "", "group 1 has not one list of all answers"),
    # the log of one node: a dropped entry, a swapped pair, another code
    ("log 0 1 1.3.-2", "log 0 1", "group 1 has not one list of all answers"),
    ("log 1 0 1.1.0 2.1.-16 ", "log 1 0 2.1.-16 1.1.0 ", "group 0 has not one list of all answers"),
    ("log 2 0 1.1.0 2.1.-16 ", "log 2 0 1.1.0 2.1.0 ", "group 0 has not one list of all answers"),
]
# In a row: a change of the plan and one of the history, the limit of a log, and the fault.
PLAN_CHANGES = [
    # the log of its group is full
    (("", ""), (LAST, "call 1 3 7 13 14 refused 3 LogFull"), 1, None),
    # a call after the trouble has to be answered
    (("call 0 b 0 unlock - 0 0", "last 0 b 0 unlock -"), (LAST, UNANSWERED), 65_536,
     "client 1 number 3 stays unanswered"),
    # nodes refuse it, and it stands in the log
    (("call 0 b 0 ", "call 0 b 64 "), ("", ""), 65_536, "group 1 place 0 is no call"),
]

FILE = """cluster nodes 3 replicas 3 groups 1 shards 1 workers 1 tries 100
client 1 a lock lock -
client 2 a lock lock -
map 0 1
client 1 a count count -
client 2 a none f -
"""
PRINTED = """client 1 call 0 place 0 code 0 output -
client 1 call 1 place 2 code 1 output 0100000000000000
client 2 call 0 place 1 code -16 output -
client 2 call 1 refused 5 NoClass
"""
PRINTED_CHANGES = [
    ("", "", None),
    ("client 2 call 1 refused 5 NoClass\n", "", "3 lines of 4 calls"),
    ("client 2 call 0 ", "client 2 call 1 ", "client 2 number 1 has another's line"),
    ("place 2 ", "place 1 ", "client 2 number 1 has another's place"),
    ("place 2 ", "place 3 ", "group 0 has a place that is nobody's"),
    ("place 1 code -16 output -", "refused 9 Unanswered", "group 0 has a place that is nobody's"),
    ("place 2 code 1 output 0100000000000000", "refused 9 Unanswered", "client 1 number 2 stays unanswered"),
    ("code 1 ", "code 2 ", "group 0 place 2 has a wrong code"),
    ("output 01", "output 02", "client 1 number 2 has a wrong answer"),
    ("refused 5 NoClass", "refused 6 NoMethod", "client 2 number 2 is wrongly refused"),
    # the call after the map stands before it
    ("place 2 code 1 output 0100000000000000\nclient 2 call 0 place 1",
     "place 1 code 1 output 0100000000000000\nclient 2 call 0 place 2",
     "group 0 place 1 is earlier than its time"),
]
