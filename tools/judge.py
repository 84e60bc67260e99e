#!/usr/bin/env python3
"""Plays random clusters in threads, and judges their histories.

    tools/judge.py [--seed N] [--seconds N] [--runs N] [--tried] [RADOSCLS [PLAYER]]
    tools/judge.py --self-test

RADOSCLS and PLAYER, which is `tests_judge`, are programs as `rt run` or `rt ci` leaves them. PLAYER
plays runs amid stops, maps, and lost, doubled and late messages until the seconds are over, one of
them until a log is full. Then RADOSCLS plays cluster files with a tenant's class, for half as long.
It fails if there are fewer runs than N, or a third as many files. With --tried there is no PLAYER,
and RADOSCLS is the program of tools/try.sh. First comes the self-test (tools/judge_rows.py): small
histories, each with a change that makes it wrong, are told by their faults. A wrong run's plan and
history are kept in a folder, which is printed.

A history is right if for each group one list of calls explains it:

- each node that acts for the group in the end has this list, or a beginning with all calls that
  were answered;
- each call stands in it once at most, a client's calls in the order of their numbers, and none
  before a call that was answered before it began;
- each answered call stands at its place, and its answer is the one that the list gives up to there,
  by a model of the classes that is written after their tables in docs/; a repeat has no other;
- a call is refused by its class, method or input if these are wrong, and else only by a full
  log. After the trouble each is answered. Of nodes and maps those are refused that can't be."""
import itertools, math, os, re, subprocess, sys, tempfile, time

sys.dont_write_bytecode = True
import judge_rows
from judge_plans import CLASSES, acting, file_of, group_of, plan_of

TOP = os.path.join(os.path.dirname(os.path.abspath(__file__)), "..")
# A run may take so many seconds, also on a slow machine; a log may have so many entries.
SECONDS, LIMIT = 600, 65_536
# The numbers of refusals: nobody knows whether an unanswered call ran, or one that no queue took
# when it was sent last.
LOG_FULL, NO_CLASS, NO_METHOD, TOO_LONG, UNANSWERED, NOT_TAKEN = 3, 5, 6, 7, 9, 12
ENOENT, EBUSY, EINVAL, EFBIG, ENOSPC, ERANGE, ENODATA = -2, -16, -22, -27, -28, -34, -61
# The methods of each class, by its id, with the most bytes of input that they take.
METHODS = (
    {"lock": 0, "unlock": 0},
    {"getxattr": 64, "read": 16, "remove": 0, "setxattr": 4096, "stat": 0, "write": 4096},
    {"count": 0},
)
# The run whose log grows to its limit.
FULL = 0


class Fault(Exception):
    """What is wrong with a history."""


def demand(holds, fault):
    if not holds:
        raise Fault(fault)


def number_of(data):
    return int.from_bytes(data, "little")


class Object:
    """A model of an object: whether it is there, its data, its xattrs, and the number of the
    tenant's `count`. Each method gives the code, or an output whose length is the code."""

    def __init__(self):
        self.is_there, self.data, self.xattrs, self.number = False, b"", {}, 0

    def answer(self, client, method, given):
        """The code and the output of a call."""
        if method == "count":
            self.is_there, self.number = True, self.number + 1
            return self.number, self.number.to_bytes(8, "little")
        end = getattr(self, method)(client, given)
        return (len(end), end) if isinstance(end, bytes) else (end, b"")

    def put(self, name, value):
        if name not in self.xattrs and len(self.xattrs) == 32:
            return ENOSPC
        self.is_there = True
        self.xattrs[name] = value
        return 0

    def lock(self, client, _):
        owner = self.xattrs.get(b"lock")
        if owner is None or len(owner) > 8:
            return self.put(b"lock", client.to_bytes(8, "little"))
        return 0 if number_of(owner) == client else EBUSY

    def unlock(self, client, _):
        owner = self.xattrs.get(b"lock")
        if owner is None:
            return ENODATA if self.is_there else ENOENT
        if len(owner) > 8 or number_of(owner) != client:
            return ERANGE if len(owner) > 8 else EBUSY
        del self.xattrs[b"lock"]
        return 0

    def getxattr(self, _, name):
        if not name:
            return EINVAL
        return self.xattrs.get(name, ENODATA) if self.is_there else ENOENT

    def setxattr(self, _, given):
        length = given[0] if given else 65
        if length > 64 or len(given) - 1 < length:
            return EINVAL
        name, value = given[1:length + 1], given[length + 1:]
        return EFBIG if len(value) > 4_031 else self.put(name, value) if name else EINVAL

    def read(self, _, given):
        place, length = number_of(given[:8]), number_of(given[8:])
        if len(given) != 16 or length > 4_096:
            return EINVAL
        return self.data[place:place + length] if self.is_there else ENOENT

    def write(self, _, given):
        place, data = number_of(given[:8]), given[8:]
        if len(given) < 8 or place + len(data) > 65_536:
            return EINVAL if len(given) < 8 else EFBIG
        self.is_there = True
        if data:
            self.data = self.data[:place].ljust(place, b"\0") + data + self.data[place + len(data):]
        return len(data)

    def stat(self, *_):
        return len(self.data) if self.is_there else ENOENT

    def remove(self, *_):
        was_there = self.is_there
        self.__init__()
        return 0 if was_there else ENOENT


class Call:
    """A call of a client, with all repeats of its request: when it began, and when it was
    answered first; its reply, which is place, code and output, and the number of its newest
    refusal."""

    def __init__(self, words, began, is_last):
        self.object, kind, self.method, given = words
        self.kind, self.input = int(kind), bytes.fromhex(given.strip("-"))
        self.began, self.ended, self.is_last = began, math.inf, is_last
        self.reply, self.refused, self.differs = None, None, False

    def note(self, tick, end):
        """Notes an answer. A repeat of an answered call may stay unanswered, or be refused by a
        node that came to know the call late, but it has no other reply."""
        if end[0] == "refused":
            self.refused = int(end[1])
            return
        _, place, _, code, _, output = end
        reply = int(place), int(code), bytes.fromhex(output.strip("-"))
        if self.reply is None:
            self.ended, self.reply = tick, reply
        self.differs = self.differs or reply != self.reply

    def refusal(self):
        """By which number nodes refuse it, whatever the objects are, if they do."""
        if self.kind >= len(METHODS):
            return NO_CLASS
        most = METHODS[self.kind].get(self.method)
        return NO_METHOD if most is None else TOO_LONG if len(self.input) > most else None


class History:
    """The calls by client and number, and for each group the logs of the nodes that act for it,
    the primary's first. An entry is client, number and code."""

    def __init__(self, groups, limit=LIMIT):
        self.groups, self.limit, self.calls, self.logs = groups, limit, {}, {}

    def group(self, call):
        return group_of(call.object, self.groups)

    def judge(self):
        """Raises the first fault, if there is one."""
        places = {}
        for group, logs in self.logs.items():
            self.judge_logs(group, logs)
            self.judge_list(group, logs[0], places)
            self.judge_times(group, logs[0])
        for at in self.calls:
            self.judge_end(at, places)

    def judge_logs(self, group, logs):
        answered = [call.reply[0] + 1 for call in self.calls.values() if call.reply and self.group(call) == group]
        for log in logs:
            is_one = all(one == other for one, other in zip(logs[0], log))
            demand(is_one and len(log) >= max(answered, default=0), f"group {group} has not one list of all answers")

    def judge_list(self, group, entries, places):
        """Runs a list, and notes the places of its calls."""
        objects, used = {}, {}
        for place, (client, number, code) in enumerate(entries):
            at, call = f"group {group} place {place}", self.calls.get((client, number))
            demand(call and self.group(call) == group and call.refusal() is None, f"{at} is no call")
            demand(used.get(client, 0) < number, f"{at} is out of order")
            used[client], places[client, number] = number, place
            answer = objects.setdefault(call.object, Object()).answer(client, call.method, call.input)
            demand(code == answer[0], f"{at} has a wrong code")
            if call.reply:
                demand(call.reply[0] == place, f"client {client} number {number} has a wrong place")
                demand(call.reply[1:] == answer, f"client {client} number {number} has a wrong answer")

    def judge_times(self, group, entries):
        """From the end, so that one pass keeps the earliest answer of all later calls."""
        earliest = math.inf
        for place in reversed(range(len(entries))):
            call = self.calls[entries[place][:2]]
            demand(call.began <= earliest, f"group {group} place {place} is earlier than its time")
            earliest = min(earliest, call.ended)

    def judge_end(self, at, places):
        call, name = self.calls[at], "client {} number {}".format(*at)
        demand(not call.differs, f"{name} has two answers")
        if call.reply:
            demand(at in places, f"{name} has a wrong place")
        elif call.refused in (UNANSWERED, NOT_TAKEN):
            demand(not call.is_last, f"{name} stays unanswered")
        elif call.refused == LOG_FULL:
            demand(self.may_be_full(self.group(call), places), f"{name} is wrongly refused")
        else:
            demand(call.refused == call.refusal(), f"{name} is wrongly refused")

    def may_be_full(self, group, places):
        """True if the entries of a group, and the calls that a node may have logged and that are
        lost, are at least the limit."""
        lost = [at for at, call in self.calls.items()
                if at not in places and call.refusal() is None and self.group(call) == group]
        return len(self.logs[group][0]) + len(lost) >= self.limit


def history_of(plan, text, limit=LIMIT):
    """The history that PLAYER prints of a plan. Crates/tests_judge says what the lines of both
    are."""
    items, lines = [line.split() for line in plan.splitlines()], text.splitlines()
    nodes, replicas, groups = map(int, items[0][1:4])
    history, sent, logs, epoch = History(groups, limit), {}, {}, 1
    demand(lines[-1:] == ["the run has ended"], f"it says {(lines or ['nothing'])[-1]}")
    for word, *words in map(str.split, lines[:-1]):
        if word == "call":
            note_sent(history, sent, items, words)
        elif word == "map":
            up = [*map(int, items[int(words[0])][1:])]
            wrong = "1" if not up else "2" if len({*up}) < len(up) or max(up) >= nodes else None
            epoch += wrong is None
            demand(words[1:3] == (["refused", wrong] if wrong else [str(epoch)]), f"map {words[0]} is wrong")
        elif word in ("stop", "go"):
            is_there = int(items[int(words[0])][1]) < nodes
            demand(is_there == (words[1:] == []), f"{word} {words[0]} is wrong")
        elif word == "log":
            logs[int(words[0]), int(words[1])] = [tuple(map(int, entry.split("."))) for entry in words[2:]]
    for group in range(groups):
        history.logs[group] = [logs[node, group] for node in acting(range(nodes), replicas, group)]
    return history


def note_sent(history, sent, items, words):
    """Notes a line of a call. A client sends one request after another, and numbers them from 1
    on."""
    client, number, item, began, ended = map(int, words[:5])
    before, tick = sent.get(client, (0, -1))
    demand(number - before in (0, 1) and tick < began < ended, f"client {client} is out of order")
    if number > before:
        history.calls[client, number] = Call(items[item][2:6], began, items[item][0] == "last")
    sent[client] = number, ended
    history.calls[client, number].note(ended, words[5:])


def history_of_file(file, text):
    """The history that `radoscls cluster` prints of a file: a list of each group by the places
    of its calls, which are all answered. A map is made once all calls above it have ended."""
    items = [line.split() for line in file.splitlines()]
    history, maps, numbers, places = History(int(items[0][6])), 0, {}, {}
    for word, *words in items[1:]:
        maps += word == "map"
        if word == "client":
            client, name, kind, *rest = words
            numbers[client] = numbers.get(client, 0) + 1
            history.calls[int(client), numbers[client]] = Call([name, CLASSES.get(kind, 64), *rest], maps, True)
    lines = text.splitlines()
    demand(len(lines) == len(history.calls), f"{len(lines)} lines of {len(history.calls)} calls")
    for line, ((client, number), call) in zip(lines, sorted(history.calls.items())):
        name, words = f"client {client} number {number}", line.split()
        demand(words[:4] == ["client", str(client), "call", str(number - 1)], f"{name} has another's line")
        call.note(call.began, words[4:])
        if call.reply:
            at = history.group(call), call.reply[0]
            demand(at not in places, f"{name} has another's place")
            places[at] = client, number, call.reply[1]
    for group in range(history.groups):
        entries = [places.get((group, place)) for place in range(sum(at[0] == group for at in places))]
        demand(None not in entries, f"group {group} has a place that is nobody's")
        history.logs[group] = [entries]
    return history


def fault_of(history, *of):
    """The fault of a history, if it has one."""
    try:
        history(*of).judge()
    except Fault as fault:
        return str(fault)
    return None


def self_test():
    """Judges the small histories with their changes. True if each has the fault that it should
    have."""
    plan, whole, file, printed = judge_rows.PLAN, judge_rows.HISTORY, judge_rows.FILE, judge_rows.PRINTED
    rows = [((history_of, plan, whole.replace(old, new)), wanted) for old, new, wanted in judge_rows.CHANGES]
    rows += [((history_of, plan.replace(*of_plan), whole.replace(*of_history), limit), wanted)
             for of_plan, of_history, limit, wanted in judge_rows.PLAN_CHANGES]
    rows += [((history_of_file, file, printed.replace(old, new)), wanted)
             for old, new, wanted in judge_rows.PRINTED_CHANGES]
    bad = [(of, wanted, found) for of, wanted in rows if (found := fault_of(*of)) != wanted]
    for of, wanted, found in bad:
        print(f"{of[2]}it should be: {wanted}; it is: {found}")
    print(f"self-test: {len(rows)} histories, {len(bad)} wrongly judged", flush=True)
    return not bad


def play(words, plan):
    """What a program prints of a plan on its standard input, and the fault of its end, if it has
    one."""
    try:
        ran = subprocess.run(words, input=plan.encode(), stdout=subprocess.PIPE, timeout=SECONDS)
    except subprocess.TimeoutExpired as over:
        return (over.stdout or b"").decode(), "it doesn't end"
    return ran.stdout.decode(), None if ran.returncode in (0, 1) else f"it ends with {ran.returncode}"


def is_right(words, plan, history, told):
    """Plays and judges. Counts words of a right history; keeps a wrong one."""
    text, fault = play(words, plan)
    fault = fault or fault_of(history, plan, text)
    if fault:
        folder = tempfile.mkdtemp(prefix="judge-")
        for name, held in ("plan", plan), ("history", text):
            with open(f"{folder}/{name}", "w") as kept:
                kept.write(held)
        print(f"WRONG: {fault}: {folder}", flush=True)
        return False
    for word in re.findall(r"(?m)^(?:client|call|map|stop)\b|\b(?:place|refused [0-9]+ \w+)", text):
        told[word] = told.get(word, 0) + 1
    for names in re.findall(r"(?m)^messages (\d+) (\d+) (\d+)$", text):
        for word, number in zip(("lost", "doubled", "late"), names):
            told[word] = told.get(word, 0) + int(number)
    return True


def play_all(name, words, plans, history, seconds, least):
    """Plays plan after plan until the seconds are over, and on a slow machine up to five times
    as long, until they are enough. It tells what they came to. True if all are right, and
    enough."""
    start, told, count = time.monotonic(), {}, 0
    for plan in plans:
        if time.monotonic() - start >= seconds * (5 if count < least else 1):
            break
        if not is_right(words, plan, history, told):
            return False
        count += 1
    print(f"{count} {name}: " + ", ".join(f"{number} {word}" for word, number in sorted(told.items())), flush=True)
    if count < least:
        print(f"too few: at least {least} are wanted")
    return count >= least


def main(words):
    options = {"--seed": 1, "--seconds": 40, "--runs": 30}
    for word in {*options} & {*words}:
        at = words.index(word)
        options[word] = int(words[at + 1])
        del words[at:at + 2]
    if not self_test():
        return 1
    if "--self-test" in words:
        return 0
    seed, seconds, least = options.values()
    programs = [word for word in words if word != "--tried"]
    default = [f"{TOP}/crates/{it}/out/{it}" for it in ("radoscls", "tests_judge")]
    radoscls, player = programs + default[len(programs):]
    plans = (plan_of(seed, number, number == FULL) for number in itertools.count())
    files = (file_of(seed, number) for number in itertools.count())
    cluster = [radoscls, "cluster", "-", "--class", f"count={TOP}/examples/count.txt"]
    is_well = "--tried" in words or play_all("runs", [player], plans, history_of, seconds, least)
    return 0 if is_well and play_all("files", cluster, files, history_of_file, seconds / 2, least // 3) else 1


if __name__ == "__main__":
    sys.exit(main(sys.argv[1:]))
