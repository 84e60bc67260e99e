"""Random plans of tools/judge.py: of runs, as crates/tests_judge reads them, and of cluster
files. The same seed and number give the same plan."""
import random

MASK = (1 << 64) - 1
# A class by its id; one of no id isn't loaded.
CLASSES = {"lock": 0, "obj": 1, "count": 2}


def group_of(name, groups):
    """The group of an object: the low bits of FNV-1a of 64 bits."""
    value = 0xCBF29CE484222325
    for byte in name.encode():
        value = (value ^ byte) * 0x100000001B3 & MASK
    return value & (groups - 1)


def score(group, node):
    """splitmix64's finalizer."""
    z = group * 65536 + node
    z = (z ^ z >> 30) * 0xBF58476D1CE4E5B9 & MASK
    z = (z ^ z >> 27) * 0x94D049BB133111EB & MASK
    return z ^ z >> 31


def acting(up, replicas, group):
    """The nodes that act for a group: the first by falling score, of equal ones the lower
    number."""
    return sorted(up, key=lambda node: (-score(group, node), node))[:replicas]


def words_of(it, objects, tenant=0):
    """An object, a class, a method and an input, mostly short and cheap. A node refuses some of
    them."""
    some, name = bytes([it.randrange(256)]) * it.randrange(13), it.choice([b"a", b"b", b"c", b"d", b"lock"])
    # at the limit of the data, where any byte is too much, and more than may be read
    place = 65_536 if it.randrange(16) == 0 else it.randrange(24)
    length = 4_097 if it.randrange(16) == 0 else it.randrange(40)
    numbers = [number.to_bytes(8, "little") for number in (place, it.randrange(40), length)]
    rows = [(9, "lock", "lock", b""), (6, "lock", "unlock", b""), (5, "obj", "write", numbers[0] + some),
            (4, "obj", "read", numbers[1] + numbers[2]), (1, "obj", "stat", b""), (1, "obj", "remove", b""),
            (3, "obj", "getxattr", name), (3, "obj", "setxattr", bytes([len(name)]) + name + some),
            (1, *it.choice([("none", "lock", b""), ("lock", "look", b""), ("lock", "lock", b"1")])),
            (tenant, "count", "count", b"")]
    kind, method, given = it.choices([row[1:] for row in rows], [row[0] for row in rows])[0]
    return f"o{it.randrange(objects)}", kind, method, given.hex() or "-"


def call_of(it, objects, place=None):
    """The words of a call in a plan of a run, of that object or any."""
    name, kind, method, given = words_of(it, objects)
    return f"{name if place is None else f'o{place}'} {CLASSES.get(kind, 64)} {method} {given}"


def next_up(it, up, nodes, members):
    """The nodes of the next map: without the primary or a backup of a group, with one that is
    back, in another order, the same, one alone, or all."""
    case, node = it.randrange(12), it.randrange(nodes)
    left_out = members[case // 3:case // 3 + 1] if case < 6 else [node]
    rest = [other for other in up if other not in left_out]
    return rest if case < 6 else rest + [node] if case < 8 else (up[::-1], up, [node], [*range(nodes)])[case - 8]


def map_of(up):
    return "map " + " ".join(map(str, up))


def divergence(it, up, members, pause):
    """Some backups of a group miss what its primary logs; they lead without it, and then it is
    back."""
    primary, *backups = members
    missing = it.sample(backups, it.randint(min(1, len(backups)), len(backups)))
    yield from (f"stop {node}" for node in missing)
    yield f"pause {it.randrange(pause)}"
    yield f"stop {primary}"
    yield from (f"go {node}" for node in missing)
    if backups:
        yield map_of([node for node in up if node != primary])
    yield f"pause {it.randrange(pause)}"
    yield f"go {primary}"
    yield map_of(up)


def events_of(it, nodes, replicas, groups, pause, count):
    """Stops, maps and nudges; some are of nodes that aren't there, which is refused."""
    up = [*range(nodes)]
    for _ in range(count):
        case, node = it.randrange(16), it.randrange(nodes)
        if case < 2:
            yield f"stop {node}"
        elif case < 5:
            yield f"go {node}"
        elif case == 5:
            yield from (f"go {node}" for node in range(nodes))
        elif case == 6:
            yield f"nudge {it.randrange(groups)}"
        elif case == 7:
            yield from ("map", "map 0 0", f"map 0 {nodes}", f"stop {nodes}", f"go {nodes}")
        elif case < 10:
            yield from divergence(it, up, acting(up, replicas, it.randrange(groups)), pause)
        else:
            up = next_up(it, up, nodes, acting(up, replicas, it.randrange(groups))) or up
            yield map_of(up)
        yield f"pause {it.randrange(pause)}"


def plan_of(seed, number, is_full=False):
    """The plan of a run of a small cluster, each eighth with many clients; or of one whose log
    grows to its limit."""
    it = random.Random(f"{seed} {number} {is_full}")
    is_many = number % 8 == 7
    nodes, replicas, groups = it.choice([3, 4, 5, 6, 9, 16]), it.randint(1, 3), it.choice([1, 2, 4, 8, 16, 64])
    shards, workers = it.choice([1, 2, 3, 4, 16, 64]), it.choice([1, 2, 3, 4, 8, 16])
    tries = it.randint(20, 900) if it.randrange(8) == 0 else it.randint(2_000, 6_000)
    clients, objects = it.randint(9, 63) if is_many else it.randint(1, 8), it.randint(1, 8)
    calls, rounds = 8 if is_many else it.randint(8, 100), 1
    shares = [it.choice(of) for of in ((0, 8, 32, 96), (0, 8, 32, 128), (0, 8, 32, 128), (0, 0, 16, 64))]
    pause, events = it.choice([200, 1_000, 5_000, 20_000]), it.randint(20, 300)
    if is_full:
        nodes, replicas, groups, shards, workers, tries, clients, objects = 3, it.randint(2, 3), 1, 1, 2, 20_000, 12, 8
        shares = [it.randrange(2), it.randrange(4), it.randrange(2), 0]
        calls, rounds, pause, events = 64, 1_024, 100_000, 400
    lines = [f"cluster {nodes} {replicas} {groups} {shards} {workers} {tries}",
             f"trouble {it.randrange(1 << 32)} {' '.join(map(str, shares))} {rounds}"]
    for client in range(clients):
        for _ in range(calls):
            repeats = next((count for count in range(3) if it.randrange(4) == 0), 3)
            lines.append(f"call {client} {call_of(it, objects)} {repeats} {int(it.randrange(16) == 0)}")
        # few clients call each object once more, many one of them
        lines += [f"last {client} {call_of(it, objects, place)}" for place in range(objects)
                  if clients <= 8 or client % objects == place]
    lines += events_of(it, nodes, replicas, groups, pause, events)
    lines += ["calm", *(f"go {node}" for node in range(nodes)), map_of(range(nodes))]
    return "\n".join(lines) + "\n"


def file_of(seed, number):
    """A cluster file: the calls of each client before, between and after some maps."""
    it = random.Random(f"{seed} {number} file")
    clients, calls, groups = it.randint(1, 12), it.randint(1, 8), it.choice([1, 2, 4, 64])
    numbers = f"groups {groups} shards {it.randint(1, 4)} workers {it.randint(1, 4)} tries 100000000"
    lines = [f"cluster nodes 3 replicas 3 {numbers}"]
    for nodes in (None, "0 1", "1 2", "0 1 2")[:it.randint(1, 4)]:
        lines += [f"map {nodes}"] if nodes else []
        lines += [f"client {client + 1} {' '.join(words_of(it, 6, tenant=6))}"
                  for client in range(clients) for _ in range(calls)]
    return "\n".join(lines) + "\n"
