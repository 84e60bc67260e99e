"""Random calls for tools/embed.sh, and their answers beside those of `radoscls run`.

    embed.py make N SEED FILE IMAGE ..       writes N calls for tools/embed.c, some of them of hostile images and flat forms
    embed.py seeds N SEED FOLDER IMAGE ..    writes N such calls, one of each image's methods, and of the first image's one on a
                                             part of an object, each as a file for tools/fuzz.c
    embed.py judge FILE PRINTED RADOSCLS     compares what tools/embed.c printed of them with the program's lines
    embed.py python FILE PRINTED LIBRARY     compares it with what examples/embed/host.py gets of a shared object

The last two take a host's greatest budget too, BUDGET, where the calls were made by it: of classes with loops."""
import os, random, struct, subprocess, sys, tempfile
from concurrent.futures import ThreadPoolExecutor

TOP = os.path.join(os.path.dirname(os.path.abspath(__file__)), "..")
sys.path.insert(0, os.path.join(TOP, "examples", "embed"))
sys.dont_write_bytecode = True
import host

NAMES = [b"a", b"b", b"ab", b"n", b"\0", b"\xff\xfe", b"key", b"x" * 64]
METHODS = ["create", "cut", "get", "getx", "next", "put", "putx", "read", "remake", "remove", "rm", "rmx", "stat", "who", "write", "keep", "count", "hello", "f", "none"]


def random_bytes(r, most):
    return bytes(r.choice((0, 1, 65, r.randrange(256))) for _ in range(r.randrange(most + 1)))


def random_object(r):
    if r.random() < 0.2:
        return None
    data = random_bytes(r, r.choice((0, 8, 40, 5000)))
    xattrs = {r.choice(NAMES): random_bytes(r, 12) for _ in range(r.randrange(5))}
    if r.random() < 0.03:
        xattrs = {b"%d" % n: b"v" for n in range(32)}
    return data, xattrs, {r.choice(NAMES): random_bytes(r, 12) for _ in range(r.randrange(5))}


def random_input(r, method):
    name = r.choice(NAMES) if r.random() < 0.95 else b""
    if method in ("put", "putx"):
        return bytes([len(name)]) + name + random_bytes(r, 12)
    if method in ("get", "getx", "next", "rm", "rmx"):
        return name
    number = r.choice((0, 1, 5, 40, 4096, 5000, 65530, 65536, 65537, 1 << 31))
    if method == "write":
        return struct.pack("<I", number) + random_bytes(r, 30)
    if method == "read":
        return struct.pack("<II", number, r.choice((0, 1, 8, 4096, 4097)))
    if method == "cut":
        return struct.pack("<I", number)
    return random_bytes(r, 5) if r.random() < 0.1 else {"create": bytes([r.randrange(2)]), "keep": b"root"}.get(method, b"")


def spoiled(r, text):
    """With a byte changed, added or left out."""
    at = r.randrange(len(text) + 1)
    return text[:at] + bytes([r.randrange(256)] * r.randrange(2)) + text[at + r.randrange(2):]


def calls_of(path):
    text, at, calls = open(path, "rb").read(), 0, []
    while at < len(text):
        fields = []
        for _ in range(5):
            (n,) = struct.unpack_from("<I", text, at)
            fields.append(text[at + 4:at + 4 + n])
            at += 4 + n
        calls.append(fields)
    return calls


def random_calls(count, r, images):
    for n in range(int(count)):
        image, method = (images[0], r.choice(METHODS[:15])) if n % 8 else (r.choice(images), r.choice(METHODS))
        fields = [image, method.encode(), host.flatten(random_object(r)), struct.pack("<I", r.randrange(1, 5)), random_input(r, method)]
        if n % 10 == 9:
            which = r.choice((0, 2))
            fields[which] = spoiled(r, fields[which])
        yield written(fields)


def written(fields):
    return b"".join(struct.pack("<I", len(field)) + field for field in fields)


def make(count, seed, path, *images):
    with open(path, "wb") as file:
        file.writelines(random_calls(count, random.Random(int(seed)), [open(image, "rb").read() for image in images]))


def methods_of(image):
    """The methods in an image: name, flags, capacities, code, and the budget of one that declares loops (docs/IMAGE.md)."""
    at = 8
    for _ in range(struct.unpack_from("<H", image, 4)[0]):
        end = at + 1 + image[at]
        *declared, slots = struct.unpack_from("<BHHH", image, end)
        name, at, budget = image[at + 1:end], end + 7 + 8 * slots, None
        code = image[end + 7:at]
        if image.startswith(b"RCL3"):
            heads, at = struct.unpack_from("<H", image, at)[0], at + 2
            if heads:
                budget, at = struct.unpack_from("<I", image, at)[0], at + 4
            for _ in range(heads):
                places, at = image[at + 2], at + 3
                for _ in range(places):
                    at += 2 if image[at + 1] < 2 else 18
        yield name, *declared, code, budget


def seeds(count, seed, folder, *images):
    r = random.Random(int(seed))
    images = [open(image, "rb").read() for image in images]
    calls = list(random_calls(count, r, images))
    calls += [written([image, name, host.flatten(random_object(r)), bytes(4), b"\1a"]) for image in images for name, *_ in methods_of(image)]
    # of 5,000 bytes and nothing else that is known
    part = b"\1" + struct.pack("<QI", 5000, 0) + bytes(8)
    calls += [written([images[0], name, part, bytes(4), struct.pack("<II", 4090, 9)]) for name, *_ in methods_of(images[0])]
    for n, call in enumerate(calls):
        with open(os.path.join(folder, f"{n:04}"), "wb") as file:
            file.write(call)


def unflattened(form):
    """The object of a flat form; False where it is none."""
    try:
        if form == b"\0":
            return None
        at = 5
        (n,) = struct.unpack_from("<I", form, 1)
        parts, data = [{}, {}], form[5:5 + n]
        at += n
        for part in parts:
            (count,) = struct.unpack_from("<H", form, at)
            at += 2
            for _ in range(count):
                name = form[at + 1:at + 1 + form[at]]
                at += 1 + form[at]
                (m,) = struct.unpack_from("<H", form, at)
                part[name] = form[at + 2:at + 2 + m]
                at += 2 + m
        object = (data, *parts)
        within = len(data) <= 65536 and len(parts[0]) <= 32 and len(parts[1]) <= 1024
        named = all(1 <= len(name) <= 64 and len(value) <= 4096 for part in parts for name, value in part.items())
        return object if within and named and host.flatten(object) == form else False
    except (struct.error, IndexError):
        return False


def shown(object):
    """The lines of --show."""
    if object is None:
        return ["object absent"]
    def name_of(name):
        text = all(33 <= b < 127 and b != 61 for b in name) and not name.startswith(b"0x")
        return name.decode() if text else "0x" + name.hex()
    lines = ["object " + " ".join(str(len(part)) for part in object), "data " + (object[0].hex() or "-")]
    for word, part in zip(("xattr", "key"), object[1:]):
        lines += [f"{word} {name_of(name)} {part[name].hex() or '-'}" for name in sorted(part)]
    return lines


def program(radoscls, folder, n, call, *loops):
    """What the program prints, as tools/embed.c does; the object afterwards as lines."""
    image, method, form, caller, text = call
    path = os.path.join(folder, f"{n}.img")
    with open(path, "wb") as file:
        file.write(image)
    object = unflattened(form)
    words = [radoscls, "run", path, method.decode(), "--input", text.hex(), "--caller", str(struct.unpack("<I", caller)[0]), "--show", *loops]
    if object:
        words += ["--object", object[0].hex()]
        for option, part in zip(("--xattr", "--key"), object[1:]):
            words += [word for name in part for word in (option, f"0x{name.hex()}={part[name].hex()}")]
    lines = subprocess.run(words, capture_output=True, text=True).stdout.splitlines()
    os.remove(path)
    if lines[0].startswith("image refused"):
        return "1 1 " + lines[0].split(": ")[1].split()[0], []
    if lines[0].startswith("refused method"):
        part = lines[0].replace(":", "").split()
        return f"2 2 {part[5]} {part[2]} {part[4]}", []
    if lines[0].startswith("call refused"):
        return {"1": "-95", "2": "-7"}[lines[0].split()[2]], []
    if object is False:
        return "-22", []
    code, output, steps = (line.split()[1] for line in lines[:3])
    return f"0 {code} {steps} {output.replace('-', '')}", lines[3:]


def judge(path, printed, radoscls, *budget):
    calls, lines, loops = calls_of(path), open(printed).read().splitlines(), ["--loops"] if budget else []
    with tempfile.TemporaryDirectory() as folder, ThreadPoolExecutor(4) as pool:
        founds = list(pool.map(lambda n: program(radoscls, folder, n, calls[n], *loops), range(len(calls))))
    wrong, kinds = len(calls) != len(lines), {}
    for n, (call, line, (want, after)) in enumerate(zip(calls, lines, founds)):
        kinds[line.split()[0]] = kinds.get(line.split()[0], 0) + 1
        if budget and line.startswith("-27 ") and want[0] not in "12":
            continue  # (the program has no greatest budget: tools/embed_loops.py says which classes are refused so)
        told, _, edits = line.rpartition(" ") if line.startswith("0 ") else (line, "", "")
        is_same = told == want if after else (told + " ").startswith(want + " ")
        object = host.edited(unflattened(call[2]), bytes.fromhex(edits)) if after else None
        if not is_same or after and shown(object) != after:
            wrong += 1
            print(f"call {n} of {call[1].decode()}: {line}, not {want} {after}")
    print(f"{len(calls)} calls beside the program: " + ", ".join(f"{kinds[kind]} answers {kind}" for kind in sorted(kinds, key=int)))
    return wrong != 0


def python(path, printed, library, budget=None):
    library, wrong, handles, most = host.Library(library), 0, {}, budget and int(budget)
    calls, lines = calls_of(path), open(printed).read().splitlines()
    for n, (call, line) in enumerate(zip(calls, lines)):
        image, *asked, caller, text = call
        if image not in handles:
            handles[image] = library.open(image, most)
        refused, verified = handles[image]
        if refused and most:
            wrong += str(refused) != line.split()[0]
            continue
        for of in (image,) if refused else (verified,) if most else (image, verified):
            result, answer, output, edits = library.call(of, *asked, struct.unpack("<I", caller)[0], text, 1 << (n % 14))
            told = f"0 {answer.code} {answer.steps} {output.hex()} {edits.hex()}" if result == 0 else str(result)
            if told != line and not (result > 0 and line.split()[0] == told == str(refused)):
                wrong += 1
                print(f"call {n}: {told}, not {line}")
    for _, verified in handles.values():
        library.close(verified)
    print(f"{len(calls)} calls from Python, {len(handles)} handles")
    return wrong != 0


if __name__ == "__main__":
    sys.exit({"make": make, "seeds": seeds, "judge": judge, "python": python}[sys.argv[1]](*sys.argv[2:]))
