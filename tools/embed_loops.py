"""Calls of classes with loops, for tools/embed.sh.

    embed_loops.py images RADOSCLS FOLDER     writes images of the class below to FOLDER: by budgets, the last also with
                                              some methods that declare a greater one, and without heads
    embed_loops.py make N SEED FILE IMAGE ..  writes N calls for tools/embed.c, some of hostile images and flat forms
    embed_loops.py judge FILE PRINTED BUDGET  compares what tools/embed.c printed of them, by a host's greatest budget,
                                              with ceph/tests/model.py, in which each step takes its weight"""
import os, random, struct, subprocess, sys

TOP = os.path.join(os.path.dirname(os.path.abspath(__file__)), "..")
sys.path[:0] = [os.path.join(TOP, "examples", "embed"), os.path.join(TOP, "ceph", "tests")]
sys.dont_write_bytecode = True
import embed, host, model

SPENT, HELPER = -62, 64  # the code of a spent call, and the weight of a helper's call
BUDGETS = 300, 4096, 131072
CLASS = """.rules 3
.method busy r 2 0      ; goes round as often as its input says
ldxh r6, [r1+0]
mov r0, 0
mov r7, 0
next:
jge r7, r6, end
add r0, r7
add r7, 1
ja next
end:
exit
.method count r 0 64    ; how many keys there are, and the last one's name
mov r6, r3
mov r7, 0
mov r8, 0
next:
mov r1, r10
add r1, -64
mov r2, r8
mov r3, r1
mov r4, 64
call 12
jgt r0, 64, end
mov r8, r0
add r7, 1
ja next
end:
mov r1, r6
mov r2, 64
mov r3, r10
add r3, -64
mov r4, r8
call 17
mov r1, r8
call 13
mov r0, r7
exit
.method fill w 9 0      ; writes three bytes as often as the input says, each a byte further on
ldxh r6, [r1+0]
ldxw r7, [r1+2]
mov r8, r1
add r8, 6
mov r9, 0
next:
jge r9, r6, end
mov r1, r7
add r1, r9
mov r2, r8
mov r3, 3
call 3
jslt r0, 0, failed
add r9, 1
ja next
end:
mov r0, r9
failed:
exit
.method mask rw 1 0     ; changes the bits of a byte of each eight of the data
ldxb r6, [r1+0]
mov r7, 0
next:
mov r1, r7
mov r2, r10
add r2, -8
mov r3, 8
call 2
jsle r0, 0, end
jgt r0, 8, end
mov r9, r0
ldxdw r8, [r10-8]
xor r8, r6
stxdw [r10-8], r8
mov r1, r7
mov r2, r10
add r2, -8
mov r3, r9
call 3
add r7, 8
ja next
end:
mov r0, r7
exit
.method names r 0 512   ; the names of the xattrs, one after the other, as far as there is room
mov r6, r3
mov r7, 0
mov r8, 0
next:
jgt r7, 447, end
mov r1, r10
add r1, -64
mov r2, r8
mov r3, r1
mov r4, 64
call 18
jgt r0, 64, end
mov r8, r0
mov r1, r6
add r1, r7
mov r2, 64
mov r3, r10
add r3, -64
mov r4, r8
call 17
add r7, r8
ja next
end:
mov r1, r7
call 13
mov r0, r7
exit
.method never w 0 0     ; writes on and on
mov r6, 0
next:
mov r1, r6
mov r2, r10
add r2, -8
mov r3, 8
call 3
add r6, 8
ja next
.method plain w 0 0     ; has no loop
mov r1, 1
call 14
exit
.method purge w 0 0     ; removes all keys
mov r6, 0
next:
mov r1, r10
add r1, -64
mov r2, 0
mov r3, r1
mov r4, 64
call 12
jgt r0, 64, end
mov r2, r0
mov r1, r10
add r1, -64
call 11
add r6, 1
ja next
end:
mov r0, r6
exit
"""


def loops_of(image):
    """The methods of an image, each with its budget if it declares loops, by their names."""
    return {name: (model.Method(*declared), budget) for name, *declared, budget in embed.methods_of(image)}


class Spent(Exception):
    """Less is left of the budget than the next instruction takes."""


class ByBudget(model.Run):
    """A run of a method with loops takes weights of its budget (docs/LOOPS.md); a method without loops has none."""

    budget = None

    def go(self):
        if self.budget is None:
            return super().go()
        slot, steps, left = 0, 0, self.budget
        while True:
            opcode, regs, offset, imm = struct.unpack_from("<BBhi", self.method.code, 8 * slot)
            left -= HELPER if opcode == 0x85 else 1
            if left < 0:
                raise Spent
            slot, steps = slot + 1, steps + 1
            if opcode == 0x95:
                return steps
            slot += self.step(opcode, regs & 15, regs >> 4, offset, imm, slot)


def answer(method, budget, whole, caller, data):
    """What a method answers on an object within the limits of a flat form."""
    run = ByBudget(method, whole, caller, data)
    run.budget = budget
    try:
        return model.answer_of(run, whole)
    except Spent:
        return model.Answer(SPENT, b"", budget, whole, [])


def images(radoscls, folder):
    text = os.path.join(folder, "loops.txt")
    with open(text, "w") as file:
        file.write(CLASS)
    made = [os.path.join(folder, f"loops{budget}.img") for budget in BUDGETS]
    for budget, path in zip(BUDGETS, made):
        subprocess.run([radoscls, "asm", text, path, "--heads", "--budget", str(budget)], check=True)
    subprocess.run([radoscls, "asm", text, os.path.join(folder, "loops.img")], check=True)
    # some methods of the last declare a budget that is greater by one
    lines = subprocess.run([radoscls, "dis", made[-1]], capture_output=True, text=True, check=True).stdout
    first, name, rest = lines.partition(".method mask")
    with open(text, "w") as file:
        file.write(first + name + rest.replace(f".budget {BUDGETS[-1]}\n", f".budget {BUDGETS[-1] + 1}\n"))
    subprocess.run([radoscls, "asm", text, os.path.join(folder, "loops_more.img")], check=True)


def random_input(r, method):
    number = r.choice((0, 1, 3, 20, 60, 300, 1000))
    if method == b"busy":
        return struct.pack("<H", r.choice((number, 65535)) if r.random() < 0.02 else number)
    if method == b"fill":
        return struct.pack("<HI", number, r.choice((0, 1, 4000, 65500, 1 << 31))) + embed.random_bytes(r, 3)
    return embed.random_bytes(r, 9) if r.random() < 0.05 else embed.random_bytes(r, 1) if method == b"mask" else b""


def random_object(r):
    made = embed.random_object(r)
    if made and r.random() < 0.5:
        made[2].update((b"k%02d" % n, embed.random_bytes(r, 3)) for n in range(r.choice((1, 4, 10, 30, 60))))
    return made


def make(count, seed, path, *paths):
    r, all_images = random.Random(int(seed)), [open(it, "rb").read() for it in paths]
    names = [*loops_of(all_images[0]), b"none"]
    with open(path, "wb") as file:
        for n in range(int(count)):
            # (the last images are refused; the first call is spent, and its class is the one that threads share)
            some = all_images if n and r.random() < 0.2 else all_images[:len(BUDGETS) if n else 1]
            image, method = r.choice(some), r.choice(names) if n else b"never"
            caller = struct.pack("<I", r.randrange(1, 5))
            fields = [image, method, host.flatten(random_object(r)), caller, random_input(r, method) if n else b""]
            if n % 10 == 9:
                which = r.choice((0, 0, 2))
                fields[which] = embed.spoiled(r, fields[which])
            file.write(embed.written(fields))


def wanted(call, most):
    """What a call prints of an image that is accepted."""
    image, name, form, caller, data = call
    methods, object = loops_of(image), embed.unflattened(form)
    for n, (_, budget) in enumerate(methods.values()):
        if budget is not None and budget > most:
            return f"-27 3 {budget} {n} -1"
    if name not in methods:
        return "-95"
    method, budget = methods[name]
    if len(data) > method.in_cap:
        return "-7"
    if object is False:
        return "-22"
    whole = model.Object(*object) if object else None
    found = answer(method, budget, whole, struct.unpack("<I", caller)[0], data)
    return f"0 {found.code} {found.steps} {found.output.hex()} {model.spelled(found.edits).hex()}"


def judge(path, printed, most):
    calls, lines = embed.calls_of(path), open(printed).read().splitlines()
    wrong, kinds, spent = len(calls) != len(lines), {}, 0
    for n, (call, line) in enumerate(zip(calls, lines)):
        kind = line.split()[0]
        kinds[kind] = kinds.get(kind, 0) + 1
        spent += line.startswith(f"0 {SPENT} ")
        # (of the refusals of images and of rules tools/embed.py asks the program)
        if kind not in ("1", "2") and line != wanted(call, int(most)):
            wrong += 1
            print(f"call {n} of {call[1].decode()}: {line}, not {wanted(call, int(most))}")
    counts = ", ".join(f"{kinds[kind]} answers {kind}" for kind in sorted(kinds, key=int))
    print(f"{len(calls)} calls with loops beside a model: {counts}; {spent} were spent")
    return wrong != 0 or not spent


if __name__ == "__main__":
    sys.exit({"images": images, "make": make, "judge": judge}[sys.argv[1]](*sys.argv[2:]))
