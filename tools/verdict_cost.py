#!/usr/bin/env python3
"""Counts the instructions that a verdict takes a slot, and a call by a handle.

    tools/verdict_cost.py [ARCHIVE ..]

ARCHIVE is what `rt lib` leaves in crates/sillarnica, if none is given; of several the counts stand side by side, so that two
states can be compared. The methods are those that crates/bench measures, as images of each rule set that takes them. It needs
cc, valgrind and the kit. Counts are the same in each run.
"""
import re
import struct
import subprocess
import sys
import tempfile
from pathlib import Path

TOP = Path(__file__).resolve().parent.parent
ARCHIVE = TOP / "crates/sillarnica/out/libsillarnica.a"
SETS = {"One": 1, "Two": 2, "Three": 3}
EXIT = b"\x95" + bytes(7)

HOST = """
#include "sillarnica.h"
#include <stdio.h>
#include <stdlib.h>
int main(int count, char **words) {
    static uint8_t image[1 << 20], out[64], object[1];
    size_t length = fread(image, 1, sizeof image, fopen(words[1], "rb"));
    struct sillarnica_refusal why = {0};
    struct sillarnica_verified handle = {0};
    struct sillarnica_answer answer;
    for (int i = atoi(words[2]); i > 0; i--)
        if (sillarnica_verify(image, length, &why))
            return 1;
    if (count > 3 && sillarnica_verified_open(image, length, &why, &handle))
        return 1;
    for (int i = count > 3 ? atoi(words[3]) : 0; i > 0; i--)
        if (sillarnica_verified_call(&handle, (uint8_t *)"f", 1, object, 1, 0, object, 0, &answer, out, sizeof out))
            return 1;
    return 0;
}
"""


def methods():
    """The measured methods: a name, the least rule set, and the code."""
    text = (TOP / "crates/bench/src/table/workload.rt").read_text(encoding="utf-8")
    slots = {name: b"".join(bytes(int(it, 0) for it in slot.split(",")) for slot in re.findall(r"\[([0-9a-fx, ]+)\]", body))
             for name, body in re.findall(r"(?s)const (\w+): \[Slot; \d\] = \[(.*?)\n\];", text)}
    row = r'name: "(\w+)",\s*rules: RuleSet::(\w+),\s*head: (\w+),\s*cycle: (\w+),\s*rounds: (\d+)'
    return [(name, SETS[rules], slots[head] + slots[cycle] * int(rounds) + EXIT)
            for name, rules, head, cycle, rounds in re.findall(row, text)]


def image(rules, code):
    head = b"RCL%d" % rules + struct.pack("<HH", 1, 0) + b"\x01f" + struct.pack("<BHHH", 1, 0, 0, len(code) // 8)
    return head + code + (bytes(2) if rules == 3 else b"")


def instructions(*command):
    said = subprocess.run(["valgrind", "--tool=callgrind", "--callgrind-out-file=/dev/null", *command],
                          stderr=subprocess.PIPE, text=True, check=True).stderr
    return int(re.search(r"Collected : (\d+)", said)[1])


def main(archives):
    with tempfile.TemporaryDirectory() as folder:
        room, hosts = Path(folder), []
        (room / "host.c").write_text(HOST)
        for number, archive in enumerate(archives):
            subprocess.run([TOP / "tools/library.sh", room / str(number), archive], check=True, stdout=subprocess.DEVNULL)
            hosts.append(str(room / f"host{number}"))
            subprocess.run(["cc", "-O2", "-I", room / str(number), "-o", hosts[-1], room / "host.c",
                            room / str(number) / "libsillarnica.a"], check=True)
        print(f"{'a slot':<10} {'set':>3}" + "".join(f"{Path(it).parent.name if len(archives) > 1 else '':>12}" for it in archives))
        for name, least, code in methods():
            for rules in range(least, 4):
                path = room / "image"
                path.write_bytes(image(rules, code))
                slots = len(code) // 8
                counts = [(instructions(host, str(path), "5") - instructions(host, str(path), "1")) // (4 * slots) for host in hosts]
                if slots >= 1000:
                    print(f"{name:<10} {rules:>3}" + "".join(f"{it:>12,}" for it in counts), flush=True)
                elif name == "call" and rules == least:
                    calls = [(instructions(host, str(path), "0", "101") - instructions(host, str(path), "0", "1")) // 100 for host in hosts]
                    print(f"{'a call':<10} {'':>3}" + "".join(f"{it:>12,}" for it in calls), flush=True)
    return 0


if __name__ == "__main__":
    sys.exit(main(sys.argv[1:] or [str(ARCHIVE)]))
