#!/usr/bin/env python3
"""Exactly once: sessions add to counters while OSDs may end and come back. No call fails, each counter is the
number of its answered calls, and the answers of a counter are 1, 2, 3 ..

    counters.py CONF IMAGE SESSIONS COUNTERS CALLS SECONDS

IMAGE is that of the class `count` (examples/count.txt). It makes at least so many calls, and goes on for at
least so many seconds.
"""

import struct
import sys
import threading
import time

import osd
from osd import load_request, request


def add(session, counter):
    result, output = session.call(counter, "exec", request(b"count", b"count", b"", False))
    assert result == 0, f"{counter}: {result}"
    code, _, number = struct.unpack("<qQQ", output)
    assert code == number
    return number


def main(words):
    conf, image, sessions, counters, calls, seconds = words
    tally, chance = osd.Tally("exactly once"), osd.seeded(3)
    names = [f"counter{n}" for n in range(int(counters))]
    made = [osd.Cluster(conf) for _ in range(int(sessions))]
    with open(image, "rb") as file:
        asked = load_request(b"count", file.read())
    for name in names:
        made[0].put(name, None)
        tally.want(f"load beside {name}", made[0].call(name, "load", asked), (0, b""))
    end, answers, slowest, failed = time.monotonic() + float(seconds), [], [0.0], []

    def work(session, mine):
        while len(mine) * len(made) < int(calls) or time.monotonic() < end:
            name, start = chance.choice(names), time.monotonic()
            try:
                mine.append((name, add(session, name)))
            except Exception as error:  # it would end its thread alone
                failed.append(str(error))
                return
            slowest[0] = max(slowest[0], time.monotonic() - start)

    threads = []
    for session in made:
        answers.append([])
        threads.append(threading.Thread(target=work, args=(session, answers[-1])))
        threads[-1].start()
    for each in threads:
        each.join()
    tally.want("failed calls", failed, [])
    for name in names:
        numbers = sorted(number for mine in answers for at, number in mine if at == name)
        tally.want(f"the answers of {name}", numbers, [*range(1, len(numbers) + 1)])
        tally.want(f"{name} afterwards", made[0].get(name).keys, {b"n": struct.pack("<Q", len(numbers))})
    for session in made:
        session.close()
    total = sum(map(len, answers))
    print(
        f"     {total} calls by {sessions} sessions on {counters} counters, the slowest {slowest[0]:.1f} s",
        flush=True,
    )
    tally.want("calls that were made", total >= int(calls), True)
    tally.end()


if __name__ == "__main__":
    main(sys.argv[1:])
