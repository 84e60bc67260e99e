#!/usr/bin/env python3
"""Requests with each byte changed, and cut at each length: each answer is the expected one, and what is
refused changes nothing.

    bad_requests.py IMAGES RADOSCLS VALUES cluster CONF | stand-in PROGRAM FOLDER

VALUES is how many other values each byte takes, at most 255. Whether a changed image is accepted is what
`radoscls verify` says, but for bytes that it reads as a text; with `-` for RADOSCLS an accepted one is
still run beside the model.
"""

import struct
import subprocess
import sys

import expected
import osd
from model import Object
from osd import load_request, request


def variants(chance, data, values):
    """The bytes cut at each length, and with each byte changed."""
    for length in range(len(data)):
        yield data[:length]
    for at, byte in enumerate(data):
        for other in chance.sample([value for value in range(256) if value != byte], values):
            yield data[:at] + bytes([other]) + data[at + 1 :]


def loaded(data, held, accepted):
    """What `load` answers, or UNKNOWN if the image decides."""
    length = data[0] if data else 0
    name, image = data[1 : 1 + length], data[1 + length :]
    if not data or len(name) < length or not expected.is_class_name(name):
        return -22, held
    if image not in accepted:
        return expected.UNKNOWN, held
    whole, classes = held or (Object(), {})
    return 0, (whole, {**classes, name: image})


def is_text(image):
    """Bytes that `radoscls` reads as a class's text: the plug-in reads images alone."""
    if len(image) < 4 or image.startswith(b"RCL") or b"\0" in image:
        return False
    try:
        image.decode()
    except UnicodeDecodeError:
        return False
    return True


class Trial:
    def __init__(self, backend, tally, images, radoscls):
        self.backend, self.tally, self.images, self.radoscls = backend, tally, images, radoscls
        self.accepted, self.verdicts = set(images.values()), {}
        self.is_put = False  # whether the object is as it was put: no call since then was answered

    def is_accepted(self, image):
        """What `radoscls` says of an image; its line is what `verify` answers."""
        if image not in self.verdicts:
            if is_text(image):
                self.verdicts[image], line = False, b"image refused after 0 methods: 2 Magic"
            else:
                made = subprocess.run(
                    [self.radoscls, "verify", "-"], input=image, stdout=subprocess.PIPE, timeout=60, check=False
                )
                self.verdicts[image] = made.returncode == 0
                line = b"" if made.returncode == 0 else made.stdout.strip()
            self.tally.want(f"verify {image.hex()}", self.backend.call("bad", "verify", image), (0, line))
        return self.verdicts[image]

    def go(self, way, data):
        held = (Object(b"text", {b"x": b"1"}, {b"k": b"2"}), dict(self.images))
        if not self.is_put:
            self.backend.put("bad", held[0], held[1])
        what = f"{way} {data[:60].hex()}"
        found = self.backend.call("bad", way, data)
        if way == "load":
            result, after = loaded(data, held, self.accepted)
            image = data[1 + data[0] :] if data else b""
            output = b""
        else:
            result, output, after, _ = expected.call(way, data, held, self.backend.number(), self.accepted)
            image = expected.parse(data)[1] if result is expected.UNKNOWN else b""
        if result is expected.UNKNOWN and (self.is_accepted(image) if self.radoscls != "-" else found[0] != -8):
            # Another class that is safe: beside the model, too.
            self.accepted.add(image)
            if way == "load":
                result, after = loaded(data, held, self.accepted)
            else:
                result, output, after, _ = expected.call(way, data, held, self.backend.number(), self.accepted)
        elif result is expected.UNKNOWN:
            result, output = -8, b""
        left = self.backend.get("bad")
        self.tally.want(what, found, (result, b"" if result < 0 else output))
        self.tally.want(f"the object after {what}", left, after[0] if after else None)
        self.is_put = found[0] == result < 0 and left == held[0]


def main(words):
    folder, radoscls, values = words[0], words[1], int(words[2])
    images = osd.images_in(folder)
    tally, chance = osd.Tally(f"bad requests, {words[3]}"), osd.seeded(7)
    trial = Trial(osd.open_from(words[3:]), tally, images, radoscls)
    small = (
        b"RCL1"
        + struct.pack("<HH", 1, 0)
        + b"\1f"
        + struct.pack("<BHHH", 1, 8, 8, 3)
        + bytes.fromhex("7913000000000000b700000005000000" "9500000000000000")
    )
    named = [
        ("exec", request(b"helpers", b"map_set", b"\3newvalue", False)),
        ("query", request(b"helpers", b"read", struct.pack("<QQ", 1, 3), False)),
    ]
    named += [("run", request(b"lock", b"lock", b"me", False)), ("see", request(b"helpers", b"map_get", b"k", False))]
    for way, data in named:
        for each in variants(chance, data, values):
            trial.go(way, each)
    for way, data in [
        ("exec_sent", request(images[b"count"], b"count", b"", True)),
        ("load", load_request(b"new", images[b"lock"])),
        ("load", load_request(b"f", small)),
    ]:
        for each in variants(chance, data, max(values // 64, 1)):
            trial.go(way, each)
    trial.backend.close()
    tally.end()


if __name__ == "__main__":
    main(sys.argv[1:])
