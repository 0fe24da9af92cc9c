#!/usr/bin/env python3
"""make_draws.py FOLDER: makes the files of steps that the benchmark runs on, the same each time."""

import hashlib
import os
import random
import sys

SYLLABLES = ["an", "bar", "dor", "el", "fen", "gar", "hol", "ir", "kel", "lun", "mor", "nes", "or", "pet", "ros", "tam"]
ENTRY, CLOSE_LIST, SEAL, CLOSE_SEALS, OPENING, CLOSE = 1, 2, 3, 4, 5, 6

# File, names, parties, bytes of bits.
DRAWS = [("society", 1400, 20, 8192), ("largest", 2000, 255, 8192)]
COUNTS = [250, 500, 1000, 2000]
ARRANGEMENTS = {"sorted": sorted, "reversed": lambda names: sorted(names, reverse=True), "random": list}


def step(kind, data=b""):
    return bytes([kind]) + len(data).to_bytes(2, "little") + data


def made_names(count):
    """Different names such as people have, of 8 to 30 bytes, in no order."""
    source, names = random.Random(count), {}
    while len(names) < count:
        words = ["".join(source.choices(SYLLABLES, k=source.randint(2, 4))) for _ in range(2)]
        names[" ".join(words).ljust(8, "e").encode()] = None
    return list(names)


def whole_draw(count, parties, length):
    names, source = made_names(count), random.Random(parties)
    context = hashlib.sha256(b"".join(bytes([len(name)]) + name for name in sorted(names))).digest()
    openings = [source.randbytes(32 + length) for _ in range(parties)]
    seals = [
        hashlib.sha256(opening[:32] + context + bytes([party]) + opening[32:]).digest()
        for party, opening in enumerate(openings)
    ]
    return b"".join(
        [step(ENTRY, name) for name in names]
        + [step(CLOSE_LIST, length.to_bytes(2, "little"))]
        + [step(SEAL, seal) for seal in seals]
        + [step(CLOSE_SEALS)]
        + [step(OPENING, bytes([party]) + opening) for party, opening in enumerate(openings)]
        + [step(CLOSE)]
    )


def write(folder, name, data):
    with open(os.path.join(folder, name + ".steps"), "wb") as file:
        file.write(data)


def make(folder):
    for name, count, parties, length in DRAWS:
        write(folder, name, whole_draw(count, parties, length))
    for count in COUNTS:
        for label, arrange in ARRANGEMENTS.items():
            entries = [step(ENTRY, name) for name in arrange(made_names(count))]
            write(folder, f"entries-{count}-{label}", b"".join(entries))
    write(folder, "nothing", b"")


if __name__ == "__main__":
    if len(sys.argv) != 2:
        sys.exit("usage: make_draws.py FOLDER")
    make(sys.argv[1])
