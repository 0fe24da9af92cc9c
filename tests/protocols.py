#!/usr/bin/env python3
"""Protocols through the repeating program: those of draws, and others that anyone may have
written. Its line and its status must be what the reference says."""

import itertools
import os
import random
import sys

sys.dont_write_bytecode = True

import reference as rules
from support.building import *
from support.running import Tally, differs, memory, programs, run

SMALL = [b"carp", b"bream", b"roach"]


# --- Draws: the drawing program's own protocols are accepted ---------------------------------


def draws():
    for parties in [[0], [1], [2], [0, 1], [2, 0], [0, 1, 2]]:
        yield f"parties {parties}", Plan(SMALL, parties=3).file(parties)
    for count in [1, 2, 3, 4, 5, 16, 17, 63, 64, 65, 80, 90, 200, 256, 257, 600, 1400, 1999, 2000]:
        for length in [64, 512, 8192]:
            names = made_names(count, count, 64 if length == 64 else 9)
            yield f"{count} names, {length} bytes", Plan(names, length, parties=2).file()
    for parties in [1, 2, 254, 255]:
        yield f"{parties} parties", Plan(SMALL, parties=parties).file()
    many = Plan(SMALL, parties=255)
    yield "255 parties, the last alone", many.file([254])
    yield "255 parties backwards", many.file(range(254, -1, -1))
    yield "255 parties of 8,192 bytes", Plan(SMALL, 8192, parties=255).file()
    yield "all ones", Plan(SMALL, 64, with_sum(b"\xff" * 64, 3)).file()
    yield "all zeros", Plan(SMALL, 64, with_sum(bytes(64), 3)).file()
    source = random.Random(77)
    for at in range(60):
        plan = Plan(made_names(source.randint(1, 40), at), source.randint(64, 300), parties=source.randint(1, 6), seed=at)
        yield f"by chance {at}", plan.file(source.sample(range(len(plan.openings)), source.randint(1, len(plan.openings))))


# --- One change in a small protocol ----------------------------------------------------------


def small_protocols():
    """Left out parties, an order and none, one name and several."""
    return {
        "of three names": Plan(SMALL, parties=2).protocol(),
        "with one left out": Plan([b"b", b"ba"], parties=3).protocol([2, 1]),
        "without an order": Plan(SMALL, 64, with_sum(b"\xff" * 64, 1)).protocol(),
        "of one name": Plan([b"\0"], parties=1).protocol(),
    }


def cuts():
    for label, data in small_protocols().items():
        for length in range(len(data)):
            yield f"{label} cut at {length}", data[:length]


def appended():
    source = random.Random(5)
    for label, data in small_protocols().items():
        for tail in [b"\0", b"\1", b"\xff", b"\0\0", b"\1\0", bytes(6), data[-6:], data, source.randbytes(700)]:
            yield f"{label} with {len(tail)} bytes after it", data + tail
            yield f"{label} with {len(tail)} bytes before it", tail + data


def changed_everywhere():
    for label, data in small_protocols().items():
        for at, byte in enumerate(data):
            for value in {0, 1, 2, 255, byte ^ 1, byte ^ 128, (byte + 1) % 256} - {byte}:
                yield f"{label}, byte {at} is {value}", data[:at] + bytes([value]) + data[at + 1 :]


def put_in_and_left_out():
    for label, data in small_protocols().items():
        for at in range(0, len(data), 3):
            yield f"{label} without byte {at}", data[:at] + data[at + 1 :]
            yield f"{label}, byte {at} twice", data[: at + 1] + data[at:]


# --- Protocols in which one thing is wrong ---------------------------------------------------


def wrong_names():
    names = sorted(made_names(6, 4, 5))
    yield "names in order", forged(names)
    for i, j in itertools.combinations(range(6), 2):
        turned = list(names)
        turned[i], turned[j] = turned[j], turned[i]
        yield f"names {i} and {j} changed round", forged(turned)
        twice = list(names)
        twice[j] = twice[i]
        yield f"name {i} again at {j}", forged(twice)
    yield "names backwards", forged(names[::-1])
    pairs = [(b"a", b"a\0"), (b"a", b"ab"), (b"a" * 63, b"a" * 64), (b"\x7f", b"\x80"), (b"\0", b"\xff"), (b"ab", b"b")]
    for low, high in pairs:
        yield f"{low[:2]!r} before {high[:2]!r}", forged([low, high])
        yield f"{high[:2]!r} before {low[:2]!r}", forged([high, low])
        yield f"{low[:2]!r} twice", forged([low, low])
    for length in [0, 1, 63, 64, 65, 66, 128, 255]:
        for at in range(4):
            changed = [b"b", b"d", b"f"]
            changed.insert(at, (b"aceg"[at : at + 1] * 255)[:length])
            yield f"a name of {length} bytes at {at}", forged(changed)


def wrong_counts():
    many = [bytes(pair) for pair in itertools.product(range(256), repeat=2)]
    for count in [0, 1, 1999, 2000, 2001, 2002, 2048, 4096, 32768, 65535]:
        yield f"{count} names, all else right", forged(many[:count], 64, 1)
        yield f"{count} names in order, rows of 8,192", forged(many[:count], 8192, 1)
        for label, data in small_protocols().items():
            yield f"{label} told as {count}", rules.two(count) + data[2:]
    yield "65,535 empty names", forged([b""] * 65535, 64, 1)
    yield "65,535 names told and no more", b"\xff\xff"
    yield "65,535 lengths of 255", b"\xff" * 70000
    for length in [0, 1, 63, 64, 65, 8191, 8192, 8193, 16384, 65535]:
        for parties in [1, 3]:
            yield f"rows of {length}, {parties} parties", forged(SMALL_SORTED, length, parties)
            yield f"rows of {length}, none opened", forged(SMALL_SORTED, length, parties, opened=[])
            yield f"rows of {length}, one opened", forged(SMALL_SORTED, length, parties, opened=[parties - 1])
    for parties in [0, 1, 2, 254, 255]:
        yield f"{parties} parties", forged(SMALL_SORTED, 64, parties)
        yield f"{parties} parties, none opened", forged(SMALL_SORTED, 64, parties, opened=[])


SMALL_SORTED = sorted(SMALL)


class Parts:
    """A right protocol in parts, so that one can be changed and the rest stays as it was."""

    def __init__(self, names=SMALL_SORTED, length=64, parties=3, opened=None, total=None, seed=1):
        openings = made_openings(parties, length, seed) if total is None else with_sum(total, parties, seed)
        context = rules.list_hash(names)
        self.names, self.length = names, length
        self.seals = [rules.seal_of(context, p, o) for p, o in enumerate(openings)]
        self.openings = [o if opened is None or p in opened else None for p, o in enumerate(openings)]
        self.marks = [0 if o is None else 1 for o in self.openings]
        rows = [o[rules.HASH :] for o in self.openings if o is not None]
        self.order = rules.order_of(len(names), rules.bits_of(rules.sum_of(length, rows)))
        self.word = 0 if self.order is None else 1

    def bytes(self):
        out = bytearray(rules.two(len(self.names)))
        for name in self.names:
            out += bytes([len(name)]) + name
        out += rules.two(self.length) + bytes([len(self.seals)])
        for seal_bytes, mark, opened in zip(self.seals, self.marks, self.openings):
            out += seal_bytes + bytes([mark]) + (opened or b"")
        return bytes(out) + bytes([self.word]) + b"".join(map(rules.two, self.order or []))


def wrong_seals():
    for wrong in itertools.product([False, True], repeat=3):
        parts = Parts()
        for party in range(3):
            if wrong[party]:
                parts.seals[party] = bytes(32)
        yield f"wrong seals {wrong}", parts.bytes()
    for party in range(3):
        parts = Parts(opened=[p for p in range(3) if p != party])
        parts.seals[party] = bytes(32)
        yield f"any seal for {party}, which did not open", parts.bytes()
    for i, j in itertools.combinations(range(3), 2):
        parts = Parts()
        parts.seals[i], parts.seals[j] = parts.seals[j], parts.seals[i]
        yield f"seals {i} and {j} changed round", parts.bytes()
        parts.openings[i], parts.openings[j] = parts.openings[j], parts.openings[i]
        yield f"parties {i} and {j} changed round", parts.bytes()
    for parties in [1, 3, 255]:
        yield f"none of {parties} opened", Parts(parties=parties, opened=[]).bytes()
        empty = Parts(parties=parties, opened=[])
        empty.word, empty.order = 0, None
        yield f"none of {parties} opened and no order", empty.bytes()
    parts = Parts(parties=255)
    parts.seals[254] = bytes(32)
    yield "the last seal of 255 wrong", parts.bytes()


def wrong_marks():
    for party in range(3):
        for mark in [0, 1, 2, 3, 127, 128, 254, 255]:
            parts = Parts()
            parts.marks[party] = mark
            yield f"mark {mark} of {party}, the opening behind it", parts.bytes()
            parts.openings[party] = None
            yield f"mark {mark} of {party}, no opening behind it", parts.bytes()
            parts.marks = [mark] * 3
            parts.openings = [None] * 3
            yield f"marks {mark}, no opening behind them", parts.bytes()


def wrong_orders():
    ones = b"\xff" * 64
    for label, total in [("an order", None), ("none", ones)]:
        for word in [0, 1, 2, 3, 128, 255]:
            for order in [None, [0, 1, 2], [2, 1, 0], Parts().order]:
                parts = Parts(total=total)
                parts.word, parts.order = word, order
                yield f"{label} drawn, word {word}, order {order}", parts.bytes()
    right = Parts().order
    for order in itertools.product([0, 1, 2, 3], repeat=3):
        parts = Parts()
        parts.order = list(order)
        yield f"order {order} where {right} is drawn", parts.bytes()
    for at in range(3):
        for number in [right[at] + 256, 65535, 32768]:
            parts = Parts()
            parts.order[at] = number
            yield f"number {number} at {at} of the order", parts.bytes()
    for count in [90, 200, 1400]:
        parts = Parts(sorted(made_names(count, 2)), 64 if count < 1000 else 8192)
        parts.order = list(range(count)) if parts.order is None else parts.order[::-1]
        parts.word = 1
        yield f"{count} names, another order", parts.bytes()


def ends_of_the_bits():
    """Draws that need nearly all of 512 bits, or a few more, told rightly and wrongly."""
    for count in range(84, 92):
        names = sorted(made_names(count, 3))
        bare = len(bits_for(count, {}))
        for sevens, threes, twos in itertools.product(range(5), range(4), range(3)):
            if not 510 <= bare + 7 * sevens + 3 * threes + 2 * twos <= 514:
                continue
            bits = bits_for(count, {count: sevens, 5: threes, 3: twos}, lambda k: k * 3 // 5)
            parts = Parts(names, total=row_of(bits[:512], filler="0"))
            yield f"{count} names at {len(bits)} bits", parts.bytes()
            if parts.order is None:
                parts.word, parts.order = 1, list(range(count))
            else:
                parts.word, parts.order = 0, None
            yield f"{count} names at {len(bits)} bits, told wrongly", parts.bytes()


def several_wrong():
    """Every set of faults: the one with the lowest number is told."""
    def swap(parts):
        parts.names = [parts.names[1], parts.names[0], parts.names[2]]

    def mark(parts):
        parts.marks[1], parts.openings[1] = 2, None

    def spoil(parts):
        parts.seals[2] = bytes(32)

    def turn(parts):
        parts.order = parts.order[::-1]

    def word(parts):
        parts.word, parts.order = 0, None

    faults = [swap, mark, spoil, turn]
    for count in range(1, 5):
        for chosen in itertools.combinations(faults, count):
            for last in [None, word]:
                parts = Parts()
                for fault in chosen + ((last,) if last else ()):
                    fault(parts)
                label = " ".join(f.__name__ for f in chosen)
                yield f"faults {label} {last and 'word'}", parts.bytes()
                yield f"faults {label} {last and 'word'} and a byte more", parts.bytes() + b"\0"
                yield f"faults {label} {last and 'word'} and a byte less", parts.bytes()[:-1]


# --- By chance -------------------------------------------------------------------------------


def mutated(source, protocols):
    data = bytearray(source.choice(protocols))
    for _ in range(source.choice([1, 1, 2, 3])):
        at = source.randrange(len(data))
        change = source.randrange(5)
        if change == 0:
            data[at] ^= 1 << source.randrange(8)
        elif change == 1:
            data[at] = source.choice([0, 1, 2, 64, 65, 255])
        elif change == 2:
            del data[at : at + source.randint(1, 3)]
        elif change == 3:
            data[at:at] = source.randbytes(source.randint(1, 3))
        else:
            to = source.randrange(len(data))
            data[at], data[to] = data[to], data[at]
        if not data:
            break
    return bytes(data)


def by_chance():
    source = random.Random(1400)
    protocols = list(small_protocols().values())
    for at in range(12):
        plan = Plan(made_names(source.randint(1, 12), at, 4), 64, parties=source.randint(1, 4), seed=at)
        protocols.append(plan.protocol())
    for at in range(1500):
        yield f"changed by chance {at}", mutated(source, protocols)
    for at in range(200):
        yield f"noise {at}", source.randbytes(source.randint(0, 300))
    for at in range(100):
        names = [source.randbytes(source.choice([0, 1, 2])) for _ in range(source.randint(0, 3))]
        yield f"forged by chance {at}", forged(names, source.choice([63, 64, 65]), source.randint(0, 3), seed=at)


# --- Running ---------------------------------------------------------------------------------

GROUPS = [
    cuts,
    appended,
    changed_everywhere,
    put_in_and_left_out,
    wrong_names,
    wrong_counts,
    wrong_seals,
    wrong_marks,
    wrong_orders,
    ends_of_the_bits,
    several_wrong,
    by_chance,
]


def compare(program, tally, data):
    expected = rules.repeat(data)
    tally.expect(expected.stdout)
    ran = run(program, tally.write("protocol", data))
    return differs("status", ran.returncode, expected.status) + differs(
        "stdout", ran.stdout, expected.stdout.encode()
    )


def compare_draw(paths, tally, steps):
    """A draw by the program, and its own protocol repeated: the same two last lines."""
    expected = rules.draw(steps)
    path = tally.path("drawn")
    drawn = run(paths.draw, tally.write("steps", steps), path)
    faults = differs("status of the draw", drawn.returncode, 0)
    if not os.path.exists(path):
        return faults + [("protocol", "not written")]
    with open(path, "rb") as file:
        faults += differs("protocol", file.read(), expected.protocol)
    repeated = run(paths.repeat, path)
    faults += differs("status", repeated.returncode, 0)
    faults += differs("stdout", repeated.stdout, expected.stdout.encode())
    faults += differs("stdout against the draw's", repeated.stdout, drawn.stdout)
    os.remove(path)
    return faults


def main():
    paths = programs(__doc__, "draw", "repeat")
    tally = Tally(paths.first, memory())
    for label, steps in draws():
        tally.case(label, compare_draw(paths, tally, steps), steps)
    for group in GROUPS:
        for label, data in group():
            tally.case(label, compare(paths.repeat, tally, data), data)
    tally.all_tried(range(11, 15))
    tally.end()


if __name__ == "__main__":
    main()
