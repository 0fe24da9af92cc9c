#!/usr/bin/env python3
"""The rules of the draw in plain Python, written from the rules alone.

`draw(steps)` says what the drawing program prints, writes and answers for a file of steps, and
`repeat(protocol)` what the repeating program does. Run as a script this file checks itself on
small draws whose outcome is known.
"""

import hashlib
import itertools
from bisect import bisect_left
from dataclasses import dataclass, field

MOST_NAMES = 2000
LONGEST_NAME = 64
SHORTEST_ROW, LONGEST_ROW = 64, 8192  # of a party's bits, in bytes
MOST_PARTIES = 255
HASH = 32  # bytes of a hash, and of what a party chooses at will for its seal

ENTRY, CLOSE_LIST, SEAL, CLOSE_SEALS, OPENING, CLOSE = 1, 2, 3, 4, 5, 6


# --- The hash of the list, and seals ---------------------------------------------------------


def sha256(data):
    return hashlib.sha256(data).digest()


def list_hash(names):
    """The hash of the names in their order, each after one byte of its length."""
    return sha256(b"".join(bytes([len(name)]) + name for name in names))


def seal_of(context, party, opening):
    """The seal of an opening: of its 32 bytes, the list's hash, the party's number, its bits."""
    return sha256(opening[:HASH] + context + bytes([party]) + opening[HASH:])


# --- The sum, numbers, the order -------------------------------------------------------------


def sum_of(length, rows):
    """Each byte is the exclusive-or of the rows' bytes at its place."""
    total = 0
    for row in rows:
        total ^= int.from_bytes(row, "big")
    return total.to_bytes(length, "big")


def bits_of(data):
    """The bits of the bytes as text of 0 and 1, the highest bit of a byte first."""
    return "".join(format(byte, "08b") for byte in data)


def width(n):
    """The least w with n at most 2^w."""
    w = 0
    while 2**w < n:
        w += 1
    return w


def number_below(n, bits, at):
    """The number drawn from the bits from `at` on and the place after it, or None if they run out."""
    w = width(n)
    while True:
        if len(bits) - at < w:
            return None
        number = int("0" + bits[at : at + w], 2)
        at += w
        if number < n:
            return number, at


def order_of(n, bits):
    """The order of n names as numbers of the list, or None if the bits run out."""
    left, order, at = list(range(n)), [], 0
    while left:
        drawn = number_below(len(left), bits, at)
        if drawn is None:
            return None
        number, at = drawn
        order.append(left.pop(number))
    return order


# --- The steps of a draw ---------------------------------------------------------------------


@dataclass
class Draw:
    """A draw under way. `step` takes a step, or answers its refusal as (number, place)."""

    phase: str = "list"  # then "seals", "openings", "over"
    names: list = field(default_factory=list)  # sorted
    length: int = 0  # of a party's bits, in bytes
    context: bytes = b""  # the list's hash
    seals: list = field(default_factory=list)
    openings: dict = field(default_factory=dict)  # by party

    def step(self, kind, data):
        takers = {
            ENTRY: self.entry,
            CLOSE_LIST: self.close_list,
            SEAL: self.seal,
            CLOSE_SEALS: self.close_seals,
            OPENING: self.opening,
            CLOSE: self.close,
        }
        if kind not in takers:
            return 3, 0
        return takers[kind](data)

    def entry(self, name):
        # Refusals are looked for by their numbers: 1 and 2 come before 3, whatever the phase.
        if not 1 <= len(name) <= LONGEST_NAME:
            return 1, len(name)
        place = bisect_left(self.names, name)
        if self.names[place : place + 1] == [name] or len(self.names) == MOST_NAMES:
            return 2, 0
        if self.phase != "list":
            return 3, 0
        self.names.insert(place, name)

    def close_list(self, data):
        if self.phase != "list":
            return 3, 0
        if len(data) != 2:
            return 4, 0
        length = int.from_bytes(data, "little")
        if not SHORTEST_ROW <= length <= LONGEST_ROW:
            return 4, 0
        if not self.names:
            return 9, 0
        self.length, self.context, self.phase = length, list_hash(self.names), "seals"

    def seal(self, data):
        if self.phase != "seals":
            return 3, 0
        if len(data) != HASH:
            return 5, len(data)
        if len(self.seals) == MOST_PARTIES:
            return 5, MOST_PARTIES
        self.seals.append(data)

    def close_seals(self, _):
        if self.phase != "seals":
            return 3, 0
        if not self.seals:
            return 9, 1
        self.phase = "openings"

    def opening(self, data):
        if self.phase != "openings":
            return 3, 0
        if not data:  # no party is named, so that only its length can be told
            return 7, 0
        party, opening = data[0], data[1:]
        if party >= len(self.seals) or party in self.openings:
            return 6, party
        if len(opening) != HASH + self.length:
            return 7, len(opening)
        if seal_of(self.context, party, opening) != self.seals[party]:
            return 8, party
        self.openings[party] = opening

    def close(self, _):
        if self.phase != "openings":
            return 3, 0
        if not self.openings:
            return 9, 2
        self.phase = "over"

    def order(self):
        rows = [opening[HASH:] for opening in self.openings.values()]
        return order_of(len(self.names), bits_of(sum_of(self.length, rows)))

    def summary(self):
        return summary(len(self.names), len(self.seals), len(self.openings), self.order())

    def left_out(self):
        return [party for party in range(len(self.seals)) if party not in self.openings]

    def protocol(self):
        openings = [self.openings.get(party) for party in range(len(self.seals))]
        return protocol_of(self.names, self.length, list(zip(self.seals, openings)), self.order())


def summary(names, parties, opened, order):
    """The two lines that a draw ends with."""
    told = "none" if order is None else " ".join(map(str, order))
    return f"names {names} parties {parties} opened {opened}\norder {told}\n"


def protocol_of(names, length, parties, order):
    """The bytes of a protocol; numbers of two bytes have the low one first."""
    out = bytearray(two(len(names)))
    for name in names:
        out += bytes([len(name)]) + name
    out += two(length) + bytes([len(parties)])
    for seal, opening in parties:
        out += seal + (b"\0" if opening is None else b"\1" + opening)
    out += b"\0" if order is None else b"\1" + b"".join(map(two, order))
    return bytes(out)


def two(number):
    return number.to_bytes(2, "little")


def steps_of(data):
    """The whole steps at the head of a file, and whether the file ends after one of them."""
    steps, at = [], 0
    while len(data) - at >= 3:
        length = int.from_bytes(data[at + 1 : at + 3], "little")
        if len(data) - at - 3 < length:
            break
        steps.append((data[at], data[at + 3 : at + 3 + length]))
        at += 3 + length
    return steps, at == len(data)


@dataclass
class Run:
    """What a program does: its text, its status, the parties that it names, what it writes."""

    stdout: str
    status: int
    left_out: list = field(default_factory=list)
    protocol: bytes = None


def draw(data):
    """What the drawing program does with a file of steps."""
    now, text = Draw(), ""
    steps, whole = steps_of(data)
    for count, (kind, payload) in enumerate(steps, 1):
        refusal = now.step(kind, payload)
        if refusal:
            text += "step {} refused {} at {}\n".format(count, *refusal)
    if not whole or now.phase != "over":
        return Run(text, 1)
    return Run(text + now.summary(), 0, now.left_out(), now.protocol())


# --- A protocol that anyone may have written -------------------------------------------------


class Refused(Exception):
    """Refused with a number and a place."""


@dataclass
class Shape:
    """The parts of a protocol and where they begin, taken as they stand."""

    count: int  # of names, as told
    names: list  # (place of the length byte, name)
    length: int
    length_at: int
    parties: list  # (place of the opened byte, seal, opened byte, opening)
    parties_at: int
    word: int
    word_at: int
    order: bytes


class Reader:
    def __init__(self, data):
        self.data, self.at = data, 0

    def take(self, count):
        if len(self.data) - self.at < count:
            raise Refused(11, len(self.data))
        self.at += count
        return self.data[self.at - count : self.at]

    def number(self, count):
        return int.from_bytes(self.take(count), "little")


def shape_of(data):
    """The first pass. Only a byte 1 has an opening or an order behind it."""
    reader = Reader(data)
    names, parties = [], []
    count = reader.number(2)
    for _ in range(count):
        names.append((reader.at, reader.take(reader.number(1))))
    length_at, length = reader.at, reader.number(2)
    parties_at, party_count = reader.at, reader.number(1)
    for _ in range(party_count):
        seal, opened_at, opened = reader.take(HASH), reader.at, reader.number(1)
        parties.append((opened_at, seal, opened, reader.take(HASH + length) if opened == 1 else None))
    word_at, word = reader.at, reader.number(1)
    order = reader.take(2 * count) if word == 1 else b""
    if reader.at < len(data):
        raise Refused(11, reader.at)
    return Shape(count, names, length, length_at, parties, parties_at, word, word_at, order)


def check_ranges(shape):
    """The second pass, in the order of the bytes."""
    if not 1 <= shape.count <= MOST_NAMES:
        raise Refused(12, 0)
    before = b""  # every name is above the row of no bytes
    for at, name in shape.names:
        if not 1 <= len(name) <= LONGEST_NAME:
            raise Refused(12, at)
        if not before < name:
            raise Refused(12, at + 1)
        before = name
    if not SHORTEST_ROW <= shape.length <= LONGEST_ROW:
        raise Refused(12, shape.length_at)
    if not shape.parties:
        raise Refused(12, shape.parties_at)
    for at, _, opened, _ in shape.parties:
        if opened not in (0, 1):
            raise Refused(12, at)


def check_seals(shape):
    """The third pass."""
    context = list_hash([name for _, name in shape.names])
    for party, (_, seal, _, opening) in enumerate(shape.parties):
        if opening is not None and seal_of(context, party, opening) != seal:
            raise Refused(13, party)
    if all(opening is None for _, _, _, opening in shape.parties):
        raise Refused(13, 255)


def check_order(shape):
    """The fourth pass: the word whether there is an order, and the order."""
    rows = [opening[HASH:] for _, _, _, opening in shape.parties if opening is not None]
    order = order_of(shape.count, bits_of(sum_of(shape.length, rows)))
    if shape.word != (0 if order is None else 1):
        raise Refused(14, shape.word_at)
    if order is not None and b"".join(map(two, order)) != shape.order:
        raise Refused(14, shape.word_at + 1)
    return summary(shape.count, len(shape.parties), len(rows), order)


def repeat(data):
    """What the repeating program does with a protocol."""
    try:
        shape = shape_of(data)
        check_ranges(shape)
        check_seals(shape)
        return Run(check_order(shape), 0)
    except Refused as refused:
        return Run("refused {} at {}\n".format(*refused.args), 1)


# --- Draws whose outcome is known ------------------------------------------------------------

# Names, bits, how many rows of bits give each order, how many give none.
KNOWN_COUNTS = [
    (1, 0, 1, 0),
    (2, 3, 4, 0),
    (3, 5, 5, 2),
    (3, 8, 42, 4),
    (4, 9, 21, 8),
    (4, 12, 170, 16),
    (5, 11, 13, 488),
]


def self_check():
    checks = 0
    for n, length, each, none in KNOWN_COUNTS:
        found = {}
        for row in itertools.product("01", repeat=length):
            order = order_of(n, "".join(row))
            key = order and tuple(order)
            found[key] = found.get(key, 0) + 1
        assert found.pop(None, 0) == none, (n, length)
        assert found == {order: each for order in itertools.permutations(range(n))}, (n, length)
        checks += 1
    assert order_of(3, "11011") == [1, 2, 0]
    assert order_of(3, "11110") is None
    assert sha256(b"").hex() == "e3b0c44298fc1c149afbf4c8996fb92427ae41e4649b934ca495991b7852b855"
    assert sha256(b"abc").hex() == "ba7816bf8f01cfea414140de5dae2223b00361a396177a9cb410ff61f20015ad"
    assert sum_of(2, [b"\x0f\x01", b"\xff\x01", b"\x01\x80"]) == b"\xf1\x80"
    assert bits_of(b"\x80\x01") == "1000000000000001"
    assert [width(n) for n in (1, 2, 3, 4, 5, 1024, 1025, 1400, 2000)] == [0, 1, 2, 2, 3, 10, 11, 11, 11]
    print(f"reference.py: {checks + 7} known outcomes, all as told")


if __name__ == "__main__":
    self_check()
