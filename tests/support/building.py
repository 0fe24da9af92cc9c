"""Files of steps and protocols for the tests, right ones and wrong ones."""

import random

import reference as rules


# --- Steps -----------------------------------------------------------------------------------


def step(kind, data=b""):
    return bytes([kind]) + rules.two(len(data)) + data


def entry(name):
    return step(rules.ENTRY, name)


def close_list(length):
    return step(rules.CLOSE_LIST, rules.two(length))


def seal(data):
    return step(rules.SEAL, data)


def close_seals(data=b""):
    return step(rules.CLOSE_SEALS, data)


def opening(party, data):
    return step(rules.OPENING, bytes([party]) + data)


def close(data=b""):
    return step(rules.CLOSE, data)


# --- Whole draws -----------------------------------------------------------------------------


def made_names(count, seed=1, longest=12):
    """Different names of made-up bytes, in no order."""
    source, names = random.Random(seed), {}
    while len(names) < count:
        names[source.randbytes(source.randint(1, longest))] = None
    return list(names)


def made_openings(parties, length, seed=1):
    source = random.Random(seed)
    return [source.randbytes(rules.HASH + length) for _ in range(parties)]


class Plan:
    """A draw as it should go; its parts can be put together in other ways."""

    def __init__(self, names, length=64, openings=None, parties=2, seed=1):
        self.names = list(names)
        self.length = length
        self.openings = made_openings(parties, length, seed) if openings is None else list(openings)
        self.context = rules.list_hash(sorted(self.names))
        self.seals = [rules.seal_of(self.context, p, o) for p, o in enumerate(self.openings)]

    def entries(self):
        return [entry(name) for name in self.names]

    def sealing(self):
        return [seal(data) for data in self.seals]

    def opening(self, party):
        return opening(party, self.openings[party])

    def opened(self, parties=None):
        if parties is None:
            parties = range(len(self.openings))
        return [self.opening(party) for party in parties]

    def steps(self, parties=None):
        """The steps one by one; only the given parties open, in the order given."""
        return [
            *self.entries(),
            close_list(self.length),
            *self.sealing(),
            close_seals(),
            *self.opened(parties),
            close(),
        ]

    def file(self, parties=None):
        return b"".join(self.steps(parties))

    def protocol(self, parties=None):
        return rules.draw(self.file(parties)).protocol


def with_sum(total, parties=1, seed=1):
    """Openings whose rows add up to the given bytes."""
    openings = made_openings(parties, len(total), seed)
    others = [o[rules.HASH :] for o in openings[1:]]
    row = rules.sum_of(len(total), [total, *others])
    return [openings[0][: rules.HASH] + row, *openings[1:]]


def row_of(bits, length=64, filler="1"):
    """The bytes whose bits begin with the given ones."""
    bits = bits.ljust(8 * length, filler)
    return bytes(int(bits[at : at + 8], 2) for at in range(0, 8 * length, 8))


def bits_for(n, thrown_away, choose=lambda k: 0):
    """Bits that draw choose(k) below each k from n to 2, after thrown_away.get(k) numbers too large."""
    out = ""
    for k in range(n, 1, -1):
        w = rules.width(k)
        out += format(2**w - 1, f"0{w}b") * thrown_away.get(k, 0) + format(choose(k), f"0{w}b")
    return out


# --- Protocols -------------------------------------------------------------------------------


def forged(names, length=64, parties=2, opened=None, seed=1, total=None):
    """A protocol over any names in any order, counts out of range too: all else in it is right.

    What is wrong with the names or the counts is then the only fault.
    """
    openings = made_openings(parties, length, seed) if total is None else with_sum(total, parties, seed)
    context = rules.list_hash(names) if all(len(name) < 256 for name in names) else b""
    told = [
        (rules.seal_of(context, party, o), o if opened is None or party in opened else None)
        for party, o in enumerate(openings)
    ]
    rows = [o[rules.HASH :] for _, o in told if o is not None]
    order = rules.order_of(len(names), rules.bits_of(rules.sum_of(length, rows)))
    return rules.protocol_of(names, length, told, order)
