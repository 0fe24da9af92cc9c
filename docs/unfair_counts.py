#!/usr/bin/env python3
"""Counts, by trying every case, how much each unfair way of drawing favours somebody.

    docs/unfair_counts.py

Prints the table that docs/UNFAIR.md explains. Names are numbers of the list, from 0; a row is all
that is thrown for one draw, and every row comes equally often.
"""

from collections import Counter
from hashlib import sha256
from itertools import permutations, product


def width(n):
    """How many bits a number below n needs: the least w with n at most 2^w."""
    return (n - 1).bit_length()


def draw(n, bits, when_out=lambda left: None):
    """The order of n names from bits by the rules of this repository.

    Where the bits run out the answer is what `when_out` makes of the names that are left: None
    for no order, or names to be put behind those that are drawn.
    """
    left, order, at = list(range(n)), [], 0
    while left:
        w = width(len(left))
        if len(bits) - at < w:
            rest = when_out(left)
            return None if rest is None else tuple(order + rest)
        number = int("".join(map(str, bits[at : at + w])) or "0", 2)
        at += w
        if number < len(left):
            order.append(left.pop(number))
    return tuple(order)


def rows(bits):
    return product((0, 1), repeat=bits)


def added(a, b):
    return tuple(x ^ y for x, y in zip(a, b))


def row(way, what, found):
    print(f"{way:<24} | {what:<62} | {told(found)}")


def told(found):
    """Numbers one after another, and orders with the rows that give them."""
    if isinstance(found, dict):
        return ", ".join(f"{' '.join(map(str, order))}: {count:,}" for order, count in found.items())
    if isinstance(found, (list, tuple)):
        return ", ".join(f"{count:,}" for count in found)
    return found if isinstance(found, str) else f"{found:,}"


def modulo():
    counts = Counter(number % 3 for number in range(4))
    row("a number modulo n", "2 bits modulo 3: rows of 4 for 0, 1, 2", [counts[k] for k in range(3)])
    counts = Counter(number % 3 for number in range(256))
    row("", "8 bits modulo 3: rows of 256 for 0, 1, 2", [counts[k] for k in range(3)])
    counts = Counter(number % 1400 for number in range(2048))
    twice = [k for k in counts if counts[k] == 2]
    row("", "11 bits modulo 1,400: numbers with two rows, with one", [len(twice), 1400 - len(twice)])
    assert twice == list(range(len(twice)))


def swap_with_any(n, numbers):
    names = list(range(n))
    for place, other in enumerate(numbers):
        names[place], names[other] = names[other], names[place]
    return tuple(names)


def swapping():
    counts = Counter(swap_with_any(3, numbers) for numbers in product(range(3), repeat=3))
    row("swapping with any name", "3 names: rows of 27 for each order", {k: counts[k] for k in permutations(range(3))})
    counts = Counter(swap_with_any(4, numbers) for numbers in product(range(4), repeat=4))
    assert len(counts) == 24
    row("", "4 names: rows of 256 for the rarest order, the commonest", (min(counts.values()), max(counts.values())))


def sorting():
    for n, bits in ((2, 8), (3, 2)):
        counts = Counter(
            tuple(sorted(range(n), key=lambda name: keys[name])) for keys in product(range(2**bits), repeat=n)
        )
        each = {k: counts[k] for k in permutations(range(n))}
        row("sorting by random keys", f"{n} names, keys of {bits} bits: rows of {2 ** (n * bits):,} for each order", each)


def going_on():
    for n, bits in ((3, 5), (5, 11)):
        right = Counter(draw(n, r) for r in rows(bits))
        without = right.pop(None)
        assert len(set(right.values())) == 1
        counts = Counter(draw(n, r, when_out=list) for r in rows(bits))
        listed = tuple(range(n))
        firsts = Counter()
        for order, count in counts.items():
            firsts[order[0]] += count
        row("going on by number", f"{n} names, {bits} bits: by the rules, rows for each order, for none", [right[listed], without])
        row("", "going on: rows for the list's order, the fewest for another", [counts[listed], min(counts.values())])
        row("", "going on: rows that put each name first", [firsts[k] for k in range(n)])


def drawing_again():
    """One more draw if name 0 is not first in the first one."""
    orders = list(permutations(range(3)))
    firsts = Counter((one if one[0] == 0 else two)[0] for one, two in product(orders, repeat=2))
    row("drawing again", "3 names, two draws: pairs of 36 that put each name first", [firsts[k] for k in range(3)])


def seeing_first():
    """The last party knows the other's row, and puts in the first row of its own that gives 2 1 0."""
    wanted, got = (2, 1, 0), Counter()
    for other in rows(5):
        mine = next(r for r in rows(5) if draw(3, added(other, r)) == wanted)
        got[draw(3, added(other, mine))] += 1
    row("seeing openings first", "3 names, 5 bits: rows of 32 that give the wanted order", got[wanted])
    by_rules = sum(draw(3, added(other, (0,) * 5)) == wanted for other in rows(5))
    row("", "the same where it has not seen them", by_rules)


def trying_seals():
    """Seals of the bits alone: whether every row has a hash of its own."""
    hashes = Counter(sha256(number.to_bytes(2, "big")).digest() for number in range(65536))
    row("a seal of the bits alone", "rows of 2 bytes: different seals of all 65,536", len(hashes))


def copying_seals():
    """Party 1 copies party 0's seal and opening; party 2 puts in a row of its own."""
    two = Counter(draw(3, added(a, a)) for a in rows(5))
    row("a copied seal", "3 names, 5 bits, both parties: rows of 32 for each order", dict(two))
    chosen = (1, 0, 0, 0, 0)
    three = Counter(draw(3, added(added(a, a), chosen)) for a in rows(5))
    row("", "and a third with 1 0 0 0 0: rows of 32 for each order", dict(three))


def leaving_out():
    """Party 1 opens last, or not: it has the better of two orders for name 0."""
    firsts = Counter()
    for a, b in product(rows(5), repeat=2):
        orders = [draw(3, added(a, b)), draw(3, a)]
        best = next((o for o in orders if o and o[0] == 0), orders[0])
        firsts[best[0] if best else None] += 1
    all_rows = sum(firsts.values())
    row("left out on purpose", f"3 names, 5 bits: pairs of {all_rows:,} with 0, 1, 2 first, with none", [firsts[k] for k in (0, 1, 2, None)])


def main():
    for part in (modulo, swapping, sorting, going_on, drawing_again, seeing_first, trying_seals, copying_seals, leaving_out):
        part()


if __name__ == "__main__":
    main()
