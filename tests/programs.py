#!/usr/bin/env python3
"""Files of steps through the drawing program: what it prints, says, answers and writes must be
what the reference says."""

import itertools
import os
import random
import sys

sys.dont_write_bytecode = True

import reference as rules
from support.building import *
from support.running import Tally, differs, memory, programs, run

SMALL = [b"carp", b"bream", b"roach"]


def joined(*steps):
    return b"".join(steps)


# --- Names -----------------------------------------------------------------------------------


def cases_of_names():
    beginning = [b"a", b"ab", b"abc", b"a\0", b"a\xff", b"b"]
    for at, names in enumerate(itertools.permutations(beginning, 4)):
        if at % 6 == 0:
            yield f"names that begin one another {at}", Plan(names).file()
    extremes = [b"\0", b"\0\0", b"\0\xff", b"\xff", b"\xff\0", b"\xff\xff", b"\x7f", b"\x80", b"\x01"]
    for at in range(8):
        names = random.Random(at).sample(extremes, len(extremes))
        yield f"bytes 0 and 255 {at}", Plan(names).file()
    every = [bytes([byte]) for byte in range(256)]
    yield "every byte a name", Plan(random.Random(3).sample(every, 256), 1024).file()
    long = [bytes([65 + i]) * 64 for i in range(3)] + [b"A" * 63, b"A" * 63 + b"\0", b"A" * 63 + b"\xff"]
    for at in range(4):
        yield f"names of 63 and 64 bytes {at}", Plan(random.Random(at).sample(long, len(long))).file()
    yield "one name", Plan([b"x"]).file()
    yield "two names", Plan([b"y", b"x"]).file()
    same = Plan(SMALL)
    for at, names in enumerate(itertools.permutations(SMALL)):
        steps = same.steps()
        steps[:3] = map(entry, names)
        yield f"the same names in order {at}", joined(*steps)


def cases_of_entry_lengths():
    plan = Plan(SMALL)
    for length in [0, 1, 2, 63, 64, 65, 66, 127, 128, 255, 256, 257, 300, 320, 321, 512, 4096, 65535]:
        for at in [0, 1, 3]:
            steps = plan.steps()
            steps.insert(at, entry(b"z" * length))
            yield f"an entry of {length} bytes at {at}", joined(*steps)
            names = plan.names[:at] + [b"z" * length] + plan.names[at:]
            if 1 <= length <= 64:
                yield f"a taken entry of {length} bytes at {at}", Plan(names).file()
    steps = plan.steps()
    for name in SMALL:
        steps.insert(3, entry(name))
    yield "each entry twice", joined(*steps)


def cases_of_many_names():
    names = made_names(2002, seed=5)
    full = Plan(names[:2000], 8192, parties=1)
    steps = full.steps()
    yield "2,000 names", joined(*steps)
    late = [entry(names[2000]), entry(names[7]), entry(b""), entry(b"q" * 65), entry(names[2001])]
    yield "the 2,001st name", joined(*steps[:2000], *late, *steps[2000:])
    yield "full list, entries after its close", joined(*steps[:2001], *late, *steps[2001:], *late)
    yield "1,999 names and the 2,000th late", joined(*steps[:1999], *late[1:4], *steps[1999:])
    yield "full list, no space for its own again", joined(*steps[:2000], *steps[:5], *steps[2000:])
    for label, arranged in [("sorted", sorted(names[:2000])), ("reversed", sorted(names[:2000])[::-1])]:
        yield f"2,000 names {label}", joined(*map(entry, arranged), *steps[2000:])
    longest = [i.to_bytes(2, "big") * 32 for i in range(2000)]
    random.Random(2).shuffle(longest)
    yield "2,000 names of 64 bytes", Plan(longest, 8192, parties=2).file()
    yield "1,400 names", Plan(made_names(1400, 8, 64), 8192, parties=3).file()
    yield "1,400 names with 4,096 bytes", Plan(made_names(1400, 9, 30), 4096, parties=2).file()
    for count in [2, 3, 4, 5, 8, 9, 16, 17, 64, 65, 128, 129, 255, 256, 257, 512, 513, 1023, 1024, 1025]:
        yield f"{count} names", Plan(made_names(count, count), 8192, parties=2).file()


# --- The file --------------------------------------------------------------------------------


def cases_of_cut_files():
    yield "an empty file", b""
    plan = Plan([b"b", b"a"], openings=made_openings(3, 64))
    steps = plan.steps([2, 0])
    steps[1:1] = [entry(b""), step(9, b"nothing"), entry(b"b")]
    steps[-1:] = [step(5), close(b"xy"), entry(b""), close()]
    whole = joined(*steps)
    for length in range(len(whole)):
        yield f"cut at {length}", whole[:length]
    yield "not cut", whole
    for tail in [b"\0", b"\x06", b"\x06\0", b"\x06\x01\0", b"\xff\xff\xff", b"\x01\xff\xff" + b"x" * 65534]:
        yield f"cut after the final close {tail[:3]!r}", whole + tail
    for data in [b"\x01", b"\x01\x01", b"\x01\x01\0", b"\x01\0\0", b"\0\0\0", b"\x06\0\0", b"\x01\0\x01"]:
        yield f"only {data!r}", data
    for drop in range(len(steps)):
        yield f"without step {drop}", joined(*steps[:drop], *steps[drop + 1 :])


def cases_of_long_files():
    plan = Plan(SMALL)
    yield "70,000 steps of no kind", step(0) * 70000 + plan.file()
    yield "70,000 steps and no close", step(7) * 70000
    yield "steps of 65,535 bytes", joined(step(9, bytes(65535)), plan.file(), step(255, bytes(65535)))
    yield "30,000 entries that are there", joined(plan.entries()[0] * 30000, *plan.steps()[1:])


# --- Every kind of step in every phase -------------------------------------------------------


def cases_of_phases():
    plan = Plan([b"b", b"a"], openings=made_openings(2, 64, 4))
    steps = plan.steps()  # 0,1 entries  2 list closed  3,4 seals  5 seals closed  6,7 openings  8 close
    wrong = bytearray(plan.openings[0])
    wrong[40] ^= 1
    payloads = {
        "nothing": b"",
        "a name": b"c",
        "a name that is there": b"a",
        "64": rules.two(64),
        "63": rules.two(63),
        "a seal": plan.seals[1],
        "31 bytes": bytes(31),
        "65 bytes": b"k" * 65,
        "opening 0": b"\0" + plan.openings[0],
        "opening 1": b"\1" + plan.openings[1],
        "wrong opening 0": b"\0" + bytes(wrong),
        "short opening 1": b"\1" + plan.openings[1][:-1],
        "opening 2": b"\2" + plan.openings[1],
    }
    for at in range(len(steps) + 1):
        for kind in [0, 1, 2, 3, 4, 5, 6, 7, 255]:
            for label, data in payloads.items():
                there = step(kind, data)
                yield f"kind {kind} with {label} before step {at}", joined(*steps[:at], there, *steps[at:])
    for kind in range(8, 255):
        at = kind % (len(steps) + 1)
        yield f"kind {kind} before step {at}", joined(*steps[:at], step(kind, b"\0" * (kind % 3)), *steps[at:])


def cases_of_closes():
    plan = Plan(SMALL)
    for length in [0, 1, 62, 63, 64, 65, 100, 255, 256, 257, 8191, 8192, 8193, 8256, 16384, 32768, 65535]:
        steps = plan.steps()
        yield f"a list closed with {length}, then rightly", joined(*steps[:3], close_list(length), *steps[3:])
        yield f"no entry, closed with {length}", joined(close_list(length), *steps)
        if 64 <= length <= 8192:
            yield f"rows of {length}", Plan(SMALL, length).file()
        else:
            yield f"a list closed with {length} only", joined(*steps[:3], close_list(length), *steps[4:])
    for data in [b"", b"\x40", b"\x40\0\0", b"\x40\0\x40\0", bytes(64), b"\x40\0" * 200]:
        steps = plan.steps()
        yield f"a list closed with {len(data)} bytes", joined(*steps[:3], step(2, data), *steps[3:])
        yield f"no entry, closed with {len(data)} bytes", joined(step(2, data), *steps)
        yield f"closed again with {len(data)} bytes", joined(*steps[:4], step(2, data), *steps[4:])
    for data in [b"\0", b"\1", b"\x40\0", b"\xff" * 32, b"x" * 300, bytes(65535)]:
        steps = plan.steps()
        steps[6], steps[9] = close_seals(data), close(data)
        yield f"{len(data)} bytes in the closes", joined(*steps)
        yield f"{len(data)} bytes in closes that are refused", joined(
            close_seals(data), close(data), *steps[:4], close_seals(data), close(data), *steps[4:7], close(data), *steps[7:]
        )
    steps = plan.steps()
    yield "all closes at once", joined(*steps[:3], close_list(64), close_seals(), close(), close(), close_seals())
    yield "no entry and all the rest", joined(*steps[3:])
    yield "no seal and all the rest", joined(*steps[:4], *steps[6:])
    yield "no opening and all the rest", joined(*steps[:7], *steps[9:])
    yield "closed without an opening, then with", joined(*steps[:7], close(), *steps[7:])
    yield "closed without a seal, then with", joined(*steps[:4], close_seals(), close_seals(), *steps[4:])
    yield "closed without an entry, then with", joined(close_list(64), *steps)
    yield "two draws in one file", joined(*steps, *steps)


# --- Seals and openings ----------------------------------------------------------------------


def cases_of_seals():
    plan = Plan(SMALL)
    steps = plan.steps()
    for length in [0, 1, 31, 33, 64, 255, 256, 287, 288, 8224, 65535]:
        yield f"a seal of {length} bytes", joined(*steps[:5], seal(bytes(length)), *steps[5:])
    many = Plan(SMALL, parties=255, seed=6)
    steps = many.steps()
    sealed = 4 + 255
    yield "255 parties", joined(*steps)
    yield "the 256th seal", joined(*steps[:sealed], seal(bytes(32)), *steps[sealed:])
    yield "wrong seals after 255", joined(*steps[:sealed], seal(b""), seal(bytes(31)), seal(bytes(33)), *steps[sealed:])
    yield "254 parties and a wrong seal", joined(*steps[: sealed - 1], seal(bytes(31)), *steps[sealed - 1 :])
    yield "255 parties, party 255 opens", joined(*steps[:-1], opening(255, many.openings[0]), steps[-1])
    yield "255 parties backwards", many.file(range(254, -1, -1))
    yield "255 parties, the last one alone", many.file([254])
    yield "255 parties, the first one alone", many.file([0])
    yield "255 parties, every second", many.file(range(0, 255, 2))
    yield "254 parties", Plan(SMALL, parties=254).file()
    yield "254 parties, 254 opens", joined(*Plan(SMALL, parties=254).steps()[:-1], opening(254, many.openings[0]), close())
    yield "255 parties of 8,192 bytes", Plan(SMALL, 8192, parties=255).file()


def cases_of_openings():
    plan = Plan(SMALL, parties=4, seed=9)
    for parties in itertools.permutations(range(4)):
        yield f"openings in order {parties}", plan.file(parties)
    for count in range(1, 4):
        for parties in itertools.combinations(range(4), count):
            yield f"only {parties} opened", plan.file(parties)
            yield f"only {parties[::-1]} opened", plan.file(parties[::-1])
    yield "none opened", plan.file([])
    steps = plan.steps([0, 1, 3])
    here = 3 + 1 + 4 + 1 + 2  # parties 0 and 1 have opened
    for party in [0, 1, 2, 3, 4, 5, 127, 128, 254, 255]:
        for length in [0, 1, 31, 32, 63, 64, 95, 96, 97, 98, 32 + 320, 8224, 65534]:
            data = (plan.openings[party % 4] + bytes(65534))[:length]
            yield f"party {party} opens with {length}", joined(*steps[:here], opening(party, data), *steps[here:])
    yield "an opening of no byte", joined(*steps[:here], step(5), *steps[here:])
    for place in range(96):
        wrong = bytearray(plan.openings[2])
        wrong[place] ^= 1 << (place % 8)
        there = [opening(2, bytes(wrong))] + ([plan.opening(2)] if place % 2 else [])
        yield f"opening 2 changed at {place}", joined(*steps[:here], *there, *steps[here:])
    for place in range(32):
        wrong = bytearray(plan.seals[2])
        wrong[place] ^= 1 << (place % 8)
        changed = [*steps[:6], seal(bytes(wrong)), *steps[7:here], plan.opening(2), *steps[here:]]
        yield f"seal 2 changed at {place}", joined(*changed)
    for party, of in itertools.permutations(range(4), 2):
        yield f"party {party} opens as {of}", joined(*steps[:9], opening(party, plan.openings[of]), *steps[9:])


def cases_of_wrong_seals():
    """Seals that are made another way do not open."""
    plan = Plan(SMALL, parties=2, seed=12)
    context, first = plan.context, plan.openings[0]
    chosen, bits = first[:32], first[32:]
    unsorted = rules.list_hash(plan.names)
    others = {
        "without the list": chosen + b"\0" + bits,
        "without the party": chosen + context + bits,
        "with another party": chosen + context + b"\1" + bits,
        "of the bits alone": bits,
        "over the names as they came": chosen + unsorted + b"\0" + bits,
        "over names without lengths": chosen + rules.sha256(b"".join(sorted(SMALL))) + b"\0" + bits,
        "with the bits first": bits + context + b"\0" + chosen,
        "of nothing": b"",
    }
    for label, message in others.items():
        steps = plan.steps()
        steps[4] = seal(rules.sha256(message))
        yield f"a seal {label}", joined(*steps)
    steps = plan.steps()
    steps[5] = seal(plan.seals[0])
    yield "a copied seal", joined(*steps[:8], opening(1, first), *steps[8:])
    steps[4], steps[5] = seal(plan.seals[1]), seal(plan.seals[0])
    yield "seals changed round", joined(*steps)


# --- The sum and the order -------------------------------------------------------------------


def cases_of_hashed_lengths():
    """Messages of every length modulo a block of the hash, for seals and for the list."""
    for length in range(64, 64 + 130):
        yield f"rows of {length} bytes", Plan(SMALL, length, parties=2).file()
    for length in range(1, 65):
        yield f"a list of one name of {length} bytes", Plan([b"n" * length]).file()
        yield f"a list of two names of {length} bytes", Plan([b"n" * length, b"m" * length]).file()


def cases_of_orders():
    for bits, filler in [("11011", "1"), ("11110", "1"), ("11110", "0"), ("", "0"), ("", "1"), ("01", "10")]:
        for parties in [1, 2, 5]:
            row = row_of(bits, filler=filler[0])
            yield f"three names, bits {bits}, then {filler}", Plan(SMALL, 64, with_sum(row, parties)).file()
    for count in [1, 2, 4, 8, 5, 7, 64]:
        names = made_names(count, count)
        yield f"{count} names, all ones", Plan(names, 64, with_sum(b"\xff" * 64, 2)).file()
        yield f"{count} names, all zeros", Plan(names, 64, with_sum(bytes(64), 2)).file()
    one = made_openings(1, 64)[0]
    yield "the same bits twice", Plan(SMALL, 64, [one, one]).file()
    yield "the same bits three times", Plan(SMALL, 64, [one, one, one]).file()
    for total in range(256):
        row = bytes([total]) + b"\xff" * 63
        yield f"three names, first byte {total}", Plan(SMALL, 64, with_sum(row)).file()
    for seed in range(20):
        yield f"200 names with 64 bytes {seed}", Plan(made_names(200, seed), 64, parties=2, seed=seed).file()
    for count in range(60, 100, 2):
        yield f"{count} names with 64 bytes", Plan(made_names(count, count), 64, parties=2, seed=count).file()


def cases_at_the_end_of_the_bits():
    """Draws that need 510 to 520 of 512 bits, by numbers that are thrown away."""
    for count in range(80, 93):
        names = made_names(count, 3)
        bare = len(bits_for(count, {}))
        for sevens, threes, twos in itertools.product(range(12), range(4), range(3)):
            needed = bare + 7 * sevens + 3 * threes + 2 * twos
            if not 509 <= needed <= 515:
                continue
            bits = bits_for(count, {count: sevens, 5: threes, 3: twos}, lambda k: k * 5 // 7)
            assert len(bits) == needed
            for filler in "01":
                row = row_of(bits[:512], filler=filler)
                yield f"{count} names, {needed} bits, then {filler}", Plan(names, 64, with_sum(row)).file()


# --- Files by chance -------------------------------------------------------------------------


def random_plan(source):
    count = source.choice([1, 2, 3, 5, 9, 30])
    names = made_names(count, source.random(), source.choice([2, 5, 64]))
    return Plan(names, source.choice([64, 64, 65, 100, 257]), parties=source.randint(1, 5), seed=source.random())


def shuffled_steps(source):
    """A right draw with steps left out, put in twice, moved, changed or made up."""
    plan = random_plan(source)
    parties = source.sample(range(len(plan.openings)), source.randint(0, len(plan.openings)))
    steps = plan.steps(parties)
    for _ in range(source.randint(0, 6)):
        at = source.randrange(len(steps) + 1)
        change = source.randrange(6)
        if change == 0:
            steps.insert(at, source.choice(steps))
        elif change == 1 and at < len(steps) and len(steps) > 1:
            del steps[at]
        elif change == 2 and at < len(steps):
            steps.insert(at, steps.pop(source.randrange(len(steps))))
        elif change == 3 and at < len(steps) and len(steps[at]) > 3:
            changed = bytearray(steps[at])
            changed[source.randrange(3, len(changed))] ^= 1 << source.randrange(8)
            steps[at] = bytes(changed)
        elif change == 4:
            size = source.choice([0, 1, 2, 31, 32, 33, 64, 65, 96, 97, 98, 300])
            steps.insert(at, step(source.choice([1, 2, 3, 4, 5, 6, 0, 7, 200]), source.randbytes(size)))
        else:
            steps.insert(at, entry(source.choice(plan.names)))
    return joined(*steps)


def changed_bytes(source):
    """A right draw with a few bytes of the file changed, so that its steps may fall elsewhere."""
    data = bytearray(random_plan(source).file())
    for _ in range(source.randint(1, 3)):
        at = source.randrange(len(data))
        data[at] = source.choice([0, 1, 2, 3, 4, 5, 6, 7, 255, source.randrange(256)])
    if source.randrange(4) == 0:
        del data[source.randrange(len(data)) :]
    return bytes(data)


def noise(source):
    """Steps of chance, short ones."""
    return joined(*(
        step(source.randrange(8), source.randbytes(source.choice([0, 1, 2, 2, 3, 32, 65])))
        for _ in range(source.randint(1, 30))
    ))


def cases_by_chance():
    source = random.Random(20260201)
    for at in range(900):
        yield f"steps by chance {at}", shuffled_steps(source)
    for at in range(400):
        yield f"bytes by chance {at}", changed_bytes(source)
    for at in range(150):
        yield f"noise {at}", noise(source)
    for at in range(50):
        yield f"bytes of noise {at}", source.randbytes(source.randint(1, 200))


# --- Running ---------------------------------------------------------------------------------


def left_out_lines(parties):
    return "".join(f"party {party} left out\n" for party in parties).encode()


def compare(program, tally, data):
    """The faults of a run with a protocol asked for; nothing else may be written beside it."""
    expected = rules.draw(data)
    tally.expect(expected.stdout)
    steps, folder = tally.write("steps", data), tally.path("out")
    os.mkdir(folder)
    path = os.path.join(folder, "protocol")
    ran = run(program, steps, path)
    written = {}
    for name in os.listdir(folder):
        with open(os.path.join(folder, name), "rb") as file:
            written[name] = file.read()
        os.remove(os.path.join(folder, name))
    os.rmdir(folder)
    faults = differs("status", ran.returncode, expected.status)
    faults += differs("stdout", ran.stdout, expected.stdout.encode())
    faults += differs("files", sorted(written), ["protocol"] if expected.status == 0 else [])
    if expected.status == 0:
        faults += differs("stderr", ran.stderr, left_out_lines(expected.left_out))
        faults += differs("protocol", written.get("protocol"), expected.protocol)
    elif not ran.stderr.strip():
        faults.append(("stderr", "nothing is said of the failure"))
    return faults


def compare_alone(program, tally, data):
    """The faults of a run for which no protocol is asked for: the same, and no file appears."""
    expected = rules.draw(data)
    before = sorted(os.listdir(tally.folder))
    ran = run(program, "steps", cwd=tally.folder)
    faults = differs("status", ran.returncode, expected.status)
    faults += differs("stdout", ran.stdout, expected.stdout.encode())
    faults += differs("files", sorted(os.listdir(tally.folder)), before)
    return faults


GROUPS = [
    cases_of_names,
    cases_of_entry_lengths,
    cases_of_many_names,
    cases_of_cut_files,
    cases_of_long_files,
    cases_of_phases,
    cases_of_closes,
    cases_of_seals,
    cases_of_openings,
    cases_of_wrong_seals,
    cases_of_hashed_lengths,
    cases_of_orders,
    cases_at_the_end_of_the_bits,
    cases_by_chance,
]


def main():
    paths = programs(__doc__, "draw")
    tally = Tally(paths.first, memory())
    for group in GROUPS:
        for at, (label, data) in enumerate(group()):
            tally.case(label, compare(paths.draw, tally, data), data)
            if at % 10 == 0:
                tally.case(f"{label}, no protocol", compare_alone(paths.draw, tally, data), data)
    tally.all_tried(range(1, 10))
    tally.end()


if __name__ == "__main__":
    main()
