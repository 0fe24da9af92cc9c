#!/usr/bin/env python3
"""What a party and a member are told: `seal` beside the rule of seals, `report` beside the draw that it tells.

Names with control bytes never reach the terminal as they stand.
"""

import os
import random
import sys

sys.dont_write_bytecode = True

import reference as rules
from notation import is_text
from support.building import *
from support.running import Tally, differs, memory, programs, run

KEEP = b"Keep your opening secret until the seals are closed, and hand it in then.\n"


# --- A party's seal --------------------------------------------------------------------------


def told_seal(tally, path, label, steps, party, opening, text=b"", says=b""):
    """A seal is told on stdout with status 0; else nothing but a sentence on stderr with status 1."""
    arguments = [tally.write("steps", steps), str(party), tally.write("opening", opening)]
    ran = run(path, *arguments)
    faults = differs("status", ran.returncode, 0 if text else 1) + differs("stdout", ran.stdout, text)
    if not text and says not in ran.stderr:
        faults += differs("stderr", ran.stderr, says)
    tally.case(f"seal: {label}", faults, steps)


def seals(tally, path):
    for names, length, seed in [([b"carp"], 64, 1), ([b"carp", b"bream", b"\0"], 100, 2), (made_names(300, 3), 8192, 3)]:
        plan = Plan(names, length, parties=3, seed=seed)
        steps = plan.steps()
        for party in [0, 1, 2, 7, 254]:
            opening = plan.openings[party % 3]
            seal = rules.seal_of(plan.context, party, opening).hex().encode()
            text = b"party %d\nseal %s\n%s" % (party, seal, KEEP)
            for upto in [len(names) + 1, len(steps) - 1, len(steps)]:
                told_seal(tally, path, f"party {party} after {upto} steps", b"".join(steps[:upto]), party, opening, text)
        closed = b"".join(steps[: len(names) + 1])
        told_seal(tally, path, "the list is open", b"".join(steps[: len(names)]), 0, plan.openings[0], says=b"not closed")
        told_seal(tally, path, "the file is cut", closed[:-1], 0, plan.openings[0], says=b"inside a step")
        told_seal(tally, path, "no steps", b"", 0, plan.openings[0], says=b"not closed")
        for opening in [b"", plan.openings[0][:-1], plan.openings[0] + b"\0"]:
            told_seal(tally, path, f"{len(opening)} bytes", closed, 0, opening, says=b"should have %d" % (32 + length))
        for party in ["255", "256", "-1", "x", ""]:
            told_seal(tally, path, f"party {party!r}", closed, party, plan.openings[0], says=b"number from 0 to 254")


# --- A member's report -----------------------------------------------------------------------


def bits_used(names, bits):
    at = 0
    for left in range(len(names), 0, -1):
        drawn = rules.number_below(left, bits, at)
        if drawn is None:
            return None
        at = drawn[1]
    return at


def shown_name(place, name):
    if is_text(name):
        return b"place %d: %s\n" % (place, name)
    return b"place %d in hex: %s\n" % (place, name.hex().encode())


def report_of(plan, opened):
    """The report of a draw, from the plan of it."""
    names, parties = sorted(plan.names), len(plan.openings)
    bits = rules.bits_of(rules.sum_of(plan.length, [plan.openings[p][rules.HASH :] for p in opened]))
    order = rules.order_of(len(names), bits)
    lines = [b"%d names, %d parties, %d opened\n" % (len(names), parties, len(opened))]
    lines += [b"party %d %s\n" % (p, b"opened" if p in opened else b"left out") for p in range(parties)]
    lines += [b"list hash %s\n" % plan.context.hex().encode()]
    if order is None:
        return lines + [b"bits ran out, of %d\n" % (8 * plan.length), b"no order\n"], {}
    lines += [b"bits used %d of %d\n" % (bits_used(names, bits), 8 * plan.length)]
    places = {names[number]: shown_name(k + 1, names[number]) for k, number in enumerate(order)}
    return lines + [places[names[number]] for number in order], places


def may_be_word(name):
    """A word of a command line has no zero byte, and the library takes words in UTF-8 only."""
    try:
        return "\0" not in name.decode("utf-8")
    except UnicodeDecodeError:
        return False


def told(tally, path, label, data, status, stdout, *find, says=b""):
    ran = run(path, tally.write("protocol", data), *find)
    faults = differs("status", ran.returncode, status) + differs("stdout", ran.stdout, stdout)
    if status and says not in ran.stderr:
        faults += differs("stderr", ran.stderr, says)
    if any(byte < 32 and byte != 10 or byte == 127 for byte in ran.stdout + ran.stderr):
        faults.append(("printed", "a control byte"))
    tally.case(f"report: {label}", faults, data)


def reports(tally, path, source):
    awkward = [b"\x1b[2J", b"\n", b"\0", b"\x7f", b"\xc2\x9b", b"\xff", "Åse".encode(), b"Anna Berg", b"a" * 64, b" "]
    plans = [(Plan(awkward, parties=3, seed=5), [0, 2]), (Plan([b"carp"], parties=1), [0]), (Plan(made_names(200, 4), 300, parties=5, seed=9), [4, 1])]
    plans += [(Plan(made_names(source.randint(1, 30), k), source.choice([64, 65, 200]), parties=4, seed=k), [k % 4]) for k in range(60)]
    plans += [(Plan(made_names(2000, 8, 64), 8192, parties=2, seed=2), [0, 1]), (Plan(made_names(600, 6), 64, parties=2, seed=3), [1])]
    for k, (plan, opened) in enumerate(plans):
        data = plan.protocol(opened)
        lines, places = report_of(plan, opened)
        told(tally, path, f"draw {k}", data, 0, b"".join(lines))
        for name in sorted(plan.names)[:12]:
            if may_be_word(name) and name in places:
                told(tally, path, f"draw {k}, {name!r}", data, 0, places[name], "--find", name)
        told(tally, path, f"draw {k}, nobody", data, 1, b"", "--find", b"nobody of that name", says=b"no such name" if places else b"no order")
        for changed in [data[:-1], data + b"\0", b"", data[:3] + b"\xff" + data[4:]]:
            refused = rules.repeat(changed)
            if refused.status:
                told(tally, path, f"draw {k}, changed", changed, 1, b"", says=refused.stdout.encode().strip())
                told(tally, path, f"draw {k}, changed, nobody", changed, 1, b"", "--find", "x", says=refused.stdout.encode().strip())


# --- What fails ------------------------------------------------------------------------------


def failures(tally, paths):
    good = tally.write("good", Plan([b"carp"]).protocol())
    steps, opening = tally.write("good.steps", Plan([b"carp"]).file()), tally.write("good.opening", Plan([b"carp"]).openings[0])
    folder, missing = tally.folder, tally.path("none")
    for program, arguments in [
        ("report", []), ("report", [good, "--find"]), ("report", [good, "x", "y"]), ("report", [good, "--find", "x", "y"]), ("report", [missing]), ("report", [folder]),
        ("seal", []), ("seal", [steps]), ("seal", [steps, "0"]), ("seal", [steps, "0", opening, "x"]), ("seal", [missing, "0", opening]), ("seal", [steps, "0", missing]), ("seal", [folder, "0", opening]),
    ]:
        ran = run(getattr(paths, program), *arguments)
        faults = differs("status", ran.returncode, 1) + differs("stdout", ran.stdout, b"")
        tally.case(f"{program} {len(arguments)} arguments", faults + ([] if ran.stderr.strip() else [("stderr", "nothing is said")]))
    with open("/dev/full", "wb") as full:
        for program, arguments in [("report", [good]), ("seal", [steps, "0", opening])]:
            ran = run(getattr(paths, program), *arguments, stdout=full)
            tally.case(f"{program}: stdout is full", differs("status", ran.returncode, 1))
    for program in ["report", "seal"]:
        ran = run(getattr(paths, program), "--help")
        tally.case(f"{program} --help", differs("status", ran.returncode, 0) + differs("usage", ran.stdout[:6], b"usage:"))


def main():
    paths = programs(__doc__, "seal", "report")
    tally = Tally(paths.first, within=memory())
    seals(tally, paths.seal)
    reports(tally, paths.report, random.Random(11))
    failures(tally, paths)
    tally.end()


if __name__ == "__main__":
    main()
