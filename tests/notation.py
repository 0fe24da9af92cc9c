#!/usr/bin/env python3
"""Text for people and files of steps: shown as it should be, read back as the same file, and bad lines told.

The rules of the notation stand here once more, as they are written in the library's own description.
"""

import os
import random
import sys

sys.dont_write_bytecode = True

import reference as rules
from support.building import *
from support.running import Tally, differs, memory, programs, run

HEX = b"0123456789abcdefABCDEF"


# --- The rules -------------------------------------------------------------------------------


def is_text(name):
    """Text that people can read: UTF-8 without control characters."""
    try:
        shown = name.decode("utf-8")
    except UnicodeDecodeError:
        return False
    return bool(shown) and not any(ord(c) < 32 or 127 <= ord(c) < 160 for c in shown)


def line_of(kind, data):
    if kind == rules.ENTRY and is_text(data):
        return b"entry " + data
    if kind == rules.ENTRY and data:
        return b"entry-hex " + data.hex().encode()
    if kind == rules.CLOSE_LIST and len(data) == 2:
        return b"close list %d" % int.from_bytes(data, "little")
    if kind == rules.SEAL and len(data) == 32:
        return b"seal " + data.hex().encode()
    if kind == rules.CLOSE_SEALS and not data:
        return b"close seals"
    if kind == rules.OPENING and len(data) > 1:
        return b"opening %d " % data[0] + data[1:].hex().encode()
    if kind == rules.CLOSE and not data:
        return b"close"
    return b"step-hex " + bytes([kind]).hex().encode() + data.hex().encode()


def text_of(steps):
    return b"".join(line_of(kind, data) + b"\n" for kind, data in steps)


def file_of(steps):
    return b"".join(step(kind, data) for kind, data in steps)


# --- Cases -----------------------------------------------------------------------------------


def some_bytes(source, most=40):
    size = source.choice([0, 1, 2, 3, 32, 33, 64, 65, source.randint(0, most)])
    if source.random() < 0.5:
        return bytes(source.choice(b"abc xyz#\t\r\n\0\x7f\xc3\xa9\xc2\x85\xff") for _ in range(size))
    return source.randbytes(size)


def some_steps(source):
    count = source.choice([0, 1, 1, 2, 3, 8])
    return [(source.choice([0, 1, 1, 2, 3, 4, 5, 6, 7, 255, source.randint(0, 255)]), some_bytes(source)) for _ in range(count)]


class Programs:
    def __init__(self, tally, path):
        self.tally, self.path = tally, path

    def show(self, label, steps):
        """Shown as the rules say, and read again as the same file."""
        data, text = file_of(steps), text_of(steps)
        ran = run(self.path, "--show", self.tally.write("shown", data))
        faults = differs("status", ran.returncode, 0) + differs("text", ran.stdout, text)
        self.tally.case(f"{label}, shown", faults, data)
        self.read(f"{label}, read again", ran.stdout, data)

    def read(self, label, text, expected, folder=None):
        out = self.tally.path("read")
        if os.path.exists(out):
            os.remove(out)
        ran = run(self.path, self.tally.write("text", text), out, cwd=folder)
        found = open(out, "rb").read() if os.path.exists(out) else None
        faults = differs("status", ran.returncode, 0 if expected is not None else 1) + differs("file", found, expected)
        if expected is None and not ran.stderr.strip():
            faults.append(("stderr", "nothing is said"))
        self.tally.case(label, faults, text)
        return ran.stderr

    def bad(self, label, text, line):
        """Nothing is written, and the line is told."""
        said = self.read(label, text, None)
        if b"line %d:" % line not in said:
            self.tally.case(f"{label}: the line", differs("stderr", said, b"line %d:" % line), text)


def shown(programs, source):
    every = [(kind, data) for kind in range(9) for data in [b"", b"a", b"ab", b"\0", b"\n", bytes(32), bytes(33), bytes(97)]]
    programs.show("every kind with bytes of every sort", every)
    programs.show("a long name", [(1, b"x" * 65535), (9, bytes(65535))])
    for name in [b"Anna Berg", "Åse Ødegård".encode(), " ".encode(), b" a ", b"#a", b"a\r", b"\x1b[2J", b"\xc2\x9b", b"\xed\xa0\x80", b"\xf4\x90\x80\x80", b"\xc0\xaf"]:
        programs.show(f"the name {name!r}", [(1, name)])
    for k in range(400):
        programs.show(f"steps {k}", some_steps(source))


def written_by_hand(programs, tally):
    good = [
        (b"", b""),
        (b"\n \n\t\n# a remark\nclose", step(6)),
        (b"close\r\nclose seals\r\n", step(6) + step(4)),
        (b"entry Anna Berg\n", step(1, b"Anna Berg")),
        (b"entry  two spaces \n", step(1, b" two spaces ")),
        (b"entry-hex 00FFaB\n", step(1, b"\0\xff\xab")),
        (b"close list 8192\nclose list 0\nclose list 65535\n", step(2, b"\0\x20") + step(2, b"\0\0") + step(2, b"\xff\xff")),
        (b"seal " + b"aB" * 32, step(3, b"\xab" * 32)),
        (b"opening 255 00\n", step(5, b"\xff\0")),
        (b"step-hex 07\nstep-hex 0601\n", step(7) + step(6, b"\1")),
    ]
    for text, expected in good:
        programs.read(f"{text[:30]!r}", text, expected)
    tally.write("an.opening", b"\1\2\3")
    programs.read("a file named", b"opening 2 an.opening\n", step(5, b"\2\1\2\3"), folder=tally.folder)
    programs.read("a file named twice", b"opening 0 ./an.opening\nopening 1 an.opening", step(5, b"\0\1\2\3") + step(5, b"\1\1\2\3"), folder=tally.folder)
    for path in [b"a\x1b[2Jb", b"a\xffb", b"a\xc2\x9bb"]:
        said = programs.read(f"the path {path!r}", b"opening 2 " + path + b"\n", None, folder=tally.folder)
        tally.case(f"the path {path!r}, printed", differs("raw", path in said, False))
    programs.read("a file that is not there", b"opening 2 none.opening\n", None, folder=tally.folder)


def bad_lines(programs):
    bad = [
        b"entry", b"entry ", b"entry-hex ", b"entry-hex 0", b"entry-hex 0g", b"close list", b"close list x", b"close list 65536",
        b"close list -1", b"seal " + b"a" * 63, b"seal " + b"a" * 65, b"seal " + b"a" * 66, b"seal", b"seal " + b"g" * 64, b"close seal", b"close it",
        b"opening", b"opening 1", b"opening 256 00", b"opening x 00", b"opening 1 000", b"step-hex", b"step-hex 1", b"nonsense", b"Entry Anna", b"\xff",
        b"entry-hex " + b"00" * 65536,
    ]
    for text in bad:
        programs.bad(f"{text[:30]!r} first", text, 1)
        programs.bad(f"{text[:30]!r} behind good lines", b"# one\nclose\n\n" + text + b"\nclose\n", 4)


def failures(programs, tally):
    folder = tally.path("folder")
    os.mkdir(folder)
    good, out = tally.write("good", b"close\n"), tally.path("out")
    for label, arguments in [
        ("no arguments", []), ("one argument", [good]), ("three arguments", [good, out, out]), ("a text that is missing", [tally.path("none"), out]),
        ("a folder for a text", [folder, out]), ("a folder to write", [good, folder]), ("a path that cannot be made", [good, os.path.join(folder, "none", "out")]),
        ("steps that are missing", ["--show", tally.path("none")]), ("steps that are cut", ["--show", tally.write("cut", b"\1\5\0abc")]),
    ]:
        ran = run(programs.path, *arguments)
        faults = differs("status", ran.returncode, 1) + differs("stdout", ran.stdout, b"")
        faults += [] if ran.stderr.strip() else [("stderr", "nothing is said")]
        tally.case(label, faults + differs("written", os.path.exists(out), False))
    old = tally.write("old", b"steps that stood here before")
    for label, text in [("a bad line", b"nonsense\n"), ("a file that is not there", b"opening 0 none.opening\n")]:
        ran = run(programs.path, tally.write("bad", text), old, cwd=tally.folder)
        kept = differs("old file", open(old, "rb").read(), b"steps that stood here before")
        tally.case(f"{label}, steps there", differs("status", ran.returncode, 1) + kept + differs("beside", os.path.exists(old + ".part"), False))
    with open("/dev/full", "wb") as full:
        ran = run(programs.path, "--show", tally.write("one", step(6)), stdout=full)
        tally.case("stdout is full", differs("status", ran.returncode, 1))
    ran = run(programs.path, "--help")
    tally.case("help", differs("status", ran.returncode, 0) + differs("usage", ran.stdout[:6], b"usage:"))


def main():
    paths = programs(__doc__, "steps")
    tally = Tally(paths.first, within=memory())
    runs = Programs(tally, paths.steps)
    shown(runs, random.Random(7))
    written_by_hand(runs, tally)
    bad_lines(runs)
    failures(runs, tally)
    tally.end()


if __name__ == "__main__":
    main()
