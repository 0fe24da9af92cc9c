#!/usr/bin/env python3
"""Real files and statuses: what the programs do where a file, an argument or a device fails.

A run that fails has the status 1, says why on stderr, prints no summary, harms no protocol that
stood there before, and leaves no file of its own behind.
"""

import os
import resource
import shutil
import subprocess
import sys

sys.dont_write_bytecode = True

import reference as rules
from support.building import *
from support.running import Tally, differs, programs, run

NOBODY = 65534
OLD = b"a protocol that stood here before, and that is longer than the new one" * 40
PLAN = Plan([b"carp", b"bream", b"roach"], parties=3)
GOOD = b"".join([entry(b""), *PLAN.steps([0, 2])])  # one refusal, and a party left out
REFUSALS = b"step 1 refused 1 at 0\n"


class World:
    """A folder with files of every kind, made afresh for each case."""

    def __init__(self, tally, paths):
        self.tally, self.paths = tally, paths
        self.folder = tally.path("world")
        bin_folder = tally.path("bin")  # copies that another user can reach
        os.chmod(tally.folder, 0o755)
        os.mkdir(bin_folder)
        for name in ["draw", "repeat"]:
            copy = os.path.join(bin_folder, name)
            shutil.copy(getattr(paths, name), copy)
            os.chmod(copy, 0o755)
            setattr(paths, name, copy)

    def make(self):
        shutil.rmtree(self.folder, ignore_errors=True)
        os.mkdir(self.folder)
        os.mkdir(self.path("folder"))
        files = {
            "good": GOOD,
            "cut": GOOD[:-1],
            "cut-after": GOOD + b"\6",
            "open": GOOD[:-3],
            "empty": b"",
            "old": OLD,
            "right": PLAN.protocol([0, 2]),
            "wrong": PLAN.protocol([0, 2]) + b"\0",
            "hidden": GOOD,
            "hidden-protocol": PLAN.protocol([0, 2]),
        }
        for name, data in files.items():
            with open(self.path(name), "wb") as file:
                file.write(data)
        os.chmod(self.path("hidden"), 0)
        os.chmod(self.path("hidden-protocol"), 0)

    def path(self, name):
        return os.path.join(self.folder, name)

    def state(self):
        """Every path in the folder, with the bytes of the files."""
        found = {}
        for folder, _, names in os.walk(self.folder):
            found[os.path.relpath(folder, self.folder)] = None
            for name in names:
                path = os.path.join(folder, name)
                shown = os.path.relpath(path, self.folder)
                try:
                    with open(path, "rb") as file:
                        found[shown] = file.read()
                except PermissionError:
                    found[shown] = "not to be read"
        return found

    def case(self, label, program, *arguments, **expected):
        """Runs a program in a fresh folder and counts the case."""
        prepare = expected.pop("prepare", None)
        options = expected.pop("options", {})
        self.make()
        if prepare:
            prepare(self)
        before = self.state()
        ran = run(getattr(self.paths, program), *arguments, cwd=self.folder, **options)
        faults = faults_of(ran, before, self.state(), **expected)
        self.tally.case(f"{program}: {label}", faults)


def faults_of(ran, before, after, status=1, stdout=b"", stderr=None, says=True, written=None, usage=False, perhaps=()):
    """`written` are the files that the run makes or replaces; `perhaps` those that it may, whole.

    A failed run says why on stderr, unless its line on stdout does (`says` is then False).
    """
    faults = differs("status", ran.returncode, status)
    if stdout is not None:
        faults += differs("stdout", ran.stdout, stdout)
    if stderr is not None:
        faults += differs("stderr", ran.stderr, stderr)
    elif says and status == 1 and not ran.stderr.strip():
        faults.append(("stderr", "nothing is said of the failure"))
    if usage and not any(b"usage" in line.lower() for line in ran.stderr.splitlines()):
        faults.append(("stderr", f"no usage line in {ran.stderr!r}"))
    expected = {**before, **(written or {})}
    for name, data in dict(perhaps).items():
        if after.get(name) == data:
            expected[name] = data
    for name in sorted(set(expected) | set(after)):
        if expected.get(name, "no file") != after.get(name, "no file"):
            faults += differs(f"file {name}", after.get(name, "no file"), expected.get(name, "no file"))
    return faults


# --- Arguments -------------------------------------------------------------------------------


def arguments(world):
    for count in [0, 3, 4, 9]:
        given = ["good", "old", "new", "x", "x", "x", "x", "x", "x"][:count]
        world.case(f"{count} arguments", "draw", *given, usage=True)
    for count in [0, 2, 3, 9]:
        given = ["right", "old", "new", "x", "x", "x", "x", "x", "x"][:count]
        world.case(f"{count} arguments", "repeat", *given, usage=True)


# --- Files that cannot be read ---------------------------------------------------------------


def unreadable(world):
    for path in ["missing", "folder", "folder/missing", "good/below", "", ".", "no/such/folder", "x" * 5000]:
        world.case(f"steps {path[:20]!r}", "draw", path)
        world.case(f"steps {path[:20]!r}, a protocol asked for", "draw", path, "new")
        world.case(f"steps {path[:20]!r}, a protocol there", "draw", path, "old")
        world.case(f"protocol {path[:20]!r}", "repeat", path)


def as_another_user():
    """Options under which files of mode 0 cannot be read; None where there is no way."""
    if os.geteuid() != 0:
        return {}
    options = {"user": NOBODY, "group": NOBODY, "extra_groups": []}
    try:
        subprocess.run(["true"], check=True, **options)
    except (OSError, subprocess.SubprocessError):
        return None
    return options


def denied(world):
    options = as_another_user()
    if options is None:
        print("failures.py: no other user can be taken on; denied files are left out", file=sys.stderr)
        return

    def let_in(world):
        os.chmod(world.folder, 0o777)

    def shut(world):
        os.chmod(world.folder, 0o555)
        os.chmod(world.path("old"), 0o444)

    drawn = rules.draw(GOOD)
    lines = b"party 1 left out\n"
    world.case("steps that may not be read", "draw", "hidden", options=options)
    world.case("steps that may not be read, a protocol there", "draw", "hidden", "old", options=options)
    world.case("a protocol that may not be read", "repeat", "hidden-protocol", options=options)
    world.case("a folder that may not be written", "draw", "good", "new", options=options, prepare=shut, stdout=REFUSALS)
    world.case("a protocol in a shut folder", "draw", "good", "old", options=options, prepare=shut, stdout=REFUSALS)
    world.case(
        "a folder that may be written", "draw", "good", "new", options=options, prepare=let_in,
        status=0, stdout=drawn.stdout.encode(), stderr=lines, written={"new": drawn.protocol},
    )


# --- Files that cannot be written ------------------------------------------------------------


def unwritable(world):
    for path in ["folder", "missing/new", "good/new", "", ".", "folder/", "x" * 5000]:
        world.case(f"a protocol at {path[:20]!r}", "draw", "good", path, stdout=REFUSALS)


def without_room(world):
    """The file may not grow beyond some bytes, as on a full disk: no part of a protocol stays."""
    size = len(rules.draw(GOOD).protocol)

    def limited(room):
        # A write beyond the limit then fails, where a signal would else end the program.
        def limit():
            resource.setrlimit(resource.RLIMIT_FSIZE, (room, room))

        return {"preexec_fn": limit, "restore_signals": False}

    for room in [0, 1, 100, size - 1]:
        for path in ["new", "old"]:
            world.case(f"room for {room} bytes, {path}", "draw", "good", path, options=limited(room), stdout=REFUSALS)
    drawn = rules.draw(GOOD)
    world.case(
        "just enough room", "draw", "good", "new", options=limited(size),
        status=0, stdout=drawn.stdout.encode(), written={"new": drawn.protocol},
    )


def full_device(world):
    with open("/dev/full", "wb") as full:
        options = {"stdout": full}
        drawn = rules.draw(GOOD).protocol
        for path in [[], ["new"], ["old"]]:
            perhaps = {name: drawn for name in path}
            world.case(f"stdout is full {path}", "draw", "good", *path, options=options, stdout=None, perhaps=perhaps)
            world.case(f"stdout is full, cut {path}", "draw", "cut", *path, options=options, stdout=None)
            world.case(f"stdout is full, open {path}", "draw", "open", *path, options=options, stdout=None)
        world.case("stdout is full", "repeat", "right", options=options, stdout=None)
        world.case("stdout is full, refused", "repeat", "wrong", options=options, stdout=None)


# --- Runs that end without a draw, and runs that end well ------------------------------------


def without_a_draw(world):
    for steps in ["cut", "cut-after", "open", "empty"]:
        told = b"" if steps == "empty" else REFUSALS
        world.case(f"{steps} steps", "draw", steps, stdout=told)
        world.case(f"{steps} steps, a protocol asked for", "draw", steps, "new", stdout=told)
        world.case(f"{steps} steps, a protocol there", "draw", steps, "old", stdout=told)
        world.case(f"{steps} steps, a protocol elsewhere", "draw", steps, "folder/new", stdout=told)


def well(world):
    drawn = rules.draw(GOOD)
    expected = {"status": 0, "stdout": drawn.stdout.encode(), "stderr": b"party 1 left out\n"}
    world.case("no protocol asked for", "draw", "good", **expected)
    for path in ["new", "old", "folder/new", "./new", "folder/../old"]:
        written = {os.path.normpath(path): drawn.protocol}
        world.case(f"a protocol at {path}", "draw", "good", path, written=written, **expected)
    path = world.path("new")
    world.case("a protocol at a whole path", "draw", world.path("good"), path, written={"new": drawn.protocol}, **expected)
    summary = drawn.stdout.encode()[len(REFUSALS) :]
    world.case("a right protocol", "repeat", "right", status=0, stdout=summary)
    world.case("a right protocol by its whole path", "repeat", world.path("right"), status=0, stdout=summary)
    wrong = "refused 11 at {}\n".format(len(drawn.protocol)).encode()
    world.case("a wrong protocol", "repeat", "wrong", stdout=wrong, says=False)
    world.case("an empty protocol", "repeat", "empty", stdout=b"refused 11 at 0\n", says=False)


def main():
    paths = programs(__doc__, "draw", "repeat")
    tally = Tally(paths.first)
    world = World(tally, paths)
    for group in [arguments, unreadable, denied, unwritable, without_room, full_device, without_a_draw, well]:
        group(world)
    tally.end()


if __name__ == "__main__":
    main()
