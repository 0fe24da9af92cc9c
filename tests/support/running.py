"""Running the programs under test beside the reference, and telling what differs."""

import argparse
import atexit
import os
import shutil
import subprocess
import sys
import tempfile
import time

ROOT = os.path.dirname(os.path.dirname(os.path.dirname(os.path.abspath(__file__))))
TIMEOUT = 60  # seconds for one run of a program
MOST_TOLD = 10  # differences that are written out


def programs(description, *wanted):
    """The paths of the programs under test: built ones, or those named on the command line."""
    parser = argparse.ArgumentParser(description=description)
    for name in wanted:
        built = os.path.join(ROOT, "crates", name, "out", name)
        parser.add_argument(f"--{name}", default=built, help=f"the program to test (default: {built})")
    parser.add_argument("--first", action="store_true", help="stop at the first difference")
    paths = parser.parse_args()
    for name in wanted:
        path = os.path.abspath(getattr(paths, name))
        if not os.access(path, os.X_OK):
            print(f"{os.path.basename(sys.argv[0])}: FAILED: {path} is not built")
            sys.exit(1)
        setattr(paths, name, path)
    return paths


def memory():
    """A folder in memory where there is one: thousands of small files wait for no disk there."""
    return "/dev/shm" if os.access("/dev/shm", os.W_OK | os.X_OK) else None


def run(*command, **options):
    """A run of a program: a status below 0 is a signal, None stands for no end in time."""
    options.setdefault("stdout", subprocess.PIPE)
    options.setdefault("stderr", subprocess.PIPE)
    try:
        return subprocess.run(command, stdin=subprocess.DEVNULL, timeout=TIMEOUT, **options)
    except subprocess.TimeoutExpired as late:
        return subprocess.CompletedProcess(command, None, late.stdout or b"", late.stderr or b"")


class Tally:
    """Counts cases, tells what differs, keeps the files of cases that differ, and ends the script."""

    def __init__(self, stop_at_first=False, within=None):
        """`within` is the folder to make files in, by default that of the system."""
        self.script = os.path.basename(sys.argv[0])
        self.stop_at_first = stop_at_first
        self.told = set()  # the refusals that were expected, by number
        self.start = time.monotonic()
        self.cases = 0
        self.failed = 0
        self.folder = tempfile.mkdtemp(prefix="naltyruq-", dir=within)
        atexit.register(shutil.rmtree, self.folder, ignore_errors=True)

    def path(self, name):
        return os.path.join(self.folder, name)

    def write(self, name, data):
        with open(self.path(name), "wb") as file:
            file.write(data)
        return self.path(name)

    def case(self, label, faults, data=None):
        """Counts a case. `faults` are pairs (what, how it differs)."""
        self.cases += 1
        if not faults:
            return
        self.failed += 1
        if self.failed <= MOST_TOLD:
            self.tell(label, faults, data)
        if self.stop_at_first:
            self.end()

    def tell(self, label, faults, data):
        print(f"{self.script}: {label}", file=sys.stderr)
        for what, how in faults:
            print(f"    {what}: {how}", file=sys.stderr)
        if data is not None:
            print(f"    input kept: {self.keep(data)}", file=sys.stderr)

    def expect(self, text):
        """Notes which refusals and ends are asked for, so that none is left untried."""
        for line in text.splitlines():
            words = line.split()
            if "refused" in words:
                self.told.add(int(words[words.index("refused") + 1]))
            elif words[0] == "order":
                self.told.add("none" if words[1] == "none" else "order")

    def all_tried(self, wanted):
        missing = {"order", "none", *wanted} - self.told
        self.case("every refusal is asked for", [("untried", missing)] if missing else [])

    def keep(self, data):
        kept = os.path.join(ROOT, "target", "outside-failed")
        os.makedirs(kept, exist_ok=True)
        path = os.path.join(kept, f"{self.script}-{self.failed}")
        with open(path, "wb") as file:
            file.write(data)
        return path

    def end(self):
        seconds = time.monotonic() - self.start
        if self.failed or not self.cases:
            print(f"{self.script}: FAILED: {self.failed} of {self.cases} cases differ ({seconds:.1f} s)")
            sys.exit(1)
        print(f"{self.script}: {self.cases} cases, all as they should be ({seconds:.1f} s)")


def short(data):
    """Bytes or text for a message, cut where they are long."""
    text = repr(data)
    return text if len(text) <= 300 else f"{text[:200]}...{text[-90:]} ({len(data)} long)"


def differs(what, found, expected):
    if found == expected:
        return []
    return [(what, f"{short(found)}\n        expected {short(expected)}")]
