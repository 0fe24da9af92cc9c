#!/usr/bin/env python3
"""The walk in examples/README.md, run as it stands there: each command prints what is written below it."""

import os
import shutil
import subprocess
import sys

sys.dont_write_bytecode = True

from support.running import ROOT, TIMEOUT, Tally, differs, programs

PROGRAMS = ["steps", "seal", "draw", "repeat", "report"]


def walk(path):
    """The commands of a document, each with the lines below it: blocks that are set in, `$` before a command."""
    commands = []
    with open(path, encoding="utf-8") as file:
        for line in file:
            if not line.startswith("    "):
                continue
            if line.startswith("    $ "):
                commands.append((line[6:].rstrip("\n"), []))
            elif commands:
                commands[-1][1].append(line[4:])
    return [(command, "".join(lines)) for command, lines in commands]


def main():
    paths = programs(__doc__, *PROGRAMS)
    tally = Tally(paths.first)
    folder = tally.path("examples")
    shutil.copytree(os.path.join(ROOT, "examples"), folder)
    search = tally.path("bin")
    os.mkdir(search)
    for name in PROGRAMS:
        os.symlink(getattr(paths, name), os.path.join(search, name))
    environment = {**os.environ, "PATH": search + os.pathsep + os.environ["PATH"]}
    for command, expected in walk(os.path.join(folder, "README.md")):
        ran = subprocess.run(
            ["sh", "-c", command], cwd=folder, env=environment, timeout=TIMEOUT,
            stdin=subprocess.DEVNULL, stdout=subprocess.PIPE, stderr=subprocess.STDOUT,
        )
        faults = differs("status", ran.returncode, 0)
        tally.case(command, faults + differs("printed", ran.stdout.decode(), expected))
    tally.end()


if __name__ == "__main__":
    main()
