#!/usr/bin/env python3
"""Compares the program hash_messages with Python's hashlib, and for a few messages with sha256sum.

    tests/sha256_compare.py [PROGRAM]

PROGRAM is hash_messages of this repository unless another is given. It is run on one file with no bytes, "abc",
a message of each length from 0 to 200, and random ones of up to 20,000 bytes. Prints how many agree; status 1 if one
does not, or if the program takes a file that it should refuse.
"""
import hashlib, os, random, shutil, struct, subprocess, sys, tempfile

root = os.path.dirname(os.path.dirname(os.path.abspath(__file__)))
program = os.path.abspath(sys.argv[1]) if len(sys.argv) > 1 else os.path.join(root, "crates", "hash_messages", "out", "hash_messages")
SEED = 180
RANDOM = 2000


def messages():
    r = random.Random(SEED)
    yield b""
    yield b"abc"
    for n in range(201):
        yield r.randbytes(n)
    for _ in range(RANDOM):
        yield r.randbytes(r.randrange(20001) if r.random() < 0.5 else r.randrange(600))


def run(path):
    return subprocess.run([program] + path, stdout=subprocess.PIPE, stderr=subprocess.PIPE)


def refusals(folder):
    """What must be refused with status 1, a sentence on stderr and nothing on stdout."""
    cut_length = os.path.join(folder, "cut-length")
    cut_message = os.path.join(folder, "cut-message")
    with open(cut_length, "wb") as f:
        f.write(b"\0\0\0\0\1\0")
    with open(cut_message, "wb") as f:
        f.write(b"\4\0\0\0abc")
    cases = [[], ["a", "b"], [os.path.join(folder, "missing")], [cut_length], [cut_message]]
    for arguments in cases:
        got = run(arguments)
        if got.returncode != 1 or got.stdout or not got.stderr:
            sys.exit("sha256_compare: arguments %s are not refused as they should be" % arguments)
    return len(cases)


def main():
    folder = tempfile.mkdtemp(prefix="sha256-compare-")
    try:
        compare(folder)
    finally:
        shutil.rmtree(folder)


def compare(folder):
    data = os.path.join(folder, "messages")
    all_messages = list(messages())
    with open(data, "wb") as f:
        for m in all_messages:
            f.write(struct.pack("<I", len(m)) + m)
    got = run([data])
    if got.returncode:
        sys.exit("sha256_compare: %s ends with status %d: %s" % (program, got.returncode, got.stderr.decode().strip()))
    lines = got.stdout.decode().split("\n")
    if lines.pop() != "" or len(lines) != len(all_messages):
        sys.exit("sha256_compare: %d lines for %d messages" % (len(lines), len(all_messages)))
    for number, (m, line) in enumerate(zip(all_messages, lines)):
        if hashlib.sha256(m).hexdigest() != line:
            sys.exit("sha256_compare: message %d, of %d bytes: %s" % (number, len(m), line))
    beside = 0
    if shutil.which("sha256sum"):
        for m, line in list(zip(all_messages, lines))[::100]:
            out = subprocess.run(["sha256sum"], input=m, stdout=subprocess.PIPE, check=True).stdout.decode()
            if out.split()[0] != line:
                sys.exit("sha256_compare: sha256sum gives %s for %d bytes, we %s" % (out.split()[0], len(m), line))
            beside += 1
    print("sha256: %d messages agree with hashlib, %d of them with sha256sum too; %d wrong inputs refused" % (len(lines), beside, refusals(folder)))


main()
