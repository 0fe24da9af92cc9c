#!/usr/bin/env python3
"""Brings the repository's own names in specs/, proofs/ and contracts to one spelling.

    tools/respell.py            rewrites the files of crates/ in place, and prints each name with its new one
    tools/respell.py --list     prints them alone

A statement or a type, whose name begins with a capital, is in upper camel case: `Each-once` is `EachOnce`. Any other
definition, lemma, field or constructor is in snake case: `file-steps` is `file_steps`. Names of goals and invariants stay as
the check gives them, and so do strings, comments but for spans of code, Rust's own names, and the library's.
A new name that the tree has already for something else is told, and nothing is written.
"""

import os
import re
import sys

ROOT = os.path.dirname(os.path.dirname(os.path.abspath(__file__)))
HEAD = re.compile(r"(?m)^[ |]*(?:(?:abbrev|unfoldable|opaque|pub|data|record|module)\s+)*([^\s(){}:;,.|\"]+)(?=\s[^=\n]*:|\s*:)")
LOCAL = re.compile(r"(?:\blet|[;(λ]|\bmodule _ \(|\{)\s*([A-Za-z][\w'-]*-[\w'-]+)(?=[^.\n=↦]*(?::|=|\.\s))")
GOAL = re.compile(r"(?m)^(?:abbrev )?(?:pub )?([^\s:]+) : (?:goal|given)\.")
GIVEN = re.compile(r"(?m)^use [^\s{]*\.(?:Goals|Given|Needs)\.\{([^}]*)\}")
RECORD = re.compile(r"(?m)^( *)(?:pub )?record [^\n]*where\n((?:\1  [^\n]*\n|\n)*)")
FIELD = re.compile(r"(?m)^ +(?:pub )?([^\s:]+) :")
MODULE = re.compile(r"(?m)^use \S+ as (\w+)$")
NAME = re.compile(r"[^\s(){}.;,@\"«»⌜⌝]+")
ANTT_QUIET = re.compile(r'"(?:[^"\\\n]|\\.)*"|(?<![^\s(){}.;,])--[^\n]*')
RUST_QUIET = re.compile(r'//[^\n]*|b?"(?:[^"\\]|\\.)*"|b?\'(?:[^\'\\\n]|\\.)\'')


def files(ending):
    for folder, folders, names in os.walk(os.path.join(ROOT, "crates")):
        folders[:] = sorted(f for f in folders if f != "out")
        for name in sorted(names):
            if name.endswith(ending):
                path = os.path.join(folder, name)
                with open(path, encoding="utf-8") as file:
                    yield path, file.read()


def is_dashed(name):
    """Whether a name has dashes, or is a type's that the toolchain's script gave underscores."""
    return re.fullmatch(r"[A-Za-z_][\w']*(?:-[\w']+)+|[A-Z][a-z0-9]+(?:_[a-z0-9]+)+", name) is not None


def new_name(name):
    parts = re.split("[-_]", name)
    if name[0].isupper():
        return "".join(part[0].upper() + part[1:] for part in parts)
    return name.replace("-", "_")


def turned(text, quiet, turn):
    """The text with `turn` on what is neither string nor comment, and on spans of code in comments."""
    out, at = [], 0
    for it in quiet.finditer(text):
        out.append(turn(text[at : it.start()]))
        said = it.group()
        if said.startswith(("//", "--")):
            said = re.sub(r"`[^`]+`", lambda span: turn(span.group()), said)
        out.append(said)
        at = it.end()
    out.append(turn(text[at:]))
    return "".join(out)


def own_names():
    """Names that the files of specs/ and proofs/ declare, but those that the check gives; and which of them are fields."""
    own, given, fields = set(), set(), set()
    for _, text in files(".antt"):
        plain = ANTT_QUIET.sub("", text)
        given.update(GOAL.findall(plain))
        for line in GIVEN.findall(plain):
            given.update(word.strip().split(" as ")[0] for word in line.split(","))
        for _, body in RECORD.findall(plain):
            fields.update(FIELD.findall(body))
        own.update(name for name in HEAD.findall(plain) if is_dashed(name))
        own.update(name for name in LOCAL.findall(plain) if is_dashed(name))
    return own - given, fields


def imported():
    """Names that come from the library: they stay wherever they are brought in."""
    found = set()
    for ending in (".antt", ".rt"):
        for _, text in files(ending):
            for line in re.findall(r"use Rattle\.std\.[^\n]*?\{([^}]*)\}", text):
                found.update(word.strip().split(" as ")[0] for word in line.split(","))
    return found


def words_of():
    found = {}
    for ending in (".antt", ".rt"):
        for path, text in files(ending):
            found[path] = set(NAME.findall(text))
    return found


def main():
    own, fields = own_names()
    library = imported()
    table = {name: new_name(name) for name in sorted(own - library)}
    for name in sorted(own & library):
        print("the library's too, and left: " + name)
    words = words_of()
    news = {}
    clash = False
    for old, new in table.items():
        if new in news:
            print(f"falls together: {old} and {news[new]}: {new}")
            clash = True
        news[new] = old
    for path, there in words.items():
        for old, new in table.items():
            if new in there and old in there:
                print(f"stands already: {new}, beside {old}, in {os.path.relpath(path, ROOT)}")
    if "--list" in sys.argv:
        for old, new in table.items():
            print(f"{old}\t{new}")
        return
    if clash:
        sys.exit("nothing is written")

    def turn(text, modules):
        def one(it):
            word = it.group()
            if word not in table:
                return word
            # what stands behind a dot is a field, or a name behind its module
            before = re.search(r"([^\s(){};,@\"«»]*)\.$", text[: it.start()][-200:])
            module = before[1].split(".")[-1] if before else ""
            if before and word not in fields and not module[:1].isupper() and module not in modules:
                return word
            return table[word]

        return NAME.sub(one, text)

    for ending, quiet in ((".antt", ANTT_QUIET), (".rt", RUST_QUIET), (".edit", RUST_QUIET)):
        for path, text in files(ending):
            modules = set(MODULE.findall(text))
            new = turned(text, quiet, lambda part: turn(part, modules))
            if new != text:
                with open(path, "w", encoding="utf-8") as file:
                    file.write(new)


main()
