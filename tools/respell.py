#!/usr/bin/env python3
"""Respells the repository's own definitions and lemmas as the toolchain spells its own.

usage: python3 tools/respell.py        at the top of the repository, once, after the toolchain's port.py

Words become snake case (`code-page` is `code_page`), facts and types upper camel case (`Row-fits` is `RowFits`). Only names
that specs/ and proofs/ of this repository define are touched: names of src/, of the library and of generated goals keep
their spelling. It stops, and writes nothing, where two names would fall together.
"""

import collections
import glob
import os
import re
import subprocess
import sys

NAME = r"[^\s:(){}\[\].,;|\"«»⌜⌝]+"
TOKEN = re.compile(r"(\"(?:[^\"\\]|\\.)*\")|(" + NAME + r")")
SIGNATURE = re.compile(r"^\s*(?:pub |abbrev |unfoldable )*(?:record |data )?(" + NAME + r")((?:\s+\([^)]*\)|\s+\{[^}]*\})*)\s*:\s(.*)$")
TYPE = re.compile(r"^\s*(?:pub )?(?:record|data) (" + NAME + r")")
BOUND = re.compile(r"(?:\blet\s+|[(λ]\s*)(" + NAME + r")\s*[:=]")
GOAL = re.compile(r"\s*(?:goal|need|given)\.")
IMPORT = re.compile(r"\s*(?:ghost |pub )?use\s+([^\s:]+?)\.\{([^}]*)\}")
# A name that its module already has.
TAKEN = {"Read-back": "IsReadBack"}
ANSWERS = ("Answers.antt", "Invariants.antt", "Choices.antt")


def new_name(name):
    if name in TAKEN:
        return TAKEN[name]
    if name[0].isupper():
        return "".join(part[:1].upper() + part[1:] for part in name.split("-"))
    return re.sub(r"^getD-", "get_or-", name).replace("-", "_")


def lines(path):
    with open(path, encoding="utf-8") as f:
        return f.read().split("\n")


def defined(antt):
    """The names that the files define, and the goals that they answer."""
    own, goals = set(), set()
    for path in antt:
        for line in lines(path):
            m = SIGNATURE.match(line)
            if m and os.path.basename(path) in ANSWERS and GOAL.match(m[3]):
                goals.add(m[1])
            elif m:
                own.add(m[1])
            m = TYPE.match(line)
            if m:
                own.add(m[1])
            own.update(m[1] for m in BOUND.finditer(line))
    return own, goals


def of_library(paths, crates):
    """The names that the files import from elsewhere."""
    names = set()
    for path in paths:
        for line in lines(path):
            m = IMPORT.match(line)
            if m:
                p = m[1].split(".")
                if not (p[0] == "Rattle" and len(p) > 1 and p[1] in crates):
                    names.update(it.strip().split(" as ")[0] for it in m[2].split(","))
    return names


def turned(line, names, comment):
    """A line with each own name respelled; in a comment only between backticks, in a string never."""
    i = line.find(comment) if comment else -1
    code, rest = (line, "") if i < 0 else (line[:i], line[i:])

    def one(m):
        return m[1] if m[1] else names.get(m[2], m[2])

    code = TOKEN.sub(one, code)
    rest = re.sub(r"`([^`]*)`", lambda m: "`" + TOKEN.sub(one, m[1]) + "`", rest)
    return code + rest


def main():
    crates = set(os.listdir("crates"))
    antt = sorted(glob.glob("crates/*/specs/**/*.antt", recursive=True) + glob.glob("crates/*/proofs/**/*.antt", recursive=True))
    code = sorted(glob.glob("crates/*/src/**/*.rt", recursive=True))
    edits = sorted(glob.glob("crates/*/must-fail/*.edit"))
    own, goals = defined(antt)
    library = of_library(antt + code, crates)
    names = {n: new_name(n) for n in own if "-" in n and n not in goals and n not in library and re.match(r"[A-Za-z]", n)}
    rust = set()
    for path in code:
        rust.update(re.findall(r"\b(?:struct|enum|trait|const|static|type)\s+(\w+)", "\n".join(lines(path))))
    modules = {os.path.basename(p)[:-5] for p in antt}
    new = collections.defaultdict(set)
    for n in own:
        new[names.get(n, n)].add(n)
    together = sorted(n for n, olds in new.items() if len(olds) > 1)
    together += sorted(n for n in names.values() if n in library or n in rust or n in modules)
    if together:
        print("these names would fall together: " + " ".join(together))
        return 1
    for path in antt + code + edits:
        comment = "--" if path.endswith(".antt") else "//" if path.endswith(".rt") else None
        old = lines(path)
        text = "\n".join(turned(line, names, comment) for line in old)
        if text != "\n".join(old):
            with open(path, "w", encoding="utf-8") as f:
                f.write(text)
    for c in sorted(crates):
        if os.path.isdir(os.path.join("crates", c, "src")):
            subprocess.run(["rt", "fmt"], cwd=os.path.join("crates", c), stdout=subprocess.DEVNULL)
    for n in sorted(names):
        print(n, names[n])
    return 0


if __name__ == "__main__":
    sys.exit(main())
