#!/usr/bin/env python3
"""Respells names that files give to what they import.

usage: python3 tools/respell_uses.py        at the top of the repository, once, after tools/respell.py

The library's `AllByRecursion` goes by its own name, since no import may stand under the name `All` of another fact; and the
aliases that have a dash are written in snake case.
"""

import glob
import re
import subprocess

NAME = r"(?<![^\s(){}\[\].,;|\"])%s(?![^\s(){}\[\].,;|\"])"


def turned(text):
    if "AllByRecursion as All" in text:
        text = text.replace("AllByRecursion as All", "AllByRecursion")
        lines = []
        for line in text.split("\n"):
            code, dash, rest = line.partition("--")
            lines.append(re.sub(NAME % "All", "AllByRecursion", code) + dash + rest)
        text = "\n".join(lines)
    for alias in set(re.findall(r" as ([a-z]+(?:-[a-z]+)+)(?=[,}\s;])", text)):
        text = re.sub(NAME % re.escape(alias), alias.replace("-", "_"), text)
    return text


for path in sorted(glob.glob("crates/*/specs/**/*.antt", recursive=True) + glob.glob("crates/*/proofs/**/*.antt", recursive=True) + glob.glob("crates/*/src/**/*.rt", recursive=True)):
    with open(path, encoding="utf-8") as f:
        old = f.read()
    new = turned(old)
    if new != old:
        with open(path, "w", encoding="utf-8") as f:
            f.write(new)
for folder in sorted(glob.glob("crates/*/src")):
    subprocess.run(["rt", "fmt"], cwd=folder[:-4], stdout=subprocess.DEVNULL)
