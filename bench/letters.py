#!/usr/bin/env python3
"""Times `letters` and `frames` on large streams, against `cat` and, where they are installed, `tnef -t` and `ytnef`.

usage: bench/letters.py     (after `rt run </dev/null` in crates/letters and in crates/frames)
The commands of a row are run in turn, RUNS times each, and the best of each counts: of the time that passed, and of the
processor's time, which other work on the machine changes less.
"""
import os
import shutil
import subprocess
import tempfile
import time

from frames import frame, stream
from twins import letter, listed, long_property, named, number, text_property

RUNS = 15
CRATES = os.path.join(os.path.dirname(__file__), "..", "crates")
FRONT = (
    bytes.fromhex("789f3e220100")
    + frame(1, 0x00089006, bytes([0, 0, 1, 0]))
    + frame(1, 0x00069007, bytes([0xE4, 4, 0, 0, 0, 0, 0, 0]))
)


def recipients():
    """1,024 rows of 16 properties."""
    row = listed([text_property(0x3000 + i, b"recipient", 0) if i % 2 else long_property(0x3000 + i, i) for i in range(16)])
    return FRONT + frame(1, 0x00069004, number(4, 1024) + row * 1024)


def names():
    """One list of 1,024 named properties, every name new, so that the index compares each with all before it."""
    own = listed([named(0x8000 + i, f"property {i:04}", number(4, i), 0) for i in range(1024)])
    return FRONT + frame(1, 0x00069003, own)


def files(folder):
    """A thousand letters of 4 KB, five hundred of them different."""
    made = []
    for i in range(1000):
        data = letter(twin=i % 2 == 1, data=b"%04d" % (i // 2) + bytes(3000))
        made.append(os.path.join(folder, f"{i:04}.tnef"))
        with open(made[-1], "wb") as out:
            out.write(data)
    return made


def commands(paths):
    for name in ("letters", "frames"):
        yield name, [os.path.join(CRATES, name, "out", name), *paths]
    yield "cat", ["cat", *paths]
    for tool in (["tnef", "-t", "-f"], ["ytnef"]):
        if shutil.which(tool[0]):
            line = " ".join(tool)
            yield line, ["sh", "-c", f'for f; do {line} "$f"; done', "sh", *paths]


def timed(command):
    """The milliseconds that passed, and those of the processor, in user and system code."""
    start = time.perf_counter()
    process = subprocess.Popen(command, stdout=subprocess.DEVNULL, stderr=subprocess.DEVNULL)
    _, _, usage = os.wait4(process.pid, 0)
    return (time.perf_counter() - start) * 1000, (usage.ru_utime + usage.ru_stime) * 1000


def row(name, paths):
    best = {}
    for _ in range(RUNS):
        for tool, command in commands(paths):
            best[tool] = [min(pair) for pair in zip(best.get(tool, (1e9, 1e9)), timed(command))]
    print(f"{name}: " + ", ".join(f"{tool} {passed:.1f} ms ({busy:.1f})" for tool, (passed, busy) in best.items()), flush=True)


def main():
    with tempfile.TemporaryDirectory() as folder:
        for name, data in {"attachment": stream(16_777_216), "recipients": recipients(), "names": names()}.items():
            path = os.path.join(folder, name + ".tnef")
            with open(path, "wb") as out:
                out.write(data)
            row(f"{name}, {len(data)} bytes", [path])
        row("a thousand files", files(folder))


if __name__ == "__main__":
    main()
