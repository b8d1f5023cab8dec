#!/usr/bin/env python3
"""Times `frames` against coreutils `sum` over one stream with a large attachment.

usage: bench/frames.py [BYTES]     (after `rt run </dev/null` in crates/frames)
Both read the same file from standard input; each is run RUNS times, in turn, and the best time counts.
"""
import os
import subprocess
import sys
import tempfile
import time

RUNS = 15
PROGRAM = os.path.join(os.path.dirname(__file__), "..", "crates", "frames", "out", "frames")


def frame(level, ident, data):
    head = bytes([level]) + ident.to_bytes(4, "little") + len(data).to_bytes(4, "little")
    return head + data + (sum(data) % 65536).to_bytes(2, "little")


def stream(size):
    front = bytes.fromhex("789f3e220100")
    front += frame(1, 0x00089006, bytes([0, 0, 1, 0])) + frame(1, 0x00069007, bytes([0xE4, 4, 0, 0, 0, 0, 0, 0]))
    front += frame(2, 0x00069002, bytes([1, 0]) + bytes(12))
    data = os.urandom(size - len(front) - 11)
    return front + frame(2, 0x0006800F, data)


def best(command, path):
    times = []
    for _ in range(RUNS):
        with open(path, "rb") as given:
            start = time.perf_counter()
            subprocess.run(command, stdin=given, stdout=subprocess.DEVNULL, check=True)
            times.append(time.perf_counter() - start)
    return min(times)


def main():
    size = int(sys.argv[1]) if len(sys.argv) > 1 else 16_777_216
    with tempfile.NamedTemporaryFile() as held:
        held.write(stream(size))
        held.flush()
        ours = best([PROGRAM], held.name)
        theirs = best(["sum"], held.name)
    print(f"{size} bytes: frames {ours * 1000:.1f} ms, sum {theirs * 1000:.1f} ms, ratio {ours / theirs:.2f}")


if __name__ == "__main__":
    main()
