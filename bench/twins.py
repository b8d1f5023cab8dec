#!/usr/bin/env python3
"""Writes the letters that the gate counts: one letter, a copy of it in other bytes, and ten near-twins.

Usage: bench/twins.py crates/letters/data
"""
import struct
import sys

NAMES = bytes(range(16))


def number(width, n):
    return (n % 256 ** width).to_bytes(width, "little")


def frame(level, ident, data, checksum=None):
    total = sum(data) % 65536 if checksum is None else checksum
    return bytes([level]) + number(4, ident) + number(4, len(data)) + data + number(2, total)


def padded(data, fill):
    return data + bytes([fill]) * (-len(data) % 4)


def text_property(ident, text, fill):
    return number(2, 0x1E) + number(2, ident) + number(4, 1) + number(4, len(text) + 1) + padded(text + b"\0", fill)


def long_property(ident, n):
    return number(2, 3) + number(2, ident) + number(4, n)


def flag_property(ident, n, fill):
    return number(2, 0x0B) + number(2, ident) + padded(number(2, n), fill)


def named(ident, string, rest, fill):
    units = "".join(string).encode("utf-16-le") + b"\0\0"
    return number(2, 3) + number(2, ident) + NAMES + number(4, 1) + number(4, len(units)) + padded(units, fill) + rest


def numbered(ident, n, rest):
    return number(2, 3) + number(2, ident) + NAMES + number(4, 0) + number(4, n) + rest


def listed(properties):
    return number(4, len(properties)) + b"".join(properties)


def date(year, month, day, hour, minute, second, weekday):
    return struct.pack("<7H", year, month, day, hour, minute, second, weekday)


def letter(twin=False, **change):
    """The letter, or its copy in other bytes, with one content changed."""
    got = lambda name, value: change.get(name, value)
    fill = 0xAA if twin else 0
    base = 0x8421 if twin else 0x8000
    row = lambda name, kind: [
        text_property(0x3001, name, fill),
        long_property(0x0C15, kind),
        flag_property(0x3A40, 0xFF00 if twin else 1, fill),
    ]
    rows = [row(b"Anna", 1), row(got("second", b"Bertha"), 2)][: got("rows", 2)]
    if twin:
        rows[0].append(text_property(0x3001, b"a later name", fill))
    own = [
        text_property(0x0037, got("title", b"A letter"), fill),
        named(base, got("name", "Keywords"), number(4, got("keyword", 7)), fill),
        numbered(base + 9 if twin else base + 1, 0x8501, number(4, 11)),
    ]
    if got("turned", False):
        own.reverse()
    if twin:
        own += [text_property(0x0037, b"a later title", fill), named(0x9999, "Keywords", number(4, 8), fill)]
    digits = b"00A1B2C3D4E5F6\0"
    parts = [
        frame(1, 0x00018004, got("subject", b"A letter") + b"\0"),
        frame(1, 0x00018009, digits.lower() if twin else digits),
        frame(1, 0x0002800C, b"Dear Anna,\r\nthis is a letter.\0"),
        frame(1, 0x00038005, date(2004, 2, got("day", 17), 11, 25, 35, 9 if twin else 2)),
        frame(1, 0x00068007, number(4, 0xFFFFFF7C if twin else got("status", 0x24))),
        frame(1, 0x00078008, (b"IPM.Note" if twin else got("class_", b"IPM.Microsoft Mail.Note")) + b"\0", 1 if twin else None),
        frame(1, 0x00040009, number(2, 300 if twin else 1)),
        frame(1, 0x00069004, number(4, len(rows)) + b"".join(listed(r) for r in rows)),
        frame(1, 0x00069003, listed(own)),
    ]
    if twin:
        parts.reverse()
        parts.append(frame(1, 0x00018004, b"a later subject\0"))
    attachment = [
        frame(2, 0x00018010, b"list.txt\0"),
        frame(2, 0x0006800F, got("data", b"one\r\ntwo\r\n")),
        frame(2, 0x00069005, listed([text_property(0x3703, b".txt", fill)])),
    ]
    if twin:
        attachment.reverse()
    rendering = frame(2, 0x00069002, number(2, 1) + b"\xff" * 8 + number(4, 0))
    return (
        bytes([0x78, 0x9F, 0x3E, 0x22]) + (b"\x77\x66" if twin else b"\x01\x00")
        + frame(1, 0x00089006, number(4, 0x10000))
        + frame(1, 0x00069007, number(4, got("page", 1252)) + number(4, 437 if twin else 0))
        + b"".join(parts) + rendering + b"".join(attachment)
    )


LETTERS = {
    "letter": letter(),
    "copy": letter(twin=True),
    "other-page": letter(page=1250),
    "other-subject": letter(subject=b"A Letter"),
    "other-day": letter(day=18),
    "modified": letter(status=0x25),
    "other-class": letter(class_=b"ipm.note"),
    "other-recipient": letter(second=b"Berta"),
    "one-recipient": letter(rows=1),
    "other-keyword": letter(keyword=8),
    "other-order": letter(turned=True),
    "other-attachment": letter(data=b"one\r\ntwo\r\n\r\n"),
}

if __name__ == "__main__":
    for name, data in LETTERS.items():
        with open(f"{sys.argv[1]}/{name}.tnef", "wb") as out:
            out.write(data)
