#!/usr/bin/env python3
"""Writes the replies that crates/usnpaths is run on, and the lines that it must print.

Records and paths are made here from the layout tables of [MS-FSCC] and from Python's own UTF-16 and UTF-8, and share nothing with the
crates that they test. Run it from the top; the files that it writes are committed, so nobody has to run it to pass the gate.
"""
import os
import struct

TOP = os.path.dirname(os.path.dirname(os.path.abspath(__file__)))
CRATE = os.path.join(TOP, "crates", "usnpaths")
FIXED = {2: 60, 3: 76}
ROOT = 5


def record(version, file, parent, name):
    """A record as the tables have it."""
    fixed = FIXED[version]
    size = (fixed + len(name) + 7) // 8 * 8
    ids = b"".join(id.to_bytes(8 * (version - 1), "little") for id in (file, parent))
    head = struct.pack("<IHH", size, version, 0) + ids
    head += struct.pack("<QQIIIIHH", 80, 0x1D0, 0, 0, 0, 0x20, len(name), fixed)
    return (head + name).ljust(size, b"\0")


def reply(version, files):
    return struct.pack("<Q", files[-1][0] % 2**64 + 1) + b"".join(record(version, *f) for f in files)


def units(name):
    return name.encode("utf-16-le", "surrogatepass")


def text(path):
    """A path's text: what is no character, a control character and '<' by its code units."""
    out = b""
    for c in path.decode("utf-16-le", "surrogatepass"):
        n = ord(c)
        none = 0xD800 <= n <= 0xDFFF or 0xFDD0 <= n <= 0xFDEF or n % 0x10000 >= 0xFFFE
        control = n < 0x20 or 0x7F <= n <= 0x9F or 0x2028 <= n <= 0x202E or 0x2066 <= n <= 0x2069
        if none or control or c == "<":
            out += b"".join(b"<%04x>" % u for (u,) in struct.iter_unpack("<H", units(c)))
        else:
            out += c.encode("utf-8")
    return out


def path(files, id, root):
    """What is shown of an id: the names on the way down to it, or why there are none."""
    names = []
    for _ in range(65):
        if id == root:
            return text(units("\\").join(reversed(names))) if names else b"<root>"
        if id not in files:
            return b"<more than 64 steps>" if len(names) == 64 else b"<no parent>"
        id, name = files[id]
        names.append(name)
    return b"<more than 64 steps>"


# Two folders deep, letters of each length in UTF-8, what is shown by its code units, and an id of more than 64 bits.
THREE = [
    (ROOT, ROOT, units(".")),
    (0x10, ROOT, units("documents")),
    (0x11, 0x10, units("2026")),
    (0x12, 0x11, units("notes.txt")),
    (0x13, 0x11, units("\u00dcbersicht \u20ac.txt")),
    (0x14, 0x11, units("\U0001F600.png")),
    (0x15, 0x10, units("half \ud83d of a pair")),
    (0x16, 0x10, units("a<b\n\u202e\ufffe\U0001FFFE")),
    (2**64 + 0x17, 0x10, units("wide")),
    (0x18, 2**64 + 0x17, units("below it")),
]

# A parent that is not there, two folders in each other, and one whose parents stand behind it and in the other reply.
TWO = [
    (0x1000000000020, 0x99, units("orphan")),
    (0x21, 0x22, units("one")),
    (0x22, 0x21, units("other")),
    (0x23, 0x24, units("file")),
    (0x24, 0x11, units("folder")),
]


def write(name, data):
    target = os.path.join(CRATE, name)
    os.makedirs(os.path.dirname(target), exist_ok=True)
    with open(target, "wb") as f:
        f.write(data)


def main():
    table = {id: (parent, name) for id, parent, name in THREE + TWO}
    lines = b"".join(b"%032x %s\n" % (id, path(table, id, ROOT)) for id, _, _ in THREE + TWO)
    write("data/three", reply(3, THREE))
    write("data/two", reply(2, TWO))
    write("args", b"0x5\nthree\ntwo\n")
    write("stdout", lines)


main()
