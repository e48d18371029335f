#!/usr/bin/env python3
"""Makes the calls that crates/file_cases runs, and the lines that it must print, from a model of the three controls on one file that
is written from [MS-FSA], [MS-FSCC] and the specification and shares nothing with the crates. Run it from the top: it writes
crates/file_cases/{args,data,stdout}."""

import struct

import cases
from cases import BUFFER_OVERFLOW, BUFFER_TOO_SMALL, FILE_CORRUPT_ERROR, INVALID_DEVICE_REQUEST, INVALID_PARAMETER, SUCCESS, TOP
from cases import NOT_A_REPARSE_POINT, VOLUME_NOT_UPGRADED, digest, layout

GUID = bytes(range(1, 17))


def pattern(n, step):
    return bytes(i % 251 * step % 251 for i in range(n))


def regions(support, eof, vdl, size, offset, length, usage, room):
    if not support:
        return INVALID_DEVICE_REQUEST, b""
    if not vdl <= eof <= TOP:
        return FILE_CORRUPT_ERROR, b""
    if size == 0:
        offset, length, usage = 0, TOP, 1
    elif size < 24:
        return BUFFER_TOO_SMALL, b""
    if not 0 < length <= TOP or offset + length > TOP or not usage & 1:
        return INVALID_PARAMETER, b""
    if room < 40:
        return BUFFER_TOO_SMALL, b""
    if offset > eof or (offset == eof and eof > 0):
        return SUCCESS, b""
    if offset >= vdl:
        found = [(offset, min(length, eof - offset), 0)]
    else:
        found = [(offset, min(vdl - offset, length), usage)]
        if vdl < eof and found[0][1] < length:
            found.append((vdl, min(length - found[0][1], eof - vdl), 0))
    given, status = found, SUCCESS
    if len(found) == 2 and room < 64:
        given, status = found[:1], BUFFER_OVERFLOW
    return status, struct.pack("<IIII", 0, len(found), len(given), 0) + b"".join(struct.pack("<QQII", *r, 0) for r in given)


def reparse(reparse, points, tag, data, room):
    if not reparse:
        return INVALID_DEVICE_REQUEST, b""
    if not points:
        return VOLUME_NOT_UPGRADED, b""
    microsoft = tag >> 31
    if len(data) > (0 if tag == 0 else 16376 if microsoft else 16360):
        return FILE_CORRUPT_ERROR, b""
    if tag == 0:
        return NOT_A_REPARSE_POINT, b""
    header = struct.pack("<IHH", tag, len(data), 0) + (b"" if microsoft else GUID)
    if room < len(header):
        return BUFFER_TOO_SMALL, b""
    return SUCCESS, header + data[: room - len(header)]


def usn(support, usn, attributes, parent, size, low, high, room, shorts, links, pool):
    if not support:
        return INVALID_DEVICE_REQUEST, b""
    if usn > TOP or shorts != len(links):
        return FILE_CORRUPT_ERROR, b""
    if any(n % 2 or n > 510 or place + n > len(pool) for place, n, short in links):
        return FILE_CORRUPT_ERROR, b""
    version = 2
    if size >= 4:
        version = cases.version_of(low, high)
        if version is None:
            return INVALID_PARAMETER, b""
    if room < (64 if version == 2 else 80):
        return BUFFER_TOO_SMALL, b""
    chosen = [l for l in links if l[2]][:1] or [l for l in links if l[1]][:1]
    name = b"".join(pool[place : place + n] for place, n, short in chosen)
    f = dict(file=0x1122334455667788, parent=parent, time=0, reason=0, source=0, security=0, attributes=attributes)
    record = layout(version, f, usn, name)
    if room < len(record):
        return BUFFER_TOO_SMALL, b""
    return SUCCESS, record


class Cases:
    """Calls on one file: their rows, and the lines that they must print."""

    def __init__(self, name, links=(), pool=65536, output=128):
        # no code unit of this pool is 0, 0x2F or 0x5C, so the rule on code units decides nothing here
        self.name, self.links, self.pool, self.output = name, list(links), pattern(pool, 3), output
        self.rows, self.lines = [(len(links), pool, output)] + self.links, ["# " + name]

    def tell(self, label, row, answer):
        self.rows.append(row)
        status, reply = answer
        output = reply + pattern(self.output, 7)[len(reply) :]
        self.lines.append("%s %08x %d %d" % (label, status, len(reply), digest(output)))

    def regions(self, eof, vdl, asked=None, room=64, size=24, support=1):
        offset, length, usage = asked or (0, 0, 0)
        size = size if asked else 0
        room = min(room, self.output)
        self.tell("regions", (0, support, eof, vdl, size, offset, length, usage, room), regions(support, eof, vdl, size, offset, length, usage, room))

    def reparse(self, tag, n, room, flag=1, points=1):
        room = min(room, self.output)
        self.tell("reparse", (1, flag, points, tag, n, room), reparse(flag, points, tag, self.pool[:n], room))

    def usn(self, room, versions=None, size=4, number=80, attributes=0x20, parent=9, support=1, shorts=None):
        low, high = versions or (0, 0)
        size = size if versions else 0
        shorts = len(self.links) if shorts is None else shorts
        room = min(room, self.output)
        answer = usn(support, number, attributes, parent, size, low, high, room, shorts, self.links, self.pool)
        self.tell("usn", (2, support, number, attributes, parent, size, low + 65536 * high, room, shorts), answer)

def region_cases():
    c = Cases("regions")
    # the worked examples
    for room in [64, 63, 40, 39]:
        c.regions(100, 60, room=room)
    for asked in [(50, 20, 1), (50, 10, 3), (100, 1, 1), (1, TOP, 1)]:
        c.regions(100, 60, asked)
    c.regions(0, 0)
    c.regions(0, 0, (0, 5, 1))
    # sizes of input and output, usages, lengths
    for size in [1, 23, 24, 25, 32]:
        c.regions(100, 60, (50, 20, 1), size=size)
    for room in [0, 39, 40, 41, 63, 64, 65, 128]:
        for asked in [None, (50, 10, 1), (70, 10, 1), (50, 20, 3)]:
            c.regions(100, 60, asked, room=room)
    for usage in [0, 1, 2, 3, 0xFFFFFFFE, 0xFFFFFFFF]:
        c.regions(100, 60, (50, 20, usage))
    for length in [0, 1, 10, 11, 50, 51, TOP - 50, TOP - 49, TOP, TOP + 1, 2**64 - 1]:
        c.regions(100, 60, (50, length, 1))
    # offsets at, before and behind Vdl and Eof
    for eof, vdl in [(100, 60), (100, 100), (100, 0), (0, 0), (1, 0), (1, 1), (TOP, 60), (TOP, TOP), (TOP + 1, 0), (60, 61), (2**64 - 1, 2**64 - 1)]:
        for offset in sorted({0, 1, max(vdl, 1) - 1, vdl, vdl + 1, max(eof, 1) - 1, eof, eof + 1, TOP, 2**63}):
            for length in [1, 40, 1000]:
                c.regions(eof, vdl, (offset % 2**64, length, 1))
    c.regions(60, 61, support=0)
    return c


def reparse_cases():
    c = Cases("reparse", output=16500)
    for tag in [0xA000000C, 0x80000000, 1, 0x7FFFFFFF]:
        for n in [0, 1, 20, 16359, 16360, 16361, 16375, 16376, 16377]:
            for room in [0, 7, 8, 18, 23, 24, 25, 28, 44, 16383, 16384, 16385, 16500]:
                if n <= 20 or room >= 16383 or room == 7:
                    c.reparse(tag, n, room)
    for n in [0, 1]:
        c.reparse(0, n, 64)
    for flag, points in [(0, 0), (0, 1), (1, 0), (9, 9)]:
        c.reparse(0xA000000C, 16377, 64, flag, points)
        c.reparse(0xA000000C, 20, 64, flag, points)
    return c


def usn_cases():
    tables = {
        "usn-none": [],
        "usn-short-later": [(10, 4, 0), (0, 0, 0), (20, 6, 1), (30, 8, 2)],
        "usn-short-empty": [(10, 4, 0), (20, 0, 7), (30, 8, 2)],
        "usn-first-empty": [(10, 0, 0), (20, 0, 0), (30, 510, 0), (40, 2, 0)],
        "usn-all-empty": [(0, 0, 0), (5, 0, 0)],
        "usn-odd": [(10, 4, 1), (20, 7, 0)],
        "usn-long": [(10, 4, 1), (20, 512, 0)],
        "usn-past": [(10, 4, 1), (65528, 10, 0)],
        "usn-last": [(65526, 10, 0)],
        "usn-round": [(10, 4, 1), (2**32 - 2, 4, 0)],
    }
    lists = []
    for name, links in tables.items():
        c = Cases(name, links, output=600)
        for room in [0, 63, 64, 65, 79, 80, 81, 88, 566, 575, 576, 591, 592, 600]:
            c.usn(room)
            c.usn(room, (3, 3))
        for versions in [(3, 2), (4, 9), (0, 1), (2, 9), (2, 2), (0, 2), (3, 3)]:
            for size in [3, 4, 5, 8]:
                c.usn(600, versions, size)
        c.usn(600, number=TOP)
        c.usn(600, number=TOP + 1)
        c.usn(600, attributes=0)
        c.usn(600, parent=2**64 - 1)
        c.usn(600, support=0)
        if links:
            c.usn(600, shorts=len(links) - 1)
        lists.append(c)
    return lists


def main():
    cases.write("crates/file_cases", [region_cases(), reparse_cases()] + usn_cases())


main()
