#!/usr/bin/env python3
"""Writes the table of cases for the reader of jobs, and what must come out.

Each line of the table is one job: words of hexadecimal bytes, of which a word
that stands after `xN` counts N times. What must come out is worked out here from
the format alone: for each case its number, then the listing of the job.

usage: job_cases.py FOLDER     (writes FOLDER/stdin and FOLDER/stdout)
"""
import sys

WHY = {
    12: "the job is longer than 65535 bytes",
    15: "the job ends too early",
    16: "the kind is unknown",
    17: "the bit map lacks a required bit or has one that its kind lacks",
    18: "a name of length 0 or with a byte outside 0x21 to 0x7E",
    19: "the first byte names no measure",
}

# kind: word, fields from the lowest bit on, required fields
ROW = ("row", ["line", "left", "right"], {"right"})
PLACE = ("place", ["number", "site", "line", "width", "weight", "name"], {"number", "width"})
WITHDRAW = ("withdraw", ["number"], {"number"})
TRY = ("try", PLACE[1], PLACE[2])
KINDS = {1: ROW, 2: PLACE, 3: WITHDRAW, 4: TRY}
ABSENT = {"weight": 1}


class Refused(Exception):
    def __init__(self, number, place):
        self.number, self.place = number, place


def check_opening(job):
    """The refusals of opening a job."""
    if len(job) > 65535:
        raise Refused(12, 0)
    if len(job) == 0:
        raise Refused(15, 0)
    if job[0] > 1:
        raise Refused(19, 0)


def read_record(job, at):
    """The record at a place: its kind, the fields that it has, and the place after it."""

    def pull():
        nonlocal at
        if at >= len(job):
            raise Refused(15, len(job))
        at += 1
        return job[at - 1]

    kind = pull()
    if kind not in KINDS:
        raise Refused(16, at - 1)
    _, fields, required = KINDS[kind]
    bits = pull()
    there = [f for k, f in enumerate(fields) if bits & (1 << k)]
    if bits >= 1 << len(fields) or not required <= set(there):
        raise Refused(17, at - 1)
    got = {}
    for f in there:
        if f == "name":
            size = pull()
            if size == 0:
                raise Refused(18, at - 1)
            text = ""
            while len(text) < size:
                byte = pull()
                if not 0x21 <= byte <= 0x7E:
                    raise Refused(18, at - 1)
                text += chr(byte)
            got[f] = text
        else:
            low = pull()
            got[f] = low | pull() << 8
    return kind, got, at


def value(got, field):
    """What a field counts as: what it holds, or what it counts as where it is absent."""
    return got.get(field, ABSENT.get(field, 0))


def listed(kind, got):
    """The text of a record."""
    word, fields, _ = KINDS[kind]
    if kind == 1:
        return "row " + " ".join(f"{f} {value(got, f)}" for f in fields)
    if kind == 3:
        return f"withdraw {value(got, 'number')}"
    text = f"{word} {value(got, 'number')} " + " ".join(f"{f} {value(got, f)}" for f in fields[1:5])
    return text + (f" name {got['name']}" if "name" in got else "")


def listing(job):
    """The lines of a job."""
    lines, index, at = [], 0, 1
    try:
        check_opening(job)
        lines.append("measure " + ["squared", "plain"][job[0]])
        while at < len(job):
            kind, got, at = read_record(job, at)
            lines.append(f"{index} {listed(kind, got)}")
            index += 1
    except Refused as r:
        lines.append(f"{index} bad byte {r.place}: refusal {r.number}, {WHY[r.number]}")
    return lines


def record(kind, bits, name=None, seed=0):
    """A record with just the fields of its map; numbers differ from field to field."""
    out = bytes([kind, bits])
    fields = KINDS[kind][1]
    for k, f in enumerate(fields):
        if bits & (1 << k):
            if f == "name":
                out += bytes([len(name)]) + name
            else:
                out += bytes([(17 * k + 3 + seed) % 256, (40 * k + seed) % 256])
    return out


def cases():
    """Pairs of a line of the table and its job."""
    table = []

    def plain(job):
        table.append((job.hex().upper(), job))

    # opening
    for first in (0, 1, 2, 255):
        plain(bytes([first]))
    plain(b"")
    for first in (0, 1, 2):
        for n in (65534, 65535):
            table.append((f"{first:02X} x{n} 00", bytes([first]) + bytes(n)))
    table.append(("x65535 01", b"\x01" * 65535))
    table.append(("x65536 02", b"\x02" * 65536))
    # a job of exactly 65,535 bytes that is good to its end, and the same with its last byte bad
    big = record(2, 0x29, b"q" * 255)
    assert len(big) == 262
    for tail in (record(4, 0x29, b"z" * 27), record(4, 0x29, b"z" * 26 + b"\x7f")):
        job = b"\x01" + big * 250 + tail
        assert len(job) <= 65535
        table.append((f"01 x250 {big.hex().upper()} x1 {tail.hex().upper()}", job))
    # the worked job of the document
    plain(bytes.fromhex("0001040A00020B010003000400022B02000400020002666602090300" + "0500"))

    # every map of every kind, with the fields that it asks for, and then with nothing after it
    for kind in (1, 2, 3, 4):
        fields = KINDS[kind][1]
        for bits in range(256):
            body = record(kind, bits, b"n") if bits < 1 << len(fields) else bytes([kind, bits]) + bytes(16)
            plain(b"\x00" + body)
    # every kind
    for kind in range(256):
        if kind not in KINDS:
            plain(bytes([1, kind]))
            plain(bytes([0]) + record(3, 1) + bytes([kind, 255, 0]))
    # full records, cut off at every byte, alone and after another record
    full = [record(1, 7, seed=200), record(2, 0x3F, b"abc~!", 100), record(3, 1, seed=250), record(4, 0x3F, b"Z9", 77)]
    for one in full:
        for n in range(len(one) + 1):
            plain(b"\x00" + one[:n])
            plain(b"\x01" + full[0] + one[:n])
    # all kinds, one after another
    plain(b"\x01" + b"".join(full) + b"".join(record(k, b, b"w") for k, b in ((1, 4), (2, 9), (4, 9), (3, 1))))
    # names: lengths, bad bytes, and cuts before and after them
    for kind in (2, 4):
        head = b"\x00" + bytes([kind, 0x29, 5, 0, 6, 0])
        plain(head)
        plain(head + b"\x00")
        plain(head + b"\x00" + b"abc")
        for size in (1, 2, 254, 255):
            plain(head + bytes([size]) + b"m" * size)
            plain(head + bytes([size]) + b"m" * size + record(3, 1))
            plain(head + bytes([size]) + b"m" * (size - 1))
        for bad in (0x00, 0x20, 0x7F, 0x80, 0xFF):
            for spot in range(4):
                name = bytearray(b"good")
                name[spot] = bad
                for n in range(5):
                    plain(head + b"\x04" + bytes(name[:n]))
            plain(head + b"\xFF" + b"m" * 254 + bytes([bad]))
        for fine in (0x21, 0x7E):
            plain(head + b"\x02" + bytes([fine, fine]))
    return table


def main():
    folder = sys.argv[1]
    table = cases()
    with open(folder + "/stdin", "w") as f:
        for line, _ in table:
            f.write(line + "\n")
    with open(folder + "/stdout", "w") as f:
        for n, (_, job) in enumerate(table):
            f.write("\n".join([f"case {n}"] + listing(job)) + "\n")


if __name__ == "__main__":
    main()
