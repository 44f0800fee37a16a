#!/usr/bin/env python3
"""Writes the table of jobs that crates/run_cases carries out, and what must come out of it; and what `legalize` must print for the
example tile.

Each line of the table is one job: words of hexadecimal bytes, of which a word that stands after `xN` counts N times. What must come
out is worked out here from the rules (docs/FORMAT.md, docs/RULES.md) and not from the program: records are read as tools/job_cases.py
reads them, each that can be read is one call on a floor of tools/floor_cases.py, and after the records come the standing cells and the
cost. After each job stands a line `end`.

    tools/run_cases.py        writes crates/run_cases/stdin, its stdout, and crates/legalize/stdout (from its stdin)
"""
import pathlib, random
from itertools import product
import floor_cases, job_cases

CRATES = pathlib.Path(__file__).resolve().parent.parent / "crates"
ROW, PLACE, WITHDRAW, TRY = 1, 2, 3, 4


def carried_out(floor, kind, got):
    """what is said of a record after its index: its call on the floor, and the name that it has"""
    fields = [job_cases.value(got, field) for field in job_cases.KINDS[kind][1] if field != "name"]
    name = [got["name"]] if "name" in got else []
    try:
        if kind == ROW:
            floor.add_row(tuple(fields))
        elif kind == WITHDRAW:
            floor.withdraw(*fields)
        else:
            answer = floor.place(tuple(fields)) if kind == PLACE else floor.try_place(tuple(fields))
            return ["ok", *answer] + name
        return ["ok"] + name
    except floor_cases.Refused as why:
        return ["no", *why.args] + name


def carry_out(job):
    """the lines of a job"""
    try:
        job_cases.check_opening(job)
    except job_cases.Refused as why:
        return [f"0 bad {why.number} {why.place}"]
    floor, said, at = floor_cases.Floor(job[0]), [], 1
    while at < len(job):
        try:
            kind, got, at = job_cases.read_record(job, at)
        except job_cases.Refused as why:
            said.append([len(said), "bad", why.number, why.place])
            break
        said.append([len(said)] + carried_out(floor, kind, got))
    said += [[cell[0], line, site] for cell, line, site in floor.seats()] + [["cost", floor.cost()]]
    return [" ".join(map(str, words)) for words in said]


def record(kind, **given):
    """a record with just the fields that are given"""
    bits, out = 0, b""
    for bit, field in enumerate(job_cases.KINDS[kind][1]):
        if field in given:
            bits |= 1 << bit
            out += bytes([len(given[field])]) + given[field] if field == "name" else given[field].to_bytes(2, "little")
    return bytes([kind, bits]) + out


def row(right, **more):
    return record(ROW, right=right, **more)


def place(number, site, width, kind=PLACE, **more):
    return record(kind, number=number, site=site, width=width, **more)


def tried(number, site, width, **more):
    return place(number, site, width, TRY, **more)


def withdrawn(number):
    return record(WITHDRAW, number=number)


SQUARED, PLAIN = b"\x00", b"\x01"
TEN = row(10)
PAIR = place(1, 3, 4) + place(2, 4, 2, name=b"ff")
# records of every kind, with every field and with as few as may be
FULL = [
    row(20, line=1, left=2),
    place(1, 8, 3, line=1, weight=2, name=b"a!~"),
    tried(2, 9, 4, line=0, weight=1, name=b"Z"),
    place(2, 9, 4, line=3, weight=1, name=b"bc"),
    withdrawn(1),
    TEN,
    record(PLACE, number=3, width=1),
    record(TRY, number=4, width=10, name=b"q"),
    record(PLACE, number=1, width=2, name=b"again"),
]


def worked():
    """good jobs: that of docs/FORMAT.md, and the settings worked by hand in docs/RULES.md"""
    yield SQUARED + TEN + PAIR + record(PLACE, number=3, width=5)
    for measure in (SQUARED, PLAIN):
        yield measure
        yield measure + TEN
        yield measure + PAIR
        for right in (10, 6, 5):
            yield measure + row(right) + PAIR
            yield measure + row(right) + PAIR + withdrawn(2)
            yield measure + row(right) + PAIR + withdrawn(1)
        yield measure + TEN + place(1, 9, 4)
        yield measure + TEN + place(1, 3, 4, weight=3) + place(2, 4, 2)
        yield measure + TEN + place(1, 0, 3) + place(2, 3, 3)
        yield measure + row(20) + place(1, 0, 4) + place(2, 1, 4) + place(3, 7, 2)
        yield measure + TEN + place(7, 2, 2) + place(5, 2, 2)
        yield measure + TEN + place(1, 3, 4) + row(10, line=1) + tried(2, 4, 2) + place(2, 4, 2)
        yield measure + row(10, line=2) + TEN + tried(1, 3, 4, line=1) + place(1, 3, 4, line=1)
        yield measure + b"".join(FULL)
        yield measure + b"".join(reversed(FULL))
        for one in FULL:
            yield measure + one


def opening():
    """jobs that cannot be opened, and the longest that can"""
    yield b""
    for first in range(2, 256):
        yield bytes([first])
    for first in (2, 255):
        yield bytes([first]) + TEN + PAIR
    yield [(65535, b"\x01")]
    yield [(65536, b"\x01")]
    yield [(65536, b"\x02")]
    for size in (21, 22):
        yield [(1, SQUARED + TEN), (250, tried(1, 3, 4, name=b"n" * 253)), (1, tried(2, 0, 10, name=b"~" * size))]


def damaged():
    """the job of all kinds of records cut at every byte, and with each byte another; records of unknown kinds and with wrong maps"""
    for measure in (SQUARED, PLAIN):
        job = measure + b"".join(FULL)
        for n in range(len(job)):
            yield job[:n]
    for n in range(len(job)):
        for byte in sorted({0, 1, 4, 0x20, 0xFF, job[n] ^ 1, job[n] ^ 0x80} - {job[n]}):
            yield job[:n] + bytes([byte]) + job[n + 1 :]
    for kind in range(256):
        if kind not in job_cases.KINDS:
            yield SQUARED + TEN + bytes([kind])
    for kind in (0, 5, 0x81, 0xFF):
        yield SQUARED + TEN + PAIR + bytes([kind, 9, 3, 0, 1, 0]) + place(3, 0, 1)
    for kind, bits in product(job_cases.KINDS, range(256)):
        fields = job_cases.KINDS[kind][1]
        there = {field: b"w" if field == "name" else 7 - k for k, field in enumerate(fields) if bits & 1 << k}
        yield SQUARED + TEN + place(9, 0, 2) + bytes([kind, bits]) + record(kind, **there)[2:] + place(8, 0, 1)


def names():
    """names of every length that counts, with every byte, and bad ones, of cells that are placed, tried and refused"""
    for kind in (PLACE, TRY):
        for size in (1, 2, 3, 100, 254, 255):
            yield SQUARED + TEN + place(1, 2, 4, kind, name=b"~" * size) + place(2, 2, 11, kind, name=b"!" * size) + place(65535, 65535, 1, kind)
            yield SQUARED + TEN + place(1, 2, 4, kind, name=b"~" * size)[:-1]
        every = bytes(range(0x21, 0x7F))
        yield PLAIN + TEN + place(1, 2, 4, kind, name=every) + place(2, 0, 0, kind, name=every[::-1])
        yield SQUARED + TEN + PAIR + place(3, 2, 4, kind, name=b"") + place(4, 0, 1)
        yield SQUARED + TEN + PAIR + place(3, 2, 4, kind, name=b"")
        for bad, spot in product((0x00, 0x20, 0x7F, 0x80, 0xFF), range(4)):
            name = b"good"[:spot] + bytes([bad]) + b"good"[spot + 1 :]
            whole = SQUARED + TEN + PAIR + place(3, 2, 4, kind, name=name)
            yield whole + place(4, 0, 1)
            for cut in range(1, 5):
                yield whole[:-cut]


def refused():
    """each refusal that a record can meet, with a name and without"""
    stands = SQUARED + TEN + place(1, 3, 8)
    for kind, name in product((PLACE, TRY), ({}, {"name": b"x"}, {"name": b"L" * 255})):
        for line, width, weight, number in product((0, 4096), (0, 2, 3, 1001), (0, 1, 1001), (1, 5)):
            yield stands + place(number, 0, width, kind, line=line, weight=weight, **name) + place(2, 9, 1)
        yield stands + place(65535, 65535, 2, kind, line=4095, weight=1000, **name)
        yield SQUARED + place(1, 0, 1, kind, **name)
    yield stands + withdrawn(2) + withdrawn(1) + withdrawn(1) + withdrawn(65535) + tried(1, 3, 8) + withdrawn(1)
    yield stands + row(0) + row(10, left=10) + row(10, left=11) + row(10, line=4096) + row(0, line=4096) + row(10) + row(11, left=9) + row(65535, left=10) + row(65535, line=4095)
    lines = b"".join(row(3, line=k) for k in range(64))
    yield SQUARED + lines + row(3, line=64) + row(0, line=64) + row(3, line=5) + place(1, 0, 3, line=64) + place(2, 0, 3, line=64) + withdrawn(1) + place(3, 0, 2, line=70, name=b"up")
    # 1,024 cells and one more, by what a job can say: refused, then one is withdrawn and the other takes its number's room
    for measure in (SQUARED, PLAIN):
        cells = b"".join(place(k, 40 * k, 1 + k % 40) for k in range(1024))
        more = tried(2000, 9, 1) + place(2000, 9, 1, name=b"more") + place(7, 9, 1) + place(2000, 9, 0)
        yield measure + row(65000) + cells + more + withdrawn(500) + tried(2000, 20000, 1, name=b"more") + place(2000, 20000, 1, weight=3, name=b"more") + more + withdrawn(0)


def cell_at_random(draw, kind, most, lines, width):
    """a cell with its optional fields there or not"""
    given = {"number": draw.randint(0, most), "width": draw.randint(1, width)}
    if draw.random() < 0.9:
        given["site"] = draw.randint(0, 26)
    if draw.random() < 0.6:
        given["line"] = draw.randint(0, lines)
    if draw.random() < 0.4:
        given["weight"] = draw.choice([0, 1, 1, 2, 3, 1000])
    if draw.random() < 0.4:
        given["name"] = bytes(draw.randint(0x21, 0x7E) for _ in range(draw.choice([1, 2, 3, 8])))
    return record(kind, **given)


def at_random(draw):
    """a small job with records of all kinds; some have a byte more, a byte less, or another byte, or are cut"""
    lines, width, most = draw.randint(0, 3), draw.randint(1, 5), draw.choice([3, 9, 30])
    records = []
    for _ in range(draw.randint(1, 4)):
        left = draw.randint(0, 12)
        records.append(row(left + draw.randint(1, 14), line=draw.randint(0, lines), **({"left": left} if left else {})))
    for _ in range(draw.randint(1, 22)):
        kind = draw.choice([PLACE] * 5 + [TRY] * 2 + [WITHDRAW] * 2 + [ROW])
        if kind == WITHDRAW:
            records.append(withdrawn(draw.randint(0, most)))
        elif kind == ROW:
            records.append(row(draw.randint(0, 30), line=draw.randint(0, lines), left=draw.randint(0, 20)))
        else:
            records.append(cell_at_random(draw, kind, most, lines, width))
        if kind == TRY and draw.random() < 0.5:
            records.append(bytes([PLACE]) + records[-1][1:])
    job = draw.choice([SQUARED, PLAIN]) + b"".join(records)
    at = draw.randrange(len(job))
    byte = bytes([draw.choice([draw.randrange(256), draw.randrange(12)])])
    damage = [job[:at] + byte + job[at:], job[:at] + job[at + 1 :], job[:at] + byte + job[at + 1 :], job[:at]]
    return draw.choice(damage) if draw.random() < 0.3 else job


def jobs():
    """bytes, or a list of bytes with how often each counts"""
    for group in (worked, opening, damaged, names, refused):
        yield from group()
    draw = random.Random(11)
    for _ in range(400):
        yield at_random(draw)


def main():
    table, said = [], []
    for job in jobs():
        parts = job if isinstance(job, list) else [(1, job)]
        table.append(" ".join((f"x{times} " if times > 1 else "") + part.hex().upper() for times, part in parts))
        said += carry_out(b"".join(part * times for times, part in parts)) + ["end"]
    (CRATES / "run_cases" / "stdin").write_text("".join(line + "\n" for line in table))
    (CRATES / "run_cases" / "stdout").write_text("".join(line + "\n" for line in said))
    legalize = CRATES / "legalize"
    (legalize / "stdout").write_text("".join(line + "\n" for line in carry_out((legalize / "stdin").read_bytes())))
    print(f"{len(table)} jobs")


if __name__ == "__main__":
    main()
