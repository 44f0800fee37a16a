#!/usr/bin/env python3
"""Writes the jobs that bench/compare.py times, a file NAME.job each, in the format of docs/FORMAT.md.

    bench/generate.py FOLDER

The numbers are drawn with fixed seeds, so the files are the same each time. No job is longer than 65,535 bytes.
"""
import pathlib, random, struct, sys

LARGEST_JOB = 65_535
SQUARED, PLAIN = 0, 1
ROW, PLACE, WITHDRAW, TRY = 1, 2, 3, 4

# How many cells the jobs of one row have, from which one sees how the cost grows.
GROWTH = 128, 256, 512, 1024


def row(line, left, right):
    return struct.pack("<BB3H", ROW, 0b111, line, left, right)


def cell(kind, number, site, line, width, weight, name=b""):
    bits, tail = (0b111111, bytes([len(name)]) + name) if name else (0b11111, b"")
    return struct.pack("<BB5H", kind, bits, number, site, line, width, weight) + tail


def withdrawal(number):
    return struct.pack("<BBH", WITHDRAW, 0b1, number)


def spread(measure, seed, rows, sites, cells):
    """A tile that a global placer has spread roughly: rows on the lines from 0 on, filled to some nine tenths."""
    draw = random.Random(seed)
    records = [row(line, 0, sites) for line in range(rows)]
    widths = [draw.randint(1, 8) for _ in range(cells)]
    while sum(widths) > 0.9 * rows * sites:
        at = draw.randrange(cells)
        widths[at] = max(1, widths[at] - 1)
    wanted = sorted((draw.randrange(sites), draw.randrange(rows)) for _ in range(cells))
    numbers = draw.sample(range(65_536), cells)
    for number, (site, line), width in zip(numbers, wanted, widths):
        records.append(cell(PLACE, number, site, line, width, draw.randint(1, 10)))
    return bytes([measure]) + b"".join(records)


def one_row(measure, cells):
    """One row, and cells that all want its middle site; they have room, and take at most half of it."""
    draw = random.Random(cells)
    sites = 8 * cells
    records = [row(0, 0, sites)]
    for number in draw.sample(range(65_536), cells):
        records.append(cell(PLACE, number, sites // 2, 0, draw.randint(1, 4), 1))
    return bytes([measure]) + b"".join(records)


def one_row_wide(measure, cells):
    """The longest row, and cells that all want one site and nearly fill it, so that a best site is sought among many."""
    records = [row(0, 0, 65_535)]
    records += [cell(PLACE, number, 30_000, 0, 65_535 // cells, 1) for number in range(cells)]
    return bytes([measure]) + b"".join(records)


def long(measure, seed):
    """As many bytes as a job may have: on 32 rows come to stand some 700 cells, and then come placings, tries and withdrawals."""
    draw = random.Random(seed)
    rows, sites = 32, 150
    job = bytearray([measure]) + b"".join(row(line, 0, sites) for line in range(rows))
    placed = []
    while len(job) < LARGEST_JOB - 100:
        kind = PLACE if len(placed) < 700 else draw.choice([PLACE, TRY, WITHDRAW])
        if kind == WITHDRAW:
            job += withdrawal(placed.pop(draw.randrange(len(placed))))
            continue
        number = draw.randrange(65_536)
        wanted = draw.randrange(sites), draw.randrange(rows)
        job += cell(kind, number, *wanted, draw.randint(1, 8), draw.randint(1, 10))
        if kind == PLACE and number not in placed:
            placed.append(number)
    # The name of one more try takes the bytes that are left.
    last = cell(TRY, 0, 0, 0, 1, 1, b"n")
    return bytes(job) + cell(TRY, 0, 0, 0, 1, 1, b"n" * (LARGEST_JOB - len(job) - len(last) + 1))


def jobs():
    """Every job by its name."""
    return {
        "start": bytes([SQUARED]),
        "small": spread(SQUARED, 1, 4, 150, 100),
        "full": spread(SQUARED, 2, 64, 100, 1024),
        "full_plain": spread(PLAIN, 2, 64, 100, 1024),
        "long": long(SQUARED, 3),
        **{f"one_row_squared_{cells}": one_row(SQUARED, cells) for cells in GROWTH},
        **{f"one_row_plain_{cells}": one_row(PLAIN, cells) for cells in GROWTH},
        "one_row_squared_wide": one_row_wide(SQUARED, 1024),
        "one_row_plain_wide": one_row_wide(PLAIN, 1024),
    }


def main():
    folder = pathlib.Path(sys.argv[1])
    folder.mkdir(parents=True, exist_ok=True)
    for name, job in jobs().items():
        assert len(job) <= LARGEST_JOB
        (folder / f"{name}.job").write_bytes(job)


if __name__ == "__main__":
    main()
