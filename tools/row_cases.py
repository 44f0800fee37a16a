#!/usr/bin/env python3
"""Writes the table of rows that crates/row_cases runs, and what must come out.

The expected lines come from the definition of a setting and not from the program: every legal setting in wanted
order is looked at (by a table over cells and sites), the cheapest cost is taken, and of the cheapest settings the
leftmost. No cluster is formed here. Refusals are the first check that fails, in the order of docs/RULES.md.

    tools/row_cases.py        writes crates/row_cases/stdin and crates/row_cases/stdout
"""
import pathlib, random
from itertools import accumulate

ROOT = pathlib.Path(__file__).resolve().parent.parent / "crates" / "row_cases"


def price(measure, wanted, weight, place):
    distance = abs(place - wanted)
    return weight * (distance * distance if measure == 0 else distance)


def refusal(row, buffer, cells):
    line, left, right = row
    if line > 4095 or not left < right <= 65535:
        return 9
    if len(cells) > 1024 or buffer != len(cells):
        return 12
    last = None
    for number, site, wanted_line, width, weight in cells:
        if site > 65535 or wanted_line > 4095:
            return 1
        if not 1 <= width <= 1000:
            return 2
        if not 1 <= weight <= 1000:
            return 3
        if number > 65535:
            return 4
        if last is not None and not last < (site, number):
            return 13
        last = (site, number)
    if sum(cell[3] for cell in cells) > right - left:
        return 14
    return None


def cheapest(measure, row, cells):
    """the cheapest cost, and of the cheapest settings the leftmost: best[k][j] is the least cost of the cells from k on where none
    starts left of its first site and j more; a cell's first site is where it stands when all before it abut from the left end"""
    _, left, right = row
    firsts = list(accumulate((cell[3] for cell in cells), initial=left))
    free = right - firsts.pop() + 1
    best = [[0] * free]
    for (_, site, _, _, weight), first in zip(reversed(cells), reversed(firsts)):
        costs = [price(measure, site, weight, first + j) + rest for j, rest in enumerate(best[0])]
        best.insert(0, list(accumulate(reversed(costs), min))[::-1])
    sites, j = [], 0
    for k, (_, site, _, _, weight) in enumerate(cells):
        while price(measure, site, weight, firsts[k] + j) + best[k + 1][j] != best[k][j]:
            j += 1
        sites.append(firsts[k] + j)
    return best[0][0], sites


def cases():
    one = lambda wanted, width, weight=1, number=1: (number, wanted, 0, width, weight)
    ten, six, five, twenty = (0, 0, 10), (0, 0, 6), (0, 0, 5), (0, 0, 20)
    pair = [one(3, 4), one(4, 2, 1, 2)]
    yield 0, ten, 0, []
    yield 0, ten, 1, [one(9, 4)]
    yield 0, ten, 2, pair
    yield 0, ten, 2, [one(3, 4, 3), one(4, 2, 1, 2)]
    yield 1, ten, 2, pair
    yield 0, six, 2, pair
    yield 0, five, 2, pair
    yield 0, ten, 2, [one(0, 3), one(3, 3, 1, 2)]
    yield 0, twenty, 3, [one(0, 4), one(1, 4, 1, 2), one(7, 2, 1, 3)]
    yield 0, ten, 2, [one(2, 2, 1, 5), one(2, 2, 1, 7)]
    # rows at and past their bounds
    for row in [(4095, 0, 10), (4096, 0, 10), (0, 9, 10), (0, 10, 10), (0, 11, 10), (0, 65534, 65535), (0, 65534, 65536), (4294967295, 4294967295, 4294967295)]:
        yield 0, row, 1, [one(3, 1)]
    # numbers of cells and of sites
    many = lambda n: [one(k, 1, 1, k) for k in range(n)]
    for count, buffer in [(1, 0), (1, 2), (0, 1), (1024, 1024), (1025, 1025), (1024, 1023)]:
        yield 0, (0, 0, 1024), buffer, many(count)
    # every refusal of a cell at its bounds, alone and before others of its own
    good = (5, 5, 5, 2, 2)
    bad = [(5, 65536, 5, 2, 2), (5, 5, 4096, 2, 2), (5, 5, 5, 0, 2), (5, 5, 5, 1001, 2), (5, 5, 5, 2, 0), (5, 5, 5, 2, 1001), (65536, 5, 5, 2, 2)]
    edge = [(0, 65535, 0, 1, 1), (65535, 5, 4095, 1, 1000), (5, 5, 5, 1000, 1)]
    for cell in bad + edge + [good]:
        yield 0, (0, 0, 2000), 1, [cell]
    yield 0, (0, 0, 2000), 1, [(65536, 65536, 4096, 0, 0)]
    yield 0, (0, 0, 2000), 1, [(65536, 5, 5, 0, 0)]
    yield 0, (0, 0, 2000), 1, [(65536, 5, 5, 2, 0)]
    yield 0, (0, 10, 10), 7, [(65536, 65536, 4096, 0, 0)]
    yield 0, (0, 0, 2000), 7, [(65536, 65536, 4096, 0, 0)]
    yield 0, (0, 0, 2000), 2, [(9, 9, 0, 1, 1), (65536, 3, 0, 1, 1)]
    # wanted order: equal sites, equal numbers, both equal, falling; and that it comes before the widths
    for first, second in [((1, 5), (2, 5)), ((2, 5), (1, 5)), ((1, 5), (1, 5)), ((1, 5), (1, 6)), ((1, 6), (1, 5)), ((9, 5), (1, 6))]:
        yield 0, ten, 2, [(first[0], first[1], 0, 1, 1), (second[0], second[1], 0, 1, 1)]
        yield 0, (0, 0, 1), 2, [(first[0], first[1], 0, 1, 1), (second[0], second[1], 0, 1, 1)]
    # widths that fit exactly, and by one not
    yield 0, ten, 3, [one(0, 4, 1, 1), one(9, 4, 1, 2), one(9, 2, 1, 3)]
    yield 0, ten, 3, [one(0, 4, 1, 1), one(9, 4, 1, 2), one(9, 3, 1, 3)]
    # the far end of the places, and the heaviest cells
    yield 0, (0, 65500, 65535), 3, [(1, 65535, 0, 10, 1000), (2, 65535, 0, 10, 1), (3, 65535, 0, 10, 1000)]
    yield 0, (0, 0, 1000), 1, [(1, 65535, 0, 1000, 1000)]
    yield 1, (0, 65000, 65535), 1, [(1, 0, 0, 1, 1000)]
    # small rows at random, both measures
    rng = random.Random(20)
    for k in range(400):
        width = rng.randint(4, 28)
        left = rng.randint(0, 5)
        cells = []
        room = width
        for number in range(rng.randint(1, 7)):
            w = rng.randint(1, 5)
            if w <= room:
                room -= w
                cells.append((number, rng.randint(0, width + 8), rng.randint(0, 3), w, rng.choice([1, 1, 1, 2, 3, 7])))
        cells.sort(key=lambda c: (c[1], c[0]))
        yield k % 2, (0, left, left + width), len(cells), cells
    # longer rows: many cells about few sites
    for k in range(8):
        cells = [(number, rng.choice([100, 101, 400, rng.randint(0, 700)]), 0, rng.randint(1, 6), rng.randint(1, 9)) for number in range(120)]
        cells.sort(key=lambda c: (c[1], c[0]))
        yield k % 2, (0, 3, 703), len(cells), cells


def worst():
    """1,024 cells of width 1 and weight 1 that all want one site stand abutting: the first start whose next one costs no less"""
    for measure in (0, 1):
        cells = [(n, 30000, 0, 1, 1) for n in range(1024)]
        cost = lambda x: sum(price(measure, 30000, 1, x + k) for k in range(1024))
        start = min(range(28900, 30100), key=lambda x: (cost(x), x))
        yield (measure, (0, 0, 65535), 1024, cells), (cost(start), [start + k for k in range(1024)])


def main():
    table, expected = [], []
    for measure, row, buffer, cells in cases():
        table.append((measure, row, buffer, cells))
        number = refusal(row, buffer, cells)
        if number is None:
            cost, sites = cheapest(measure, row, cells)
            expected.append(" ".join(map(str, [cost] + sites)))
        else:
            expected.append(f"no {number} true")
    for case, (cost, sites) in worst():
        table.append(case)
        expected.append(" ".join(map(str, [cost] + sites)))
    lines = [" ".join(map(str, [m, *row, buffer, *[f for c in cells for f in c]])) for m, row, buffer, cells in table]
    (ROOT / "stdin").write_text("\n".join(lines) + "\n")
    (ROOT / "stdout").write_text("\n".join(expected) + "\n")
    print(f"{len(lines)} rows")


if __name__ == "__main__":
    main()
