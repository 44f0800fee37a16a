#!/usr/bin/env python3
"""Writes the table of floor calls that crates/floor_cases runs, and what must come out of it.

The expected lines come from the rules of docs/RULES.md and not from the program: a floor is rows, and the cells on each; a row's
cheapest and leftmost setting is found by a table over cells and sites (tools/row_cases.py; no cluster is formed), and a cell goes
to the row whose cheapest cost rises least, the first of equal ones in row order. A try answers so too and changes nothing; a
withdrawn cell is taken off its row. The sites are not kept: they are worked out anew from the cells that stand.

    tools/floor_cases.py      writes crates/floor_cases/stdin and its stdout
"""
import pathlib, random
from itertools import permutations, product
from row_cases import cheapest, price

CRATES = pathlib.Path(__file__).resolve().parent.parent / "crates"


class Refused(Exception):
    pass


def cell_fault(cell):
    number, site, line, width, weight = cell
    if site > 65535 or line > 4095:
        raise Refused(1)
    if not 1 <= width <= 1000:
        raise Refused(2)
    if not 1 <= weight <= 1000:
        raise Refused(3)
    if number > 65535:
        raise Refused(4)


class Floor:
    """rows, and for each the cells that stand on it, in wanted order; nothing else is kept"""

    def __init__(self, measure):
        self.measure, self.cells, self.known = measure, {}, {}

    def add_row(self, row):
        line, left, right = row
        if line > 4095 or not left < right <= 65535:
            raise Refused(9)
        if len(self.cells) >= 64:
            raise Refused(10)
        if any(line == l and left < r and a < right for l, a, r in self.cells):
            raise Refused(11)
        self.cells[row] = []

    def setting(self, row, cells):
        """the cheapest cost of a row's cells, and their sites; kept, since most rows are asked for again"""
        key = (row, tuple(cells))
        if key not in self.known:
            wanted = [cell[1] for cell in cells]
            ends = [row[1]] + [cell[1] + cell[3] for cell in cells]
            # where all can stand where they are wanted, that costs 0, and anything else more
            fits = all(end <= start for end, start in zip(ends, wanted + [row[2]]))
            self.known[key] = (0, wanted) if fits else cheapest(self.measure, row, cells)
        return self.known[key]

    def standing(self):
        return [cell for cells in self.cells.values() for cell in cells]

    def offer(self, cell):
        """the row that takes a cell, its cells then, and what is answered: line, site, rise"""
        cell_fault(cell)
        standing = self.standing()
        if any(cell[0] == other[0] for other in standing):
            raise Refused(5)
        if len(standing) >= 1024:
            raise Refused(6)
        best = None
        for row in sorted(self.cells):
            cells = self.cells[row]
            if sum(c[3] for c in cells) + cell[3] > row[2] - row[1]:
                continue
            joined = sorted(cells + [cell], key=lambda c: (c[1], c[0]))
            rise = self.setting(row, joined)[0] - self.setting(row, cells)[0] + price(self.measure, cell[2], cell[4], row[0])
            if best is None or rise < best[2]:
                best = row, joined, rise
        if best is None:
            raise Refused(7)
        row, joined, rise = best
        return row, joined, (row[0], self.setting(row, joined)[1][joined.index(cell)], rise)

    def try_place(self, cell):
        _, _, answer = self.offer(cell)
        return answer

    def place(self, cell):
        row, joined, answer = self.offer(cell)
        self.cells[row] = joined
        return answer

    def seats(self):
        """the standing cells with line and site, in row order and then by site"""
        return [(cell, row[0], site) for row in sorted(self.cells) for cell, site in zip(self.cells[row], self.setting(row, self.cells[row])[1])]

    def where(self, number):
        for cell, line, site in self.seats():
            if cell[0] == number:
                return line, site
        raise Refused(8)

    def withdraw(self, number):
        """where the cell stood; those that are left on its row are then set as if it had never come"""
        answer = self.where(number)
        self.cells = {row: [cell for cell in cells if cell[0] != number] for row, cells in self.cells.items()}
        return answer

    def cost(self):
        return sum(price(self.measure, c[1], c[4], site) + price(self.measure, c[2], c[4], line) for c, line, site in self.seats())


def answer(floor, words):
    """one call of the table, and what it answers"""
    kind, numbers = words[0], tuple(map(int, words[1:]))
    try:
        if kind == "row":
            floor.add_row(numbers)
            return "ok"
        if kind == "cost":
            return str(floor.cost())
        got = {
            "place": lambda: floor.place(numbers),
            "try": lambda: floor.try_place(numbers),
            "withdraw": lambda: floor.withdraw(*numbers),
            "where": lambda: floor.where(*numbers),
        }[kind]()
        return " ".join(map(str, got))
    except Refused as why:
        return f"no {why.args[0]}"


def looked(numbers):
    """where these stand, and the cost"""
    return [f"where {number}" for number in numbers] + ["cost"]


def both(*fields):
    """a cell tried, the cost, and the cell placed: the try answers as the placing does and leaves the cost as it was"""
    cell = " ".join(map(str, fields))
    return [f"try {cell}", "cost", f"place {cell}", "cost"]


def settings():
    """one row or a few: the worked settings of docs/RULES.md, and the row of least rise"""
    first, second = "place 1 3 0 4 1", "place 2 4 0 2 1"
    pair = [first, second] + looked([1, 2])
    yield "squared", ["cost", "where 1", "place 1 0 0 1 1"]
    yield "squared", ["row 0 0 10", "place 1 9 0 4 1", "cost"]
    yield "squared", ["row 0 0 10"] + pair
    yield "squared", ["row 0 0 10", "place 1 3 0 4 3"] + pair[1:]
    yield "plain", ["row 0 0 10"] + pair
    yield "squared", ["row 0 0 6"] + pair
    yield "squared", ["row 0 0 5"] + pair
    yield "squared", ["row 0 0 20", "place 1 0 0 4 1", "place 2 1 0 4 1", "place 3 7 0 2 1"] + looked([1, 2, 3])
    yield "squared", ["row 0 0 10", "place 7 2 0 2 1", "place 5 2 0 2 1"] + looked([5, 7])
    yield "squared", ["row 0 0 10", first, "row 1 0 10", "try 2 4 0 2 1"] + pair[1:]
    yield "squared", ["row 0 0 10"] + pair + ["withdraw 2"] + looked([1, 2])
    # the row of least rise, and not of the least own move; the line counts
    yield "squared", ["row 1 0 10", "row 0 0 10"] + pair
    yield "squared", ["row 0 0 10", "row 2 0 10", "place 1 3 1 4 1"] + looked([1])
    yield "squared", ["row 0 20 30", "row 0 0 10", "place 1 14 0 2 1", "place 2 13 0 2 1", "cost"]
    yield "plain", ["row 4095 65525 65535", "row 0 0 1"] + both(65535, 65535, 4095, 10, 1000) + both(0, 0, 0, 1, 1) + ["where 65535", "withdraw 65535", "cost"]
    # a try, and then the same cell placed, beside others that move for it
    for measure in ("squared", "plain"):
        crowd = [call for n in range(1, 6) for call in both(n, 8, 0, 3, n)]
        yield measure, ["row 0 0 20", "row 1 0 9"] + crowd + ["try 9 8 0 3 2"] + looked(range(1, 6)) + ["try 9 8 0 3 2"] + both(9, 8, 1, 3, 2) + looked([9])


def widths():
    """widths that fit exactly, and by one not; room that a withdrawal makes"""
    yield "squared", ["row 0 0 4", "place 1 3 0 3 1", "place 2 0 0 1 1", "place 3 0 0 1 1"] + looked([1, 2])
    yield "squared", ["row 0 3 9", "try 1 0 0 7 1", "place 1 0 0 7 1"] + both(1, 0, 0, 6, 1) + ["try 2 0 0 1 1", "withdraw 1"] + both(2, 9, 0, 5, 1) + both(3, 9, 0, 2, 1) + both(3, 9, 0, 1, 1) + looked([1, 2, 3])
    yield "plain", ["row 0 0 999", "try 1 0 0 1000 1", "place 1 0 0 1000 1", "row 1 0 1000"] + both(1, 500, 0, 1000, 1) + both(2, 0, 1, 999, 1) + both(3, 0, 1, 1, 1) + looked([1, 2, 3])
    yield "squared", ["row 0 0 6"] + both(1, 3, 0, 4, 1) + both(2, 4, 0, 2, 1) + ["place 3 0 0 1 1", "withdraw 2", "try 3 0 0 3 1"] + both(3, 0, 0, 2, 1) + ["withdraw 1", "place 4 0 0 5 1"] + both(4, 0, 0, 4, 1) + looked([1, 2, 3, 4])
    # two rows of one line are two rows: no cell goes across where they meet
    yield "squared", ["row 0 0 5", "row 0 5 10"] + both(1, 3, 0, 4, 1) + both(2, 3, 0, 4, 1) + both(3, 4, 0, 2, 1) + both(3, 4, 0, 1, 1) + both(4, 4, 0, 1, 1) + both(5, 4, 0, 1, 1) + looked([1, 2, 3, 4])


def refusals():
    """each refusal, alone and with those that come after it"""
    mixed = ["row 0 0 10", "place 1 0 0 8 1"]
    for site, line, width, weight, number in product((0, 65536), (0, 4096), (0, 2, 3, 1001), (0, 1, 1001), (1, 5, 65536)):
        cell = f"{number} {site} {line} {width} {weight}"
        mixed += [f"try {cell}", f"place {cell}"] + ([f"withdraw {number}"] if number != 1 else [])
    yield "squared", mixed + looked([1, 5])
    # each field at its bounds, and far past them
    far = 4294967295
    edges = ["row 0 0 2000", "row 4095 0 2000"]
    for spot, values in enumerate([(0, 65535, 65536, far), (0, 65535, 65536, far), (0, 4095, 4096, far), (0, 1, 1000, 1001, far), (0, 1, 1000, 1001, far)]):
        for value in values:
            cell = [5, 5, 5, 5, 5]
            cell[spot] = value
            edges += both(*cell) + [f"withdraw {cell[0]}"]
    yield "plain", edges
    yield "squared", edges + [f"try {far} {far} {far} {far} {far}", f"where {far}", f"withdraw {far}", "withdraw 65536", "withdraw 65535", "cost"]
    # no row at all; numbers that never stood, that were only tried or refused, and that were withdrawn
    yield "squared", ["try 1 0 0 1 1", "place 1 0 0 1 1", "withdraw 1", "where 1", "row 0 0 4", "try 1 0 0 1 1", "withdraw 1", "where 1", "place 1 0 0 5 1", "withdraw 1", "where 1",
                      "place 1 0 0 4 1", "where 1", "withdraw 1", "where 1", "withdraw 1", "withdraw 0", "withdraw 2", "cost"]
    yield "squared", ["row 0 0 10", "place 1 65536 4096 0 0", "place 65536 0 4096 0 0", "place 65536 0 0 0 0", "place 65536 0 0 1001 0", "place 65536 0 0 1 0", "place 65536 0 0 1 1001",
                      "place 65536 0 0 1 1", "place 1 0 0 11 1", "place 1 0 0 10 1", "place 1 0 0 1 1", "place 1 0 0 1001 1", "place 2 0 0 1 1", "cost"]
    # rows: outside their ranges, 64 of them and more, and rows that share sites
    yield "squared", ["row 4096 0 1", "row 0 1 1", "row 0 2 1", "row 0 0 65536", "row 0 5 10", "row 0 0 6", "row 0 9 12", "row 0 6 7", "row 0 5 10", "row 0 0 5", "row 0 10 11", "row 1 5 10", "row 0 0 1"]
    yield "squared", [f"row 0 {far} {far}", f"row {far} 0 1", f"row 0 0 {far}", f"row 0 {far} 1", "row 0 0 0", "row 0 65535 65535", "row 0 65534 65535", "row 4095 0 65535", "row 4095 65534 65535",
                      "row 4096 0 65535", "row 0 0 65535", "row 0 0 65534", "row 0 65533 65534"]
    lines = [f"row {k * 7 % 64} 0 2" for k in range(64)]
    yield "squared", lines + ["row 64 0 0", "row 64 0 1", "row 0 0 1", "row 4096 0 1"] + [f"place {k} 0 {k % 9} 1 1" for k in range(130)] + ["cost"]
    yield "plain", lines + ["withdraw 0", "row 64 0 1"] + both(0, 0, 70, 1, 1) + ["row 64 0 1"] + both(1, 0, 70, 2, 1) + both(2, 1, 64, 2, 1) + looked(range(3))


def full():
    """1,024 cells and one more: on 64 rows that they fill, on rows with a site left over, and on one long row"""
    refused = [f"{call} {cell}" for cell in ("0 0 0 1 1", "0 0 0 2 1", "2000 0 0 1 1", "2000 0 0 2 1", "2000 0 0 0 1", "0 65536 0 1 1", "2000 0 0 1 0", "65536 0 0 1 1") for call in ("try", "place")]
    yield "plain", [f"row {k} 0 17" for k in range(64)] + [f"place {k} {k * 3 % 16} {k % 64} 1 1" for k in range(1024)] + refused + [
        "row 64 0 0", "row 64 0 1", "where 1023", "cost", "withdraw 700"] + both(2000, 5, 3, 2, 1) + refused[:4] + ["withdraw 5", "withdraw 2000"] + both(700, 9, 63, 2, 3) + both(5, 9, 63, 1, 3) + ["try 6 0 0 1 1"] + looked(range(0, 1024, 16))
    # the most that a floor of 64 full rows costs about: heavy cells at the far end that are wanted at the near one
    yield "squared", [f"row {4032 + k} 65519 65535" for k in range(64)] + [f"place {k} 0 0 1 1000" for k in range(1024)] + refused + [
        "cost", "withdraw 1000"] + both(2000, 0, 0, 2, 1) + both(1000, 65535, 4095, 1, 1000) + ["withdraw 0", "withdraw 1023"] + both(2001, 65535, 4095, 1, 1) + looked(range(0, 1024, 100))
    spread = random.Random(7).sample(range(1024), 1024)
    for measure in ("squared", "plain"):
        yield measure, ["row 7 0 1100"] + [f"place {k} {k} 7 1 {k % 3 + 1}" for k in spread] + refused + [
            "cost", "withdraw 512"] + both(3000, 100, 7, 1, 2) + ["where 99", "where 100", "where 101", "where 511", "where 513"] + refused[:4] + ["withdraw 3000", "cost"] + both(512, 1099, 7, 50, 3) + ["withdraw 0"] + both(0, 1023, 0, 1, 7) + looked(range(0, 1024, 64))


def ties():
    """equal rises: the first row in row order; equal costs: the leftmost sites"""
    for measure in ("squared", "plain"):
        # lines on both sides of the wanted one; rows on both sides of the wanted site
        yield measure, ["row 2 0 10", "row 0 0 10"] + both(1, 3, 1, 4, 1) + both(2, 3, 1, 4, 1) + both(3, 3, 1, 4, 1) + looked([1, 2, 3])
        yield measure, ["row 0 7 10", "row 0 0 4"] + both(1, 5, 0, 1, 2) + both(2, 5, 0, 1, 2) + both(3, 5, 0, 1, 2) + both(4, 5, 0, 1, 2) + looked([1, 2, 3, 4])
        yield measure, [f"row {line} 0 8" for line in (5, 1, 4, 2)] + [call for n in range(10) for call in both(n, 2, 3, 3, 1)] + looked(range(9))
        # a step along the row costs what a step to another line does: the first row in row order takes the cell, wanted there or not
        yield measure, ["row 1 0 10", "row 0 0 10"] + both(1, 3, 1, 2, 1) + both(2, 3, 1, 1, 1) + both(3, 3, 1, 1, 1) + looked([1, 2, 3])
        yield measure, ["row 1 0 10", "row 0 0 10"] + both(1, 3, 0, 1, 1) + both(2, 3, 0, 1, 1) + both(3, 3, 0, 1, 1) + looked([1, 2, 3])
        # the first of the rows that tie is full: the next has the cell; withdrawn, it is the first again
        yield measure, ["row 0 0 2", "row 1 0 2", "row 2 0 2"] + both(1, 0, 1, 2, 1) + both(2, 0, 1, 2, 1) + both(3, 0, 1, 2, 1) + ["withdraw 2"] + both(4, 0, 1, 2, 1) + ["withdraw 3", "withdraw 4"] + both(5, 0, 1, 1, 1) + looked([1, 5])
        # two cells of one wanted site, of even and of odd widths and weights
        for weight, width in product((1, 2, 3), (1, 2, 3)):
            yield measure, ["row 0 0 12"] + both(1, 5, 0, width, 1) + both(2, 5, 0, width, weight) + looked([1, 2]) + both(3, 5, 0, 1, 1) + looked([1, 2, 3])


def withdrawals():
    """cells that move back once one beside them is gone, in every order of leaving; other rows stay"""
    for measure in ("squared", "plain"):
        for order in permutations(range(1, 5)):
            calls = ["row 0 0 20", "row 1 0 20"] + [f"place {n} 8 0 {n} {n % 2 + 1}" for n in range(1, 5)] + ["place 9 3 1 4 1", "place 8 4 1 2 1"] + looked([1, 2, 3, 4, 8, 9])
            for n in order:
                calls += [f"withdraw {n}"] + looked([1, 2, 3, 4])
            yield measure, calls + looked([8, 9])
        # at the left end, at the right end, and between others; then placed again
        chain = [f"place {n} {site} 0 3 1" for n, site in ((1, 0), (2, 1), (3, 7), (4, 8), (5, 8), (6, 15), (7, 15))]
        for n in range(1, 8):
            yield measure, ["row 0 0 22"] + chain + looked(range(1, 8)) + [f"withdraw {n}"] + looked(range(1, 8)) + both(n, 10, 0, 3, 2) + looked(range(1, 8))


def at_random(draw):
    """a small floor and calls of every kind on it"""
    lines, calls = draw.randint(1, 4), []
    width, most = draw.randint(1, 5), draw.choice([4, 9, 30])
    cell = lambda: f"{draw.randint(0, most)} {draw.randint(0, 26)} {draw.randint(0, lines)} {draw.randint(1, width)} {draw.choice([1, 1, 2, 3, 1000])}"
    for _ in range(draw.randint(1, 5)):
        left = draw.randint(0, 12)
        calls.append(f"row {draw.randint(0, lines)} {left} {left + draw.randint(1, 14)}")
    for _ in range(draw.randint(5, 35)):
        kind = draw.choice(["place"] * 6 + ["both"] * 2 + ["try", "withdraw", "withdraw", "where", "cost", "row"])
        if kind == "both":
            calls += both(*cell().split())
        elif kind in ("place", "try"):
            calls.append(f"{kind} {cell()}")
        elif kind in ("withdraw", "where"):
            calls.append(f"{kind} {draw.randint(0, most)}")
        elif kind == "row":
            calls.append(f"row {draw.randint(0, lines)} {draw.randint(0, 20)} {draw.randint(0, 30)}")
        else:
            calls.append(kind)
    return draw.choice(["squared", "plain"]), calls + looked(range(most + 1))


def cases():
    """floors, each a measure and a list of calls; cells are number, wanted site, wanted line, width, weight"""
    for group in (settings, widths, refusals, full, ties, withdrawals):
        yield from group()
    draw = random.Random(4)
    for _ in range(150):
        yield at_random(draw)


def main():
    floors, table, said = list(cases()), [], []
    for measure, calls in floors:
        floor = Floor(["squared", "plain"].index(measure))
        table += [f"floor {measure}"] + calls
        said += [f"floor {measure}"] + [answer(floor, call.split()) for call in calls]
    (CRATES / "floor_cases" / "stdin").write_text("\n".join(table) + "\n")
    (CRATES / "floor_cases" / "stdout").write_text("\n".join(said) + "\n")
    print(f"{len(floors)} floors, {len(table) - len(floors)} calls")


if __name__ == "__main__":
    main()
