"""Makes the table of the figures' results with SQLite: python3 make_table.py > table.txt

The rows of four keys stand in a table cells(key, i, c0, c1, c2, c3); queries.sql has one query for each letter.
A line of the table is one of
    key NAME                                  the rows that follow are this key's, the first having the rank 0
    row CELL CELL CELL CELL                   a row's cells, - for an absent one
    LETTER COLUMN BEFORE AFTER RANK RESULT..  the results of the ranks from RANK on, - for an absent one
"""
import os
import re
import sqlite3

HIGH = 2**31 - 1
LOW = -(2**31)

# A key of one row.
SINGLE = [(7, None, LOW, -1)]

# Negative numbers, absent cells in runs and at both ends, a column without a number.
MIXED = [
    (10, None, -3, None),
    (20, 5, -4, None),
    (None, -5, 0, None),
    (-7, None, None, None),
    (-8, None, None, None),
    (0, HIGH, 1, None),
    (None, LOW, -1, None),
    (3, None, 2, None),
    (-1, 1, -2, None),
    (4, -1, 3, None),
    (None, 0, -3, None),
    (None, 6, 4, None),
    (9, None, None, None),
]

# The extremes of 32 bits, whose sums pass 32 bits in both directions.
EXTREME = [
    (HIGH, LOW, HIGH, LOW),
    (HIGH, LOW, LOW, None),
    (HIGH, LOW, HIGH, LOW),
    (HIGH, LOW, LOW, HIGH),
    (HIGH, None, HIGH, None),
    (HIGH, LOW, HIGH, LOW),
    (LOW, HIGH, LOW, HIGH),
]


def long_key(count):
    """A key that is longer than the largest reach: mostly small numbers, every fifth cell absent or so, a few extremes."""
    rows = []
    state = 1
    for i in range(count):
        cells = []
        for column in range(4):
            state = (state * 1103515245 + 12345) % 2**31
            draw = state // 2**16
            if draw % 5 == 0:
                cells.append(None)
            elif draw % 97 == 1:
                cells.append(HIGH if column % 2 == 0 else LOW)
            else:
                cells.append(draw % 199 - 99)
        rows.append(tuple(cells))
    return rows


SHORT = [(0, 0), (1, 0), (0, 1), (1, 1), (2, 3), (3, 1), (512, 0), (0, 512), (512, 512)]
LONG = [(0, 0), (3, 2), (512, 0), (0, 512), (511, 1), (512, 512)]

# name, rows, reaches, columns for each figure, stretches of ranks
KEYS = [
    ("single", SINGLE, SHORT, 1, [(0, 1)]),
    ("mixed", MIXED, SHORT, 2, [(0, len(MIXED))]),
    ("extreme", EXTREME, SHORT[1:6] + SHORT[8:], 2, [(0, len(EXTREME))]),
    ("long", long_key(530), LONG, 1, [(0, 3), (254, 256), (510, 514), (527, 530)]),
]


def queries():
    here = os.path.dirname(os.path.abspath(__file__))
    with open(os.path.join(here, "queries.sql"), encoding="ascii") as file:
        found = re.findall(r"^-- (\w): .*\n(SELECT .*;)$", file.read(), re.MULTILINE)
    assert "".join(letter for letter, _ in found) == "nrkcslhftgda"
    return found


def written(value):
    assert value is None or isinstance(value, int)
    return "-" if value is None else str(value)


def main():
    base = sqlite3.connect(":memory:")
    base.execute("CREATE TABLE cells (key TEXT, i INTEGER, c0 INTEGER, c1 INTEGER, c2 INTEGER, c3 INTEGER)")
    for name, rows, _, _, _ in KEYS:
        base.executemany("INSERT INTO cells VALUES (?, ?, ?, ?, ?, ?)", [(name, i) + row for i, row in enumerate(rows)])
    for name, rows, reaches, columns, stretches in KEYS:
        print("key", name)
        for row in rows:
            print("row", *map(written, row))
        for place, (letter, query) in enumerate(queries()):
            for turn, (b, a) in enumerate(reaches):
                for column in range(columns):
                    c = (place + turn + column) % 4
                    text = query.format(c="c%d" % c, b=b, a=a)
                    results = [value for value, in base.execute(text, (name,))]
                    assert len(results) == len(rows)
                    for low, high in stretches:
                        print(letter, c, b, a, low, *map(written, results[low:high]))


main()
