#!/usr/bin/env python3
"""Writes the lines that the conversion of cells is counted on.

    python3 bench/cells.py DIRECTORY

NAME.calls has 4,000 lines with cells of one sort, for a slice of no words.
NAME.sum is what their cells come to, all added up, by the separate
calculation: those of a line that is refused too, as far as its first bad one.
The bytes are the same each time.
"""

import os
import random
import sys

import files  # noqa: F401, tools/ on the path

from calculation.player import LEND
from calculation.workbook import (
    LIMITS, converted, is_exchanged, is_unusable)
from cases.line_writer import BLANK, NORMAL, bits, line_records, single
from cases.random_cases import any_cell
from checks.check_endings import record

LINES = 4000
SEED = 3


def size(rng):
    """From 1 to about 10^6, with a fraction."""
    return 1 + rng.random() * 10 ** rng.randrange(7)


def blank(rng):
    return [BLANK] * 3


def numbers(rng):
    return [single(size(rng)) for _ in range(3)]


def spans(rng):
    return [tuple(sorted((bits(size(rng)), bits(size(rng)))))
            for _ in range(3)]


def tiny(rng):
    """Below half a thousandth, about half of them subnormal."""
    ranges = (1, NORMAL), (NORMAL, bits(0.0005))
    return [(rng.randrange(*rng.choice(ranges)),) for _ in range(3)]


def whole(rng):
    return [single(float(rng.randrange(1, 10 ** 6))) for _ in range(3)]


def halves(rng):
    """A whole number of thousandths and a half: odd sixteenths."""
    return [single((2 * rng.randrange(8 * 10 ** 6) + 1) / 16)
            for _ in range(3)]


def two_numbers(rng):
    """The third cell is blank."""
    return numbers(rng)[:2] + [BLANK]


def any_cells(rng):
    """Good and bad ones of every sort."""
    return [any_cell(rng) for _ in range(3)]


def sum_of(cells):
    """What the cells come to that are left of the first bad one."""
    values = 0
    for cell, limit in zip(cells, LIMITS):
        if is_unusable(cell, limit) or is_exchanged(cell):
            break
        values += converted(cell)
    return values


def write(directory, name, lines):
    path = os.path.join(directory, name)
    with open(path + ".calls", "wb") as file:
        file.write(record(LEND, 0))
        for cells in lines:
            for words in line_records(1, 0, *cells):
                file.write(record(*words))
    with open(path + ".sum", "w") as file:
        print(sum(map(sum_of, lines)), file=file)


def main():
    if len(sys.argv) != 2:
        raise SystemExit("usage: cells.py DIRECTORY")
    for name, cells in (
        ("blank", blank), ("numbers", numbers), ("spans", spans),
        ("tiny", tiny), ("whole", whole), ("halves", halves),
        ("two-numbers", two_numbers), ("any", any_cells),
    ):
        rng = random.Random(SEED)
        write(sys.argv[1], name, [cells(rng) for _ in range(LINES)])


if __name__ == "__main__":
    main()
