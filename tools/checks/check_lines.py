#!/usr/bin/env python3
"""Compares a program with the player on many lines from the Wharf Sheet.

    python3 tools/checks/check_lines.py PROGRAM [SEED [COUNT]]

PROGRAM is the path of an executable that plays records from its standard
input. Every power of two is tried in every cell, with the doubles beside it
and as an end of a span; then halves of a thousandth above even and odd
numbers, and spans whose mean is a half; then so many random lines, which the
seed makes. The refusal number of each line is compared and the words of the
entry that it made. Prints `N lines agree, M of them posted`, or the first
difference with exit status 1. Few halves among those posted are an error too.
"""

import os
import random
import sys
from itertools import chain

sys.path.insert(0, os.path.dirname(os.path.dirname(os.path.abspath(__file__))))

from calculation import player
from calculation.book import ENTRIES, MARK, size
from cases.book_writer import count as count_one
from cases.halves import demand_halves, halves_of
from cases.line_cases import beside
from cases.line_writer import (
    SIGN, ZERO, bits, line_records, power_bits, single, span)
from cases.random_cases import any_cell
from checks import check_endings
from checks.check_endings import dump, record

SEED = 1
COUNT = 100_000
PLAYED_AT_ONCE = 5000  # lines
FEWEST_HALVES = 500    # of each sort

ONE = single(0.001)
START = record(player.FRESH) + record(player.OPEN, 1)
# The words of the first entry; it is no longer counted after that.
SHOWN = dump(ENTRIES.start, size(ENTRIES)) + record(player.POKE,
                                                    ENTRIES.count, 0)

# What may be wrong beside the cells, as records before the line and behind it.
UNSOUND = record(player.POKE, 0, 0), record(player.POKE, 0, MARK)
SHORT = record(player.LEND, 2659), record(player.LEND, player.MOST_WORDS)
SOUND = b"", b""


# A line is its category, group and cells, and what is around it.

def in_each_place(cell):
    """The cell beside others of one thousandth."""
    for place in range(3):
        cells = [ONE] * 3
        cells[place] = cell
        yield (1, 0, *cells), SOUND


def powers_of_two():
    for exponent in range(-1074, 1024):
        double = power_bits(exponent)
        for cell in ((double,), (double - 1,), (double + 1,),
                     (SIGN | double,), (ZERO, double), (double, double),
                     (double, bits(1.0))):
            yield from in_each_place(cell)


def halves():
    """Odd numbers of sixteenths, which alone are halves of a thousandth, and
    the doubles beside them; ends whose mean is a half."""
    for number in (*range(1, 201, 2),
                   *range(16 * 10 ** 7 - 9, 16 * 10 ** 7, 2),
                   *range(16 * 10 ** 9 - 9, 16 * 10 ** 9, 2)):
        below, half, above = beside(bits(number / 16))
        for cell in ((half,), (below,), (above,), (half, half), (ZERO, half),
                     (half, above)):
            yield from in_each_place(cell)
    for first in (*range(120), *range(10 ** 10 - 9, 10 ** 10 - 5)):
        for more in (1, 3, 5):
            yield from in_each_place(span(first / 1000, (first + more) / 1000))


def random_lines(rng, count):
    for number in range(count):
        cells = [any_cell(rng) for _ in range(3)]
        # One cell or two are good, so that the others show.
        if number % 3 == 0:
            cells[1:] = ONE, ONE
        elif number % 3 == 1:
            cells[0] = ONE
        category, group, around = 1, 0, SOUND
        if rng.randrange(16) == 0:
            category, group, around = (
                (0, 0, SOUND), (1, 3, SOUND), (1, 2, SOUND), (1, 0, UNSOUND),
                (1, 0, SHORT))[rng.randrange(5)]
        yield (category, group, *cells), around


def records_of(line, around):
    before, behind = around
    return before + b"".join(record(*words)
                             for words in line_records(*line)) + behind + SHOWN


# What the program does with them.

def first_difference(lines, output, wanted):
    """The first line with another answer, or other words behind it."""
    # Two lines are printed for the start, then two for each.
    for place, (line, _) in enumerate(lines, 1):
        own, right = (printed[2 * place:2 * place + 2]
                      for printed in (output, wanted))
        if own != right:
            category, group, *cells = line
            return ("a line to category %d, group %d with the cells %s\n"
                    "  player  %r\n  program %r" % (
                        category, group, ", ".join(map(shown, cells)), right,
                        own))
    return "the output differs behind the lines"


def shown(cell):
    """The bits of a cell."""
    return "..".join("%016x" % double for double in cell) or "blank"


def posted(program, lines, met):
    """How many lines are posted; ends where the program differs. Adds their
    halves to those met."""
    data = START + b"".join(records_of(*line) for line in lines)
    wanted = player.play(data)
    output, status = check_endings.run(program, data)
    if output != wanted:
        raise SystemExit("%s (exit status %d)" % (
            first_difference(lines, *(
                text.decode("ascii", "replace").splitlines()
                for text in (output, wanted))), status))
    if status < 0:
        raise SystemExit("the program was ended by signal %d" % -status)
    found = [line for (line, _), answer
             in zip(lines, wanted.splitlines()[2::2]) if answer == b"0 1"]
    for line in found:
        for half in halves_of("line", None, line):
            count_one(met, half)
    return len(found)


def main(arguments):
    if (len(arguments) not in (1, 2, 3)
            or not all(map(str.isdecimal, arguments[1:]))):
        print("usage: check_lines.py PROGRAM [SEED [COUNT]]", file=sys.stderr)
        return 2
    program = os.path.abspath(arguments[0])
    seed = int(arguments[1]) if len(arguments) > 1 else SEED
    count = int(arguments[2]) if len(arguments) > 2 else COUNT
    lines = chain(powers_of_two(), halves(),
                  random_lines(random.Random(seed), count))
    met = {}
    agree = check_endings.in_parts(
        lines, PLAYED_AT_ONCE, lambda some: posted(program, some, met))
    demand_halves(met, ("cell", "mean"), FEWEST_HALVES)
    print("%d lines agree, %d of them posted" % agree)
    return 0


if __name__ == "__main__":
    sys.exit(main(sys.argv[1:]))
