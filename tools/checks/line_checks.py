"""Checks of lines from the Wharf Sheet; book_checks.py makes them."""

import random
import struct

import records
from calculation import calls, workbook
from calculation.second_way import cell_grounds, doubles_of, number_in
from cases.halves import demand_halves, halves_of
from cases.line_writer import (
    BLANK, INFINITY, LARGEST_FINITE, NANS, NEGATIVE_ZERO, NORMAL, SIGN,
    SUBNORMAL, ZERO, bits, power_bits, single, span)
from cases.random_cases import any_cell

SEED = 17
RANDOM_CELLS = 20_000

# Inputs whose output is written out here, reckoned by hand.

WRITTEN_OUT = (
    # 12,500 of 3,220 and of 550, the mean of 400 and 700.
    ("1; 2 1; 16 12.5; 16 3.22; 16 0.4..0.7; 17 1 2; 14 2 1; 14 36 6",
     "0; 0 1; 0 1; 1; 1 2 40250000 6875000 0 0"),
    # The same as bits: 12.5 is 25 × 2^-1. 1 and 2 are 1500 and 2 alone 2000;
    # zeros of either sign.
    ("1; 2 1; 16 1 4623226492472524800; 16 2 4607182418800017408 "
     "4611686018427387904; 16 2; 17 1 0; 16 1 4623226492472524800 7; 16 -0.0;"
     "16 0.0..-0.0; 17 1 0; 14 36 10",
     "0; 0 1; 0 1; 0 2; 1 0 18750000 25000000 0 1 0 0 0 0"),
    # Cells come before ground 1, good ones do not.
    ("16 -; 16 1; 16 1; 17 1 0; 16 1; 16 2..1; 16 1; 17 1 0; 16 1; 16 1;"
     "16 1; 17 1 0; 13 9; 16 1; 16 1; 16 1e7..1e8; 17 9 9",
     "15 0; 16 0; 1 0; 15 0"),
    # From the left: 16 and 15, 15 and 16. Within a cell 15 comes first.
    ("1; 2 1; 16 2..1; 16 -; 16 1; 17 1 0; 16 -; 16 2..1; 16 1; 17 1 0;"
     "16 1; 16 1; 16 1..-1; 17 1 0; 16 2e9..1; 16 1; 16 1; 17 1 0;"
     "16 1; 16 1; 16 2..1; 17 9 9; 16 nan..1; 16 2..1; 16 1; 17 1 0;"
     "16 1; 16 -inf; 16 1; 17 1 0; 16 1; 16 1..inf; 16 1; 17 1 0; 14 2 1",
     "0; 0 1; 16 0; 15 0; 15 0; 15 0; 16 0; 15 0; 15 0; 15 0; 0"),
    # The grounds of a post: 2, 3, 4, 6, and 10 with 10^12 × 10^10.
    ("1; 2 1; 2 2; 16 1; 16 1; 16 1; 17 3 0; 16 1; 16 1; 16 1; 17 1 3; 16 1;"
     "16 1; 16 1; 17 2 1; 16 1e9; 16 1e7; 16 0; 17 1 0; 5 1 1 0 1 1; 7 1;"
     "16 0; 16 0; 16 0; 17 1 0; 16 1e9; 16 0; 16 1e3; 17 2 0; 16 0.001;"
     "16 1e7; 16 0.0005; 17 2 0; 14 36 6",
     "0; 0 1; 0 2; 2 0; 3 0; 6 0; 10 0; 0 1; 0; 4 0; 0 1; 10 0;"
     "2 0 0 1000000000000000000 0 0"),
    # Cells are kept while other operations are played, and gone after a line.
    ("16 0.5; 1; 16 0.25; 2 1; 15 0; 12 2999 1; 16 2; 13 3000; 17 1 0;"
     "14 36 5; 16 -; 16 1; 16 1; 17 1 0; 17 1 0",
     "0; 0 1; 11 0 0; 0 1; 1 0 125000 1000000 0; 15 0; bad record 15"),
    # A line is an entry like any other: a closing divides it, a strike takes
    # it away. 62,000, by 62.5, and 2000, by the mean of 1 and 2.
    ("1; 2 1; 16 1; 16 0.0625; 16 0.0006..0.002; 17 1 0; 16 1; 16 1; 16 1;"
     "17 1 0; 4 2; 4 2; 5 1 7 0 1 1; 7 1; 8 7",
     "0; 0 1; 0 1; 0 2; 0; 4; 0 1; 0; 0 1 0 62000 2000 64000"),
    # Bad records.
    ("16; 16; 16; 16; 1", "bad record 4"),
    ("17; 1", "bad record 1"),
    ("16; 17; 1", "bad record 2"),
    ("16; 16; 17 1 0; 1", "bad record 3"),
    ("1; 16 3 0; 1", "0; bad record 2"),
    ("16 18446744073709551615 0; 1", "bad record 1"),
    ("16 4294967297 0; 1", "bad record 1"),
)


# What a cell becomes.

RECKONED = (
    # 1.0, and 12.5, which is 1.5625 × 2^3.
    ((0x3FF0000000000000,), 1000),
    ((0x4029000000000000,), 12_500),
    # 2^-4 is 62.5 thousandths; the doubles beside it have a little less and a
    # little more.
    ((0x3FB0000000000000,), 62),
    ((0x3FAFFFFFFFFFFFFF,), 62),
    ((0x3FB0000000000001,), 63),
    # 3 × 2^-4 is 187.5 thousandths.
    ((0x3FC8000000000000,), 188),
    ((0x3FC7FFFFFFFFFFFF,), 187),
    ((0x3FC8000000000001,), 188),
    # 0.0005 is 4,611,686,018,427,388 × 2^-63; 1000 times that is 96 × 2^-63
    # above a half, which is 4,611,686,018,427,387,904 × 2^-63. The double
    # below it is 904 × 2^-63 below.
    ((0x3F40624DD2F1A9FC,), 1),
    ((0x3F40624DD2F1A9FB,), 0),
    # 2^-11 is 0.488 thousandths, 2^-10 is 0.977.
    ((0x3F40000000000000,), 0),
    ((0x3F50000000000000,), 1),
    # 2/3, a little less: 666.67.
    ((0x3FE5555555555555,), 667),
    # The smallest double, the largest below 2^-1022, and both zeros.
    ((0x0000000000000001,), 0),
    ((0x000FFFFFFFFFFFFF,), 0),
    ((0x0000000000000000,), 0),
    ((0x8000000000000000,), 0),
    # 2^29, 10^7 and 10^9.
    ((0x41C0000000000000,), 536_870_912_000),
    ((0x416312D000000000,), 10 ** 10),
    ((0x41CDCD6500000000,), 10 ** 12),
    # 62 and 188: 125. 62 and 62. 0 and 62: 31. 0 and 63: 31.5.
    ((0x3FB0000000000000, 0x3FC8000000000000), 125),
    ((0x3FB0000000000000, 0x3FB0000000000000), 62),
    ((0x8000000000000000, 0x3FB0000000000000), 31),
    ((0x8000000000000000, 0x3FB0000000000001), 32),
    # 62 and 62, 62 and 63: 62.5. 187 and 188: 187.5.
    ((0x3FAFFFFFFFFFFFFF, 0x3FB0000000000000), 62),
    ((0x3FB0000000000000, 0x3FB0000000000001), 62),
    ((0x3FC7FFFFFFFFFFFF, 0x3FC8000000000000), 188),
    # 0 and 10^12, 1000 and 10^12.
    ((0x0000000000000000, 0x41CDCD6500000000), 5 * 10 ** 11),
    ((0x3FF0000000000000, 0x41CDCD6500000000), 500_000_000_500),
    # 0 and 1, the second by 0.0005: 0.5. 1 and 1.
    ((0x3F40624DD2F1A9FB, 0x3F40624DD2F1A9FC), 0),
    ((0x3F40624DD2F1A9FC, 0x3F40624DD2F1A9FC), 1),
)

# Whether 15 holds of a cell as a quantity, as a factor, and whether 16 does;
# then cells of which this is so. 10^7 is 0x416312D000000000, 10^9 is
# 0x41CDCD6500000000.
GROUNDS = (
    ((False, False, False), (
        single(0.0), (NEGATIVE_ZERO,), (SUBNORMAL,), single(1e7),
        (0x416312D000000000,), (0x416312CFFFFFFFFF,), span(1.0, 1.0),
        span(1.0, 2.0), (ZERO, NEGATIVE_ZERO), (NEGATIVE_ZERO, ZERO))),
    ((False, True, False), (
        (0x416312D000000001,), (0x41CDCD64FFFFFFFF,), (0x41CDCD6500000000,),
        single(1e9), span(0.0, 1e9), span(1e7, 1e9))),
    ((True, True, False), (
        BLANK, (SIGN | SUBNORMAL,), single(-0.001), (0x41CDCD6500000001,),
        (LARGEST_FINITE,), (INFINITY,), (SIGN | INFINITY,),
        (SIGN | SUBNORMAL, ZERO), span(-2.0, -1.0), span(1e9, 1e10),
        *((nan,) for nan in NANS), *((nan, ZERO) for nan in NANS),
        *((ZERO, nan) for nan in NANS), *((nan, nan) for nan in NANS))),
    ((False, False, True), (
        span(2.0, 1.0), (SUBNORMAL, ZERO), (SUBNORMAL, NEGATIVE_ZERO),
        (NORMAL, NORMAL - 1))),
    ((False, True, True), (
        span(1e9, 1e7), (0x416312D000000001, 0x416312D000000000))),
    ((True, True, True), (
        span(-1.0, -2.0), (ZERO, SIGN | SUBNORMAL), span(1e10, 1e9))),
)


def reckoned_by_hand(check):
    for cell, thousandths in RECKONED:
        check(workbook.converted(cell) == thousandths, "reckoned by hand",
              cell, thousandths)
        check(number_in(cell) == thousandths, "the second way", cell)
    for wanted, cells in GROUNDS:
        for cell in cells:
            found = (workbook.is_unusable(cell, 10 ** 9),
                     workbook.is_unusable(cell, 10 ** 7),
                     workbook.is_exchanged(cell))
            check(found == wanted, "grounds", cell, found)
    for cell in (BLANK, (INFINITY,), NANS[:1], (ZERO, NANS[0])):
        try:
            workbook.converted(cell)
            check(False, "a number of", cell)
        except workbook.NoNumber:
            check(True)


def check_cell(check, cell):
    """The grounds and the number by both ways, in each place."""
    by_doubles = cell_grounds([cell] * 3)
    for place, limit in enumerate(workbook.LIMITS, 1):
        check(workbook.is_unusable(cell, limit) == by_doubles[15, place],
              "15 by both ways", cell)
    if workbook.is_unusable(cell, max(workbook.LIMITS)):
        return
    check(workbook.is_exchanged(cell) == by_doubles[16, 1],
          "16 by both ways", cell)
    number = workbook.converted(cell)
    check(number == number_in(cell), "the number by both ways", cell)
    ends = []
    for double in doubles_of(cell):
        ends.append(workbook.converted((bits(double),)))
        check_nearest(check, double, ends[-1])
    # The mean is exact, or half a thousandth off and even.
    off = abs(2 * number - ends[0] - ends[-1])
    check(off == 0 or off == 1 and number % 2 == 0, "the mean", cell, number)


def check_nearest(check, double, number):
    """The number is less than half a thousandth from the double, or it is
    even and half a thousandth from it; compared in whole numbers."""
    above, below = double.as_integer_ratio()
    off = 2 * abs(1000 * above - number * below)
    check(off < below or off == below and number % 2 == 0,
          "nearest, halves to the even number", double, number)


def powers_of_two(check):
    for exponent in range(-1074, 1024):
        double = power_bits(exponent)
        check(doubles_of((double,)) == [2.0 ** exponent], "a power", exponent)
        for cell in ((double,), (double - 1,), (double + 1,), (SIGN | double,),
                     (double, double), (double - 1, double), (ZERO, double)):
            check_cell(check, cell)


def random_cells(check):
    rng = random.Random(SEED)
    good = 0
    met = {}
    for _ in range(RANDOM_CELLS):
        cell = any_cell(rng)
        check_cell(check, cell)
        if not workbook.is_unusable(cell, 10 ** 9):
            good += 1
            for half in halves_of("line", None, (1, 0, cell)):
                met[half] = met.get(half, 0) + 1
    check(RANDOM_CELLS // 2 < good < 9 * RANDOM_CELLS // 10, "good ones", good)
    demand_halves(met, ("cell", "mean"), RANDOM_CELLS // 20)


def whole_numbers(check):
    """Exactly 1000 times each."""
    rng = random.Random(SEED)
    for value in (*range(2000), 10 ** 7 - 1, 10 ** 7, 10 ** 9 - 1, 10 ** 9,
                  *(rng.randrange(10 ** 9) for _ in range(2000))):
        check(workbook.converted(single(float(value))) == 1000 * value,
              "a whole number", value)


# Grounds that never hold.

def never_out_of_range(check):
    """A line whose cells are good has no ground 7; where one is not, it has 15
    or 16 first."""
    rng = random.Random(SEED)
    words = [0] * 2660
    calls.make("fresh", words)
    calls.make("open", words, 1)
    for _ in range(2000):
        cells = [any_cell(rng) for _ in range(3)]
        grounds = list(calls.grounds_of_line(words, 1, 0, *cells))
        check(set(grounds) <= {15, 16, 10}, "grounds of a line", cells,
              grounds)
        check(10 not in grounds[:1] or grounds == [10], "10 last", cells)


# Cells as people write them.

WRITTEN_CELLS = (
    ("-", (0,)), ("12.5", (1, 0x4029000000000000)),
    ("2", (1, bits(2.0))), ("0", (1, 0)), ("1", (1, bits(1.0))),
    ("-0.0", (1, SIGN)), ("+1.5", (1, bits(1.5))),
    ("1e-3", (1, bits(0.001))), ("5e-324", (1, 1)), ("1E9", (1, bits(1e9))),
    ("0.0005", (1, 0x3F40624DD2F1A9FC)), ("inf", (1, INFINITY)),
    ("-inf", (1, SIGN | INFINITY)), ("1e400", (1, INFINITY)),
    ("nan", (1, NANS[0])), ("3.1..3.4", (2, bits(3.1), bits(3.4))),
    ("3..4", (2, bits(3.0), bits(4.0))), ("1..-1", (2, bits(1.0), bits(-1.0))),
    ("0..inf", (2, 0, INFINITY)), ("2 0 0", (2, 0, 0)), ("2 5", (2, 5, 0)),
    ("1 4623226492472524800", (1, 0x4029000000000000)), ("0 0", (0, 0)),
    ("", (0,)),
)
NO_CELLS = ("x", "--", "..", "1..", "..2", "1..2..3", "1...2", ".5", "5.",
            "1_0", "0x10", "1,5", "infinity", "1e", "- -", "1.5 0", "1 -")


def written_cells(check):
    for text, words in WRITTEN_CELLS:
        wanted = struct.pack("<8Q", 16, *words, *[0] * (7 - len(words)))
        check(records.packed("16 " + text) == wanted, "a cell in words", text)
    for text in NO_CELLS:
        try:
            records.packed("16 " + text)
            check(False, "a cell in words", text)
        except ValueError:
            check(True)


def run(check):
    reckoned_by_hand(check)
    powers_of_two(check)
    random_cells(check)
    whole_numbers(check)
    never_out_of_range(check)
    written_cells(check)
