"""Cases of lines from the Wharf Sheet: what a cell becomes, limits, spans,
refusals 15 and 16, and a post's grounds through a line.

Where amounts are given, they are reckoned by hand. Beside a cell of 0.001,
which is 1 thousandth, the amounts are the thousandths of the other cells.
"""

import random
from itertools import product

from calculation import book, player
from calculation.book import ENTRIES
from cases.book_writer import FAR, LARGEST
from cases.call_cases import try_in_order
from cases.file_writer import file_of
from cases.line_writer import (
    BLANK, INFINITY, LARGEST_FINITE, NANS, NEGATIVE_ZERO, NORMAL, SIGN,
    SUBNORMAL, ZERO, bits, cell_arguments, power_bits, single, span)
from cases.random_cases import any_cell

SEED = 15
RANDOM_LINES = 3_700

ONE = single(0.001)
MOST = (1e9, 1e7, 1e7)


QUANTITY, OPERATION, PROVISION = PLACES = range(3)


def among_ones(place, cell):
    """Three cells: this one in its place, 1 thousandth in the others."""
    cells = [ONE] * 3
    cells[place] = cell
    return cells


class Rows:
    """Lines to the one category of a book that has room for each: its entries
    are shown when there are 64, and no longer counted."""

    def __init__(self, cases):
        self.cases = cases
        cases.new_book(1)

    def line(self, *cells, gives=0, comes_to=None):
        """`comes_to` are the two amounts of the entry, None where they are
        not known."""
        numbers = self.cases.line(1, 0, *cells, gives=gives)
        if numbers[0] != 0:
            return
        if comes_to is not None:
            entry = book.Book(self.cases.words).entries[-1]
            if (entry.operation, entry.provision) != comes_to:
                raise AssertionError("%r comes to %r" % (cells, entry))
        if numbers[1] == ENTRIES.most:
            self.end()

    def cell(self, place, cell, thousandths=None, gives=0):
        """A cell in its place. `thousandths` is what it becomes, None where
        it is not known."""
        comes_to = None
        if thousandths is not None:
            comes_to = {QUANTITY: (thousandths, thousandths),
                        OPERATION: (thousandths, 1),
                        PROVISION: (1, thousandths)}[place]
        self.line(*among_ones(place, cell), gives=gives, comes_to=comes_to)

    def quantity(self, cell, thousandths=None, gives=0):
        self.cell(QUANTITY, cell, thousandths, gives)

    def factors(self, operation, provision, *thousandths, gives=0):
        """Both factors in one line."""
        self.line(ONE, operation, provision, gives=gives,
                  comes_to=thousandths or None)

    def refused(self, cell, gives, places=PLACES):
        """The cell in each place."""
        for place in places:
            self.cell(place, cell, gives=gives)

    def everywhere(self, cell, *thousandths):
        """The same of a cell that is accepted."""
        self.quantity(cell, *thousandths)
        self.factors(cell, cell, *2 * thousandths)

    def end(self):
        self.cases.dump(ENTRIES.start, book.size(ENTRIES)
                        * self.cases.words[ENTRIES.count])
        self.cases.poke(ENTRIES.count, 0)


# What a double becomes.

def reckoned_by_hand(cases):
    rows = Rows(cases)
    # 12.5 units of 3.22 g, and of a span from 0.4 to 0.7 g: 12,500 × 3,220
    # and 12,500 × 550.
    rows.line(single(12.5), single(3.22), span(0.4, 0.7),
              comes_to=(40_250_000, 6_875_000))
    # The entry of document 01's example.
    rows.line(single(12_000.0), single(3_220.0), single(560.0),
              comes_to=(38_640_000_000_000, 6_720_000_000_000))
    for cell, thousandths in (
        (single(0.0), 0), (single(-0.0), 0), (single(1.0), 1000),
        (single(0.1), 100), (single(2.5), 2500), (single(0.0004), 0),
        (single(123.4564), 123_456), (single(123.4566), 123_457),
        # An odd number of sixteenths is a half: 62.5, 187.5, 312.5.
        (single(0.0625), 62), (single(0.1875), 188), (single(0.3125), 312),
        # 0.0005 and 0.0015 are a little more than their decimals, 0.0045 is
        # a little less.
        (single(0.0005), 1), (single(0.0015), 2), (single(0.0045), 4),
        (span(0.0, 0.0), 0), (span(1.0, 2.0), 1500),
        # 1 and 2 are 1.5, 2 and 3 are 2.5.
        (span(0.001, 0.002), 2), (span(0.002, 0.003), 2),
        # 0 and 1 are 0.5, although the mean of 0.4 and 1.4 is 0.9; 1 and 2
        # are 1.5, although that of 0.6 and 1.6 is 1.1.
        (span(0.0004, 0.0014), 0), (span(0.0006, 0.0016), 2),
        # 62 and 188 are 125, as 62.5 and 187.5 are; 62 and 312 are 187, and
        # 62.5 and 312.5 would be 187.5.
        (span(0.0625, 0.1875), 125), (span(0.0625, 0.3125), 187),
    ):
        rows.everywhere(cell, thousandths)
    rows.end()


def powers_of_two(cases):
    """Those that matter in each cell, the other small ones in one of the
    cells, and every third of the largest. 2^-11 is 0.488 thousandths, 2^-10
    is 0.977; 2^29 is below 10^9 and 2^23 below 10^7."""
    rows = Rows(cases)
    for exponent in range(-1074, 24):
        cell = (power_bits(exponent),)
        if exponent > -16:
            rows.everywhere(cell)
        elif exponent % 3 == 0:
            rows.quantity(cell, 0)
        elif exponent % 3 == 1:
            # This one and the one after it.
            rows.factors(cell, (power_bits(exponent + 1),), 0, 0)
    rows.end()
    for exponent in range(24, 30):
        cell = (power_bits(exponent),)
        rows.quantity(cell, 1000 * 2 ** exponent)
        rows.refused(cell, 15, (OPERATION, PROVISION))
    for exponent in range(30, 1024):
        cell = (power_bits(exponent),)
        if exponent < 36 or exponent in (62, 63, 64, 1022, 1023):
            rows.refused(cell, 15)
        elif exponent < 80 or exponent % 3 == 0:
            rows.refused(cell, 15, (exponent // 3 % 3,))
    rows.end()


def beside(double):
    """A positive double with those beside it."""
    return double - 1, double, double + 1


def halves(cases):
    """Odd numbers of sixteenths and the doubles beside them; no other double
    is a half of a thousandth. Even ones are whole thousandths. 1 sixteenth is
    62.5, 3 are 187.5: every other half lies above an even number."""
    rows = Rows(cases)
    for number in (*range(1, 33, 2), 255, 257, 2 ** 20 - 1, 2 ** 20 + 1,
                   16 * 10 ** 7 - 1):
        below, half, above = beside(bits(number / 16))
        whole = 125 * number // 2
        even = whole if number % 4 == 1 else whole + 1
        rows.quantity((half,), even)
        rows.factors((below,), (above,), whole, whole + 1)
        rows.factors((half,), (half,), even, even)
        # The mean of two numbers beside one another is their half, or both
        # are the same.
        rows.factors((below, half), (half, above), even, even)
        # To the next one: 126 thousandths more from an even number below, 124
        # from one above.
        if number < 32:
            rows.quantity((half, bits((number + 2) / 16)), whole + 63)
    for number in (2 ** 31 - 1, 2 ** 33 + 1, 16 * 10 ** 9 - 1):
        whole = 125 * number // 2
        for double, more in zip(beside(bits(number / 16)),
                                (0, int(number % 4 == 3), 1)):
            rows.quantity((double,), whole + more)
    for number in (2, 4, 6, 8, 16, 24, 48):
        rows.everywhere(single(number / 16), 125 * number // 2)
    rows.end()


def near_halves(cases):
    """The double nearest to a half in decimals, and those beside it."""
    rows = Rows(cases)
    for thousandths in (*range(12), 62, 99, 499, 999, 1234, 99_999, 4_194_303,
                        9_999_999_999):
        double = bits((2 * thousandths + 1) / 2000)
        for other in beside(double):
            rows.factors((other,), (other, other))
    for thousandths in (0, 1, 2, 63, 999, 12_345, 10 ** 9, 2 ** 37,
                        999_999_999_999):
        double = bits((2 * thousandths + 1) / 2000)
        for other in beside(double):
            rows.quantity((other,))
    # Thousandths themselves, and those beside them.
    for thousandths in (1, 2, 3, 7, 999, 1001, 123_456_789, 9_999_999_999):
        for other in beside(bits(thousandths / 1000)):
            rows.quantity((other,), thousandths)
            rows.factors((other,), (other,), thousandths, thousandths)
    rows.end()


def smallest_and_largest(cases):
    rows = Rows(cases)
    for double in (ZERO, NEGATIVE_ZERO, SUBNORMAL, 2, NORMAL - 1, NORMAL,
                   NORMAL + 1, bits(1e-300), bits(1e-20), bits(1e-4),
                   bits(0.0005) - 1):
        rows.everywhere((double,), 0)
    for double in (SIGN | SUBNORMAL, SIGN | NORMAL, SIGN | NORMAL - 1,
                   bits(-1e-20), bits(-0.0005), bits(-0.001), bits(-1.0),
                   bits(-1e9), SIGN | LARGEST_FINITE, LARGEST_FINITE, INFINITY,
                   SIGN | INFINITY, bits(1e10), bits(1e19), bits(2.0 ** 64),
                   bits(2.0 ** 64 / 1000), LARGEST, LARGEST - 1, *NANS):
        rows.refused((double,), 15)
        # As one end of a span, or both; never 16.
        for place, cell in ((QUANTITY, (double, double)),
                            (QUANTITY, (ZERO, double)),
                            (QUANTITY, (double, bits(1.0))),
                            (OPERATION, (double, ZERO)),
                            (PROVISION, (bits(1.0), double))):
            rows.cell(place, cell, gives=15)
    rows.refused(BLANK, 15)
    rows.line(BLANK, BLANK, BLANK, gives=15)
    rows.end()


def limits(cases):
    """The double itself is compared, and not what it would become."""
    rows = Rows(cases)
    for place, most in enumerate(MOST):
        limit, whole = bits(most), 1000 * int(most)
        for double, thousandths in ((limit, whole), (limit - 1, whole),
                                    (bits(most - 1), whole - 1000),
                                    (bits(most - 0.001), whole - 1),
                                    (bits(most - 0.5), whole - 500)):
            rows.cell(place, (double,), thousandths)
            # The mean of one less and the limit is the limit, which is even;
            # so is half of it.
            rows.cell(place, (double, limit), (thousandths + whole + 1) // 2)
            rows.cell(place, (ZERO, double), (thousandths + 1) // 2)
        for double in (limit + 1, limit + 2, bits(most + 0.001),
                       bits(most + 1), bits(2 * most), bits(1000 * most)):
            for cell in ((double,), (double, double), (limit, double),
                         (ZERO, double), (double, limit), (double, ZERO)):
                rows.cell(place, cell, gives=15)
    # Between the two limits: a quantity, but no factor.
    for value in (1e7 + 1, 5e7, 2.0 ** 26, 1e8, 999_999_999.0):
        rows.quantity(single(value), 1000 * int(value))
        rows.quantity(span(1e7, value), 500 * (10 ** 7 + int(value)))
        for cell in (single(value), span(0.0, value)):
            rows.refused(cell, 15, (OPERATION, PROVISION))
    rows.end()


def whole_numbers(cases):
    """Exactly 1000 times each."""
    rows = Rows(cases)
    for value in (*range(0, 40), 99, 255, 256, 999, 1000, 65_535, 2 ** 20 + 1,
                  1_234_567, 9_999_999, 10 ** 7):
        rows.quantity(single(float(value)), 1000 * value)
        rows.factors(single(float(value)), span(value, value),
                     1000 * value, 1000 * value)
    for value in (10 ** 7 + 1, 123_456_789, 2 ** 29 + 1, 10 ** 9 - 1):
        rows.quantity(single(float(value)), 1000 * value)
        rows.quantity(span(value, value), 1000 * value)
    rows.end()


# Spans.

def spans(cases):
    rows = Rows(cases)
    for cell, thousandths in (
        # Zeros of either sign, and the smallest doubles.
        ((ZERO, ZERO), 0), ((ZERO, NEGATIVE_ZERO), 0),
        ((NEGATIVE_ZERO, ZERO), 0), ((NEGATIVE_ZERO, NEGATIVE_ZERO), 0),
        ((ZERO, SUBNORMAL), 0), ((NEGATIVE_ZERO, SUBNORMAL), 0),
        ((SUBNORMAL, SUBNORMAL), 0), ((SUBNORMAL, NORMAL), 0),
        ((ZERO, bits(0.001)), 0), ((NEGATIVE_ZERO, bits(0.001)), 0),
        ((SUBNORMAL, bits(0.002)), 1), ((ZERO, bits(0.003)), 2),
        # Sums that are even and odd.
        (span(1.0, 1.0), 1000), (span(1.0, 1.001), 1000),
        (span(1.0, 1.002), 1001), (span(1.001, 1.002), 1002),
        (span(0.0, 1e7), 5_000_000_000), (span(0.001, 1e7), 5_000_000_000),
        (span(0.003, 1e7), 5_000_000_002),
        (span(1e7, 1e7), 10_000_000_000),
        (span(9_999_999.999, 1e7), 10_000_000_000),
        (span(9_999_999.998, 1e7), 9_999_999_999),
        # Ends beside one another, on both sides of a half.
        ((bits(0.0625) - 1, bits(0.0625)), 62),
        ((bits(0.0625), bits(0.0625) + 1), 62),
        ((bits(0.1875) - 1, bits(0.1875)), 188),
        ((bits(0.1875) - 2, bits(0.1875) - 1), 187),
        ((bits(1.0), bits(1.0) + 1), 1000),
    ):
        rows.everywhere(cell, thousandths)
    rows.quantity(span(0.0, 1e9), 500_000_000_000)
    rows.quantity(span(0.001, 1e9), 500_000_000_000)
    rows.quantity(span(0.003, 1e9), 500_000_000_002)
    rows.quantity(span(1e9, 1e9), 10 ** 12)
    # Exchanged, by as little as there is.
    for cell in (
        (SUBNORMAL, ZERO), (SUBNORMAL, NEGATIVE_ZERO), (2, SUBNORMAL),
        (NORMAL, NORMAL - 1), (bits(1.0) + 1, bits(1.0)),
        (bits(1.0), bits(1.0) - 1), (bits(1e7), bits(1e7) - 1),
        span(2.0, 1.0), span(3.4, 3.1), span(1e7, 0.0), span(0.002, 0.001),
        (bits(1.0), NEGATIVE_ZERO),
    ):
        rows.refused(cell, 16)
    rows.quantity((bits(1e9), bits(1e9) - 1), gives=16)
    rows.quantity(span(1e9, 1e7), gives=16)
    rows.end()


# 15 and 16, within a cell and from cell to cell.

def bad_cells(limit):
    """Cells with their refusal numbers. The last five are exchanged too."""
    above = limit + 1
    return (
        (BLANK, 15), ((INFINITY,), 15), ((above,), 15),
        (span(2.0, 1.0), 16), (span(-1.0, 1.0), 15),
        ((bits(1.0), NANS[0]), 15), ((above, limit), 15),
        ((above + 1, above), 15), (span(1.0, -1.0), 15),
        ((INFINITY, ZERO), 15), ((SIGN | SUBNORMAL, SIGN | NORMAL), 15),
    )


def one_bad_cell(cases):
    """Each bad cell in each place, on a sound book, on an unsound one and in
    a short slice."""
    cases.new_book(1)
    for place, most in enumerate(MOST):
        for cell, refusal in bad_cells(bits(most)):
            cells = among_ones(place, cell)
            cases.line(1, 0, *cells, gives=refusal)
            cases.poke(0, 0)
            cases.line(1, 0, *cells, gives=refusal)
            cases.poke(0, book.MARK)
            for lent in (0, 2659):
                cases.lend(lent)
                cases.line(1, 0, *cells, gives=refusal)
            cases.lend(player.MOST_WORDS)
    # Good cells there.
    for cells in ([ONE] * 3, [single(1e9), single(1e7), single(1e7)],
                  [span(0.0, 1.0)] * 3):
        cases.poke(0, 0)
        cases.line(1, 0, *cells, gives=1)
        cases.line(0, 9, *cells, gives=1)
        cases.poke(0, book.MARK)
        for lent in (0, 4, 2404, 2659):
            cases.lend(lent)
            cases.line(1, 0, *cells, gives=1)
        cases.lend(player.MOST_WORDS)
    cases.dump_book()


def order_of_cells(cases):
    """Every combination of three cells: good, 15, 16 or both; the post of it
    has no ground, each ground, or several. 9 µg are left of 10^18, and one or
    no entry."""
    cases.new_book(3, 2, 1)
    cases.enrol(2, 1, 100, 1, 1)
    cases.enrol(3, 1, 0, 1, 1)
    cases.close(2)
    cases.close(3)
    cases.open(2)
    cases.fill_emissions(1, 9, 9)
    for _ in range(61):
        cases.post(4, 0, 0, 1, 1)
    sorts = [[(single(0.005), ()), (BLANK, (15,)), (span(2.0, 1.0), (16,)),
              ((bits(most) + 1, bits(most)), (15, 16))] for most in MOST]
    combinations = [
        ([cell for cell, _ in cells],
         {(ground, place) for place, (_, grounds) in enumerate(cells, 1)
          for ground in grounds})
        for cells in product(*sorts)]
    fewer = [(cells, faults) for cells, faults in combinations
             if len(bad_places(faults)) < 2]
    for full in ((), (8,)):
        if full:
            cases.post(1, 0, 0, 0, 0)
        for category, group, grounds in (
            (1, 0, ()), (0, 0, (2,)), (1, 3, (3,)), (3, 0, (4,)),
            (4, 1, (6,)), (2, 2, (4, 6)), (9, LARGEST, (2, 3)),
            (3, 9, (3, 4)),
        ):
            tried = fewer if full and grounds else combinations
            try_in_order(cases, "line", [
                ((category, group, *cells),
                 {*faults, *grounds, *full,
                  *((10,) if has_amount(faults) else ())})
                for cells, faults in tried])
    cases.dump_all()


def bad_places(faults):
    return {place for _, place in faults}


def has_amount(faults):
    """Whether a quantity and a factor are good: 0.005 twice are 25 µg."""
    bad = bad_places(faults)
    return 1 not in bad and not {2, 3} <= bad


# The post's grounds.

def grounds_of_a_post(cases):
    cells = [single(0.25), single(0.5), span(1.0, 2.0)]
    cases.fresh()
    for category in (0, 1):
        cases.line(category, 0, *cells, gives=2)
    for kind in (1, 2, 3, 4):
        cases.open(kind)
    for category in (0, 5, 16, *FAR):
        cases.line(category, 0, *cells, gives=2)
    for category in (1, 2, 3, 4):
        for group in (0, 1, 2):
            gives = 6 if category == 2 and group > 0 else 0
            cases.line(category, group, *cells, gives=gives)
        for group in (3, *FAR):
            cases.line(category, group, *cells, gives=3)
    cases.dump_book()
    cases.enrol(3, 1, 0, 1, 1)
    cases.enrol(3, 1, 1, 2, 1)
    cases.enrol(3, 1, 2, 3, 1)
    cases.close(3)
    cases.line(3, 0, *cells, gives=4)
    cases.statement(1, shows=(3, 0, 375_000, 1_125_000, 1_500_000))
    # Struck as any entry, and refused afterwards.
    cases.strike(1)
    cases.strike(1, gives=4)
    cases.line(1, 0, *cells)
    cases.dump_book()
    # 64 entries, by lines and by posts.
    for number in range(cases.words[ENTRIES.count], 64):
        if number % 2 == 0:
            cases.post(1, 0, number, 1, 2)
        else:
            cases.line(1, 0, single(number / 1000), single(0.001),
                       single(0.002))
    cases.line(1, 0, *cells, gives=8)
    cases.line(1, 0, *[single(0.0)] * 3, gives=8)
    cases.line(1, 0, BLANK, *cells[1:], gives=15)
    cases.post(1, 0, 0, 0, 0, gives=8)
    cases.dump_all()


def never_7(cases):
    """The largest cells are the largest measures of a post."""
    rows = Rows(cases)
    largest = single(1e9), single(1e7), single(1e7)
    rows.line(largest[0], single(0.0), single(0.0), comes_to=(0, 0))
    rows.line(single(0.0), *largest[1:], comes_to=(0, 0))
    rows.line(single(-0.0), *largest[1:], comes_to=(0, 0))
    rows.line(ONE, *largest[1:], comes_to=(10 ** 10, 10 ** 10))
    rows.line(largest[0], ONE, ONE, comes_to=(10 ** 12, 10 ** 12))
    rows.line(*largest, gives=10)
    for cells in (largest[1:], (largest[1], single(0.0)),
                  (single(0.0), largest[1])):
        rows.line(largest[0], *cells, gives=10)
    rows.end()


def emissions(cases):
    """Exactly 10^18, and one more: in operation, in provision, in both."""
    for sides in ((1, 0), (0, 1), (1, 1)):
        def factors(value):
            return [single(side * value) for side in sides]

        cases.new_book(1, 2)
        cases.line(1, 0, single(1e9), *factors(1000.001), gives=10)
        cases.line(1, 0, single(1e9), *factors(1000.0))
        for quantity in (0.001, 0.0005):
            cases.line(2, 0, single(quantity), *factors(0.001), gives=10)
        # Less than half a thousandth is nothing.
        cases.line(2, 0, single(0.0004), *factors(0.001))
        cases.line(2, 0, ONE, *factors(0.0004))
        cases.post(2, 0, 1, *sides, gives=10)
        cases.is_sound()
        cases.strike(1)
        cases.line(2, 0, ONE, *factors(0.001))
        cases.line(1, 0, single(1e9), *factors(1000.0), gives=10)
        cases.dump_book()


def few_emissions_left(cases):
    """9 µg are left: 3 × 3 pass, 10 do not."""
    cases.new_book(1)
    cases.fill_emissions(1, 9, 9)
    cases.line(1, 0, ONE, single(0.01), single(0.0), gives=10)
    cases.line(1, 0, single(0.01), single(0.0), ONE, gives=10)
    cases.line(1, 0, span(0.002, 0.004), single(0.003), span(0.001, 0.005))
    cases.line(1, 0, ONE, ONE, single(0.0), gives=10)
    cases.line(1, 0, ONE, single(0.0), ONE, gives=10)
    cases.is_sound()
    cases.dump_book()


def large_products(cases):
    """Past 64 bits; 2^32 × 2^32 thousandths are 0 modulo 2^64."""
    cases.new_book(1)
    for quantity, factor in ((1e9, 1e7), (4_294_967.296, 4_294_967.296),
                             (2.0 ** 29, 2.0 ** 23), (1e9, 1000.001)):
        cases.line(1, 0, single(quantity), single(factor), single(0.0),
                   gives=10)
        cases.line(1, 0, single(quantity), single(0.0), single(factor),
                   gives=10)


# The list of cells.

def play_line(cases, cells, between, gives):
    """A line, with something between its records; `cells` are arguments."""
    for cell in cells:
        cases.cases.record(player.CELL, *cell)
        between()
    numbers = cases.cases.record(player.LINE, 1, 0)
    if numbers[0] != gives:
        raise AssertionError("a line gives %r, not %d" % (numbers, gives))


def listed_cells(cases):
    """Cells are kept while other operations are played, also by a fresh book
    and by a load. After a line, also a refused one, none is listed."""
    def lend_and_back():
        cases.lend(2659)
        cases.open(1, gives=1)
        cases.lend(player.MOST_WORDS)

    good = [cell_arguments(cell) for cell
            in (single(0.5), span(0.25, 0.75), single(2.0))]
    bad = [*good[:2], cell_arguments(span(1.0, 0.5))]
    cases.new_book(1)
    for between in (
        lambda: None, lambda: cases.post(1, 0, 1, 2, 3),
        lambda: cases.new_book(1), lambda: cases.load(file_of([(1, 0)])),
        lambda: cases.load(b"", gives=(11, 0, 0)), lend_and_back,
        lambda: cases.cases.record(player.DIVIDE, 0, 3),
        lambda: cases.poke(2999, 1 ^ cases.words[2999]),
        lambda: cases.dump(0, 6), lambda: cases.statement(1),
    ):
        play_line(cases, good, between, 0)
        play_line(cases, bad, between, 16)
        play_line(cases, good, between, 0)
        cases.dump_book()
    # The bits that a form does not use are not looked at.
    cases.new_book(1)
    for unused in (NANS[0], bits(0.25), SIGN | INFINITY, LARGEST, 1):
        first = 1, bits(0.5), unused
        play_line(cases, [first, *good[1:]], lambda: None, 0)
        play_line(cases, [*good[:2], (0, unused, unused)], lambda: None, 15)
        play_line(cases, [first, (0, bits(1.0), unused), first], lambda: None,
                  15)
    cases.dump_book()


# Random cells.

def random_lines(cases):
    """A random quantity, two random factors, or three random cells."""
    rng = random.Random(SEED)
    rows = Rows(cases)
    for number in range(RANDOM_LINES):
        cells = any_cell(rng), any_cell(rng), any_cell(rng)
        if number % 3 == 0:
            rows.quantity(cells[0], gives=None)
        elif number % 3 == 1:
            rows.factors(*cells[1:], gives=None)
        else:
            rows.line(*cells, gives=None)
    rows.end()


def add(cases):
    reckoned_by_hand(cases)
    powers_of_two(cases)
    halves(cases)
    near_halves(cases)
    smallest_and_largest(cases)
    limits(cases)
    whole_numbers(cases)
    spans(cases)
    one_bad_cell(cases)
    order_of_cells(cases)
    grounds_of_a_post(cases)
    never_7(cases)
    emissions(cases)
    few_emissions_left(cases)
    large_products(cases)
    listed_cells(cases)
    random_lines(cases)
