"""Cases of rounding: halves in quotes, in intensities, in cells and in means,
ground 10 at a half, and books that were written while halves went up.

"Halves go to the even number." Where amounts are given, they are reckoned by
hand. checks/rounding_checks.py plays the cases of each place apart, with
programs that round otherwise there.
"""

from calculation import book
from calculation.book import CATEGORIES, ELEMENTS, ENTRIES
from cases.book_writer import EMISSIONS, SOUND, UNSOUND
from cases.call_cases import try_in_order
from cases.closing_cases import close_with
from cases.file_writer import file_of
from cases.intensity_cases import MOST, closed_book
from cases.line_cases import PLACES, Rows, beside
from cases.line_writer import (
    NEGATIVE_ZERO, SUBNORMAL, ZERO, bits, single, span)

# A whole number, and what it becomes with a half more.
WITH_A_HALF = (
    (0, 0), (1, 2), (2, 2), (3, 4), (4, 4), (5, 6), (6, 6), (7, 8),
    (98, 98), (99, 100), (100, 100), (101, 102), (998, 998), (999, 1000),
    (1000, 1000), (1001, 1002), (2 ** 19 - 1, 2 ** 19), (2 ** 19, 2 ** 19),
)
FEWER = WITH_A_HALF[:8] + WITH_A_HALF[-2:]

# Which of operation and provision something is for.
SIDES = ((1, 0), (0, 1), (1, 1))


# Quotes.

def quote(cases, measures, *shares):
    """A quote of adjust, mass, distance and two intensities, accepted with
    these shares."""
    cases.quote(1, *measures)
    element = book.Book(cases.words).elements[-1]
    if (element.operation, element.provision) != shares:
        raise AssertionError("a quote of %r has %r" % (measures, element))


def quotes(cases):
    """A half, and a thousandth less and more."""
    cases.new_book()
    # "The starred quote of half a microgram becomes 0, and 1.5 stays 2."
    quote(cases, (0, 500, 1, 1, 1), 0, 0)
    quote(cases, (0, 1500, 1, 1, 1), 2, 2)
    quote(cases, (0, 2500, 1, 1, 1), 2, 2)
    quote(cases, (0, 3500, 1, 1, 1), 4, 4)
    for whole, even in WITH_A_HALF:
        half = 1000 * whole + 500
        quote(cases, (0, half, 1, 1, 0), even, 0)
        quote(cases, (0, 1, 1, 0, half), 0, even)
        quote(cases, (0, 1, 1, half, half), even, even)
        quote(cases, (0, half - 1, 1, 1, 1), whole, whole)
        quote(cases, (0, half + 1, 1, 1, 1), whole + 1, whole + 1)
        quote(cases, (0, 1, 1, half - 1, half + 1), whole, whole + 1)
    cases.dump_book()
    # Halves of one amount or of both: 0.5 by 1, 1.5 by 3, 2.5 by 5, 3.5 by 7;
    # 2 is 1.
    cases.new_book()
    for intensities, shares in (
        ((1, 0), (0, 0)), ((0, 1), (0, 0)), ((3, 0), (2, 0)), ((0, 3), (0, 2)),
        ((1, 2), (0, 1)), ((2, 1), (1, 0)), ((3, 2), (2, 1)), ((2, 3), (1, 2)),
        ((1, 1), (0, 0)), ((1, 3), (0, 2)), ((3, 1), (2, 0)), ((3, 3), (2, 2)),
        ((5, 7), (2, 4)), ((7, 5), (4, 2)), ((5, 5), (2, 2)), ((7, 2), (4, 1)),
        ((9, 11), (4, 6)), ((13, 15), (6, 8)),
    ):
        quote(cases, (0, 500, 1, *intensities), *shares)
    # 500 in other factors, then three, five and seven times that.
    for mass, distance, intensity in (
        (1, 500, 1), (1, 1, 500), (4, 125, 1), (125, 4, 1), (25, 1, 20),
        (20, 25, 1), (2, 2, 125), (5, 10, 10), (1, 50, 10), (100, 1, 5),
    ):
        for times, share in ((1, 0), (3, 2), (5, 2), (7, 4)):
            quote(cases, (0, times * mass, distance, intensity, 0), share, 0)
            quote(cases, (0, mass, times * distance, 0, intensity), 0, share)
            quote(cases, (0, mass, distance, times * intensity, intensity),
                  share, 0)
    cases.dump_book()
    # They are added in a statement as they are: 0 and 2, 2 and 4.
    cases.new_book()
    for chain, mass in ((7, 500), (7, 1500), (8, 2500), (8, 3500)):
        cases.quote(chain, 0, mass, 1, 1, 0)
    cases.statement(7, shows=(2, 0, 2, 0, 2))
    cases.statement(8, shows=(2, 0, 6, 0, 6))
    cases.dump_book()


def adjusted_quotes(cases):
    """D is 95,000 m more than the distance."""
    cases.new_book()
    for measures, shares in (
        # D 95,500: 95.5 and 286.5; 477.5 and 668.5.
        ((1, 1, 500, 1, 3), (96, 286)), ((1, 1, 500, 5, 7), (478, 668)),
        # D 96,500: 96.5 and 289.5.
        ((1, 1, 1500, 1, 3), (96, 290)),
        # D 95,499 and 95,501.
        ((1, 1, 499, 1, 3), (95, 286)), ((1, 1, 501, 1, 3), (96, 287)),
        # D 95,001: 47,500.5 and 142,501.5; 142,501.5 and 427,504.5.
        ((1, 500, 1, 1, 3), (47_500, 142_502)),
        ((1, 1500, 1, 1, 3), (142_502, 427_504)),
        # D 95,002 and 95,003: 47,501 and 142,503, 47,501.5 and 142,504.5.
        ((1, 500, 2, 1, 3), (47_501, 142_503)),
        ((1, 500, 3, 1, 3), (47_502, 142_504)),
        # D 95,001: 1 of 500 is the same half.
        ((1, 1, 1, 500, 1500), (47_500, 142_502)),
        # Without adjust.
        ((0, 1, 500, 1, 3), (0, 2)), ((0, 500, 1, 1, 3), (0, 2)),
    ):
        quote(cases, measures, *shares)
    cases.dump_book()


# Adjust, mass, distance, intensity and the share, from which the exact amount
# is half a µg away: 10^18 less 3.5, 7.5, 34.5 and 40.5 µg. In the last four
# rows the product is a little below 2^64 or above it.
LARGE_QUOTES = (
    (0, 871_238_915, 1172, 979_343_675, EMISSIONS - 4),
    (1, 39_173_747, 4500, 256_555_781, EMISSIONS - 4),
    (0, 383_540_053, 3259, 800_027_500, EMISSIONS - 8),
    (0, 604_060_675, 2084, 794_367_965, EMISSIONS - 34),
    (1, 14_059_610, 22_746, 604_060_675, EMISSIONS - 34),
    (0, 925_130_225, 1103, 979_989_940, EMISSIONS - 40),
    (0, 858_656_031, 25, 859_331_020, 18_446_744_073_709_540),
    (0, 810_935_860, 25, 909_899_043, 18_446_744_073_709_550),
    (0, 930_159_515, 20, 991_590_355, 18_446_744_073_709_556),
    (1, 6500, 3_379_257, 816_853_971, 18_446_744_073_709_556),
)


def large_quotes(cases):
    for adjust, mass, distance, intensity, share in LARGE_QUOTES:
        for operation, provision in SIDES:
            cases.new_book()
            quote(cases, (adjust, mass, distance, operation * intensity,
                          provision * intensity),
                  operation * share, provision * share)
            cases.dump(ELEMENTS.start, book.size(ELEMENTS))


# Ground 10 and quotes. No one quote is 10^18 and a half, 10^18 less a half or
# 10^18 and one and a half: 2 × 10^18 + 1, - 1 and + 3 have a prime above 10^9.

# 10^18, and 1,001,000 × 999,001 × 999,999,999 / 1000, which is 10^18 - 1.
WHOLE = 10 ** 9, 1000, 10 ** 9
ONE_LESS = 1_001_000, 999_001, 999_999_999


def limit_by_quotes(cases):
    """A quote that comes to 10^18 with others."""
    for operation, provision in SIDES:
        def call(mass, distance, intensity, gives=0):
            cases.quote(1, 0, mass, distance, operation * intensity,
                        provision * intensity, gives=gives)

        cases.new_book(1)
        call(*WHOLE)
        # Half a µg is none, as often as it comes; 0.501 and 1.5 µg are some.
        for _ in range(3):
            call(500, 1, 1)
            call(501, 1, 1, gives=10)
            call(1500, 1, 1, gives=10)
        cases.is_sound()
        cases.statement(1, shows=(
            4, 0, operation * EMISSIONS, provision * EMISSIONS,
            (operation + provision) * EMISSIONS))
        cases.dump_book()
        # 1 µg is left: 1.5 and 2.5 µg are 2.
        cases.new_book(1)
        call(*ONE_LESS)
        call(1500, 1, 1, gives=10)
        call(2500, 1, 1, gives=10)
        call(500, 1, 1)
        call(1499, 1, 1)
        call(500, 1, 1)
        call(501, 1, 1, gives=10)
        cases.is_sound()
        cases.statement(1, shows=(
            4, 0, operation * EMISSIONS, provision * EMISSIONS,
            (operation + provision) * EMISSIONS))
        cases.dump_book()


# What is left of 10^18, the halves that are accepted then and those that are
# refused: 1 for 0.5, 3 for 1.5.
LEFT = (
    (0, (1,), (3, 5, 7)),
    (1, (1,), (3, 5, 7)),
    (2, (1, 3, 5), (7, 9, 11)),
    (3, (1, 3, 5), (7, 9, 11)),
    (4, (1, 3, 5, 7, 9), (11, 13)),
)


def limit_with_entries(cases):
    """Entries, and a quote that is a half."""
    for operation, provision in SIDES:
        for left, accepted, refused in LEFT:
            for half in accepted:
                cases.new_book(1)
                cases.fill_emissions(1, left if operation else 99,
                                     left if provision else 99)
                for other in refused:
                    cases.quote(1, 0, 500, 1, operation * other,
                                provision * other, gives=10)
                cases.quote(1, 0, 500, 1, operation * half, provision * half)
                cases.is_sound()
            cases.dump_book()
    # Operation is at its limit, provision is not; both have halves.
    cases.new_book(1)
    cases.fill_emissions(1, 0, 2)
    cases.quote(1, 0, 500, 1, 3, 1, gives=10)
    cases.quote(1, 0, 500, 1, 1, 7, gives=10)
    cases.quote(1, 0, 500, 1, 1, 5)
    cases.quote(1, 0, 500, 1, 1, 3, gives=10)
    cases.quote(1, 0, 500, 1, 1, 1)
    # The entries of a closed category count, struck ones do not.
    cases.new_book(1, 1)
    cases.post(1, 0, 10 ** 9, 10 ** 9, 10 ** 9)
    cases.enrol(1, 1, 0, 1, 1)
    cases.close(1)
    cases.quote(1, 0, 500, 1, 1, 1)
    cases.quote(1, 0, 500, 1, 3, 0, gives=10)
    cases.dump_book()
    cases.new_book(1, 1)
    cases.post(1, 0, 10 ** 9, 10 ** 9, 10 ** 9)
    cases.strike(1)
    cases.quote(1, 0, 500, 1, 3, 5)
    cases.post(1, 0, 10 ** 9, 10 ** 9, 0, gives=10)
    cases.dump_book()


def limit_with_large_quotes(cases):
    """A quote that is rounded to a few µg below 10^18, and entries that come
    to these few, or to one more."""
    for adjust, mass, distance, intensity, share in LARGE_QUOTES[:6]:
        left = EMISSIONS - share
        for operation, provision in SIDES:
            measures = (1, adjust, mass, distance, operation * intensity,
                        provision * intensity)
            cases.new_book(1)
            cases.post(1, 0, 1, operation * (left + 1), provision * (left + 1))
            cases.quote(*measures, gives=10)
            cases.strike(1)
            cases.post(1, 0, 1, operation * left, provision * left)
            cases.quote(*measures)
            cases.is_sound()
            cases.dump_book()
            # The quote first.
            cases.new_book(1)
            cases.quote(*measures)
            cases.post(1, 0, 1, operation * (left + 1),
                       provision * (left + 1), gives=10)
            cases.post(1, 0, 1, operation * left, provision * left)
            cases.quote(1, 0, 500, 1, operation, provision)
            cases.is_sound()
    # 10^18 + 12 and a half, and 10^18 + 16 and a half.
    cases.new_book(1)
    for operation, provision in SIDES:
        for adjust, mass, distance, intensity in (
            (0, 730_281_467, 1494, 916_556_250),
            (1, 14_006_250, 2766, 730_281_467),
            (0, 585_420_866, 1750, 976_098_743),
        ):
            cases.quote(1, adjust, mass, distance, operation * intensity,
                        provision * intensity, gives=10)
    # The order of grounds, where nothing is left and half a µg is asked.
    cases.fill_emissions(1, 0, 0)
    try_in_order(cases, "quote", [
        ((chain, adjust, mass, 1, operation, provision),
         {*bad_chain, *bad_adjust, *bad_mass,
          *((10,) if operation == 3 or provision == 3 else ())})
        for chain, bad_chain in ((1, ()), (0, (3,)))
        for adjust, bad_adjust in ((0, ()), (2, (3,)))
        for mass, bad_mass in ((500, ()), (10 ** 9 + 500, (7, 10)))
        for operation, provision in ((1, 1), (3, 1), (1, 3), (3, 3))])
    cases.dump_book()


def files_with_quotes(cases):
    """Halves of 1 to 7 on one chain; then 1 µg is left of 10^18."""
    cases.load_and_show(file_of((), (), [
        (0, 9, 0, 0, 500, 1, half, 8 - half) for half in (1, 3, 5, 7)]))
    cases.statement(9, shows=(4, 0, 8, 8, 16))
    posted = [(1, 0, 1_000_000_001, 999_999_999, 999_999_999)]
    for operation, provision in SIDES:
        for half, gives in ((1, (0, 0, 0)), (3, (10, 3, 2)),
                            (5, (10, 3, 2))):
            cases.load_and_show(
                file_of([(1, 0)], posted,
                        [(0, 9, 0, 0, 500, 1, 1, 1),
                         (0, 9, 0, 0, 500, 1, operation * half,
                          provision * half)]), gives)


# Intensities whose quotient is half of what is posted: kind, the group that it
# is posted to, elements and the code that is asked for.

HALVED = (
    # F is 2000 and the quotient A × 1000 / 2000.
    (1, 0, [(0, 2000, 1)], 0),
    (1, 0, [(1, 500, 2), (0, 1, 1000)], 0),
    (1, 1, [(1, 2000, 1)], 1),
    (1, 2, [(2, 250, 8)], 2),
    (1, 2, [(0, 77, 1), (2, 2000, 1)], 2),
    (3, 1, [(1, 1000, 2), (100, 3, 7)], 1),
    # A hub: 2.
    (4, 0, [(0, 2, 0)], 0),
    (4, 0, [(2, 1, 0), (1, 1, 0)], 0),
    (4, 1, [(1, 2, 0), (0, 5, 0)], 1),
    (4, 2, [(2, 2, 0)], 2),
    # C is 200 and the quotient A × 100 / 200; with 300 kg a head it is the
    # same.
    (2, 0, [(100, 2, 1)], 100),
    (2, 0, [(200, 1, 1)], 100),
    (2, 0, [(100, 1, 1), (100, 1, 1)], 100),
    (2, 0, [(100, 1, 2, 300)], 100),
)


def intensities(cases):
    """A half in both amounts, then in one alone."""
    rows = FEWER + ((MOST - 2, MOST - 2), (MOST - 1, MOST))
    for kind, group, elements, code in HALVED:
        for (whole, even), (other, other_even) in zip(rows,
                                                      rows[1:] + rows[:1]):
            closed_book(cases, kind,
                        [(group, 2 * whole + 1, 2 * other + 1)], elements)
            cases.intensity(1, code, shows=(even, other_even))
            closed_book(cases, kind, [(group, 2 * whole + 1, 2 * whole + 2)],
                        elements)
            cases.intensity(1, code, shows=(even, whole + 1))
        cases.dump_book()


# The same with a million times as much in A and in what it is divided by: a
# half, and a little less and more.
NEAR_HALVES = (
    (1, 0, [(0, 10 ** 6, 2000)], 0),
    (1, 1, [(1, 10 ** 6, 2000)], 1),
    (4, 0, [(1, 2 * 10 ** 6, 0)], 0),
    (4, 2, [(2, 2 * 10 ** 6, 0)], 2),
    (2, 0, [(200, 10 ** 6, 1)], 100),
)


def near_halves(cases):
    for kind, group, elements, code in NEAR_HALVES:
        for whole, even in FEWER:
            half = 10 ** 6 * (2 * whole + 1)
            closed_book(cases, kind, [(group, half, half - 1)], elements)
            cases.intensity(1, code, shows=(even, whole))
            closed_book(cases, kind, [(group, half + 1, half)], elements)
            cases.intensity(1, code, shows=(whole + 1, even))
        cases.dump_book()


def parts_at_halves(cases):
    """What is divided is the whole part that the dividing rule gives: "The
    dividing rule keeps its remainders." F, P and C are 2000, and the odd unit
    is freight's. The quotients are half of its part and a twentieth of the
    passengers'."""
    for a, freight, passengers in (
        # 11 and 10 of 21, 31 and 30 of 61: 5.5 and 0.5, 15.5 and 1.5.
        ((21, 61), (6, 16), (0, 2)),
        # 21 and 20, 51 and 50: 10.5 and 1, 25.5 and 2.5.
        ((41, 101), (10, 26), (1, 2)),
        # 10 and 10, 30 and 30: 5 and 0.5, 15 and 1.5.
        ((20, 60), (5, 15), (0, 2)),
        # 10 and 9 of 19, where 9.5 each would be 4.75 and 0.475; 1 and 0 of 1.
        ((19, 1), (5, 0), (0, 0)),
    ):
        closed_book(cases, 3, [(0, *a)], [(0, 2000, 1), (100, 20, 1)])
        cases.intensity(1, 0, shows=freight)
        cases.intensity(1, 100, shows=passengers)
        cases.dump_book()


# Two quotients of one intensity, each rounded before they are added: A and B
# over 2, in operation and in provision, and what they come to.
TWO_HALVES = (
    # 0.5 and 0.5, which gave 2; 1.5 and 1.5.
    ((1, 1), (3, 3), (0, 4)),
    # 0.5 and 1.5, and the reverse: 0 and 2.
    ((1, 3), (3, 1), (2, 2)),
    # 2.5 and 0.5: 2 and 0. 3.5 and 1.5: 4 and 2.
    ((5, 1), (7, 3), (2, 6)),
    # 2.5 and 2.5: 2 and 2. 2.5 and 3.5: 2 and 4.
    ((5, 5), (5, 7), (4, 6)),
    # One of them is a half: 0.5 and 1, 1 and 1.5; 1.5 and 0, 0 and 2.5.
    ((1, 2), (2, 3), (1, 3)),
    ((3, 0), (0, 5), (2, 2)),
    # 1000.5 and 1001.5: 1000 and 1002.
    ((2001, 2003), (2003, 2003), (2002, 2004)),
)


def two_quotients(cases):
    for operation, provision, shows in TWO_HALVES:
        for group in (1, 2):
            entries = [(0, operation[0], provision[0]),
                       (group, operation[1], provision[1])]
            for kind, elements in (
                (1, [(group, 2000, 1)]), (1, [(group, 1000, 2)]),
                (4, [(group, 2, 0)]), (4, [(group, 1, 0)] * 2),
            ):
                closed_book(cases, kind, entries, elements)
                cases.intensity(1, group, shows=shows)
        cases.dump_book()
    # Unlike divisors: F is 4000 and S 2000, 0.5 of 2 and 1.5 of 3; in a hub F
    # is 6 and S 2.
    for group in (1, 2):
        closed_book(cases, 1, [(0, 2, 10), (group, 3, 1)],
                    [(0, 2000, 1), (group, 2000, 1)])
        cases.intensity(1, 0, shows=(0, 2))
        cases.intensity(1, group, shows=(2, 2))
        closed_book(cases, 4, [(0, 3, 9), (group, 3, 1)],
                    [(0, 4, 0), (group, 2, 0)])
        cases.intensity(1, 0, shows=(0, 2))
        cases.intensity(1, group, shows=(2, 2))
    cases.dump_book()


# Ground 10: A over 2 alone, and A and B over 2, with the result; None where
# it is refused.
LIMITS = (
    # 10^15 less a half, and with a half; with one and a half it is 10^15 + 2.
    ((2 * MOST - 1, 0), MOST), ((2 * MOST, 0), MOST),
    ((2 * MOST + 1, 0), MOST), ((2 * MOST + 2, 0), None),
    ((2 * MOST + 3, 0), None),
    # 10^15 less one and a half is 10^15 - 2.
    ((2 * MOST - 3, 0), MOST - 2),
    # 5 × 10^14 with a half more and a half less, both with a half more, both
    # with a half less.
    ((MOST + 1, MOST - 1), MOST), ((MOST + 1, MOST + 1), MOST),
    ((MOST - 1, MOST - 1), MOST), ((MOST - 1, MOST + 1), MOST),
    # One and a half more, and a half less or more: 10^15 + 2.
    ((MOST + 3, MOST - 1), None), ((MOST - 1, MOST + 3), None),
    ((MOST + 3, MOST + 1), None),
    # One and a half more, one and a half less.
    ((MOST + 3, MOST - 3), MOST), ((MOST - 3, MOST + 3), MOST),
    # 10^15, with a half or without, and 0.5 or 1.5.
    ((2 * MOST, 1), MOST), ((2 * MOST + 1, 1), MOST),
    ((2 * MOST - 1, 1), MOST), ((2 * MOST, 3), None),
    ((2 * MOST + 1, 3), None), ((1, 2 * MOST + 1), MOST),
    ((3, 2 * MOST), None),
    # 10^15 - 1 with 0.5 and with 1.5, 10^15 - 2 with 1.5, 2.5 and 3.5.
    ((2 * MOST - 2, 1), MOST - 1), ((2 * MOST - 2, 3), None),
    ((2 * MOST - 4, 3), MOST), ((2 * MOST - 4, 5), MOST),
    ((2 * MOST - 4, 7), None),
)


def limits_of_intensity(cases):
    """In freight, in a hub and, where there is no B, of passengers."""
    for (a, b), result in LIMITS:
        for operation, provision in SIDES:
            shows = (0, 0) if result is None else (operation * result,
                                                   provision * result)
            for kind, group, elements, code in (
                (1, 1, [(1, 2000, 1)], 1), (4, 2, [(2, 2, 0)], 2),
                (1, 0, [(0, 2000, 1)], 0), (4, 0, [(0, 2, 0)], 0),
                (2, 0, [(100, 2, 1)], 100),
            ):
                if group == 0 and b > 0:
                    continue
                entries = [(0, operation * a, provision * a)]
                if group > 0:
                    entries.append((group, operation * b, provision * b))
                closed_book(cases, kind, entries, elements)
                cases.intensity(1, code, gives=10 if result is None else 0,
                                shows=shows)
    # Operation and provision apart: a half more in one, one and a half more
    # in the other.
    for operation, provision, gives in ((1, 1, 0), (3, 1, 10), (1, 3, 10)):
        closed_book(cases, 4, [(0, 2 * MOST + operation,
                                2 * MOST + provision)], [(0, 2, 0)])
        cases.intensity(1, 0, gives=gives,
                        shows=(0, 0) if gives else (MOST, MOST))
    cases.dump_book()


# Cells.

# Doubles that are exactly a half of a thousandth, and what they become: 0.0625
# is 62.5, 0.1875 is 187.5 and so on.
SIXTEENTHS = (
    (0.0625, 62), (0.1875, 188), (0.3125, 312), (0.4375, 438), (0.5625, 562),
    (0.6875, 688), (0.8125, 812), (0.9375, 938), (1.0625, 1062),
    (1.1875, 1188), (99.0625, 99_062), (99.1875, 99_188),
    (4095.9375, 4_095_938), (4096.0625, 4_096_062),
    (9_999_999.0625, 9_999_999_062), (9_999_999.1875, 9_999_999_188),
    (9_999_999.8125, 9_999_999_812), (9_999_999.9375, 9_999_999_938),
)
LARGE_SIXTEENTHS = (
    (10_000_000.0625, 10_000_000_062), (10_000_000.1875, 10_000_000_188),
    (536_870_911.9375, 536_870_911_938), (536_870_912.0625, 536_870_912_062),
    (999_999_999.0625, 999_999_999_062), (999_999_999.1875, 999_999_999_188),
    (999_999_999.8125, 999_999_999_812), (999_999_999.9375, 999_999_999_938),
)


def cells(cases):
    """Each half in each place, with the doubles beside it: those are the
    whole number below and the one above, whichever is even."""
    rows = Rows(cases)
    for value, even in SIXTEENTHS + LARGE_SIXTEENTHS:
        below, half, above = beside(bits(value))
        whole = int(1000 * value)
        for place in PLACES if value < 10 ** 7 else PLACES[:1]:
            rows.cell(place, (half,), even)
            rows.cell(place, (below,), whole)
            rows.cell(place, (above,), whole + 1)
            # Both ends the same.
            rows.cell(place, (half, half), even)
    # In all three cells: 62 × 188 and 62 × 312, 188 × 62 and 188 × 438.
    rows.line(single(0.0625), single(0.1875), single(0.3125),
              comes_to=(11_656, 19_344))
    rows.line(single(0.1875), single(0.0625), single(0.4375),
              comes_to=(11_656, 82_344))
    # A half in decimals is none: these doubles are a little more, then a
    # little less.
    for value, number in ((0.0005, 1), (0.0015, 2), (0.0025, 3), (0.0035, 4),
                          (0.0085, 9), (0.0105, 11), (1.0015, 1002)):
        rows.everywhere(single(value), number)
        rows.everywhere((bits(value) - 1,), number - 1)
    for value, number in ((0.0045, 4), (0.0055, 5), (0.0065, 6), (0.0075, 7),
                          (0.0095, 9), (1.0005, 1000)):
        rows.everywhere(single(value), number)
        rows.everywhere((bits(value) + 1,), number + 1)
    # Zero of either sign, and what is next to nothing.
    for double in (ZERO, NEGATIVE_ZERO, SUBNORMAL):
        rows.everywhere((double,), 0)
    rows.end()


# The two ends in thousandths, and their mean.
MEANS = (
    ((0, 1), 0), ((1, 2), 2), ((2, 3), 2), ((3, 4), 4), ((4, 5), 4),
    ((5, 6), 6), ((0, 3), 2), ((0, 5), 2), ((0, 7), 4), ((1, 4), 2),
    ((1, 6), 4), ((10, 11), 10), ((11, 12), 12), ((999, 1000), 1000),
    ((1000, 1001), 1000), ((62, 63), 62), ((61, 62), 62), ((187, 188), 188),
    ((188, 189), 188), ((0, 9999), 5000), ((0, 9997), 4998),
    # At 10^10, which is the most of a factor, and at half of it.
    ((10 ** 10 - 1, 10 ** 10), 10 ** 10),
    ((10 ** 10 - 2, 10 ** 10 - 1), 10 ** 10 - 2),
    ((10 ** 10 - 3, 10 ** 10), 10 ** 10 - 2),
    ((0, 10 ** 10 - 1), 5 * 10 ** 9), ((0, 10 ** 10 - 3), 5 * 10 ** 9 - 2),
    ((1, 10 ** 10), 5 * 10 ** 9), ((3, 10 ** 10), 5 * 10 ** 9 + 2),
    # Whole ones.
    ((0, 2), 1), ((1, 3), 2), ((2, 4), 3), ((5, 5), 5), ((7, 7), 7),
)
LARGE_MEANS = (
    ((10 ** 12 - 1, 10 ** 12), 10 ** 12),
    ((10 ** 12 - 2, 10 ** 12 - 1), 10 ** 12 - 2),
    ((10 ** 12 - 3, 10 ** 12), 10 ** 12 - 2),
    ((0, 10 ** 12 - 1), 5 * 10 ** 11), ((0, 10 ** 12 - 3), 5 * 10 ** 11 - 2),
    ((1, 10 ** 12), 5 * 10 ** 11), ((3, 10 ** 12), 5 * 10 ** 11 + 2),
)

# Spans whose ends are halves of a thousandth themselves, or one of them.
ENDS_AT_HALVES = (
    # 62.5 and 187.5 become 62 and 188; 62 and 312 are 187, 188 and 312 are
    # 250, 188 and 438 are 313.
    (span(0.0625, 0.1875), 125), (span(0.0625, 0.3125), 187),
    (span(0.1875, 0.3125), 250), (span(0.1875, 0.4375), 313),
    (span(0.0625, 0.0625), 62), (span(0.1875, 0.1875), 188),
    # 62 and 63, 65, 188 and 189, 191: halves again.
    (span(0.0625, 0.063), 62), (span(0.0625, 0.065), 64),
    (span(0.1875, 0.189), 188), (span(0.1875, 0.191), 190),
    (span(0.061, 0.0625), 62), (span(0.059, 0.0625), 60),
    (span(0.185, 0.1875), 186), (span(0.187, 0.1875), 188),
    # 62 and 62, 62 and 63, 187 and 188, 188 and 188: the doubles beside.
    ((bits(0.0625) - 1, bits(0.0625)), 62),
    ((bits(0.0625), bits(0.0625) + 1), 62),
    ((bits(0.1875) - 1, bits(0.1875)), 188),
    ((bits(0.1875), bits(0.1875) + 1), 188),
    ((bits(0.0625) - 1, bits(0.0625) + 1), 62),
    ((bits(0.1875) - 1, bits(0.1875) + 1), 188),
    # From either zero: 0 and 62, 0 and 188, 0 and 1, 0 and 3, 0 and 63.
    ((ZERO, bits(0.0625)), 31), ((NEGATIVE_ZERO, bits(0.0625)), 31),
    ((NEGATIVE_ZERO, bits(0.1875)), 94), ((NEGATIVE_ZERO, bits(0.001)), 0),
    ((NEGATIVE_ZERO, bits(0.003)), 2), ((NEGATIVE_ZERO, bits(0.063)), 32),
    ((NEGATIVE_ZERO, NEGATIVE_ZERO), 0), ((ZERO, NEGATIVE_ZERO), 0),
    ((NEGATIVE_ZERO, SUBNORMAL), 0),
    # 0 and 1, by 0.0005; 1 and 2, by 0.0015.
    ((ZERO, bits(0.0005)), 0), (span(0.0005, 0.0015), 2),
    # 9,999,999,938 and 10^10, 9,999,999,812 and 9,999,999,938; 0 and the
    # first.
    (span(9_999_999.9375, 1e7), 9_999_999_969),
    (span(9_999_999.8125, 9_999_999.9375), 9_999_999_875),
    (span(0.0, 9_999_999.9375), 4_999_999_969),
    (span(9_999_999.9375, 9_999_999.939), 9_999_999_938),
    (span(9_999_999.9375, 9_999_999.941), 9_999_999_940),
)


def means(cases):
    rows = Rows(cases)
    for ends, mean in MEANS:
        cell = span(*(end / 1000 for end in ends))
        for place in PLACES:
            rows.cell(place, cell, mean)
    for ends, mean in LARGE_MEANS:
        rows.quantity(span(*(end / 1000 for end in ends)), mean)
    for cell, mean in ENDS_AT_HALVES:
        for place in PLACES:
            rows.cell(place, cell, mean)
    rows.quantity(span(999_999_999.9375, 1e9), 999_999_999_969)
    rows.quantity(span(999_999_999.8125, 999_999_999.9375), 999_999_999_875)
    # In all three cells: 2, 2 and 4.
    rows.line(span(0.001, 0.002), span(0.002, 0.003), span(0.003, 0.004),
              comes_to=(4, 8))
    rows.end()


def limit_of_lines(cases, rows):
    """Cells beside one of 0.001, how much is left of 10^18, and whether it is
    enough."""
    one = single(0.001)
    for cell, left, gives in rows:
        for operation, provision in SIDES:
            cases.new_book(1)
            cases.fill_emissions(1, left if operation else 999,
                                 left if provision else 999)
            cases.line(1, 0, one, *(cell if side else single(0.0)
                                    for side in (operation, provision)),
                       gives=gives)
            # Once more: what was left is gone.
            cases.line(1, 0, cell, *(one if side else single(0.0)
                                     for side in (operation, provision)),
                       gives=10 if left > 0 else 0)
            cases.is_sound()
        cases.dump_book()


def limit_of_cells(cases):
    """Where 62 µg are left, 62.5 pass; where 187 are left, 187.5 do not."""
    limit_of_lines(cases, (
        (single(0.0625), 62, 0), (single(0.0625), 61, 10),
        ((bits(0.0625) + 1,), 62, 10), (single(0.1875), 188, 0),
        (single(0.1875), 187, 10), ((bits(0.1875) - 1,), 187, 0)))


def limit_of_means(cases):
    """Where 2 µg are left, 2.5 pass and 1.5 do; where 1 is left, neither
    does; where nothing is left, 0.5 pass."""
    limit_of_lines(cases, (
        (span(0.002, 0.003), 2, 0), (span(0.002, 0.003), 1, 10),
        (span(0.001, 0.002), 2, 0), (span(0.001, 0.002), 1, 10),
        (span(0.0, 0.001), 0, 0), (span(0.0625, 0.063), 62, 0)))


# Books that were written while halves went up.

def poke_book(cases, categories, entries, elements):
    """A book written word by word."""
    cases.fresh()
    for listing, records in ((CATEGORIES, categories), (ENTRIES, entries),
                             (ELEMENTS, elements)):
        for number, record in enumerate(records, 1):
            cases.poke_record(listing, number, record)
        cases.poke(listing.count, len(records))
    cases.is_sound()
    cases.dump_book()


def old_words(cases, elements):
    """The elements that were there first hold what they held."""
    found = book.Book(cases.words).elements[:len(elements)]
    if [tuple(element) for element in found] != elements:
        raise AssertionError("an old element is changed: %r" % found)


# Half a µg as 1, 1.5 and 2.5 as 2 and 3, on chains 1 and 2.
OLD_QUOTES = [(0, 1, 0, 500, 1, 500, 1, 1, 0), (0, 2, 0, 500, 1, 500, 2, 3, 0)]
# A line of 1 thousandth, of 0.0625 and of a span from 0 to 1 thousandth: 63
# and 1.
OLD_LINE = 63, 1


def older_book(cases):
    """Quotes and lines by halves up: category 1 is open and has an old line
    and an element, 2 is closed and shares another."""
    elements = OLD_QUOTES + [
        (1, 3, 0, 1000, 1, 1000, 0, 0, 0),
        (2, 3, 0, 1, 2, 2, 32, 1, 0), (2, 4, 1, 2, 1, 2, 31, 0, 0)]
    poke_book(cases, [(1, 0), (1, 1)],
              [(1, 0, *OLD_LINE, 0), (2, 0, *OLD_LINE, 0)], elements)
    cases.statement(1, shows=(1, 0, 1, 1, 2))
    cases.statement(2, shows=(1, 0, 2, 3, 5))
    cases.statement(3, shows=(2, 1, 32, 1, 33))
    # F is 4: 15,750 and 250; S of group 1 is 2, its B 0.
    cases.intensity(2, 0, shows=(15_750, 250))
    cases.intensity(2, 1, shows=(15_750, 250))
    old_words(cases, elements)
    # The same once more: 0, 0, then 2, 2, and 62, 0.
    quote(cases, (0, 500, 1, 1, 1), 0, 0)
    quote(cases, (0, 500, 1, 3, 5), 2, 2)
    cases.statement(1, shows=(3, 0, 3, 3, 6))
    cases.line(1, 0, single(0.001), single(0.0625), span(0.0, 0.001))
    cases.post(1, 0, 1, 5, 6)
    cases.enrol(1, 3, 0, 1000, 1)
    cases.open(4)
    cases.strike(4)
    old_words(cases, elements)
    # 63 and 62 are 125, 1 and 0 are 1, over two of the same activity.
    cases.preview_shares(1, (63, 62), (1, 0))
    cases.close(1)
    cases.shares_are(1, (63, 62), (1, 0))
    # 125,000 over 2000 is 62.5, 1000 over 2000 is 0.5.
    cases.intensity(1, 0, shows=(62, 0))
    cases.statement(3, shows=(3, 0, 157, 2, 159))
    cases.statement(1, shows=(3, 0, 3, 3, 6))
    old_words(cases, OLD_QUOTES)
    cases.dump_book()


def older_book_at_the_limit(cases):
    """A quote of 10^18 - 4 and a half, which was rounded up, half a µg as 1
    and an entry of 2: 10^18 in either amount. The same calls would now come
    to 10^18 - 2."""
    measures = 871_238_915, 1172
    elements = [(0, 1, 0, *measures, measures[0] * measures[1],
                 EMISSIONS - 3, EMISSIONS - 3, 0),
                (0, 2, 0, 500, 1, 500, 1, 1, 0),
                (1, 3, 0, 1, 1, 1, 0, 0, 0)]
    poke_book(cases, [(1, 0)], [(1, 0, 2, 2, 0)], elements)
    cases.statement(1, shows=(1, 0, EMISSIONS - 3, EMISSIONS - 3,
                              2 * EMISSIONS - 6))
    # Nothing is left, and nothing may come.
    for operation, provision in SIDES:
        cases.post(1, 0, 1, operation, provision, gives=10)
        cases.quote(1, 0, 500, 1, 3 * operation, 3 * provision, gives=10)
    quote(cases, (0, 500, 1, 1, 1), 0, 0)
    cases.post(1, 0, 0, 1, 1)
    cases.line(1, 0, single(0.001), single(0.0004), span(0.0, 0.001))
    cases.enrol(1, 3, 0, 1, 1)
    cases.open(1)
    cases.preview_shares(1, (1, 1), (1, 1))
    cases.close(1)
    cases.intensity(1, 0, shows=(1000, 1000))
    cases.statement(3, shows=(2, 0, 2, 2, 4))
    old_words(cases, elements[:2])
    cases.dump_book()
    # One more in a share is more than 10^18, as ever.
    share = book.word(ELEMENTS, 2, "operation")
    cases.tried([(share, 2)], UNSOUND)
    cases.tried([(share, 0)], SOUND)
    # The same calls from fresh.
    cases.new_book(1)
    quote(cases, (0, *measures, 979_343_675, 979_343_675), EMISSIONS - 4,
          EMISSIONS - 4)
    quote(cases, (0, 500, 1, 1, 1), 0, 0)
    cases.post(1, 0, 1, 2, 2)
    cases.post(1, 0, 1, 3, 0, gives=10)
    cases.post(1, 0, 1, 2, 2)
    cases.dump_book()


def older_closed_hub(cases):
    """A hub closed with an old line: 63 over 2 kg is 31.5, which the intensity
    rounds by the rule of now; the share words stay."""
    elements = [(1, 1, 0, 2, 0, 2, *OLD_LINE, 0)]
    poke_book(cases, [(4, 1)], [(1, 0, *OLD_LINE, 0)], elements)
    cases.intensity(1, 0, shows=(32, 0))
    cases.statement(1, shows=(1, 0, 63, 1, 64))
    cases.open(4)
    # The same line now: 62 and 0.
    cases.line(2, 0, single(0.001), single(0.0625), span(0.0, 0.001))
    cases.enrol(2, 2, 0, 2, 0)
    close_with(cases, 2, (62,), (0,))
    cases.intensity(2, 0, shows=(31, 0))
    old_words(cases, elements)
    cases.dump_book()


# The cases by what is rounded in them.

def of_quotes(cases):
    quotes(cases)
    adjusted_quotes(cases)
    large_quotes(cases)
    limit_by_quotes(cases)
    limit_with_entries(cases)
    limit_with_large_quotes(cases)
    files_with_quotes(cases)


def of_intensities(cases):
    intensities(cases)
    near_halves(cases)
    parts_at_halves(cases)
    two_quotients(cases)
    limits_of_intensity(cases)


def of_cells(cases):
    cells(cases)
    limit_of_cells(cases)


def of_means(cases):
    means(cases)
    limit_of_means(cases)


def of_older_books(cases):
    older_book(cases)
    older_book_at_the_limit(cases)
    older_closed_hub(cases)


def add(cases):
    of_quotes(cases)
    of_intensities(cases)
    of_cells(cases)
    of_means(cases)
    of_older_books(cases)
