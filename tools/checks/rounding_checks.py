"""Checks of rounding: "Halves go to the even number."; book_checks.py makes
them.

What holds of every rounding, quotes and intensities by both ways, and programs
that round otherwise, each of which has to be caught.
"""

import random
from contextlib import contextmanager
from decimal import ROUND_HALF_EVEN, Decimal
from fractions import Fraction
from itertools import chain

from calculation import calls, closing, player, tally, workbook
from calculation.book import DISTANCES, INTENSITIES, MASSES
from calculation.rounding import nearest
from calculation.second_way import Lists
from cases import make_cases, rounding_cases
from cases.book_writer import BookCases
from cases.halves import SIDES, halves_of
from cases.line_writer import single, span
from cases.random_cases import (
    LARGE, by_bits, members_for_halves, one_of, random_measure, some_halves)
from checks import check_lines
from checks.broken_lists import broken_by, played_wrongly

SEED = 6
RANDOM_NUMBERS = 5000
RANDOM_QUOTES = 4000
RANDOM_BOOKS = 150


# What holds of every rounding.

RECKONED = (
    # A number, its divisor and the whole number: 0.5, 1.5, 2.5, 3.5 and what
    # is beside them.
    (500, 1000, 0), (1500, 1000, 2), (2500, 1000, 2), (3500, 1000, 4),
    (499, 1000, 0), (501, 1000, 1), (1499, 1000, 1), (1501, 1000, 2),
    (2499, 1000, 2), (2501, 1000, 3), (0, 1000, 0), (1000, 1000, 1),
    (1, 2, 0), (3, 2, 2), (5, 2, 2), (7, 2, 4), (0, 2, 0), (4, 2, 2),
    # Thirds are never halves; by 1 nothing is left.
    (1, 3, 0), (2, 3, 1), (4, 3, 1), (5, 3, 2), (7, 1, 7), (8, 1, 8),
    (10 ** 21 + 500, 1000, 10 ** 18), (10 ** 21 - 500, 1000, 10 ** 18),
    (10 ** 21 + 1500, 1000, 10 ** 18 + 2),
    (2 ** 1100 + 2 ** 1099, 2 ** 1100, 2), (2 ** 1099, 2 ** 1100, 0),
)


def numbers(rng):
    """Pairs of a number and a divisor: small ones, any, and many halves."""
    yield from ((number, divisor) for divisor in range(1, 41)
                for number in range(6 * divisor))
    for _ in range(RANDOM_NUMBERS):
        divisor = 1 + by_bits(rng, one_of(rng, (8, 20, 60)))
        yield by_bits(rng, 64) * by_bits(rng, 64), divisor
        divisor += divisor % 2
        half = by_bits(rng, 60) * divisor + divisor // 2
        yield from ((half, divisor), (half - 1, divisor), (half + 1, divisor))


def check_nearest(check, number, divisor):
    whole = nearest(number, divisor)
    case = (number, divisor, whole)
    off = abs(number - whole * divisor)
    check(2 * off <= divisor, "at most half a unit off", case)
    check(number % divisor > 0 or off == 0, "exact where it divides", case)
    check(2 * off < divisor or whole % 2 == 0, "even at a half", case)
    check(whole <= nearest(number + 1, divisor) <= whole + 1,
          "it never falls where the number grows", case)
    check(nearest(7 * number, 7 * divisor) == whole,
          "the value decides", case)
    check(nearest(number + 2 * divisor, divisor) == whole + 2,
          "two more are two more", case)
    # Python's own roundings.
    check(round(Fraction(number, divisor)) == whole, "by fractions", case)
    if divisor == 1000:
        check(int((Decimal(number) / 1000).quantize(
            Decimal(1), ROUND_HALF_EVEN)) == whole, "by decimals", case)
    return 2 * off == divisor


def properties(check):
    for number, divisor, whole in RECKONED:
        check(nearest(number, divisor) == whole, "reckoned by hand", number,
              divisor)
    rng = random.Random(SEED)
    halves = [0, 0]
    for number, divisor in chain(numbers(rng),
                                 ((number, 1000) for number in range(9000))):
        if check_nearest(check, number, divisor):
            halves[number // divisor % 2] += 1
    check(min(halves) > RANDOM_NUMBERS // 4, "halves on both sides", halves)


# By both ways.

def quotes(check):
    """The shares by the calls, by the lists and by the tally."""
    rng = random.Random(SEED)
    met = {}
    for _ in range(RANDOM_QUOTES):
        scale = one_of(rng, (4, 10, 20, LARGE))
        arguments = (1, rng.randrange(2), *some_halves(rng, *(
            random_measure(rng, measures, scale) for measures
            in (MASSES, DISTANCES, INTENSITIES, INTENSITIES))))
        shares = calls.quoted_shares(*arguments[1:])
        lists, told = Lists(), tally.Tally()
        told.quote(*arguments)
        check(tuple(told.elements[1][1:]) == shares, "the tally", arguments)
        if lists.quote(*arguments)[0] == 0:
            check(tuple(lists.elements[0][6:8]) == shares, "a quote",
                  arguments)
        else:
            check(max(shares) > 10 ** 18, "a refused quote", arguments)
        for half in halves_of("quote", None, arguments):
            met[half] = met.get(half, 0) + 1
    for side in SIDES:
        check(met["quote", side] > RANDOM_QUOTES // 4, "halves", met)


def intensities(check):
    """Categories whose quotients are often halves."""
    rng = random.Random(SEED)
    met = {}
    for _ in range(RANDOM_BOOKS):
        lists = Lists()
        kinds = [one_of(rng, (1, 2, 3, 4)) for _ in range(4)]
        for number, kind in enumerate(kinds, 1):
            lists.open(kind)
            members = members_for_halves(rng, kind)
            for code, amount, distance in members:
                lists.enrol(number, 1, code, amount, distance)
            for group in {0, *(code for code, *_ in members if code < 3)}:
                lists.post(number, group, 1, by_bits(rng, 30),
                           by_bits(rng, 30))
            lists.close(number)
        words = lists.words()
        for number in range(1, 5):
            for code in closing.INTENSITY_CODES:
                answer = calls.make("intensity", words, number, code)
                check(answer == list(lists.intensity(number, code)),
                      "an intensity by both ways", number, code,
                      lists.entries, lists.elements)
                if answer[0] == 0:
                    for half in halves_of("intensity", words, (number, code)):
                        met[half] = met.get(half, 0) + 1
    for side in SIDES:
        check(met["intensity", side] > RANDOM_BOOKS, "halves", met)


# Programs that round otherwise.

def halves_up(number, divisor):
    return (2 * number + divisor) // (2 * divisor)


def halves_down(number, divisor):
    return -((divisor - 2 * number) // (2 * divisor))


def halves_to_odd(number, divisor):
    whole, remainder = divmod(number, divisor)
    if 2 * remainder == divisor:
        return whole + 1 - whole % 2
    return nearest(number, divisor)


def rounded_down(number, divisor):
    return number // divisor


def rounded_up(number, divisor):
    return -(-number // divisor)


AT_HALVES = (halves_up, halves_down, halves_to_odd)
WRONG = AT_HALVES + (rounded_down, rounded_up)


@contextmanager
def rounding_in(module, name, function):
    """While it lasts, a module has another function of this name."""
    right = getattr(module, name)
    setattr(module, name, function)
    try:
        yield
    finally:
        setattr(module, name, right)


# How a program is made that rounds otherwise in one place alone.
WRONG_IN = {
    "quote": lambda wrong: rounding_in(calls, "nearest", wrong),
    "intensity": lambda wrong: rounding_in(closing, "nearest", wrong),
    "cell": lambda wrong: rounding_in(
        workbook, "thousandths_of", lambda value: wrong(
            1000 * value.numerator, value.denominator)),
    "mean": lambda wrong: rounding_in(
        workbook, "mean_of", lambda first, second: wrong(first + second, 2)),
}
CASES_OF = {
    "quote": rounding_cases.of_quotes,
    "intensity": rounding_cases.of_intensities,
    "cell": rounding_cases.of_cells,
    "mean": rounding_cases.of_means,
}


def differing(data, right):
    """How many lines are other ones now."""
    return sum(one != other for one, other
               in zip(player.play(data).splitlines(), right, strict=True))


def wrong_in_stored_cases(check):
    """The stored cases of each place show it, also where the other places are
    right."""
    for where, add in CASES_OF.items():
        cases = make_cases.Cases()
        add(BookCases(cases))
        data = cases.data()
        right = cases.player.output().splitlines()
        check(differing(data, right) == 0, "the right program", where)
        with WRONG_IN[where](nearest):
            check(differing(data, right) == 0, "the same rounding", where)
        for wrong in WRONG:
            with WRONG_IN[where](wrong):
                check(differing(data, right) > 0, "not caught", where,
                      wrong.__name__)


def sum_rounded(sums, code, amount):
    """The quotients are added and then rounded."""
    return round(sum(Fraction(number, divisor) for number, divisor
                     in closing.quotients(sums, code, amount)))


def wrong_otherwise(check):
    """Other ways to go wrong: quotients added before they are rounded, means
    of ends that are not rounded, one amount by the old rule."""
    for where, name, wrong in (
        ("intensity", "intensity_of", sum_rounded),
        ("mean", "converted", exact_mean),
        ("quote", "quoted_shares", old_operation),
        ("quote", "quoted_shares", old_provision),
    ):
        cases = make_cases.Cases()
        CASES_OF[where](BookCases(cases))
        right = cases.player.output().splitlines()
        with rounding_in(calls, name, wrong):
            check(differing(cases.data(), right) > 0, "not caught",
                  wrong.__name__)


def exact_mean(cell):
    values = workbook.values_of(cell)
    return round(1000 * sum(values) / len(values))


def old_operation(adjust, mass, distance, *intensities):
    return shares_by((halves_up, nearest), adjust, mass, distance,
                     intensities)


def old_provision(adjust, mass, distance, *intensities):
    return shares_by((nearest, halves_up), adjust, mass, distance,
                     intensities)


def shares_by(roundings, adjust, mass, distance, intensities):
    D = distance + 95_000 if adjust == 1 else distance
    return tuple(rounded(intensity * mass * D, 1000) for rounded, intensity
                 in zip(roundings, intensities))


# Demand 3 counts quotes and lines by the rule. Each place has halves on both
# sides: quotes of 0.5 and 1.5, 2.5 and 3.5, cells of 62.5 and 187.5, means of
# 0.5 and 1.5, 2.5 and 3.5.
LIST = (
    (player.FRESH,), (player.OPEN, 1),
    (player.QUOTE, 1, 0, 500, 1, 1, 3), (player.QUOTE, 2, 0, 500, 1, 5, 7),
    (player.LINE, 1, 0, single(1.0), single(0.0625), single(0.1875)),
    (player.LINE, 1, 0, single(0.001), span(0.0, 0.001), span(0.001, 0.002)),
    (player.LINE, 1, 0, single(0.001), span(0.002, 0.003),
     span(0.003, 0.004)),
    (player.ENROL, 1, 3, 0, 1, 1, 0), (player.CLOSE, 1),
    (player.DUMP, 356, 2304), (player.STATEMENT, 1), (player.STATEMENT, 2),
    (player.STATEMENT, 3))


def acting(where, wrong):
    """The call that rounds otherwise, while the tally stays right."""
    name = "quote" if where == "quote" else "line"

    def act(words, *arguments):
        if name == "quote":
            with WRONG_IN[where](wrong):
                return calls.quote(words, *arguments)
        with WRONG_IN[where](wrong):
            numbers_in_cells = list(map(workbook.converted, arguments[2:]))
        return calls.post(words, *arguments[:2], *numbers_in_cells)
    return name, act


def wrong_in_lists(check, long_list):
    """By the short list, and by a long one, whose records these are."""
    lines = played_wrongly(LIST, *acting("quote", nearest))
    check(broken_by(LIST, lines) is None, "the right program")
    # 0 and 2, 2 and 4; 62,000 and 188,000 with 0 and 2, 2 and 4.
    check(lines[-3:] == ["0 1 0 0 2 2", "0 1 0 2 4 6",
                         "0 1 0 62002 188006 250008"], "the list",
          lines[-3:])
    for records, some in ((LIST, WRONG), (long_list, AT_HALVES)):
        for where in ("quote", "cell", "mean"):
            for wrong in some:
                lines = played_wrongly(records, *acting(where, wrong))
                check(broken_by(records, lines) is not None, "not caught",
                      where, wrong.__name__)
    # The program is right, and the tally rounds otherwise.
    lines = played_wrongly(LIST, "quote", calls.quote)
    for wrong in WRONG:
        with rounding_in(tally, "nearest", wrong):
            check(broken_by(LIST, lines) is not None, "not caught",
                  wrong.__name__)


# The lines of check_lines.py.

def wrong_in_lines(check):
    """Some of its halves show each, and so do random lines alone."""
    for lines in (list(check_lines.halves())[::5],
                  list(check_lines.random_lines(random.Random(SEED), 600))):
        data = check_lines.START + b"".join(
            check_lines.records_of(*line) for line in lines)
        right = player.play(data).splitlines()
        for where in ("cell", "mean"):
            for wrong in AT_HALVES:
                with WRONG_IN[where](wrong):
                    check(differing(data, right) > 0, "not caught", where,
                          wrong.__name__)


def run(check):
    properties(check)
    quotes(check)
    intensities(check)
    wrong_in_stored_cases(check)
    wrong_otherwise(check)
    wrong_in_lines(check)
