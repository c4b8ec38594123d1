"""The halves that a call rounds: what lies exactly between two whole numbers.

A half is where it is rounded, as a quote, a cell, a mean or an intensity, and
its side: whether the whole number below it is even or odd. A rounding that
goes wrong at halves shows on one side alone, or on both.
"""

from calculation.book import AIR_DEFAULT, AMOUNTS, Book
from calculation.closing import Sums, quotients
from calculation.workbook import thousandths_of, values_of

SIDES = ("even", "odd")

# How many halves of each sort random cases have at least.
FEWEST = 10


def demand_halves(counts, places, fewest=FEWEST):
    """Ends the run where there are few halves in one of the places, on either
    side."""
    for where in places:
        for side in SIDES:
            if counts.get((where, side), 0) < fewest:
                raise SystemExit("few halves above an %s number: %s"
                                 % (side, where))


def halves_of(name, words, arguments):
    """The halves of an accepted call, and of the words it was made on."""
    found = {"quote": of_quote, "line": of_line,
             "intensity": of_intensity}.get(name)
    if found is None:
        return []
    return [(where, SIDES[number // divisor % 2])
            for where, number, divisor in found(words, *arguments)
            if 2 * (number % divisor) == divisor]


# What each call rounds: where, a number and its divisor.

def of_quote(words, chain, adjust, mass, distance, *intensities):
    for intensity in intensities:
        yield ("quote",
               intensity * mass * (distance + adjust * AIR_DEFAULT), 1000)


def of_line(words, category, group, *cells):
    for cell in cells:
        values = values_of(cell)
        for value in values:
            yield "cell", 1000 * value.numerator, value.denominator
        if len(values) == 2:
            yield "mean", sum(map(thousandths_of, values)), 2


def of_intensity(words, category, code):
    sums = Sums(Book(words), category)
    for amount in AMOUNTS:
        for number, divisor in quotients(sums, code, amount):
            yield "intensity", number, divisor
