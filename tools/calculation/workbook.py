"""The cells of a line from the Wharf Sheet, by the bits of their doubles.

Written from document 02's lines and rounding. Sentences in quotation marks
are its own.

A double is its 64 bits, as a whole number; nothing is reckoned in floating
point. "A cell is blank, one double, or a span of two doubles": a tuple of
none, one or two such numbers.
"""

from fractions import Fraction

from calculation.rounding import nearest

BLANK = ()

# "A line has three cells: quantity in units, and two factors in grams per
# unit." "The limits are 10^9 for a quantity and 10^7 for a factor"
LIMITS = (10 ** 9, 10 ** 7, 10 ** 7)

# A double has a sign, 11 bits of exponent and 52 of fraction.
FRACTION_BITS = 52
LARGEST_EXPONENT = 2 ** 11 - 1
# The exponent that a whole significand, 53 bits long, would have.
BIAS = 1023 + FRACTION_BITS


class NoNumber(Exception):
    """The cell has no number: it is blank, or a double is not finite."""


def value_of(bits):
    """The exact value of a double, None where it is not finite."""
    fraction = bits & (1 << FRACTION_BITS) - 1
    exponent = bits >> FRACTION_BITS & LARGEST_EXPONENT
    if exponent == LARGEST_EXPONENT:
        return None
    if exponent == 0:
        # Zero or subnormal: no bit before the fraction.
        significand, exponent = fraction, 1
    else:
        significand = fraction + (1 << FRACTION_BITS)
    size = significand * Fraction(2) ** (exponent - BIAS)
    # "negative zero is zero": Fraction has only one.
    return -size if bits >> 63 == 1 else size


def values_of(cell):
    return [value_of(bits) for bits in cell]


# Its two grounds.

def is_unusable(cell, limit):
    """15: "a blank cell or a double that is not finite, is below zero or is
    above its limit", the exact value compared.
    """
    return cell == BLANK or any(value is None or value < 0 or value > limit
                                for value in values_of(cell))


def is_exchanged(cell):
    """16: "a span whose second double is below its first". A double that is
    not finite is 15, and is not compared.
    """
    values = values_of(cell)
    return (len(values) == 2 and None not in values
            and values[1] < values[0])


# Its number.

def thousandths_of(value):
    """"A double becomes the nearest whole thousandth of its exact binary
    value"; "Halves go to the even number."
    """
    return nearest(1000 * value.numerator, value.denominator)


def mean_of(first, second):
    """"A span becomes the mean of its two converted ends"; "also the mean of
    a span" follows the even number.
    """
    return nearest(first + second, 2)


def converted(cell):
    """The whole thousandths that a cell becomes."""
    values = values_of(cell)
    if cell == BLANK or None in values:
        raise NoNumber
    ends = [thousandths_of(value) for value in values]
    return mean_of(*ends) if len(ends) == 2 else ends[0]
