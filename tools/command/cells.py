"""The cells of a line from the Wharf Sheet, as people write them: blank, a
number, or a span as 3.1..3.4.

A cell is a tuple of the bits of its doubles, as in calculation/workbook.py.
"""

import re
import struct
from collections import namedtuple
from decimal import ROUND_HALF_EVEN, Decimal
from fractions import Fraction

from calculation.workbook import LIMITS, converted, values_of
from cases.line_writer import BLANK, bits
from command.amounts import grouped, moved
from command.fields import (
    UNITS, Reading, Wrong, is_like_number, read_by)

# A cell of a line: its word, what it is called, its unit, that of its
# converted number, and its limit.
Place = namedtuple("Place", "word name unit small_unit limit")

PLACES = tuple(Place(*names, limit) for names, limit in zip((
    ("quantity", "quantity", "units", "thousandths"),
    ("operation", "operation factor", "g CO2e per unit", "mg"),
    ("provision", "provision factor", "g CO2e per unit", "mg"),
), LIMITS))

BLANKS = ("", "-", "blank")
EXPECTED = ("expected a number such as 12.5, a span such as 3.1..3.4, or %s "
            "for a blank cell")
EXPECTED_CELL = EXPECTED % "`-`"

# Numbers. A long one may have `_` between groups of three digits.
NUMBER = re.compile(
    r"[-+]?(([0-9]{1,3}(_[0-9]{3})+|[0-9]+)([.][0-9]*)?|[.][0-9]+)"
    r"(e[-+]?[0-9]+)?|[-+]?(inf|infinity|nan)", re.IGNORECASE)
PLAIN = r"[-+]?[0-9][0-9_.,]*"

# Texts that are no cells, and what is said of them.
NO_CELLS = (
    (r".*([.]{3}|\u2026).*",
     "no span: between its two numbers stand two points"),
    (r"(?i)%s\s*(-|\u2013|\u2014|to|:|/|;)\s*%s" % (PLAIN, PLAIN),
     "no number: between the two numbers of a span stand two points"),
    (r"[.]{2}.*|.*[.]{2}",
     "no span: a number stands on each side of its two points"),
    (r"(?i)%s\s*(%s)([ /].*)?" % (PLAIN, "|".join(UNITS)),
     "no number: a number stands without its unit"),
    (r"%s\s*%%" % PLAIN, "no number: a number stands without `%`"),
    (r"%s([ \u00a0\u202f'\u2019][0-9_.,]+)+" % PLAIN,
     "no number: between the groups of a long number stands `_` or nothing"),
    (r"=.*", "a formula: save the numbers that it comes to"),
    (r"#.*", "an error of the spreadsheet, and no number"),
    (r"[-+]?[0-9_]+([.,][0-9_]*)?",
     "no number as it stands: `_` stands between groups of three digits"),
)

COMMA = re.compile(".*[0-9],[0-9].*")
EITHER_COMMA = ("ambiguous: a comma may be meant before decimals or between "
                "thousands; decimals stand behind a point")


# From a text to a cell.

def point_alone(text):
    """The text of a number, in which no comma is taken."""
    if COMMA.fullmatch(text):
        raise Wrong(EITHER_COMMA, EXPECTED_CELL)
    return text


def cell_of(text, with_point=point_alone):
    """The cell of a text. How a number's comma is taken depends on where it
    stands."""
    text = text.strip().replace("\u2212", "-")  # a minus sign
    if text.lower() in BLANKS:
        return BLANK
    ends = [text] if "..." in text else re.split(r"\s*[.]{2}\s*", text)
    if len(ends) > 2:
        raise Wrong("no span: it has two numbers", EXPECTED_CELL)
    return tuple(double_of(end, text, with_point) for end in ends)


def double_of(number, text, with_point):
    """The bits of the double that is nearest to a number of a text."""
    plain = with_point(number)
    if not NUMBER.fullmatch(plain):
        raise Wrong(why_no_cell(text), EXPECTED_CELL)
    return bits(float(plain.replace("_", "")))


def why_no_cell(text):
    return next((what for form, what in NO_CELLS if re.fullmatch(form, text)),
                "neither a number nor a span")


def is_like_cell(text):
    """Whether it was meant to be a cell."""
    return (is_like_number(text.replace("\u2212", "-"))
            or text.lower() in BLANKS or NUMBER.fullmatch(text) is not None
            or ".." in text)


CELL = Reading(cell_of, is_like_cell, EXPECTED_CELL)
FIELDS = tuple(read_by(CELL, place.word, "in %s%s, 0 to %s" % (
    place.unit, " (kg, kWh or other)" * (place.unit == "units"),
    grouped(place.limit))) for place in PLACES)


# From a cell to a text.

def number_text(double_bits):
    """The shortest number that is nearest to this double alone."""
    text = repr(struct.unpack("<d", struct.pack("<Q", double_bits))[0])
    return text[:-2] if text.endswith(".0") else text


def cell_text(cell):
    return "..".join(map(number_text, cell)) or "-"


# What a cell becomes.

def conversion(place, cell):
    """How the number of a cell came about."""
    ends = [converted((end,)) for end in cell]
    halves = [half_told(1000 * value) for value in values_of(cell)]
    number = "%s %s" % (grouped(converted(cell)), place.small_unit)
    if len(cell) == 2:
        number = "its ends are %s and %s %s, their mean is %s%s" % (
            *[grouped(end) + half for end, half in zip(ends, halves)],
            place.small_unit, number, half_told(Fraction(sum(ends), 2)))
    else:
        number += halves[0]
    return "%s %s %s: %s" % (place.name, cell_text(cell), place.unit, number)


def half_told(exact):
    """What is said of a rounded number whose exact one is a half."""
    if exact.denominator != 2:
        return ""
    return " (%s, a half goes to the even number)" % moved(int(10 * exact), 1)


def by_exact_value(cell):
    """What is worth knowing where a double is not rounded as the number that
    is written for it would be."""
    for end in cell:
        written = Decimal(number_text(end))
        by_text = int(written.quantize(Decimal("0.001"), ROUND_HALF_EVEN)
                      .scaleb(3))
        if by_text != converted((end,)):
            yield ("as a double %s is %s, so it becomes %s and not %s" % (
                written, exact(end), grouped(converted((end,))),
                grouped(by_text)))


def exact(double_bits):
    """The first digits of a double's exact value."""
    digits = format(Decimal(struct.unpack(
        "<d", struct.pack("<Q", double_bits))[0]), "f")
    return digits if len(digits) <= 26 else digits[:26] + "..."
