"""Writes the cells of lines, and the records that carry them.

A cell is a tuple of the bits of its doubles, as in calculation/workbook.py.
"""

import struct

from calculation import player

BLANK = ()

SIGN = 1 << 63
ZERO, NEGATIVE_ZERO = 0, SIGN
SUBNORMAL = 1                      # the smallest double above 0, 2^-1074
NORMAL = 1 << 52                   # the smallest normal one, 2^-1022
INFINITY = 0x7FF << 52
LARGEST_FINITE = INFINITY - 1
# NaN: quiet and signalling, of both signs, with other bits too.
NANS = tuple(sign | INFINITY | fraction
             for sign in (0, SIGN)
             for fraction in (1 << 51, 1, (1 << 52) - 1, (1 << 51) - 1,
                              1 << 51 | 0xBEEF, 1 << 32, 1 << 50))


def bits(number):
    """The bits of a double. From one above 0 the next double is one more."""
    return struct.unpack("<Q", struct.pack("<d", number))[0]


def single(value):
    """A cell of one double."""
    return (bits(value),)


def span(first, second):
    return bits(first), bits(second)


def power_bits(exponent):
    """The bits of a power of two, from -1074 to 1023."""
    if exponent < -1022:
        return 1 << exponent + 1074
    return exponent + 1023 << 52


def cell_arguments(cell):
    """The form of a cell, and the bits of its doubles."""
    return (len(cell), *cell)


def line_records(category, group, *cells):
    """The records of a line: its cells, then the operation."""
    return [(player.CELL, *cell_arguments(cell)) for cell in cells] + [
        (player.LINE, category, group)]
