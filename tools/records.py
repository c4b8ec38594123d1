#!/usr/bin/env python3
"""Packs calls that are written as text into records for the program `replay`.

    python3 tools/records.py < calls.txt | crates/replay/out/replay

A line is a call: the operation and its arguments, decimal numbers below
2^64 with spaces between, at most seven arguments. Arguments that are left
out are 0. A line that begins with x is bytes: two hexadecimal digits for
each, spaces between them allowed. Zeros fill the last record. Empty lines
and lines that begin with # are passed over.

Operation 16 with one argument is a cell as people write it: - for a blank
one, a number as 12.5, or a span as 3.1..3.4. A number may have a sign and an
exponent, or be inf or nan; the nearest double is taken, by Python's float.
With more arguments or none it is like any other call: `16 2` is the number
2, `16 2 0 0` the form 2 with the bits of two doubles.
"""

import re
import struct
import sys

RECORD_BYTES = 64
CELL = 16
# A number of a cell.
NUMBER = re.compile(r"[-+]?([0-9]+(\.[0-9]+)?(e[-+]?[0-9]+)?|inf|nan)",
                    re.IGNORECASE)


def bits(text):
    """The 64 bits of the double nearest to a number."""
    if not NUMBER.fullmatch(text):
        raise ValueError(text)
    return int.from_bytes(struct.pack("<d", float(text)), "little")


def cell(text):
    """The form of a cell and the bits of its doubles."""
    if text == "-":
        return [0]
    ends = text.split("..")
    if len(ends) > 2:
        raise ValueError(text)
    return [len(ends), *map(bits, ends)]


def call(line):
    """The 64 bytes of one call."""
    operation, *arguments = line.split()
    if int(operation) == CELL and len(arguments) == 1:
        words = [CELL, *cell(arguments[0])]
    else:
        words = [int(word) for word in (operation, *arguments)]
    return struct.pack("<8Q", *(words + [0] * (8 - len(words))))


def padded(data):
    """The bytes with zeros up to a whole record."""
    return data + bytes(-len(data) % RECORD_BYTES)


def packed(line):
    """The records of one line."""
    line = line.strip()
    if line.startswith("x"):
        return padded(bytes.fromhex(line[1:]))
    return call(line)


def main():
    for number, line in enumerate(sys.stdin, 1):
        if not line.strip() or line.startswith("#"):
            continue
        try:
            sys.stdout.buffer.write(packed(line))
        except (ValueError, struct.error):
            sys.exit("line %d is neither a call nor bytes: %s"
                     % (number, line.strip()))


if __name__ == "__main__":
    main()
