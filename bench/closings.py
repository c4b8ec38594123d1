#!/usr/bin/env python3
"""Writes the lists of calls that previews and closings are counted on.

    python3 bench/closings.py DIRECTORY PREVIEWS

NAME.calls makes a book with all its categories open. The other lists are
played behind it:

    NAME.previews.calls  so many previews, of all categories in turn
    NAME.strikes.calls   as many strikes of entry 0, which are refused
    NAME.closings.calls  closes all categories
    NAME.struck.calls    the same, with a strike of entry 0 before each
    NAME.any.calls       previews of 0 to 17 into slices of three lengths
    NAME.half.calls      closes every other category, and opens one where
                         there is room

The entries of a book are so small that every share has one digit. Those of
NAME-large.calls are not. The bytes are the same each time.
"""

import os
import sys

from books import (by_turns, category_of, elements, entries, freight, full,
                   passengers, turn_of, write)  # and tools/ on the path
from files import spread

from calculation.book import BOTH, FREIGHT
from calculation.player import (CLOSE, ENROL, FRESH, OPEN, POST, PREVIEW,
                                QUOTE, STRIKE)

GROUPS = (0, 1, 2)
PAIR_WORDS = 512
REFUSED = (STRIKE, 0)


def in_groups(groups, posts):
    """The posts of each category to these groups in turn."""
    return [(POST, category, groups[turn_of(number) % len(groups)], *rest)
            for number, (_, category, _, *rest) in enumerate(posts)]


def small():
    """1 to 5 µg for each of 64 entries."""
    return [(POST, category_of(number), 0, 1, spread(number, 2, 5),
             spread(number, 1, 3))
            for number in range(64)]


def in_first(calls):
    """The same posts and enrolments, all in category 1."""
    return [(operation, 1, *rest) for operation, _, *rest in calls]


def one_category(posts):
    return ([(FRESH,), (OPEN, BOTH)] + in_first(posts)
            + in_first(elements(by_turns)))


def example(quantity, *factors):
    """That of document 01 with another entry, and with a quote of 0 µg."""
    return [(FRESH,), (OPEN, FREIGHT), (POST, 1, 0, quantity, *factors),
            (ENROL, 1, 7, 0, 1000, 300_000), (ENROL, 1, 4, 0, 3000, 300_000),
            (QUOTE, 7, 0, 1000, 500_000, 0, 0)]


def books():
    """The calls of each book by its name."""
    lists = {}
    for size, posts in (("", small()), ("-large", entries())):
        grouped = in_groups(GROUPS, posts)
        lists["freight" + size] = full(freight, grouped)
        lists["passengers" + size] = full(passengers, posts)
        lists["by-turns" + size] = full(by_turns, grouped)
        lists["one-category" + size] = one_category(grouped)
    lists["example"] = example(1, 8, 5)
    lists["example-large"] = example(12_000_000, 3_220_000, 560_000)
    return lists


def behind(calls, previews):
    """The lists that are played behind the calls of a book."""
    count = sum(operation == OPEN for operation, *_ in calls)
    numbers = range(1, count + 1)
    return {
        "previews": [(PREVIEW, 1 + turn % count, PAIR_WORDS)
                     for turn in range(previews)],
        "strikes": [REFUSED] * previews,
        "closings": [(CLOSE, number) for number in numbers],
        "struck": [played for number in numbers
                   for played in (REFUSED, (CLOSE, number))],
        "any": [(PREVIEW, number, length)
                for length in (PAIR_WORDS - 1, PAIR_WORDS, 600)
                for number in range(18)],
        "half": [(CLOSE, number) for number in numbers if number % 2 == 0]
                + [(OPEN, BOTH)],
    }


def main():
    if len(sys.argv) != 3:
        raise SystemExit("usage: closings.py DIRECTORY PREVIEWS")
    directory, previews = sys.argv[1], int(sys.argv[2])
    for name, calls in books().items():
        write(directory, name, calls)
        for what, played in behind(calls, previews).items():
            write(directory, name + "." + what, played)


if __name__ == "__main__":
    main()
