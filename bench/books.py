#!/usr/bin/env python3
"""Writes the lists of calls that the test of soundness is counted on.

    python3 bench/books.py DIRECTORY

NAME.calls makes a full book: 16 categories for freight and passengers, 64
entries, 256 elements. NAME.DAMAGE.calls makes the same and then writes a word
that leaves it unsound. The bytes are the same each time.
"""

import os
import sys

from files import spread  # and tools/ on the path

from calculation.book import BOTH, CATEGORIES, ELEMENTS, ENTRIES, word
from calculation.player import CLOSE, ENROL, FRESH, OPEN, POKE, POST, QUOTE
from records import call

STANDARD = 0  # kg per head of passengers that are not weighed


def category_of(number):
    return 1 + number % 16


def turn_of(number):
    """How many records of its category are before it."""
    return number // 16


def entries():
    """Those of files.py, all of them of group 0."""
    return [(POST, category_of(number), 0,
             spread(number, 200_000_000, 2_000_000_000),
             spread(number, 2_700_000, 3_300_000),
             spread(number, 400_000, 700_000))
            for number in range(64)]


def chain_of(number):
    return 1 + 3907 * number % 10_000


def distance_of(number):
    return spread(number, 50_000, 18_000_000)


def passengers(number, kg_per_head=STANDARD):
    return (ENROL, category_of(number), chain_of(number),
            spread(number, 100, 1000), spread(number, 1, 400),
            distance_of(number), kg_per_head)


def weighed(number):
    return passengers(number, spread(number, 1, 300))


def freight(number):
    return (ENROL, category_of(number), chain_of(number),
            turn_of(number) % 3, spread(number, 500, 28_000),
            distance_of(number))


def quote(number):
    return (QUOTE, chain_of(number), number % 2, spread(number, 500, 28_000),
            distance_of(number), spread(number, 50_000, 900_000),
            spread(number, 10_000, 200_000))


def by_turns(number):
    """Neighbours differ, in the list and in each category; the last element
    is passengers."""
    sort = (passengers, freight)[(number + turn_of(number)) % 2]
    return sort(number)


def elements(element):
    return [element(number) for number in range(256)]


def full(element, posts=None):
    return ([(FRESH,)] + [(OPEN, BOTH)] * 16 + (posts or entries())
            + elements(element))


def closings():
    return [(CLOSE, category) for category in range(1, 17)]


def books():
    """The calls of each book by its name. Categories that have quotes alone
    cannot be closed."""
    lists = {}
    for name, element in (("passengers", passengers), ("weighed", weighed),
                          ("freight", freight), ("by-turns", by_turns)):
        lists[name + "-open"] = full(element)
        lists[name + "-closed"] = full(element) + closings()
    lists["quotes-open"] = full(quote)
    return lists


def damages(name):
    """For each damage the index of a word, and what leaves the book unsound
    there. Of a list it is a word of the last record, so that all records
    before it are looked at."""
    kg_per_head = STANDARD if name.startswith("weighed") else 80
    return {
        "mark": (0, 0),
        "count": (ELEMENTS.count, ELEMENTS.most + 1),
        "kind": (word(CATEGORIES, 16, "kind"), 5),
        "closed": (word(CATEGORIES, 16, "closed"), 2),
        "group": (word(ENTRIES, 64, "group"), 3),
        "emissions": (word(ENTRIES, 64, "operation"), 10 ** 18),
        "activity": (word(ELEMENTS, 256, "activity"), 1),
        "share": (word(ELEMENTS, 256, "provision"), 10 ** 18 + 1),
        "kg-per-head": (word(ELEMENTS, 256, "kg_per_head"), kg_per_head),
    }


def write(directory, name, calls):
    with open(os.path.join(directory, name + ".calls"), "wb") as file:
        for numbers in calls:
            file.write(call(" ".join(map(str, numbers))))


def main():
    if len(sys.argv) != 2:
        raise SystemExit("usage: books.py DIRECTORY")
    directory = sys.argv[1]
    for name, calls in books().items():
        write(directory, name, calls)
        for damage, poked in damages(name).items():
            write(directory, name + "." + damage, calls + [(POKE, *poked)])


if __name__ == "__main__":
    main()
