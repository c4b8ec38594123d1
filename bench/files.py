#!/usr/bin/env python3
"""Writes the files that the printing program is counted on.

    python3 bench/files.py DIRECTORY

example.qm is document 01's example, full.qm a full book with every category
closed, weighed.qm the same with every passenger weighed. descending.qm is the
full book with its chains in descending order, repeated.qm has its elements on
16 chains. last-element.qm and last-closing.qm are the full book refused at
its last element and at its last closing. The bytes are the same each time.
"""

import os
import sys

ROOT = os.path.dirname(os.path.dirname(os.path.abspath(__file__)))
sys.path.insert(0, os.path.join(ROOT, "tools"))

from cases.file_writer import EXAMPLE, file_of  # noqa: E402

CHILLED, FROZEN = 1, 2


def spread(number, first, last):
    """A number of this range; neighbours get numbers far apart."""
    return first + number * 2_654_435_761 % (last - first + 1)


def kind_of(category):
    """1 freight, 2 passengers, 3 both, 4 freight hub, in turn."""
    return 1 + (category - 1) % 4


def categories():
    return [(kind_of(category), 1) for category in range(1, 17)]


def entries():
    """Four for each category: 200 to 2,000 t of fuel, 2.7 to 3.3 kg per kg in
    operation and 0.4 to 0.7 in provision; two of them for a group where the
    kind allows it."""
    listed = []
    for number in range(64):
        category, turn = 1 + number % 16, number // 16
        group = 0 if kind_of(category) == 2 else turn % 3
        listed.append((category, group,
                       spread(number, 200_000_000, 2_000_000_000),
                       spread(number, 2_700_000, 3_300_000),
                       spread(number, 400_000, 700_000)))
    return listed


def elements():
    """Sixteen for each category, each on a chain of its own: 0.5 to 28 t of
    freight of every group, or 1 to 400 passengers of any class, over 50 to
    18,000 km."""
    listed = []
    for number in range(256):
        category, turn = 1 + number % 16, number // 16
        kind = kind_of(category)
        chain = 1 + 3907 * number % 10_000
        distance = 0 if kind == 4 else spread(number, 50_000, 18_000_000)
        if kind == 2 or kind == 3 and turn % 2 == 1:
            code, amount = spread(number, 100, 1000), spread(number, 1, 400)
        else:
            code, amount = turn % 3, spread(number, 500, 28_000)
        listed.append((category, chain, code, 0, amount, distance, 0, 0))
    return listed


def weighed():
    """Passengers of 1 to 300 kg per head."""
    return [(category, chain, code, spread(number, 1, 300), *rest)
            if code >= 100 else (category, chain, code, adjust, *rest)
            for number, (category, chain, code, adjust, *rest)
            in enumerate(elements())]


def on_chains(chains):
    """The same elements on other chains."""
    return [(category, chain, *rest)
            for chain, (category, _, *rest) in zip(chains, elements())]


def descending():
    """The same chains, each element's lower than the one before it."""
    return on_chains(sorted((chain for _, chain, *_ in elements()),
                            reverse=True))


def repeated():
    """Each of 16 chains is met 16 times, in every category once."""
    return on_chains([1 + 3907 * ((number + number // 16) % 16) % 10_000
                      for number in range(256)])


def last_element():
    """The chain of the last element is 10,001: refused with 3."""
    listed = elements()
    category, _, *rest = listed[-1]
    return listed[:-1] + [(category, 10_001, *rest)]


def last_closing():
    """The last category has entries for frozen freight and only chilled
    freight instead: refused with 9."""
    return [(category, chain, CHILLED, *rest)
            if (category, code) == (16, FROZEN)
            else (category, chain, code, *rest)
            for category, chain, code, *rest in elements()]


def main():
    if len(sys.argv) != 2:
        raise SystemExit("usage: files.py DIRECTORY")
    for name, data in (
        ("example", EXAMPLE),
        ("full", file_of(categories(), entries(), elements())),
        ("weighed", file_of(categories(), entries(), weighed())),
        ("descending", file_of(categories(), entries(), descending())),
        ("repeated", file_of(categories(), entries(), repeated())),
        ("last-element", file_of(categories(), entries(), last_element())),
        ("last-closing", file_of(categories(), entries(), last_closing())),
    ):
        with open(os.path.join(sys.argv[1], name + ".qm"), "wb") as file:
            file.write(data)


if __name__ == "__main__":
    main()
