#!/usr/bin/env python3
"""Checks demand 3 from what a program prints for long random lists.

    python3 tools/checks/check_conservation.py PROGRAM [SEED ...]

PROGRAM is the path of an executable that plays records from its standard
input. Each seed makes other lists. Prints `N lists conserve and agree`, or
what is wrong with exit status 1: first where a list breaks the demand, then
where a line is not the player's.
"""

import os
import random
import subprocess
import sys
from itertools import zip_longest

sys.path.insert(0, os.path.dirname(os.path.dirname(os.path.abspath(__file__))))

from cases import conservation_cases, make_cases
from cases.book_writer import BookCases
from checks import check_endings
from checks.conservation_checks import (
    Broken, check_list, lists_among, printing)

SEEDS = (1, 2, 3)


def broken_list(records, lines, spans):
    """What the first list that breaks the demand breaks, or None."""
    lists = lists_among(records, lines, spans)
    for number, (own_records, own_lines) in enumerate(lists, 1):
        try:
            check_list(own_records, own_lines)
        except Broken as broken:
            return "list %d: %s" % (number, broken)
    return None


def first_difference(records, lines, wanted):
    """The first number that is not the player's, or None."""
    for record, line, right in zip(printing(records), lines, wanted):
        if line != right:
            pairs = zip_longest(line.split(" "), right.split(" "))
            place, (number, right) = next(
                (place, pair) for place, pair in enumerate(pairs, 1)
                if pair[0] != pair[1])
            return "%r prints as number %d %s, not %s" % (
                record, place, number, right)
    if len(lines) != len(wanted):
        return "%d lines, not %d" % (len(lines), len(wanted))
    return None


def first_problem(program, seed):
    """How many lists there were, and what is wrong or None."""
    cases = make_cases.Cases()
    of_book = BookCases(cases)
    conservation_cases.add_lists(of_book, random.Random(seed))
    output, status = check_endings.run(program, cases.data())
    lines = output.decode("ascii", "replace").splitlines()
    wanted = cases.player.output().decode("ascii").splitlines()
    problem = (broken_list(cases.records, lines, of_book.lists)
               or first_difference(cases.records, lines, wanted))
    if problem is None and status < 0:
        problem = "the program was ended by signal %d" % -status
    return len(of_book.lists), problem


def main(arguments):
    if not arguments or not all(seed.isdecimal() for seed in arguments[1:]):
        print("usage: check_conservation.py PROGRAM [SEED ...]",
              file=sys.stderr)
        return 2
    program = os.path.abspath(arguments[0])
    checked = 0
    for seed in [int(seed) for seed in arguments[1:]] or SEEDS:
        try:
            count, problem = first_problem(program, seed)
        except subprocess.TimeoutExpired:
            count, problem = 0, ("no end within %d seconds"
                                 % check_endings.SECONDS)
        except OSError as error:
            print("the program does not run: %s" % error)
            return 1
        if problem is not None:
            print("seed %d: %s" % (seed, problem))
            return 1
        checked += count
    print("%d lists conserve and agree" % checked)
    return 0


if __name__ == "__main__":
    sys.exit(main(sys.argv[1:]))
