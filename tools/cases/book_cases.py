"""The cases of the book and its calls; make_cases.py adds them to its own."""

import random
from itertools import combinations

from calculation.second_way import CHECKING_ORDER, number_of
from cases import (
    call_cases, closing_cases, conservation_cases, file_cases, intensity_cases,
    line_cases, preview_cases, random_cases, rounding_cases, soundness_cases,
    statement_cases, weighed_cases)
from cases.book_writer import SORTS, BookCases, added
from cases.halves import demand_halves

SEED = 2404

# The refusal numbers that each call can give, 0 for accepted.
ANSWERS = {
    "fresh": (0, 1),
    "open": (0, 1, 3, 8),
    "post": (0, 1, 2, 3, 4, 6, 7, 8, 10),
    "line": (0, 15, 16, 1, 2, 3, 4, 6, 8, 10),
    "strike": (0, 1, 2, 4),
    "enrol": (0, 1, 2, 3, 4, 6, 14, 7, 8, 10),
    "quote": (0, 1, 3, 7, 8, 10),
    "close": (0, 1, 2, 4, 9),
    "preview": (0, 1, 17, 2, 4, 9),
    "statement": (0, 1, 3),
    "intensity": (0, 1, 2, 3, 5, 9, 10),
}

# Pairs of grounds that cannot hold at once, each in checking order: a
# category that is not there is neither open nor closed nor of a kind and has
# no sums, an entry that is not there is not struck, a group that is none of
# its values is not 1 or 2, a code that is none of its values wants no F, S or
# C, an intensity without its F, S or C has no result, passengers that do not
# suit a category have no earlier ones there, and a line without a quantity has
# no amounts.
NEVER_BOTH = {
    "post": ((2, 4), (2, 6), (3, 6)),
    "line": ((2, 4), (2, 6), (3, 6), ((15, 1), 10), ((16, 1), 10)),
    "strike": ((2, 4),),
    "enrol": ((2, 4), (2, 6), (2, 14), (6, 14)),
    "close": ((2, 4), (2, 9)),
    "preview": ((2, 4), (2, 9)),
    "intensity": ((2, 5), (2, 9), (2, 10), (3, 9), (3, 10), (9, 10)),
}


def grounds_of(numbers):
    """The grounds of refusal numbers in checking order: those of a cell are
    there for each cell of a line."""
    return [ground for ground in CHECKING_ORDER if number_of(ground) in numbers]


def pairs_of_grounds():
    """(call, ground, later ground) for all that can hold at once."""
    return [(name, one, other)
            for name, numbers in ANSWERS.items()
            for one, other in combinations(grounds_of(numbers), 2)
            if (one, other) not in NEVER_BOTH.get(name, ())]


def sorts_of_closings():
    """Passengers alone have no groups."""
    return [sort + more for sort in SORTS for more in ("", " with groups")
            if sort + more not in ("passengers with groups",
                                   "weighed passengers with groups")]


def add_random(cases, add_them, halves):
    """Adds random cases; every sort of closing must be among them, and halves
    of both sides in these places."""
    before, before_halves = dict(cases.closings), dict(cases.halves)
    add_them()
    closings = added(cases.closings, before)
    for sort in sorts_of_closings():
        if closings.get(sort, 0) < 5:
            raise SystemExit("few random closings of sort: " + sort)
    demand_halves(added(cases.halves, before_halves), halves)


def add_long_lists(cases, possible):
    """The long lists; every answer but 1 must be among theirs."""
    before = dict(cases.answers)
    add_random(cases, lambda: conservation_cases.add(cases),
               ("quote", "cell", "mean"))
    cases.in_lists = added(cases.answers, before)
    missing = [key for key in possible
               if key[1] != 1 and key not in cases.in_lists]
    if missing:
        raise SystemExit("no call of a long list that gives: %r" % missing)


def add(plain_cases):
    """Adds the cases of the book; what they tested, as counts."""
    cases = BookCases(plain_cases)
    rng = random.Random(SEED)
    possible = [(name, number) for name, numbers in ANSWERS.items()
                for number in numbers]
    call_cases.add(cases)
    closing_cases.add(cases)
    intensity_cases.add(cases)
    statement_cases.add(cases)
    soundness_cases.add(cases, rng)
    weighed_cases.add(cases)
    line_cases.add(cases)
    preview_cases.add(cases)
    rounding_cases.add(cases)
    add_random(cases, lambda: random_cases.add(cases, rng),
               ("quote", "cell", "mean", "intensity"))
    add_long_lists(cases, possible)
    file_cases.add(cases)
    # The cases reckoned by hand have the same outcome after all the others.
    call_cases.reckoned_by_hand(cases)

    missing = [key for key in possible if key not in cases.answers]
    missing += [key for key in pairs_of_grounds() if key not in cases.pairs]
    if missing:
        raise SystemExit("no call that gives: %r" % missing)
    strange = [key for key in cases.answers if key not in possible]
    strange += [key for key in cases.pairs if key not in pairs_of_grounds()]
    if strange:
        raise SystemExit("no call can give: %r" % strange)
    return cases
