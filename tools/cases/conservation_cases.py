"""Long random lists of calls. Each goes from fresh to the statements of its
chains; checks/conservation_checks.py checks demand 3 from their lines.

No call gives 1: each works on the sound book that the one before it left.
"""

import random
from collections import namedtuple

from calculation import book, calls
from calculation.book import CATEGORIES, CHAINS, ELEMENTS
from cases.random_cases import LARGE, one_of, random_call, wild_call

SEED = 88

# How many calls a list has, how many bits the measures of elements and those
# of entries have at most, and whether every chain is asked for at its end.
Plan = namedtuple("Plan", "calls scales of_posts every_chain",
                  defaults=(False,))

PLANS = (
    # Small measures: many remainders are equal.
    Plan(1000, (2,), (2,)),
    Plan(1500, (2, 8), (2, 8)),
    Plan(2000, (10, 20), (10, 20)),
    # Much to divide by small measures: intensities meet ground 10.
    Plan(2500, (2, 6), (34, LARGE)),
    # Large ones: the sums meet ground 10.
    Plan(3000, (2, 30, LARGE), (2, 30, LARGE)),
    Plan(4000, (8, 24, LARGE), (8, 24, LARGE), every_chain=True),
)

# How many calls of a sort are accepted at most, and between which hundredths
# of the list, so that the book grows nearly to the end of it. Enrolments and
# quotes count together, and so do posts and lines.
PACE = {
    "open": (16, 0, 60),
    "post": (64, 0, 80),
    "strike": (20, 5, 90),
    "enrol": (256, 0, 85),
    "close": (14, 12, 95),
}


def paced(name):
    return {"quote": "enrol", "line": "post"}.get(name, name)


class RandomList:
    """One list, at its pace."""

    def __init__(self, cases, rng, plan):
        self.cases = cases
        self.rng = rng
        self.plan = plan
        self.accepted = dict.fromkeys(PACE, 0)

    def is_ahead(self, name, arguments, step):
        """Whether a call would be accepted before its time."""
        if paced(name) not in PACE:
            return False
        most, first, last = PACE[paced(name)]
        hundredths = 100 * step // self.plan.calls
        due = min(most, most * (hundredths - first) // (last - first))
        if self.accepted[paced(name)] <= due:
            return False
        grounds = calls.CALLS[name].grounds(self.cases.words, *arguments)
        return next(grounds, calls.ACCEPTED) == calls.ACCEPTED

    def next_call(self, step):
        while True:
            sort = self.rng.randrange(16)
            if sort < 4:
                call = wild_call(self.cases, self.rng, self.plan.scales)
            else:
                call = random_call(self.cases, self.rng,
                                   one_of(self.rng, self.plan.scales),
                                   one_of(self.rng, self.plan.of_posts))
            if sort == 4:
                call = self.misplaced(*call)
            if not self.is_ahead(*call, step):
                return call

    def misplaced(self, name, arguments):
        """The same in another category, which it may not suit."""
        if name in ("post", "line", "enrol"):
            other = 1 + self.rng.randrange(CATEGORIES.most)
            return name, (other, *arguments[1:])
        return name, arguments

    def play(self):
        for step in range(self.plan.calls):
            name, arguments = self.next_call(step)
            numbers = self.cases.call(name, *arguments, gives=None)
            if numbers[0] == 0 and paced(name) in PACE:
                self.accepted[paced(name)] += 1


def used_chains(cases):
    """The chains that have elements, those beside them and a few more. Two
    may be none."""
    used = {element.chain for element in book.Book(cases.words).elements}
    beside = {chain + step for chain in used for step in (-1, 1)}
    return sorted(used | beside | {0, 1, 5000, 9999, 10_000, 10_001})


def show(cases, chains):
    """Asks for every intensity, dumps the records of all elements, with
    their shares, and asks for statements."""
    for category in range(1, cases.words[CATEGORIES.count] + 1):
        cases.intensities(category)
    cases.dump(ELEMENTS.start, ELEMENTS.most * book.size(ELEMENTS))
    for chain in chains:
        cases.statement(chain, gives=0 if chain in CHAINS else 3)


def add_lists(cases, rng):
    """An empty list, and one of each plan."""
    for plan in (Plan(0, (), ()), *PLANS):
        before = cases.played()
        cases.fresh()
        RandomList(cases, rng, plan).play()
        show(cases, CHAINS if plan.every_chain else used_chains(cases))
        cases.lists.append((before, cases.played()))


def add(cases):
    add_lists(cases, random.Random(SEED))
