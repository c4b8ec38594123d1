"""Checks of the tally; book_checks.py makes them."""

from calculation.tally import Category, Enrolled, Entry, Quoted, Tally
from cases.line_writer import BLANK, single, span

# Calls with their arguments and refusal numbers.
FED = (
    ("open", (3,), 0), ("open", (5,), 3), ("open", (4,), 0), ("open", (1,), 8),
    ("post", (1, 0, 1000, 7, 9), 0), ("post", (9, 0, 1, 1, 1), 2),
    ("post", (2, 2, 10 ** 12, 10 ** 6, 0), 0), ("strike", (3,), 2),
    ("strike", (1,), 0), ("strike", (1,), 4), ("strike", (2,), 1),
    ("enrol", (1, 7, 0, 20, 30), 0), ("enrol", (1, 7, 400, 2, 3), 0),
    ("enrol", (1, 7, 99, 2, 3), 3), ("enrol", (2, 10_000, 2, 50, 0), 0),
    ("enrol", (1, 7, 400, 2, 3, 75), 14), ("enrol", (1, 7, 400, 2, 3, 301), 7),
    # 0.5 and 1.5, 0.499 and 0.998; 1.5 and 2.499; 600,000 × 1000 ×
    # 1,000,000 / 1000.
    ("quote", (5, 0, 500, 1, 1, 3), 0), ("quote", (5, 0, 499, 1, 1, 2), 0),
    ("quote", (5, 0, 1, 3, 500, 833), 0), ("quote", (5, 2, 1, 1, 1, 1), 3),
    ("quote", (6, 1, 1000, 905_000, 600_000, 1), 0),
    # The stated mass is not in the activity.
    ("open", (2,), 0), ("enrol", (3, 8, 400, 2, 3, 75), 0),
    ("enrol", (3, 8, 100, 2, 3, 300), 0),
    ("close", (2,), 9), ("close", (1,), 0), ("close", (1,), 4),
    # 500 of 62, which is 62.5, and of 2, the mean of 1 and 2.
    ("line", (2, 1, single(0.5), single(0.0625), span(0.001, 0.002)), 0),
    ("line", (2, 1, single(0.5), BLANK, single(1.0)), 15),
    ("line", (2, 1, single(0.5), span(2.0, 1.0), single(1.0)), 16),
    ("line", (1, 0, single(0.5), single(1.0), single(1.0)), 4),
    # 0.4 of a thousandth is none; struck as any entry.
    ("line", (3, 0, single(-0.0), single(9.0), single(0.0004)), 0),
    ("line", (3, 0, single(1.0), single(9.0), single(0.0004)), 0),
    ("strike", (5,), 0),
)


def by_hand(check):
    tally = Tally()
    check((tally.categories, tally.entries, tally.elements) == ({}, {}, {}),
          "nothing at the start")
    for call in FED:
        tally.feed(*call)
    check(tally.categories == {1: Category(3, True), 2: Category(4, False),
                               3: Category(2, False)},
          "categories", tally.categories)
    check(tally.entries == {1: Entry(1, 0, 7000, 9000, True),
                            2: Entry(2, 2, 10 ** 18, 0, False),
                            3: Entry(2, 1, 31_000, 1000, False),
                            4: Entry(3, 0, 0, 0, False),
                            5: Entry(3, 0, 9_000_000, 0, True)},
          "entries", tally.entries)
    check(tally.elements == {
        1: Enrolled(1, 7, 0, 20, 30, 600, 0),
        2: Enrolled(1, 7, 400, 2, 3, 2400, 0),
        3: Enrolled(2, 10_000, 2, 50, 0, 50, 0),
        4: Quoted(5, 0, 2), 5: Quoted(5, 0, 1), 6: Quoted(5, 2, 2),
        7: Quoted(6, 600_000_000_000, 1_000_000),
        8: Enrolled(3, 8, 400, 2, 3, 2400, 75),
        9: Enrolled(3, 8, 100, 2, 3, 600, 300)},
        "elements", tally.elements)
    check([number for number, element in tally.elements.items()
           if tally.waits(element)] == [3, 8, 9], "waiting")


def same_elements(check, told):
    """The elements of the tally are those of the dump."""
    for number, element in told.tally.elements.items():
        start = 356 + 9 * (number - 1)
        record = tuple(told.words[start + place] for place in range(9))
        if isinstance(element, Enrolled):
            check((*record[:6], record[8]) == element, "enrolled", number,
                  record)
        else:
            check((record[0], record[1], *record[6:]) == (0, *element, 0),
                  "quoted", number, record)
