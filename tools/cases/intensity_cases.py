"""Cases of intensity: results, halves, limits, grounds and their order.

Where a result is given, it is reckoned by hand.
"""

from calculation.book import AMOUNTS, ELEMENTS, ENTRIES, word
from calculation.closing import INTENSITY_CODES
from cases.book_writer import EMISSIONS, FAR, FARTHEST, LARGEST
from cases.call_cases import in_order_with_1, try_in_order
from cases.closing_cases import HEADS, MASS, category

MOST = 10 ** 15  # the limit of ground 10

# The least numbers that are past 2^64 when multiplied by 1000 and by 100.
PAST_BY_1000 = 18_446_744_073_709_552
PAST_BY_100 = 184_467_440_737_095_517


def closed_book(cases, kind, entries, elements):
    """A new book whose category 1 is closed."""
    cases.new_book()
    category(cases, kind, entries, elements)
    cases.close(1)


# Results: kind, entries of group, operation, provision, elements of code,
# amount, distance, the code that is asked for, operation and provision.

HALVES = (
    # Freight: 1000 and 3000 over 2000, over 2001 and over 1999.
    (1, [(0, 1, 3)], [(0, 2000, 1)], 0, (0, 2)),
    (1, [(0, 1, 3)], [(0, 2001, 1)], 0, (0, 1)),
    (1, [(0, 1, 3)], [(0, 1999, 1)], 0, (1, 2)),
    (1, [(0, 5, 4)], [(0, 16, 125)], 0, (2, 2)),
    (3, [(0, 7, 9)], [(2, 1, 1500), (1, 500, 1)], 0, (4, 4)),
    # 333.3 and 666.7; 1000 over 16 is 62.5.
    (1, [(0, 1, 2)], [(0, 1, 3)], 0, (333, 667)),
    (1, [(0, 1, 2)], [(0, 4, 4)], 0, (62, 125)),
    # B alone.
    (1, [(1, 1, 3)], [(1, 2000, 1)], 1, (0, 2)),
    (1, [(2, 1, 3)], [(2, 2001, 1)], 2, (0, 1)),
    (3, [(2, 3, 1)], [(2, 1999, 1), (100, 1, 1)], 2, (2, 1)),
    # Hubs: 1 and 3 over 2, over 3, over 4.
    (4, [(0, 1, 3)], [(0, 2, 0)], 0, (0, 2)),
    (4, [(0, 1, 3)], [(0, 3, 0)], 0, (0, 1)),
    (4, [(0, 2, 5)], [(0, 3, 0)], 0, (1, 2)),
    (4, [(0, 2, 1)], [(1, 4, 0)], 0, (0, 0)),
    (4, [(0, 6, 5)], [(2, 4, 0)], 0, (2, 1)),
    (4, [(1, 1, 3)], [(1, 2, 0), (0, 1, 0)], 1, (0, 2)),
    (4, [(2, 5, 7)], [(2, 10, 0), (1, 1, 0)], 2, (0, 1)),
    # Passengers: 100 and 300 over 200, over 201, over 199; 500 and 1500
    # over 1000, 400 and 600.
    (2, [(0, 1, 3)], [(100, 2, 1)], 100, (0, 2)),
    (2, [(0, 1, 3)], [(100, 1, 2)], 100, (0, 2)),
    (2, [(0, 1, 3)], [(200, 1, 1)], 100, (0, 2)),
    (2, [(0, 1, 3)], [(201, 1, 1)], 100, (0, 1)),
    (2, [(0, 1, 3)], [(199, 1, 1)], 100, (1, 2)),
    (2, [(0, 5, 15)], [(1000, 1, 1)], 100, (0, 2)),
    (2, [(0, 4, 6)], [(1000, 1, 1)], 100, (0, 1)),
    (3, [(0, 4, 6)], [(500, 1, 1), (300, 1, 1)], 100, (0, 1)),
)

# Rounded apart and then added.
ADDED = (
    # 0.5 and 0.5: 0 and 0, together 1.
    (1, [(0, 1, 1), (1, 1, 0)], [(1, 2000, 1)], 1, (0, 0)),
    (1, [(0, 0, 1), (2, 1, 1)], [(2, 2000, 1)], 2, (0, 0)),
    # 0.4 and 0.4: 0 and 0, together 0.8; 0.8 and 0.8.
    (1, [(0, 1, 2), (1, 1, 2)], [(1, 2500, 1)], 1, (0, 2)),
    (3, [(0, 1, 2), (2, 1, 2)], [(2, 2500, 1)], 2, (0, 2)),
    # Unlike divisors: 1.4 and 1.4, together 2.8; 0.6 and 0.6, together 1.2.
    (1, [(0, 7, 3), (1, 7, 3)], [(0, 1, 1), (1, 4999, 1)], 1, (2, 2)),
    # Hubs: 0.5 and 0.5, 0.4 and 0.4.
    (4, [(0, 1, 1), (1, 1, 0)], [(1, 2, 0)], 1, (0, 0)),
    (4, [(0, 2, 3), (2, 2, 3)], [(2, 5, 0)], 2, (0, 2)),
    # The other group and the passengers do not count.
    (3, [(0, 3, 0), (1, 10, 20), (2, 70, 80)],
     [(1, 100, 1), (2, 100, 1), (100, 1, 1)], 1, (110, 200)),
    (3, [(0, 3, 0), (1, 10, 20), (2, 70, 80)],
     [(1, 100, 1), (2, 100, 1), (100, 1, 1)], 2, (710, 800)),
    # The part is the whole number that the dividing rule gives: 2 and 1 of
    # 3, where 1.5 each would be 15 and 1.5.
    (3, [(0, 3, 1)], [(0, 100, 1), (100, 1, 1)], 0, (20, 10)),
    (3, [(0, 3, 1)], [(0, 100, 1), (100, 1, 1)], 100, (1, 0)),
    (3, [(0, 2, 5)], [(0, 50, 1), (1000, 1, 1)], 0, (20, 40)),
    (3, [(0, 2, 5)], [(0, 50, 1), (1000, 1, 1)], 100, (0, 0)),
)

# Products past 2^64 whose results are in range.
LARGE = (
    (1, [(0, EMISSIONS, EMISSIONS - 1)], [(0, 10 ** 6, 1)], 0, (MOST, MOST)),
    (1, [(0, EMISSIONS, EMISSIONS // 10)],
     [(0, MASS, FARTHEST)] * 2 + [(0, MASS, FARTHEST // 2)], 0,
     (10_000, 1000)),
    # 2^64 + 384 and 2^64 - 616 over 2^20, over 500 × 2^20.
    (1, [(0, PAST_BY_1000, PAST_BY_1000 - 1)], [(0, 2 ** 20, 1)], 0,
     (2 ** 44, 2 ** 44)),
    (1, [(0, PAST_BY_1000, PAST_BY_1000 - 1)], [(0, 2 ** 20, 500)], 0,
     (35_184_372_089, 35_184_372_089)),
    (1, [(2, EMISSIONS // 2, EMISSIONS), (0, EMISSIONS // 2, 0)],
     [(2, 10 ** 6, 1)], 2, (MOST, MOST)),
    (4, [(0, EMISSIONS, 10 ** 9)], [(0, MASS, 0)], 0, (10 ** 9, 1)),
    (4, [(0, EMISSIONS, EMISSIONS - 1)], [(0, 1000, 0)], 0, (MOST, MOST)),
    (2, [(0, EMISSIONS, EMISSIONS - 1)], [(1000, 1, 100)], 100, (MOST, MOST)),
    (2, [(0, PAST_BY_100, PAST_BY_100 - 1)], [(100, 100, 100)], 100,
     (18_446_744_073_710, 18_446_744_073_710)),
    (2, [(0, EMISSIONS, 5 * 10 ** 15)], [(1000, HEADS, FARTHEST)] * 25, 100,
     (100, 0)),
    (3, [(0, EMISSIONS, EMISSIONS // 4)],
     [(0, MASS, FARTHEST)] + [(100, HEADS, FARTHEST)] * 10, 100,
     (1250, 312)),
)


def results(cases):
    for rows in (HALVES, ADDED, LARGE):
        for kind, entries, elements, code, shows in rows:
            closed_book(cases, kind, entries, elements)
            cases.intensity(1, code, shows=shows)
    cases.dump_book()


# Ground 10: kind, entries, elements, code and what it gives.

LIMITS = (
    # Freight: F 1000, F 1.
    (1, [(0, MOST, MOST)], [(0, 1000, 1)], 0, 0),
    (1, [(0, MOST + 1, 0)], [(0, 1000, 1)], 0, 10),
    (1, [(0, 0, MOST + 1)], [(0, 1000, 1)], 0, 10),
    (1, [(0, MOST + 1, MOST + 1)], [(0, 1000, 1)], 0, 10),
    (1, [(0, MOST, MOST + 1)], [(0, 1000, 1)], 0, 10),
    (1, [(0, 10 ** 12, 0)], [(0, 1, 1)], 0, 0),
    (1, [(0, 10 ** 12 + 1, 0)], [(0, 1, 1)], 0, 10),
    (1, [(0, 0, 10 ** 12 + 1)], [(0, 1, 1)], 0, 10),
    # A half more or less is rounded to the limit, which is even; one and a
    # half more pass it.
    (1, [(0, 2 * MOST, 2 * MOST - 1)], [(0, 2000, 1)], 0, 0),
    (1, [(0, 2 * MOST + 1, 0)], [(0, 2000, 1)], 0, 0),
    (1, [(0, 0, 2 * MOST + 1)], [(0, 2000, 1)], 0, 0),
    (1, [(0, 2 * MOST + 3, 0)], [(0, 2000, 1)], 0, 10),
    (1, [(0, 0, 2 * MOST + 3)], [(0, 2000, 1)], 0, 10),
    (1, [(0, 2001 * 10 ** 12 + 1, 0)], [(0, 2001, 1)], 0, 0),
    (1, [(0, 2001 * 10 ** 12 + 2, 0)], [(0, 2001, 1)], 0, 10),
    # Two quotients.
    (1, [(0, MOST // 2, 0), (1, MOST // 2, MOST)], [(1, 1000, 1)], 1, 0),
    (1, [(0, MOST // 2, 0), (1, MOST // 2 + 1, 0)], [(1, 1000, 1)], 1, 10),
    (1, [(0, 0, MOST // 2 + 1), (2, 0, MOST // 2)], [(2, 1000, 1)], 2, 10),
    (1, [(0, MOST, 0), (2, 1, 0)], [(2, 1000, 1)], 2, 10),
    (1, [(0, MOST, 0), (2, 1, 0)], [(2, 1000, 1)], 0, 0),
    # 5 × 10^14 and 5 × 10^14 with a half more and a half less: both are
    # rounded to 5 × 10^14. With one and a half more and a half less it is
    # 10^15 + 2 though the quotients come to 10^15 + 1; with 0.4 each it is
    # 10^15.
    (1, [(0, MOST + 1, 0), (1, MOST - 1, 0)], [(1, 2000, 1)], 1, 0),
    (1, [(0, 0, MOST + 1), (1, 0, MOST - 1)], [(1, 2000, 1)], 1, 0),
    (1, [(0, MOST + 3, 0), (1, MOST - 1, 0)], [(1, 2000, 1)], 1, 10),
    (1, [(0, 0, MOST - 1), (1, 0, MOST + 3)], [(1, 2000, 1)], 1, 10),
    (1, [(0, MOST - 1, 0), (1, MOST, 0)], [(1, 2000, 1)], 1, 0),
    (1, [(0, 125 * 10 ** 13 + 1, 0), (1, 125 * 10 ** 13 + 1, 0)],
     [(1, 2500, 1)], 1, 0),
    # One group is over, the other code is not.
    (1, [(1, MOST + 1, 5), (2, 5, MOST)], [(1, 1000, 1), (2, 1000, 1)], 1, 10),
    (1, [(1, MOST + 1, 5), (2, 5, MOST)], [(1, 1000, 1), (2, 1000, 1)], 2, 0),
    # Quotients past 2^64, and a sum past it of two that are not: 384 modulo
    # 2^64.
    (1, [(0, EMISSIONS, 0)], [(0, 1, 1)], 0, 10),
    (1, [(0, 0, EMISSIONS)], [(0, 1, 1)], 0, 10),
    (1, [(0, PAST_BY_1000, 0)], [(0, 1, 1)], 0, 10),
    (1, [(0, 0, PAST_BY_1000)], [(0, 1, 1)], 0, 10),
    (1, [(0, PAST_BY_1000 // 2, 0), (1, PAST_BY_1000 // 2, 0)], [(1, 1, 1)],
     1, 10),
    (1, [(0, 0, PAST_BY_1000 // 2), (2, 0, PAST_BY_1000 // 2)], [(2, 1, 1)],
     2, 10),
    (1, [(1, PAST_BY_1000, 0)], [(1, 1, 1)], 1, 10),
    (1, [(0, EMISSIONS // 2, 0), (1, EMISSIONS // 2, 0)], [(1, 1, 1)], 1, 10),
    (1, [(0, EMISSIONS, 0)], [(0, 10 ** 6 - 1, 1)], 0, 10),
    # Hubs.
    (4, [(0, MOST, MOST)], [(0, 1, 0)], 0, 0),
    (4, [(0, MOST + 1, 0)], [(0, 1, 0)], 0, 10),
    (4, [(0, 0, MOST + 1)], [(0, 1, 0)], 0, 10),
    (4, [(0, 2 * MOST + 1, 0)], [(0, 2, 0)], 0, 0),
    (4, [(0, 2 * MOST + 3, 0)], [(0, 2, 0)], 0, 10),
    (4, [(0, 3 * MOST + 1, 0)], [(0, 3, 0)], 0, 0),
    (4, [(0, EMISSIONS, 0)], [(0, 1000, 0)], 0, 0),
    (4, [(0, EMISSIONS, 0)], [(0, 999, 0)], 0, 10),
    (4, [(0, MOST // 2, 0), (1, MOST // 2, 0)], [(1, 1, 0)], 1, 0),
    (4, [(0, MOST // 2, 0), (1, MOST // 2 + 1, 0)], [(1, 1, 0)], 1, 10),
    (4, [(0, 0, EMISSIONS // 2), (2, 0, EMISSIONS // 2)], [(2, 1, 0)], 2, 10),
    # Passengers: C 100, 200, 201, 100,000.
    (2, [(0, MOST, MOST)], [(100, 1, 1)], 100, 0),
    (2, [(0, MOST + 1, 0)], [(100, 1, 1)], 100, 10),
    (2, [(0, 0, MOST + 1)], [(100, 1, 1)], 100, 10),
    (2, [(0, 2 * MOST + 1, 0)], [(100, 2, 1)], 100, 0),
    (2, [(0, 2 * MOST + 3, 0)], [(100, 2, 1)], 100, 10),
    (2, [(0, 0, 201 * 10 ** 13)], [(201, 1, 1)], 100, 0),
    (2, [(0, 0, 201 * 10 ** 13 + 1)], [(201, 1, 1)], 100, 0),
    (2, [(0, 0, 201 * 10 ** 13 + 2)], [(201, 1, 1)], 100, 10),
    (2, [(0, EMISSIONS, 0)], [(1000, 1, 99)], 100, 10),
    (2, [(0, EMISSIONS, EMISSIONS)], [(100, 1, 1)], 100, 10),
    (2, [(0, PAST_BY_100, 0)], [(100, 1, 1)], 100, 10),
    (2, [(0, 0, PAST_BY_100)], [(100, 1, 1)], 100, 10),
    # Both: F, P and C are 100. The odd unit is freight's.
    (3, [(0, 2 * 10 ** 14, 0)], [(0, 100, 1), (100, 1, 1)], 0, 0),
    (3, [(0, 2 * 10 ** 14 + 1, 0)], [(0, 100, 1), (100, 1, 1)], 0, 10),
    (3, [(0, 2 * 10 ** 14 + 1, 0)], [(0, 100, 1), (100, 1, 1)], 100, 0),
    (3, [(0, 0, 2 * MOST + 1)], [(0, 100, 1), (100, 1, 1)], 100, 0),
    (3, [(0, 0, 2 * MOST + 2)], [(0, 100, 1), (100, 1, 1)], 100, 10),
)


def limits(cases):
    for kind, entries, elements, code, gives in LIMITS:
        closed_book(cases, kind, entries, elements)
        cases.intensity(1, code, gives=gives)
    cases.dump_book()


# Grounds.

def one_closed_of_each_kind(cases):
    """Categories 1 to 4 are of the kinds 1 to 4. Every freight code is there,
    and passengers."""
    cases.new_book()
    for kind in (1, 2, 3, 4):
        distance = 0 if kind == 4 else 10
        elements = ([] if kind == 2 else
                    [(code, 10 + code, distance) for code in (0, 1, 2)])
        elements += [(150, 2, 10)] if kind in (2, 3) else []
        groups = (0,) if kind == 2 else (0, 1, 2)
        category(cases, kind, [(group, 1000 + group, 2000 - group)
                               for group in groups], elements)
        cases.close(kind)


def values_of_intensity(cases):
    cases.fresh()
    for number in (0, 1, LARGEST):
        for code in (0, 100, 3):
            cases.intensity(number, code, gives=2)
    one_closed_of_each_kind(cases)
    for number in (0, 5, 6, 16, 17, *FAR):
        cases.intensity(number, 0, gives=2)
    for number in (1, 2, 3, 4):
        for code in (3, 4, 10, 98, 99, 101, 102, 150, 256, 999, 1000, 1001,
                     *FAR, 2 ** 32 + 100, 2 ** 16 + 100, 2 ** 63 + 100):
            cases.intensity(number, code, gives=3)
        # Freight codes where there is freight, 100 where there are heads.
        for code in (0, 1, 2):
            cases.intensity(number, code, gives=9 if number == 2 else 0)
        cases.intensity(number, 100, gives=9 if number in (1, 4) else 0)
    cases.dump_book()


def open_categories(cases):
    """Ground 5, with and without elements; then each is closed."""
    cases.new_book(1, 2, 3, 4)
    for number in (1, 2, 3, 4):
        for code in INTENSITY_CODES:
            cases.intensity(number, code, gives=5)
    for number, element in ((1, (0, 4, 5)), (2, (100, 4, 5)),
                            (3, (100, 4, 5)), (4, (1, 4, 0))):
        cases.post(number, 0, 1, 77, 99)
        cases.enrol(number, 1, *element)
        for code in INTENSITY_CODES:
            cases.intensity(number, code, gives=5)
        cases.close(number)
        if number < 4:
            cases.intensity(number + 1, 0, gives=5)
        cases.intensities(number)
    cases.intensity(1, 0, shows=(3850, 4950))
    cases.intensity(2, 100, shows=(4, 5))
    cases.intensity(3, 100, shows=(4, 5))
    cases.intensity(4, 1, gives=0, shows=(19, 25))
    cases.dump_book()


def without_divisor(cases):
    """Ground 9: F, S or C is 0."""
    # Kind, entries, elements and the codes that are refused.
    for kind, entries, elements, refused in (
        (1, [(0, 1, 1)], [(0, 1, 1)], (1, 2, 100)),
        (1, [(0, 1, 1), (1, 1, 1)], [(1, 1, 1)], (2, 100)),
        (1, [(2, 1, 1)], [(2, 1, 1)], (1, 100)),
        (1, [], [(1, 1, 1), (2, 1, 1)], (100,)),
        (2, [(0, 1, 1)], [(100, 1, 1)], (0, 1, 2)),
        (2, [], [(1000, 1, 1)], (0, 1, 2)),
        (3, [(0, 1, 1)], [(100, 1, 1)], (0, 1, 2)),
        (3, [(0, 1, 1)], [(0, 1, 1)], (1, 2, 100)),
        (3, [(0, 1, 1)], [(0, 1, 1), (100, 1, 1)], (1, 2)),
        # B is 0 and S is 0, with an entry of 0 for the group.
        (3, [(0, 1, 1), (1, 0, 0), (2, 0, 0)], [(0, 1, 1), (100, 1, 1)],
         (1, 2)),
        (3, [(0, 1, 1)], [(1, 1, 1), (500, 1, 1)], (2,)),
        (3, [(0, 1, 1)], [(2, 1, 1), (1, 1, 1), (500, 1, 1)], ()),
        (4, [(0, 1, 1)], [(0, 1, 0)], (1, 2, 100)),
        (4, [], [(2, 1, 0)], (1, 100)),
        # The freight part is 0, its F is not; so with passengers.
        (3, [(0, 1, 1)], [(0, 1, 1), (100, 5, 1)], (1, 2)),
        (3, [(0, 1, 1)], [(0, MASS, 1), (100, 1, 1)], (1, 2)),
    ):
        closed_book(cases, kind, entries, elements)
        # Another category has all of them.
        category(cases, 3, [], [(0, 1, 1), (1, 1, 1), (2, 1, 1), (100, 1, 1)])
        cases.quote(1, 0, 1, 1, 1, 1)
        for code in INTENSITY_CODES:
            cases.intensity(1, code, gives=9 if code in refused else 0)
    # Closed and empty, which no call makes.
    cases.new_book(1, 2, 3, 4)
    cases.post(3, 1, 1, 5, 6)
    cases.strike(1)
    for number in (1, 2, 3, 4):
        cases.poke_closed(number)
        for code in INTENSITY_CODES:
            cases.intensity(number, code, gives=9)
    cases.dump_book()


def order_of_intensity(cases):
    """Category 1 open and empty, 2 open with too large a result, 3 open, 4
    closed, 5 closed with too large a result, 6 closed and empty. No call
    makes 6: its closed word is written directly."""
    cases.new_book(3)
    category(cases, 1, [(0, EMISSIONS // 4, 0)], [(0, 1, 1)])
    category(cases, 3, [(0, 1, 1)], [(0, 1, 1), (100, 1, 1)])
    category(cases, 3, [(0, 1, 1)], [(0, 1, 1), (100, 1, 1)])
    category(cases, 1, [(0, 0, EMISSIONS // 4), (1, 0, EMISSIONS // 4)],
             [(1, 1, 1)])
    category(cases, 2, [], [])
    cases.close(4)
    cases.close(5)
    cases.poke_closed(6)
    # The grounds by category, for the codes 0, 1 and 100.
    by_category = (
        (1, {5, 9}, {5, 9}, {5, 9}), (2, {5, 10}, {5, 9}, {5, 9}),
        (3, {5}, {5, 9}, {5}), (4, set(), {9}, set()),
        (5, {10}, {10}, {9}), (6, {9}, {9}, {9}),
        (0, {2}, {2}, {2}), (7, {2}, {2}, {2}), (LARGEST, {2}, {2}, {2}),
    )
    combinations = []
    for number, *faults in by_category:
        combinations += [((number, code), faults_of_code)
                         for code, faults_of_code in zip((0, 1, 100), faults)]
        # A wrong code: it wants no F, S or C and has no result.
        combinations += [((number, code), {3} | faults[0] - {9, 10})
                         for code in (3, 99, 101, LARGEST)]
    try_in_order(cases, "intensity", combinations)
    for arguments, faults in (((2, 0), {5, 10}), ((1, 1), {5, 9})):
        in_order_with_1(cases, "intensity", arguments, faults)
    cases.dump_all()


# Entries and activities, not shares.

def other_share_words(cases):
    """Share words that were changed but whose sums are right. No closing
    gives them."""
    one_closed_of_each_kind(cases)
    shown = [cases.intensity(number, code, gives=None)
             for number in (1, 2, 3, 4) for code in INTENSITY_CODES]
    # All of a category's shares to its last element, then to its first.
    numbers = list(range(1, cases.words[ELEMENTS.count] + 1))
    for order in (numbers, numbers[::-1]):
        for one, other in zip(order, order[1:]):
            move_shares(cases, one, other)
        cases.is_sound()
        for place, answer in enumerate(shown):
            cases.intensity(place // 4 + 1, INTENSITY_CODES[place % 4],
                            gives=answer[0], shows=answer[1:])
        cases.dump_book()


def move_shares(cases, one, other):
    """Adds the shares of one element to another of the same category."""
    categories = [cases.words[word(ELEMENTS, number, "category")]
                  for number in (one, other)]
    if categories[0] != categories[1]:
        return
    for amount in AMOUNTS:
        source, target = (word(ELEMENTS, number, amount)
                          for number in (one, other))
        cases.poke(target, cases.words[target] + cases.words[source])
        cases.poke(source, 0)


def other_entry_words(cases):
    """Entries of a closed category that are of another group afterwards, or
    struck with their share taken off; the intensities follow the entries. No
    call changes them."""
    # F 100, S of group 1 is 50; A 30, B1 10.
    closed_book(cases, 1, [(0, 20, 2), (0, 10, 4), (1, 10, 6)],
                [(0, 50, 1), (1, 50, 1)])
    cases.shares_are(1, (15, 25), (3, 9))
    cases.intensity(1, 0, shows=(300, 60))
    cases.intensity(1, 1, shows=(500, 180))
    cases.poke(word(ENTRIES, 2, "group"), 1)
    cases.intensity(1, 0, shows=(200, 20))
    cases.intensity(1, 1, shows=(600, 220))
    cases.poke(word(ENTRIES, 2, "group"), 2)
    cases.intensity(1, 0, shows=(200, 20))
    cases.intensity(1, 1, shows=(400, 140))
    cases.intensity(1, 2, gives=9)
    cases.poke(word(ENTRIES, 2, "struck"), 1)
    cases.intensity(1, 0, gives=1)
    cases.poke(word(ELEMENTS, 1, "operation"), 5)
    cases.intensity(1, 0, gives=1)
    cases.poke(word(ELEMENTS, 2, "provision"), 5)
    cases.intensity(1, 0, shows=(200, 20))
    cases.intensity(1, 1, shows=(400, 140))
    cases.dump_book()


def add(cases):
    results(cases)
    limits(cases)
    values_of_intensity(cases)
    open_categories(cases)
    without_divisor(cases)
    order_of_intensity(cases)
    other_share_words(cases)
    other_entry_words(cases)
