"""Cases of close: what is divided, ties, limits, grounds and their order.

Where the shares are given, they are reckoned by hand.
"""

from calculation import book, player
from calculation.book import CATEGORIES, ELEMENTS, ENTRIES, word
from cases.book_writer import EMISSIONS, FAR, FARTHEST, LARGEST
from cases.call_cases import in_order_with_1, try_in_order

MASS = 10 ** 9   # the largest mass
HEADS = 10 ** 6  # the most heads


def category(cases, kind, entries, elements):
    """A new category: its number. Entries are group, operation, provision in
    µg; elements are code, amount, distance."""
    number = cases.open(kind)[1]
    for entry in entries:
        cases.post_amounts(number, *entry)
    for chain, element in enumerate(elements, 1):
        cases.enrol(number, chain, *element)
    return number


def closed(cases, kind, entries, elements, operation, provision):
    """A new category that is closed with these shares: its number."""
    number = category(cases, kind, entries, elements)
    close_with(cases, number, operation, provision)
    return number


def close_with(cases, number, operation, provision):
    """Closes a category with these shares, after a preview that shows
    them."""
    cases.preview_shares(number, operation, provision)
    cases.close(number)
    cases.shares_are(number, operation, provision)


# What is divided.

def mixed(cases):
    cases.new_book()
    # F 500, P 500, C 1050; 50 over 300, 750 is 14.3, 35.7 and 20 is 5.7,
    # 14.3.
    number = closed(
        cases, 3, [(0, 100, 40), (1, 7, 0), (2, 0, 9)],
        [(0, 3, 100), (1, 2, 50), (2, 1, 100), (150, 2, 1), (250, 3, 1)],
        (30, 17, 10, 14, 36), (12, 4, 13, 6, 14))
    cases.intensity(number, 0, shows=(100, 40))
    cases.intensity(number, 1, shows=(170, 40))
    cases.intensity(number, 2, shows=(100, 130))
    cases.intensity(number, 100, shows=(5, 2))
    # The class counts among passengers and not against freight: F 100, P
    # 100, C 1000.
    closed(cases, 3, [(0, 10, 11)], [(1000, 1, 1), (0, 100, 1)],
           (5, 5), (5, 6))
    # Both groups and nothing for all; ambient freight gets nothing.
    closed(cases, 1, [(1, 10, 20), (2, 30, 40)],
           [(0, 9, 9), (1, 2, 5), (2, 5, 2), (0, 1, 1)],
           (0, 10, 30, 0), (0, 20, 40, 0))
    # Several entries of one group: B1 is 9 and 6, A 6 and 4; F 3, P 300.
    closed(cases, 3, [(1, 4, 1), (0, 6, 0), (1, 5, 2), (0, 0, 4), (1, 0, 3)],
           [(1, 1, 2), (1, 1, 1), (100, 1, 3)], (6, 3, 6), (4, 2, 4))
    # Freight alone and passengers alone in a category for both.
    closed(cases, 3, [(0, 7, 8)], [(0, 1, 1), (2, 1, 3)], (2, 5), (2, 6))
    closed(cases, 3, [(0, 7, 8)], [(100, 1, 1), (300, 1, 1)], (2, 5), (2, 6))
    # Passengers of one class: by heads and by distance.
    closed(cases, 2, [(0, 12, 24)], [(250, 1, 2), (250, 2, 2), (250, 6, 1)],
           (2, 4, 6), (4, 8, 12))
    # One element gets everything.
    for kind, element in ((1, (2, 5, 6)), (2, (999, 5, 6)), (3, (0, 5, 6)),
                          (3, (101, 5, 6)), (4, (1, 5, 0))):
        closed(cases, kind, [(0, 1001, 998)], [element], (1001,), (998,))
    cases.dump_all()


def hubs(cases):
    """F is a sum of masses; the distance is 0."""
    cases.new_book()
    # 10 over 1, 1, 2, 4 leaves one unit, to the 2; 5 over 1, 2 is 2, 3.
    number = closed(
        cases, 4, [(0, 10, 7), (1, 5, 0), (2, 0, 3)],
        [(0, 1, 0), (1, 1, 0), (1, 2, 0), (2, 4, 0)],
        (1, 3, 6, 5), (1, 1, 2, 6))
    cases.intensity(number, 0, shows=(1, 1))
    cases.intensity(number, 1, shows=(3, 1))
    cases.intensity(number, 2, shows=(1, 2))
    cases.intensity(number, 100, gives=9)
    closed(cases, 4, [(0, 9, 1)], [(0, MASS, 0), (2, MASS, 0), (1, 1, 0)],
           (5, 4, 0), (1, 0, 0))
    closed(cases, 4, [(2, EMISSIONS // 2, 0), (0, 0, 1)],
           [(2, MASS, 0), (2, MASS, 0)],
           (EMISSIONS // 4, EMISSIONS // 4), (1, 0))
    cases.dump_all()


def ties(cases):
    """Equal remainders: the earlier place first."""
    cases.new_book()
    closed(cases, 1, [(0, 10, 2)], [(0, 1, 1)] * 3, (4, 3, 3), (1, 1, 0))
    closed(cases, 1, [(0, 2, 5)], [(0, 7, 1)] * 4, (1, 1, 0, 0),
           (2, 1, 1, 1))
    closed(cases, 2, [(0, 10, 1)], [(100, 3, 5)] * 3, (4, 3, 3), (1, 0, 0))
    # Unlike passengers of the same activity.
    closed(cases, 2, [(0, 5, 4)], [(100, 2, 3), (300, 1, 2), (600, 1, 1)],
           (2, 2, 1), (2, 1, 1))
    # Unlike weights with equal remainders: 4 over 1, 6, 3 and over 6, 1, 3.
    closed(cases, 1, [(0, 4, 2)], [(0, 1, 1), (1, 2, 3), (2, 3, 1)],
           (1, 2, 1), (0, 1, 1))
    closed(cases, 1, [(0, 4, 2)], [(0, 6, 1), (1, 1, 1), (2, 1, 3)],
           (3, 0, 1), (1, 0, 1))
    closed(cases, 2, [(0, 4, 2)], [(600, 1, 1), (100, 1, 1), (300, 1, 1)],
           (3, 0, 1), (1, 0, 1))
    # In the groups, with others before and between.
    closed(cases, 1, [(1, 3, 1), (2, 4, 2)],
           [(0, 1, 1), (2, 2, 1), (1, 5, 1), (2, 2, 1), (1, 5, 1), (2, 1, 2)],
           (0, 2, 2, 1, 1, 1), (0, 1, 1, 1, 0, 0))
    # The units left over of the parts can meet in one element.
    closed(cases, 1, [(0, 1, 3), (1, 1, 3)], [(1, 4, 1), (1, 4, 1)],
           (2, 0), (4, 2))
    cases.dump_all()
    # Between F and P, whichever is enrolled first.
    cases.new_book()
    closed(cases, 3, [(0, 1, 3)], [(0, 100, 1), (100, 1, 1)], (1, 0), (2, 1))
    closed(cases, 3, [(0, 1, 3)], [(100, 1, 1), (0, 100, 1)], (0, 1), (1, 2))
    closed(cases, 3, [(0, 1, 3)], [(1000, 1, 1), (0, 100, 1)], (0, 1), (1, 2))
    # F 50, P 100: the larger remainder first; then F 200, P 100.
    closed(cases, 3, [(0, 1, 2)], [(0, 50, 1), (100, 1, 1)], (0, 1), (1, 1))
    closed(cases, 3, [(0, 1, 2)], [(100, 1, 1), (0, 200, 1)], (0, 1), (1, 1))
    # F 300, P 100 and an A of 2: 1.5 and 0.5.
    closed(cases, 3, [(0, 2, 6)], [(100, 1, 1), (0, 300, 1)], (0, 2), (1, 5))
    # A tie between F and P, then ties in both parts.
    closed(cases, 3, [(0, 7, 9)],
           [(100, 1, 1), (0, 100, 1), (100, 1, 1), (0, 100, 1), (100, 1, 1),
            (0, 100, 1)],
           (1, 2, 1, 1, 1, 1), (2, 2, 1, 2, 1, 1))
    cases.dump_all()


def far_from_exact(cases):
    """A share that is more than 2 from the exact one."""
    cases.new_book()
    # F, P and S are 3200. Of A 3 freight gets 2 by a tie; of these and of B1
    # 2 the first element has 1.0625 and gets the unit left over by a tie. Its
    # exact share is 3 × 1700 / 6400 + 2 × 1700 / 3200, or 1.86.
    closed(cases, 3, [(0, 3, 3), (1, 2, 2)],
           [(1, 1700, 1)] + [(1, 100, 1)] * 15 + [(100, 32, 1)],
           (4,) + (0,) * 15 + (1,), (4,) + (0,) * 15 + (1,))
    cases.dump_all()


def nothing_to_hand_out(cases):
    """The pools are 0; the closed word is written all the same."""
    cases.new_book()
    for kind, elements in ((1, [(0, 1, 1), (1, 1, 1)]), (2, [(100, 1, 1)]),
                           (3, [(2, 1, 1), (500, 1, 1)]), (4, [(0, 1, 0)])):
        zeros = [0] * len(elements)
        number = closed(cases, kind, [], elements, zeros, zeros)
        cases.intensities(number)
    closed(cases, 3, [(0, 0, 0), (0, 0, 0)], [(0, 1, 1), (100, 1, 1)],
           (0, 0), (0, 0))
    # Operation alone, provision alone.
    closed(cases, 3, [(0, 3, 0), (1, 2, 0)], [(1, 100, 1), (100, 1, 1)],
           (4, 1), (0, 0))
    closed(cases, 3, [(0, 0, 3), (1, 0, 2)], [(1, 100, 1), (100, 1, 1)],
           (0, 0), (4, 1))
    # The passenger part alone is 0, the freight part alone is 0.
    closed(cases, 3, [(0, 1, 4)], [(100, 1, 1), (0, MASS, 1)], (0, 1), (0, 4))
    closed(cases, 3, [(0, 1, 4)], [(0, 1, 1), (100, HEADS, 1)],
           (0, 1), (0, 4))
    cases.dump_all()


def struck_entries(cases):
    cases.new_book()
    # Struck ones of every group are left out.
    number = category(
        cases, 3, [(0, 50, 0), (0, 9, 8), (1, 3, 3), (1, 4, 5), (2, 6, 7)],
        [(0, 100, 1), (1, 100, 1), (2, 100, 1), (100, 1, 1)])
    for entry in (1, 3, 5):
        cases.strike(entry)
    close_with(cases, number, (3, 6, 2, 2), (2, 7, 2, 2))
    cases.intensities(number)
    # All are struck.
    number = category(cases, 1, [(0, 50, 1), (1, 3, 3)], [(0, 1, 1)])
    for entry in (6, 7):
        cases.strike(entry)
    close_with(cases, number, (0,), (0,))
    cases.intensity(number, 0, shows=(0, 0))
    # Group 0 is struck, the groups are not; and the other way round.
    number = category(cases, 4, [(0, 50, 1), (1, 3, 4)],
                      [(0, 2, 0), (1, 2, 0)])
    cases.strike(8)
    close_with(cases, number, (0, 3), (0, 4))
    number = category(cases, 4, [(0, 50, 1), (1, 3, 4)],
                      [(0, 2, 0), (1, 2, 0)])
    cases.strike(11)
    close_with(cases, number, (25, 25), (1, 0))
    cases.intensities(number)
    cases.dump_all()


def small_weights(cases):
    """A weight so small that it gets 0, or the unit left over."""
    cases.new_book()
    closed(cases, 1, [(0, 10, MASS)], [(0, 1, 1), (0, MASS, FARTHEST)],
           (0, 10), (0, MASS))
    closed(cases, 4, [(0, 9, 9 * MASS)], [(0, MASS, 0), (0, 1, 0)],
           (9, 0), (9 * MASS - 9, 9))
    closed(cases, 2, [(0, 3, HEADS // 2)],
           [(1000, HEADS, 1), (100, 1, 1), (100, 5, 1)],
           (3, 0, 0), (HEADS // 2, 0, 0))
    # 10^18 over 4 × 10^16 and 1: 25 less a little, so 24 and the unit left.
    cases.new_book()
    closed(cases, 1, [(0, EMISSIONS, EMISSIONS - 1)],
           [(0, MASS, FARTHEST), (0, 1, 1)],
           (EMISSIONS - 25, 25), (EMISSIONS - 26, 25))
    cases.dump_all()


def interleaved(cases):
    """Members that are not adjacent, with quotes between."""
    cases.new_book(1, 3, 1, 4)
    for number in range(1, 5):
        cases.post(number, 0, number, 100, 10)
        cases.post(number, 1, 1, 7, number)
    for number in range(24):
        cases.enrol(1, 1, number % 2, 1 + number, 2)
        if number % 3 == 0:
            cases.quote(1, 0, 1000, 1 + number, 1, 2)
        cases.enrol(2, 1, number % 2, 50, 1)
        cases.enrol(2, 2, 100 + number, 1, 1)
        if number % 4 == 1:
            cases.enrol(3, 3, 1, 1, 1)
        if number % 5 == 0:
            cases.enrol(4, 4, number % 2, 1 + number, 0)
    for number in (2, 4, 1, 3):
        cases.preview(number)
        cases.close(number)
        cases.intensities(number)
        cases.dump_book()
    for number in range(1, 5):
        cases.close(number, gives=4)
    cases.dump_all()


# Limits.

def largest_pools(cases):
    """10^18 in operation, in provision, in both; F+P of 10^17."""
    freight = [(0, MASS, FARTHEST), (1, MASS, FARTHEST)]
    passengers = [(1000, HEADS, FARTHEST)] * 4 + [(999, HEADS, FARTHEST)]
    # F is 8 × 10^16, P 2 × 10^16.
    for operation, provision in ((EMISSIONS, 0), (0, EMISSIONS),
                                 (EMISSIONS, EMISSIONS),
                                 (EMISSIONS - 1, EMISSIONS - 7)):
        cases.new_book()
        number = category(cases, 3, [(0, operation, provision)],
                          freight + passengers)
        cases.enrol(number, 1, 0, 1, 1, gives=10)
        cases.preview(number)
        cases.close(number)
        cases.intensities(number)
        cases.dump_all()
    # For the chilled alone: 4 × 10^16 and 1.
    cases.new_book()
    number = closed(cases, 3, [(1, EMISSIONS, EMISSIONS - 1)],
                    [(1, 1, 1), (0, 1, 1), (1, MASS, FARTHEST), (100, 1, 1)],
                    (25, 0, EMISSIONS - 25, 0), (25, 0, EMISSIONS - 26, 0))
    cases.intensities(number)
    # A and both B, 10^18 together.
    part = EMISSIONS // 4
    cases.new_book()
    number = category(
        cases, 1, [(0, 2 * part, part), (1, part, 2 * part), (2, part, part)],
        [(code, MASS - number, FARTHEST // 8 - number)
         for number, code in enumerate((0, 1, 2, 2, 1, 0, 1, 2))])
    cases.preview(number)
    cases.close(number)
    cases.intensities(number)
    cases.dump_all()


def most_activity_of_passengers(cases):
    """P is 10^17 and C 10^18: 25 times 10^6 heads of the largest class over
    40,000 km. The dividing rule takes weights of that sum."""
    heads = [(1000, HEADS, FARTHEST)] * 25
    each = EMISSIONS // 25
    for kind in (2, 3):
        cases.new_book()
        number = closed(cases, kind, [(0, EMISSIONS, EMISSIONS - 1)], heads,
                        [each] * 25, [each] * 24 + [each - 1])
        cases.intensity(number, 100, shows=(100, 100))
        cases.intensity(number, 0, gives=9)
        cases.dump_all()
    # Unlike classes; C is below 10^18.
    cases.new_book()
    number = category(cases, 2, [(0, EMISSIONS, EMISSIONS - 3)],
                      [(1000 - 37 * place, HEADS, FARTHEST)
                       for place in range(24)]
                      + [(1000, HEADS - 1, FARTHEST), (100, 1, 1)])
    cases.preview(number)
    cases.close(number)
    cases.intensities(number)
    cases.dump_all()


def many_elements(cases):
    """256 elements in one category."""
    # All equal: 255 units left over, and 128.
    cases.new_book()
    closed(cases, 1, [(0, 255, 256 * 10 ** 12 + 128)], [(0, 3, 5)] * 256,
           [1] * 255 + [0], [10 ** 12 + 1] * 128 + [10 ** 12] * 128)
    cases.intensity(1, 0)
    cases.dump_all()
    # Mixed, in no order.
    cases.new_book()
    category(cases, 3,
             [(0, 10 ** 15 + 37, 10 ** 14 + 1), (1, 10 ** 13 + 11, 999),
              (2, 77, 10 ** 16 + 7)],
             [(number % 3 if number * 7 % 5 < 3 else 100 + number * 3,
               1 + number * 37 % 101, 1 + number * 53 % 997)
              for number in range(256)])
    cases.preview(1)
    cases.close(1)
    cases.intensities(1)
    cases.dump_all()
    # A hub; nearly equal weights.
    cases.new_book()
    category(cases, 4, [(0, EMISSIONS - 10 ** 9, 300), (2, 10 ** 9, 171)],
             [(number % 3, MASS - number % 7, 0) for number in range(256)])
    cases.preview(1)
    cases.close(1)
    cases.intensities(1)
    cases.dump_all()


def every_category(cases):
    """16 categories, closed one after another from both ends."""
    cases.new_book(*[number % 4 + 1 for number in range(16)])
    for number in range(64):
        target = number % 16 + 1
        group = 0 if target % 4 == 2 else number // 16 % 3
        cases.post(target, group, 1 + number, 10 ** 6 + number, 7 * number)
        if number % 11 == 0:
            cases.strike(number + 1)
    for number in range(238):
        target, round_ = number % 17, number // 17
        passengers = target % 4 == 2 or target % 4 == 3 and round_ % 4 == 3
        if target == 0:
            cases.quote(1 + number, 0, 500, 1 + number, 3, 1)
        else:
            cases.enrol(target, 1 + number,
                        100 + number if passengers else round_ % 3,
                        1 + number % 29,
                        0 if target % 4 == 0 else 1 + number % 31)
    for low in range(1, 9):
        for target in (low, 17 - low):
            cases.preview(target)
            cases.close(target)
            cases.intensities(target)
    cases.dump_all()
    for target in range(1, 17):
        cases.close(target, gives=4)
        cases.post(target, 0, 0, 0, 0, gives=4)
    cases.enrol(16, 1, 0, 1, 0, gives=4)
    cases.open(1, gives=8)
    cases.strike(64, gives=4)
    cases.quote(1, 0, 1, 1, 1, 1)
    cases.dump_all()


# Grounds.

def values_of_close(cases):
    cases.fresh()
    for number in (0, 1, LARGEST):
        cases.close(number, gives=2)
    for kind, element in ((1, (0, 1, 1)), (2, (100, 1, 1)), (3, (100, 1, 1)),
                          (4, (0, 1, 0))):
        category(cases, kind, [(0, 5, 6)], [element])
    for number in (0, 5, 6, 15, 16, 17, *FAR):
        cases.close(number, gives=2)
    # The last number and the first.
    for number in (4, 1):
        cases.close(number)
        cases.close(number, gives=4)
    cases.close(5, gives=2)
    cases.dump_all()
    # All 16.
    cases.new_book(*[1] * 16)
    cases.enrol(16, 1, 0, 1, 1)
    for number in (0, 17, 18, LARGEST):
        cases.close(number, gives=2)
    cases.close(16)
    cases.close(15, gives=9)
    cases.dump_all()


def unsound_and_short(cases):
    """Ground 1: nothing is written, and what is put right is accepted."""
    cases.new_book()
    category(cases, 3, [(0, 9, 8), (1, 7, 6)], [(0, 1, 1), (1, 1, 1)])
    category(cases, 1, [(0, 5, 4)], [(0, 1, 1), (0, 1, 1)])
    cases.close(2)
    # Group 0: 9 is 5, 4 and 8 is 4, 4; group 1 goes to the second.
    shown = 5, 4, 11, 10, 3, 2, 2, 2
    cases.preview(1, shows=shown)
    share = word(ELEMENTS, 3, "operation")
    for index, value in (
        (0, 0), (0, LARGEST), (1, 17), (2, 65), (3, 257), (1, 1), (3, 5),
        (4, 5), (5, 2), (7, 0), (word(ENTRIES, 1, "struck"), 2),
        (word(ENTRIES, 2, "group"), 3), (word(ENTRIES, 3, "category"), 1),
        (word(ELEMENTS, 1, "activity"), 2),
        (word(ELEMENTS, 1, "operation"), 1),
        (word(ELEMENTS, 2, "provision"), LARGEST),
        (share, cases.words[share] + 1), (share, cases.words[share] - 1),
    ):
        value_before = cases.words[index]
        cases.poke(index, value)
        for number in (1, 2, 0):
            cases.close(number, gives=1)
            cases.preview(number, 0, gives=1)
        cases.preview(1, gives=1)
        cases.intensity(2, 0, gives=1)
        cases.poke(index, value_before)
    for lent in (0, 1, 36, 356, 2404, 2659):
        cases.lend(lent)
        cases.close(1, gives=1)
        for pair_length in (0, 511, 512, 600):
            cases.preview(1, pair_length, gives=1)
        cases.intensity(2, 0, gives=1)
    cases.dump_book()
    # Exactly the book is lent.
    cases.lend(book.LENGTH)
    cases.preview(1, shows=shown)
    cases.close(1)
    cases.intensity(1, 1)
    cases.dump_all()
    cases.lend(player.MOST_WORDS)


def uncounted_records(cases):
    """Records that are not counted may look like the category's own; neither
    they nor the words after the book are read or written."""
    cases.new_book()
    category(cases, 1, [(0, 10, 7), (1, 5, 5)], [(0, 1, 1), (1, 2, 1)])
    for number in (3, 4, 64):
        cases.poke_record(ENTRIES, number, (1, number % 3, 1000, 1000, 0))
    for number in (3, 4, 256):
        cases.poke_record(ELEMENTS, number, (1, 1, 1, 9, 1, 9, 3, 4, 0))
    cases.poke_record(CATEGORIES, 2, (2, 1))
    for index in range(book.LENGTH, book.LENGTH + 10):
        cases.poke(index, index)
    cases.close(2, gives=2)
    cases.preview(2, gives=2)
    cases.preview(1, 600, shows=(3, 2, 12, 10))
    cases.close(1)
    cases.shares_are(1, (3, 12), (2, 10))
    cases.intensity(1, 1, shows=(3333 + 2500, 2333 + 2500))
    cases.dump_all()


def without_weight(cases):
    """Ground 9: F+P is 0, whether or not there is anything to hand out."""
    cases.new_book(1, 2, 3, 4)
    for number in (1, 2, 3, 4):
        cases.close(number, gives=9)
    # Entries without elements; quotes are of no category.
    cases.quote(1, 0, 1, 1, 500, 500)
    for number in (1, 2, 3, 4):
        cases.post(number, 0, 1, 5, 6)
        cases.close(number, gives=9)
        cases.strike(number)
        cases.close(number, gives=9)
        cases.post(number, 0, 0, 5, 6)
        cases.close(number, gives=9)
    cases.dump_all()
    # One element each, and they can be closed.
    for number, element in ((1, (0, 1, 1)), (2, (100, 1, 1)),
                            (3, (100, 1, 1)), (4, (2, 1, 0))):
        cases.enrol(number, 1, *element)
        cases.close(number)
        if number < 4:
            cases.close(number + 1, gives=9)
    cases.dump_all()


def without_group(cases):
    """Ground 9: a B above 0 whose S is 0."""
    others = {1: 2, 2: 1}
    for kind in (1, 3, 4):
        distance = 0 if kind == 4 else 1
        for group in (1, 2):
            for amounts in ((1, 0), (0, 1), (1, 1)):
                # Ambient freight and the other group are there; so is the
                # group in another category.
                cases.new_book()
                number = category(
                    cases, kind, [(0, 9, 9), (group, *amounts)],
                    [(0, 1, distance), (others[group], 1, distance)])
                if kind == 3:
                    cases.enrol(number, 1, 100, 1, 1)
                category(cases, 1, [], [(group, 1, 1)])
                cases.close(number, gives=9)
                if amounts == (1, 1):
                    cases.dump_book()
                    cases.strike(2)
                else:
                    cases.enrol(number, 1, group, 2, distance)
                cases.close(number)
                cases.dump_book()
    # Passengers alone, and a group.
    cases.new_book()
    number = category(cases, 3, [(0, 9, 9), (2, 0, 1)], [(100, 1, 1)])
    cases.close(number, gives=9)
    cases.strike(2)
    cases.close(number)
    # The largest B, and one of two that is missing.
    cases.new_book()
    number = category(cases, 1, [(1, EMISSIONS, 0), (2, 0, EMISSIONS)],
                      [(1, 1, 1)])
    cases.close(number, gives=9)
    cases.enrol(number, 1, 2, 1, 1)
    cases.close(number)
    cases.dump_book()


def not_hindered(cases):
    """A group without elements whose entries come to 0, or are struck."""
    cases.new_book()
    for kind, elements in ((1, [(0, 3, 1)]), (3, [(100, 3, 1)]),
                           (4, [(0, 3, 0)])):
        closed(cases, kind, [(0, 4, 5), (1, 0, 0), (2, 0, 0)], elements,
               (4,), (5,))
    number = category(cases, 1, [(0, 4, 5), (1, 6, 0), (2, 0, 7), (1, 0, 0)],
                      [(0, 3, 1)])
    first = cases.words[ENTRIES.count] - 3
    cases.strike(first + 1)
    cases.close(number, gives=9)
    cases.strike(first + 2)
    close_with(cases, number, (4,), (5,))
    cases.dump_all()


def book_of_grounds(cases):
    """The grounds that the categories of a new book bring: 1 is open and
    empty, 2 open without its group's elements, 3 closed, 4 closed and empty,
    5 closed without its group's elements. No call makes 4 and 5: a closed
    word and the shares are written directly."""
    cases.new_book(1)
    category(cases, 3, [(0, 1, 1), (1, 0, 1)], [(0, 1, 1), (100, 1, 1)])
    closed(cases, 1, [(0, 3, 4)], [(0, 1, 1)], (3,), (4,))
    category(cases, 2, [], [])
    cases.poke_closed(4)
    category(cases, 3, [(2, 6, 0)], [(1, 1, 1)])
    cases.poke(word(ELEMENTS, 4, "operation"), 6)
    cases.poke_closed(5)
    return {1: {9}, 2: {9}, 3: {4}, 4: {4, 9}, 5: {4, 9}}


def order_of_close(cases):
    grounds = {**book_of_grounds(cases), 0: {2}, 6: {2}, LARGEST: {2}}
    try_in_order(cases, "close", [((number,), faults)
                                  for number, faults in grounds.items()])
    for number in (4, 5):
        in_order_with_1(cases, "close", (number,), grounds[number])
    cases.dump_all()


def after_closing(cases):
    """A closed category is refused with 4; the rest of the book goes on."""
    cases.new_book()
    number = closed(cases, 3, [(0, 9, 8), (1, 5, 0), (0, 3, 3)],
                    [(0, 50, 1), (1, 50, 1), (100, 1, 1)],
                    (3, 8, 6), (3, 3, 5))
    other = category(cases, 4, [(0, 7, 7)], [(0, 1, 0)])
    shown = [cases.intensity(number, code, gives=None)
             for code in (0, 1, 2, 100)]
    for _ in range(2):
        cases.post(number, 0, 0, 0, 0, gives=4)
        cases.post(number, 2, 1, 1, 1, gives=4)
        cases.enrol(number, 1, 0, 1, 1, gives=4)
        cases.enrol(number, 1, 1000, 1, 1, gives=4)
        for entry in (1, 2, 3):
            cases.strike(entry, gives=4)
        cases.close(number, gives=4)
        # Elsewhere there is room.
        cases.post(other, 1, 1, 2, 3)
        cases.enrol(other, 1, 1, 5, 0)
        cases.quote(1, 0, 1000, 1, 5, 6)
        cases.open(3)
        cases.dump_book()
    cases.strike(4)
    cases.close(other)
    for code, numbers in zip((0, 1, 2, 100), shown):
        cases.intensity(number, code, gives=numbers[0], shows=numbers[1:])
    cases.dump_all()


def add(cases):
    mixed(cases)
    hubs(cases)
    ties(cases)
    far_from_exact(cases)
    nothing_to_hand_out(cases)
    struck_entries(cases)
    small_weights(cases)
    interleaved(cases)
    largest_pools(cases)
    most_activity_of_passengers(cases)
    many_elements(cases)
    every_category(cases)
    values_of_close(cases)
    unsound_and_short(cases)
    uncounted_records(cases)
    without_weight(cases)
    without_group(cases)
    not_hindered(cases)
    order_of_close(cases)
    after_closing(cases)
