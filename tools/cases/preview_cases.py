"""Cases of preview: what it shows of each element, lengths of the pair slice,
that the book stays the same, grounds and their order.

Where pairs are given, they are reckoned by hand: operation and provision of
each element, in the order of the elements. The closings of closing_cases.py
and weighed_cases.py that are made by close_with have their previews there.
"""

from calculation import player
from calculation.book import CATEGORIES, ELEMENTS, word
from calculation.calls import PAIR_WORDS
from cases.book_writer import EMISSIONS, FAR, FARTHEST, LARGEST
from cases.call_cases import in_order_with_1, try_in_order
from cases.closing_cases import MASS, book_of_grounds, category
from cases.line_writer import cell_arguments, single

# About the 512 words that are wanted, and the ends of the room.
SHORT = (0, 1, 2, 256, 510, 511)
LONG_ENOUGH = (512, 513, 514, 599, 600)


def unchanged(cases, number, shows=None):
    """A preview between two dumps of the whole array."""
    cases.dump_all()
    cases.preview(number, shows=shows)
    cases.dump_all()


def kept(cases, number, shows):
    """A preview, the closing that it is of, the shares, and the preview that
    is refused then."""
    cases.preview(number, shows=shows)
    cases.close(number)
    cases.dump_book()
    cases.preview(number, gives=4)


# What it shows.

def reckoned_by_hand(cases):
    # "Kind 3, A 9, freight activity 100, one head each of codes 100 and 400
    # over 1 m: 3, 1, 5."
    cases.new_book()
    category(cases, 3, [(0, 9, 0)], [(0, 100, 1), (100, 1, 1), (400, 1, 1)])
    unchanged(cases, 1, (3, 0, 1, 0, 5, 0))
    kept(cases, 1, (3, 0, 1, 0, 5, 0))
    # "A 8, B1 5, ambient 100, chilled 300: 2 and 11."
    cases.new_book()
    category(cases, 1, [(0, 8, 0), (1, 5, 0)], [(0, 100, 1), (1, 300, 1)])
    unchanged(cases, 1, (2, 0, 11, 0))
    kept(cases, 1, (2, 0, 11, 0))
    # The calls of the file that document 01 gives as an example: a quarter
    # and three quarters, and the quoted amounts.
    cases.new_book(1)
    cases.post(1, 0, 12_000_000, 3_220_000, 560_000)
    cases.enrol(1, 7, 0, 1000, 300_000)
    cases.enrol(1, 4, 0, 3000, 300_000)
    cases.quote(7, 0, 1000, 500_000, 62_000, 10_000)
    kept(cases, 1, (9_660_000_000_000, 1_680_000_000_000,
                    28_980_000_000_000, 5_040_000_000_000,
                    31_000_000_000, 5_000_000_000))


def other_elements(cases):
    """Two categories in turn, with elements of others between: quoted ones
    have their amounts, those of a closed category their shares, those of an
    open one 0."""
    cases.new_book(3, 1, 4)
    cases.post(1, 0, 1, 9, 0)
    cases.post(2, 0, 1, 8, 0)
    cases.post(2, 1, 1, 5, 0)
    cases.post(3, 0, 1, 7, 6)
    cases.enrol(1, 1, 0, 100, 1)
    cases.quote(1, 0, 1000, 1, 5, 6)
    cases.enrol(2, 1, 0, 100, 1)
    cases.enrol(1, 1, 100, 1, 1)
    cases.enrol(2, 1, 1, 300, 1)
    cases.enrol(3, 1, 0, 3, 0)
    cases.enrol(1, 1, 400, 1, 1)
    first = 3, 0, 5, 6, 0, 0, 1, 0, 0, 0, 0, 0, 5, 0
    second = 0, 0, 5, 6, 2, 0, 0, 0, 11, 0, 0, 0, 0, 0
    for _ in range(2):
        unchanged(cases, 1, first)
        unchanged(cases, 2, second)
    cases.preview(3, shows=(0, 0, 5, 6, *[0] * 6, 7, 6, 0, 0))
    kept(cases, 2, second)
    kept(cases, 1, (3, 0, 5, 6, 2, 0, 1, 0, 11, 0, 0, 0, 5, 0))
    kept(cases, 3, (3, 0, 5, 6, 2, 0, 1, 0, 11, 0, 7, 6, 5, 0))


def as_the_list_grows(cases):
    """A preview after each call that changes what would be handed out."""
    cases.new_book(3)
    cases.preview(1, gives=9)
    # Nothing is to be handed out, and nothing would be held.
    cases.enrol(1, 1, 0, 100, 1)
    cases.preview(1, shows=(0, 0))
    cases.post(1, 0, 1, 10, 4)
    cases.preview(1, shows=(10, 4))
    cases.enrol(1, 2, 100, 1, 1)
    cases.preview(1, shows=(5, 2, 5, 2))
    # 300 of freight and 100: 7.5 and 2.5, 3 and 1.
    cases.enrol(1, 3, 2, 200, 1)
    cases.preview(1, shows=(3, 1, 2, 1, 5, 2))
    cases.post(1, 2, 1, 9, 0)
    cases.preview(1, shows=(3, 1, 2, 1, 14, 2))
    # Chilled freight is missing.
    cases.post(1, 1, 1, 0, 1)
    cases.preview(1, gives=9)
    cases.strike(3)
    cases.preview(1, shows=(3, 1, 2, 1, 14, 2))
    cases.strike(1)
    cases.preview(1, shows=(0, 0, 0, 0, 9, 0))
    cases.line(1, 0, *map(single, (0.004, 0.002, 0.001)))
    # 8 over 300, 100 is 6, 2; 4 is 3, 1.
    cases.preview(1, shows=(2, 1, 2, 1, 13, 2))
    cases.quote(1, 0, 1000, 1, 7, 8)
    kept(cases, 1, (2, 1, 2, 1, 13, 2, 7, 8))


def shares_of_another_hand(cases):
    """What an element holds is what its words say: a closed category may have
    shares that no closing gives, or no elements."""
    cases.new_book(1, 1, 2)
    cases.post(1, 0, 1, 10, 10)
    cases.post(2, 0, 1, 4, 1)
    cases.enrol(1, 1, 0, 1, 1)
    cases.enrol(2, 1, 0, 1, 1)
    cases.enrol(1, 1, 0, 1, 1)
    cases.quote(1, 0, 1000, 1, 5, 6)
    cases.close(1)
    cases.poke_closed(3)
    cases.preview(2, shows=(5, 5, 4, 1, 5, 5, 5, 6))
    for number, shares in ((1, (1, 10)), (3, (9, 0)), (4, (2 ** 32, 7))):
        for amount, share in zip(("operation", "provision"), shares):
            cases.poke(word(ELEMENTS, number, amount), share)
    unchanged(cases, 2, (1, 10, 4, 1, 9, 0, 2 ** 32, 7))
    cases.preview(3, gives=4)
    kept(cases, 2, (1, 10, 4, 1, 9, 0, 2 ** 32, 7))


# Lengths of the pair slice.

def pair_lengths(cases):
    """A book with an element, without one and with 256."""
    cases.new_book(1, 4)
    cases.post(1, 0, 1, LARGEST // 2 ** 40, 1)
    for enrolled in (False, True):
        for pair_length in SHORT:
            cases.preview(1, pair_length, gives=17)
            cases.preview(2, pair_length, gives=17)
        for pair_length in LONG_ENOUGH:
            cases.preview(2, pair_length, gives=9)
            if enrolled:
                cases.preview(1, pair_length, shows=(2 ** 24 - 1, 1))
            else:
                cases.preview(1, pair_length, gives=9)
        if not enrolled:
            cases.enrol(1, 1, 0, 1, 1)
    cases.dump_book()
    # 256 elements, all equal: 255 units left over, and 128.
    cases.new_book()
    category(cases, 1, [(0, 255, 256 * 10 ** 12 + 128)], [(0, 3, 5)] * 256)
    full = ([1, 10 ** 12 + 1] * 128 + [1, 10 ** 12] * 127 + [0, 10 ** 12])
    for pair_length in (0, 511):
        cases.preview(1, pair_length, gives=17)
    for pair_length in (512, 513, 600):
        cases.preview(1, pair_length, shows=full)
    # Without the last, which is 255 of 255; its pair is 0.
    cases.poke(ELEMENTS.count, 255)
    over = 10 ** 12 + (10 ** 12 + 128) // 255
    left = (10 ** 12 + 128) % 255
    cases.preview(1, 513, shows=[1, over + 1] * left
                  + [1, over] * (255 - left))


def lent_slices(cases):
    """The length of the book comes before that of the pairs."""
    cases.new_book()
    category(cases, 4, [(0, 10, 7)], [(0, 1, 0), (1, 1, 0), (2, 1, 0)])
    shown = 4, 3, 3, 2, 3, 2
    for lent in (0, 1, 512, 2404, 2658, 2659):
        cases.lend(lent)
        for pair_length in (0, 511, 512):
            cases.preview(1, pair_length, gives=1)
    for lent in (2660, 2661, 3000):
        cases.lend(lent)
        cases.preview(1, 511, gives=17)
        cases.preview(1, shows=shown)
        cases.preview(1, 600, shows=shown)
    cases.dump_all()
    cases.lend(2660)
    kept(cases, 1, shown)
    cases.lend(player.MOST_WORDS)


def lists_beside(cases):
    """Listed weights and cells are kept."""
    cases.new_book(1)
    cases.enrol(1, 1, 0, 1, 1)
    for weight in (1, 2, 4):
        cases.cases.record(player.APPEND_WEIGHT, weight)
        cases.cases.record(player.CELL, *cell_arguments(single(weight / 1000)))
        cases.preview(1, shows=(0, 0))
        cases.preview(1, 3, gives=17)
    cases.cases.record(player.DIVIDE, 10, 3)
    cases.cases.record(player.LINE, 1, 0)
    cases.preview(1, shows=(2, 4))
    cases.cases.record(player.DIVIDE, 10, 3)


# Large books and large amounts.

def sixteen_categories(cases):
    """Each with 16 elements that are not adjacent: a preview shows those of
    its category, and those of the categories that are closed."""
    cases.new_book(*[number % 4 + 1 for number in range(16)])
    for number in range(1, 17):
        cases.post(number, 0, number, 10 ** 9 + number, 16)
    for number in range(256):
        target = number % 16 + 1
        cases.enrol(target, 1, 100 + number if target % 4 in (2, 3) else 0,
                    1 + number, 0 if target % 4 == 0 else 2)
    for number in (1, 16, 7, 10):
        cases.preview(number)
    for number in (8, 2, 3):
        cases.preview(number)
        cases.close(number)
    cases.preview(1)
    cases.preview(17, gives=2)
    cases.dump_all()


def large_amounts(cases):
    """10^18 to one, and nearly to one of two; all of it handed out before."""
    cases.new_book()
    category(cases, 1, [(0, EMISSIONS, EMISSIONS - 1)],
             [(0, MASS, FARTHEST), (0, 1, 1)])
    # 10^18 over 4 × 10^16 and 1: 25 less a little, so 24 and the unit left.
    shown = EMISSIONS - 25, EMISSIONS - 26, 25, 25
    unchanged(cases, 1, shown)
    kept(cases, 1, shown)
    category(cases, 2, [], [(100, 1, 1)])
    cases.preview(2, shows=(*shown, 0, 0))
    cases.post(2, 0, 1, 0, 1)
    kept(cases, 2, (*shown, 0, 1))
    # For one group, and quoted.
    cases.new_book(3)
    cases.quote(1, 0, MASS, FARTHEST, 9000, 10)
    quoted = 36 * 10 ** 16, 4 * 10 ** 14
    cases.enrol(1, 1, 2, 1, 1)
    cases.enrol(1, 1, 100, 1, 1)
    cases.post_amounts(1, 2, EMISSIONS - quoted[0], EMISSIONS - quoted[1])
    kept(cases, 1, (*quoted, EMISSIONS - quoted[0], EMISSIONS - quoted[1],
                    0, 0))


# Grounds.

def values_of_preview(cases):
    cases.fresh()
    for number in (0, 1, LARGEST):
        cases.preview(number, gives=2)
    for kind, element in ((1, (0, 1, 1)), (2, (100, 1, 1)), (3, (100, 1, 1)),
                          (4, (0, 1, 0))):
        category(cases, kind, [(0, 5, 6)], [element])
    for number in (0, 5, 16, 17, *FAR):
        cases.preview(number, gives=2)
    cases.preview(4, shows=(0, 0, 0, 0, 0, 0, 5, 6))
    cases.preview(1, shows=(5, 6))
    cases.dump_book()


def without_weight(cases):
    """Ground 9: F+P is 0, or a B above 0 whose S is 0."""
    cases.new_book(1, 2, 3, 4)
    cases.quote(1, 0, 1, 1, 500, 500)
    for number in (1, 2, 3, 4):
        cases.preview(number, gives=9)
        cases.post(number, 0, 1, 5, 6)
        cases.preview(number, gives=9)
    cases.dump_book()
    for kind in (1, 3, 4):
        distance = 0 if kind == 4 else 1
        for group, other in ((1, 2), (2, 1)):
            for operation, provision in ((1, 0), (0, 1)):
                # Ambient freight and the other group are there; so is the
                # group in another category.
                cases.new_book()
                category(cases, kind, [(group, operation, provision)],
                         [(0, 1, distance), (other, 1, distance)])
                category(cases, 1, [], [(group, 1, 1)])
                cases.preview(1, gives=9)
                cases.enrol(1, 1, group, 2, distance)
                cases.preview(1, shows=(0, 0, 0, 0, 0, 0, operation,
                                        provision))
    # A group without elements whose entries come to 0, or are struck.
    cases.new_book()
    category(cases, 1, [(0, 4, 5), (1, 0, 0), (2, 0, 7)], [(0, 3, 1)])
    cases.preview(1, gives=9)
    cases.strike(3)
    kept(cases, 1, (4, 5))


def order_of_preview(cases):
    """Beside the categories of closings one that could be closed."""
    grounds = {**book_of_grounds(cases), 6: set(), 0: {2}, 7: {2},
               LARGEST: {2}}
    category(cases, 1, [(0, 1, 1)], [(1, 1, 1)])
    try_in_order(cases, "preview", [
        ((number, pair_length), {*faults, *short})
        for number, faults in grounds.items()
        for pair_length, short in ((PAIR_WORDS, ()), (PAIR_WORDS - 1, (17,)),
                                   (0, (17,)))])
    for number in (4, 5):
        in_order_with_1(cases, "preview", (number, 0),
                        {17, *grounds[number]})
    cases.dump_all()


def damaged_after_a_preview(cases):
    """An accepted preview is no promise: each looks at the words that there
    are then."""
    cases.new_book(3)
    cases.post(1, 0, 1, 9, 4)
    cases.enrol(1, 1, 0, 50, 1)
    cases.enrol(1, 1, 500, 1, 1, 50)
    shown = 5, 2, 4, 2
    for index, value in (
        (0, 0), (1, 0), (CATEGORIES.start, 1), (CATEGORIES.start + 1, 1),
        (word(ELEMENTS, 1, "operation"), 1),
        (word(ELEMENTS, 2, "provision"), LARGEST),
        (word(ELEMENTS, 2, "kg_per_head"), 301),
        (word(ELEMENTS, 2, "activity"), 499),
    ):
        cases.preview(1, shows=shown)
        value_before = cases.words[index]
        cases.poke(index, value)
        for pair_length in (0, 511, 512):
            cases.preview(1, pair_length, gives=1)
        cases.poke(index, value_before)
    # Other words that are sound: 50 kg become 1 kg, and 9 is 8.8 and 0.2.
    cases.poke(word(ELEMENTS, 2, "kg_per_head"), 1)
    cases.preview(1, shows=(9, 4, 0, 0))
    cases.poke(word(ELEMENTS, 2, "kg_per_head"), 50)
    unchanged(cases, 1, shown)
    kept(cases, 1, shown)


def add(cases):
    reckoned_by_hand(cases)
    other_elements(cases)
    as_the_list_grows(cases)
    shares_of_another_hand(cases)
    pair_lengths(cases)
    lent_slices(cases)
    lists_beside(cases)
    sixteen_categories(cases)
    large_amounts(cases)
    values_of_preview(cases)
    without_weight(cases)
    order_of_preview(cases)
    damaged_after_a_preview(cases)
