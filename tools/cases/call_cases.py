"""Cases of each call: values, measures, full lists, grounds and limits.

Each call says which refusal number it gives, so that a case tests what it
is meant to test.
"""

from calculation import book, calls, player
from calculation.book import CATEGORIES, ELEMENTS, ENTRIES
from calculation.second_way import in_checking_order, number_of
from cases.book_writer import FAR, FARTHEST, LARGEST, count
from cases.line_writer import bits, single


# Before fresh, and the lent slice.

def before_fresh(cases):
    """An array of zeros is no sound book."""
    cases.open(1, gives=1)
    cases.post(1, 0, 1, 1, 1, gives=1)
    cases.line(1, 0, *[single(1.0)] * 3, gives=1)
    cases.strike(1, gives=1)
    cases.enrol(1, 1, 0, 1, 1, gives=1)
    cases.quote(1, 0, 1, 1, 1, 1, gives=1)
    cases.close(1, gives=1)
    cases.preview(1, gives=1)
    cases.statement(1, gives=1)
    cases.intensity(1, 0, gives=1)
    cases.poke(0, book.MARK)
    cases.is_sound()
    cases.poke(0, 0)
    cases.fresh()
    cases.dump_all()
    cases.is_sound()


def dumps(cases):
    """Dumps of nothing, of one word and at the end of the array."""
    cases.poke(2999, LARGEST)
    cases.poke(2660, 5)
    for first, count in ((0, 0), (0, 1), (3000, 0), (2999, 0), (2999, 1),
                         (2998, 2), (2659, 2), (1, 3)):
        cases.dump(first, count)
    # The dump is of the array, whatever is lent.
    cases.lend(0)
    cases.dump(0, 4)
    cases.dump(2660, 340)
    cases.lend(player.MOST_WORDS)


def lent_slices(cases):
    for index in (2660, 2661, 2668, 2999):
        cases.poke(index, LARGEST - index)
    for lent in (0, 1, 4, 36, 356, 2404, 2659, 2660, 2661, 3000):
        cases.lend(player.MOST_WORDS)
        cases.new_book(1)
        cases.post(1, 0, 1, 2, 3)
        cases.lend(lent)
        short = lent < book.LENGTH
        cases.each_call(gives=1 if short else 0)
        cases.dump_book()
        cases.fresh(gives=1 if short else 0)
        cases.dump(0, 48)
        if not short:
            cases.each_call(gives=0)
        cases.dump(2656, 13)
    # A short slice of a damaged book, and fresh on it.
    cases.lend(2659)
    for index in (0, 1, 2, 3, 4, 35, 36, 355, 356, 1500, 2658, 2659):
        cases.poke(index, LARGEST)
    cases.fresh(gives=1)
    cases.open(1, gives=1)
    cases.dump_all()
    cases.lend(2660)
    cases.open(1, gives=1)
    cases.fresh()
    cases.dump_all()
    # The length comes first: a sound book in a slice that is too short.
    cases.lend(2659)
    cases.is_unsound()
    cases.lend(2660)
    cases.is_sound()
    cases.lend(player.MOST_WORDS)
    cases.is_sound()


def unused_arguments(cases):
    """The unused arguments are ignored, and a book stays as it is while the
    dividing rule is used."""
    rest = (LARGEST, 1, 2, 3, 4, 5, 6)
    for operation, *arguments in (
        (player.FRESH,), (player.OPEN, 3), (player.POST, 1, 0, 5, 6, 7),
        (player.CELL, 1, bits(0.25)), (player.CELL, 2, bits(0.5), bits(1.0)),
        (player.CELL, 1, 0), (player.LINE, 1, 0), (player.CELL, 0),
        (player.CELL, 1, 0), (player.CELL, 1, 0), (player.LINE, 1, 0),
        (player.STRIKE, 1), (player.ENROL, 1, 1, 100, 2, 3, 75),
        (player.QUOTE, 1, 1, 1, 1, 1, 1), (player.PREVIEW, 1, 3),
        (player.PREVIEW, 1, 512), (player.CLOSE, 1),
        (player.STATEMENT, 1), (player.INTENSITY, 1, 100),
        (player.POKE, 2999, 8),
        (player.LEND, 2660), (player.DUMP, 0, 40), (player.DUMP, 356, 19),
        (player.APPEND_WEIGHT, 3), (player.DIVIDE, 7, 1),
        (player.LEND, 3000), (player.DUMP, 0, 40), (player.DUMP, 2999, 1),
    ):
        cases.cases.record(operation, *arguments, *rest[:7 - len(arguments)])
    cases.cases.record(player.APPEND_WEIGHT, 1)
    cases.open(2)
    cases.cases.record(player.APPEND_WEIGHT, 1)
    cases.fresh()
    cases.cases.record(player.DIVIDE, 3, 2)


# Reckoned by hand.

def reckoned_by_hand(cases):
    cases.new_book()
    # "Quote 1, 500 kg, 1 m" is half a microgram: "The starred quote of half a
    # microgram becomes 0, and 1.5 stays 2."
    cases.quote(1, 0, 500, 1, 1, 1)
    cases.quote(1, 0, 1500, 1, 1, 1)
    # "Quote 600000, adjust 1, 1000 kg, 905,000 m: 600,000,000,000."
    cases.quote(1, 1, 1000, 905_000, 600_000, 600_000)
    cases.shares_are(book.QUOTED, (0, 2, 600_000_000_000),
                     (0, 2, 600_000_000_000))
    cases.dump(356, 27)
    # The calls of the file that document 01 gives as an example.
    cases.new_book(1)
    cases.post(1, 0, 12_000_000, 3_220_000, 560_000)
    cases.enrol(1, 7, 0, 1000, 300_000)
    cases.enrol(1, 4, 0, 3000, 300_000)
    cases.quote(7, 0, 1000, 500_000, 62_000, 10_000)
    cases.dump_book()
    cases.statement(7, shows=(2, 1, 31_000_000_000, 5_000_000_000,
                              36_000_000_000))
    cases.close(1)
    cases.shares_are(1, (9_660_000_000_000, 28_980_000_000_000),
                     (1_680_000_000_000, 5_040_000_000_000))
    cases.intensity(1, 0, shows=(32_200_000, 5_600_000))
    # "4 1 0 28980000000000 5040000000000 34020000000000" and "7 2 0
    # 9691000000000 1685000000000 11376000000000"
    cases.statement(4, shows=(1, 0, 28_980_000_000_000, 5_040_000_000_000,
                              34_020_000_000_000))
    cases.statement(7, shows=(2, 0, 9_691_000_000_000, 1_685_000_000_000,
                              11_376_000_000_000))
    cases.dump_book()
    # "Kind 3, A 9, freight activity 100, one head each of codes 100 and 400
    # over 1 m: 3, 1, 5."
    cases.new_book(3)
    cases.post(1, 0, 1, 9, 0)
    cases.enrol(1, 1, 0, 100, 1)
    cases.enrol(1, 1, 100, 1, 1)
    cases.enrol(1, 1, 400, 1, 1)
    cases.close(1)
    cases.shares_are(1, (3, 1, 5), (0, 0, 0))
    cases.intensity(1, 0, shows=(30, 0))
    cases.intensity(1, 100, shows=(1, 0))
    cases.dump_book()
    # "A 8, B1 5, ambient 100, chilled 300: 2 and 11."
    cases.new_book(1)
    cases.post(1, 0, 1, 8, 0)
    cases.post(1, 1, 1, 5, 0)
    cases.enrol(1, 1, 0, 100, 1)
    cases.enrol(1, 1, 1, 300, 1)
    cases.close(1)
    cases.shares_are(1, (2, 11), (0, 0))
    cases.intensity(1, 0, shows=(20, 0))
    cases.intensity(1, 1, shows=(37, 0))
    cases.dump_book()
    # "Weight 1000 passes, 1001 is 3."
    cases.new_book(2)
    cases.enrol(1, 1, 1000, 1, 1)
    cases.enrol(1, 1, 1001, 1, 1, gives=3)
    # "Entry 64 passes, 65 is 8."
    for _ in range(64):
        cases.post(1, 0, 1, 1, 1)
    cases.post(1, 0, 1, 1, 1, gives=8)
    cases.dump_book()


# Values and measures at their edges.

def values_of_open(cases):
    cases.fresh()
    for kind in (0, 5, 6, *FAR):
        cases.open(kind, gives=3)
    for kind in (1, 2, 3, 4):
        cases.open(kind)
    for kind in (0, 5, LARGEST):
        cases.open(kind, gives=3)
    cases.dump(0, 14)


def values_of_post(cases):
    cases.fresh()
    cases.post(0, 0, 1, 1, 1, gives=2)
    cases.post(1, 0, 1, 1, 1, gives=2)
    for kind in (1, 2, 3, 4):
        cases.open(kind)
    # Numbers of categories, then groups in each kind.
    for category in (0, 5, 6, 16, 17, *FAR):
        cases.post(category, 0, 1, 1, 1, gives=2)
    for category in (1, 2, 3, 4):
        for group in (0, 1, 2):
            gives = 6 if category == 2 and group > 0 else 0
            cases.post(category, group, category, group + 10, group + 20,
                       gives=gives)
        for group in (3, 4, *FAR):
            cases.post(category, group, 1, 1, 1, gives=3)
    cases.dump_book()
    # Measures.
    for quantity in (0, 1, 10 ** 12):
        cases.post(1, 0, quantity, 1, 2)
    for factor in (0, 1, 10 ** 10 - 1, 10 ** 10):
        cases.post(1, 1, 3, factor, 0)
        cases.post(1, 2, 3, 0, factor)
    cases.post(1, 0, 0, 10 ** 10, 10 ** 10)
    cases.post(1, 0, 10 ** 12, 0, 0)
    for quantity in (10 ** 12 + 1, 10 ** 13, 2 ** 40, 2 ** 63, LARGEST):
        cases.post(1, 0, quantity, 0, 0, gives=7)
        cases.post(1, 0, quantity, 1, 1, gives=7)
    for factor in (10 ** 10 + 1, 2 ** 34, 2 ** 63, LARGEST):
        for quantity in (0, 1, 2):
            cases.post(1, 0, quantity, factor, 0, gives=7)
            cases.post(1, 0, quantity, 0, factor, gives=7)
    cases.post(1, 0, LARGEST, LARGEST, LARGEST, gives=7)
    cases.dump_book()


def values_of_strike(cases):
    cases.new_book(1, 2, 3)
    for entry in (0, 1, LARGEST):
        cases.strike(entry, gives=2)
    for category in (1, 2, 3, 1):
        cases.post(category, 0, 1, category, category + 1)
    for entry in (0, 5, 6, 64, 65, *FAR):
        cases.strike(entry, gives=2)
    cases.strike(3)
    cases.dump_book()
    cases.strike(3, gives=4)
    for entry in (1, 4, 2):
        cases.strike(entry)
        cases.strike(entry, gives=4)
    for entry in (0, 5):
        cases.strike(entry, gives=2)
    cases.dump_book()


def values_of_enrol(cases):
    cases.fresh()
    cases.enrol(0, 1, 0, 1, 1, gives=2)
    cases.enrol(1, 1, 0, 1, 1, gives=2)
    for kind in (1, 2, 3, 4):
        cases.open(kind)
    for category in (0, 5, 6, 16, 17, *FAR):
        cases.enrol(category, 1, 0, 1, 1, gives=2)
    # Codes in each kind.
    for kind in (1, 2, 3, 4):
        distance = 0 if kind == 4 else 3
        for code in (0, 1, 2):
            cases.enrol(kind, kind, code, 5, distance,
                        gives=6 if kind == 2 else 0)
        for code in (100, 101, 400, 999, 1000):
            cases.enrol(kind, kind, code, 5, distance,
                        gives=6 if kind in (1, 4) else 0)
        for code in (3, 4, 98, 99, 1001, 1002, 1100, *FAR[2:],
                     2 ** 32 + 100, 2 ** 16 + 100):
            cases.enrol(kind, kind, code, 5, distance, gives=3)
    # Codes by their lowest 8 or 16 bits; 256 is a class.
    for code in (2 ** 10, 2 ** 16, 2 ** 16 + 999):
        cases.enrol(3, 1, code, 5, 3, gives=3)
    cases.enrol(3, 1, 256, 5, 3)
    cases.dump_book()
    # Chains.
    for chain in (1, 2, 9999, 10000):
        cases.enrol(1, chain, 0, 1, 1)
    for chain in (0, 10001, 2 ** 14, *FAR[2:]):
        cases.enrol(1, chain, 0, 1, 1, gives=3)
    # Masses, also in a hub.
    for category, distance in ((1, 2), (3, 2), (4, 0)):
        for mass in (1, 10 ** 6, 10 ** 6 + 1, 10 ** 9):
            cases.enrol(category, 1, 1, mass, distance)
        for mass in (0, 10 ** 9 + 1, 2 ** 32, 2 ** 63, LARGEST):
            cases.enrol(category, 1, 2, mass, distance, gives=7)
    # Heads.
    for category in (2, 3):
        for heads in (1, 10 ** 6):
            cases.enrol(category, 1, 100, heads, 1)
            cases.enrol(category, 1, 1000, heads, 1)
        for heads in (0, 10 ** 6 + 1, 10 ** 9, 10 ** 9 + 1, LARGEST):
            cases.enrol(category, 1, 100, heads, 1, gives=7)
    # Distances.
    for category, code in ((1, 0), (2, 100), (3, 2), (3, 500)):
        for distance in (1, FARTHEST - 1, FARTHEST):
            cases.enrol(category, 1, code, 1, distance)
        for distance in (0, FARTHEST + 1, 2 ** 32, 2 ** 63, LARGEST):
            cases.enrol(category, 1, code, 1, distance, gives=7)
    for code in (0, 1, 2):
        cases.enrol(4, 1, code, 1, 0)
        for distance in (1, 2, FARTHEST, 2 ** 32, LARGEST):
            cases.enrol(4, 1, code, 1, distance, gives=7)
    # Products that wrap to a small number are out of range by a factor.
    for category, code, amount, distance in (
        (1, 0, 2 ** 32, 2 ** 32), (1, 0, 2 ** 63, 2), (1, 0, 2, 2 ** 63),
        (3, 128, 2 ** 57, 1), (3, 128, 1, 2 ** 57), (3, 512, 2 ** 30, 2 ** 25),
        (1, 0, LARGEST, LARGEST), (3, 1000, LARGEST, LARGEST),
    ):
        cases.enrol(category, 1, code, amount, distance, gives=7)
    cases.dump_book()


def values_of_quote(cases):
    cases.fresh()
    for chain in (1, 9999, 10000):
        for adjust in (0, 1):
            cases.quote(chain, adjust, 3, 4, 5, 6)
    for chain in (0, 10001, 2 ** 14, *FAR[2:]):
        cases.quote(chain, 0, 1, 1, 1, 1, gives=3)
    for adjust in (2, 3, *FAR):
        cases.quote(1, adjust, 1, 1, 1, 1, gives=3)
    for adjust in (0, 1):
        for mass in (1, 10 ** 9):
            cases.quote(1, adjust, mass, 1, 1, 1)
        for distance in (1, FARTHEST):
            cases.quote(1, adjust, 1, distance, 10 ** 9, 10 ** 9)
        for intensity in (0, 1, 10 ** 9):
            cases.quote(1, adjust, 1, 1, intensity, 0)
            cases.quote(1, adjust, 1, 1, 0, intensity)
        for mass in (0, 10 ** 9 + 1, 2 ** 32, LARGEST):
            cases.quote(1, adjust, mass, 1, 0, 0, gives=7)
        for distance in (0, FARTHEST + 1, FARTHEST + 95_000, 2 ** 32,
                         2 ** 64 - 95_000, LARGEST):
            cases.quote(1, adjust, 1, distance, 0, 0, gives=7)
        for intensity in (10 ** 9 + 1, 2 ** 32, LARGEST):
            cases.quote(1, adjust, 1, 1, intensity, 0, gives=7)
            cases.quote(1, adjust, 1, 1, 0, intensity, gives=7)
    for mass, distance, intensity in (
        (2 ** 32, 2 ** 32, 1), (2 ** 63, 2, 1), (1, 2 ** 32, 2 ** 32),
        (LARGEST, LARGEST, LARGEST),
    ):
        cases.quote(1, 0, mass, distance, intensity, intensity, gives=7)
    cases.dump_book()


def rounding_of_quote(cases):
    """To the nearest, and "Halves go to the even number."."""
    cases.fresh()
    for thousandths in (0, 1, 499, 500, 501, 999, 1000, 1001, 1499, 1500,
                        1501, 2499, 2500, 2501):
        cases.quote(1, 0, thousandths or 1, 1, 1 if thousandths else 0, 0)
        cases.quote(1, 0, 1, 1, 0, thousandths)
    for intensity in (999_999_499, 999_999_500, 999_999_501):
        cases.quote(1, 0, 1, 1, intensity, intensity)
        cases.quote(1, 0, 1, 3, intensity, 10 ** 9 - intensity)
    # Operation and provision are rounded apart: 1 and 0, then 0 and 1; 2 and
    # 0, then 0 and 2.
    cases.quote(1, 0, 1, 1, 501, 500)
    cases.quote(1, 0, 1, 1, 500, 501)
    cases.quote(1, 0, 1, 1, 1500, 500)
    cases.quote(1, 0, 1, 1, 500, 1500)
    # With adjust 1 the distance is 95,000 m longer in the shares alone.
    for distance in (1, 2, 5000, FARTHEST):
        for intensity in (1, 7, 500, 1001):
            cases.quote(1, 1, 1, distance, intensity, 2 * intensity)
    cases.quote(1, 1, 1, 499, 1, 0)       # 95.499
    cases.quote(1, 1, 1, 500, 1, 0)       # 95.5
    # Products past 2^64 whose shares are below 10^18: 24,500 × (10^9 - 1) ×
    # 39,999,999 leaves 500 by 1000.
    for intensity in (24_499, 24_500, 24_501):
        cases.fresh()
        cases.quote(1, 0, 10 ** 9 - 1, FARTHEST - 1, intensity, 0)
        cases.quote(1, 0, 10 ** 9 - 1, FARTHEST - 1, 0, intensity)
        cases.dump(356, 18)
    # 2^64 - 1, 2^64 and some more.
    cases.fresh()
    cases.quote(1, 0, 126_027_651, 257, 569_535_445, 569_535_444)
    cases.quote(1, 0, 2 ** 29, 2 ** 6, 2 ** 29, 2 ** 29 - 1)
    cases.quote(1, 0, 10 ** 9, 19, 10 ** 9, 10 ** 9 - 1)
    cases.quote(1, 1, 10 ** 6, 5000, 2 ** 29, 184_467_441)
    cases.dump_book()


# Full lists.

def full_lists(cases):
    # The slice ends with the last word of element 256.
    cases.lend(book.LENGTH)
    cases.fresh()
    for number in range(16):
        cases.open(number % 4 + 1)
    for kind in (1, 2, 3, 4):
        cases.open(kind, gives=8)
    cases.dump(0, 40)
    # Entries: struck ones count too.
    for number in range(64):
        cases.post(number % 16 + 1, 0, number, 1, 2)
        if number % 3 == 0:
            cases.strike(number + 1)
    cases.post(1, 0, 0, 0, 0, gives=8)
    cases.strike(2)
    cases.strike(64, gives=4)
    cases.strike(65, gives=2)
    cases.post(1, 0, 0, 0, 0, gives=8)
    # Elements: enrolled and quoted.
    enrol_and_quote(cases, 256)
    cases.enrol(1, 1, 0, 1, 1, gives=8)
    cases.quote(1, 0, 1, 1, 0, 0, gives=8)
    cases.open(1, gives=8)
    cases.dump_all()
    # One fewer counted, and full again.
    for listing, call, arguments in (
        (ENTRIES, cases.post, (3, 2, 4, 5, 6)),
        (ELEMENTS, cases.enrol, (16, 9, 1, 8, 0)),
        (ELEMENTS, cases.quote, (9, 1, 8, 7, 6, 5)),
    ):
        cases.poke(listing.count, listing.most - 1)
        call(*arguments)
        call(*arguments, gives=8)
        cases.dump_record(listing, listing.most)
    # Without category 16 its entries and elements are of none.
    cases.poke(CATEGORIES.count, CATEGORIES.most - 1)
    cases.open(2, gives=1)
    cases.poke(CATEGORIES.count, CATEGORIES.most)
    # 256 quoted ones.
    cases.lend(player.MOST_WORDS)
    cases.fresh()
    for number in range(256):
        cases.quote(number + 1, number % 2, number + 1, 2, 3, 4)
    cases.quote(1, 0, 1, 1, 0, 0, gives=8)
    cases.open(4)
    cases.enrol(1, 1, 0, 1, 0, gives=8)
    cases.dump(356, 2304)


def enrol_and_quote(cases, count):
    """Elements of all sorts; category c is of kind (c - 1) % 4 + 1."""
    for number in range(count):
        category = number % 17
        chain = number * 37 % 10_000 + 1
        if category == 0:
            cases.quote(chain, number % 2, number + 1, number + 2, number,
                        2 * number)
        elif category % 4 == 1:
            cases.enrol(category, chain, number % 3, number + 1, number + 5)
        elif category % 4 == 0:
            cases.enrol(category, chain, number % 3, number + 1, 0)
        else:
            cases.enrol(category, chain, 100 + number, number + 1, number + 3)


# Grounds in checking order.

def in_order(cases, name, arguments, faults):
    """A call for which exactly the grounds `faults` hold."""
    call = calls.CALLS[name]
    grounds = list(call.grounds(cases.words, *arguments))
    wanted = in_checking_order(faults)
    if grounds != list(map(number_of, wanted)):
        raise AssertionError("%s%r has the grounds %r, not %r"
                             % (name, arguments, grounds, wanted))
    cases.call(name, *arguments, gives=grounds[0])
    note_pairs(cases, name, wanted)


def in_order_with_1(cases, name, arguments, faults):
    """The same call on a book with a wrong word, and on a short slice. Only
    the grounds of a cell come before 1."""
    grounds = in_checking_order({1, *faults})
    gives = number_of(grounds[0])
    cases.poke(0, book.MARK + 1)
    cases.call(name, *arguments, gives=gives)
    cases.poke(0, book.MARK)
    cases.lend(2659)
    cases.call(name, *arguments, gives=gives)
    cases.lend(player.MOST_WORDS)
    note_pairs(cases, name, grounds)


def note_pairs(cases, name, grounds):
    for place, ground in enumerate(grounds):
        for later in grounds[place + 1:]:
            count(cases.pairs, (name, ground, later))


def try_in_order(cases, name, combinations):
    """Every combination with a fault; some of them with 1 too."""
    for arguments, faults in combinations:
        if not faults:
            continue
        in_order(cases, name, arguments, faults)
        shown = [fault for fault in faults
                 if (name, *in_checking_order((1, fault))) in cases.pairs]
        if len(faults) == 1 or len(shown) < len(faults):
            in_order_with_1(cases, name, arguments, faults)


def order_of_open(cases):
    cases.fresh()
    for full in ((), (8,)):
        if full:
            for number in range(16):
                cases.open(number % 4 + 1)
        try_in_order(cases, "open", [
            ((kind,), {*faults, *full})
            for kind, faults in ((1, ()), (4, ()), (0, (3,)), (5, (3,)),
                                 (LARGEST, (3,)))])
    cases.dump(0, 40)


def order_of_strike(cases):
    cases.new_book(1, 3)
    cases.post(1, 0, 1, 1, 1)
    cases.post(1, 0, 1, 1, 1)
    cases.post(2, 0, 0, 1, 1)
    cases.post(2, 0, 1, 1, 1)
    cases.strike(2)
    cases.strike(4)
    cases.enrol(2, 1, 100, 1, 1)
    cases.close(2)
    # Of an open category and struck; of a closed one; both.
    try_in_order(cases, "strike", [
        ((0,), {2}), ((5,), {2}), ((2,), {4}), ((3,), {4}), ((4,), {4})])
    for entry in (2, 3, 4):
        in_order_with_1(cases, "strike", (entry,), {4})
    cases.dump_all()


def order_of_post(cases):
    """9 µg are left of 10^18, and one or no entry."""
    cases.new_book(3, 2, 2, 1)
    cases.enrol(3, 1, 100, 1, 1)
    cases.enrol(4, 1, 0, 1, 1)
    cases.close(3)
    cases.close(4)
    cases.fill_emissions(1, 9, 9)
    for _ in range(61):
        cases.post(2, 0, 0, 1, 1)
    # Category, the grounds that it brings, whether its kind is 2.
    categories = ((1, (), False), (2, (), True), (3, (4,), True),
                  (4, (4,), False), (0, (2,), False), (5, (2,), False))
    measures = (
        ((1, 1, 1), ()), ((10 ** 12 + 1, 0, 0), (7,)),
        ((0, 0, 10 ** 10 + 1), (7,)), ((1, 10, 0), (10,)),
        ((1, 9, 10), (10,)), ((10 ** 12, 10 ** 10, 10 ** 10), (10,)),
        ((10 ** 12 + 1, 10 ** 10, 1), (7, 10)),
    )
    for full in ((), (8,)):
        if full:
            cases.post(1, 0, 0, 0, 0)
        try_in_order(cases, "post", [
            ((category, group, *numbers),
             {*bad_category, *bad_group, *measure, *full,
              *((6,) if kind_2 and group == 1 else ())})
            for category, bad_category, kind_2 in categories
            for group, bad_group in ((0, ()), (1, ()), (3, (3,)))
            for numbers, measure in measures])
    cases.dump_all()


def order_of_enrol_and_quote(cases):
    """150 are left of 10^17, 9 µg of 10^18, and one or no element.
    Categories 2 and 5 have a passenger who is not weighed, 3 one who is."""
    cases.new_book(1, 2, 3, 4, 2, 1, 3)
    cases.enrol(2, 1, 100, 1, 1)
    cases.enrol(3, 1, 100, 1, 1, 80)
    cases.enrol(5, 1, 100, 1, 1)
    cases.enrol(6, 1, 0, 1, 1)
    cases.close(5)
    cases.close(6)
    cases.fill_emissions(3, 9, 9)
    for number in range(247):
        cases.enrol(4, 1, 0, 1, 0)
    cases.fill_activity(1, 4, 150)
    # Category, the grounds that it brings, its kind, and the kg per head that
    # make a mixture of passengers there.
    categories = ((1, (), 1, ()), (2, (), 2, (80, 301)), (3, (), 3, (0,)),
                  (4, (), 4, ()), (5, (4,), 2, (80, 301)), (6, (4,), 1, ()),
                  (7, (), 3, ()), (0, (2,), None, ()), (8, (2,), None, ()))
    amounts = ((1, ()), (0, (7,)), (151, (10,)), (10 ** 9 + 1, (7, 10)))
    enrolments = [
        ((category, chain, code, amount, 0 if kind == 4 else 1, kg_per_head),
         {*bad_category, *bad_chain, *bad_code, *measure,
          *((6,) if (kind, code) in ((1, 100), (4, 100), (2, 0)) else ()),
          *((14,) if code == 100 and kg_per_head in mixed else ()),
          *((7,) if kg_per_head > (300 if code == 100 else 0) else ())})
        for category, bad_category, kind, mixed in categories
        for chain, bad_chain in ((1, ()), (0, (3,)))
        for code, bad_code in ((0, ()), (3, (3,)), (100, ()))
        for amount, measure in amounts
        for kg_per_head in (0, 80, 301)
        # Passengers at distance 0 have no activity that could be too much.
        if not (kind == 4 and code == 100 and 10 in measure)]
    measures = (
        ((1, 1, 0, 0), ()), ((0, 1, 0, 0), (7,)),
        ((1, FARTHEST + 1, 0, 0), (7, 10)), ((1, 1, 10 ** 9 + 1, 0), (7, 10)),
        ((1, 1, 0, 10 ** 9 + 1), (7, 10)), ((151, 1, 0, 0), (10,)),
        ((1, 1, 9500, 0), (10,)), ((1, 1, 0, 9500), (10,)),
        ((10 ** 9, FARTHEST, 10 ** 9, 10 ** 9), (10,)),
    )
    quotes = [
        ((chain, adjust, *numbers), {*bad_chain, *bad_adjust, *measure})
        for chain, bad_chain in ((1, ()), (0, (3,)), (10001, (3,)))
        for adjust, bad_adjust in ((0, ()), (1, ()), (2, (3,)))
        for numbers, measure in measures]
    for full in ((), (8,)):
        if full:
            cases.enrol(4, 1, 0, 1, 0)
        for name, combinations in (("enrol", enrolments), ("quote", quotes)):
            try_in_order(cases, name, [(arguments, {*faults, *full})
                                       for arguments, faults in combinations])
    cases.dump_all()


# The limits of ground 10.

def emissions_of_posts(cases):
    # One entry of exactly 10^18, in one amount and then in the other.
    cases.new_book(1, 2, 4)
    cases.post(1, 0, 10 ** 12, 10 ** 6, 0)
    cases.post(1, 0, 1, 1, 0, gives=10)
    cases.post(1, 0, 1, 1, 1, gives=10)
    cases.post(2, 0, 10 ** 12, 0, 10 ** 6)
    cases.post(3, 2, 1, 0, 1, gives=10)
    cases.post(3, 2, 0, 1, 1)
    cases.post(1, 0, 10 ** 12, 0, 0)
    cases.is_sound()
    # A struck entry does not count.
    cases.strike(1)
    cases.post(1, 0, 1, 1, 1, gives=10)
    cases.post(3, 1, 1, 1, 0)
    cases.post(1, 0, 10 ** 12, 10 ** 6, 0, gives=10)
    cases.post(1, 0, 10 ** 9, 10 ** 9 - 1, 0)
    cases.post(1, 0, 1, 10 ** 9 - 1, 0)
    cases.post(1, 0, 1, 1, 0, gives=10)
    cases.is_sound()
    cases.strike(2)
    cases.post(2, 0, 10 ** 12, 0, 10 ** 6)
    cases.dump_book()
    # 10^18 + 1 is 999,999,000,001 × 1,000,001, and 10^18 - 1 is
    # 1,000,000,001 × 999,999,999.
    cases.new_book(1)
    cases.post(1, 0, 999_999_000_001, 1_000_001, 0, gives=10)
    cases.post(1, 0, 999_999_000_001, 0, 1_000_001, gives=10)
    cases.post(1, 0, 999_999_000_001, 1_000_001, 1_000_001, gives=10)
    cases.post(1, 0, 1_000_000_001, 999_999_999, 999_999_999)
    cases.post(1, 0, 1, 2, 0, gives=10)
    cases.post(1, 0, 1, 0, 2, gives=10)
    cases.post(1, 0, 1, 1, 1)
    cases.post(1, 0, 1, 0, 1, gives=10)
    cases.dump_book()
    # Many entries.
    cases.new_book(1, 3)
    for number in range(20):
        cases.post(number % 2 + 1, number % 3, 10 ** 12, 5 * 10 ** 4,
                   5 * 10 ** 4 - 1)
    cases.post(1, 0, 1, 1, 0, gives=10)
    cases.post(1, 0, 20 * 10 ** 6 + 1, 0, 10 ** 6, gives=10)
    cases.post(1, 0, 20 * 10 ** 6, 0, 10 ** 6)
    for number in range(1, 21):
        cases.strike(number)
        cases.post(1, 0, 10 ** 12, 5 * 10 ** 4 + 1, 0, gives=10)
        cases.post(1, 0, 10 ** 12, 5 * 10 ** 4, 5 * 10 ** 4 - 1)
    cases.dump_book()
    # The entries of a closed category count.
    cases.new_book(1, 1)
    cases.post(1, 0, 10 ** 12, 10 ** 6 - 1, 10 ** 6 - 1)
    cases.enrol(1, 1, 0, 1, 1)
    cases.close(1)
    cases.is_sound()
    cases.post(2, 0, 10 ** 12, 1, 1)
    cases.post(2, 0, 1, 1, 0, gives=10)
    cases.post(2, 0, 1, 0, 1, gives=10)
    cases.quote(1, 0, 1, 1, 501, 0, gives=10)
    cases.quote(1, 0, 1, 1, 499, 500)
    cases.dump_book()


def large_products_of_posts(cases):
    """Products past 2^64; some are small modulo 2^64."""
    cases.new_book(1)
    for quantity, factor in (
        (10 ** 12, 10 ** 10), (10 ** 12, 10 ** 10 - 1),
        (10 ** 12 - 1, 10 ** 10), (2 ** 32, 2 ** 32), (2 ** 32 + 1, 2 ** 32),
        (2 ** 33, 2 ** 31), (2 ** 39, 2 ** 33), (2 ** 39, 2 ** 25),
        (2 ** 32, 2 ** 32 + 1), (3 * 2 ** 32, 2 ** 32), (2 ** 31, 2 ** 32),
        (2 ** 30, 2 ** 30), (10 ** 12, 10 ** 6 + 1), (10 ** 9, 10 ** 9 + 1),
        (18_446_744_074, 10 ** 9), (184_467_440_738, 10 ** 8),
    ):
        cases.post(1, 0, quantity, factor, 0, gives=10)
        cases.post(1, 0, quantity, 0, factor, gives=10)
        cases.post(1, 0, quantity, factor, factor, gives=10)
    cases.post(1, 0, 2 ** 29, 2 ** 30, 2 ** 30)
    cases.dump_book()


def emissions_of_quotes(cases):
    # Exactly 10^18 by one quote.
    for operation, provision in ((1, 0), (0, 1), (1, 1)):
        large = (operation * 10 ** 9, provision * 10 ** 9)
        cases.new_book(1)
        cases.quote(1, 0, 10 ** 9, 1001, *large, gives=10)
        cases.quote(1, 0, 10 ** 9, 1000, *large)
        cases.quote(1, 0, 1, 1, 500, 500)
        cases.quote(1, 0, 1, 1, operation * 501, provision * 501, gives=10)
        cases.post(1, 0, 1, operation, provision, gives=10)
        cases.post(1, 0, 1, 1 - operation, 1 - provision)
        cases.is_sound()
        cases.dump_book()
        # D is 100,000 with a distance of 5,000 and adjust 1.
        cases.new_book(1)
        cases.quote(1, 1, 10 ** 7, 5001, *large, gives=10)
        cases.quote(1, 1, 10 ** 7, 5000, *large)
        cases.quote(1, 0, 1, 1, operation * 501, provision * 501, gives=10)
        cases.dump_book()
    # Where 1 µg is left, 1.499 µg pass and 1.5 µg do not; where 2 µg are
    # left, 2.5 µg pass and 2.501 µg do not.
    for operation, provision in ((1, 0), (0, 1)):
        for left in (0, 1, 2):
            cases.new_book(1)
            cases.post(1, 0, 10 ** 9, operation * (10 ** 9 - 1),
                       provision * (10 ** 9 - 1))
            cases.post(1, 0, 10 ** 9 - left, operation, provision)
            mass = 1500 if left == 1 else 1000 * left + 501
            cases.quote(1, 0, mass, 1, operation, provision, gives=10)
            cases.quote(1, 0, mass, 1, 1, 1, gives=10)
            cases.quote(1, 0, mass - 1, 1, operation, provision)
            cases.is_sound()
            cases.quote(1, 0, 1, 1, 500, 500)
            cases.quote(1, 0, 1, 1, operation * 501, provision * 501, gives=10)
            cases.post(1, 0, 1, operation, provision, gives=10)
            # Struck, the entries leave room; quoted shares stay.
            cases.strike(1)
            cases.quote(1, 0, 1, 1, operation * 501, provision * 501)
            cases.post(1, 0, 10 ** 9, operation * (10 ** 9 - 1),
                       provision * (10 ** 9 - 1), gives=10)
            cases.dump_book()
    # Products past 2^64, also ones whose share is small modulo 2^64:
    # 524,288,000 × 2^29 × 2^16 is 1000 × 2^64.
    cases.new_book()
    for mass, distance, intensity in (
        (10 ** 9, FARTHEST, 10 ** 9), (10 ** 9, FARTHEST, 25_001),
        (2 ** 29, 2 ** 16, 524_288_000), (2 ** 29, 2 ** 17, 524_288_000),
        (2 ** 29, 2 ** 16, 524_288_001), (2 ** 29, 2 ** 25, 2 ** 29),
        (10 ** 9, 10 ** 4, 10 ** 9), (10 ** 9, 1001, 10 ** 9),
    ):
        for operation, provision in ((intensity, 0), (0, intensity),
                                     (intensity, intensity)):
            cases.quote(1, 0, mass, distance, operation, provision, gives=10)
    cases.quote(1, 1, 10 ** 9, FARTHEST, 10 ** 9, 10 ** 9, gives=10)
    cases.quote(1, 1, 10 ** 9, FARTHEST, 0, 10 ** 9, gives=10)
    cases.quote(1, 0, 10 ** 9, FARTHEST, 25_000, 25_000)
    cases.dump(356, 18)
    # Many quotes.
    cases.new_book(3)
    for number in range(10):
        cases.quote(1, number % 2, 10 ** 8, 5000 + (1 - number % 2) * 95_000,
                    10 ** 7, 10 ** 7 - 1)
    cases.quote(1, 0, 1, 1, 501, 0, gives=10)
    cases.quote(1, 0, 1, 1, 0, 501)
    cases.quote(1, 0, 10 ** 8, 10 ** 5, 0, 10, gives=10)
    cases.dump_book()


def activities(cases):
    # Exactly 10^17 by freight; then nothing more.
    cases.new_book(1, 2, 3, 4)
    cases.enrol(1, 1, 0, 10 ** 9, FARTHEST)
    cases.enrol(3, 1, 1, 10 ** 9, FARTHEST)
    cases.enrol(1, 1, 2, 10 ** 9, FARTHEST, gives=10)
    cases.enrol(1, 1, 2, 10 ** 9, FARTHEST // 2)
    nothing_more(cases)
    cases.post(1, 0, 10 ** 12, 10 ** 6, 10 ** 6)
    cases.dump_book()
    # By quotes, whose 95,000 m do not count.
    cases.new_book(1, 2, 3, 4)
    cases.quote(1, 1, 10 ** 9, FARTHEST, 0, 0)
    cases.quote(1, 1, 10 ** 9, FARTHEST, 0, 0)
    cases.quote(1, 0, 10 ** 9, FARTHEST // 2 + 1, 0, 0, gives=10)
    cases.quote(1, 1, 10 ** 9, FARTHEST // 2, 0, 0)
    nothing_more(cases)
    cases.dump_book()
    # 1 is left, 2 are left.
    for left in (1, 2):
        more = left + 1
        for name, fitting, too_much in (
            ("enrol", (1, 1, 0, left, 1), (1, 1, 0, more, 1)),
            ("enrol", (1, 1, 0, 1, left), (1, 1, 0, 1, more)),
            ("enrol", (3, 1, 2, left, 1), (3, 1, 2, more, 1)),
            ("enrol", (4, 1, 1, left, 0), (4, 1, 1, more, 0)),
            ("quote", (1, 0, left, 1, 0, 0), (1, 0, more, 1, 0, 0)),
            ("quote", (1, 1, 1, left, 0, 0), (1, 1, 1, more, 0, 0)),
        ):
            cases.new_book(1, 2, 3, 4)
            cases.fill_activity(1, 4, left)
            cases.call(name, *too_much, gives=10)
            cases.enrol(2, 1, 100, 1, 1, gives=10)
            cases.call(name, *fitting)
            nothing_more(cases)
            cases.dump(356, 46)
    # A hub: its amounts.
    cases.new_book(4, 1)
    cases.fill_activity(2, 1, 10 ** 9)
    cases.enrol(1, 1, 0, 10 ** 9 - 1, 0)
    cases.enrol(1, 1, 0, 2, 0, gives=10)
    cases.enrol(1, 1, 0, 1, 0)
    cases.enrol(1, 1, 0, 1, 0, gives=10)
    cases.dump_book()
    # Passengers, as in P: 25 times 10^6 heads over 40,000 km. The activity
    # words reach 10^18.
    cases.new_book(2, 3, 1, 4)
    for number in range(25):
        cases.enrol(1 + number % 2, 1, 1000, 10 ** 6, FARTHEST)
    cases.enrol(1, 1, 100, 1, 1, gives=10)
    cases.enrol(3, 1, 0, 1, 1, gives=10)
    cases.enrol(4, 1, 0, 1, 0, gives=10)
    cases.quote(1, 0, 1, 1, 0, 0, gives=10)
    cases.is_sound()
    cases.dump_book()
    # One head over 1 m is 100 in every class.
    for left in (99, 100, 101, 199, 200):
        for code in (100, 101, 1000):
            cases.new_book(1, 2, 3, 4)
            cases.fill_activity(1, 4, left)
            gives = 10 if left < 100 else 0
            cases.enrol(3, 1, code, 1, 1, gives=gives)
            gives = 10 if left < 200 else 0
            cases.enrol(2, 1, code, 1, 1, gives=gives)
            cases.enrol(2, 1, code, 1, 1, gives=10)
            cases.is_sound()
    cases.dump_book()


def nothing_more(cases):
    """No activity is left; the categories are of kinds 1, 2, 3, 4."""
    cases.is_sound()
    cases.enrol(1, 1, 0, 1, 1, gives=10)
    cases.enrol(2, 1, 100, 1, 1, gives=10)
    cases.enrol(3, 1, 2, 1, 1, gives=10)
    cases.enrol(3, 1, 1000, 1, 1, gives=10)
    cases.enrol(4, 1, 1, 1, 0, gives=10)
    cases.quote(1, 0, 1, 1, 0, 0, gives=10)
    cases.quote(1, 1, 1, 1, 0, 0, gives=10)


def add(cases):
    before_fresh(cases)
    dumps(cases)
    lent_slices(cases)
    unused_arguments(cases)
    reckoned_by_hand(cases)
    values_of_open(cases)
    values_of_post(cases)
    values_of_strike(cases)
    values_of_enrol(cases)
    values_of_quote(cases)
    rounding_of_quote(cases)
    full_lists(cases)
    order_of_open(cases)
    order_of_post(cases)
    order_of_strike(cases)
    order_of_enrol_and_quote(cases)
    emissions_of_posts(cases)
    large_products_of_posts(cases)
    emissions_of_quotes(cases)
    activities(cases)
