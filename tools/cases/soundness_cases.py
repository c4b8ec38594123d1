"""Cases of the soundness of a book, whose words are written directly."""

from calculation import book, player
from calculation.book import CATEGORIES, ELEMENTS, ENTRIES, word
from cases.book_writer import EMISSIONS, FAR, FARTHEST, LARGEST, SOUND, UNSOUND


# Closed categories, sums, and records at their edges.

def closed_categories(cases):
    cases.new_book(1, 3, 4, 2)
    cases.post(1, 0, 1, 100, 50)
    cases.post(1, 1, 1, 30, 0)
    cases.post(1, 2, 1, 7, 9)
    cases.strike(3)
    cases.post(2, 0, 1, 11, 12)
    cases.enrol(1, 1, 0, 1, 1)
    cases.enrol(1, 2, 1, 1, 2)
    cases.enrol(1, 3, 1, 1, 3)
    cases.enrol(2, 1, 100, 1, 1)
    cases.quote(1, 0, 1000, 1, 8, 9)
    first, second, third, other, quoted = (
        [word(ELEMENTS, number, amount) for amount in book.AMOUNTS]
        for number in (1, 2, 3, 4, 5))
    closed = [word(CATEGORIES, number, "closed") for number in (1, 2, 3, 4)]
    # Shares while the category is open.
    for index in (*first, *second, *third, *other):
        for share in (1, 130, LARGEST):
            cases.tried([(index, share)], UNSOUND)
    cases.tried([(first[0], 130), (first[1], 50)], UNSOUND)
    cases.tried([(first[0], 1), (second[0], LARGEST)], UNSOUND)
    cases.tried([(first[0], 1), (first[1], LARGEST)], UNSOUND)
    cases.tried([(first[0], 2 ** 63), (first[1], 2 ** 63)], UNSOUND)
    # Closed without shares, and with the shares of one amount alone.
    cases.tried([(closed[0], 1)], UNSOUND)
    cases.tried([(closed[0], 1), (first[0], 130)], UNSOUND)
    cases.tried([(closed[0], 1), (first[1], 50)], UNSOUND)
    # Closed with shares that sum to 130 and 50, however they are divided.
    for operation in ((130, 0, 0), (0, 130, 0), (0, 0, 130), (43, 43, 44),
                      (1, 128, 1)):
        for provision in ((50, 0, 0), (0, 1, 49)):
            shares = [*zip((first[0], second[0], third[0]), operation),
                      *zip((first[1], second[1], third[1]), provision)]
            cases.tried([(closed[0], 1), *shares], SOUND)
    # One word off, the sum in another amount, category or quote, and the
    # struck entry included.
    right = [(closed[0], 1), (first[0], 100), (second[0], 30),
             (third[0], 0), (first[1], 20), (second[1], 0), (third[1], 30)]
    for index, share in ((first[0], 101), (first[0], 99), (second[0], 0),
                         (second[0], 31), (third[0], 1), (third[0], 7),
                         (first[1], 19), (first[1], 21), (third[1], 39),
                         (second[1], 1), (second[1], LARGEST)):
        cases.tried(right + [(index, share)], UNSOUND)
    cases.tried(right + [(first[0], 50), (first[1], 100)], UNSOUND)
    cases.tried(right + [(first[0], 99), (other[0], 1)], UNSOUND)
    cases.tried(right + [(first[0], 99), (quoted[0], 9)], UNSOUND)
    cases.tried(right + [(first[0], 101), (second[0], 29)], SOUND)
    cases.tried(right + [(first[0], 0), (third[0], 100)], SOUND)
    # Sums of shares that are right modulo 2^64 alone.
    for operation in ((LARGEST, 131, 0), (2 ** 63, 2 ** 63, 130),
                      (2 ** 63 + 65, 0, 2 ** 63 + 65), (0, LARGEST - 1, 132),
                      (LARGEST, LARGEST, 132), (2 ** 63, 130, 2 ** 63)):
        shares = [*zip((first[0], second[0], third[0]), operation)]
        cases.tried(right + shares, UNSOUND)
    for provision in ((LARGEST, 51, 0), (2 ** 63, 2 ** 63, 50),
                      (51, 0, LARGEST)):
        shares = [*zip((first[1], second[1], third[1]), provision)]
        cases.tried(right + shares, UNSOUND)
    # Entries of a closed category: amounts, struck, category.
    for index, value, gives in (
        (word(ENTRIES, 1, "operation"), 101, UNSOUND),
        (word(ENTRIES, 1, "provision"), 49, UNSOUND),
        (word(ENTRIES, 2, "struck"), 1, UNSOUND),
        (word(ENTRIES, 3, "struck"), 0, UNSOUND),
        (word(ENTRIES, 3, "operation"), 10 ** 18, SOUND),
        (word(ENTRIES, 1, "group"), 2, SOUND),
        (word(ENTRIES, 2, "category"), 2, UNSOUND),
        (word(ENTRIES, 3, "category"), 2, SOUND),
        (word(ENTRIES, 4, "category"), 1, UNSOUND),
        (word(ELEMENTS, 1, "category"), 2, UNSOUND),
        (word(ELEMENTS, 1, "category"), 0, UNSOUND),
        (word(ELEMENTS, 3, "category"), 2, UNSOUND),
        (word(ELEMENTS, 5, "category"), 1, UNSOUND),
    ):
        cases.tried(right + [(index, value)], gives)
    # With no share an element may be of any category that it suits.
    cases.tried(right + [(word(ELEMENTS, 2, "category"), 2), (second[0], 0),
                         (first[0], 130)], SOUND)
    # Closed without elements: sound when nothing is unstruck.
    cases.tried([(closed[2], 1)], SOUND)
    cases.tried([(closed[2], 1), (closed[3], 1)], SOUND)
    cases.tried([(closed[1], 1)], UNSOUND)
    cases.tried([(closed[1], 1), (word(ENTRIES, 4, "struck"), 1)], SOUND)
    cases.tried([(closed[1], 1), (word(ENTRIES, 4, "operation"), 0),
                 (word(ENTRIES, 4, "provision"), 0)], SOUND)
    cases.tried([(closed[1], 1), (word(ELEMENTS, 4, "category"), 0),
                 (word(ENTRIES, 4, "category"), 3)], UNSOUND)
    cases.tried([(closed[1], 1), (other[0], 11), (other[1], 12)], SOUND)
    # A real closing: 100 over 1, 2, 3 is 17, 33, 50 and 50 is 8, 17, 25;
    # 30 over 2, 3 is 12, 18. One word off, and its sums moved.
    cases.close(1)
    cases.shares_are(1, (17, 45, 68), (8, 17, 25))
    cases.dump_book()
    for index in (*first, *second, *third):
        for change in (1, -1):
            cases.tried([(index, cases.words[index] + change)], UNSOUND)
    cases.tried([(first[0], 16), (third[0], 69)], SOUND)
    cases.tried([(first[0], 16), (second[1], 18)], UNSOUND)
    cases.tried([(closed[0], 0)], UNSOUND)
    cases.close(1, gives=4)
    # The calls on a book with closed categories: shares with the right sums
    # that no closing gives, and category 3 without elements.
    for index, value in right:
        cases.poke(index, value)
    cases.poke(closed[2], 1)
    cases.post(1, 0, 0, 0, 0, gives=4)
    cases.post(3, 1, 1, 1, 1, gives=4)
    cases.enrol(1, 1, 0, 1, 1, gives=4)
    cases.enrol(3, 1, 0, 1, 0, gives=4)
    cases.strike(1, gives=4)
    cases.strike(3, gives=4)
    cases.dump_book()
    cases.post(2, 0, 1, 1, 1)
    cases.strike(4)
    cases.enrol(2, 1, 0, 1, 1)
    cases.quote(1, 0, 1, 1, 1, 1)
    cases.open(3)
    cases.dump_book()


def closed_at_the_limit(cases):
    """Closed categories whose entries make 10^18 together."""
    half = EMISSIONS // 2
    cases.new_book(1, 4, 1)
    cases.post(1, 0, 10 ** 9, half // 10 ** 9, 0)
    cases.post(2, 0, 10 ** 9, half // 10 ** 9, EMISSIONS // 10 ** 9)
    cases.enrol(1, 1, 0, 3, 5)
    cases.enrol(1, 1, 0, 4, 5)
    cases.enrol(2, 1, 0, 1, 0)
    cases.close(1)
    cases.close(2)
    cases.is_sound()
    cases.post(3, 0, 1, 1, 0, gives=10)
    cases.post(3, 0, 1, 0, 1, gives=10)
    cases.post(3, 0, 0, 1, 1)
    share = word(ELEMENTS, 3, "operation")
    entry = word(ENTRIES, 2, "operation")
    cases.tried([(share, half + 1)], UNSOUND)
    cases.tried([(entry, half + 1)], UNSOUND)
    cases.tried([(share, half + 1), (entry, half + 1)], UNSOUND)
    cases.tried([(share, half - 1), (entry, half - 1)], SOUND)
    # 10^18 each: more than the sums allow.
    cases.tried([(share, EMISSIONS), (entry, EMISSIONS)], UNSOUND)
    cases.dump_book()


def sums_past_64_bits(cases):
    """Sums of damaged books that are small modulo 2^64 alone."""
    rest = 2 ** 64 - 18 * EMISSIONS
    cases.new_book(1, 2)
    for _ in range(20):
        cases.post(1, 0, 0, 0, 0)
    for amount in book.AMOUNTS:
        places = [word(ENTRIES, number, amount) for number in range(1, 21)]
        cases.tried([(place, EMISSIONS) for place in places[:18]]
                    + [(places[18], rest)], UNSOUND)
        cases.tried([(place, EMISSIONS) for place in places[:18]]
                    + [(places[18], rest), (places[19], 5)], UNSOUND)
        cases.tried([(places[0], EMISSIONS), (places[1], 1)], UNSOUND)
        cases.tried([(places[0], EMISSIONS - 1), (places[1], 1)], SOUND)
        cases.tried([(places[0], EMISSIONS), (places[1], EMISSIONS),
                     (places[2], EMISSIONS)], UNSOUND)
        # A struck one has its own limit, and does not count.
        struck = word(ENTRIES, 1, "struck")
        cases.tried([(places[0], EMISSIONS), (places[1], EMISSIONS),
                     (struck, 1)], SOUND)
        cases.tried([(places[0], EMISSIONS + 1), (struck, 1)], UNSOUND)
        cases.tried([(places[0], EMISSIONS + 1)], UNSOUND)
        cases.tried([(places[0], LARGEST), (places[1], 1)], UNSOUND)
        cases.tried([(places[0], LARGEST), (struck, 1)], UNSOUND)
    for _ in range(3):
        cases.quote(1, 0, 1, 1, 0, 0)
    for amount in book.AMOUNTS:
        places = [word(ELEMENTS, number, amount) for number in range(1, 4)]
        entry = word(ENTRIES, 20, amount)
        for shares in ((EMISSIONS + 1,), (LARGEST,), (LARGEST, 1),
                       (2 ** 63, 2 ** 63), (2 ** 63, 0, 2 ** 63),
                       (2 ** 63, 2 ** 63, 7), (LARGEST, LARGEST, 2),
                       (EMISSIONS, 1), (EMISSIONS // 2, EMISSIONS // 2, 1),
                       (2 ** 64 - EMISSIONS, EMISSIONS)):
            cases.tried([*zip(places, shares)], UNSOUND)
        for shares in ((EMISSIONS,), (EMISSIONS - 1, 1), (0, 0, EMISSIONS)):
            cases.tried([*zip(places, shares)], SOUND)
            cases.tried([*zip(places, shares), (entry, 1)], UNSOUND)
        cases.tried([(places[0], LARGEST), (entry, 1)], UNSOUND)
        cases.tried([(places[0], EMISSIONS - 9), (entry, 9)], SOUND)
        cases.tried([(places[0], EMISSIONS - 9), (entry, 10)], UNSOUND)
    # Activity one past 10^17 in a hub, in freight, in a quote and in heads.
    cases.new_book(1, 4, 2)
    cases.enrol(2, 1, 0, 5, 0)
    cases.enrol(1, 1, 0, 5, 1)
    cases.quote(1, 0, 5, 1, 0, 0)
    cases.enrol(3, 1, 1000, 1, 1)
    cases.fill_activity(1, 2, 0)
    cases.is_sound()
    for number in (1, 2, 3):
        amount = word(ELEMENTS, number, "amount")
        activity = word(ELEMENTS, number, "activity")
        cases.tried([(amount, 6), (activity, 6)], UNSOUND)
        cases.tried([(amount, 4), (activity, 4)], SOUND)
    cases.tried([(word(ELEMENTS, 4, "amount"), 2),
                 (word(ELEMENTS, 4, "activity"), 2000)], UNSOUND)
    # The class does not count, the heads do.
    for code in (100, 101, 999):
        cases.tried([(word(ELEMENTS, 4, "code"), code),
                     (word(ELEMENTS, 4, "activity"), code)], SOUND)
    cases.dump_book()


def records_at_edges(cases):
    """One record of each list, written with all its words."""
    cases.new_book(1, 2, 3, 4)
    # Categories.
    for kind in (0, 1, 2, 3, 4, 5, *FAR):
        for closed in (0, 1, 2, *((2 ** 32, LARGEST) if kind == 1 else ())):
            right = kind in (1, 2, 3, 4) and closed in (0, 1)
            cases.tried([(10, kind), (11, closed)],
                        SOUND if right else UNSOUND)
    # Entries: category, group, operation, provision, struck.
    cases.post(1, 0, 0, 0, 0)
    for right, entry in (
        (False, (0, 0, 1, 1, 0)), (True, (1, 0, 1, 1, 0)),
        (True, (2, 0, 1, 1, 0)), (True, (3, 0, 1, 1, 0)),
        (True, (4, 0, 1, 1, 0)), (False, (5, 0, 1, 1, 0)),
        (False, (2 ** 32 + 1, 0, 1, 1, 0)), (False, (LARGEST, 0, 1, 1, 0)),
        (False, (2 ** 63 + 1, 0, 1, 1, 0)),
        (True, (1, 1, 1, 1, 0)), (True, (1, 2, 1, 1, 0)),
        (False, (1, 3, 1, 1, 0)), (False, (1, 2 ** 32, 1, 1, 0)),
        (False, (1, LARGEST, 1, 1, 0)), (False, (2, 1, 1, 1, 0)),
        (False, (2, 2, 1, 1, 0)), (False, (2, 1, 0, 0, 1)),
        (False, (2, 3, 1, 1, 0)), (True, (3, 1, 1, 1, 0)),
        (True, (3, 2, 1, 1, 0)), (True, (4, 1, 1, 1, 0)),
        (True, (4, 2, 1, 1, 0)),
        (True, (1, 0, 0, 0, 0)), (True, (1, 0, 10 ** 18, 0, 0)),
        (False, (1, 0, 10 ** 18 + 1, 0, 0)), (True, (1, 0, 0, 10 ** 18, 0)),
        (False, (1, 0, 0, 10 ** 18 + 1, 0)),
        (True, (1, 0, 10 ** 18, 10 ** 18, 0)),
        (True, (1, 0, 10 ** 18, 10 ** 18, 1)),
        (False, (1, 0, 10 ** 18 + 1, 0, 1)),
        (False, (1, 0, 0, 10 ** 18 + 1, 1)),
        (False, (1, 0, LARGEST, 0, 1)), (False, (1, 0, 0, LARGEST, 1)),
        (True, (1, 0, 1, 1, 1)), (False, (1, 0, 1, 1, 2)),
        (False, (1, 0, 1, 1, 2 ** 32)), (False, (1, 0, 1, 1, LARGEST)),
    ):
        cases.poke_record(ENTRIES, 1, entry)
        cases.strike(0, gives=SOUND if right else UNSOUND)
    # Elements: category, chain, code, amount, distance, activity, shares, kg
    # per head.
    mass, heads, far = 10 ** 9, 10 ** 6, FARTHEST
    cases.poke_record(ENTRIES, 1, (1, 0, 0, 0, 0))
    cases.enrol(1, 1, 0, 1, 1)
    for right, element in (
        # Chains.
        (True, (1, 1, 0, 3, 4, 12)), (False, (1, 0, 0, 3, 4, 12)),
        (True, (1, 10000, 0, 3, 4, 12)), (False, (1, 10001, 0, 3, 4, 12)),
        (False, (1, 2 ** 32 + 1, 0, 3, 4, 12)),
        (False, (1, LARGEST, 0, 3, 4, 12)),
        # Freight, kind 1.
        (True, (1, 1, 1, 3, 4, 12)), (True, (1, 1, 2, 3, 4, 12)),
        (False, (1, 1, 3, 3, 4, 12)), (False, (1, 1, 3, 3, 4, 36)),
        (False, (1, 1, 99, 3, 4, 12)), (False, (1, 1, 99, 3, 4, 1188)),
        (False, (1, 1, 100, 3, 4, 1200)), (False, (1, 1, 100, 3, 4, 12)),
        (True, (1, 1, 0, mass, far, mass * far)),
        (False, (1, 1, 0, mass + 1, far, (mass + 1) * far)),
        (False, (1, 1, 0, mass, far + 1, mass * (far + 1))),
        (True, (1, 1, 0, 1, far, far)), (True, (1, 1, 0, mass, 1, mass)),
        (False, (1, 1, 0, 0, 4, 0)), (False, (1, 1, 0, 3, 0, 0)),
        (False, (1, 1, 0, 3, 0, 3)), (False, (1, 1, 0, 3, 4, 11)),
        (False, (1, 1, 0, 3, 4, 13)), (False, (1, 1, 0, 3, 4, 0)),
        (False, (1, 1, 0, 2 ** 32, 2 ** 32, 0)),
        (False, (1, 1, 0, 2 ** 63, 2, 0)),
        (False, (1, 1, 0, 2 ** 40, 3, 3 * 2 ** 40)),
        (False, (1, 1, 0, LARGEST, LARGEST, 1)),
        # Passengers, kind 2.
        (True, (2, 1, 100, 3, 4, 1200)), (True, (2, 1, 1000, 3, 4, 12000)),
        (True, (2, 1, 256, 3, 4, 3072)), (False, (2, 1, 99, 3, 4, 1188)),
        (False, (2, 1, 1001, 3, 4, 12012)), (False, (2, 1, 0, 3, 4, 12)),
        (False, (2, 1, 1, 3, 4, 12)), (False, (2, 1, 2, 3, 4, 24)),
        (False, (2, 1, 400, 3, 4, 1200)), (False, (2, 1, 400, 3, 4, 12)),
        (True, (2, 1, 1000, heads, far, 1000 * heads * far)),
        (False, (2, 1, 100, heads + 1, 1, 100 * (heads + 1))),
        (False, (2, 1, 100, mass, 1, 100 * mass)),
        (False, (2, 1, 100, 1, far + 1, 100 * (far + 1))),
        (False, (2, 1, 100, 0, 4, 0)), (False, (2, 1, 100, 3, 0, 0)),
        (False, (2, 1, 128, 2 ** 57, 1, 0)),
        (False, (2, 1, LARGEST, 1, 1, LARGEST)),
        # Both, kind 3.
        (True, (3, 1, 0, mass, 4, 4 * mass)), (True, (3, 1, 2, 3, 4, 12)),
        (True, (3, 1, 100, 3, 4, 1200)), (True, (3, 1, 1000, 1, 1, 1000)),
        (False, (3, 1, 3, 3, 4, 12)), (False, (3, 1, 1001, 3, 4, 12012)),
        (False, (3, 1, 100, heads + 1, 1, 100 * (heads + 1))),
        (True, (3, 1, 1, heads + 1, 1, heads + 1)),
        (False, (3, 1, 0, 3, 0, 3)), (False, (3, 1, 100, 3, 4, 12)),
        (False, (3, 1, 1, 3, 4, 1200)),
        # A hub, kind 4.
        (True, (4, 1, 0, 3, 0, 3)), (True, (4, 1, 2, mass, 0, mass)),
        (False, (4, 1, 0, mass + 1, 0, mass + 1)),
        (False, (4, 1, 0, 0, 0, 0)), (False, (4, 1, 0, 3, 0, 0)),
        (False, (4, 1, 0, 3, 1, 3)), (False, (4, 1, 0, 3, 4, 12)),
        (False, (4, 1, 100, 3, 0, 3)), (False, (4, 1, 100, 3, 0, 0)),
        (False, (4, 1, 100, 3, 1, 300)), (False, (4, 1, 3, 3, 0, 3)),
        (False, (4, 1, 0, 3, LARGEST, 3)),
        # Quoted, with its shares.
        (True, (0, 1, 0, 3, 4, 12)), (True, (0, 1, 0, 3, 4, 12, 5, 6)),
        (True, (0, 10000, 0, mass, far, mass * far, 10 ** 18, 10 ** 18)),
        (False, (0, 0, 0, 3, 4, 12)), (False, (0, 10001, 0, 3, 4, 12)),
        (False, (0, 1, 1, 3, 4, 12)), (False, (0, 1, 2, 3, 4, 12)),
        (False, (0, 1, 100, 3, 4, 1200)), (False, (0, 1, 100, 3, 4, 12)),
        (False, (0, 1, 0, 0, 4, 0)), (False, (0, 1, 0, 3, 0, 0)),
        (False, (0, 1, 0, 3, 0, 3)), (False, (0, 1, 0, 3, 4, 3)),
        (False, (0, 1, 0, mass + 1, 1, mass + 1)),
        (False, (0, 1, 0, 1, far + 1, far + 1)),
        (False, (0, 1, 0, 1, far + 95_000, far + 95_000)),
        (False, (0, 1, 0, 3, 4, 3 * 95_004)),
        (False, (0, 1, 0, 3, 4, 12, 10 ** 18 + 1, 0)),
        (False, (0, 1, 0, 3, 4, 12, 0, 10 ** 18 + 1)),
        (False, (0, 1, 0, 3, 4, 12, LARGEST, 0)),
        # No such category; shares of an open one.
        (False, (5, 1, 0, 3, 4, 12)), (False, (LARGEST, 1, 0, 3, 4, 12)),
        (False, (2 ** 32 + 1, 1, 0, 3, 4, 12)),
        (False, (2 ** 63 + 1, 1, 0, 3, 4, 12)),
        (False, (1, 1, 0, 3, 4, 12, 1, 0)), (False, (1, 1, 0, 3, 4, 12, 0, 1)),
        (False, (4, 1, 0, 3, 0, 3, 1, 1)),
    ):
        element += (0,) * (9 - len(element))
        cases.poke_record(ELEMENTS, 1, element)
        cases.strike(0, gives=SOUND if right else UNSOUND)
    # Word 0 and the counts.
    cases.poke_record(ELEMENTS, 1, (1, 1, 0, 3, 4, 12, 0, 0, 0))
    cases.is_sound()
    for index, values in (
        (0, (0, 1, 14082, 14084, 2 ** 32 + 14083, 2 ** 63 + 14083, LARGEST)),
        (1, (0, 1, 2, 3, 5, 16, 17, 2 ** 32 + 4, 2 ** 63, 2 ** 63 + 4,
             LARGEST)),
        (2, (0, 2, 64, 65, 2 ** 32 + 1, 2 ** 63 + 1, LARGEST)),
        (3, (0, 2, 256, 257, 2 ** 32 + 1, 2 ** 61 + 1, 2 ** 63, LARGEST)),
    ):
        for value in values:
            cases.tried([(index, value)])
    # All words the same.
    for value in (0, 1, 14083, LARGEST):
        for index in range(48):
            cases.poke(index, value)
        cases.is_unsound()
        cases.each_call(gives=1)
        cases.dump(0, 48)


# Every word of a book.

def every_sort_of_record(cases, rng):
    """A full book: 16 categories, 64 entries, 256 elements. Categories 5 to 8
    are closed, 13 and 14 closed and empty, 15 and 16 open and empty."""
    cases.new_book(*[number % 4 + 1 for number in range(16)])
    for number in range(64):
        category = (number + 3) % 14 + 1
        group = rng.randrange(3) if category % 4 != 2 else 0
        cases.post(category, group, 1 + rng.randrange(10 ** 6),
                   rng.randrange(10 ** 8), rng.randrange(10 ** 8))
        if category > 12 or rng.randrange(4) == 0:
            cases.strike(number + 1)
    for number in range(256):
        chain = 1 + rng.randrange(10_000)
        category = (number + 3) % 13
        far = 1 + rng.randrange(10 ** 6)
        mass = 1 + rng.randrange(10 ** 6)
        if category == 0:
            cases.quote(chain, rng.randrange(2), mass, far,
                        rng.randrange(10 ** 6), rng.randrange(10 ** 6))
        elif category % 4 == 0:
            cases.enrol(category, chain, rng.randrange(3), mass, 0)
        elif category % 4 == 1 or category % 4 == 3 and rng.randrange(2) == 0:
            cases.enrol(category, chain, rng.randrange(3), mass, far)
        else:
            cases.enrol(category, chain, 100 + rng.randrange(901),
                        1 + rng.randrange(500), far)
    for category in (5, 6, 7, 8):
        cases.close(category)
    for category in (13, 14):
        cases.poke_closed(category)


def part_filled_book(cases, rng):
    """7 categories, 11 entries and 24 elements of every sort. Category 3 has
    no frozen element; an entry of 0 for them does not hinder its closing."""
    cases.new_book(1, 2, 3, 4, 3, 4, 1)
    for number, group in enumerate((0, 0, 0, 0, 1, 2, 1, 0, 1, 2)):
        category = number % 6 + 1
        cases.post(category, group, 1 + rng.randrange(10 ** 8),
                   rng.randrange(10 ** 8), rng.randrange(10 ** 8))
        if number in (1, 4, 5):
            cases.strike(number + 1)
    cases.post(3, 2, 1000, 0, 0)
    for number in range(24):
        chain = 1 + rng.randrange(10_000)
        far = 1 + rng.randrange(10 ** 5)
        mass = 1 + rng.randrange(10 ** 6)
        category, code = number % 7, number // 7 % 3
        if category == 0:
            cases.quote(chain, number // 7 % 2, mass, far,
                        rng.randrange(10 ** 5), rng.randrange(10 ** 5))
        elif category in (4, 6):
            cases.enrol(category, chain, code, mass, 0)
        elif category == 1 or category != 2 and code < 2:
            cases.enrol(category, chain, code, mass, far)
        else:
            cases.enrol(category, chain, 100 + rng.randrange(901),
                        1 + rng.randrange(500), far)


def close_part(cases):
    """Closes 2, 3 and 4, and 7, which is empty, by its word."""
    for category in (2, 3, 4):
        cases.close(category)
    cases.poke_closed(7)


def every_word(cases, rng):
    """One wrong word at a time."""
    every_sort_of_record(cases, rng)
    cases.dump_all()
    cases.is_sound()
    for index in (*range(book.LENGTH + 2), player.MOST_WORDS - 1):
        value = cases.words[index]
        cases.tried([(index, (value + 1) % 2 ** 64)],
                    SOUND if index >= book.LENGTH else None)
    cases.is_sound()
    # 1 for each call, with arguments that the sound book accepts.
    cases.poke(ENTRIES.count, 63)
    cases.poke(ELEMENTS.count, 255)
    cases.is_sound()
    for index in (0, 10, 37, word(ENTRIES, 63, "struck"),
                  word(ELEMENTS, 1, "code"), word(ELEMENTS, 255, "activity")):
        value = cases.words[index]
        cases.poke(index, value + 1000)
        cases.post(1, 0, 1, 1, 1, gives=1)
        cases.strike(1, gives=1)
        cases.enrol(1, 1, 0, 1, 1, gives=1)
        cases.quote(1, 0, 1, 1, 1, 1, gives=1)
        cases.open(1, gives=1)
        cases.close(1, gives=1)
        cases.statement(1, gives=1)
        cases.intensity(5, 0, gives=1)
        cases.poke(index, value)
    cases.is_sound()
    cases.close(1)
    cases.intensity(5, 0)
    cases.dump_book()


def every_word_at_the_limits(cases, rng):
    """The same in a book whose sums are 10^18, 10^18 and 10^17."""
    part_filled_book(cases, rng)
    cases.fill_emissions(1, 0, 0)
    cases.fill_activity(1, 6, 0)
    close_part(cases)
    cases.dump_book()
    cases.is_sound()
    for index in counted_words(cases):
        value = cases.words[index]
        for other in ((value + 1) % 2 ** 64, (value - 1) % 2 ** 64,
                      LARGEST if index // 8 % 2 == 0 else 0):
            if other != value:
                cases.poke(index, other)
                cases.strike(0, gives=None)
        cases.poke(index, value)
    cases.is_sound()
    cases.dump_book()


def counted_words(cases):
    """The indices of the header and of the counted records."""
    indices = list(range(4))
    for listing in book.LISTINGS:
        count = cases.words[listing.count]
        indices += range(listing.start, book.place(listing, count + 1))
    return indices


def uncounted_words(cases, rng):
    """The same in a book whose uncounted records hold anything. An append
    writes every word of its record."""
    part_filled_book(cases, rng)
    close_part(cases)
    for listing in book.LISTINGS:
        for number in range(cases.words[listing.count] + 1, listing.most + 1):
            start = book.place(listing, number)
            for index in range(start, start + book.size(listing)):
                cases.poke(index, rng.getrandbits(64) | 1)
            cases.is_sound()
    cases.poke(2660, LARGEST)
    cases.dump(0, 2666)
    for index in counted_words(cases):
        cases.tried([(index, (cases.words[index] + 1) % 2 ** 64)])
    cases.is_sound()
    # Categories 1, 5 and 6 are open, of the kinds 1, 3 and 4.
    for number in range(8, CATEGORIES.most + 1):
        cases.open(1 + number % 4)
        cases.dump(4, 34)
    for number in range(12, ENTRIES.most + 1):
        cases.post((1, 5, 6)[number % 3], number % 3, 1 + number, number,
                   2 * number)
        if number < 15 or number == ENTRIES.most - 1:
            cases.dump(book.place(ENTRIES, number - 1), 15)
            cases.strike(number)
            cases.dump(book.place(ENTRIES, number - 1), 15)
    for number in range(25, ELEMENTS.most + 1):
        if number % 3 == 0:
            cases.quote(1 + number, 0, 1 + number, 1, 1000, 3000)
        elif number % 3 == 1:
            cases.enrol(6, 1 + number, number % 2, 1 + number, 0)
        else:
            cases.enrol(5, 1 + number, 100 + number, 1 + number, 2)
        if number < 30 or number == ELEMENTS.most - 1:
            cases.dump(book.place(ELEMENTS, number - 1), 27)
    cases.is_sound()
    cases.dump(0, 2666)
    cases.fresh()
    cases.dump(0, 2666)


def add(cases, rng):
    closed_categories(cases)
    closed_at_the_limit(cases)
    sums_past_64_bits(cases)
    records_at_edges(cases)
    every_word(cases, rng)
    every_word_at_the_limits(cases, rng)
    uncounted_words(cases, rng)
