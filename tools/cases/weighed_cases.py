"""Cases of weighed passengers: kg per head, mixtures, soundness, closings and
intensities with stated masses, limits.

An element is code, amount, distance and, where it is weighed, kg per head.
Where shares or results are given, they are reckoned by hand.
"""

from calculation import book, player
from calculation.book import CATEGORIES, ELEMENTS, word
from cases.book_writer import (
    ACTIVITY, EMISSIONS, FARTHEST, LARGEST, SOUND, UNSOUND)
from cases.closing_cases import HEADS, MASS, category, close_with, closed

# In range, and out of it: some are a stated mass in their lowest 8, 16, 32 or
# 63 bits.
IN_RANGE = (0, 1, 2, 99, 100, 101, 255, 256, 299, 300)
OUT_OF_RANGE = (301, 302, 400, 512, 1000, 2 ** 16, 2 ** 16 + 100, 2 ** 32,
                2 ** 32 + 100, 2 ** 63, 2 ** 63 + 80, LARGEST - 1, LARGEST)


# Enrol: kg per head in each kind and code.

def values_of_kg_per_head(cases):
    for kind in (1, 2, 3, 4):
        distance = 0 if kind == 4 else 3
        for code in (0, 1, 2, 100, 1000):
            passengers = code >= 100
            unsuited = kind in (1, 4) if passengers else kind == 2
            for kg_per_head in IN_RANGE + OUT_OF_RANGE:
                right = kg_per_head in (IN_RANGE if passengers else (0,))
                # Each is the first of its category.
                cases.new_book(kind)
                cases.enrol(1, 7, code, 5, distance, kg_per_head,
                            gives=6 if unsuited else 0 if right else 7)
                cases.dump(356, 10)
    # Where a code or a measure is wrong too.
    cases.new_book(3)
    for kg_per_head in (0, 80, 301, LARGEST):
        for code in (3, 50, 99, 1001, LARGEST):
            cases.enrol(1, 1, code, 1, 1, kg_per_head, gives=3)
        cases.enrol(1, 0, 100, 1, 1, kg_per_head, gives=3)
        cases.enrol(2, 1, 100, 1, 1, kg_per_head, gives=2)
        cases.enrol(0, 1, 100, 1, 1, kg_per_head, gives=2)
        cases.enrol(1, 1, 100, 0, 1, kg_per_head, gives=7)
        cases.enrol(1, 1, 100, 1, 0, kg_per_head, gives=7)
    cases.dump_book()


def every_stated_mass(cases):
    """0 to 301 in one book; those that are not weighed are in category 1."""
    cases.new_book(2, 3)
    for kg_per_head in range(1, 255):
        cases.enrol(2, kg_per_head, 100, 1, 2, kg_per_head)
    cases.enrol(1, 1, 100, 1, 2, 0)
    cases.enrol(2, 1, 100, 1, 2, 301, gives=7)
    cases.dump_all()
    cases.new_book(2, 3)
    for kg_per_head in range(255, 301):
        cases.enrol(2, kg_per_head, 100, 1, 2, kg_per_head)
    cases.enrol(2, 1, 100, 1, 2, 301, gives=7)
    cases.dump_book()


# Enrol: mixtures.

def pairs(cases):
    """An earlier passenger element and another one in its category."""
    for kind in (2, 3):
        for first, second in ((100, 100), (1000, 100), (100, 1000)):
            for earlier in (0, 1, 100, 300):
                for kg_per_head in (0, 1, 99, 100, 101, 300, 301, 2 ** 16,
                                    2 ** 32, 2 ** 63, LARGEST):
                    gives = 7 if kg_per_head > 300 else 0
                    if (earlier == 0) != (kg_per_head == 0):
                        gives = 14
                    cases.new_book(kind)
                    cases.enrol(1, 1, first, 1, 1, earlier)
                    cases.enrol(1, 1, second, 2, 3, kg_per_head, gives=gives)
                cases.dump_book()


def mixed_with_others_between(cases):
    """Freight, quotes and other categories stand before and between; the
    earliest passenger of the category decides, and the latest."""
    for weighed in (75, 0):
        not_so = 75 - weighed
        cases.new_book(3, 3, 2, 1, 4)
        # Freight and quotes hold 0 and are not looked at.
        cases.enrol(1, 1, 0, 5, 5)
        cases.quote(1, 0, 5, 5, 5, 5)
        cases.enrol(2, 1, 1, 5, 5)
        cases.enrol(4, 1, 0, 5, 5)
        cases.enrol(5, 1, 0, 5, 0)
        cases.enrol(1, 2, 100, 1, 1, weighed)
        cases.enrol(2, 2, 100, 1, 1, not_so)
        cases.enrol(3, 2, 100, 1, 1, weighed)
        cases.enrol(1, 1, 2, 5, 5)
        cases.enrol(1, 1, 1, 5, 5, 75, gives=7)
        cases.quote(1, 1, 5, 5, 5, 5)
        for _ in range(2):
            cases.enrol(1, 2, 400, 1, 1, not_so, gives=14)
            cases.enrol(2, 2, 400, 1, 1, weighed, gives=14)
            cases.enrol(3, 2, 400, 1, 1, not_so, gives=14)
            cases.enrol(1, 2, 400, 1, 1, weighed)
            cases.enrol(2, 2, 400, 1, 1, not_so)
            cases.enrol(3, 2, 400, 1, 1, weighed)
            cases.enrol(2, 1, 0, 5, 5)
        # Not a passenger, or not one that suits.
        for kg_per_head in (0, 75):
            cases.enrol(4, 1, 100, 1, 1, kg_per_head, gives=6)
            cases.enrol(5, 1, 100, 1, 0, kg_per_head, gives=6)
            cases.enrol(3, 1, 0, 1, 1, kg_per_head, gives=6)
        cases.dump_book()
        # A closed category is 4, and the others go on.
        cases.post(1, 0, 1, 1000, 999)
        cases.close(1)
        cases.enrol(1, 2, 400, 1, 1, not_so, gives=4)
        cases.enrol(1, 2, 400, 1, 1, weighed, gives=4)
        cases.enrol(3, 2, 400, 1, 1, weighed)
        cases.enrol(3, 2, 400, 1, 1, not_so, gives=14)
        cases.open(3)
        cases.enrol(6, 2, 400, 1, 1, not_so)
        cases.enrol(6, 2, 400, 1, 1, weighed, gives=14)
        cases.dump_book()


def refused_ones_leave_nothing(cases):
    """A refused passenger is no earlier one, whatever refused it."""
    cases.new_book(2)
    cases.enrol(1, 1, 100, 0, 1, 80, gives=7)
    cases.enrol(1, 1, 100, 1, 1, 301, gives=7)
    cases.enrol(1, 0, 100, 1, 1, 80, gives=3)
    cases.enrol(1, 1, 100, 1, 1)
    cases.enrol(1, 1, 100, 1, 1, 80, gives=14)
    cases.enrol(1, 1, 100, 1, 1)
    cases.new_book(2)
    cases.enrol(1, 1, 100, 0, 1, gives=7)
    cases.enrol(1, 1, 1001, 1, 1, gives=3)
    cases.enrol(1, 1, 100, 1, 1, 80)
    cases.enrol(1, 1, 100, 1, 1, gives=14)
    cases.enrol(1, 1, 100, 1, 1, 1)
    cases.dump_book()


def all_categories(cases):
    """16 categories, every other one weighed, then the others."""
    for turn in (0, 1):
        cases.new_book(*[2 + number % 2 for number in range(16)])
        for number in range(1, 17):
            cases.enrol(number, number, 100, 1, 1,
                        number if (number + turn) % 2 else 0)
        for number in (1, 2, 3, 8, 9, 15, 16):
            weighed = (number + turn) % 2
            cases.enrol(number, number, 200, 1, 1,
                        0 if weighed else number, gives=14)
            cases.enrol(number, number, 200, 1, 1,
                        300 if weighed else 0)
        cases.dump_book()


def before_and_after(cases):
    """14 with the grounds before it and behind it, one at a time."""
    cases.new_book(2, 3, 1, 2)
    cases.enrol(1, 1, 100, 1, 1)
    cases.enrol(2, 1, 100, 1, 1, 50)
    cases.enrol(4, 1, 100, 1, 1, 50)
    cases.close(4)
    for number, kg_per_head in ((1, 50), (2, 0)):
        # 2 and 3 come first, also 6 in another category.
        cases.enrol(number + 4, 1, 100, 1, 1, kg_per_head, gives=2)
        cases.enrol(number, 0, 100, 1, 1, kg_per_head, gives=3)
        cases.enrol(number, 1, 99, 1, 1, kg_per_head, gives=3)
        cases.enrol(3, 1, 100, 1, 1, kg_per_head, gives=6)
        # 7 comes later: amount, distance.
        for amount, distance in ((0, 1), (HEADS + 1, 1), (1, 0),
                                 (1, FARTHEST + 1), (LARGEST, LARGEST)):
            cases.enrol(number, 1, 100, amount, distance, kg_per_head,
                        gives=14)
    cases.enrol(1, 1, 100, 0, 0, 301, gives=14)
    cases.enrol(1, 1, 100, 1, 1, LARGEST, gives=14)
    cases.enrol(2, 1, 100, 1, 1, LARGEST, gives=7)
    # 4.
    cases.enrol(4, 1, 100, 1, 1, 0, gives=4)
    cases.enrol(4, 1, 100, 1, 1, 50, gives=4)
    # 10, where nothing is left of 10^17.
    cases.open(4)
    cases.fill_activity(3, 5, 0)
    cases.enrol(1, 1, 100, 1, 1, 0, gives=10)
    cases.enrol(1, 1, 100, 1, 1, 1, gives=14)
    cases.enrol(2, 1, 100, 1, 1, 1, gives=10)
    cases.enrol(2, 1, 100, 1, 1, 0, gives=14)
    cases.enrol(2, 1, 100, HEADS, FARTHEST, 0, gives=14)
    cases.dump_book()


# A full book.

def full_book_of_passengers(cases):
    """256 passengers of one category; the last is of the other sort."""
    cases.lend(book.LENGTH)
    for weighed in (80, 0):
        not_so = 80 - weighed
        cases.new_book(2)
        cases.post(1, 0, 1, 10_000, 777)
        for number in range(255):
            cases.enrol(1, 1 + number, 100 + number, 1 + number % 3, 1,
                        weighed)
        cases.enrol(1, 1, 100, 1, 1, not_so, gives=14)
        cases.enrol(1, 1, 100, 1, 1, 301, gives=7 if weighed else 14)
        cases.enrol(1, 1, 1000, 1, 1, weighed)
        # 14 and 7 come before 8.
        cases.enrol(1, 1, 100, 1, 1, not_so, gives=14)
        cases.enrol(1, 1, 100, 1, 1, 301, gives=7 if weighed else 14)
        cases.enrol(1, 1, 100, 1, 1, weighed, gives=8)
        cases.quote(1, 0, 1, 1, 1, 1, gives=8)
        flips_of_one(cases, not_so)
        cases.close(1)
        cases.intensity(1, 100)
        cases.dump_all()
        flips_of_one(cases, not_so)
        # All but the last, then all.
        for number in range(1, 256):
            cases.poke(word(ELEMENTS, number, "kg_per_head"), not_so)
        cases.is_unsound()
        cases.poke(word(ELEMENTS, 256, "kg_per_head"), not_so)
        cases.is_sound()
        cases.intensity(1, 100)
    cases.lend(player.MOST_WORDS)


def flips_of_one(cases, kg_per_head):
    """One passenger of 256 is of the other sort."""
    for number in (1, 2, 3, 127, 128, 129, 254, 255, 256):
        cases.tried([(word(ELEMENTS, number, "kg_per_head"), kg_per_head)],
                    UNSOUND)
    # The first two, the last two, and every other one.
    for numbers in ((1, 2), (255, 256), range(1, 257, 2)):
        cases.tried([(word(ELEMENTS, number, "kg_per_head"), kg_per_head)
                     for number in numbers], UNSOUND)


# Soundness.

def kg_word(number):
    return word(ELEMENTS, number, "kg_per_head")


def damaged_book(cases):
    """Categories 2 open and 3 closed are weighed, 5 closed and 6 open are
    not, 16 is weighed and 15 is not; between them freight, hubs, quotes.
    The passengers of each category, by number."""
    kinds = [2] * 16
    for number, kind in ((1, 1), (3, 3), (4, 4), (6, 3), (16, 3)):
        kinds[number - 1] = kind
    cases.new_book(*kinds)
    cases.post(3, 0, 7, 11, 13)
    cases.post(5, 0, 17, 19, 23)
    passengers = {}

    def enrol(target, code, kg_per_head=0):
        number = cases.enrol(target, 1 + target, code, 2 + target,
                             0 if target == 4 else 3, kg_per_head)[1]
        if code >= 100:
            passengers.setdefault(target, []).append(number)

    for turn in range(3):
        enrol(2, 100, 60 + turn)
        enrol(1, turn)
        enrol(3, 200, 100 + turn)
        enrol(3, turn)
        cases.quote(1, turn % 2, 5, 6, 7, 8)
        enrol(5, 300)
        enrol(4, turn)
        enrol(6, 400 + turn)
        enrol(6, 2 - turn)
        enrol(15, 1000)
        enrol(16, 999, 300)
        enrol(16, turn)
    for target in (3, 5):
        cases.close(target)
    return passengers


def damaged_words(cases):
    """kg per head of every element, one at a time."""
    passengers = damaged_book(cases)
    cases.dump_book()
    weighed = {number: target in (2, 3, 16)
               for target, numbers in passengers.items()
               for number in numbers}
    for number in range(1, cases.words[ELEMENTS.count] + 1):
        for kg_per_head in (0, 1, 100, 300, 301, 2 ** 32, 2 ** 32 + 1,
                            LARGEST):
            right = kg_per_head == 0
            if weighed.get(number):
                right = 1 <= kg_per_head <= 300
            cases.tried([(kg_word(number), kg_per_head)],
                        SOUND if right else UNSOUND)
    # Two of three, and all three, of each category.
    for target, numbers in passengers.items():
        other = 0 if weighed[numbers[0]] else 45
        for some in (numbers[:2], numbers[1:], numbers[::2]):
            cases.tried([(kg_word(number), other) for number in some],
                        UNSOUND)
        cases.tried([(kg_word(number), other) for number in numbers], SOUND)
        # All but the last word are right, and then that one is too.
        for number in numbers[:-1]:
            cases.poke(kg_word(number), other)
        cases.is_unsound()
        cases.each_call(gives=1)
        cases.poke(kg_word(numbers[-1]), other)
        cases.is_sound()
    cases.dump_book()


def damage_and_back(cases):
    """A weighed book that is unsound for each call, and sound again."""
    cases.new_book(3, 2)
    cases.post(2, 0, 1, 9, 8)
    cases.enrol(2, 1, 100, 1, 1, 70)
    cases.enrol(1, 1, 100, 1, 1, 70)
    cases.enrol(1, 1, 0, 1, 1)
    cases.enrol(2, 1, 100, 1, 1, 90)
    for index, value in ((kg_word(1), 0), (kg_word(4), 0), (kg_word(4), 301),
                         (kg_word(2), 301), (kg_word(3), 1)):
        old = cases.words[index]
        cases.poke(index, value)
        cases.each_call(gives=1)
        cases.enrol(2, 1, 100, 1, 1, 70, gives=1)
        cases.enrol(2, 1, 100, 1, 1, gives=1)
        cases.close(2, gives=1)
        cases.intensity(2, 100, gives=1)
        cases.poke(index, old)
        cases.is_sound()
    # Both of category 2 are 0: those of category 1 do not matter.
    cases.poke(kg_word(1), 0)
    cases.poke(kg_word(4), 0)
    cases.enrol(2, 1, 100, 1, 1, 70, gives=14)
    cases.enrol(2, 1, 100, 1, 1)
    cases.enrol(1, 1, 100, 1, 1, gives=14)
    cases.enrol(1, 1, 100, 1, 1, 70)
    cases.dump_book()
    # An element that moves to the other category, or becomes a passenger.
    cases.tried([(word(ELEMENTS, 2, "category"), 2)], UNSOUND)
    cases.tried([(word(ELEMENTS, 4, "category"), 1)], UNSOUND)
    cases.tried([(word(ELEMENTS, 3, "code"), 100),
                 (word(ELEMENTS, 3, "activity"), 100)], UNSOUND)
    cases.tried([(word(ELEMENTS, 3, "code"), 100),
                 (word(ELEMENTS, 3, "activity"), 100), (kg_word(3), 5)],
                SOUND)
    cases.tried([(word(ELEMENTS, 2, "code"), 2),
                 (word(ELEMENTS, 2, "activity"), 1)], UNSOUND)
    cases.tried([(word(ELEMENTS, 2, "code"), 2),
                 (word(ELEMENTS, 2, "activity"), 1), (kg_word(2), 0)], SOUND)


def single_records(cases):
    """One element with all its words; whether it is right stands before
    them."""
    cases.new_book(1, 2, 3, 4)
    cases.enrol(1, 1, 0, 1, 1)
    for right, element in (
        # The stated mass is in no activity word.
        (True, (2, 1, 100, 3, 4, 1200, 0, 0, 1)),
        (True, (2, 1, 100, 3, 4, 1200, 0, 0, 100)),
        (True, (2, 1, 100, 3, 4, 1200, 0, 0, 300)),
        (True, (3, 1, 1000, 3, 4, 12000, 0, 0, 50)),
        (False, (2, 1, 100, 3, 4, 600, 0, 0, 50)),
        (False, (2, 1, 100, 3, 4, 3600, 0, 0, 300)),
        (False, (2, 1, 100, 3, 4, 1200, 0, 0, 301)),
        (False, (3, 1, 100, 3, 4, 1200, 0, 0, 2 ** 16 + 1)),
        (False, (3, 1, 100, 3, 4, 1200, 0, 0, LARGEST)),
        # Freight of each code and kind, and quotes.
        (False, (1, 1, 0, 3, 4, 12, 0, 0, 1)),
        (False, (1, 1, 1, 3, 4, 12, 0, 0, 100)),
        (False, (1, 1, 2, 3, 4, 12, 0, 0, 300)),
        (False, (3, 1, 0, 3, 4, 12, 0, 0, 1)),
        (False, (3, 1, 1, 3, 4, 12, 0, 0, 1)),
        (False, (3, 1, 2, 3, 4, 12, 0, 0, LARGEST)),
        (False, (4, 1, 0, 3, 0, 3, 0, 0, 1)),
        (False, (4, 1, 1, 3, 0, 3, 0, 0, 2 ** 32)),
        (False, (4, 1, 2, 3, 0, 3, 0, 0, 100)),
        (False, (0, 1, 0, 3, 4, 12, 5, 6, 1)),
        (False, (0, 1, 0, 3, 4, 12, 0, 0, 100)),
        (False, (0, 1, 0, 3, 4, 12, 5, 6, LARGEST)),
        (True, (0, 1, 0, 3, 4, 12, 5, 6, 0)),
        # No such code or category.
        (False, (2, 1, 99, 3, 4, 1188, 0, 0, 80)),
        (False, (2, 1, 1001, 3, 4, 12012, 0, 0, 80)),
        (False, (5, 1, 100, 3, 4, 1200, 0, 0, 80)),
        (False, (0, 1, 100, 3, 4, 1200, 0, 0, 80)),
        (False, (1, 1, 100, 3, 4, 1200, 0, 0, 80)),
    ):
        cases.poke_record(ELEMENTS, 1, element)
        cases.strike(0, gives=SOUND if right else UNSOUND)
        # The same as the second, where the first is not weighed.
        cases.poke_record(ELEMENTS, 2, element)
        cases.poke_record(ELEMENTS, 1, (2, 1, 100, 1, 1, 100, 0, 0, 0))
        cases.poke(ELEMENTS.count, 2)
        cases.strike(0, gives=SOUND if right and element[0] != 2
                     else UNSOUND)
        cases.poke(ELEMENTS.count, 1)


def uncounted_elements(cases):
    """Those behind the last counted one would be a mixture; none of them and
    no word behind the book is looked at."""
    cases.new_book(2, 3)
    for _ in range(3):
        cases.enrol(1, 1, 100, 1, 1, 60)
    for number in (4, 5, 6, 255, 256):
        cases.poke_record(ELEMENTS, number,
                          (1, 1, 100, 1, 1, 100, 0, 0, 301 * (number == 5)))
    for index, value in enumerate((1, 1, 100, 1, 1, 100, 0, 0, 0),
                                  book.LENGTH):
        cases.poke(index, value)
    cases.is_sound()
    cases.enrol(1, 1, 100, 1, 1, gives=14)
    # Counted, they are one.
    cases.poke(ELEMENTS.count, 4)
    cases.is_unsound()
    cases.poke(ELEMENTS.count, 3)
    # The ninth word is written: with a stated mass, with 0.
    cases.enrol(1, 1, 100, 1, 1, 61)
    cases.enrol(2, 1, 0, 1, 1)
    cases.dump_record(ELEMENTS, 4)
    cases.dump_record(ELEMENTS, 5)
    cases.poke(kg_word(6), LARGEST)
    cases.quote(1, 0, 1, 1, 1, 1)
    cases.dump_record(ELEMENTS, 6)
    cases.poke(kg_word(7), LARGEST)
    cases.enrol(2, 1, 100, 1, 1)
    cases.dump_book()
    # Fewer are counted: the only weighed ones are gone.
    cases.poke(ELEMENTS.count, 0)
    cases.enrol(1, 1, 100, 1, 1)
    cases.enrol(1, 1, 100, 1, 1, 60, gives=14)
    cases.dump_all()
    cases.fresh()
    cases.dump_all()


# Closings.

def worked_row(cases):
    """"Kind 3, A 9, freight activity 100, one head each of codes 100 and 400
    over 1 m: 3, 1, 5." With 50 kg per head P is 100: 5, 1, 3."""
    for kg_per_head, shares, freight, heads in (
        (0, (3, 1, 5), 30, 1), (100, (3, 1, 5), 30, 1),
        (50, (5, 1, 3), 50, 1),
        # P 600 is 1.3 and 7.7; P 2 is 8.8 and 0.2; P 198 is 3.02 and 5.98;
        # P 202 is 2.98 and 6.02.
        (300, (1, 2, 6), 10, 2), (1, (9, 0, 0), 90, 0),
        (99, (3, 1, 5), 30, 1), (101, (3, 1, 5), 30, 1),
    ):
        cases.new_book()
        closed(cases, 3, [(0, 9, 0)],
               [(0, 100, 1), (100, 1, 1, kg_per_head),
                (400, 1, 1, kg_per_head)], shares, (0, 0, 0))
        cases.intensity(1, 0, shows=(freight, 0))
        cases.intensity(1, 100, shows=(heads, 0))
        cases.dump_book()


def stated_masses(cases):
    cases.new_book()
    # F 500, P 1500, C 1050. Of A 100 freight gets 25, of 40 it gets 10; 75
    # over 300, 750 is 21.4, 53.6 and 30 is 8.6, 21.4.
    number = closed(
        cases, 3, [(0, 100, 40), (1, 7, 0), (2, 0, 9)],
        [(0, 3, 100), (1, 2, 50), (2, 1, 100), (150, 2, 1, 300),
         (250, 3, 1, 300)],
        (15, 12, 5, 21, 54), (6, 2, 11, 9, 21))
    cases.intensity(number, 0, shows=(50, 20))
    cases.intensity(number, 1, shows=(120, 20))
    cases.intensity(number, 2, shows=(50, 110))
    cases.intensity(number, 100, shows=(7, 3))
    # Different masses: P is 20 and 180, F 100. Among passengers the class
    # counts and not the mass.
    closed(cases, 3, [(0, 12, 3)],
           [(0, 100, 1), (100, 1, 1, 20), (100, 1, 1, 180)],
           (4, 4, 4), (1, 1, 1))
    # By heads, distance and mass: P is 2 × 3 × 10 and 1 × 4 × 30, F 60; C is
    # 600 and 800. 8 is 2, 6 and 6 over 3, 4 is 2.6, 3.4.
    closed(cases, 3, [(0, 8, 4)],
           [(100, 2, 3, 10), (200, 1, 4, 30), (1, 60, 1)],
           (3, 3, 2), (1, 2, 1))
    # Passengers alone: the mass does not matter.
    for kind in (2, 3):
        closed(cases, kind, [(0, 8, 9)], [(100, 1, 1, 1), (300, 1, 1, 300)],
               (2, 6), (2, 7))
    # A tie between F and P, whichever is enrolled first.
    closed(cases, 3, [(0, 1, 3)], [(0, 75, 1), (100, 1, 1, 75)],
           (1, 0), (2, 1))
    closed(cases, 3, [(0, 1, 3)], [(100, 1, 1, 75), (0, 75, 1)],
           (0, 1), (1, 2))
    # F 1, P 1; then F 300, P 1 and F 1, P 300.
    closed(cases, 3, [(0, 7, 1)], [(1000, 1, 1, 1), (0, 1, 1)],
           (3, 4), (0, 1))
    closed(cases, 3, [(0, 301, 150)], [(1000, 1, 1, 1), (0, 300, 1)],
           (1, 300), (0, 150))
    closed(cases, 3, [(0, 301, 151)], [(1000, 1, 1, 300), (0, 1, 1)],
           (300, 1), (150, 1))
    # A weighed category and one that is not, with the same numbers: P 50 and
    # F 50, P 100 and F 50.
    closed(cases, 3, [(0, 6, 6)], [(0, 50, 1), (500, 1, 1, 50)],
           (3, 3), (3, 3))
    closed(cases, 3, [(0, 6, 6)], [(0, 50, 1), (500, 1, 1)], (2, 4), (2, 4))
    # A stated 100.
    closed(cases, 3, [(0, 6, 6)], [(0, 50, 1), (500, 1, 1, 100)],
           (2, 4), (2, 4))
    cases.dump_all()
    for chain in range(1, 6):
        cases.statement(chain)


def far_apart(cases):
    """P much smaller than F, and much larger."""
    cases.new_book()
    closed(cases, 3, [(0, 4, 10 ** 6)],
           [(100, 1, 1, 1), (0, MASS, FARTHEST)], (0, 4), (0, 10 ** 6))
    cases.intensities(1)
    closed(cases, 3, [(0, 1000, 999)],
           [(0, 1, 1), (100, HEADS, FARTHEST, 300)], (0, 1000), (0, 999))
    cases.intensities(2)
    # F 1, P 10^16: of 10^18 freight has a little less than 100.
    cases.new_book()
    closed(cases, 3, [(0, EMISSIONS, EMISSIONS - 1)],
           [(0, 1, 1), (100, HEADS, FARTHEST, 250)],
           (100, EMISSIONS - 100), (100, EMISSIONS - 101))
    cases.intensities(1)
    cases.dump_book()


def many_masses(cases):
    """Units left over, with a mass for each; every chain is asked for."""
    for kind in (2, 3):
        cases.new_book()
        category(cases, kind, [(0, 10 ** 15 + 37, 10 ** 9 + 7)],
                 [(100 + number * 7, 1 + number * 37 % 101,
                   1 + number * 53 % 997, 1 + number * 31 % 300)
                  if kind == 2 or number % 3 else
                  (number % 2, 1 + number * 3, 1 + number * 5)
                  for number in range(120)])
        cases.close(1)
        cases.intensities(1)
        for chain in range(1, 121, 7):
            cases.statement(chain)
        cases.dump_book()


def mixed_lists_with_groups(cases):
    """Every other category weighed, freight of each group beside them."""
    cases.new_book()
    for turn in range(8):
        kg_per_head = (40 + 30 * turn,) if turn % 2 == 0 else ()
        category(cases, 3,
                 [(0, 10 ** 12 + turn, 10 ** 11 + 3 * turn),
                  (1, 77_777, 13 * turn), (2, 5 * turn, 99_991)],
                 [(0, 11 + turn, 13), (100, 3, 7 + turn, *kg_per_head),
                  (1, 5, 5), (400, 1 + turn, 9, *kg_per_head), (2, 3, 8),
                  (1000, 2, 2, *kg_per_head)])
        cases.quote(9, turn % 2, 1000, 5, 6, 7)
    for number in (8, 1, 3, 2, 5, 4, 7, 6):
        cases.close(number)
        cases.intensities(number)
    for chain in range(1, 10):
        cases.statement(chain)
    cases.dump_all()


# Intensities.

def results(cases):
    """Kind, entries, elements, code, operation and provision."""
    for kind, entries, elements, code, shows in (
        # F and P are 50: 1 and 1, 3 and 2.
        (3, [(0, 2, 5)], [(0, 50, 1), (100, 1, 1, 50)], 0, (20, 60)),
        (3, [(0, 2, 5)], [(0, 50, 1), (100, 1, 1, 50)], 100, (1, 2)),
        # F and P are 300, C 200: halves.
        (3, [(0, 2, 6)], [(0, 300, 1), (200, 1, 1, 300)], 100, (0, 2)),
        (3, [(0, 2, 6)], [(0, 300, 1), (200, 1, 1, 300)], 0, (3, 10)),
        (3, [(0, 2, 6), (1, 3, 0)], [(1, 300, 1), (200, 1, 1, 300)], 1,
         (13, 10)),
        (3, [(0, 2, 6), (2, 0, 3)], [(2, 300, 1), (200, 1, 1, 300)], 2,
         (3, 20)),
        # Passengers alone, where the mass does not matter.
        (2, [(0, 1, 3)], [(200, 1, 1, 1)], 100, (0, 2)),
        (2, [(0, 1, 3)], [(201, 1, 1, 300)], 100, (0, 1)),
        # F 1, P 300.
        (3, [(0, 301, 602)], [(0, 1, 1), (1000, 1, 1, 300)], 0, (1000, 2000)),
        (3, [(0, 301, 602)], [(0, 1, 1), (1000, 1, 1, 300)], 100, (30, 60)),
    ):
        cases.new_book()
        category(cases, kind, entries, elements)
        cases.close(1)
        cases.intensity(1, code, shows=shows)
        cases.intensities(1)
    cases.dump_book()


def limits_of_intensity(cases):
    """F 100, P 300: freight has a quarter, passengers three."""
    elements = [(0, 100, 1), (100, 1, 1, 300)]
    for operation, code, gives in (
        (4 * 10 ** 14, 0, 0), (4 * 10 ** 14 + 4, 0, 10),
        (4 * 10 ** 14 + 4, 100, 0), (4 * 10 ** 15 // 3, 100, 0),
        (4 * 10 ** 15 // 3 + 2, 100, 10),
    ):
        for entry in ((0, operation, 0), (0, 0, operation)):
            cases.new_book()
            category(cases, 3, [entry], elements)
            cases.close(1)
            cases.intensity(1, code, gives=gives)
    # Without activity: 9, with a weighed passenger or without.
    cases.new_book()
    category(cases, 3, [(0, 1, 1)], [(100, 1, 1, 1)])
    cases.close(1)
    for code in (0, 1, 2):
        cases.intensity(1, code, gives=9)
    cases.intensity(1, 100, shows=(1, 1))
    cases.dump_book()


def other_kg_words(cases):
    """The stated mass of a closed category is another afterwards: the shares
    stay, the intensities follow. No call changes it."""
    cases.new_book()
    # F 100; A 9 over 100, 100 is 5, 4.
    closed(cases, 3, [(0, 9, 0)], [(0, 100, 1), (100, 1, 1)], (5, 4), (0, 0))
    for kg_per_head, freight, heads in ((0, 50, 4), (100, 50, 4), (300, 20, 7),
                                        (1, 90, 0), (50, 60, 3), (200, 30, 6)):
        cases.poke(kg_word(2), kg_per_head)
        cases.is_sound()
        cases.intensity(1, 0, shows=(freight, 0))
        cases.intensity(1, 100, shows=(heads, 0))
        cases.statement(1, shows=(1, 0, 5, 0, 5))
        cases.statement(2, shows=(1, 0, 4, 0, 4))
    cases.dump_book()


# The limits of ground 10.

def most_passengers(cases):
    """25 times 10^6 heads over 40,000 km are 10^17 by 100 kg a head, whatever
    is stated: P is 3 × 10^17 or 10^15."""
    each = EMISSIONS // 25
    for kg_per_head in (300, 1, 100):
        for kind in (2, 3):
            cases.new_book()
            number = closed(
                cases, kind, [(0, EMISSIONS, EMISSIONS - 1)],
                [(1000, HEADS, FARTHEST, kg_per_head)] * 25,
                [each] * 25, [each] * 24 + [each - 1])
            cases.intensity(number, 100, shows=(100, 100))
            cases.open(2)
            for other in (0, 1, 300):
                cases.enrol(2, 1, 100, 1, 1, other, gives=10)
            cases.quote(1, 0, 1, 1, 0, 0, gives=10)
            cases.is_sound()
            cases.dump_book()


def most_weight(cases):
    """F+P of 3 × 10^17 and a little less: 24 times 10^6 heads and 999,999,
    over 40,000 km, leave 4 × 10^9 to freight."""
    heads = ([(1000, HEADS, FARTHEST, 300)] * 24
             + [(999, HEADS - 1, FARTHEST, 300)])
    for operation, provision in ((EMISSIONS, EMISSIONS - 1), (7, 0)):
        cases.new_book()
        category(cases, 3, [(0, operation, provision)],
                 [(0, 100, FARTHEST), *heads])
        for kg_per_head in (1, 300):
            cases.enrol(1, 1, 100, 1, 1, kg_per_head, gives=10)
        cases.enrol(1, 1, 0, 1, 1, gives=10)
        cases.is_sound()
        cases.close(1)
        cases.intensities(1)
        cases.dump_book()
    # F 4 × 10^16 and P 1.8 × 10^17: 2 to 9.
    cases.new_book()
    category(cases, 3, [(0, 11 * 10 ** 16, 22)],
             [(1, MASS, FARTHEST)] + [(100, HEADS, FARTHEST, 300)] * 15)
    part = 9 * 10 ** 16 // 15
    close_with(cases, 1, [2 * 10 ** 16] + [part] * 15,
               [4] + [2] * 3 + [1] * 12)
    cases.intensities(1)
    cases.dump_book()


def activity_of_weighed(cases):
    """One head over 1 m is 100 of the limit, whatever its stated mass."""
    for left in (99, 100, 101, 199, 200, 299, 300):
        for kg_per_head in (1, 99, 100, 101, 300):
            cases.new_book(1, 2, 3, 4)
            cases.fill_activity(1, 4, left)
            for place in range(3):
                fits = left >= 100 * (place + 1)
                cases.enrol(2 + place % 2, 1, 100, 1, 1, kg_per_head,
                            gives=0 if fits else 10)
            cases.is_sound()
    cases.dump_book()
    # The sum of a damaged book: 100 a head too.
    cases.new_book(2, 1)
    for _ in range(25):
        cases.enrol(1, 1, 100, HEADS, FARTHEST, 300)
    if book.whole_activity(book.Book(cases.words)) != ACTIVITY:
        raise AssertionError("the activity is not 10^17")
    cases.is_sound()
    for number in (1, 25):
        cases.tried([(kg_word(number), 1)], SOUND)
        cases.tried([(word(ELEMENTS, number, "code"), 101),
                     (word(ELEMENTS, number, "activity"),
                      101 * HEADS * FARTHEST)], SOUND)
    cases.poke(word(ELEMENTS, 25, "amount"), HEADS - 1)
    cases.poke(word(ELEMENTS, 25, "activity"), 100 * (HEADS - 1) * FARTHEST)
    for number in range(1, 26):
        cases.poke(kg_word(number), 1)
    # 4 × 10^9 are left, and no more.
    cases.enrol(1, 1, 100, 1, FARTHEST, 300)
    cases.is_sound()
    cases.enrol(1, 1, 100, 1, 1, 1, gives=10)
    cases.enrol(2, 1, 0, 1, 1, gives=10)
    cases.poke(word(ELEMENTS, 25, "amount"), HEADS)
    cases.poke(word(ELEMENTS, 25, "activity"), 100 * HEADS * FARTHEST)
    cases.is_unsound()
    cases.dump_book()


def closed_word_alone(cases):
    """A mixture in a category that is closed by its word alone."""
    for kind in (2, 3):
        cases.new_book(kind, kind)
        cases.enrol(2, 1, 100, 1, 1, 80)
        cases.enrol(2, 1, 100, 1, 1, 80)
        closed_word = word(CATEGORIES, 2, "closed")
        for changes, gives in (
            ([(closed_word, 1)], SOUND),
            ([(closed_word, 1), (kg_word(1), 0)], UNSOUND),
            ([(closed_word, 1), (kg_word(2), 0)], UNSOUND),
            ([(closed_word, 1), (kg_word(1), 0), (kg_word(2), 0)], SOUND),
            ([(kg_word(2), 0)], UNSOUND),
        ):
            cases.tried(changes, gives)


def add(cases):
    values_of_kg_per_head(cases)
    every_stated_mass(cases)
    pairs(cases)
    mixed_with_others_between(cases)
    refused_ones_leave_nothing(cases)
    all_categories(cases)
    before_and_after(cases)
    full_book_of_passengers(cases)
    damaged_words(cases)
    damage_and_back(cases)
    single_records(cases)
    uncounted_elements(cases)
    worked_row(cases)
    stated_masses(cases)
    far_apart(cases)
    many_masses(cases)
    mixed_lists_with_groups(cases)
    results(cases)
    limits_of_intensity(cases)
    other_kg_words(cases)
    most_passengers(cases)
    most_weight(cases)
    activity_of_weighed(cases)
    closed_word_alone(cases)
