"""Checks of close and intensity; book_checks.py makes them."""

import random

from calculation import calls
from calculation.second_way import Lists, is_sound_by_words
from checks.exact_shares import check_exact_shares

SEED = 15

# Inputs whose output is written out here, reckoned by hand.

WRITTEN_OUT = (
    # "Kind 3, A 9, freight activity 100, one head each of codes 100 and 400
    # over 1 m: 3, 1, 5." F is 100, P 200, C 500. Intensities: 3 × 1000 / 100
    # is 30, 6 × 100 / 500 is 1.2.
    ("1; 2 3; 3 1 0 1 9 0; 5 1 1 0 100 1; 5 1 1 100 1 1; 5 1 1 400 1 1;"
     "9 1 0; 7 1; 14 4 3; 14 356 28; 9 1 0; 9 1 100; 9 1 1; 9 1 2; 7 1",
     "0; 0 1; 0 1; 0 1; 0 2; 0 3; 5 0 0; 0; 3 1 0;"
     "1 1 0 100 1 100 3 0 0 1 1 100 1 1 100 1 0 0 1 1 400 1 1 400 5 0 0 0;"
     "0 30 0; 0 1 0; 9 0 0; 9 0 0; 4"),
    # The same with 50 kg per head: F is 100, P 100, C 500. 9 over 100, 100 is
    # 5, 4 and 4 over 100, 400 is 1, 3. Intensities: 5 × 1000 / 100 is 50, 4 ×
    # 100 / 500 is 0.8.
    ("1; 2 3; 3 1 0 1 9 0; 5 1 1 0 100 1; 5 1 1 100 1 1 50; 5 1 1 400 1 1 50;"
     "7 1; 14 356 28; 9 1 0; 9 1 100",
     "0; 0 1; 0 1; 0 1; 0 2; 0 3; 0;"
     "1 1 0 100 1 100 5 0 0 1 1 100 1 1 100 1 0 50 1 1 400 1 1 400 3 0 50 0;"
     "0 50 0; 0 1 0"),
    # Different masses. P is 2 × 3 × 10 and 1 × 4 × 30, or 180, F 60; C is 600
    # and 800. Operation: 8 is 2, 6 and 6 over 600, 800 is 2.6, 3.4. Provision:
    # 4 is 1, 3 and 3 is 1.3, 1.7. Intensities: 2 × 1000 / 60 is 33.3, 16.7; 6
    # and 3 × 100 / 1400 are 0.4, 0.2.
    ("1; 2 3; 3 1 0 1 8 4; 5 1 1 100 2 3 10; 5 1 1 200 1 4 30; 5 1 1 1 60 1;"
     "7 1; 14 362 3; 14 371 3; 14 380 3; 9 1 0; 9 1 1; 9 1 100",
     "0; 0 1; 0 1; 0 1; 0 2; 0 3; 0; 3 1 10; 3 2 30; 2 1 0;"
     "0 33 17; 0 33 17; 0 0 0"),
    # Weighed and not in two categories, A 6 and F 50: P 50, then P 100. With
    # other masses in the words the intensity is another, the shares stay: P
    # 250 is 1, 5 and P 1 is 6, 0.
    ("1; 2 3; 2 3; 3 1 0 1 6 6; 3 2 0 1 6 6; 5 1 1 0 50 1; 5 2 1 0 50 1;"
     "5 1 1 500 1 1 50; 5 2 1 500 1 1; 7 1; 7 2; 14 362 1; 14 371 1; 14 380 1;"
     "14 389 1; 9 1 0; 9 2 0; 12 382 250; 9 1 0; 12 382 1; 9 1 0; 14 380 1",
     "0; 0 1; 0 2; 0 1; 0 2; 0 1; 0 2; 0 3; 0 4; 0; 0; 3; 2; 3; 4; 0 60 60;"
     "0 40 40; 0 20 20; 0 120 120; 3"),
    # 25 times 10^6 heads of 300 kg over 40,000 km are 10^17 by 100 kg a head:
    # P is 3 × 10^17. 25 × 10^16 µg are 10^16 each; C is 10^17, so 250 mg.
    ("1; 2 2; 3 1 0 1000000000000 250000 0;"
     + "5 1 1 100 1000000 40000000 300;" * 25
     + "5 1 1 100 1 1 1; 7 1; 14 362 2; 14 578 2; 9 1 100",
     "0; 0 1; 0 1;" + "".join("0 %d;" % number for number in range(1, 26))
     + "10 0; 0; 10000000000000000 0; 10000000000000000 0; 0 250 0"),
    # "A 8, B1 5, ambient 100, chilled 300: 2 and 11." Intensities: 8000 / 400
    # is 20, 5000 / 300 is 16.67.
    ("1; 2 1; 3 1 0 1 8 0; 3 1 1 1 5 0; 5 1 1 0 100 1; 5 1 1 1 300 1; 7 1;"
     "14 4 3; 14 356 19; 9 1 0; 9 1 1; 9 1 2; 9 1 100",
     "0; 0 1; 0 1; 0 2; 0 1; 0 2; 0; 1 1 0;"
     "1 1 0 100 1 100 2 0 0 1 1 1 300 1 300 11 0 0 0;"
     "0 20 0; 0 37 0; 9 0 0; 9 0 0"),
    # The example of document 01. Its chains come to 28980000000000 and
    # 5040000000000, 9691000000000 and 1685000000000 with the quoted shares
    # 31000000000 and 5000000000. F is 1.2 × 10^9.
    ("1; 2 1; 3 1 0 12000000 3220000 560000; 5 1 7 0 1000 300000;"
     "5 1 4 0 3000 300000; 6 7 0 1000 500000 62000 10000; 7 1;"
     "14 0 8; 14 356 28; 9 1 0",
     "0; 0 1; 0 1; 0 1; 0 2; 0 3; 0; 14083 1 1 3 1 1 0 0;"
     "1 7 0 1000 300000 300000000 9660000000000 1680000000000 0 "
     "1 4 0 3000 300000 900000000 28980000000000 5040000000000 0 "
     "0 7 0 1000 500000 500000000 31000000000 5000000000 0 0;"
     "0 32200000 5600000"),
    # A hub with 3 kg and 4 kg frozen: 100 over 3, 4 is 43, 57; 50 over 3, 4
    # is 21, 29; 9 is for the frozen. 100 / 7 is 14.3, 50 / 7 is 7.1, 9 / 4
    # is 2.25.
    ("1; 2 4; 3 1 0 1 100 50; 3 1 2 1 9 0; 5 1 1 0 3 0; 5 1 1 2 4 0; 7 1;"
     "14 356 18; 9 1 0; 9 1 2; 9 1 1; 9 1 100",
     "0; 0 1; 0 1; 0 2; 0 1; 0 2; 0;"
     "1 1 0 3 0 3 43 21 0 1 1 2 4 0 4 66 29 0;"
     "0 14 7; 0 16 7; 9 0 0; 9 0 0"),
    # Between F and P the earlier gets the odd unit: 7 over 200, 200 is 4, 3
    # and 1 over 200, 200 is 1, 0. Then 3 over 300, 700 is 1, 2.
    ("1; 2 3; 3 1 0 1 7 1; 5 1 1 300 1 1; 5 1 1 700 1 1; 5 1 1 0 200 1; 7 1;"
     "14 356 27; 9 1 0; 9 1 100",
     "0; 0 1; 0 1; 0 1; 0 2; 0 3; 0;"
     "1 1 300 1 1 300 1 0 0 1 1 700 1 1 700 2 0 0 1 1 0 200 1 200 4 1 0;"
     "0 20 5; 0 0 0"),
    # A struck entry is left out; a B without its S is 9 until it is struck.
    # Of two equal ones the earlier gets the odd unit.
    ("1; 2 1; 3 1 0 1 9 9; 3 1 0 1 5 8; 3 1 2 1 0 1; 5 1 1 0 1 1; 5 1 1 0 1 1;"
     "4 1; 7 1; 4 3; 7 1; 14 362 2; 14 371 2; 4 2; 3 1 0 1 1 1; 5 1 1 0 1 1",
     "0; 0 1; 0 1; 0 2; 0 3; 0 1; 0 2; 0; 9; 0; 0; 3 4; 2 4; 4; 4 0; 4 0"),
    # Halves, in freight (1 × 1000 / 2000) and in a group of the same
    # activity: each is rounded to the even number, so 0 and not 1. Provision:
    # 1.5 and 1.5, so 4 and not 3.
    ("1; 2 1; 3 1 0 1 1 3; 3 1 1 1 1 3; 5 1 1 1 2000 1; 7 1; 9 1 0; 9 1 1",
     "0; 0 1; 0 1; 0 2; 0 1; 0; 0 0 2; 0 0 4"),
    # 1000 / 2001 is below a half; 3 / 2 and 1 / 2 in a hub are halves, and so
    # are 1 × 100 / 200 and 3 × 100 / 200 of two heads.
    ("1; 2 1; 3 1 0 1 1 2; 5 1 1 0 2001 1; 7 1; 9 1 0;"
     "2 4; 3 2 0 1 3 1; 5 2 1 0 2 0; 7 2; 9 2 0;"
     "2 2; 3 3 0 1 1 3; 5 3 1 100 2 1; 7 3; 9 3 100",
     "0; 0 1; 0 1; 0 1; 0; 0 0 1; 0 2; 0 2; 0 2; 0; 0 2 0;"
     "0 3; 0 3; 0 3; 0; 0 0 2"),
    # Exactly 10^15, and one more; F is 1000.
    ("1; 2 1; 3 1 0 1000000000 1000000 0; 5 1 1 0 1000 1; 7 1; 9 1 0;"
     "2 1; 3 2 0 1000000000 0 1000000; 3 2 0 1 0 1; 5 2 1 0 1000 1; 7 2;"
     "9 2 0",
     "0; 0 1; 0 1; 0 1; 0; 0 1000000000000000 0;"
     "0 2; 0 2; 0 3; 0 2; 0; 10 0 0"),
    # Values, and a closed category without elements.
    ("1; 7 0; 7 1; 9 0 0; 9 1 3; 2 1; 7 1; 7 2; 9 1 3; 9 1 101; 9 1 0; 9 2 3;"
     "12 5 1; 9 1 0; 9 1 100; 9 1 3; 7 1",
     "0; 2; 2; 2 0 0; 2 0 0; 0 1; 9; 2; 3 0 0; 3 0 0; 5 0 0; 2 0 0;"
     "9 0 0; 9 0 0; 3 0 0; 4"),
)


# What holds of every accepted closing.

def check_closing(check, before, words, category):
    """The words before and after; the sums are taken from those before."""
    entries = [before[36 + 5 * place:41 + 5 * place]
               for place in range(before[2])]
    pools = [[sum(entry[2 + amount] for entry in entries
                  if entry[0] == category and entry[1] == group
                  and entry[4] == 0)
              for group in (0, 1, 2)] for amount in (0, 1)]
    starts = [start for start in range(356, 356 + 9 * before[3], 9)
              if before[start] == category]
    closed = 3 + 2 * category
    check((before[closed], words[closed]) == (0, 1), "the closed word")
    mine = {closed, *(start + word for start in starts for word in (6, 7))}
    check(len(before) == len(words)
          and all(before[index] == words[index]
                  for index in range(len(words)) if index not in mine),
          "a closing changes no other word", category)
    for amount in (0, 1):
        check(sum(words[start + 6 + amount] for start in starts)
              == sum(pools[amount]), "the shares sum to the entries", category)
        check_exact_shares(check, [words[start:start + 9] for start in starts],
                           pools[amount], 6 + amount)
    check(is_sound_by_words(words), "sound after a closing", category)


# Random books.

def random_book(rng):
    """Lists with some categories, entries and elements; groups that are
    posted to most often have elements."""
    def by_bits(most):
        return rng.getrandbits(64) >> (64 - rng.randrange(most + 1))

    lists = Lists()
    for _ in range(1 + rng.randrange(5)):
        lists.open((1, 2, 3, 3, 4)[rng.randrange(5)])
    # Whether the passengers of each category are weighed.
    weighed = [rng.randrange(2) == 0 for _ in lists.categories]
    few = rng.randrange(2) == 0  # few values, so that remainders are equal
    bits = rng.randrange(3, 31)

    def measure(most):
        return 1 + (rng.randrange(3) if few else min(by_bits(bits), most - 1))

    for _ in range(1 + rng.randrange(rng.randrange(4, 80))):
        category = 1 + rng.randrange(len(lists.categories))
        kind = lists.category(category)[0]
        passengers = kind == 2 or kind == 3 and rng.randrange(2) == 0
        code = ((100, 400, 1000, 100 + rng.randrange(901))[rng.randrange(4)]
                if passengers else rng.randrange(3))
        if rng.randrange(9) == 0:
            lists.quote(1, rng.randrange(2), measure(10 ** 9),
                        measure(40_000_000), 62_000, 10_000)
        lists.enrol(category, 1 + rng.randrange(9), code,
                    measure(10 ** 6 if passengers else 10 ** 9),
                    0 if kind == 4 else measure(40_000_000),
                    (1, 100, 300, 1 + rng.randrange(300))[rng.randrange(4)]
                    if passengers and weighed[category - 1] else 0)
    for _ in range(rng.randrange(14)):
        category = 1 + rng.randrange(len(lists.categories))
        codes = [element[2] for element in lists.elements
                 if element[0] == category and element[2] < 3]
        group = codes[rng.randrange(len(codes))] if codes else 0
        if lists.category(category)[0] != 2 and rng.randrange(20) == 0:
            group = rng.randrange(3)
        lists.post(category, group, 1 + min(by_bits(30), 10 ** 9),
                   min(by_bits(34), 10 ** 8), min(by_bits(34), 10 ** 8))
        if rng.randrange(6) == 0:
            lists.strike(len(lists.entries))
    return lists


def random_closings(check):
    """Closings and intensities by both ways, and what holds of each."""
    rng = random.Random(SEED)
    met = {}
    given = set()
    for _ in range(500):
        lists = random_book(rng)
        words = lists.words() + [9]
        for category in range(1, len(lists.categories) + 1):
            before = list(words)
            numbers = calls.make("close", words, category)
            case = (category, numbers, lists.entries, lists.elements)
            check(numbers == list(lists.close(category)), "close", case)
            check(words == lists.words() + [9], "the words", case)
            if numbers == [0]:
                check_closing(check, before, words, category)
                sort = sort_of_closing(lists, category)
                met[sort] = met.get(sort, 0) + 1
            given |= check_intensities(check, lists, words, category)
    check(given == {0, 3, 5, 9, 10}, "grounds of intensity", given)
    for sort in ("freight", "passengers", "mixed", "groups", "mixed, groups",
                 "weighed passengers", "weighed mixed",
                 "weighed mixed, groups"):
        check(met.get(sort, 0) > 50, "closings of a sort", sort, met)


def sort_of_closing(lists, category):
    kinds = {element[2] > 2 for element in lists.elements
             if element[0] == category}
    sort = ("mixed" if len(kinds) == 2
            else "passengers" if kinds == {True} else "")
    if lists.weighed_and_not(category)[0] > 0:
        sort = "weighed " + sort
    if any(sum(sums[1:]) > 0 for sums in lists.entry_sums(category)):
        sort += ", groups" if sort else "groups"
    return sort or "freight"


def check_intensities(check, lists, words, category):
    """The refusal numbers that were given."""
    before = list(words)
    given = set()
    for code in (0, 1, 2, 100, 3, 101):
        numbers = calls.make("intensity", words, category, code)
        given.add(numbers[0])
        check(numbers == list(lists.intensity(category, code)),
              "intensity", category, code, numbers, lists.entries,
              lists.elements)
    check(words == before, "an intensity changes no word")
    return given


def other_shares(check):
    """An intensity is that of the entries and activities, whatever the
    shares."""
    rng = random.Random(SEED)
    for _ in range(60):
        lists = random_book(rng)
        words = lists.words()
        for category in range(1, len(lists.categories) + 1):
            if calls.make("close", words, category) != [0]:
                continue
            found = [calls.make("intensity", words, category, code)
                     for code in (0, 1, 2, 100)]
            other = list(words)
            starts = [start for start in range(356, 356 + 9 * words[3], 9)
                      if words[start] == category]
            for word in (6, 7):
                whole = sum(words[start + word] for start in starts)
                for start in starts:
                    other[start + word] = 0
                other[starts[-1] + word] = whole
            check(is_sound_by_words(other), "the sums are right")
            check(found == [calls.make("intensity", other, category, code)
                            for code in (0, 1, 2, 100)],
                  "the same intensities", category)


def run(check):
    random_closings(check)
    other_shares(check)
