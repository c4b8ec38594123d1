"""Checks of previews; book_checks.py makes them."""

import random
from itertools import islice

from calculation import calls, player
from calculation.book import Book
from checks.broken_lists import close_nothing, wrong_call
from checks.check_previews import (
    check_pairs, check_trials, number_wanted, records_of, trials)
from checks.closing_checks import random_book
from checks.conservation_checks import Broken

SEED = 18
TRIALS = 60

LENGTHS = (0, 1, 511, 512, 513, 600)


# Inputs whose output is written out here, reckoned by hand.

def pairs(text, pair_length=512):
    """The line of an accepted preview: these pairs, zeros and sevens."""
    shown = text.split()
    return " ".join(["0", *shown, *["0"] * (512 - len(shown)),
                     *["7"] * (pair_length - 512)])


def refused(number, pair_length):
    return " ".join([str(number), *["7"] * pair_length])


WRITTEN_OUT = (
    # "Kind 3, A 9, freight activity 100, one head each of codes 100 and 400
    # over 1 m: 3, 1, 5." The book stays the same until it is closed.
    ("1; 2 3; 3 1 0 1 9 0; 5 1 1 0 100 1; 5 1 1 100 1 1; 5 1 1 400 1 1;"
     "18 1 512; 18 1 514; 14 4 2; 14 356 27; 7 1; 14 4 2; 14 362 2; 14 371 2;"
     "14 380 2; 18 1 512",
     "0; 0 1; 0 1; 0 1; 0 2; 0 3;"
     + pairs("3 0 1 0 5 0") + ";" + pairs("3 0 1 0 5 0", 514) + ";"
     "3 0; 1 1 0 100 1 100 0 0 0 1 1 100 1 1 100 0 0 0 1 1 400 1 1 400 0 0 0;"
     "0; 3 1; 3 0; 1 0; 5 0;" + refused(4, 512)),
    # "A 8, B1 5, ambient 100, chilled 300: 2 and 11."
    ("1; 2 1; 3 1 0 1 8 0; 3 1 1 1 5 0; 5 1 1 0 100 1; 5 1 1 1 300 1;"
     "18 1 512; 7 1; 14 362 2; 14 371 2",
     "0; 0 1; 0 1; 0 2; 0 1; 0 2;" + pairs("2 0 11 0") + "; 0; 2 0; 11 0"),
    # The same two in one book, with a quote of 5 and 6 between: either is
    # seen before one is closed, and then the other with its shares. Category
    # 3 has 7 and 6 for one element, which shows 0 to the others.
    ("1; 2 3; 2 1; 2 4; 3 1 0 1 9 0; 3 2 0 1 8 0; 3 2 1 1 5 0; 3 3 0 1 7 6;"
     "5 1 1 0 100 1; 6 1 0 1000 1 5 6; 5 2 1 0 100 1; 5 1 1 100 1 1;"
     "5 2 1 1 300 1; 5 3 1 0 3 0; 5 1 1 400 1 1;"
     "18 1 512; 18 2 512; 18 1 512; 18 3 512; 7 2; 18 1 512; 18 2 512; 7 1;"
     "18 3 512; 8 1",
     "0; 0 1; 0 2; 0 3; 0 1; 0 2; 0 3; 0 4; 0 1; 0 2; 0 3; 0 4; 0 5; 0 6;"
     "0 7;" + pairs("3 0 5 6 0 0 1 0 0 0 0 0 5 0") + ";"
     + pairs("0 0 5 6 2 0 0 0 11 0 0 0 0 0") + ";"
     + pairs("3 0 5 6 0 0 1 0 0 0 0 0 5 0") + ";"
     + pairs("0 0 5 6 0 0 0 0 0 0 7 6 0 0") + "; 0;"
     + pairs("3 0 5 6 2 0 1 0 11 0 0 0 5 0") + ";" + refused(4, 512) + "; 0;"
     + pairs("3 0 5 6 2 0 1 0 11 0 7 6 5 0") + "; 0 7 1 27 6 33"),
    # 50 kg per head: F 100, P 100; 9 is 5, 4 and 4 is 1, 3 by class.
    ("1; 2 3; 3 1 0 1 9 0; 5 1 1 0 100 1; 5 1 1 100 1 1 50; 5 1 1 400 1 1 50;"
     "18 1 600", "0; 0 1; 0 1; 0 1; 0 2; 0 3;" + pairs("5 0 1 0 3 0", 600)),
    # A slice that is too short: after 1, before 2, 4 and 9. Category 1 is
    # empty, 2 closed, 3 there is none.
    ("18 1 2; 1; 2 1; 2 1; 5 2 1 0 1 1; 7 2; 18 1 0; 18 1 3; 18 2 3; 18 3 3;"
     "18 0 3; 18 1 511; 18 1 512; 18 2 513; 18 3 512; 18 0 512; 12 0 0;"
     "18 1 3; 18 1 512; 12 0 14083; 13 2659; 18 1 3; 18 3 512; 13 2660;"
     "18 1 3; 14 0 8",
     "1 7 7; 0; 0 1; 0 2; 0 1; 0; 17; 17 7 7 7; 17 7 7 7; 17 7 7 7;"
     "17 7 7 7;" + refused(17, 511) + ";" + refused(9, 512) + ";"
     + refused(4, 513) + ";" + refused(2, 512) + ";" + refused(2, 512) + ";"
     "1 7 7 7;" + refused(1, 512) + "; 1 7 7 7;" + refused(1, 512) + ";"
     "17 7 7 7; 14083 2 0 1 1 0 1 1"),
    # Entries that hinder a closing, and one of 0 that does not.
    ("1; 2 1; 3 1 0 1 4 5; 3 1 1 1 0 0; 18 1 512; 5 1 1 0 3 1; 18 1 512;"
     "3 1 2 1 0 7; 18 1 512; 4 3; 18 1 512; 4 1; 18 1 512",
     "0; 0 1; 0 1; 0 2;" + refused(9, 512) + "; 0 1;" + pairs("4 5")
     + "; 0 3;" + refused(9, 512) + "; 0;" + pairs("4 5") + "; 0;"
     + pairs("0 0")),
    # Bad records.
    ("18 1 600; 18 1 601; 1", refused(1, 600) + "; bad record 2"),
    ("18 0 18446744073709551615; 1", "bad record 1"),
    ("1; 18 1 4294967808; 1", "0; bad record 2"),
)


# Random books.

def random_previews(check):
    """By both ways, and by a closing of a copy, twice around; every other
    category is closed then."""
    rng = random.Random(SEED)
    met = set()
    for _ in range(200):
        lists = random_book(rng)
        words = lists.words() + [9]
        for category in 2 * [*range(len(lists.categories) + 2)]:
            before = list(words)
            copy = list(words)
            of_closing, = calls.make("close", copy, category)
            for pair_length in LENGTHS:
                numbers = calls.make("preview", words, category, pair_length)
                case = (category, pair_length, numbers, lists.elements)
                check(numbers == list(lists.preview(category, pair_length)),
                      "a preview by both ways", case)
                check(words == before, "the book stays the same", case)
                check(numbers[0] == number_wanted(of_closing, pair_length),
                      "the number of a preview", case)
                met.add(numbers[0])
                if numbers[0] == 0:
                    check_pairs(category, numbers[1:], before, copy)
                else:
                    check(len(numbers) == 1, "no pair", case)
            if of_closing == 0 and rng.randrange(2) == 0:
                words = copy
                lists.close(category)
            check(words == lists.words() + [9], "the words", category)
    check(met == {0, 17, 2, 4, 9}, "numbers of previews", met)


# Wrong programs, which check_previews.py has to catch.

def places_of(words, category):
    return [place for place, element in enumerate(Book(words).elements)
            if element.category == category]


def others_left_out(words, category, pair_length):
    """The elements of other categories and the quoted ones show 0."""
    shown = calls.preview(words, category, pair_length)
    own = places_of(words, category)
    return [number if index // 2 in own else 0
            for index, number in enumerate(shown)]


def short_of_256(words, category, pair_length):
    """The pairs past the last element are left as they were."""
    return calls.preview(words, category,
                         pair_length)[:2 * len(Book(words).elements)]


def past_the_512th(words, category, pair_length):
    """The rest of the slice is cleared too."""
    return (calls.preview(words, category, pair_length)
            + [0] * (pair_length - 512))


def closing_the_book(words, category, pair_length):
    shown = calls.preview(words, category, pair_length)
    calls.close(words, category)
    return shown


def provision_first(words, category, pair_length):
    shown = calls.preview(words, category, pair_length)
    shown[::2], shown[1::2] = shown[1::2], shown[::2]
    return shown


def all_to_the_first(words, category, pair_length):
    """The sums hold."""
    shown = calls.preview(words, category, pair_length)
    own = places_of(words, category)
    for amount in (0, 1):
        whole = sum(shown[2 * place + amount] for place in own)
        for place in own:
            shown[2 * place + amount] = 0
        shown[2 * own[0] + amount] = whole
    return shown


def what_they_hold(words, category, pair_length):
    """Without the shares of the closing."""
    held = [share for element in Book(words).elements
            for share in (element.operation, element.provision)]
    return held + [0] * (512 - len(held))


def short_before_1(words, category, pair_length):
    if pair_length < 512:
        yield calls.SHORT_PAIRS
    yield from calls.grounds_of_close(words, category)


def short_after_2(words, category, pair_length):
    grounds = list(calls.grounds_of_close(words, category))
    if pair_length < 512:
        grounds.append(calls.SHORT_PAIRS)
    return iter(sorted(grounds, key=(1, 2, 17, 4, 9).index))


def never_short(words, category, pair_length):
    yield from calls.grounds_of_close(words, category)


def closed_ones_too(words, category, pair_length):
    return (ground for ground in calls.grounds_of_preview(
        words, category, pair_length) if ground != calls.CLOSED_OR_STRUCK)


# The parts of the call that are others, and what is wrong then.
WRONG = (
    ({"act": others_left_out}, "and the element holds"),
    ({"act": short_of_256}, "past the last element is not 0"),
    ({"act": past_the_512th}, "past the 512th is written"),
    ({"act": closing_the_book}, "a preview changes the book"),
    ({"act": provision_first}, "and the element holds"),
    ({"act": all_to_the_first}, "and the element holds"),
    ({"act": what_they_hold}, "and the element holds"),
    # A refused one clears the pairs.
    ({"answers": 512}, "a refused preview writes pairs"),
    ({"grounds": short_before_1}, "gives 17 not 1"),
    ({"grounds": short_after_2}, "gives 2 not 17"),
    ({"grounds": never_short}, "not 17"),
    ({"grounds": closed_ones_too}, "gives 0 not 4"),
)


def played(tried):
    return player.play(records_of(tried)).decode("ascii").splitlines()


def broken_by(tried, lines):
    """What the lines of a trial break, None where that is nothing."""
    try:
        check_trials([tried], lines)
    except Broken as broken:
        return str(broken)
    return None


def is_caught(some, what):
    """Whether this is broken by one of the trials."""
    return any(what in (broken_by(tried, played(tried)) or "")
               for tried in some)


def wrong_programs(check):
    some = list(islice(trials(random.Random(SEED)), TRIALS))
    for tried in some:
        check(broken_by(tried, played(tried)) is None, "the right program")
    for parts, what in WRONG:
        with wrong_call("preview", **parts):
            check(is_caught(some, what), "not caught", parts)
    # A closing that hands out nothing, and a preview that equals it.
    with wrong_call("close", act=close_nothing):
        with wrong_call("preview", act=what_they_hold):
            check(is_caught(some, "add up to"), "nothing is handed out")
    # One line less, and another answer of the list.
    lines = played(some[0])
    for wrong in (lines[:-1], ["9", *lines[1:]]):
        check(broken_by(some[0], wrong) is not None, "other lines", wrong[:1])


def run(check):
    random_previews(check)
    wrong_programs(check)
