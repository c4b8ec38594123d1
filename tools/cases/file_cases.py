"""Cases of loading a file; file_header_cases.py and file_stop_cases.py have
those that the header or a record stops.

Most say what the load gives: the number, the table and the record.
"""

import random

from calculation import book, player
from cases import file_header_cases, file_stop_cases
from cases.book_writer import LARGEST, added
from cases.file_header_cases import LOADED, SLICE, hold
from cases.file_parts import (
    CATEGORIES, ELEMENTS, ENTRIES, FREIGHT, PARTS, WHOLE, changed,
    full_categories, full_elements, full_entries, full_parts)
from cases.file_writer import (
    CHUNK, EXAMPLE, EXAMPLE_PARTS, MOST_BYTES, cut_to, file_of, with_header)
from cases.halves import demand_halves
from cases.random_files import changed_byte, changed_header, random_file

SEEDS = (32, 48, 216)

# What can stop a file: the numbers that each call gives it. No category is
# closed before the last element has come, so none gives 4.
STOPS = {
    "open": (3, 8, 13),
    "post": (2, 3, 6, 7, 8, 10),
    "enrol": (2, 3, 6, 14, 7, 8, 10, 13),
    "quote": (3, 7, 8, 10, 13),
    "close": (9,),
}
PLACES = ("first", "middle", "last")


def possible_loads():
    """What a load can give: the number, the call that stopped it or none,
    and its place in the table."""
    found = [(number, None, None) for number in (0, 1, 11, 12)]
    for name, numbers in STOPS.items():
        for number in numbers:
            for place in PLACES:
                # A list is not full before its first record, one enrolment
                # does not pass 10^17, and there is no earlier passenger.
                never = number == 8 or (name, number) in (("enrol", 10),
                                                          ("enrol", 14))
                if not (place == "first" and never):
                    found.append((number, name, place))
    return found


# The example, and gaps.

def statements_of_example(cases):
    """"4 1 0 28980000000000 5040000000000 34020000000000" and "7 2 0
    9691000000000 1685000000000 11376000000000".
    """
    cases.statement(4, shows=(1, 0, 28980000000000, 5040000000000,
                              34020000000000))
    cases.statement(7, shows=(2, 0, 9691000000000, 1685000000000,
                              11376000000000))
    for chain in (1, 3, 5, 6, 8, 10_000):
        cases.statement(chain, shows=(0,) * 5)


def example(cases):
    """On an array of zeros, on a book that held more, and on itself."""
    cases.fresh()
    for index in range(player.MOST_WORDS):
        cases.poke(index, 0)
    for _ in range(2):
        cases.load(EXAMPLE)
        statements_of_example(cases)
        cases.dump_all()
        hold(cases)
    for _ in range(3):
        cases.load_and_show(EXAMPLE)
    statements_of_example(cases)
    cases.intensity(1, 0, shows=(32200000, 5600000))
    cases.dump_all()


def gaps(cases):
    """Offsets of every remainder by 8, and bytes in the gaps that are not
    0."""
    hold(cases)
    for size in range(1, 10):
        for place in range(4):
            sizes = [0, 0, 0, 0]
            sizes[place] = size
            cases.load_and_show(file_of(*EXAMPLE_PARTS, sizes, 255 - size))
    for sizes in ((1, 1, 1, 1), (3, 5, 7, 9), (2, 4, 6, 8), (7, 7, 7, 7),
                  (64, 64, 64, 64), (31, 33, 65, 127), (500, 0, 0, 0),
                  (0, 500, 0, 0), (0, 0, 500, 0), (0, 0, 0, 500)):
        for fill in (0, 1, 0xFF):
            cases.load_and_show(file_of(*EXAMPLE_PARTS, sizes, fill))
            statements_of_example(cases)
        cases.load_and_show(file_of(*PARTS, sizes, 1))
    # Gaps that are records of their tables: they are not looked at.
    for name, count, gives in (("categories", 2, (2, 2, 4)),
                               ("entries", 3, LOADED),
                               ("elements", 5, (9, 4, 4))):
        cases.load_and_show(with_header(WHOLE, **{name: count}), gives)
    cases.dump_all()


# What the words held before.

def damaged_books(cases):
    """A file is loaded into any words."""
    for changes in (
        [(0, 0)], [(0, 14084)], [(0, LARGEST)], [(1, 17)], [(1, LARGEST)],
        [(2, 65)], [(2, 2 ** 63)], [(3, 257)], [(3, LARGEST)],
        [(1, 0), (2, 0), (3, 0)], [(4, 0)], [(4, 5), (5, 2)], [(36, 17)],
        [(38, LARGEST)], [(40, 1)], [(356, 16)], [(362, 1)], [(363, LARGEST)],
        [(index, LARGEST) for index in (*range(4), 35, 36, 355, 356, 1500,
                                        2659, 2660, 2999)],
    ):
        # One that the header stops leaves the damage, the others do not.
        hold(cases)
        for index, value in changes:
            cases.poke(index, value)
        cases.load_and_show(with_header(EXAMPLE, entries_offset=39),
                            (12, 0, 0))
        cases.load_and_show(b"", (11, 0, 0))
        cases.load(EXAMPLE)
        cases.dump_all()
        for index, value in changes:
            cases.poke(index, value)
        cases.load_and_show(file_of([(1, 0), (5, 0)]), (3, 1, 2))
        cases.is_sound()


def lent_slices(cases):
    """The length of the slice, on a book and on words that are none."""
    for lent in (0, 1, 4, 36, 356, 2404, 2659, 2660, 2661, 2999, 3000):
        short = lent < book.LENGTH
        for first_word in (book.MARK, 0):
            cases.lend(player.MOST_WORDS)
            hold(cases)
            cases.poke(2659, 8)
            cases.poke(0, first_word)
            cases.lend(lent)
            cases.load(EXAMPLE, SLICE if short else LOADED)
            cases.dump_all()
            cases.load_and_show(cut_to(EXAMPLE, 100),
                                SLICE if short else (12, 0, 0))
            cases.load_and_show(file_of([(4, 1), (2, 2)]),
                                SLICE if short else (13, 1, 2))
    cases.lend(player.MOST_WORDS)
    cases.dump_all()


# One after another, and calls between.

def one_after_another(cases):
    hold(cases)
    small = file_of([(2, 0)], [(1, 0, 3, 4, 5)], [(1, 2, 100, 0, 1, 1, 0, 0)])
    stopped = file_of(CATEGORIES, ENTRIES, ELEMENTS[:5] + ((0,) * 8,))
    for data, gives in (
        (WHOLE, LOADED), (small, LOADED), (WHOLE, LOADED), (WHOLE, LOADED),
        (stopped, (3, 3, 6)), (small, LOADED), (stopped, (3, 3, 6)),
        (stopped, (3, 3, 6)), (WHOLE, LOADED), (file_of(), LOADED),
        (stopped, (3, 3, 6)), (file_of([(1, 2)]), (13, 1, 1)),
        (with_header(stopped, mark=0), (11, 0, 0)), (EXAMPLE, LOADED),
        (with_header(WHOLE, length=0), (11, 0, 0)),
        (with_header(WHOLE, entries=2 ** 27), (12, 0, 0)),
        (file_of([(1, 1)]), (9, 4, 1)), (EXAMPLE, LOADED),
    ):
        cases.load(data, gives)
        cases.dump_all()


def calls_on_a_loaded_book(cases):
    """A book that was loaded, or that a stop left, takes every call."""
    unflagged = [(3, 0), (1, 1)]
    member = changed(FREIGHT, category=2)
    data = file_of(unflagged, ENTRIES[:2], [*ELEMENTS[:2], member])
    cases.load_and_show(data)
    cases.each_call(gives=0)
    cases.dump_book()
    # What is left where the third element stopped: the rest by calls gives
    # the same book.
    bad = changed(member, chain=0)
    cases.load_and_show(file_of(unflagged, ENTRIES[:2], [*ELEMENTS[:2], bad]),
                        (3, 3, 3))
    cases.is_sound()
    cases.enrol(2, *member[1:3], *member[4:6])
    cases.close(2)
    cases.each_call(gives=0)
    cases.dump_book()
    # A closing that stopped can be made up for.
    cases.load_and_show(file_of([(1, 1), (1, 1)], ENTRIES[:1], [member]),
                        (9, 4, 1))
    cases.is_sound()
    cases.enrol(1, *FREIGHT[1:3], *FREIGHT[4:6])
    cases.close(1)
    cases.close(2)
    cases.dump_all()
    # Weights that are listed stay so, and a load changes no other words.
    cases.cases.record(player.APPEND_WEIGHT, 1)
    cases.cases.record(player.APPEND_WEIGHT, 2)
    cases.load_and_show(EXAMPLE)
    cases.load_and_show(b"", (11, 0, 0))
    cases.cases.record(player.DIVIDE, 10, 2)


# Full books.

def full_books(cases):
    """16 categories, 64 entries, 256 elements, all closed; then a stop at
    each table, so that every word that was there is 0 again."""
    parts = full_parts()
    hold(cases)
    room = MOST_BYTES - len(file_of(*parts))
    cases.load(file_of(*parts, (101, 203, 307, room - 611), 0x55))
    cases.dump_all()
    for chain in (1, 38, 75, 9436, 10_000):
        cases.statement(chain)
    for number in range(1, 17):
        cases.intensities(number)
    cases.open(1, gives=8)
    cases.post(1, 0, 1, 1, 1, gives=4)
    cases.quote(1, 0, 1, 1, 1, 1, gives=8)
    full = file_of(*parts)
    for data, gives in (
        (file_of([(5, 0)]), (3, 1, 1)),
        (file_of([(1, 0)], [(2, 0, 0, 0, 0)]), (2, 2, 1)),
        (file_of([(1, 0)], (), [(1, 0, 0, 0, 1, 1, 0, 0)]), (3, 3, 1)),
        (file_of([(1, 1)]), (9, 4, 1)),
        (file_of(), LOADED),
        (with_header(EXAMPLE, length=0), (11, 0, 0)),
    ):
        cases.load(full)
        for index in (book.word(book.ENTRIES, number, "struck")
                      for number in (1, 64)):
            cases.poke(index, 1)
        cases.load(data, gives)
        cases.dump_all()
    # One of all is wrong: the last closing, the last element.
    cold = [(16, group, 1, 1, 1) for group in (1, 2)]
    entries = full_entries()[:62] + cold
    no_group = [element if (element[0], element[2]) != (16, 2)
                else changed(element, code=1) for element in full_elements()]
    cases.load_and_show(file_of(full_categories(), entries, no_group),
                        (9, 4, 16))
    elements = full_elements()
    elements[-1] = changed(elements[-1], distance=1)
    cases.load_and_show(file_of(full_categories(), full_entries(), elements),
                        (7, 3, 256))


# Random files.

# The most categories, entries and elements, and how many such files.
SIZES = (((1, 2, 3), 5), ((3, 5, 9), 5), ((5, 12, 30), 2), ((16, 64, 90), 1))


def random_files(cases, rng):
    """Files that are loaded; the same with a byte changed, and with another
    count or offset."""
    for most, times in SIZES:
        for _ in range(times):
            data = random_file(rng, most)
            cases.load_and_show(data)
            for chain in (1, 2, 3, 10_000):
                cases.statement(chain)
            for _ in range(3):
                cases.load_and_show(changed_byte(data, rng), None)
            for _ in range(2):
                cases.load_and_show(changed_header(data, rng), None)
            cases.load_and_show(
                changed_byte(changed_header(data, rng), rng), None)
    cases.load(random_file(rng))
    cases.dump_all()


def straddling(spans):
    """How many loads of these spans have their records on both sides of a
    chunk's end."""
    return sum(1 for (first, _), (last, _) in spans
               if first // CHUNK != (last - 1) // CHUNK)


def add(cases):
    example(cases)
    gaps(cases)
    damaged_books(cases)
    lent_slices(cases)
    one_after_another(cases)
    calls_on_a_loaded_book(cases)
    full_books(cases)
    file_header_cases.add(cases)
    file_stop_cases.add(cases)
    before = dict(cases.halves)
    for seed in SEEDS:
        random_files(cases, random.Random(seed))
    demand_halves(added(cases.halves, before), ("quote",))
    # The example has the same outcome after all the others.
    cases.load(EXAMPLE)
    statements_of_example(cases)
    possible = possible_loads()
    missing = [key for key in possible if key not in cases.loads]
    if missing:
        raise SystemExit("no load that gives: %r" % missing)
    strange = [key for key in cases.loads
               if key not in possible and key[2] != "only"]
    if strange:
        raise SystemExit("no load can give: %r" % strange)
