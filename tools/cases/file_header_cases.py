"""Cases of loading that end at the header: its numbers, the sections, the
length of the file, and the order of 1, 11, 12 and the calls.
"""

from calculation import player
from cases.file_parts import CATEGORIES, ELEMENTS, ENTRIES, QUOTE, WHOLE
from cases.file_writer import (
    EXAMPLE, HEADER, LARGEST_U32, MOST_BYTES, SIZES, cut_to, file_of,
    header_number, with_byte, with_header)

LOADED = (0, 0, 0)
SLICE = (1, 0, 0)
FILE = (11, 0, 0)
SECTION = (12, 0, 0)

# Numbers of a header that is wrong, beside 0, one more and one less.
LARGE = (2 ** 31, LARGEST_U32)

NO_PARTS = file_of()
COUNTS = HEADER[1:7:2]
OFFSETS = HEADER[2:8:2]


def hold(cases):
    """A book with records of every sort, and words behind it."""
    for index in (2660, 2661, 2999):
        cases.poke(index, 2 ** 64 - index)
    cases.load_and_show(WHOLE)


def all_offsets(data, offset):
    """The same offset for every section."""
    return with_header(data, **dict.fromkeys(OFFSETS, offset))


# Each number of the header.

def header_fields(cases):
    """Each of the eight is 0, one more, one less, or large."""
    hold(cases)
    # Without gaps. 0 categories: entry 1 finds none; 3: entry 6 does not find
    # the fourth. Without elements the first closing has no weights.
    gives = {
        ("categories", "0"): (2, 2, 1), ("categories", "less"): (2, 2, 6),
        ("entries", "0"): LOADED, ("entries", "less"): LOADED,
        ("elements", "0"): (9, 4, 1), ("elements", "less"): LOADED,
    }
    for name in HEADER:
        number = header_number(WHOLE, name)
        otherwise = FILE if name in ("mark", "length") else SECTION
        for sort, other in (("0", 0), ("more", number + 1),
                            ("less", number - 1), ("large", LARGE[0]),
                            ("large", LARGE[1])):
            cases.load_and_show(with_header(WHOLE, **{name: other}),
                                gives.get((name, sort), otherwise))
    cases.dump_all()
    # Every bit of the first number and of the last.
    hold(cases)
    for name in ("mark", "length"):
        number = header_number(EXAMPLE, name)
        for bit in range(32):
            cases.load(with_header(EXAMPLE, **{name: number ^ 1 << bit}),
                       gives=FILE)
    # The bytes of 14083 in the other order.
    cases.load(with_header(EXAMPLE, mark=0x03370000), gives=FILE)
    cases.dump_all()
    cases.load_and_show(with_header(EXAMPLE, mark=0x3703))


def header_fields_with_gaps(cases):
    """The same where a section has room to move and to grow."""
    hold(cases)
    for gaps, fill in (((3, 3, 3, 3), 0xA5), ((48, 48, 48, 48), 0),
                       ((48, 48, 48, 48), 0xFF), ((8, 32, 48, 64), 1)):
        data = file_of(CATEGORIES[:1], ENTRIES[:1], ELEMENTS[:2], gaps, fill)
        for name in COUNTS + OFFSETS:
            number = header_number(data, name)
            for other in (0, number + 1, number - 1, *LARGE):
                cases.load_and_show(with_header(data, **{name: other}), None)
    cases.dump_all()


# Empty sections.

def empty_sections(cases):
    hold(cases)
    # Each table alone is empty, two of them, all three.
    quotes = (QUOTE, QUOTE)
    unflagged = [(kind, 0) for kind, _ in CATEGORIES]
    for parts, gives in (
        (((), ENTRIES, ELEMENTS), (2, 2, 1)),
        (((), (), ELEMENTS), (2, 3, 1)),
        (((), (), quotes), LOADED),
        (((), ENTRIES, ()), (2, 2, 1)),
        ((CATEGORIES, (), ELEMENTS), LOADED),
        ((CATEGORIES, ENTRIES, ()), (9, 4, 1)),
        ((CATEGORIES, (), ()), (9, 4, 1)),
        ((unflagged, ENTRIES, ()), LOADED),
        ((unflagged, (), ()), LOADED),
        ((unflagged, (), quotes), LOADED),
        (((), (), ()), LOADED),
    ):
        cases.load_and_show(WHOLE)
        cases.load_and_show(file_of(*parts), gives)
        cases.load_and_show(file_of(*parts, (1, 2, 3, 4), 0xFF), gives)


def places_of_empty_sections(cases):
    """Where an empty section may start; every table has its turn. The others
    have a record each, with gaps of 4."""
    gaps = (4, 4, 4, 4)
    far = (2 ** 31, LARGEST_U32)
    hold(cases)
    # Entries from 40, elements from 44 to 92, the end at 96.
    data = file_of((), (), (QUOTE,), gaps)
    try_offsets(cases, data, "categories_offset",
                right=range(32, 41), wrong=(0, 1, 28, 31, 41, 96, 97, *far))
    # Categories from 36 to 44, elements from 52 to 100, the end at 104.
    data = file_of(CATEGORIES[:1], (), ELEMENTS[:1], gaps)
    try_offsets(cases, data, "entries_offset", right=range(44, 53),
                wrong=(0, 31, 32, 36, 40, 43, 53, 99, 100, 104, 105, *far))
    # Categories from 36 to 44, entries from 48 to 80, the end at 88.
    data = file_of([(1, 0)], ENTRIES[:1], (), gaps)
    try_offsets(cases, data, "elements_offset", right=range(80, 89),
                wrong=(0, 31, 32, 36, 43, 44, 47, 48, 79, 89, *far))
    # All are empty: in the file's end, in the header, in order and not.
    for length in (32, 33, 40):
        data = cut_to(NO_PARTS, length)
        for offset in (0, 1, 31, 32, 33, length - 1, length, length + 1, *far):
            cases.load_and_show(
                all_offsets(data, offset),
                LOADED if 32 <= offset <= length else SECTION)
    data = cut_to(NO_PARTS, 40)
    for offsets, gives in (
        ((32, 36, 40), LOADED), ((32, 32, 40), LOADED), ((32, 40, 40), LOADED),
        ((40, 40, 40), LOADED), ((31, 32, 32), SECTION),
        ((32, 31, 32), SECTION), ((32, 32, 31), SECTION),
        ((33, 32, 32), SECTION), ((32, 33, 32), SECTION),
        ((36, 32, 40), SECTION), ((32, 40, 36), SECTION),
        ((40, 36, 32), SECTION), ((32, 32, 41), SECTION),
        ((32, 41, 41), SECTION), ((41, 41, 41), SECTION),
        ((32, 41, 40), SECTION), ((0, 32, 32), SECTION),
        ((32, 0, 32), SECTION), ((32, 32, 0), SECTION), ((0, 0, 0), SECTION),
    ):
        cases.load_and_show(with_header(data, **dict(zip(OFFSETS, offsets))),
                            gives)
    cases.dump_all()


def try_offsets(cases, data, name, right, wrong):
    for offset in right:
        cases.load_and_show(with_header(data, **{name: offset}))
    for offset in wrong:
        cases.load_and_show(with_header(data, **{name: offset}), SECTION)


# Where sections meet.

def edges_of_sections(cases):
    """Sections that touch, that overlap by a byte, that begin in the header
    and that run past the end."""
    hold(cases)
    parts = (CATEGORIES[:2], ENTRIES[:2], ELEMENTS[:2])
    for place, name in enumerate(OFFSETS):
        # A gap of 4 before the section, then behind it: on its other side it
        # touches what is there. It is moved over the gap and by a byte more.
        for gap, way in ((place, -1), (place + 1, 1)):
            gaps = [0, 0, 0, 0]
            gaps[gap] = 4
            data = file_of(*parts, gaps, 0xEE)
            start = header_number(data, name)
            cases.load_and_show(data)
            cases.load_and_show(with_header(data, **{name: start + 4 * way}),
                                None)
            cases.load_and_show(with_header(data, **{name: start + 5 * way}),
                                SECTION)
    # The end: a byte less, and more bytes than are wanted.
    for parts in ((CATEGORIES, ENTRIES, ELEMENTS), (CATEGORIES, ENTRIES, ()),
                  (CATEGORIES, (), ()), ((), (), (QUOTE,))):
        data = file_of(*parts)
        for less in (1, 2, SIZES[0], SIZES[1], SIZES[2]):
            if len(data) - less >= 32:
                cases.load_and_show(cut_to(data, len(data) - less), SECTION)
        cases.load_and_show(cut_to(data, len(data) + 1), None)
    # In another order, on top of each other, and one inside another.
    data = EXAMPLE
    for numbers in (
        {"categories_offset": 40, "entries_offset": 32},
        {"entries_offset": 72, "elements_offset": 40},
        {"categories_offset": 208, "entries_offset": 32,
         "elements_offset": 64},
        {"entries_offset": 32}, {"elements_offset": 40},
        {"elements_offset": 32}, {"categories_offset": 40},
        {"entries_offset": 80}, {"categories_offset": 100},
        {"categories": 0, "categories_offset": 41},
        {"entries": 0, "entries_offset": 39},
        {"entries": 0, "entries_offset": 73},
        {"elements": 0, "elements_offset": 71},
    ):
        cases.load_and_show(with_header(data, **numbers), SECTION)
    cases.dump_all()


def wraps(cases):
    """Counts and offsets whose products and sums pass 2^32: they come out
    right, or within the file, where 32 bits are kept of them."""
    hold(cases)
    # 8 × 2^29, 32 × 2^27 and 48 × 2^28 are whole multiples of 2^32.
    for name, step in (("categories", 2 ** 29), ("entries", 2 ** 27),
                       ("elements", 2 ** 28)):
        own = header_number(EXAMPLE, name)
        for times in (1, 2, 3, 2 ** 32 // step - 1):
            for less in (0, own):
                cases.load_and_show(
                    with_header(EXAMPLE, **{name: own - less + times * step}),
                    SECTION)
    # The same with an empty file of header alone: the end would be 32.
    for name, step in (("categories", 2 ** 29), ("entries", 2 ** 27),
                       ("elements", 2 ** 28)):
        cases.load_and_show(with_header(all_offsets(NO_PARTS, 32),
                                        **{name: step}), SECTION)
    # An offset so far that the end wraps to the right one.
    for name, size in zip(COUNTS, SIZES):
        offset_name = name + "_offset"
        offset = header_number(EXAMPLE, offset_name)
        number = header_number(EXAMPLE, name)
        end = offset + number * size
        for other in (number + 1, number + 2, number + 6, number + 300):
            cases.load_and_show(with_header(
                EXAMPLE, **{name: other, offset_name: end - other * size}),
                SECTION)
        for far in (LARGEST_U32, 2 ** 32 - size, 2 ** 32 - 8, 2 ** 31):
            for count in (0, 1, number, number + 1, 6, 2 ** 29, LARGEST_U32):
                cases.load(with_header(EXAMPLE, **{name: count,
                                                   offset_name: far}),
                           gives=SECTION)
    # All of them at once.
    for number in LARGE:
        cases.load_and_show(with_header(
            EXAMPLE, **dict.fromkeys(COUNTS + OFFSETS, number)), SECTION)
        cases.load_and_show(with_header(
            EXAMPLE, **dict.fromkeys(COUNTS, number)), SECTION)
        cases.load_and_show(all_offsets(EXAMPLE, number), SECTION)
    cases.dump_all()


# Lengths.

def lengths(cases):
    """Short files, whose header is not whole, and files about the limit."""
    hold(cases)
    cases.load_and_show(b"", FILE)
    for length in (1, 4, 28, 29, 30, 31):
        # Of a header alone, with that length as far as it is there; of
        # zeros; of the example.
        cases.load_and_show(cut_to(NO_PARTS, length), FILE)
        cases.load(NO_PARTS[:length], gives=FILE)
        cases.load(bytes(length), gives=FILE)
        cases.load(EXAMPLE[:length], gives=FILE)
    cases.dump_all()
    for length in (32, 33, 63, 64, 65, 127, 128, 129):
        for told, gives in ((length, LOADED), (length + 1, FILE),
                            (length - 1, FILE), (0, FILE), (16_384, FILE)):
            cases.load_and_show(with_header(cut_to(NO_PARTS, length),
                                            length=told), gives)
    # The bytes there are, more or fewer than the header says.
    for length in (216, 215, 217, 200, 256):
        cases.load_and_show((EXAMPLE + bytes(64))[:length],
                            LOADED if length == 216 else FILE)
    cases.load_and_show(bytes(64), FILE)
    cases.load_and_show(b"\xff" * 64, FILE)


def longest_files(cases):
    """16,384 bytes pass, one more does not. A file may have its records at
    its very end."""
    hold(cases)
    parts = (CATEGORIES[:1], ENTRIES[:1], ELEMENTS[:2])
    room = MOST_BYTES - len(file_of(*parts))
    at_end = file_of(*parts, (room, 0, 0, 0), 0xFF)
    at_front = file_of(*parts, (0, 0, 0, room), 0xFF)
    cases.load_and_show(at_end)
    cases.load_and_show(cut_to(at_end, MOST_BYTES - 1), SECTION)
    cases.load_and_show(cut_to(at_front, MOST_BYTES - 1))
    cases.load_and_show(with_header(at_front, length=MOST_BYTES - 1), FILE)
    for length in (MOST_BYTES + 1, player.MOST_BYTES):
        for told in (length, MOST_BYTES):
            cases.load_and_show(with_header(cut_to(at_front, length),
                                            length=told), FILE)
    cases.dump_all()


# The order of the grounds.

# What is wrong with a file, and the number that it gives.
BAD_RECORD = file_of([(9, 2)], [(9, 9, 1, 1, 1)], [(9, 0, 9, 9, 0, 0, 1, 1)])
BAD_SECTION = with_header(BAD_RECORD, entries_offset=41)
BAD_MARK = with_header(BAD_RECORD, mark=14084)
BAD_LENGTH = with_header(BAD_RECORD, length=len(BAD_RECORD) + 1)
BAD_MARK_AND_SECTION = with_header(BAD_SECTION, mark=14082)
BAD_LENGTH_AND_SECTION = with_header(BAD_SECTION, length=0)
BAD_HEADER = with_header(BAD_MARK_AND_SECTION, length=LARGEST_U32)


def order_of_grounds(cases):
    """1, then 11, then 12, then the calls; each file below has what is wrong
    with those after it too."""
    for lent in (3000, 2660, 2659, 0):
        cases.lend(player.MOST_WORDS)
        hold(cases)
        cases.lend(lent)
        for data, gives in (
            (BAD_HEADER, FILE), (BAD_MARK_AND_SECTION, FILE),
            (BAD_LENGTH_AND_SECTION, FILE), (BAD_MARK, FILE),
            (BAD_LENGTH, FILE), (BAD_HEADER[:31], FILE), (b"", FILE),
            (BAD_SECTION, SECTION),
            (with_header(BAD_RECORD, entries=0, entries_offset=39), SECTION),
            (with_header(BAD_RECORD, categories_offset=0), SECTION),
            (BAD_RECORD, (13, 1, 1)),
            (with_byte(BAD_RECORD, 36, 0), (3, 1, 1)),
            (EXAMPLE, LOADED),
        ):
            cases.load_and_show(data, gives if lent >= 2660 else SLICE)
        cases.dump_all()
    cases.lend(player.MOST_WORDS)


def add(cases):
    header_fields(cases)
    header_fields_with_gaps(cases)
    empty_sections(cases)
    places_of_empty_sections(cases)
    edges_of_sections(cases)
    wraps(cases)
    lengths(cases)
    longest_files(cases)
    order_of_grounds(cases)
