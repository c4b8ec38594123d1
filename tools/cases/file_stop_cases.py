"""Cases of loading that a record stops: 13 and every ground of a call, in
every table, and the closings.
"""

from cases.book_writer import FARTHEST, LARGEST
from cases.file_header_cases import LOADED, hold
from cases.file_parts import (
    CATEGORIES, ELEMENTS, ENTRIES, FREIGHT, HUB, PARTS, PASSENGERS, QUOTE,
    changed, full_elements, with_record)
from cases.file_writer import LARGEST_U32, file_of, header_number, with_byte

IN_CATEGORIES, IN_ENTRIES, IN_ELEMENTS, IN_CLOSINGS = 1, 2, 3, 4
BAD_FIELD = 13


def stop(cases, number, table, record, place):
    """A record at this place of its table stops a file."""
    cases.load_and_show(file_of(*with_record(table, place, record)),
                        (number, table, place + 1))


def stop_everywhere(cases, number, table, record):
    """As the first of its table, in the middle and as the last."""
    last = len(PARTS[table - 1])
    for place in (0, last // 2, last):
        stop(cases, number, table, record, place)


def stop_at_last(cases, number, table, *records):
    """Others that give the same number."""
    for record in records:
        stop(cases, number, table, record, len(PARTS[table - 1]))


# A field that must be 0, and flags.

def flags(cases):
    hold(cases)
    stop_everywhere(cases, BAD_FIELD, IN_CATEGORIES, (1, 2))
    stop_at_last(cases, BAD_FIELD, IN_CATEGORIES, (1, LARGEST_U32), (2, 3),
                 (3, 2 ** 8), (4, 2 ** 8 + 1), (1, 2 ** 16), (2, 2 ** 24 + 1),
                 (3, 2 ** 31), (4, 2 ** 31 + 1))
    # A flag of 1 or 2 after one that stopped the file: nothing is closed.
    for categories, record in (
        (((1, 2), (1, 1)), 1), (((1, 1), (1, 2), (3, 1)), 2),
        (((1, 2), (1, 2)), 1), (((1, 0), (1, 1), (1, 2)), 3),
        (((1, 1), (2, 0), (3, 1), (4, LARGEST_U32)), 4),
    ):
        cases.load_and_show(file_of(categories, ENTRIES, ELEMENTS),
                            (BAD_FIELD, IN_CATEGORIES, record))
    cases.dump_all()


def fields_that_must_be_0(cases):
    """Each of them alone, also in its upper bits alone."""
    hold(cases)
    for record in (FREIGHT, PASSENGERS, HUB):
        for name, values in (
            ("adjust", (1, 2, 100, 2 ** 8, 2 ** 31, LARGEST_U32)),
            ("operation_intensity", (1, 2 ** 32, 2 ** 63, LARGEST)),
            ("provision_intensity", (1, 2 ** 32, 2 ** 63, LARGEST)),
        ):
            # The adjust field of passengers is their kg per head.
            if (record, name) == (PASSENGERS, "adjust"):
                continue
            stop_at_last(cases, BAD_FIELD, IN_ELEMENTS,
                         *[changed(record, **{name: value})
                           for value in values])
    stop_everywhere(cases, BAD_FIELD, IN_ELEMENTS, changed(FREIGHT, adjust=1))
    stop_everywhere(cases, BAD_FIELD, IN_ELEMENTS,
                    changed(PASSENGERS, provision_intensity=2 ** 40))
    # Freight of a group, and a code with category 0: freight, passengers,
    # none.
    stop_everywhere(cases, BAD_FIELD, IN_ELEMENTS, changed(QUOTE, code=1))
    stop_at_last(cases, BAD_FIELD, IN_ELEMENTS,
                 *[changed(QUOTE, code=code)
                   for code in (2, 3, 99, 100, 1000, 1001, 2 ** 8, 2 ** 16,
                                2 ** 31, LARGEST_U32)])
    # What need not be 0: adjust and the intensities of a quote.
    for adjust in (0, 1):
        for intensities in ((0, 0), (1, 0), (0, 10 ** 9), (10 ** 6, 7)):
            record = (0, 5, 0, adjust, 3, 11, *intensities)
            cases.load_and_show(file_of((), (), (record, record)))
    # An adjust that is none of its values is no 13.
    stop_at_last(cases, 3, IN_ELEMENTS,
                 *[changed(QUOTE, adjust=adjust)
                   for adjust in (2, 3, 2 ** 8, 2 ** 31, LARGEST_U32)])
    cases.dump_all()


def bad_field_first(cases):
    """13 comes before every ground of the record's own call."""
    hold(cases)
    # A kind that is none; a category too many.
    for kind in (0, 5, LARGEST_U32):
        stop_at_last(cases, BAD_FIELD, IN_CATEGORIES, (kind, 2))
    many = [(1, 0)] * 16
    for last in ((1, 2), (0, 2), (9, LARGEST_U32)):
        cases.load_and_show(file_of(many + [last], ENTRIES, ELEMENTS),
                            (BAD_FIELD, IN_CATEGORIES, 17))
    # Enrolments with one ground each: no such category, chain or code,
    # unsuited, out of range.
    for record in (
        changed(FREIGHT, category=5), changed(FREIGHT, category=LARGEST_U32),
        changed(FREIGHT, chain=0), changed(FREIGHT, chain=10_001),
        changed(FREIGHT, code=3), changed(FREIGHT, code=100),
        changed(FREIGHT, category=2), changed(HUB, code=1000),
        changed(FREIGHT, amount=0), changed(PASSENGERS, amount=10 ** 6 + 1),
        changed(FREIGHT, distance=FARTHEST + 1), changed(HUB, distance=1),
    ):
        if record[2] not in range(100, 1001):
            stop_at_last(cases, BAD_FIELD, IN_ELEMENTS,
                         changed(record, adjust=1))
        stop_at_last(cases, BAD_FIELD, IN_ELEMENTS,
                     changed(record, operation_intensity=1),
                     changed(record, provision_intensity=LARGEST))
    # Quotes: chain, adjust, out of range, over the limit.
    for record in (
        changed(QUOTE, chain=0), changed(QUOTE, adjust=2),
        changed(QUOTE, amount=0), changed(QUOTE, distance=0),
        changed(QUOTE, operation_intensity=10 ** 9 + 1), HUGE_QUOTE,
    ):
        stop_at_last(cases, BAD_FIELD, IN_ELEMENTS, changed(record, code=1))
    # An enrolment over the limit of activity.
    for last, gives in ((LONGEST, 10), (changed(LONGEST, adjust=1), BAD_FIELD),
                        (changed(LONGEST, operation_intensity=1), BAD_FIELD)):
        cases.load_and_show(file_of(CATEGORIES, (), [LONGEST, LONGEST, last]),
                            (gives, IN_ELEMENTS, 3))
    # The 13 of a later record does not come before an earlier record's stop.
    for first, gives in ((changed(FREIGHT, chain=0), (3, 3, 1)),
                         (changed(FREIGHT, code=100), (6, 3, 1))):
        cases.load_and_show(
            file_of(CATEGORIES, ENTRIES, [first, changed(FREIGHT, adjust=1)]),
            gives)
    cases.load_and_show(file_of([(9, 0), (1, 2)]), (3, 1, 1))
    cases.load_and_show(
        file_of(CATEGORIES, [(9, 0, 1, 1, 1)], [changed(FREIGHT, adjust=1)]),
        (2, 2, 1))
    cases.dump_all()


# The grounds of each call.

# 10^9 kg over 40,000 km: three of them pass 10^17.
LONGEST = (1, 1, 0, 0, 10 ** 9, FARTHEST, 0, 0)
HUGE_QUOTE = (0, 1, 0, 0, 10 ** 9, FARTHEST, 10 ** 9, 0)
HUGE_ENTRY = (1, 0, 10 ** 12, 10 ** 10, 0)
HUGE_SUM = (1, 0, 10 ** 12, 10 ** 6, 10 ** 6)


def stops_of_open(cases):
    hold(cases)
    stop_everywhere(cases, 3, IN_CATEGORIES, (0, 0))
    stop_everywhere(cases, 3, IN_CATEGORIES, (5, 1))
    stop_at_last(cases, 3, IN_CATEGORIES, (2 ** 8 + 1, 0), (2 ** 16 + 2, 1),
                 (2 ** 24 + 3, 0), (2 ** 31, 0), (LARGEST_U32, 1))


def stops_of_post(cases):
    hold(cases)
    for number, record, others in (
        (2, (0, 0, 1, 1, 1),
         ((5, 0, 1, 1, 1), (16, 0, 1, 1, 1), (17, 0, 1, 1, 1),
          (2 ** 8 + 1, 0, 1, 1, 1), (2 ** 31 + 1, 0, 1, 1, 1),
          (LARGEST_U32, 9, LARGEST, LARGEST, LARGEST))),
        (3, (1, 3, 1, 1, 1),
         ((2, 3, 1, 1, 1), (3, 2 ** 8, 1, 1, 1), (4, 2 ** 16 + 1, 1, 1, 1),
          (1, LARGEST_U32, LARGEST, 1, 1))),
        (6, (2, 1, 1, 1, 1), ((2, 2, 1, 1, 1), (2, 2, LARGEST, 1, 1))),
        (7, (1, 0, 10 ** 12 + 1, 0, 0),
         ((1, 0, 0, 10 ** 10 + 1, 0), (1, 0, 0, 0, 10 ** 10 + 1),
          (3, 1, LARGEST, 1, 1), (4, 2, 1, LARGEST, 1), (2, 0, 1, 1, LARGEST),
          (1, 0, 2 ** 40, 0, 0), (1, 0, 2 ** 63 + 1, 1, 1),
          (1, 0, 1, 2 ** 63 + 1, 1), (1, 0, 1, 1, 2 ** 63 + 1))),
        (10, HUGE_ENTRY,
         ((1, 0, 10 ** 12, 0, 10 ** 10), (2, 0, 10 ** 9, 10 ** 9, 1),
          (4, 2, 10 ** 12, 10 ** 6, 10 ** 6))),
    ):
        stop_everywhere(cases, number, IN_ENTRIES, record)
        stop_at_last(cases, number, IN_ENTRIES, *others)


def stops_of_enrol(cases):
    hold(cases)
    for number, record, others in (
        (2, changed(FREIGHT, category=5),
         (changed(FREIGHT, category=16), changed(FREIGHT, category=17),
          changed(FREIGHT, category=2 ** 8),
          changed(FREIGHT, category=2 ** 16 + 1),
          changed(FREIGHT, category=2 ** 31),
          changed(FREIGHT, category=LARGEST_U32, chain=0))),
        (3, changed(FREIGHT, chain=0),
         (changed(FREIGHT, chain=10_001), changed(FREIGHT, chain=2 ** 16 + 1),
          changed(FREIGHT, chain=LARGEST_U32), changed(FREIGHT, code=3),
          changed(FREIGHT, code=99), changed(PASSENGERS, code=1001, adjust=0),
          changed(FREIGHT, code=2 ** 16),
          changed(PASSENGERS, code=2 ** 31, adjust=0),
          changed(FREIGHT, code=LARGEST_U32))),
        (6, changed(FREIGHT, code=100),
         (changed(FREIGHT, category=2), changed(FREIGHT, category=2, code=2),
          changed(HUB, code=1000), changed(HUB, category=2))),
        (7, changed(FREIGHT, amount=0),
         (changed(FREIGHT, amount=10 ** 9 + 1),
          changed(PASSENGERS, amount=0),
          changed(PASSENGERS, amount=10 ** 6 + 1),
          changed(FREIGHT, distance=0), changed(PASSENGERS, distance=0),
          changed(FREIGHT, distance=FARTHEST + 1), changed(HUB, distance=1),
          changed(HUB, amount=2 ** 32 + 1),
          changed(FREIGHT, amount=2 ** 32), changed(FREIGHT, amount=LARGEST),
          changed(FREIGHT, distance=2 ** 32 + 1),
          changed(PASSENGERS, distance=2 ** 63 + 1),
          changed(HUB, distance=2 ** 32))),
    ):
        stop_everywhere(cases, number, IN_ELEMENTS, record)
        stop_at_last(cases, number, IN_ELEMENTS, *others)
    # 10: the third of the longest, and other sorts after two and a half.
    half = changed(LONGEST, distance=FARTHEST // 2)
    for elements, place in (
        ([LONGEST] * 3, 3),
        ([LONGEST, LONGEST, LONGEST, FREIGHT, QUOTE], 3),
        ([LONGEST, FREIGHT, LONGEST, QUOTE, LONGEST], 5),
        ([LONGEST, LONGEST, half, changed(HUB, category=4)], 4),
        ([LONGEST, LONGEST, half, changed(PASSENGERS, category=2)], 4),
        ([LONGEST, LONGEST, half, FREIGHT, QUOTE], 4),
    ):
        cases.load_and_show(file_of(CATEGORIES, ENTRIES, elements),
                            (10, IN_ELEMENTS, place))
    # Exactly 10^17 passes.
    cases.load_and_show(file_of([(1, 1)], ENTRIES[:1],
                                [LONGEST, LONGEST, half]))
    cases.dump_all()


# One head each of codes 100 and 400 over 1 m, and freight beside them.
def worked_row(*kgs_per_head):
    return [(1, 1, 0, 0, 100, 1, 0, 0),
            *[(1, chain, code, kg_per_head, 1, 1, 0, 0) for chain, code,
              kg_per_head in zip((2, 3), (100, 400), kgs_per_head)]]


def weighed_passengers(cases):
    """The adjust field of a passenger element is its kg per head."""
    hold(cases)
    # A 9, F 100. With 50 kg per head P is 100: 5, 1, 3.
    for kgs_per_head, shares in (((0, 0), (3, 1, 5)), ((100, 100), (3, 1, 5)),
                                 ((50, 50), (5, 1, 3)),
                                 ((300, 300), (1, 2, 6)), ((1, 1), (9, 0, 0)),
                                 ((1, 99), (5, 1, 3)), ((99, 1), (5, 1, 3))):
        cases.load_and_show(file_of([(3, 1)], [(1, 0, 1, 9, 0)],
                                    worked_row(*kgs_per_head)))
        cases.shares_are(1, shares, (0, 0, 0))
        for chain, share in enumerate(shares, 1):
            cases.statement(chain, shows=(1, 0, share, 0, share))
        cases.intensities(1)
    # 14, whichever is weighed, and 7.
    for kgs_per_head, gives in (((0, 100), 14), ((100, 0), 14), ((0, 301), 14),
                                ((0, LARGEST_U32), 14), ((300, 301), 7),
                                ((1, LARGEST_U32), 7), ((1, 2 ** 16 + 1), 7)):
        cases.load_and_show(file_of([(3, 1)], [(1, 0, 1, 9, 0)],
                                    worked_row(*kgs_per_head)),
                            (gives, IN_ELEMENTS, 3))
    # Each class, and each stated mass, of a first passenger.
    for code in (100, 101, 999, 1000):
        for kg_per_head in (0, 1, 2, 99, 100, 101, 255, 256, 300, 301, 512,
                            2 ** 8 + 45, 2 ** 16, 2 ** 24 + 1, 2 ** 31,
                            LARGEST_U32):
            record = (1, 2, code, kg_per_head, 3, 4, 0, 0)
            for kind in (2, 3):
                cases.load_and_show(
                    file_of([(kind, 0)], (), [record]),
                    LOADED if kg_per_head <= 300 else (7, IN_ELEMENTS, 1))
            for kind in (1, 4):
                cases.load_and_show(file_of([(kind, 0)], (), [record]),
                                    (6, IN_ELEMENTS, 1))
    cases.dump_all()


def stops_of_weighed(cases):
    """14 after an earlier passenger of the category; category 2 has one who
    is not weighed, 3 one who is. 13 and the other grounds where adjust is not
    0."""
    hold(cases)
    last = len(ELEMENTS)
    unweighed = changed(PASSENGERS, adjust=0)
    weighed = changed(PASSENGERS, category=2)
    for place in (5, 6, last):
        for record in (unweighed, weighed):
            stop(cases, 14, IN_ELEMENTS, record, place)
    stop_at_last(cases, 14, IN_ELEMENTS,
                 changed(weighed, adjust=1), changed(weighed, adjust=100),
                 changed(weighed, adjust=300), changed(weighed, adjust=301),
                 changed(weighed, adjust=LARGEST_U32),
                 # 14 comes before 7.
                 changed(unweighed, amount=0), changed(weighed, amount=0),
                 changed(unweighed, distance=0),
                 changed(weighed, distance=FARTHEST + 1),
                 changed(unweighed, amount=LARGEST, distance=LARGEST))
    # As the first of its category it is loaded, and the later one stops.
    for record, place in ((unweighed, 6), (weighed, 4),
                          (changed(weighed, adjust=300), 4)):
        cases.load_and_show(file_of(*with_record(IN_ELEMENTS, 0, record)),
                            (14, IN_ELEMENTS, place))
    # 7 in the weighed category; as the first of all, in either.
    stop_everywhere(cases, 7, IN_ELEMENTS, changed(PASSENGERS, adjust=301))
    stop_at_last(cases, 7, IN_ELEMENTS,
                 *[changed(PASSENGERS, adjust=adjust)
                   for adjust in (302, 512, 2 ** 16 + 1, 2 ** 31,
                                  LARGEST_U32)])
    stop(cases, 7, IN_ELEMENTS, changed(weighed, adjust=301), 0)
    # 2, 3 and 6 come before 14 and 7.
    for adjust in (0, 80, 301, LARGEST_U32):
        stop_at_last(cases, 2, IN_ELEMENTS,
                     changed(PASSENGERS, category=5, adjust=adjust))
        stop_at_last(cases, 3, IN_ELEMENTS,
                     changed(PASSENGERS, chain=0, adjust=adjust),
                     changed(weighed, chain=10_001, adjust=adjust))
        stop_at_last(cases, 6, IN_ELEMENTS,
                     changed(PASSENGERS, category=1, adjust=adjust),
                     changed(PASSENGERS, category=4, adjust=adjust),
                     changed(FREIGHT, code=100, adjust=adjust),
                     changed(HUB, code=1000, adjust=adjust))
    # 13 where no passenger is: freight, and codes that are none.
    for code in (0, 1, 2, 3, 50, 98, 99, 1001, 1002, 2 ** 16 + 100,
                 LARGEST_U32):
        for record in (FREIGHT, HUB, PASSENGERS, weighed,
                       changed(PASSENGERS, category=5)):
            stop_at_last(cases, BAD_FIELD, IN_ELEMENTS,
                         changed(record, code=code, adjust=80))
    # 13 by an intensity comes before 14 and 7, with adjust or without.
    for record in (unweighed, weighed, PASSENGERS,
                   changed(PASSENGERS, adjust=301),
                   changed(PASSENGERS, category=1)):
        stop_at_last(cases, BAD_FIELD, IN_ELEMENTS,
                     changed(record, operation_intensity=1),
                     changed(record, provision_intensity=1))
    # A quote's adjust is what it was.
    for adjust, gives in ((0, LOADED), (1, LOADED), (2, (3, 3, 9)),
                          (80, (3, 3, 9)), (300, (3, 3, 9))):
        cases.load_and_show(
            file_of(*with_record(IN_ELEMENTS, last,
                                 changed(QUOTE, adjust=adjust))), gives)
    cases.dump_all()


def full_of_passengers(cases):
    """256 passengers: the last is of the other sort, then there is one more.
    14 and 7 come before 8, and before 10."""
    hold(cases)
    for first in (75, 0):
        listed = [(1, 1 + number, 100 + number, first, 2, 3, 0, 0)
                  for number in range(257)]
        for count in (255, 256):
            cases.load(file_of([(2, 1)], [(1, 0, 1, 1000, 999)],
                               listed[:count]))
            cases.dump_book()
        for place, more, number in ((256, {"adjust": 75 - first}, 14),
                                    (257, {"adjust": 75 - first}, 14),
                                    (257, {"adjust": 301},
                                     7 if first else 14),
                                    (257, {}, 8),
                                    (2, {"adjust": 75 - first}, 14)):
            elements = listed[:max(place, 3)]
            elements[place - 1] = changed(elements[place - 1], **more)
            cases.load_and_show(file_of([(2, 1)], (), elements),
                                (number, IN_ELEMENTS, place))
    # Exactly 10^17 by 100 kg a head, then one more.
    heads = (1, 1, 1000, 300, 10 ** 6, FARTHEST, 0, 0)
    cases.load_and_show(file_of([(2, 1)], [HUGE_SUM], [heads] * 25))
    cases.intensity(1, 100, shows=(100, 100))
    for more, number in ((heads, 10), (changed(heads, amount=1, distance=1,
                                               adjust=1), 10),
                         (changed(heads, adjust=0), 14),
                         (changed(heads, adjust=301), 7)):
        cases.load_and_show(file_of([(2, 1)], (), [heads] * 25 + [more]),
                            (number, IN_ELEMENTS, 26))


def stops_of_quote(cases):
    hold(cases)
    for number, record, others in (
        (3, changed(QUOTE, chain=0),
         (changed(QUOTE, chain=10_001), changed(QUOTE, chain=2 ** 16 + 7),
          changed(QUOTE, chain=LARGEST_U32), changed(QUOTE, adjust=2),
          changed(QUOTE, adjust=2, amount=0))),
        (7, changed(QUOTE, amount=0),
         (changed(QUOTE, amount=10 ** 9 + 1), changed(QUOTE, distance=0),
          changed(QUOTE, distance=FARTHEST + 1),
          changed(QUOTE, operation_intensity=10 ** 9 + 1),
          changed(QUOTE, provision_intensity=10 ** 9 + 1),
          changed(QUOTE, amount=2 ** 32 + 1),
          changed(QUOTE, distance=2 ** 32 + 1),
          changed(QUOTE, operation_intensity=2 ** 32),
          changed(QUOTE, provision_intensity=2 ** 63),
          changed(QUOTE, amount=LARGEST), changed(QUOTE, distance=LARGEST))),
        (10, HUGE_QUOTE,
         (changed(HUGE_QUOTE, operation_intensity=0,
                  provision_intensity=10 ** 9),
          changed(HUGE_QUOTE, adjust=1))),
    ):
        stop_everywhere(cases, number, IN_ELEMENTS, record)
        stop_at_last(cases, number, IN_ELEMENTS, *others)
    # 10 by the activity, and by entries: 10^18 are posted.
    cases.load_and_show(
        file_of([(1, 0)], (), [LONGEST, changed(LONGEST, category=0),
                               changed(LONGEST, category=0)]),
        (10, IN_ELEMENTS, 3))
    posted = [(1, 0, 10 ** 12, 10 ** 6, 10 ** 6)]
    for intensities, gives in (((500, 500), LOADED), ((501, 0), (10, 3, 1)),
                               ((0, 501), (10, 3, 1))):
        cases.load_and_show(
            file_of([(1, 0)], posted, [(0, 1, 0, 0, 1, 1, *intensities)]),
            gives)
    cases.dump_all()


# Too many records.

def too_many_categories(cases):
    hold(cases)
    for count, gives in ((16, LOADED), (17, (8, 1, 17)), (18, (8, 1, 17)),
                         (40, (8, 1, 17))):
        categories = [(1 + number % 4, 0) for number in range(count)]
        cases.load_and_show(file_of(categories, ENTRIES, ELEMENTS), gives)
    # 3 comes before 8; an unknown kind further back is not reached.
    full = [(1, 0)] * 16
    cases.load_and_show(file_of(full + [(5, 0)]), (3, 1, 17))
    cases.load_and_show(file_of(full + [(1, 1), (0, 2)]), (8, 1, 17))


def too_many_entries(cases):
    hold(cases)
    entries = [(1 + number % 4, 0, number, 3, 4) for number in range(70)]
    for count, gives in ((64, LOADED), (65, (8, 2, 65)), (66, (8, 2, 65)),
                         (70, (8, 2, 65))):
        cases.load_and_show(file_of(CATEGORIES, entries[:count], ELEMENTS),
                            gives)
    # What comes before 8, and 10, which comes after it.
    for last, number in (((5, 0, 1, 1, 1), 2), ((1, 3, 1, 1, 1), 3),
                         ((2, 1, 1, 1, 1), 6), ((1, 0, LARGEST, 1, 1), 7),
                         (HUGE_ENTRY, 8)):
        cases.load_and_show(file_of(CATEGORIES, entries[:64] + [last]),
                            (number, 2, 65))


def too_many_elements(cases):
    """257 of them. The limit of activity is near: 8 comes before 10."""
    kinds = [(1, 0), (2, 0), (3, 0), (4, 0)] * 4
    hold(cases)
    elements = full_elements()
    for more, number in (
        ([FREIGHT], 8), ([QUOTE], 8), ([FREIGHT, FREIGHT], 8),
        ([QUOTE, QUOTE], 8), ([changed(FREIGHT, adjust=1)], BAD_FIELD),
        ([changed(QUOTE, code=1)], BAD_FIELD),
        ([changed(QUOTE, amount=0)], 7), ([HUGE_QUOTE], 8),
    ):
        cases.load_and_show(file_of(kinds, (), elements + more),
                            (number, 3, 257))


# Closings.

def closings(cases):
    hold(cases)
    # Category 3 alone is flagged, and has nothing to divide by.
    member = changed(FREIGHT, category=1)
    second = changed(FREIGHT, category=2)
    posted = [(1, 0, 7, 11, 13), (2, 0, 17, 19, 23)]
    cases.load_and_show(file_of([(1, 0), (1, 0), (1, 1)], posted,
                                [member, second, QUOTE]),
                        (9, IN_CLOSINGS, 3))
    cases.load_and_show(file_of([(1, 0), (1, 0), (1, 1), (1, 1)], posted,
                                [member, second]), (9, IN_CLOSINGS, 3))
    # 1 and 2 are closed, 4 is not; 3 is not flagged.
    cases.load_and_show(
        file_of([(1, 1), (1, 1), (1, 0), (1, 1)], posted,
                [member, second, member, changed(member, category=3)]),
        (9, IN_CLOSINGS, 4))
    # Two that cannot be closed: the first in order stops, and those after
    # it stay open.
    members = [changed(FREIGHT, category=number, chain=number)
               for number in (1, 3, 4, 6)]
    several = [(number, 0, 10 * number, 3, 4) for number in range(1, 7)]
    cases.load_and_show(file_of([(1, 1)] * 6, several, members),
                        (9, IN_CLOSINGS, 2))
    cases.load_and_show(file_of([(1, 0), (1, 0)] + [(1, 1)] * 4, several,
                                members), (9, IN_CLOSINGS, 5))
    # The same without those two.
    cases.load_and_show(file_of(
        [(1, int(number in (1, 3, 4, 6))) for number in range(1, 7)],
        several, members))
    for number in range(1, 7):
        cases.statement(number)
    # The sixteenth, first, middle and last of all.
    elements = [changed(FREIGHT, category=number) for number in range(1, 17)]
    for missing in (1, 8, 16):
        cases.load_and_show(
            file_of([(1, 1)] * 16, several,
                    elements[:missing - 1] + elements[missing:]),
            (9, IN_CLOSINGS, missing))
    cases.load_and_show(file_of([(1, 1)] * 16, several, elements))


def closings_without_weights(cases):
    """What makes a closing 9, in each kind, and what does not."""
    for kind, members in (
        (1, [FREIGHT]), (2, [changed(PASSENGERS, category=1)]),
        (3, [FREIGHT, changed(PASSENGERS, category=1)]),
        (4, [changed(HUB, category=1)]),
    ):
        other = changed(members[0], category=2)
        for entries, elements, gives in (
            # Nothing at all; an element that is quoted or of another one.
            ((), (), 9), ((), [QUOTE], 9), ((), [other], 9),
            ([(1, 0, 1, 1, 1)], [other, QUOTE], 9),
            ((), members, 0), ([(1, 0, 3, 5, 7)], members, 0),
        ):
            cases.load_and_show(
                file_of([(kind, 1), (kind, 0)], entries, elements),
                LOADED if gives == 0 else (gives, IN_CLOSINGS, 1))
        if kind == 2:
            continue
        # A group without elements: operation alone, provision alone, none.
        for group in (1, 2):
            for factors, number in (((1, 0), 9), ((0, 1), 9), ((0, 0), 0)):
                entries = [(1, 0, 9, 9, 9), (1, group, 1, *factors)]
                for more, gives in (
                    ([], number), ([changed(members[0], code=group)], 0),
                    ([changed(members[0], code=3 - group)], number),
                    ([changed(members[0], category=2, code=group)], number),
                ):
                    cases.load_and_show(
                        file_of([(kind, 1), (kind, 0)], entries,
                                members + more),
                        LOADED if gives == 0 else (gives, IN_CLOSINGS, 1))


# Every byte of a record.

def bytes_of_records(cases):
    """Each byte of each record is another one, one at a time."""
    data = file_of([(3, 1)], [(1, 0, 5, 6, 7)],
                   [changed(FREIGHT, code=1), QUOTE,
                    changed(PASSENGERS, category=1)])
    cases.load_and_show(data)
    start = header_number(data, "categories_offset")
    for place in range(start, len(data)):
        cases.load(with_byte(data, place, data[place] + 1 & 255), None)
        cases.dump_book()
    # Large numbers whose bytes all differ.
    cases.load_and_show(file_of(
        [(3, 1)], [(1, 0, 0xC7_65_43_21_09, 0x12_34, 0x01_02_03),
                   (1, 1, 0x01_02_03_04, 0x02_05_04_06_07, 3)],
        [(1, 0x12_34, 0x03_21, 0, 0x01_02_03, 0x02_03_04_05, 0, 0),
         (1, 0x23_01, 1, 0, 0x03_02_01, 0x01_04_03_02, 0, 0),
         (0, 0x21_43, 0, 1, 0x01_02_03, 0x01_02_03, 0x01_02_03_04,
          0x04_03_02_01)]), None)


def add(cases):
    flags(cases)
    fields_that_must_be_0(cases)
    bad_field_first(cases)
    stops_of_open(cases)
    stops_of_post(cases)
    stops_of_enrol(cases)
    weighed_passengers(cases)
    stops_of_weighed(cases)
    full_of_passengers(cases)
    stops_of_quote(cases)
    too_many_categories(cases)
    too_many_entries(cases)
    too_many_elements(cases)
    closings(cases)
    closings_without_weights(cases)
    bytes_of_records(cases)
