"""The records that the cases of loading are put together from."""

from cases.file_writer import file_of

# A file with records of every sort. Its pools leave units over. The passengers
# of category 3 are weighed, those of category 2 are not.
CATEGORIES = ((1, 1), (2, 0), (3, 1), (4, 1))
ENTRIES = (
    (1, 0, 1001, 7, 5),
    (1, 1, 13, 11, 0),
    (2, 0, 17, 19, 23),
    (3, 0, 99_991, 31, 29),
    (3, 2, 3, 0, 41),
    (4, 2, 1, 43, 47),
    (4, 0, 5, 5, 5),
)
ELEMENTS = (
    (1, 7, 0, 0, 300, 7, 0, 0),
    (1, 4, 1, 0, 11, 13, 0, 0),
    (2, 7, 250, 0, 3, 900, 0, 0),
    (3, 9, 2, 0, 1234, 567, 0, 0),
    (3, 10_000, 400, 80, 3, 1000, 0, 0),
    (4, 4, 2, 0, 77, 0, 0, 0),
    (4, 1, 0, 0, 5, 0, 0, 0),
    (0, 7, 0, 1, 1000, 905_000, 600_000, 1),
)
PARTS = (CATEGORIES, ENTRIES, ELEMENTS)
WHOLE = file_of(*PARTS)

# A record of each sort.
FREIGHT, PASSENGERS, HUB, QUOTE = (ELEMENTS[place] for place in (0, 4, 6, 7))


def with_record(table, place, record):
    """The parts with one more record in a table, at this place of it."""
    parts = list(PARTS)
    parts[table - 1] = (parts[table - 1][:place] + (record,)
                        + parts[table - 1][place:])
    return parts


def changed(record, **fields):
    """The same record of an element with other fields."""
    names = ("category", "chain", "code", "adjust", "amount", "distance",
             "operation_intensity", "provision_intensity")
    record = list(record)
    for name, value in fields.items():
        record[names.index(name)] = value
    return tuple(record)


# A full book.

def kind_of(category):
    """1 freight, 2 passengers, 3 both, 4 freight hub, in turn."""
    return 1 + (category - 1) % 4


def full_categories():
    return [(kind_of(number), 1) for number in range(1, 17)]


def full_entries():
    """Four for each category."""
    entries = []
    for number in range(64):
        kind = 1 + number % 4
        group = 0 if kind == 2 else number // 16 % 3
        entries.append((1 + number % 16, group, 10_007 + number, 101 + number,
                        3 * number))
    return entries


def element_of(category, chain, number):
    """An element of a full book's category; others have another number."""
    kind, turn = kind_of(category), number // 16
    code = turn % 3
    if kind == 2 or kind == 3 and turn % 2 == 1:
        code = 100 + 3 * number
    distance = 0 if kind == 4 else 1000 + 7 * number
    weighed = code >= 100 and category > 8
    return (category, chain, code, 1 + 7 * number % 300 if weighed else 0,
            13 + number, distance, 0, 0)


def full_elements():
    """Sixteen for each category, of every group and of both sorts where they
    suit it. From category 9 on passengers are weighed."""
    return [element_of(1 + number % 16, 1 + 37 * number, number)
            for number in range(256)]


def full_parts():
    return full_categories(), full_entries(), full_elements()
