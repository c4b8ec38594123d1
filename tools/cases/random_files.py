"""Random files: some that are loaded, and the same with damage."""

from cases import file_writer
from cases.file_writer import LARGEST_U32, MOST_BYTES, file_of
from cases.random_cases import (
    by_bits, one_of, random_stated_mass, some_halves)

CATEGORIES, ENTRIES, ELEMENTS = 16, 64, 256  # the limits


# Files that are loaded: no sum comes near to the limits of ground 10.

def random_parts(rng, most=(CATEGORIES, ENTRIES, ELEMENTS)):
    """The records of each table. A category that can be closed is flagged
    most often; one that cannot be is not."""
    kinds = [one_of(rng, (1, 2, 3, 3, 4))
             for _ in range(rng.randrange(most[0] + 1))]
    bits = rng.randrange(1, 20)
    # Whether the passengers of each category are weighed.
    weighed = [rng.randrange(2) == 0 for _ in kinds]
    elements = [random_element(rng, kinds, weighed, bits)
                for _ in range(rng.randrange(most[2] + 1))]
    entries = []
    if kinds:
        entries = [random_entry(rng, kinds, elements)
                   for _ in range(rng.randrange(most[1] + 1))]
    categories = [(kind, int(can_be_closed(number, entries, elements)
                             and rng.randrange(6) > 0))
                  for number, kind in enumerate(kinds, 1)]
    return categories, entries, elements


def random_element(rng, kinds, weighed, bits):
    chain = one_of(rng, (1, 2, 3, 10_000, 1 + rng.randrange(10_000)))
    amount = 1 + by_bits(rng, bits)
    distance = 1 + by_bits(rng, bits)
    if not kinds or rng.randrange(5) == 0:
        return (0, chain, 0, rng.randrange(2), *some_halves(
            rng, amount, distance, by_bits(rng, 20), by_bits(rng, 20)))
    category = 1 + rng.randrange(len(kinds))
    kind = kinds[category - 1]
    passengers = kind == 2 or kind == 3 and rng.randrange(2) == 0
    code = 100 + rng.randrange(901) if passengers else rng.randrange(3)
    kg_per_head = (random_stated_mass(rng)
                   if passengers and weighed[category - 1] else 0)
    return (category, chain, code, kg_per_head, amount,
            0 if kind == 4 else distance, 0, 0)


def random_entry(rng, kinds, elements):
    """For a group most often where its category has some of it."""
    category = 1 + rng.randrange(len(kinds))
    groups = [code for other, _, code, *_ in elements
              if other == category and code < 3]
    if rng.randrange(15) == 0:
        groups = (0, 1, 2)
    group = (0 if kinds[category - 1] == 2 or not groups
             else one_of(rng, (0, one_of(rng, groups))))
    return (category, group, by_bits(rng, 25), by_bits(rng, 25),
            by_bits(rng, 25))


def can_be_closed(number, entries, elements):
    codes = {code for category, _, code, *_ in elements if category == number}
    groups = {group for category, group, *_ in entries if category == number}
    return bool(codes) and groups - {0} <= codes


def random_gaps(rng, parts):
    """Four gaps that the file has room for, most of them small or none."""
    room = MOST_BYTES - len(file_of(*parts))
    gaps = []
    for _ in range(4):
        gap = one_of(rng, (0, 0, rng.randrange(9), rng.randrange(70)))
        gaps.append(min(gap, room - sum(gaps)))
    return gaps


def random_file(rng, most=(CATEGORIES, ENTRIES, ELEMENTS)):
    parts = random_parts(rng, most)
    return file_of(*parts, random_gaps(rng, parts), rng.randrange(256))


# Damage.

def changed_byte(data, rng):
    """Another byte in one place, of the header or behind it."""
    place = rng.randrange(32 if rng.randrange(8) == 0 else len(data))
    byte = data[place]
    other = one_of(rng, (byte ^ 1 << rng.randrange(8), byte + 1, byte - 1,
                         byte + 1 + rng.randrange(255))) % 256
    return file_writer.with_byte(data, place, other)


def changed_header(data, rng):
    """Another count or offset, sometimes two."""
    for _ in range(one_of(rng, (1, 1, 1, 2))):
        name = one_of(rng, file_writer.HEADER[1:7])
        number = file_writer.header_number(data, name)
        other = one_of(rng, (
            number + 1, number - 1, number + 1 + rng.randrange(9),
            number - 1 - rng.randrange(48), 0, number // 2,
            number + one_of(rng, (2 ** 27, 2 ** 28, 2 ** 29, 2 ** 31)),
            len(data), len(data) + 1, by_bits(rng, 32), LARGEST_U32,
            file_writer.header_number(data,
                                      one_of(rng, file_writer.HEADER))))
        data = file_writer.with_header(data, **{name: other})
    return data
