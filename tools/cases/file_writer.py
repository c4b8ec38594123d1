"""Writes files to be loaded, and the records that carry their bytes.

A record of a file is a tuple of its fields in document 01's order. Numbers
are written byte by byte here; calculation/loading.py reads them by another
way.
"""

import records
from calculation import player

HEADER_BYTES = 32
MOST_BYTES = 16_384
LARGEST_U32 = 2 ** 32 - 1

# "eight u32, namely 14083, categories, their offset, entries, offset,
# elements, offset, file length"
HEADER = ("mark", "categories", "categories_offset", "entries",
          "entries_offset", "elements", "elements_offset", "length")

# How many u32 a record of each table begins with; the rest are u64.
SMALL_FIELDS = (2, 2, 4)
# How many bytes it has.
SIZES = (8, 32, 48)


def u32(number):
    return number.to_bytes(4, "little")


def u64(number):
    return number.to_bytes(8, "little")


def record_bytes(table, fields):
    """The bytes of a record of table 1, 2 or 3."""
    small = SMALL_FIELDS[table - 1]
    written = b"".join([u32(field) for field in fields[:small]]
                       + [u64(field) for field in fields[small:]])
    if len(written) != SIZES[table - 1]:
        raise ValueError("no record of table %d: %r" % (table, fields))
    return written


def file_of(categories=(), entries=(), elements=(), gaps=(0, 0, 0, 0),
            fill=0):
    """The bytes of a file. `gaps` are how many bytes lie before each section
    and at the end, `fill` is what each of them holds."""
    numbers = [14083]
    data = b""
    for table, fields in enumerate((categories, entries, elements), 1):
        data += bytes([fill]) * gaps[table - 1]
        numbers += [len(fields), HEADER_BYTES + len(data)]
        data += b"".join(record_bytes(table, record) for record in fields)
    data += bytes([fill]) * gaps[3]
    numbers.append(HEADER_BYTES + len(data))
    return b"".join(map(u32, numbers)) + data


def header_number(data, name):
    place = 4 * HEADER.index(name)
    return int.from_bytes(data[place:place + 4], "little")


def with_header(data, **numbers):
    """The same file with other numbers in its header; they are taken below
    2^32."""
    for name, number in numbers.items():
        place = 4 * HEADER.index(name)
        data = data[:place] + u32(number % 2 ** 32) + data[place + 4:]
    return data


def cut_to(data, length):
    """So many bytes of the file, or zeros behind it; the last header number
    is this length."""
    data = data[:length] + bytes(max(0, length - len(data)))
    return with_header(data, length=length)[:length]


def with_byte(data, place, byte):
    return data[:place] + bytes([byte]) + data[place + 1:]


# What is in a file whose sections are right.

def table_records(data, table):
    """The records of table 1, 2 or 3 as tuples."""
    name = ("categories", "entries", "elements")[table - 1]
    start = header_number(data, name + "_offset")
    small, size = SMALL_FIELDS[table - 1], SIZES[table - 1]
    lengths = [4] * small + [8] * ((size - 4 * small) // 8)
    found = []
    for _ in range(header_number(data, name)):
        fields = []
        for length in lengths:
            fields.append(int.from_bytes(data[start:start + length],
                                         "little"))
            start += length
        found.append(tuple(fields))
    return found


def flagged(data):
    """The numbers of the categories that are to be closed."""
    return [number for number, (_, flag)
            in enumerate(table_records(data, 1), 1) if flag == 1]


def quotes_of(data):
    """The arguments of its quotes."""
    return [(chain, adjust, *measures) for category, chain, _, adjust,
            *measures in table_records(data, 3) if category == 0]


def stop_of(data, table, record):
    """The call that a load stopped at, and whether it was the first of its
    table, the last, the only one or in the middle."""
    if table == 4:
        name, numbers = "close", flagged(data)
    else:
        fields = table_records(data, table)
        numbers = range(1, len(fields) + 1)
        name = ("open", "post", "enrol")[table - 1]
        if table == 3 and fields[record - 1][0] == 0:
            name = "quote"
    if len(numbers) == 1:
        return name, "only"
    return name, {numbers[0]: "first",
                  numbers[-1]: "last"}.get(record, "middle")


# The records of a load.

# How many records the program reads at a time.
CHUNK = 1024


def load_records(data):
    """The records of a load: the operation, then the bytes."""
    first = player.RECORD.pack(player.LOAD, len(data), 0, 0, 0, 0, 0, 0)
    carried = records.padded(data)
    return [first] + [carried[start:start + player.RECORD.size]
                      for start in range(0, len(carried), player.RECORD.size)]


# The example of document 01: "kind 1, flagged; entry 1, 0, 12000000, 3220000,
# 560000; elements 1,7,0,0,1000,300000,0,0 and 1,4,0,0,3000,300000,0,0 and
# 0,7,0,0,1000,500000,62000,10000".
EXAMPLE_CATEGORIES = ((1, 1),)
EXAMPLE_ENTRIES = ((1, 0, 12_000_000, 3_220_000, 560_000),)
EXAMPLE_ELEMENTS = ((1, 7, 0, 0, 1000, 300_000, 0, 0),
                    (1, 4, 0, 0, 3000, 300_000, 0, 0),
                    (0, 7, 0, 0, 1000, 500_000, 62_000, 10_000))
EXAMPLE_PARTS = (EXAMPLE_CATEGORIES, EXAMPLE_ENTRIES, EXAMPLE_ELEMENTS)
EXAMPLE = file_of(*EXAMPLE_PARTS)
