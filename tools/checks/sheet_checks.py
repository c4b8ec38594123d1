"""Checks of the sheet; test_calculation.py makes them."""

import random

from calculation.second_loading import second_load
from calculation.sheet import sheet
from cases import chain_files, file_parts
from cases.file_writer import (
    EXAMPLE, cut_to, file_of, table_records, with_header)
from cases.random_files import changed_byte, changed_header, random_file

SEED = 19
HEADING = b"chain elements waiting operation provision total\n"

# Document 01's own. "The example of document 01 ends with `all 3 0
# 38671000000000 6725000000000 45396000000000`."
SHEET_OF_EXAMPLE = b"""\
chain elements waiting operation provision total
4 1 0 28980000000000 5040000000000 34020000000000
7 2 0 9691000000000 1685000000000 11376000000000
all 3 0 38671000000000 6725000000000 45396000000000
"""
NO_ELEMENT = HEADING + b"all 0 0 0 0 0\n"

LONGEST = cut_to(EXAMPLE, 16_384)

WRITTEN_OUT = (
    (EXAMPLE, SHEET_OF_EXAMPLE),
    (file_of(), NO_ELEMENT),
    (file_of([(1, 0)], [(1, 0, 5, 6, 7)]), NO_ELEMENT),
    (LONGEST, SHEET_OF_EXAMPLE),
    # Too long, also where the header says so, and too short.
    (LONGEST + b"\0", b"refused 11 0 0\n"),
    (cut_to(EXAMPLE, 16_385), b"refused 11 0 0\n"),
    (bytes(100_000), b"refused 11 0 0\n"),
    (EXAMPLE[:31], b"refused 11 0 0\n"),
    (b"", b"refused 11 0 0\n"),
    # A section within the header, and a stop in each table.
    (with_header(EXAMPLE, categories_offset=31), b"refused 12 0 0\n"),
    (file_of([(1, 0), (1, 2)]), b"refused 13 1 2\n"),
    (file_of([(1, 0)], [(2, 0, 1, 1, 1)]), b"refused 2 2 1\n"),
    (file_of((), (), [(0, 10_001, 0, 0, 1, 1, 0, 0)]), b"refused 3 3 1\n"),
    (file_of([(1, 0), (1, 0), (1, 1)]), b"refused 9 4 3\n"),
    # "Kind 3, A 9, freight activity 100, one head each of codes 100 and 400
    # over 1 m: 3, 1, 5." Each is on its own chain, the first the last.
    (file_of([(3, 1)], [(1, 0, 1, 9, 0)],
             [(1, 10_000, 0, 0, 100, 1, 0, 0), (1, 9, 100, 0, 1, 1, 0, 0),
              (1, 1, 400, 0, 1, 1, 0, 0)]),
     HEADING + b"1 1 0 5 0 5\n9 1 0 1 0 1\n10000 1 0 3 0 3\n"
     b"all 3 0 9 0 9\n"),
    # The same with 50 kg per head: 5, 1, 3. Then a mixture, either way, and
    # 301 kg.
    (file_of([(3, 1)], [(1, 0, 1, 9, 0)],
             [(1, 10_000, 0, 0, 100, 1, 0, 0), (1, 9, 100, 50, 1, 1, 0, 0),
              (1, 1, 400, 50, 1, 1, 0, 0)]),
     HEADING + b"1 1 0 3 0 3\n9 1 0 1 0 1\n10000 1 0 5 0 5\n"
     b"all 3 0 9 0 9\n"),
    (file_of([(3, 1)], (), [(1, 9, 100, 50, 1, 1, 0, 0),
                            (1, 1, 400, 0, 1, 1, 0, 0)]),
     b"refused 14 3 2\n"),
    (file_of([(3, 1)], (), [(1, 9, 100, 0, 1, 1, 0, 0),
                            (1, 1, 400, 301, 1, 1, 0, 0)]),
     b"refused 14 3 2\n"),
    (file_of([(3, 1)], (), [(1, 9, 100, 301, 1, 1, 0, 0)]),
     b"refused 7 3 1\n"),
    (file_of([(1, 1)], (), [(1, 9, 100, 80, 1, 1, 0, 0)]),
     b"refused 6 3 1\n"),
    (file_of([(3, 1)], (), [(1, 9, 50, 80, 1, 1, 0, 0)]),
     b"refused 13 3 1\n"),
    # "A 8, B1 5, ambient 100, chilled 300: 2 and 11", in provision; and the
    # same in a category that stays open, on the same chain.
    (file_of([(1, 1), (1, 0)],
             [(1, 0, 1, 0, 8), (1, 1, 1, 0, 5), (2, 0, 1, 0, 8)],
             [(1, 2, 0, 0, 100, 1, 0, 0), (2, 2, 0, 0, 100, 1, 0, 0),
              (1, 3, 1, 0, 300, 1, 0, 0), (2, 4, 1, 0, 300, 1, 0, 0)]),
     HEADING + b"2 2 1 0 2 2\n3 1 0 0 11 11\n4 1 1 0 0 0\n"
     b"all 4 2 0 13 13\n"),
    # 0.5 and 1.5, then 1.5 and 2.5: "The starred quote of half a microgram
    # becomes 0, and 1.5 stays 2." A quote never waits.
    (file_of((), (), [(0, 5, 0, 0, 500, 1, 1, 3),
                      (0, 5, 0, 0, 1500, 1, 1, 0),
                      (0, 5, 0, 0, 500, 1, 0, 5)]),
     HEADING + b"5 3 0 2 4 6\nall 3 0 2 4 6\n"),
    # The class total. One chain: 21 over 1, 2 and 20 over 1, 2.
    (file_of([(1, 1)], [(1, 0, 1, 21, 20)],
             [(1, 7, 0, 0, 1, 1, 0, 0), (1, 7, 0, 0, 2, 1, 0, 0)]),
     HEADING + b"7 2 0 21 20 41\nall 2 0 21 20 41\n"),
    # Quotes alone, on three chains; there is a category without elements.
    (file_of([(1, 0)], [(1, 0, 1, 9, 9)],
             [(0, 3, 0, 0, 1000, 1, 5, 6), (0, 1, 0, 0, 1000, 1, 7, 0),
              (0, 2, 0, 0, 1000, 1, 0, 8), (0, 3, 0, 0, 1000, 2, 50, 60)]),
     HEADING + b"1 1 0 7 0 7\n2 1 0 0 8 8\n3 2 0 105 126 231\n"
     b"all 4 0 112 134 246\n"),
    # Open categories alone: all wait, and no entry is handed out.
    (file_of([(1, 0), (4, 0)], [(1, 0, 1, 9, 9), (2, 0, 1, 10 ** 9, 0)],
             [(1, 8, 0, 0, 1, 1, 0, 0), (2, 8, 1, 0, 1, 0, 0, 0),
              (1, 6, 2, 0, 1, 1, 0, 0)]),
     HEADING + b"6 1 1 0 0 0\n8 2 2 0 0 0\nall 3 3 0 0 0\n"),
    # An open category, a closed one and quotes, on the same two chains: 10
    # and 3 over 1, 1 are 5, 5 and 2, 1; the quotes are 100, 0 and 0, 1000.
    (file_of([(1, 0), (1, 1)], [(1, 0, 1, 70, 70), (2, 0, 1, 10, 3)],
             [(1, 4, 0, 0, 1, 1, 0, 0), (2, 4, 0, 0, 1, 1, 0, 0),
              (0, 4, 0, 0, 1000, 1, 100, 0), (0, 2, 0, 0, 1000, 1, 0, 1000),
              (2, 2, 0, 0, 1, 1, 0, 0), (1, 2, 0, 0, 1, 1, 0, 0)]),
     HEADING + b"2 3 1 5 1001 1006\n4 3 1 105 2 107\n"
     b"all 6 2 110 1003 1113\n"),
    # 256 chains: quotes of 1, 2, 3 .. 256 and 1 each, the last chain first.
    # 256 × 257 / 2 is 32896.
    (file_of((), (), [(0, 257 - number, 0, 0, 1000, 1, number, 1)
                      for number in range(1, 257)]),
     HEADING + b"".join(b"%d 1 0 %d 1 %d\n" % (chain, 257 - chain, 258 - chain)
                        for chain in range(1, 257))
     + b"all 256 0 32896 256 33152\n"),
    # 255 chains, the last first, and at the end the middle one again.
    (file_of((), (), [(0, 256 - number, 0, 0, 1000, 1, 0, number)
                      for number in range(1, 256)]
             + [(0, 128, 0, 0, 1000, 1, 7, 0)]),
     HEADING + b"".join(
         b"128 2 0 7 128 135\n" if chain == 128
         else b"%d 1 0 0 %d %d\n" % (chain, 256 - chain, 256 - chain)
         for chain in range(1, 256))
     + b"all 256 0 7 32640 32647\n"),
    # 256 elements: on one chain, then on 10,000 and 1 by turns, quotes of 1,
    # 3 .. 255 and of 2, 4 .. 256. The sum of 128 odd numbers is 128 × 128.
    (file_of((), (), [(0, 10_000, 0, 0, 1000, 1, number, 1)
                      for number in range(1, 257)]),
     HEADING + b"10000 256 0 32896 256 33152\nall 256 0 32896 256 33152\n"),
    (file_of((), (), [(0, (1, 10_000)[number % 2], 0, 0, 1000, 1, number, 1)
                      for number in range(1, 257)]),
     HEADING + b"1 128 0 16512 128 16640\n10000 128 0 16384 128 16512\n"
     b"all 256 0 32896 256 33152\n"),
    # Three chains, each met three times: one element is closed, one quoted,
    # one waits, in another order on each. 9 over 1, 1, 1 is 3 each.
    (file_of([(1, 0), (1, 1)], [(1, 0, 1, 50, 50), (2, 0, 1, 9, 0)],
             [(1, 6, 0, 0, 1, 1, 0, 0), (2, 5, 0, 0, 1, 1, 0, 0),
              (0, 7, 0, 0, 1000, 1, 70, 700), (2, 6, 0, 0, 1, 1, 0, 0),
              (0, 5, 0, 0, 1000, 1, 50, 500), (1, 7, 0, 0, 1, 1, 0, 0),
              (0, 6, 0, 0, 1000, 1, 60, 600), (1, 5, 0, 0, 1, 1, 0, 0),
              (2, 7, 0, 0, 1, 1, 0, 0)]),
     HEADING + b"5 3 1 53 500 553\n6 3 1 63 600 663\n7 3 1 73 700 773\n"
     b"all 9 3 189 1800 1989\n"),
    # Quotes alone on chain 3, between chains that wait.
    (file_of([(1, 0)], [(1, 0, 1, 9, 9)],
             [(1, 4, 0, 0, 1, 1, 0, 0), (0, 3, 0, 0, 1000, 1, 5, 6),
              (1, 2, 0, 0, 1, 1, 0, 0), (0, 3, 0, 0, 1000, 1, 7, 8),
              (1, 4, 0, 0, 1, 1, 0, 0)]),
     HEADING + b"2 1 1 0 0 0\n3 2 0 12 14 26\n4 2 2 0 0 0\n"
     b"all 5 3 12 14 26\n"),
    # 10^18 less 2 and 10^18 over 256 equal weights, on two chains by turns:
    # 3906250000000000 each, but 1 less for the last two in operation.
    (file_of([(1, 1)], [(1, 0, 10 ** 9, 10 ** 9 - 1, 10 ** 9),
                        (1, 0, 10 ** 9 - 2, 1, 0)],
             [(1, (8, 9)[number % 2], 0, 0, 1, 1, 0, 0)
              for number in range(256)]),
     HEADING + b"8 128 0 499999999999999999 500000000000000000 "
     b"999999999999999999\n9 128 0 499999999999999999 500000000000000000 "
     b"999999999999999999\nall 256 0 999999999999999998 1000000000000000000 "
     b"1999999999999999998\n"),
    # The limit: 4 × 10^17 and 6 × 10^17 are posted, the rest of 10^18 is
    # quoted.
    (file_of([(1, 1)], [(1, 0, 10 ** 9, 4 * 10 ** 8, 6 * 10 ** 8)],
             [(0, 1, 0, 0, 10 ** 9, 10 ** 6, 600_000, 400_000),
              (1, 10_000, 0, 0, 1, 1, 0, 0)]),
     HEADING + b"1 1 0 600000000000000000 400000000000000000 "
     b"1000000000000000000\n10000 1 0 400000000000000000 600000000000000000 "
     b"1000000000000000000\nall 2 0 1000000000000000000 1000000000000000000 "
     b"2000000000000000000\n"),
    # The same with the category open: what is posted is in no line.
    (file_of([(1, 0)], [(1, 0, 10 ** 9, 4 * 10 ** 8, 6 * 10 ** 8)],
             [(0, 1, 0, 0, 10 ** 9, 10 ** 6, 600_000, 400_000),
              (1, 10_000, 0, 0, 1, 1, 0, 0)]),
     HEADING + b"1 1 0 600000000000000000 400000000000000000 "
     b"1000000000000000000\n10000 1 1 0 0 0\nall 2 1 600000000000000000 "
     b"400000000000000000 1000000000000000000\n"),
)


def written_out(check):
    for data, printed in WRITTEN_OUT:
        for own in (sheet(data), second_sheet(data)):
            check(own == printed, "sheet", printed, own)


def second_sheet(data):
    """The sheet once more: element after element is added to the line of its
    chain, and the lines to the last."""
    words = [0] * 2660
    numbers = second_load(words, data)
    if numbers != [0, 0, 0]:
        return b"refused %d %d %d\n" % tuple(numbers)
    lines = {}
    for place in range(356, 356 + 9 * words[3], 9):
        category, chain, *_, operation, provision, _ = words[place:place + 9]
        waits = category > 0 and words[3 + 2 * category] == 0
        added = (1, waits, operation, provision, operation + provision)
        lines[chain] = [old + new for old, new
                        in zip(lines.get(chain, [0] * 5), added)]
    last = [0] * 5
    for line in lines.values():
        last = [old + new for old, new in zip(last, line)]
    return HEADING + b"".join(
        b"%d %d %d %d %d %d\n" % (chain, *lines[chain])
        for chain in sorted(lines)) + b"all %d %d %d %d %d\n" % tuple(last)


def by_both_ways(check):
    rng = random.Random(SEED)
    files = [file_of(*file_parts.full_parts()), file_parts.WHOLE]
    for most in ((2, 3, 5), (4, 8, 12), (9, 20, 40)) * 20:
        data = random_file(rng, most)
        files += [data, changed_byte(data, rng), changed_header(data, rng)]
    printed = [sheet(data) for data in files]
    for data, own in zip(files, printed):
        check(own == second_sheet(data), "sheet", own, data.hex())
    refused = sum(own.startswith(b"refused") for own in printed)
    check(20 < refused < len(files) - 60, "sheets", refused)


# What a sheet shows of the records of its file.

def waits_in(data, category):
    """Whether elements of this category wait; quotes never do."""
    return category > 0 and table_records(data, 1)[category - 1][1] == 0


def counts_of(data):
    """The used chains, ascending: each with its elements, and those that
    wait."""
    categories = {}
    for category, chain, *_ in table_records(data, 3):
        categories.setdefault(chain, []).append(category)
    return [[chain, len(found), sum(waits_in(data, category)
                                    for category in found)]
            for chain, found in sorted(categories.items())]


def emissions_of(data):
    """The operation and the provision that elements get: what was posted to
    closed categories, and the quotes, none of which is rounded."""
    posted = [(quantity * operation, quantity * provision)
              for category, _, quantity, operation, provision
              in table_records(data, 2) if not waits_in(data, category)]
    quoted = [(mass * distance * operation // 1000,
               mass * distance * provision // 1000)
              for category, *_, mass, distance, operation, provision
              in table_records(data, 3) if category == 0]
    return [sum(amounts) for amounts in zip((0, 0), *posted, *quoted)]


def fault_of(data, printed):
    """What is wrong with the sheet of a file that is loaded, None where
    nothing is."""
    heading, *lines = printed.splitlines(True)
    if heading != HEADING:
        return "no heading"
    rows = [[int(cell) for cell in line.split()] for line in lines[:-1]]
    if [row[:3] for row in rows] != counts_of(data):
        return "a chain, its elements or its waiting"
    if any(row[3] + row[4] != row[5] for row in rows):
        return "a total"
    sums = [sum(column) for column in zip(*rows)][1:]
    if sums[2:4] != emissions_of(data):
        return "the emissions"
    if lines[-1] != b"all %d %d %d %d %d\n" % tuple(sums):
        return "the class total"
    return None


def with_faults(printed):
    """The same sheet with its lines in another order, without one, with one
    twice, without the class total or with another."""
    heading, *lines, last = printed.splitlines(True)
    for others in (lines[::-1] + [last], lines[1:] + [last],
                   lines[:1] + lines + [last], lines,
                   lines + [last.replace(b"all ", b"all 1")]):
        yield b"".join([heading, *others])


def many_chains(check):
    """Every number of chains, every order and every sort of elements."""
    for name, data in chain_files.files(random.Random(SEED))[::19]:
        own = sheet(data)
        check(fault_of(data, own) is None, name, fault_of(data, own))
        check(own == second_sheet(data), name, own)
        for other in with_faults(own):
            check(other == own or fault_of(data, other), name, other)


def run(check):
    written_out(check)
    by_both_ways(check)
    many_chains(check)
