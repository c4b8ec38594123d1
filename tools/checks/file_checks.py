"""Checks of loading a file; book_checks.py makes them."""

import random
import struct

import records
from calculation import calls, loading, player, second_loading
from cases import file_parts
from cases.book_writer import OPERATIONS
from cases.file_writer import (
    EXAMPLE, LARGEST_U32, cut_to, file_of, load_records, with_header)
from cases.random_files import changed_byte, changed_header, random_file
from checks import broken_lists, conservation_checks, tally_checks

SEED = 16
CHAINS = range(1, 10_001)


# Inputs whose output is written out here.

# The example of document 01, byte by byte: the header with one category from
# byte 32, one entry from 40, three elements from 72, 216 bytes; kind 1,
# flagged; the entry; the three elements.
EXAMPLE_BYTES = """
    03370000 01000000 20000000 01000000 28000000 03000000 48000000 d8000000
    01000000 01000000
    01000000 00000000 001bb70000000000 2022310000000000 808b080000000000
    01000000 07000000 00000000 00000000 e803000000000000 e093040000000000
    0000000000000000 0000000000000000
    01000000 04000000 00000000 00000000 b80b000000000000 e093040000000000
    0000000000000000 0000000000000000
    00000000 07000000 00000000 00000000 e803000000000000 20a1070000000000
    30f2000000000000 1027000000000000
""".replace("\n", " ")

# A header alone, and one of its numbers after another.
ALONE = "03370000 00000000 20000000 00000000 20000000 00000000 20000000 "

WRITTEN_OUT = (
    # "4 1 0 28980000000000 5040000000000 34020000000000" and "7 2 0
    # 9691000000000 1685000000000 11376000000000".
    ("15 216; x" + EXAMPLE_BYTES + "; 8 4; 8 7; 14 0 8; 14 36 6; 14 356 28",
     "0 0 0; 0 1 0 28980000000000 5040000000000 34020000000000;"
     "0 2 0 9691000000000 1685000000000 11376000000000;"
     "14083 1 1 3 1 1 0 0; 1 0 38640000000000 6720000000000 0 0;"
     "1 7 0 1000 300000 300000000 9660000000000 1680000000000 0 "
     "1 4 0 3000 300000 900000000 28980000000000 5040000000000 0 "
     "0 7 0 1000 500000 500000000 31000000000 5000000000 0 0"),
    # A header alone; a byte more than it says; fewer bytes than a header; a
    # wrong first number; a section that begins too early, and past the end.
    ("1; 2 1; 15 32; x" + ALONE + "20000000; 14 0 6", "0; 0 1; 0 0 0;"
     "14083 0 0 0 0 0"),
    ("1; 2 1; 15 33; x" + ALONE + "20000000; 14 0 5", "0; 0 1; 11 0 0;"
     "14083 1 0 0 1"),
    ("1; 2 1; 15 31; x" + ALONE + "1f000000; 14 0 5; 15; 14 0 5",
     "0; 0 1; 11 0 0; 14083 1 0 0 1; 11 0 0; 14083 1 0 0 1"),
    ("1; 2 1; 15 32; x04" + ALONE[2:] + "20000000; 14 0 5",
     "0; 0 1; 11 0 0; 14083 1 0 0 1"),
    ("1; 2 1; 15 32; x" + ALONE.replace("20", "1f", 1) + "20000000; 14 0 5",
     "0; 0 1; 12 0 0; 14083 1 0 0 1"),
    ("1; 2 1; 15 32; x" + ALONE.replace("20", "21") + "20000000; 14 0 5",
     "0; 0 1; 12 0 0; 14083 1 0 0 1"),
    # A lent slice that is too short, and a book that is not sound. An array
    # of zeros is lent at first.
    ("13 2659; 15 32; x" + ALONE + "20000000; 15 0; 14 0 2; 13 2660; 15 32; x"
     + ALONE + "20000000; 12 0 9; 15 32; x" + ALONE + "20000000; 14 0 2",
     "1 0 0; 1 0 0; 0 0; 0 0 0; 0 0 0; 14083 0"),
    # Kinds 3 and 2, the second with the flag 2: the first is left. Then with
    # the kind 5. A flag of 1 alone: there is nothing to divide by.
    ("15 48; x" + "03370000 02000000 20000000 00000000 30000000 00000000 "
     "30000000 30000000 03000000 01000000 02000000 02000000; 14 0 8;"
     "15 48; x" + "03370000 02000000 20000000 00000000 30000000 00000000 "
     "30000000 30000000 03000000 01000000 05000000 01000000; 14 0 8;"
     "15 48; x" + "03370000 02000000 20000000 00000000 30000000 00000000 "
     "30000000 30000000 03000000 00000000 02000000 01000000; 14 0 8",
     "13 1 2; 14083 1 0 0 3 0 0 0; 3 1 2; 14083 1 0 0 3 0 0 0;"
     "9 4 2; 14083 2 0 0 3 0 2 0"),
    # Bytes are no operations, and are counted as records.
    ("15 64; 1; 14 0 1; 99", "11 0 0; 0; bad record 4"),
    ("15 128; 99; 99; 14 0 1; 99", "11 0 0; 0; bad record 5"),
    ("15 1; 99; 14 0 1; 99", "11 0 0; 0; bad record 4"),
    # Lengths. 16,448 bytes are 257 records; one byte more is a bad record.
    ("15 16449", "bad record 1"),
    ("1; 15 18446744073709551615; 1", "0; bad record 2"),
    ("1; 15 4294967296; 1", "0; bad record 2"),
    ("15 16448;" + "99;" * 257 + "14 0 1; 99", "11 0 0; 0; bad record 260"),
    ("15 16384;" + "99;" * 256 + "14 0 1; 99", "11 0 0; 0; bad record 259"),
    ("15 16385;" + "99;" * 257 + "14 0 1; 99", "11 0 0; 0; bad record 260"),
    # The input ends before all bytes have come.
    ("15 1", "bad record 2"),
    ("1; 15 64", "0; bad record 3"),
    ("1; 15 65; x00", "0; bad record 4"),
    ("15 16448;" + "1;" * 255 + "1", "bad record 258"),
    ("15 0; 15 1; 1; 15 1", "11 0 0; 11 0 0; bad record 5"),
)


def example(check):
    data = bytes.fromhex(EXAMPLE_BYTES)
    check(len(data) == 216 and data == EXAMPLE, "the bytes of the example")
    words = [5] * 3000
    check(loading.load(words, data) == (0, 0, 0), "the example is loaded")
    wanted = [0] * 2660 + [5] * 340
    wanted[:6] = [14083, 1, 1, 3, 1, 1]
    wanted[36:41] = [1, 0, 38_640_000_000_000, 6_720_000_000_000, 0]
    wanted[356:383] = [
        1, 7, 0, 1000, 300_000, 300_000_000, 9_660_000_000_000,
        1_680_000_000_000, 0,
        1, 4, 0, 3000, 300_000, 900_000_000, 28_980_000_000_000,
        5_040_000_000_000, 0,
        0, 7, 0, 1000, 500_000, 500_000_000, 31_000_000_000, 5_000_000_000, 0]
    check(words == wanted, "the words of the example")
    # "chain elements waiting operation provision total"
    for chain, numbers in (
        (4, [0, 1, 0, 28980000000000, 5040000000000, 34020000000000]),
        (7, [0, 2, 0, 9691000000000, 1685000000000, 11376000000000]),
    ):
        check(calls.make("statement", words, chain) == numbers, "statement",
              chain)


def packed_lines(check):
    """Bytes as text."""
    for text, data in (
        ("x", b""), ("x00", bytes(64)), ("x 01 0203", b"\1\2\3" + bytes(61)),
        ("xFf" + 63 * " aB", b"\xff" + b"\xab" * 63),
        ("x" + "07" * 65, b"\7" * 65 + bytes(63)),
        ("15 3", struct.pack("<8Q", 15, 3, 0, 0, 0, 0, 0, 0)),
    ):
        check(records.packed(text) == data, "packed", text)
    for text in ("x0", "x 0 1", "xyz", "x-1", "x0x1"):
        try:
            records.packed(text)
        except ValueError:
            check(True)
        else:
            check(False, "packed", text)


def padding(check):
    """What fills the last record is not looked at."""
    for data in (EXAMPLE, EXAMPLE[:40], cut_to(EXAMPLE, 100), b"\3"):
        plain = b"".join(load_records(data))
        dump = records.packed("14 0 400")
        wanted = player.play(plain + dump)
        rest = -len(data) % 64
        for fill in (b"\xff", b"\1"):
            check(rest > 0 and player.play(
                plain[:len(plain) - rest] + fill * rest + dump) == wanted,
                "padding", len(data))
    # Unused arguments are ignored.
    first = struct.pack("<8Q", 15, 216, 1, 2, 3, 4, 5, 2 ** 64 - 1)
    check(player.play(first + records.padded(EXAMPLE)) == b"0 0 0\n",
          "unused arguments")


# The header alone.

def headers(check):
    """Random headers by both ways, many of them near to a right one."""
    rng = random.Random(SEED)
    met = {}
    words = [0] * 2660
    for turn in range(20_000):
        length = rng.randrange(32, 200)
        edges = sorted(rng.randrange(32, length + 1) for _ in range(3))
        counts = [rng.randrange(1 << rng.randrange(3)) for _ in edges]
        numbers = [14083, counts[0], edges[0], counts[1], edges[1], counts[2],
                   edges[2], length]
        if turn % 2 == 0:
            place = rng.randrange(8)
            numbers[place] += (1, -1, 2 ** 27, 2 ** 28, 2 ** 29, 2 ** 31,
                               -numbers[place], LARGEST_U32 - numbers[place],
                               rng.randrange(2 ** 32))[rng.randrange(9)]
        data = struct.pack("<8I", *(number % 2 ** 32 for number in numbers))
        data += bytes(length - 32)
        refusal = next(loading.grounds_of_header(words, data), 0)
        check(refusal == second_loading.refusal_of_header(words, data),
              "header", numbers, refusal)
        met[refusal] = met.get(refusal, 0) + 1
    check(set(met) == {0, 11, 12} and min(met.values()) > 400, "headers", met)


# The calls one by one.

def by_operations(before, data):
    """The number, the table and the record, and the words: each call of the
    file is played by its own operation."""
    played = player.Player()
    played.state.words[:] = before

    def play(name, *arguments):
        return played.play(player.RECORD.pack(
            OPERATIONS[name], *arguments, *[0] * (7 - len(arguments))))[0]

    refusal = second_loading.refusal_of_header([0] * 2660, data)
    if refusal != 0:
        return [refusal, 0, 0], played.state.words
    play("fresh")
    for table, record, by_13, name, arguments in (
            second_loading.calls_of_file(data)):
        refusal = 13 if by_13 else play(name, *arguments)
        if refusal != 0:
            return [refusal, table, record], played.state.words
    return [0, 0, 0], played.state.words


def check_by_operations(check, words, data):
    """Loads a file into the words by both ways."""
    numbers, by_calls = by_operations(words, data)
    check(list(loading.load(words, data)) == numbers,
          "the calls one by one", numbers, data.hex())
    check(words == by_calls, "the words by calls", numbers, data.hex())
    return numbers


def files_by_operations(check):
    """Each is loaded into what the one before it left."""
    rng = random.Random(SEED)
    met = {}
    words = [3] * player.MOST_WORDS

    def add(data):
        numbers = check_by_operations(check, words, data)
        key = (numbers[0], numbers[1])
        met[key] = met.get(key, 0) + 1
        return numbers

    for number in range(120):
        most = ((2, 3, 5), (4, 8, 12), (9, 20, 40))[number % 3]
        data = random_file(rng, most)
        check(add(data) == [0, 0, 0], "a random file is loaded", data.hex())
        for _ in range(5):
            add(changed_byte(data, rng))
            add(changed_header(data, rng))
        add(changed_header(changed_byte(data, rng), rng))
    for key in ((0, 0), (11, 0), (12, 0), (13, 1), (3, 1), (2, 2), (3, 2),
                (7, 2), (2, 3), (3, 3), (6, 3), (14, 3), (7, 3), (13, 3),
                (9, 4)):
        check(met.get(key, 0) > 1, "met", key, met)


# Demand 3 after a load.

def list_of_load(data, numbers, words):
    """The list of calls that a load is said to have come to, as records and
    lines: all up to the stop were accepted, the words are those it left. Then
    the shares and the statements are asked."""
    number, table, record = numbers
    listed = [(player.FRESH, *[0] * 7)]
    lines = ["0"]
    chains = {1}
    for its_table, its_record, _, name, arguments in (
            second_loading.calls_of_file(data)):
        listed.append((OPERATIONS[name], *arguments,
                       *[0] * (7 - len(arguments))))
        if (its_table, its_record) == (table, record):
            lines.append(str(number))
            break
        lines.append("0")
        if its_table == 3:
            chains.add(arguments[0 if name == "quote" else 1])
    asked = player.Player()
    asked.state.words[:len(words)] = words
    for record in [(player.DUMP, 356, 2304)] + [
            (player.STATEMENT, chain, 0) for chain in sorted(chains)]:
        listed.append((*record, *[0] * 5))
        asked.play(player.RECORD.pack(*listed[-1]))
    return listed, lines + asked.lines


def check_conserved(check, data, numbers, words):
    """The demand holds, and the book is what the tally says."""
    listed, lines = list_of_load(data, numbers, words)
    broken = broken_lists.broken_by(listed, lines)
    check(broken is None, "after a load", numbers, broken, data.hex())
    told = conservation_checks.read_list(listed, lines)
    tally_checks.same_elements(check, told)
    tally = told.tally
    check(words[:4] == [14083, len(tally.categories), len(tally.entries),
                        len(tally.elements)], "counts", numbers)
    check([tuple(words[2 + 2 * number:4 + 2 * number])
           for number in tally.categories]
          == list(tally.categories.values()), "categories", numbers)
    check([tuple(words[31 + 5 * number:36 + 5 * number])
           for number in tally.entries] == list(tally.entries.values()),
          "entries", numbers)
    return told


def loads_conserve(check, loads):
    """Every load that came to its calls: the file, the numbers, the words.
    """
    handed_out = stopped = 0
    for data, numbers, words in loads:
        if numbers[0] == 0 or numbers[1] > 0:
            told = check_conserved(check, data, numbers, words[:2660])
            handed_out += any(sum(told.shares(number)) > 0
                              for number in told.tally.elements)
            stopped += numbers[1] > 0
    check(handed_out > 100 and stopped > 100, "loads", handed_out, stopped)


# Programs that load wrongly.

def wrong_load(words, data, fresh=True, goes_on=False, closings=None,
               twice=False, empties=False, unweighed=False):
    """Loads with what is told of it wrong: without fresh, going on after a
    stop, closing others than those flagged, the last element twice, leaving
    an empty book after a stop, or passing over kg per head."""
    if fresh:
        calls.make("fresh", words)
    steps = list(loading.steps(data))
    if closings is not None:
        steps = [step for step in steps if step.name != "close"]
        steps += [loading.Step(4, number, False, "close", (number,))
                  for number in closings]
    if unweighed:
        steps = [step._replace(arguments=step.arguments[:5])
                 if step.name == "enrol" else step for step in steps]
    elements = [step for step in steps if step.table == 3]
    if twice:
        steps.insert(steps.index(elements[-1]), elements[-1])
    stop = None
    for step in steps:
        refusal = 13 if step.bad_field else calls.make(
            step.name, words, *step.arguments)[0]
        if refusal != 0:
            stop = stop or [refusal, step.table, step.record]
            if not goes_on:
                break
    if stop and empties:
        calls.make("fresh", words)
    return stop or [0, 0, 0]


# How it is wrong, and a file that shows it.
LATE_STOP = file_of(file_parts.CATEGORIES, file_parts.ENTRIES,
                    file_parts.ELEMENTS[:2] + ((1,) * 8,)
                    + file_parts.ELEMENTS[2:])
WRONG = (
    ({"fresh": False}, EXAMPLE),
    ({"goes_on": True}, LATE_STOP),
    ({"closings": ()}, EXAMPLE),
    ({"closings": (1, 2, 3, 4)}, file_parts.WHOLE),
    ({"closings": (1, 4)}, file_parts.WHOLE),
    ({"twice": True}, EXAMPLE),
    ({"empties": True}, LATE_STOP),
    ({"unweighed": True}, file_parts.WHOLE),
)


def wrong_programs(check):
    def is_caught(wrongly, data):
        words = [0] * 2660
        loading.load(words, file_parts.WHOLE)
        numbers = wrong_load(words, data, **wrongly)

        def fail(holds, *what):
            if not holds:
                raise AssertionError(what)
        try:
            check_conserved(fail, data, numbers, words)
        except (AssertionError, conservation_checks.Broken):
            return True
        return False

    for wrongly, data in WRONG:
        check(is_caught(wrongly, data), "caught", wrongly)
        check(not is_caught({}, data), "the right program")


# Small things.

def lengths_of_slices(check):
    """The words of a slice that is too short stay; those behind the book
    too."""
    for length in (0, 1, 2404, 2659, 2660, 2661, 3000):
        for data, refusal in ((EXAMPLE, 0), (b"", 11),
                              (with_header(EXAMPLE, entries_offset=0), 12)):
            words = [9] * length
            numbers = loading.load(words, data)
            if length < 2660:
                check(numbers == (1, 0, 0), "short", length)
            else:
                check(numbers == (refusal, 0, 0), "long enough", length)
            if length < 2660 or refusal != 0:
                check(words == [9] * length, "untouched", length, refusal)
            check(words[2660:] == [9] * max(0, length - 2660), "behind")


def full_file(check):
    words = [9] * 2660
    data = file_of(*file_parts.full_parts())
    check(loading.load(words, data) == (0, 0, 0), "a full file")
    check(words[:4] == [14083, 16, 64, 256], "a full book")
    check(words[5:36:2] == [1] * 16, "all are closed")
    check_by_operations(check, [3] * player.MOST_WORDS, data)


def run(check):
    example(check)
    packed_lines(check)
    padding(check)
    headers(check)
    lengths_of_slices(check)
    full_file(check)
    files_by_operations(check)
    wrong_programs(check)
