#!/usr/bin/env python3
"""Compares the program quaymeter with the separate calculation on many files.

    python3 tools/checks/check_sheets.py PROGRAM [SEED]

PROGRAM is the path of an executable that prints the sheet of the file on its
standard input. The seed makes other random files. Nothing may come on
standard error, except where the sheet cannot be written: then a line there
has to say so. Prints `N sheets agree, M failing writes are told of`, or the
first difference with exit status 1.
"""

import os
import random
import subprocess
import sys

sys.path.insert(0, os.path.dirname(os.path.dirname(os.path.abspath(__file__))))

import pack
from calculation import sheet
from cases import chain_files, file_cases, make_cases
from cases.book_writer import BookCases, FARTHEST
from cases.file_parts import FREIGHT, QUOTE, changed, full_parts
from cases.file_writer import EXAMPLE, MOST_BYTES, cut_to, file_of
from cases.random_files import changed_byte, changed_header, random_file
from checks import check_endings, sheet_checks

SEED = 1
SECONDS = check_endings.SECONDS
EXAMPLES = os.path.join(make_cases.ROOT, "examples")


# The files: pairs of a name and the bytes.

class Files(BookCases):
    """The cases of loading, for their files alone."""

    def __init__(self):
        super().__init__(make_cases.Cases())
        self.files = []

    def load(self, data, gives=(0, 0, 0)):
        self.files.append(data)
        return super().load(data, gives)


def stored_files():
    """The files of the stored cases, each once."""
    cases = Files()
    file_cases.add(cases)
    return [("stored file %d" % number, data) for number, data
            in enumerate(dict.fromkeys(cases.files), 1)]


def examples():
    found = [("document 01's example", EXAMPLE)]
    for name in ("document.txt", "voyage.txt", "ferry.txt"):
        data, problems = pack.packed(pack.read(os.path.join(EXAMPLES, name)))
        if problems:
            raise SystemExit("examples/%s is no text of a book" % name)
        found.append((name, data))
    return found


def written_out():
    """Those whose sheets the tests have written out."""
    return [("written-out sheet %d" % number, data) for number, (data, _)
            in enumerate(sheet_checks.WRITTEN_OUT, 1)]


def lengths():
    """Bytes of every length that matters: of a file that says this length,
    of the example or a gap behind it, and of zeros."""
    for length in (0, 1, 31, 32, 33, 215, 216, 217, MOST_BYTES - 1, MOST_BYTES,
                   MOST_BYTES + 1, 2 * MOST_BYTES, 65_536, 65_536 + 216,
                   100_000):
        yield "a file of %d bytes" % length, cut_to(EXAMPLE, length)
        yield ("%d bytes of the example" % length,
               (EXAMPLE + bytes(length))[:length])
        yield "%d bytes of zeros" % length, bytes(length)
        yield "%d bytes without records" % length, cut_to(file_of(), length)
    # Zeros behind a longest file that says its own length, or theirs.
    longest = cut_to(EXAMPLE, MOST_BYTES)
    for more in (1, 2, 216, MOST_BYTES):
        yield "%d bytes too many" % more, longest + bytes(more)
        yield ("%d bytes too many, with their length" % more,
               cut_to(longest, MOST_BYTES + more))


def on_chains(elements, chains):
    return [changed(element, chain=chain)
            for element, chain in zip(elements, chains)]


def chains():
    """Full books: every chain different, in many orders, and all the same."""
    categories, entries, elements = full_parts()
    last = range(10_000, 0, -1)
    for name, numbers in (
        ("ascending", range(1, 257)), ("descending", last),
        ("from both ends", [chain for pair in zip(range(1, 129), last)
                            for chain in pair]),
        ("spread", [1 + 3907 * number % 10_000 for number in range(256)]),
        ("in pairs", [1 + number // 2 for number in range(256)]),
        ("in turns", [1 + number % 16 for number in range(256)]),
        ("of every number of digits", [10 ** (number % 5)
                                       for number in range(256)]),
        ("1", [1] * 256), ("10,000", [10_000] * 256),
    ):
        yield ("a full book, chains %s" % name,
               file_of(categories, entries, on_chains(elements, numbers)))
    open_ones = [(kind, 0) for kind, _ in categories]
    yield "a full book, all open", file_of(open_ones, entries, elements)
    for chain in (1, 9, 10, 99, 100, 999, 1000, 9999, 10_000, 0, 10_001):
        yield ("chain %d" % chain,
               file_of((), (), [changed(QUOTE, chain=chain)]))
    yield ("chains 1 and 10,000",
           file_of((), (), on_chains([QUOTE] * 3, (10_000, 1, 10_000))))


def amounts():
    """Printed amounts of every number of digits, up to 10^18 in operation and
    in provision and 2 × 10^18 in total."""
    for digits in range(19):
        for less in (0, 1):
            amount = 10 ** digits - less
            for sides in ((1, 0), (0, 1), (1, 1)):
                entries = [(1, 0, 10 ** 9, *[side * (amount // 10 ** 9)
                                             for side in sides]),
                           (1, 0, 1, *[side * (amount % 10 ** 9)
                                       for side in sides])]
                yield ("%d as amounts %r" % (amount, sides),
                       file_of([(1, 1)], entries, [FREIGHT]))
    # Half of 10^18 is posted and half is quoted, and a little more.
    half = (1, 0, 10 ** 9, 5 * 10 ** 8, 5 * 10 ** 8)
    quoted = (0, 7, 0, 0, 10 ** 9, 10 ** 6, 500_000, 500_000)
    for more in ([], [(0, 7, 0, 0, 1, 1, 499, 499)],
                 [(0, 7, 0, 0, 1, 1, 0, 500)]):
        yield ("10^18 with quotes, %r" % more,
               file_of([(1, 1)], [half], [FREIGHT, quoted, *more]))
    # 10^17 of activity, and 10^18 over it.
    longest = changed(FREIGHT, amount=10 ** 9, distance=FARTHEST)
    rest = changed(longest, chain=8, distance=FARTHEST // 2)
    yield ("10^18 over 10^17", file_of(
        [(1, 1)], [half, half], [longest, changed(longest, chain=1), rest]))


def refused_everywhere():
    """A full book refused at some thirty records of each table, the first
    and the last among them, and at each closing."""
    parts = categories, entries, elements = full_parts()
    for table, records in enumerate(parts, 1):
        last = len(records) - 1
        for place in (*range(0, last, 1 + len(records) // 32), last):
            record = records[place]
            # No kind, no category, or a field that must be 0.
            bad = {1: (0, 1), 2: (17, *record[1:]),
                   3: (*record[:7], 1)}[table]
            with_bad = list(parts)
            with_bad[table - 1] = records[:place] + [bad] + records[place + 1:]
            yield ("refused at table %d record %d" % (table, place + 1),
                   file_of(*with_bad))
    for number in range(1, 17):
        yield ("refused at closing %d" % number, file_of(
            categories, entries,
            [element for element in elements if element[0] != number]))


def weighed():
    """A full book with other stated masses, and with one passenger at a time
    who is weighed where the others are not, or the reverse; the most
    passengers."""
    categories, entries, elements = full_parts()
    passengers = [place for place, element in enumerate(elements)
                  if element[2] >= 100]
    for name, mass_of in (
        ("unweighed", lambda place: 0), ("1 kg", lambda place: 1),
        ("100 kg", lambda place: 100), ("300 kg", lambda place: 300),
        ("1 to 300 kg", lambda place: 1 + 7 * place % 300),
        ("301 kg", lambda place: 301),
    ):
        others = [changed(element, adjust=mass_of(place))
                  if place in passengers else element
                  for place, element in enumerate(elements)]
        yield ("a full book, passengers " + name,
               file_of(categories, entries, others))
    for place in passengers:
        for kg_per_head in (0, 75, 301):
            others = list(elements)
            others[place] = changed(elements[place], adjust=kg_per_head)
            yield ("a full book, element %d of %d kg per head"
                   % (place + 1, kg_per_head),
                   file_of(categories, entries, others))
    # 25 times 10^6 heads over 40,000 km, of unlike classes.
    most = [(1, 1 + number, 1000 - number, 300 - number, 10 ** 6, FARTHEST, 0,
             0) for number in range(25)]
    for kind in (2, 3):
        yield ("most passengers, kind %d" % kind, file_of(
            [(kind, 1)], [(1, 0, 10 ** 12, 10 ** 6, 10 ** 6 - 1)], most))
        yield ("most passengers and one more, kind %d" % kind, file_of(
            [(kind, 1)], (), [*most, (1, 1, 100, 1, 1, 1, 0, 0)]))


def random_files(rng):
    """Files that are loaded, and the same with damage."""
    for most, times in (((1, 2, 3), 60), ((3, 5, 9), 60), ((5, 12, 30), 40),
                        ((16, 64, 256), 25)):
        for number in range(times):
            data = random_file(rng, most)
            name = "random file %d of at most %r" % (number + 1, most)
            yield name, data
            for _ in range(3):
                yield name + ", a byte changed", changed_byte(data, rng)
                yield name + ", header changed", changed_header(data, rng)


def all_files(seed):
    return [*examples(), *written_out(), *lengths(), *chains(), *amounts(),
            *refused_everywhere(), *weighed(), *stored_files(),
            *random_files(random.Random(seed))]


# What the program does with them.

class Differs(Exception):
    """What differs."""


def run(program, data, output=subprocess.PIPE, prepare=None):
    return subprocess.run([program], input=data, stdout=output,
                          stderr=subprocess.PIPE, preexec_fn=prepare,
                          timeout=SECONDS)


def first_difference(output, wanted):
    """The first line that differs, in both."""
    lines, right = output.splitlines(True), wanted.splitlines(True)
    place = 0
    while lines[place:place + 1] == right[place:place + 1]:
        place += 1
    return "line %d differs\n  calculation %s\n  program     %s" % (
        place + 1, *(check_endings.shown(b"".join(some[place:place + 1]))
                     for some in (right, lines)))


def compare(data, output, status, complaint=b""):
    wanted = sheet.sheet(data)
    if output != wanted:
        raise Differs(first_difference(output, wanted))
    if complaint:
        raise Differs("on standard error: %s" % check_endings.shown(complaint))
    if status < 0:
        raise Differs("the program was ended by signal %d" % -status)


def prints_sheet(program, data):
    done = run(program, data)
    compare(data, done.stdout, done.returncode, done.stderr)
    return done.stdout


def prints_lines(program, data):
    """The same of a file that is loaded, and what its records tell of the
    lines."""
    fault = sheet_checks.fault_of(data, prints_sheet(program, data))
    if fault:
        raise Differs("not as the file has it: %s" % fault)


def prints_sheet_of_pieces(program, data, size):
    """The same with the input handed over a few bytes at a time."""
    compare(data, *check_endings.run_in_pieces(program, data, size))


def says_so(done):
    """One line on standard error, from the program itself."""
    if not (done.stderr.startswith(b"quaymeter:")
            and done.stderr.find(b"\n") == len(done.stderr) - 1):
        raise Differs("no line `quaymeter: ..` on standard error but %s"
                      % check_endings.shown(done.stderr))
    if done.returncode < 0:
        raise Differs("the program was ended by signal %d" % -done.returncode)


def says_that_output_is_full(program, data):
    with open("/dev/full", "wb") as full:
        says_so(run(program, data, full))


def says_that_output_is_closed(program, data):
    says_so(run(program, data, None, lambda: os.close(1)))


# The runs: a name, what is checked, the file, and what else is told.

def sheets(seed):
    for name, data in all_files(seed):
        yield name, prints_sheet, data
    for name, data in chain_files.files(random.Random(seed)):
        yield name, prints_lines, data
    full = file_of(*full_parts())
    longest = cut_to(full, MOST_BYTES)
    for size in (1, 7, 31, 32, 200):
        yield ("the example in pieces of %d bytes" % size,
               prints_sheet_of_pieces, EXAMPLE, size)
    for size in (100, 4095, 4097, 10_000):
        for name, data in (("a full book", full),
                           ("the longest file", longest),
                           ("a byte too many", longest + b"\0")):
            yield ("%s in pieces of %d bytes" % (name, size),
                   prints_sheet_of_pieces, data, size)


def failing_writes():
    for name, data in (("document 01's example", EXAMPLE),
                       ("a full book", file_of(*full_parts())),
                       ("a book without records", file_of()),
                       ("a refused file", b"")):
        yield name + ", output full", says_that_output_is_full, data
        yield name + ", output closed", says_that_output_is_closed, data


def count_passed(program, runs):
    """How many runs there were; the first that does not pass ends all."""
    passed = 0
    for name, check, data, *more in runs:
        try:
            check(program, data, *more)
        except subprocess.TimeoutExpired:
            raise SystemExit("%s: no end within %d seconds" % (name, SECONDS))
        except OSError as error:
            raise SystemExit("the program does not run: %s" % error)
        except Differs as differs:
            raise SystemExit("%s: %s\n  file of %d bytes %s" % (
                name, differs, len(data), data[:400].hex()))
        passed += 1
    return passed


def main(arguments):
    if (len(arguments) not in (1, 2)
            or not all(seed.isdecimal() for seed in arguments[1:])):
        print("usage: check_sheets.py PROGRAM [SEED]", file=sys.stderr)
        return 2
    program = os.path.abspath(arguments[0])
    seed = int(arguments[1]) if len(arguments) == 2 else SEED
    print("%d sheets agree, %d failing writes are told of" % (
        count_passed(program, sheets(seed)),
        count_passed(program, failing_writes())))
    return 0


if __name__ == "__main__":
    sys.exit(main(sys.argv[1:]))
