#!/usr/bin/env python3
"""Compares a program with the player on inputs that end in many ways.

    python3 tools/checks/check_endings.py PROGRAM

PROGRAM is the path of an executable that plays records from its standard
input. Prints `N endings agree`, or the first difference with exit status 1.
"""

import os
import subprocess
import sys
import time
from itertools import islice

sys.path.insert(0, os.path.dirname(os.path.dirname(os.path.abspath(__file__))))

from calculation import player
from cases import file_parts
from cases.file_writer import (
    CHUNK, EXAMPLE, MOST_BYTES, cut_to, file_of, load_records, with_header)
from cases.line_writer import BLANK, cell_arguments, single, span

LARGEST = 2 ** 64 - 1
SECONDS = 60  # the longest that the program may take for one input


def record(operation, *arguments):
    words = (operation,) + arguments + (0,) * (7 - len(arguments))
    return player.RECORD.pack(*words)


def weight(number):
    return record(player.APPEND_WEIGHT, number)


def division(pool, share_count):
    return record(player.DIVIDE, pool, share_count)


THREE = weight(1) + weight(2) + weight(4) + division(10, 3)


def dump(first, count):
    return record(player.DUMP, first, count)


# A book with a record of each sort whose category is closed, its words, and
# statements and an intensity.
BOOK = (
    record(player.FRESH) + record(player.OPEN, 3)
    + record(player.POST, 1, 1, 5, 6, 7) + record(player.STRIKE, 1)
    + record(player.POST, 1, 0, 5, 6, 7)
    + record(player.ENROL, 1, 1, 100, 2, 3, 75)
    + record(player.ENROL, 1, 1, 0, 4, 5)
    + record(player.QUOTE, 1, 1, 1000, 1, 2, 3)
    + record(player.STATEMENT, 1) + record(player.CLOSE, 1)
    + record(player.STATEMENT, 1) + dump(0, 47) + dump(356, 28)
    + record(player.INTENSITY, 1, 100)
)

# A category that could be closed: a preview of it, and one that is refused.
PREVIEWS = (
    record(player.FRESH) + record(player.OPEN, 1)
    + record(player.POST, 1, 0, 5, 6, 7) + record(player.ENROL, 1, 1, 0, 4, 5)
    + record(player.PREVIEW, 1, 513) + record(player.PREVIEW, 1, 3)
    + dump(0, 47)
)


def load(data):
    return b"".join(load_records(data))


# Loads that are loaded or stopped by a record, and the words after them.
WORDS = dump(0, 3000)
LOADS = (load(EXAMPLE) + record(player.STATEMENT, 7) + WORDS
         + load(file_parts.WHOLE) + WORDS
         + load(file_of(*file_parts.PARTS, (1, 2, 3, 4), 9)) + WORDS
         + load(file_of([(1, 0), (1, 2)])) + WORDS
         + load(with_header(EXAMPLE, mark=0)) + WORDS)
# Nothing is printed for these, and nothing changes.
HARMLESS = record(player.LEND, player.MOST_WORDS)


def long_file(length):
    """So many bytes with the same records; most of it is a gap."""
    return cut_to(file_parts.WHOLE, length)


def endings_in_files():
    """Pairs of a name and an input: files that are whole and inputs that end
    within them."""
    found = []

    def add(name, data):
        found.append((name, data))

    add("loads", LOADS)
    add("loads after a book", BOOK + LOADS + BOOK)
    add("loads between weights", weight(1) * 3 + LOADS + division(10, 3))
    add("no bytes", record(player.LOAD, 0) + WORDS)
    add("no bytes, twice", BOOK + record(player.LOAD, 0) * 2 + WORDS)
    for lent in (0, 2404, 2659, 2660, 2661):
        add("loads with %d words lent" % lent,
            BOOK + record(player.LEND, lent) + LOADS)
    # Lengths, each with all its bytes and dumps after them.
    for length in (1, 31, 32, 33, 63, 64, 65, 127, 128, 129, 1000,
                   MOST_BYTES - 1, MOST_BYTES, MOST_BYTES + 1,
                   player.MOST_BYTES - 1, player.MOST_BYTES):
        add("a file of %d bytes" % length,
            BOOK + load(long_file(length)) + WORDS)
        add("%d bytes of zeros" % length, BOOK + load(bytes(length)) + WORDS)
        # Bytes that would be bad records.
        add("%d bytes that are no operations" % length,
            load(b"\xff" * length) + WORDS)
    for length in (player.MOST_BYTES + 1, player.MOST_BYTES + 64, 2 ** 16,
                   2 ** 31, 2 ** 32, 2 ** 32 + 216, 2 ** 63, 2 ** 63 + 216,
                   2 ** 64 - 64, 2 ** 64 - 63, LARGEST):
        add("a load of %d bytes" % length,
            record(player.LOAD, length) + LOADS)
        add("a load of %d bytes after a book" % length,
            BOOK + record(player.LOAD, length) + BOOK)
    # What fills the last record, and the arguments, are not looked at.
    one = load(EXAMPLE)
    add("padding", one[:-40] + b"\xff" * 40 + WORDS)
    add("unused arguments of a load",
        record(player.LOAD, 216, LARGEST, 1, 2, 3, 4, 5) + one[64:] + WORDS)

    # The input ends before all bytes have come, after whole records.
    for name, before in (("", b""), (" after a book", BOOK),
                         (" after loads", LOADS)):
        for length in (1, 64, 65, 216, MOST_BYTES, player.MOST_BYTES):
            needed = load_records(long_file(length))
            for count in sorted({1, 2, len(needed) // 2, len(needed) - 1}):
                if count < len(needed):
                    add("%d of %d records of a load of %d bytes%s"
                        % (count, len(needed), length, name),
                        before + b"".join(needed[:count]))
    # The same, in a record that is cut short.
    for left in (1, 8, 24, 31, 32, 63):
        for count in (0, 1, 3):
            add("%d bytes after %d records of a load" % (left, 1 + count),
                BOOK + one[:64 * (1 + count) + left])
        add("%d bytes of a load" % left, one[:left])
        add("%d bytes of a load after one" % left, one + one[:left])
        # All the file's bytes are there, the record is not.
        add("%d bytes of a file of as many" % left,
            load(bytes(left))[:64 + left])
    add("the file's bytes without padding", one[:64 + 216])
    add("a long file cut short", load(long_file(MOST_BYTES))[:-1])

    # Files across the end of a chunk: which record of the input the load is.
    for chunk_end in (CHUNK, 2 * CHUNK):
        for data in (EXAMPLE, file_parts.WHOLE, long_file(MOST_BYTES),
                     long_file(player.MOST_BYTES), b"", bytes(1), bytes(64),
                     bytes(128)):
            needed = len(load_records(data))
            places = {chunk_end - needed, chunk_end - needed + 1,
                      chunk_end - needed + 2, chunk_end - needed // 2,
                      chunk_end - 1, chunk_end, chunk_end + 1}
            for place in sorted(places):
                before = BOOK + HARMLESS * (
                    place - 1 - len(BOOK) // player.RECORD.size)
                add("a file of %d bytes, loaded by record %d"
                    % (len(data), place),
                    before + load(data) + WORDS + load(EXAMPLE) + WORDS)
        # The input ends at the end of the chunk, and beside it.
        for data in (EXAMPLE, long_file(MOST_BYTES)):
            for first in (chunk_end - 3, chunk_end):
                loaded = HARMLESS * (first - 1) + load(data)
                for end in (-64, -63, -1, 0, 1, 63, 64):
                    add("a file of %d bytes from record %d to byte %d"
                        % (len(data), first, 64 * chunk_end + end),
                        loaded[:64 * chunk_end + end])
    # One load after another over several chunks.
    add("300 loads", load(EXAMPLE) * 300 + WORDS)
    add("many loads of 65 bytes", (load(bytes(65)) + HARMLESS) * 1500)
    add("10 long loads", load(long_file(MOST_BYTES)) * 10 + WORDS)
    add("10 long loads, the last without its end",
        (load(long_file(MOST_BYTES)) * 10)[:-64])
    return found


def cell(some):
    return record(player.CELL, *cell_arguments(some))


# Three cells, and lines of them: to the open book, to a closed one and with a
# cell that is refused.
CELLS = cell(single(12.5)) + cell(span(3.1, 3.4)) + cell(single(0.0005))
LINE = CELLS + record(player.LINE, 1, 0)
OPEN_BOOK = record(player.FRESH) + record(player.OPEN, 1)
LINES = (OPEN_BOOK + LINE * 2 + CELLS[:128] + cell(BLANK)
         + record(player.LINE, 1, 0) + cell(span(2.0, 1.0)) + CELLS[64:]
         + record(player.LINE, 1, 0) + LINE + dump(0, 52))


def endings_in_lines():
    """Pairs of a name and an input: lists of cells that are too long or too
    short, forms that are none, and inputs that end within a list."""
    found = []

    def add(name, data):
        found.append((name, data))

    add("lines", LINES)
    add("lines before fresh", LINE + BOOK + LINE)
    add("lines after a book", BOOK + LINE + LINES + BOOK)
    add("lines with 2659 words lent", record(player.LEND, 2659) + LINES)
    add("cells around a book", CELLS[:64] + BOOK + CELLS[64:]
        + record(player.LINE, 1, 0) + LINES)
    add("cells around loads", OPEN_BOOK + CELLS[:64] + LOADS + CELLS[64:]
        + record(player.LINE, 2, 0) + WORDS)
    add("cells around a division", OPEN_BOOK + CELLS[:128] + THREE
        + CELLS[128:] + weight(1) + record(player.LINE, 1, 0)
        + division(5, 1) + dump(36, 5))
    for count in range(1, 4):
        listed = CELLS[:64 * count]
        add("%d cells and no line" % count, listed)
        add("%d cells after lines" % count, LINES + listed)
        for left in (1, 8, 32, 63):
            add("%d cells and %d bytes of one" % (count, left),
                LINES + listed + CELLS[:left])
            add("%d cells and %d bytes of a line" % (count, left),
                LINES + listed + record(player.LINE, 1, 0)[:left])
    # A fourth cell, whatever it is and whatever comes between.
    for some in (BLANK, single(1.0), span(1.0, 2.0)):
        add("a fourth cell %r" % (some,), CELLS + cell(some) + LINES)
    add("a fourth cell after lines", LINES + CELLS + cell(BLANK) + LINES)
    add("a fourth cell after a book", CELLS + BOOK + cell(BLANK) + LINES)
    add("a fourth cell after a load",
        CELLS + load(EXAMPLE) + cell(BLANK) + LINES)
    # Fewer than three.
    for count in range(3):
        listed = OPEN_BOOK + CELLS[:64 * count]
        for name, before in (("", listed), (" after lines", LINES + listed),
                             (" after a load", listed + load(EXAMPLE))):
            add("a line with %d cells%s" % (count, name),
                before + record(player.LINE, 1, 0) + LINES)
    add("a line after a refused one", OPEN_BOOK + cell(BLANK) * 3
        + record(player.LINE, 1, 0) * 2 + LINES)
    # Forms.
    for form in (3, 4, 255, 256, 257, 2 ** 16 + 1, 2 ** 32, 2 ** 32 + 1,
                 2 ** 32 + 2, 2 ** 63, 2 ** 63 + 1, LARGEST - 1, LARGEST):
        wrong = record(player.CELL, form, 0, 0)
        add("form %d" % form, wrong + LINES)
        add("form %d as the third cell" % form,
            LINES + CELLS[:128] + wrong + record(player.LINE, 1, 0) + LINES)
        add("form %d as the fourth cell" % form, CELLS + wrong + LINES)
    # Lines across the end of a chunk, and at the end of the input.
    for chunk_end in (CHUNK, 2 * CHUNK):
        for place in range(chunk_end - 4, chunk_end + 2):
            before = OPEN_BOOK + HARMLESS * (place - 3)
            add("a line from record %d" % place, before + LINE + dump(36, 5))
            for count in range(4):
                add("%d cells from record %d" % (count, place),
                    before + LINE[:64 * count])
                add("a line with %d cells from record %d" % (count, place),
                    before + CELLS[:64 * count] + record(player.LINE, 1, 0))
    add("3000 lines", OPEN_BOOK + (LINE + record(player.POKE, 2, 0)) * 3000
        + dump(0, 41))
    return found


def endings():
    """Pairs of a name and an input."""
    found = endings_in_files() + endings_in_lines()

    def add(name, data):
        found.append((name, data))

    # Inputs that end well.
    add("empty input", b"")
    add("one division", THREE)
    add("one division of nothing", division(0, 0))
    add("weights without a division", weight(1) + weight(2))
    add("a division, then weights without one", THREE + weight(1) * 300)
    add("300 weights", weight(1) * 300 + division(5, 300))
    add("300 weights twice",
        (weight(LARGEST) * 300 + division(5, 300)) * 2 + THREE)
    add("share slice of 300, no weights", division(5, 300) + THREE)

    # A book, and what changes nothing of it.
    add("calls before fresh", BOOK[player.RECORD.size:])
    add("a book", BOOK)
    add("a book twice", BOOK + THREE + BOOK)
    add("weights, a book, a division",
        weight(1) * 3 + BOOK + division(10, 3) + dump(0, 47))
    add("the last word written",
        BOOK + record(player.POKE, 2999, LARGEST) + dump(2999, 1))
    for lent in (0, 1, 2404, 2659, 2660, 3000):
        add("%d words lent" % lent, record(player.LEND, lent) + BOOK)
        add("%d words lent later" % lent,
            BOOK + record(player.LEND, lent) + BOOK)
    for first, count in ((0, 0), (0, 3000), (3000, 0), (2999, 1), (1, 2999)):
        add("dump of %d words from %d" % (count, first),
            BOOK + dump(first, count) + THREE)

    # Words that are not there.
    for index in (3000, 3001, 4096, 2 ** 16, 2 ** 32, 2 ** 32 + 1, 2 ** 61,
                  2 ** 63, LARGEST):
        add("poke of word %d" % index,
            record(player.POKE, index, 1) + dump(0, 4))
        add("poke of word %d after a book" % index,
            BOOK + record(player.POKE, index) + BOOK)
    for count in (3001, 4096, 2 ** 16, 2 ** 32, 2 ** 32 + 2660, 2 ** 61,
                  2 ** 63, LARGEST):
        add("%d words lent" % count, record(player.LEND, count) + BOOK)
        add("%d words lent after a book" % count,
            BOOK + record(player.LEND, count) + BOOK)
    for first, count in (
        (0, 3001), (1, 3000), (2999, 2), (3000, 1), (3001, 0), (1500, 1501),
        (2 ** 32, 0), (0, 2 ** 32), (2 ** 32, 2 ** 32), (2 ** 63, 2 ** 63),
        (2 ** 63, 2 ** 63 + 5), (LARGEST, 0), (LARGEST, 1), (LARGEST, 5),
        (0, LARGEST), (1, LARGEST), (5, LARGEST), (LARGEST, LARGEST),
        (2 ** 64 - 3000, 3000), (3000, 2 ** 64 - 3000),
    ):
        add("dump of %d words from %d" % (count, first),
            dump(first, count) + THREE)
        add("dump of %d words from %d after a book" % (count, first),
            BOOK + dump(first, count) + BOOK)

    # Operations. The highest bits of the word count too.
    unknown = [number for number in range(32)
               if number not in player.OPERATIONS]
    unknown += [99, LARGEST]
    for known in sorted(player.OPERATIONS):
        unknown += [known + 2 ** 8, known + 2 ** 16, known + 2 ** 32,
                    known + 2 ** 63]
    for number in unknown:
        add("operation %d first" % number, record(number, 1, 1) + THREE)
        add("operation %d after a division" % number,
            THREE + record(number) + THREE)
    # 19 is none; 15 takes the next record.
    add("operation 19 after a book", BOOK + record(19, 1) + BOOK)
    add("operation 15 after a book", BOOK + record(15, 1) + BOOK)
    add("a second closing", BOOK + record(player.CLOSE, 1) + dump(0, 47))
    add("a closing and an intensity of none",
        BOOK + record(player.CLOSE, 2) + record(player.INTENSITY, 2, 0))
    for chain in (0, 2, 10_001, 2 ** 32 + 1, LARGEST):
        add("a statement of chain %d" % chain,
            BOOK + record(player.STATEMENT, chain) + THREE)
    add("unknown operation after a weight",
        weight(1) + record(99) + division(10, 1))
    add("two unknown operations", THREE + record(0) + record(99))

    # Lengths of the share slice.
    for length in (301, 302, 512, 2 ** 16, 2 ** 16 + 3, 2 ** 32, 2 ** 32 + 3,
                   2 ** 63 + 3, LARGEST):
        add("length %d" % length, division(0, length) + THREE)
        add("length %d after weights" % length,
            THREE + weight(1) * 3 + division(10, length) + division(10, 3))
    add("length 301, 300 weights", weight(1) * 300 + division(10, 301) + THREE)

    # Lengths of the pair slice.
    for length in (0, 1, 511, 512, 513, 600):
        add("a preview with %d words" % length,
            PREVIEWS + record(player.PREVIEW, 1, length) + PREVIEWS)
        add("a preview with %d words before fresh" % length,
            record(player.PREVIEW, 1, length) + THREE)
    for length in (601, 602, 1024, 2 ** 16, 2 ** 16 + 512, 2 ** 32,
                   2 ** 32 + 512, 2 ** 63 + 512, LARGEST):
        add("a preview with %d words" % length,
            record(player.PREVIEW, 1, length) + THREE)
        add("a preview with %d words after a book" % length,
            PREVIEWS + record(player.PREVIEW, 1, length) + PREVIEWS)
    add("previews between weights",
        weight(1) * 3 + PREVIEWS + division(10, 3) + PREVIEWS)
    for lent in (0, 2659, 2660):
        add("previews with %d words lent" % lent,
            PREVIEWS + record(player.LEND, lent) + PREVIEWS)

    # The list of weights.
    add("301st weight", weight(1) * 301 + division(10, 300) + THREE)
    add("301st weight after a division", THREE + weight(1) * 301 + THREE)
    add("301st weight after a full list",
        weight(2) * 300 + division(10, 300) + weight(1) * 301 + THREE)
    add("301st weight last", weight(0) * 301)

    # Records cut short.
    for left in (1, 7, 8, 9, 16, 24, 32, 62, 63):
        add("%d bytes" % left, division(0, 0)[:left])
        add("%d zero bytes" % left, bytes(left))
        add("%d bytes after a division" % left, THREE + division(0, 0)[:left])
        add("%d bytes after weights" % left,
            weight(1) * 3 + division(10, 3)[:left])
        add("%d bytes of a dump after a book" % left,
            BOOK + dump(0, 47)[:left])
        for operation in (player.OPEN, player.CLOSE, player.STATEMENT,
                          player.INTENSITY, player.CELL, player.LINE,
                          player.PREVIEW):
            add("%d bytes of call %d after a book" % (left, operation),
                BOOK + record(operation, 1)[:left])
    add("cut short after an unknown operation",
        THREE + record(99) + division(0, 0)[:5])
    add("a weight cut short as the 301st", weight(1) * 301 + weight(1)[:40])
    add("an unknown operation cut short", THREE + record(99)[:8])

    # Many records, so that N is large.
    many = division(0, 0) * 70000
    add("70000 divisions", many)
    add("70000 divisions, then an unknown operation", many + record(99) + THREE)
    add("70000 divisions, then a record cut short", many + THREE[:63])
    add("10000 calls before fresh, then a book",
        record(player.OPEN, 1) * 10000 + BOOK)
    return found


def run(program, data):
    """What the program writes, and its exit status."""
    done = subprocess.run([program], input=data, stdout=subprocess.PIPE,
                          timeout=SECONDS)
    return done.stdout, done.returncode


def in_parts(found, size, agreed):
    """How many were found, and the sum of what `agreed` answers: it runs the
    program on so many at a time."""
    played = counted = 0
    while some := list(islice(found, size)):
        try:
            counted += agreed(some)
        except subprocess.TimeoutExpired:
            raise SystemExit("no end within %d seconds" % SECONDS)
        except OSError as error:
            raise SystemExit("the program does not run: %s" % error)
        played += len(some)
    return played, counted


def run_in_pieces(program, data, size):
    """The same, with the input handed over a few bytes at a time."""
    with subprocess.Popen([program], bufsize=0, stdin=subprocess.PIPE,
                          stdout=subprocess.PIPE) as process:
        try:
            for start in range(0, len(data), size):
                process.stdin.write(data[start:start + size])
                time.sleep(0.001)
        except BrokenPipeError:
            pass  # the program stops at a bad record
        try:
            output = process.communicate(timeout=SECONDS)[0]
        except subprocess.TimeoutExpired:
            process.kill()
            raise
    return output, process.returncode


def shown(output):
    """The end of an output, for a message."""
    if len(output) > 200:
        return "... %r (%d bytes)" % (output[-200:], len(output))
    return "%r" % output


def main(arguments):
    if len(arguments) != 1:
        print("usage: check_endings.py PROGRAM", file=sys.stderr)
        return 2
    program = os.path.abspath(arguments[0])
    runs = [(name, data, 0) for name, data in endings()]
    for size in (7, 63, 65):
        runs += [
            ("divisions in pieces of %d bytes" % size, THREE * 8, size),
            ("unknown operation in pieces of %d bytes" % size,
             THREE * 4 + record(99) + THREE * 4, size),
            ("cut short in pieces of %d bytes" % size,
             THREE * 4 + THREE[:100], size),
            ("a book in pieces of %d bytes" % size, BOOK * 4, size),
            ("previews in pieces of %d bytes" % size, PREVIEWS * 4, size),
            ("lines in pieces of %d bytes" % size, LINES, size),
            ("loads in pieces of %d bytes" % size, LOADS, size),
            ("a file without its end in pieces of %d bytes" % size,
             load(EXAMPLE)[:-64], size),
            ("a file cut short in pieces of %d bytes" % size,
             load(EXAMPLE)[:-1], size),
        ]
    for name, data, size in runs:
        wanted = player.play(data)
        try:
            if size == 0:
                output, status = run(program, data)
            else:
                output, status = run_in_pieces(program, data, size)
        except subprocess.TimeoutExpired:
            print("%s: no end within %d seconds" % (name, SECONDS))
            return 1
        except OSError as error:
            print("the program does not run: %s" % error)
            return 1
        if output != wanted:
            print("%s: the output differs" % name)
            print("  player  %s" % shown(wanted))
            print("  program %s (exit status %d)" % (shown(output), status))
            return 1
        if status < 0:
            print("%s: the program was ended by signal %d" % (name, -status))
            return 1
    print("%d endings agree" % len(runs))
    return 0


if __name__ == "__main__":
    sys.exit(main(sys.argv[1:]))
