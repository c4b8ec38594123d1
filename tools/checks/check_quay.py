#!/usr/bin/env python3
"""Compares `quay` over the built programs with `quay` over the separate
calculation.

    python3 tools/checks/check_quay.py [SEED]

It wants the programs that `rt ci` builds. The examples, random books, the
same with damage, random lists of calls, lists that preview and close random
books and random rows of a workbook are given to each command; status, output
and messages have to be the same, and no difference may be told. The seed makes
other books, lists and rows. Prints `N runs agree`, or the first difference with
exit status 1.
"""

import os
import random
import shlex
import subprocess
import sys

sys.path.insert(0, os.path.dirname(os.path.dirname(os.path.abspath(__file__))))

from calculation.book import FACTORS, QUANTITIES, QUOTED
from cases.random_cases import any_cell, by_bits, one_of, random_cell
from cases.random_files import random_parts
from checks.quay_runs import (
    CLASS, DOCUMENT, FERRY, ROOT, TWO_LISTS, VOYAGE, WHARF, WHARF_SHEET,
    calculated, run, stored, text_of)
from command.cells import cell_text
from command.main import BAD_TEXT, CANNOT, DIFFERENT, DONE, REFUSED
from command.programs import PROVED

SEED = 1
BOOKS = 120
LISTS = 60
CLOSED_BOOKS = 60
FILES_OF_ROWS = 60
QUAY = os.path.join(ROOT, "tools", "quay")

POST = "post category %d group %d quantity %d operation %d provision %d"
ENROL = "enrol category %d chain %d code %d amount %d distance %d"
QUOTE = "quote chain %d mass %d distance %d operation %d provision %d"

SHEETS = (("sheet",), ("sheet", "--tonnes"), ("sheet", "--csv"),
          ("sheet", "--csv", "--tonnes"))


def damaged(rng, parts):
    """The records of a book with one number changed."""
    parts = [list(table) for table in parts]
    table = one_of(rng, [table for table in parts if table] or [[]])
    if table:
        place = rng.randrange(len(table))
        record = list(table[place])
        field = rng.randrange(len(record))
        record[field] = one_of(rng, (0, 1, 2, 3, 9, 100, 10_001,
                                     by_bits(rng, 31)))
        table[place] = tuple(record)
    return parts


def random_books(rng, count):
    """The records of random books, every sixth a large one."""
    for number in range(count):
        yield random_parts(rng, (3, 6, 9) if number % 6 else (16, 64, 60))


def books(rng):
    """Texts of books with names."""
    for parts in random_books(rng, BOOKS):
        for records in (parts, damaged(rng, parts), damaged(rng, parts)):
            yield "name 1 First\n%s\nname 10_000 Last" % text_of(*records)


def random_cells(rng):
    """The cells of a line as they are written: most in range, or any."""
    wild = rng.randrange(3) == 0
    return [cell_text(any_cell(rng) if wild else random_cell(rng, numbers, 20))
            for numbers in (QUANTITIES, FACTORS, FACTORS)]


def rows(rng):
    """Rows of a workbook; one that is none may be among them."""
    for number in range(FILES_OF_ROWS):
        separator = one_of(rng, (",", ";", "\t"))
        lines = [separator.join(random_cells(rng)) for _ in range(
            70 if number % 6 == 0 else 4)]
        if number % 4 == 0:
            lines.insert(0, separator.join(("quantity", "operation", "c")))
        if number % 10 == 9:
            lines.append(one_of(rng, ("1", "1,2,3;4", "x,1,2")))
        yield "\n".join(lines)


def random_line(rng):
    category = 1 + rng.randrange(3)
    chain = one_of(rng, (1, 2, 3))
    return one_of(rng, (
        "open %d" % rng.randrange(5),
        POST % (category, rng.randrange(3), by_bits(rng, 41),
                by_bits(rng, 34), by_bits(rng, 34)),
        "line category %d group %d %s %s %s" % (
            category, rng.randrange(3), *random_cells(rng)),
        ENROL % (category, chain, one_of(rng, (0, 1, 2, 100, 250)),
                 by_bits(rng, 20), by_bits(rng, 26))
        + one_of(rng, ("", " kg 0", " kg 78",
                       " kg %d" % (1 + rng.randrange(301)))),
        QUOTE % (chain, by_bits(rng, 30), by_bits(rng, 26), by_bits(rng, 30),
                 by_bits(rng, 30)),
        "strike %d" % (1 + rng.randrange(6)), "close %d" % category,
        "preview %d" % category, "statement %d" % chain,
        "intensity %d %d" % (category, one_of(rng, (0, 1, 2, 100))),
        "show", "sheet",
        "load " + one_of(rng, (DOCUMENT, VOYAGE, FERRY, "# none")),
    )[:12 + (rng.randrange(20) == 0)])


def lists(rng):
    """Lists of calls; a line that is none may be among them."""
    for _ in range(LISTS):
        lines = ["open %d" % (1 + rng.randrange(4)) for _ in range(3)]
        yield "\n".join(lines + [random_line(rng) for _ in range(60)])


def closed_books(rng):
    """Lists that make random books, each category closed between two
    previews."""
    for categories, entries, elements in random_books(rng, CLOSED_BOOKS):
        lines = ["open %d" % kind for kind, _ in categories]
        lines += [POST % record for record in entries]
        lines += [element_call(*record) for record in elements]
        for category in range(1, 1 + len(categories)):
            lines += ["%s %d" % (word, category)
                      for word in ("preview", "close", "preview")]
        yield "\n".join(lines)


def element_call(category, chain, code, adjust, amount, distance,
                 *intensities):
    """The call of an element's record; of passengers `adjust` is the kg."""
    if category == QUOTED:
        return "%s adjust %d" % (QUOTE % (chain, amount, distance,
                                          *intensities), adjust)
    return "%s kg %d" % (ENROL % (category, chain, code, amount, distance),
                         adjust)


def runs(seed):
    """The words of a command and its standard input."""
    rng = random.Random(seed)
    for path in (DOCUMENT, VOYAGE, FERRY):
        for words in SHEETS:
            yield (*words, path), ""
        for chain in range(40):
            yield ("explain", path, str(chain)), ""
    for path in (CLASS, TWO_LISTS):
        yield ("play", path), ""
    for text in books(rng):
        for words in SHEETS:
            yield (*words, "-"), text
        for chain in (1, 2, 10_000):
            yield ("explain", "-", str(chain)), text
    for text in (*lists(rng), *closed_books(rng)):
        yield ("play",), text
    for place in (("1", "all"), ("1", "9"), ("2", "all")):
        yield ("lines", WHARF, WHARF_SHEET, *place), ""
        yield ("lines", "--entries", CLASS, WHARF_SHEET, *place), ""
    for text in rows(rng):
        for book in (WHARF, VOYAGE, CLASS):
            yield ("lines", book, "-", str(1 + rng.randrange(4)),
                   str(rng.randrange(3))), text
        yield ("lines", "--entries", WHARF, "-", "1", "all"), text


def compare(words, text):
    """The status of a run that is the same in both ways."""
    proved, reckoned = (run(*words, text=text.encode(), programs=programs)
                        for programs in (PROVED, calculated()))
    if proved != reckoned or proved[0] == DIFFERENT:
        raise SystemExit("quay %s differs\n%s\nprograms    %r\ncalculation %r"
                         % (" ".join(words), text, proved, reckoned))
    return proved[0]


# The command itself.

def expect(is_right, what, found):
    if not is_right:
        raise SystemExit("%s: %r" % (what, found))


def as_a_command():
    """`tools/quay` as a process: its status, its output, and an output that
    nobody reads to its end."""
    for words, status, output in (
        (("sheet", DOCUMENT), DONE, stored("crates", "quaymeter", "stdout")),
        (("play", CLASS), REFUSED, stored("examples", "class-answers.txt")),
        (("play", TWO_LISTS), DONE,
         stored("examples", "two-lists-answers.txt")),
        (("lines", WHARF, WHARF_SHEET, "1", "all"), REFUSED,
         stored("examples", "wharf-answers.txt")),
        (("sheet", QUAY), BAD_TEXT, ""),
        (("sheet", "none.txt"), CANNOT, ""),
        (("explain", DOCUMENT, "9"), CANNOT, ""),
    ):
        done = subprocess.run([QUAY, *words], stdout=subprocess.PIPE,
                              stderr=subprocess.PIPE)
        expect((done.returncode, done.stdout.decode()) == (status, output),
               "quay " + " ".join(words), done)
        # A heading of rows is told of.
        expect((done.stderr == b"") == (status in (DONE, REFUSED)
                                        and WHARF_SHEET not in words),
               "its messages", done)
    for command, lines, told in (
        ("%s play %s | head -1", 1, b""),
        # A terminal that has no letter µ.
        ("PYTHONIOENCODING=ascii %s play %s | grep -m 1 '000 ?g'", 1, b""),
        ("%s play %s > /dev/full", 0, b"the output cannot be written: No space "
         b"left on device\n"),
    ):
        done = subprocess.run(command % (shlex.quote(QUAY), shlex.quote(CLASS)),
                              shell=True, stdout=subprocess.PIPE,
                              stderr=subprocess.PIPE)
        expect((done.stdout.count(b"\n"), done.stderr) == (lines, told),
               "an output that cannot be read or written whole", done)


def main(arguments):
    if len(arguments) > 1 or not all(map(str.isdecimal, arguments)):
        print("usage: check_quay.py [SEED]", file=sys.stderr)
        return 2
    seed = int(arguments[0]) if arguments else SEED
    statuses = [compare(words, text) for words, text in runs(seed)]
    for status in (DONE, BAD_TEXT, REFUSED):
        expect(status in statuses, "no run of status", status)
    as_a_command()
    print("%d runs agree" % len(statuses))
    return 0


if __name__ == "__main__":
    sys.exit(main(sys.argv[1:]))
