#!/usr/bin/env python3
"""Packs a book that is written as text into the file form of document 01.

    python3 tools/pack.py < book.txt > book.file
    python3 tools/pack.py book.txt | crates/quaymeter/out/quaymeter

`tools/quay sheet book.txt` does both, and tells a refusal at its line.

A line is a record: its word, then each field as its word and a number, in
any order.

    category  kind, and close where it is to be closed
    entry     category group quantity operation provision
    element   category chain code amount distance, and kg where passengers
              are weighed
    quote     chain mass distance operation provision, and adjust for the air
              adjustment

Operation and provision are the two factors of an entry and the two
intensities of a quote. Categories, entries and elements, quotes among them,
are numbered from 1 in the order of their lines; the three may be mixed. `#`
begins a comment. A long number may have `_` or `,` between groups of three
digits. `close` and `adjust` stand for `close 1` and `adjust 1`; left out they
are 0. `kg` is the kg per head of passengers; left out or 0 it is the standard
100. In the file it is in the field adjust. An element that is not of
passengers may have `adjust`, and any `operation` and `provision`; it is then
refused by the ledger where they are not 0.
Instead of a number `kind` may have the word freight, passengers, both or hub,
`group` all, chilled or frozen, `code` ambient, chilled, frozen or lowest,
which is 100.

    name      a chain's number and its name, which `quay` shows

is not packed. Only the form is judged here. A record that the ledger refuses
(kind 9, chain 0, 301 kg per head, an element with an intensity) is packed as
it is: the refusal is printed by quaymeter. A text with a bad line gives no
file: what is wrong goes to standard error, and the exit status is 1.
"""

import sys
from collections import namedtuple

from calculation.book import (
    CHAINS, FREIGHT_CODES, LISTINGS, PASSENGER_CODES, QUOTED)
from cases.file_writer import (
    HEADER_BYTES, MOST_BYTES, SIZES, SMALL_FIELDS, file_of)
from command.amounts import counted
from command.fields import (
    ALWAYS_0, CATEGORY, CHAIN, DISTANCE, NUMBER, Wrong, as_thousands,
    expected_fields, flag, given_numbers, is_like_number, meant, must_be_0,
    needed, number_of, optional, record_numbers, shown)
from command.texts import (
    Unreadable, carriage_returns, lines_of, read, without_comment,
    without_remark)

MOST_SHOWN = 10  # bad lines that are told of
NO_TEXT = "%s is no text; save it as plain text, in UTF-8"
NO_RECORD = "there is no record in this text"

# A record: its table, and its fields in document 01's order; behind them `kg`
# of an element, which the file has in its field adjust.
Record = namedtuple("Record", "table fields")

QUANTITY = needed("quantity",
                  "in thousandths of a unit, of a kg for example")
FACTOR = "in mg CO2e per unit"
INTENSITY = "in mg CO2e per tonne-km"
CODE = needed("code", "for passengers their class in hundredths of the lowest, "
                      "100 to 1000")
KG = optional("kg", "what each passenger weighs, 1 to 300; left out or 0 it is "
                    "the standard 100")

RECORDS = {
    "category": Record(1, (needed("kind"), flag("close"))),
    "entry": Record(2, (
        CATEGORY, needed("group"), QUANTITY,
        needed("operation", FACTOR), needed("provision", FACTOR))),
    "element": Record(3, (
        CATEGORY, CHAIN, CODE, flag("adjust", offered=False),
        needed("amount", "in kg, or heads for passengers"), DISTANCE,
        must_be_0("operation"), must_be_0("provision"), KG)),
    # Its category and its code are 0.
    "quote": Record(3, (
        ALWAYS_0, CHAIN, ALWAYS_0,
        flag("adjust", "for an air leg: its emissions are of 95 km more"),
        needed("mass", "in kg"), needed("distance", "in m"),
        needed("operation", INTENSITY),
        needed("provision", INTENSITY))),
}
# Words of records that are no words of fields.
BEGINNINGS = ("entry", "element", "quote")

NAME = "name"
EXPECTED_NAME = ("expected name, the number of a chain, 1 to 10,000, and its "
                 "name, as in `name 7 Harbour Mills`")
EXPECTED_RECORD = ("expected a line that begins with category, entry, "
                   "element, quote or name")

# Calls, which begin no line of a book's text: the record that is written for
# one, and what else is said of them.
RECORD_OF_CALL = {"open": "category", "post": "entry", "enrol": "element"}
CLOSING = ("write `close` at the end of the category's line, as in `category "
           "kind freight close`")
PLAYED = ("strike", "preview", "statement", "intensity", "fresh", "load",
          "show")


# Lines.

def record_of(name, words):
    """The table of a record and its numbers."""
    if name not in RECORDS:
        raise Wrong("no record is called `%s`" % shown(name)
                    + meant(name, (*RECORDS, NAME)), instead_of(name))
    table, fields = RECORDS[name]
    other = next((word for word in words if word.lower() in BEGINNINGS), None)
    if other is not None:
        raise Wrong("`%s` begins a record, behind another one" % other,
                    "expected a line for each record")
    if words and is_like_number(words[0]):
        raise Wrong("`%s` has no word before it that says what it is; records "
                    "are numbered by their order, and their lines have no "
                    "number" % shown(words[0]), expected_fields(name, fields))
    small = (*fields[:SMALL_FIELDS[table - 1]], KG)
    numbers = record_numbers(name, fields, given_numbers(
        name, fields, words,
        bits_of=lambda field: 32 if field in small else 64))
    return table, element_of(*numbers) if name == "element" else numbers


def element_of(category, chain, code, adjust, *others):
    """The numbers of an element in document 01's order. Of passengers the
    adjust is their kg per head."""
    *others, kg = others
    passengers = category != QUOTED and code in PASSENGER_CODES
    if kg != 0 and not passengers:
        raise Wrong("`kg` for " + (
            "a quote, which an element of category 0 is: a quote is of freight"
            if category == QUOTED else
            "freight, which is not weighed by the head: its mass is its amount"
            if code in FREIGHT_CODES else
            "code %d, which is none of passengers" % code),
            "expected no `kg`: it is for passengers alone, whose code is 100 "
            "to 1000")
    if adjust != 0 and passengers:
        raise Wrong("`adjust` for passengers: only a quote has an air "
                    "adjustment", "expected no `adjust`; what each passenger "
                    "weighs is `kg`, as in `kg 78`")
    return (category, chain, code, kg if passengers else adjust, *others)


def instead_of(name):
    """What to write instead of a word that begins no record."""
    if name in RECORD_OF_CALL:
        return "a book's text has `%s` for it" % RECORD_OF_CALL[name]
    if name == "close":
        return CLOSING
    if name == "line":
        return ("that is a call, for `tools/quay play`; `tools/quay lines "
                "--entries` prints rows of a workbook as lines of a book's "
                "text")
    if name in PLAYED:
        return "that is a call, for `tools/quay play`"
    return EXPECTED_RECORD


def is_name(line):
    return without_remark(line).lower().split()[:1] == [NAME]


def name_of(line):
    """The chain that a line names, and its name."""
    words = without_remark(line).split()[1:]
    if [word.lower() for word in words[:1]] == ["chain"]:
        words = words[1:]
    if len(words) < 2:
        raise Wrong("a chain's number or its name is missing", EXPECTED_NAME)
    chain, *name = words
    if not NUMBER.fullmatch(chain):
        raise Wrong("`%s` is not the number of a chain" % shown(chain),
                    EXPECTED_NAME)
    number = number_of(chain, CHAIN)
    if number not in CHAINS:
        raise Wrong("there is no chain %d to name" % number, EXPECTED_NAME)
    return number, shown(" ".join(name))


# The text.

# A bad line: its number, the line, what is wrong and what was expected.
Problem = namedtuple("Problem", "number line what expected")


class Text:
    """A book's text: its lines, the records of the three tables with the
    numbers of their lines, the chains' names, the problems of its lines and
    what else is to be told."""

    def __init__(self, text):
        self.lines = lines_of(text)
        self.tables = ([], [], [])
        self.numbers = ([], [], [])
        self.names = {}
        self.problems = []
        for number, line in enumerate(self.lines, 1):
            try:
                if is_name(line):
                    self.add_name(*name_of(line))
                else:
                    self.add_record(number, without_comment(line).split())
            except Wrong as wrong:
                self.problems.append(Problem(number, line, *wrong.args))
        if self.bytes() > MOST_BYTES:
            self.problems.append(self.no_room())
            self.problems.sort()
        self.notes = list(self.all_notes())

    def add_name(self, chain, name):
        if chain in self.names:
            raise Wrong("chain %d has a name already" % chain,
                        "expected one name for a chain")
        self.names[chain] = name

    def add_record(self, number, words):
        if not words:
            return
        name, *words = words
        table, numbers = record_of(name.lower(), words)
        self.tables[table - 1].append(numbers)
        self.numbers[table - 1].append(number)

    def bytes(self):
        """How many bytes the file has."""
        return HEADER_BYTES + sum(size * len(table) for size, table
                                  in zip(SIZES, self.tables))

    def no_room(self):
        """The first record past the limit of its list; a file that is too
        long has one."""
        number = min(numbers[listing.most]
                     for listing, numbers in zip(LISTINGS, self.numbers)
                     if len(numbers) > listing.most)
        return Problem(
            number, self.lines[number - 1],
            "from this record on its list is full, and all records are more "
            "than a file has room for ({:,} bytes)".format(MOST_BYTES),
            "expected no more than 16 categories, 64 entries and 256 elements "
            "and quotes; here are %d, %d and %d"
            % tuple(map(len, self.tables)))

    def all_notes(self):
        if self.is_empty() and not self.problems:
            yield NO_RECORD
        yield from carriage_returns(self.lines)
        for record, (category, *_) in enumerate(self.tables[2], 1):
            line = self.lines[self.line_of(3, record) - 1]
            if category == 0 and line.split()[0].lower() == "element":
                yield ("line %d: an element of category 0 is a quote: it is "
                       "in no category, and its emissions are by its own "
                       "intensities alone" % self.line_of(3, record))
        yield from self.commas()

    def commas(self):
        """A note where a comma between thousands may be meant as one before
        decimals."""
        found = [(number, read_as) for number, line in enumerate(self.lines, 1)
                 if not is_name(line)
                 for read_as in as_thousands(without_comment(line))]
        if found:
            more = len(found) - 1
            yield "line %d: %s%s" % (
                *found[0], more and "; %s alike" % counted(
                    more, "more number is", "more numbers are") or "")

    def is_empty(self):
        return not any(self.tables)

    def is_text(self):
        """Whether it is not the bytes of a program or a picture."""
        return not self.problems or not any("\0" in line
                                            for line in self.lines)

    def line_of(self, table, record):
        """The number of the line of a record."""
        return self.numbers[table - 1][record - 1]

    def called(self, word, record):
        """A category, entry or element with its line."""
        return "%s %d (line %d)" % (
            word, record, self.line_of(RECORDS[word].table, record))

    def to_close(self, category):
        """How a category is closed that is not."""
        line = self.line_of(1, category)
        if "close" in without_comment(self.lines[line - 1]).lower().split():
            return "make `close 0` on line %d `close`" % line
        return "put `close` on line %d" % line

    def data(self):
        """The bytes of the file."""
        return file_of(*self.tables)


def packed(text):
    """The bytes of the file, and the problems of its lines."""
    book = Text(text)
    return (b"" if book.problems else book.data()), book.problems


def report(problems, source, end="no file is written"):
    """The lines of a message."""
    for number, line, what, expected in problems[:MOST_SHOWN]:
        yield "%sline %d: %s" % (source, number, what)
        yield "    %s" % shown(line)
        yield "    %s" % expected
    if len(problems) > MOST_SHOWN:
        yield "and %s" % counted(len(problems) - MOST_SHOWN, "more bad line")
    yield end


def main(arguments):
    if len(arguments) > 1:
        print("usage: pack.py [TEXT]", file=sys.stderr)
        return 2
    path = arguments[0] if arguments else None
    source = path + ", " if path else ""
    try:
        text = Text(read(path))
    except Unreadable as error:
        print(error, file=sys.stderr)
        return 1
    if not text.is_text():
        print(NO_TEXT % shown(path or "standard input"), file=sys.stderr)
        return 1
    for note in text.notes:
        print("note: %s%s" % (source, note), file=sys.stderr)
    if text.problems:
        for line in report(text.problems, source):
            print(line, file=sys.stderr)
        return 1
    sys.stdout.buffer.write(text.data())
    return 0


if __name__ == "__main__":
    sys.exit(main(sys.argv[1:]))
