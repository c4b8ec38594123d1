"""`quay sheet`: the sheet of a book that is written as text."""

import csv
import io
from collections import Counter, namedtuple

from calculation.book import unstruck
from calculation.sheet import ALL, HEADING, class_total, used_chains
from command.amounts import LEFT, POINT, RIGHT, aligned, counted, tonnes
from command.fields import printable, shown
from command.ledger import in_line, lines_of, loaded, numbers_in
from command.naming import with_name
from command.programs import Differs
from command.refusals import of_file

# A line of the sheet; the chain of the last is ALL.
Row = namedtuple("Row", HEADING)

MOST_DIGITS = 15  # that a spreadsheet keeps of a number


class RefusedFile(Exception):
    """The ledger refuses a file: the lines that tell it."""


class Sheet:
    """What `quaymeter` prints for a text, its rows, and the book that
    `replay` shows after the same file. Each row is what `replay` states of
    its chain; `shown_rows` has the class total behind them."""

    def __init__(self, programs, text):
        self.text = text
        output = programs.quaymeter(text.data())
        self.printed = output.decode("ascii", "replace")
        self.ledger, loading = loaded(programs, text.data())
        heading, *lines = lines_of(output) or [""]
        word, _, numbers = heading.partition(" ")
        refused = numbers_in(numbers) if word == "refused" else [0, 0, 0]
        if refused != loading or not any(refused) and heading != HEADING:
            raise Differs("quaymeter says `%s`, and replay `%s`" % (
                shown(heading), in_line(loading)))
        if any(refused) and lines:
            raise Differs("quaymeter prints `%s` behind its refusal"
                          % shown(lines[0]))
        if any(refused):
            raise RefusedFile(list(refusal(refused, text, self.ledger)))
        *lines, last = lines or [heading]
        sums = sums_in(last)
        self.rows = self.rows_of(lines)
        self.shown_rows = with_total(self.rows, self.ledger)
        total = self.shown_rows[-1]
        if sums != list(total[1:]):
            raise Differs("quaymeter prints `%s`, and its lines and the book's "
                          "elements add up to `%s`" % (shown(last),
                                                       in_line(total)))
        compare_form(self.printed, [HEADING, *map(in_line, self.shown_rows)])

    def rows_of(self, lines):
        rows = [numbers_in(line) for line in lines]
        stated = statements(self.ledger)
        if len(rows) != len(stated):
            raise Differs("the sheet has %s, and the book %s" % (
                counted(len(rows), "line"), counted(len(stated), "chain")))
        for row, statement in zip(rows, stated):
            if row != list(statement):
                raise Differs("quaymeter prints `%s`, and replay states `%s`"
                              % (in_line(row), in_line(statement)))
        return stated


def statements(ledger):
    """What `replay` states of each used chain."""
    chains = used_chains(ledger.words)
    return [Row(chain, *statement) for chain, statement
            in zip(chains, ledger.statements(chains))]


def sums_in(line):
    """The five sums of a sheet's last line."""
    word, _, sums = line.partition(" ")
    numbers = numbers_in(sums) if word == ALL else []
    if len(numbers) != 5:
        raise Differs("the sheet ends with `%s`, where `%s` and five sums were "
                      "expected" % (shown(line), ALL))
    return numbers


def compare_form(printed, expected):
    """The sheet has these lines, sign by sign, each with its newline."""
    for line, own in zip(printed.splitlines(True), expected):
        if line != own + "\n":
            raise Differs("quaymeter prints `%s`, where `%s` and a newline "
                          "were expected" % (printable(line.rstrip("\n")), own))


def with_total(rows, ledger):
    """The rows of all chains, and the class total. It is reckoned over the
    book's elements, and the rows have to add up to it."""
    total = class_total(ledger.words)
    added = [sum(row[place] for row in rows) for place in range(1, 6)]
    if added != total:
        raise Differs("the lines add up to `%s`, and the book's elements to "
                      "`%s`" % (in_line(added), in_line(total)))
    return [*rows, Row(ALL, *total)]


def refusal(numbers, text, ledger):
    """The lines that tell a refusal."""
    line, told, looks = of_file(numbers, text, ledger)
    yield "line %d: %s" % (line, told)
    yield "    " + shown(text.lines[line - 1])
    for look in looks:
        yield "    " + look


# What is told beside a sheet.

def remarks(book, rows, names, called, to_close):
    """Who waits for what, and which emissions are in nobody's line. What a
    category is called and how it is closed depends on where it stands."""
    waiting = {category: Counter(element.chain for element
                                 in book.elements_of(category))
               for category in book.kinds if book.is_open(category)}
    compare_waiting(rows, waiting.values())
    held = {row.chain: row.elements for row in rows}
    if not book.elements:
        yield "no element is in this book, so no chain has a line"
    for category in book.kinds:
        place = called("category", category)
        elements = book.elements_of(category)
        entries = unstruck(book.entries_of(category))
        if book.is_open(category) and elements:
            yield ("%s is not closed, so these wait for it and have no "
                   "emissions of it yet:" % place)
            for chain, count in sorted(waiting[category].items()):
                yield "    chain %s: %d of its %s" % (
                    with_name(names, chain), count,
                    counted(held[chain], "element"))
            yield "    " + to_close(category)
        elif book.is_open(category) and entries:
            yield ("%s is not closed and has no elements: %s in nobody's line"
                   % (place, counted(len(entries), "entry of it is",
                                     "entries of it are")))
        elif not entries and not book.is_open(category):
            yield ("%s is closed and has no entries that count: its elements "
                   "get no emissions of it" % place)


def compare_waiting(rows, waiting):
    """Those of a chain that wait for a category each are all that wait."""
    for row in rows:
        found = sum(counts[row.chain] for counts in waiting)
        if found != row.waiting:
            raise Differs("chain %d: the program says that %d wait, and %d are "
                          "found here" % (row.chain, row.waiting, found))


def remarks_of_text(sheet):
    """The remarks of a text, by its lines."""
    text = sheet.text
    return remarks(
        sheet.ledger.book, sheet.rows, text.names, text.called,
        lambda category: "when all its entries are written, %s and print the "
        "sheet again" % text.to_close(category))


def unused_names(sheet):
    used = {row.chain for row in sheet.rows}
    for chain in sorted(sheet.text.names):
        if chain not in used:
            yield "chain %s is named and has no element" % with_name(
                sheet.text.names, chain)


# The forms of a sheet.

def table(rows, names):
    """The lines of the table in tonnes."""
    named = bool(names)
    lines = [["chain"] + ["name"] * named
             + ["elements", "waiting", "operation t", "provision t",
                "total t"]]
    for row in rows:
        lines.append([str(row.chain)] + [names.get(row.chain, "")] * named
                     + [str(row.elements), str(row.waiting)]
                     + [tonnes(amount) for amount in row[3:]])
    sides = [RIGHT] + [LEFT] * named + [RIGHT, RIGHT] + [POINT] * 3
    return aligned(lines, sides)


def comma_separated(sheet, in_tonnes):
    """The lines of the sheet for a spreadsheet."""
    unit = "t" if in_tonnes else "ug"
    output = io.StringIO()
    writer = csv.writer(output, lineterminator="\n")
    writer.writerow(["chain", "name", "elements", "waiting"]
                    + ["%s %s" % (word, unit) for word
                       in ("operation", "provision", "total")])
    for row in sheet.shown_rows:
        writer.writerow(
            [row.chain, no_formula(sheet.text.names.get(row.chain, "")),
             row.elements, row.waiting]
            + [tonnes(amount).replace("_", "") if in_tonnes else amount
               for amount in row[3:]])
    return output.getvalue().splitlines()


def no_formula(name):
    """A name that a spreadsheet takes for no formula."""
    return "'" + name if name.startswith(("=", "+", "-", "@")) else name


def long_numbers(sheet):
    """A note where a spreadsheet would round."""
    count = sum(len(str(amount).rstrip("0")) > MOST_DIGITS
                for row in sheet.shown_rows for amount in row[3:])
    if count:
        yield ("a spreadsheet keeps %d digits of a number; %s here %s more"
               % (MOST_DIGITS, counted(count, "number"),
                  "has" if count == 1 else "have"))
