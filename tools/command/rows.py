"""The rows of a workbook, from a file of separated columns (CSV): each row is
a line from the Wharf Sheet, with its three cells."""

import csv
import re
from collections import namedtuple

from command.amounts import counted
from command.cells import (
    BLANKS, COMMA, EITHER_COMMA, EXPECTED, NUMBER, PLACES, cell_of)
from command.fields import Wrong, is_like_number, listed, shown
from command.texts import carriage_returns, lines_of
from pack import Problem

# What separates the columns: the first of these that most lines have. A first
# line may state it.
SEPARATORS = (";", "\t", ",")
STATED = re.compile('"?sep=([;,\t|])"?', re.IGNORECASE)

# A row: the number of its line in the file, its cells and their texts.
Row = namedtuple("Row", "number cells texts")

EXPECTED_ROW = ("expected three columns: quantity in units, operation and "
                "provision in g CO2e per unit")
EXPECTED_TEXT = EXPECTED % "nothing"

# A number whose comma may stand between thousands, and one with several
# commas and points.
BETWEEN_THOUSANDS = re.compile("[-+]?[1-9][0-9]{0,2},[0-9]{3}")
SEVERAL = re.compile("[-+]?[0-9]+([.,][0-9]+){2,}")


class Rows:
    """The rows of a file, the problems of its lines, and what else is to be
    told."""

    def __init__(self, text):
        self.lines = lines_of(text)
        self.notes = list(carriage_returns(self.lines))
        self.rows, self.problems, self.passed_over = [], [], []
        lines = [line.replace("\r", " ").rstrip(" ") for line in self.lines]
        stated = STATED.fullmatch(lines[0]) if lines else None
        self.separator = stated[1] if stated else separator_of(lines)
        self.add_rows(lines, 1 if stated else 0)
        self.compare_commas()
        if self.passed_over:
            self.notes.append("%s passed over: %s line %d" % (
                counted(len(self.passed_over), "row without any cell is",
                        "rows without any cell are"),
                "it is" if len(self.passed_over) == 1 else "the first is",
                self.passed_over[0]))

    def is_text(self):
        return not any("\0" in line for line in self.lines)

    def add_rows(self, lines, before):
        """Adds the rows behind so many lines."""
        reader = csv.reader((line + "\n" for line in lines[before:]),
                            delimiter=self.separator, skipinitialspace=True)
        is_first = True
        number = before + 1
        try:
            for texts in reader:
                last = before + reader.line_num
                texts = [" ".join(text.split()) for text in texts]
                if "".join(lines[number - 1:last]).count('"') % 2:
                    self.problem(number, "a quotation mark is not closed",
                                 EXPECTED_ROW)
                elif not any(texts):
                    # A blank line, or a row that the spreadsheet has there.
                    self.passed_over += [number] if len(texts) > 1 else []
                else:
                    self.add_row(number, texts, is_first)
                    is_first = False
                number = last + 1
        except csv.Error as error:
            self.problem(number, "it cannot be read as columns: %s" % error,
                         EXPECTED_ROW)

    def add_row(self, number, texts, is_first):
        while len(texts) > len(PLACES) and not texts[-1]:
            texts.pop()
        if len(texts) != len(PLACES):
            self.problem(number, "%s, separated by %s" % (
                counted(len(texts), "column"), "tabs" if self.separator == "\t"
                else "`%s`" % self.separator),
                EXPECTED_ROW + ("; where a comma stands before decimals, `;` "
                                "separates the columns"
                                * (self.separator == ","
                                   and len(texts) > len(PLACES))))
        elif is_first and is_heading(texts):
            self.add_heading(number, texts)
        else:
            self.add_cells(number, texts)

    def add_heading(self, number, texts):
        for column, (text, place) in enumerate(zip(texts, PLACES), 1):
            named = [other.word for other in PLACES
                     if other.word in text.lower()]
            if named and place.word not in named:
                self.problem(number, "the heading has %s in column %d"
                             % (listed(named), column), EXPECTED_ROW)
        self.notes.append(
            "line %d is taken for a heading, and no row: %s; the columns are "
            "quantity in units, operation and provision in g CO2e per unit"
            % (number, listed(["`%s`" % shown(text) for text in texts])))

    def add_cells(self, number, texts):
        cells = []
        for column, (text, place) in enumerate(zip(texts, PLACES), 1):
            try:
                cells.append(cell_of(text, self.with_point))
            except Wrong as wrong:
                self.problem(number, "column %d, %s: `%s` is %s" % (
                    column, place.name, shown(text), wrong.args[0]),
                    EXPECTED_TEXT)
        if len(cells) == len(PLACES):
            self.rows.append(Row(number, tuple(cells), texts))

    def problem(self, number, what, expected):
        self.problems.append(Problem(number, self.lines[number - 1], what,
                                     expected))

    # Decimal commas.

    def with_point(self, number):
        """The text of a number with a point before its decimals. Where a comma
        separates the columns, one in a cell may stand between thousands."""
        if not COMMA.fullmatch(number):
            return number
        if SEVERAL.fullmatch(number):
            raise Wrong("no number as it stands: one comma or one point stands "
                        "before its decimals, and none between thousands",
                        EXPECTED_TEXT)
        if self.separator == "," and BETWEEN_THOUSANDS.fullmatch(number):
            raise Wrong(EITHER_COMMA, EXPECTED_TEXT)
        return number.replace(",", ".")

    def compare_commas(self):
        """Decimals stand behind commas or behind points, and not behind both
        in one file."""
        cells = [(row.number, column, text) for row in self.rows
                 for column, text in enumerate(row.texts, 1)]
        commas = [(number, text) for number, _, text in cells if "," in text]
        if not commas:
            return
        first, text = commas[0]
        for number, column, other in cells:
            if "." in other.replace("..", ""):
                self.problem(
                    number, "column %d, %s: `%s` has a point, and `%s` on line "
                    "%d a comma" % (column, PLACES[column - 1].name,
                                    shown(other), shown(text), first),
                    "expected decimals behind a comma in all of a file, or "
                    "behind a point in all")
        self.problems.sort()
        self.notes.append("line %d: a comma stands before decimals in this "
                          "file: `%s` is read as %s" % (
                              first, shown(text), text.replace(",", ".")))


def separator_of(lines):
    """The separator that most lines have outside quotation marks."""
    bare = [re.sub('"[^"]*"', "", line) for line in lines if line.strip()]
    return next((sign for sign in SEPARATORS
                 if 2 * sum(sign in line for line in bare) > len(bare)), ",")


def is_heading(texts):
    """Whether none of the texts is a cell or was meant for one."""
    return all(any(map(str.isalpha, text)) and text.lower() not in BLANKS
               and not is_like_number(text) and not text.startswith(("=", "#"))
               and not NUMBER.fullmatch(text) for text in texts)
