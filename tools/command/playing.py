"""`quay play`: calls in words, each with its answer in words."""

import os
import re
from collections import namedtuple

import pack
from calculation import book
from command.amounts import (
    LEFT, POINT, RIGHT, aligned, counted, emissions, grouped, moved, tonnes)
from command.calls import CALLS, OTHERS, call_of, no_such_word
from command.cells import PLACES, by_exact_value, conversion
from command.fields import (
    VALUES, Wrong, as_thousands, expected_fields, listed, numbered, printable,
    shown)
from command.ledger import Ledger, in_line
from command.naming import (
    carried, code_words, group_words, kind_words, plainly_called, with_name)
from command.programs import Differs
from command.refusals import of_call
from command.sheets import refusal, remarks, statements, table, with_total
from command.texts import Unreadable, read, without_comment, without_remark

MOST_SHOWN = 10  # elements of a closing

# What a line asks for: its word, what the word needs, the line, and how it is
# written in a list that is saved.
Request = namedtuple("Request", "word given line saved")

# Other words for a word.
SAME = {"exit": "quit", "?": "help"}


# From a line to a request.

def request_of(line, folder=""):
    """The request of a line, None for a line without one. A `>` may stand
    before it, as in the answers of a list. Books are looked for where the
    command is run, and in the folder of the list."""
    line = re.sub(r"^\s*>\s*", "", line)
    words = without_comment(line).split()
    if not words:
        return None
    word, *words = words
    word = SAME.get(word.lower(), word.lower())
    saved = line.strip()
    if word in CALLS:
        given = call_of(word, words)
    elif word == "load":
        path = found_at(path_in(line, word), folder)
        given = shown(path), book_at(path, folder)
        saved = "load " + path
    elif word == "save":
        given = path_in(line, word)
    elif word == "name":
        given = pack.name_of(line)
    elif word == "help":
        given = help_topic(" ".join(words).lower())
    elif word not in OTHERS:
        raise no_such_word(word)
    elif words:
        raise Wrong("`%s` stands behind `%s`" % (shown(" ".join(words)), word),
                    "expected `%s` alone" % word)
    else:
        given = None
    return Request(word, given, line.strip(), saved)


def path_in(line, word):
    """The path behind a word."""
    path = without_remark(line).strip()[len(word):].strip().strip("\"'")
    if not path:
        raise Wrong("no file after `%s`" % word,
                    "expected the path of a file, as in `%s`" % OTHERS[word])
    return os.path.expanduser(path)


def found_at(path, folder):
    """The path of a file that is where one is, or else in a folder."""
    beside = os.path.join(folder, path)
    return (beside if os.path.exists(beside) and not os.path.exists(path)
            else path)


def book_at(path, folder):
    """The text of a book."""
    try:
        text = pack.Text(read(path))
    except Unreadable as error:
        raise Wrong(str(error), "expected the path of a book's text, from "
                    "where you are%s" % (" or from the list's folder"
                                         * bool(folder)))
    if not text.is_text():
        raise Wrong(pack.NO_TEXT % shown(path), "expected a book's text")
    if text.problems:
        number, _, what, expected = text.problems[0]
        raise Wrong("%s, line %d: %s" % (shown(path), number, what),
                    "%s; `quay sheet` tells more of its bad lines" % expected)
    if text.is_empty():
        raise Wrong("%s has no record" % shown(path),
                    "expected the path of a book's text")
    return text


def help_topic(word):
    if word and word not in (*CALLS, *OTHERS):
        raise Wrong("no help for `%s`" % shown(word),
                    "expected help, or help and one of %s"
                    % ", ".join((*CALLS, *OTHERS)))
    return word


# Answers.

class Session:
    """A list of calls so far, and the chains' names."""

    def __init__(self, programs):
        self.ledger = Ledger(programs)
        self.names = {}
        self.refused = 0
        self.unsaved = False
        self.lines = []  # of what changed something, or asked the ledger

    def answer(self, request):
        """The lines that answer a request."""
        before = self.refused
        if request.word in CALLS:
            lines = ["note: " + note for note
                     in as_thousands(without_comment(request.line))]
            lines += self.answer_call(request.word, request.given)
            is_kept = self.refused == before
        else:
            lines = list(OTHER_ANSWERS[request.word](self, request.given))
            is_kept = request.word in ("load", "name")
        if is_kept:
            self.lines.append(request.saved)
        return lines

    def answer_call(self, name, arguments):
        refused, *numbers = self.ledger.call(name, arguments)
        if refused:
            self.refused += 1
            yield from of_call(refused, self.ledger.words, name, arguments)
        else:
            yield from ANSWERS[name](self, arguments, numbers)


# Answers to calls that are accepted.

def told_category(session, arguments, numbers):
    number, = numbers
    yield category_line(session.ledger.book, number)


def told_entry(session, arguments, numbers):
    number, = numbers
    yield entry_line(session.ledger.book, number)


def told_line(session, arguments, numbers):
    """The entry, and how its numbers came about."""
    yield from told_entry(session, arguments, numbers)
    _, _, *cells = arguments
    for place, cell in zip(PLACES, cells):
        yield "    " + conversion(place, cell)
        for note in by_exact_value(cell):
            yield "        " + note


def told_element(session, arguments, numbers):
    number, = numbers
    yield element_line(session.ledger.book, session.names, number)


def told_quote(session, arguments, numbers):
    yield from told_element(session, arguments, numbers)
    _, adjust, *_ = arguments
    if adjust:
        yield ("    its emissions are by the distance and %s m for air (adjust)"
               % grouped(book.AIR_DEFAULT))


def told_strike(session, arguments, numbers):
    yield entry_line(session.ledger.book, arguments[0])


def told_close(session, arguments, numbers):
    category, = arguments
    held = session.ledger.book
    yield category_line(held, category)
    members = [number for number, element in enumerate(held.elements, 1)
               if element.category == category]
    for number in members[:MOST_SHOWN]:
        yield "    " + element_line(held, session.names, number)
    if len(members) > MOST_SHOWN:
        yield "    and %d more: see `show`" % (len(members) - MOST_SHOWN)
    yield handed_out(held, category, "is")


def handed_out(held, category, verb):
    """What the shares of a category add up to: its unstruck entries."""
    entries = book.unstruck(held.entries_of(category))
    sums, posted = ([book.total(records, amount) for amount in book.AMOUNTS]
                    for records in (held.elements_of(category), entries))
    if sums != posted:
        raise Differs("the shares of category %d add up to `%s`, and its "
                      "entries to `%s`" % (category, in_line(sums),
                                           in_line(posted)))
    if not entries:
        return ("    it has no entry that is not struck: every share %s 0"
                % verb)
    return "    all %s handed out: operation %s, provision %s" % (
        verb, *map(emissions, sums))


def told_preview(session, arguments, numbers):
    category, = arguments
    held = previewed(session.ledger.words, numbers)
    yield category_line(held, category)
    for line in holdings(held, category, session.names):
        yield "    " + line
    yield handed_out(held, category, "would be")


def previewed(words, numbers):
    """The book with what each element holds in a preview's pairs."""
    held = book.Book(words)
    held.elements = [
        element._replace(operation=operation, provision=provision)
        for element, operation, provision
        in zip(held.elements, numbers[::2], numbers[1::2])]
    return held


HEADING = ["element", "chain", "what", "category", "", "operation t",
           "provision t", "total t"]
SIDES = [RIGHT, LEFT, LEFT, RIGHT, LEFT] + [POINT] * 3


def holdings(held, category, names):
    """The lines of a table: what each element would hold after the closing of
    a category, or holds where it is of no or another one."""
    rows = [HEADING]
    for number, element in enumerate(held.elements, 1):
        quoted = element.category == book.QUOTED
        amounts = element.operation, element.provision
        rows.append([
            str(number), with_name(names, element.chain),
            "quoted" if quoted else code_words(element.code),
            "none" if quoted else str(element.category),
            "would hold" if element.category == category
            else "waits" if held.is_open(element.category) else "holds",
            *map(tonnes, (*amounts, sum(amounts)))])
    return aligned(rows, SIDES)


def told_fresh(session, arguments, numbers):
    session.names = {}
    yield "a fresh book"


def told_statement(session, arguments, numbers):
    chain, = arguments
    elements, waiting, *sums = numbers
    held = session.ledger.book
    open_ones = sorted({element.category for element in held.elements
                        if element.chain == chain
                        and held.is_open(element.category)})
    yield "chain %s: %s" % (
        with_name(session.names, chain),
        "no element is on it" if elements == 0 else "%s, %s" % (
            counted(elements, "element"), "%d waiting for %s" % (
                waiting, listed(["category %d" % category
                                 for category in open_ones]))
            if waiting else "none waiting"))
    for word, amount in zip(("operation", "provision", "total"), sums):
        yield "    %-9s %s" % (word, emissions(amount))


def told_intensity(session, arguments, numbers):
    category, code = arguments
    hub = session.ledger.book.kind(category) == book.HUB
    unit = ("passenger-km of the lowest class" if code
            in book.PASSENGER_CODES else "tonne" if hub else "tonne-km")
    yield "category %d, %s, per %s:" % (
        category, "passengers" if code in book.PASSENGER_CODES
        else code_words(code), unit)
    for word, amount in zip(book.AMOUNTS, numbers):
        yield "    %-9s %s mg CO2e (%s g)" % (word, grouped(amount),
                                              moved(amount, 3))


ANSWERS = {
    "fresh": told_fresh, "open": told_category, "post": told_entry,
    "line": told_line, "strike": told_strike, "enrol": told_element,
    "quote": told_quote, "preview": told_preview, "close": told_close,
    "statement": told_statement, "intensity": told_intensity,
}


# Answers to what else is asked.

def told_load(session, given):
    path, text = given
    numbers = session.ledger.load(text.data())
    session.names = dict(text.names)
    for note in text.notes:
        yield "note: " + note
    if any(numbers):
        session.refused += 1
        first, *others = refusal(numbers, text, session.ledger)
        yield "stopped at %s, %s" % (path, first)
        yield from others
        yield ("    a load begins a book anew, and this one has the records "
               "before that: " + sizes(session.ledger.book))
    else:
        yield "loaded %s: %s" % (path, sizes(session.ledger.book))


def sizes(held):
    closed = sum(category.closed for category in held.categories)
    return "%s (%d closed), %s and %s" % (
        counted(len(held.categories), "category", "categories"), closed,
        counted(len(held.entries), "entry", "entries"),
        counted(len(held.elements), "element"))


def told_show(session, given):
    return book_lines(session.ledger.book, session.names)


def told_sheet(session, given):
    """The statements of all chains, their sums, and who waits for what."""
    rows = statements(session.ledger)
    yield from table(with_total(rows, session.ledger), session.names)
    yield from remarks(
        session.ledger.book, rows, session.names, plainly_called,
        lambda category: "when all its entries are posted, `close %d`"
        % category)


def told_name(session, given):
    chain, name = given
    session.names[chain] = name
    yield "chain " + with_name(session.names, chain)


def told_save(session, path):
    """Writes the accepted lines as a list; no file is written over."""
    try:
        with open(path, "x", encoding="utf-8") as file:
            file.writelines(line + "\n" for line in session.lines)
        yield ("saved %s: `quay play` plays it again, from this folder"
               % counted(len(session.lines), "line"))
    except FileExistsError:
        session.unsaved = True
        yield ("not saved: %s is there already, and no file is written over; "
               "choose another name" % shown(path))
    except (OSError, ValueError) as error:
        session.unsaved = True
        yield "not saved as %s: %s" % (
            shown(path), getattr(error, "strerror", "no name of a file"))


def told_help(session, word):
    return help_on(word)


OTHER_ANSWERS = {
    "load": told_load, "show": told_show, "sheet": told_sheet,
    "name": told_name, "save": told_save, "help": told_help,
}


# The book's records in words.

def book_lines(held, names):
    if not held.categories and not held.elements:
        yield "the book is empty"
    for number in range(1, len(held.categories) + 1):
        yield category_line(held, number)
    for number in range(1, len(held.entries) + 1):
        yield entry_line(held, number)
    for number in range(1, len(held.elements) + 1):
        yield element_line(held, names, number)


def category_line(held, number):
    return "category %d: %s, %s" % (
        number, kind_words(held.kind(number)),
        "closed" if held.is_closed(number) else "open")


def entry_line(held, number):
    entry = held.entries[number - 1]
    return "entry %d: category %d, benefits %s%s; %s" % (
        number, entry.category, group_words(entry.group),
        ", struck and not counted" if entry.struck else "",
        both_amounts(entry))


def element_line(held, names, number):
    element = held.elements[number - 1]
    quoted = element.category == book.QUOTED
    return "element %d: %s, chain %s, %s; %s" % (
        number, "quoted" if quoted else "category %d" % element.category,
        with_name(names, element.chain), carried(held, element),
        "it waits for category %d to be closed" % element.category
        if held.is_open(element.category) else both_amounts(element))


def both_amounts(record):
    return "operation %s, provision %s" % (emissions(record.operation),
                                           emissions(record.provision))


# Help.

WHAT_FOR = {
    "open": "opens a category: freight, passengers, both or hub",
    "post": "posts an entry of emissions to a category",
    "line": "posts a line from the Wharf Sheet, the old workbook, to a category",
    "strike": "strikes an entry, by its number",
    "enrol": "enrols freight or passengers of a chain in a category",
    "quote": "quotes a leg of another carrier, in no category",
    "preview": "shows what every element would hold after a closing, and "
               "closes nothing",
    "close": "closes a category: its elements get their shares",
    "statement": "shows what a chain is charged with",
    "intensity": "shows the intensity of a closed category, for ambient, "
                 "chilled, frozen or lowest (class)",
    "fresh": "begins an empty book",
    "load": "begins a book from its text",
    "show": "shows every record of the book",
    "sheet": "shows what every chain is charged with, and all together, in "
             "tonnes",
    "name": "names a chain",
    "save": "saves the accepted lines as a list",
    "help": "shows this, or more of one word",
    "quit": "ends",
}


# What else is worth knowing of a word.
MORE = {
    "line": "a cell is blank (`-`), a number, or a span with two points; it "
            "becomes whole thousandths, the nearest to its double, and a span "
            "the mean of its two; a half goes to the even number; the cells "
            "may stand without their words, in this order",
    "strike": "an entry is struck once and stays struck; its number is not "
              "given again",
    "enrol": "the passengers of a category are all weighed, each element with "
             "its `kg`, or none is",
    "quote": "its emissions are in whole µg: intensity × mass × distance / "
             "1000, the nearest, and a half goes to the even number",
    "preview": "the book stays as it is; what is not of the category is shown "
               "with what it holds now",
    "close": "it stays closed, and takes no more entries, elements or strikes",
    "intensity": "it is in whole mg: what benefits all and what benefits the "
                 "group are rounded apart, a half to the even number, and "
                 "then added",
    "load": "the book so far is left, also where the load stops at a record",
    "save": "no file is written over",
}


def help_on(word):
    if not word:
        for other, purpose in WHAT_FOR.items():
            yield "%-9s  %s" % (other, purpose)
        yield "`help post` shows how a post is written, and so on"
        yield ("how a share came about, `quay explain` shows of a book's text, "
               "outside of this")
        return
    yield "%s: %s" % (word, WHAT_FOR[word])
    example = CALLS[word].example if word in CALLS else OTHERS[word]
    yield "    %s" % example
    if word in MORE:
        yield "    " + MORE[word]
    if word in CALLS and CALLS[word].fields:
        yield "    %s" % expected_fields(word, CALLS[word].fields)
        for field in CALLS[word].fields:
            if field.what:
                yield "    %s is %s" % (field.word, field.what)
            if field.word in VALUES:
                yield "    %s is a number or a word: %s" % (
                    field.word, numbered(VALUES[field.word]))


# Lists.

def requests_of(lines, folder=""):
    """The requests of a list's lines, and the problems of those."""
    requests, problems = [], []
    for number, line in enumerate(lines, 1):
        try:
            requests.append(request_of(line, folder))
        except Wrong as wrong:
            problems.append(pack.Problem(number, line, *wrong.args))
    return requests, problems


def transcript(session, lines, requests):
    """Every line of a list, a call behind `> `, with its answer."""
    for line, request in zip(lines, requests):
        if request is None:
            yield printable(line.rstrip())
            continue
        yield "> " + printable(request.line)
        if request.word == "quit":
            return
        yield from session.answer(request)
