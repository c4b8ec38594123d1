"""`quay lines`: the rows of a workbook, each posted as a line from the Wharf
Sheet to a category of a book."""

from collections import namedtuple

from calculation.workbook import converted
from command import playing
from command.amounts import POINT, RIGHT, aligned, counted, grouped, tonnes
from command.calls import CALLS, OTHERS
from command.cells import PLACES, by_exact_value
from command.fields import given_numbers, record_numbers
from command.ledger import loaded
from command.naming import group_word, plainly_called
from command.refusals import Speech, in_text, reasons
from command.sheets import RefusedFile, refusal
from command.texts import without_comment
from pack import RECORDS

# The words that begin a line of a book's text or of a list of calls alone.
OF_LISTS = {*CALLS, *OTHERS} - {*RECORDS, "name"}
OF_TEXTS = {*RECORDS} - {*CALLS, *OTHERS}

# Where the rows are posted: the category and the group of a line.
FIELDS = CALLS["line"].fields[:2]

# A book: its ledger, how one speaks of its records, how many calls of its
# list were refused, and the word that posts an entry in what it was made by.
Book = namedtuple("Book", "ledger speech refused word")

# A row that was played: its row, the refusal number, and the number of its
# entry with the entry, or the reasons of its refusal.
Played = namedtuple("Played", "row refused number entry reasons")


def place_of(words):
    """The category and the group that words of the command state."""
    return record_numbers("lines", FIELDS, given_numbers(
        "lines", FIELDS, words, tuple(field.word for field in FIELDS)))


# The book.

def is_list(lines):
    """Whether lines are a list of calls, and not a book's text: the first
    word that begins a line of one of them alone decides."""
    for line in lines:
        word = (without_comment(line).lower().split() or [""])[0]
        if word.startswith(">") or word in OF_LISTS:
            return True
        if word in OF_TEXTS:
            return False
    return False


def book_of_text(programs, text, source):
    ledger, numbers = loaded(programs, text.data())
    if any(numbers):
        first, *others = refusal(numbers, text, ledger)
        raise RefusedFile([source + first, *others])
    return Book(ledger, in_text(text), 0, "entry")


def book_of_list(programs, requests):
    """The book that a list leaves. What only shows or saves is passed over.
    """
    session = playing.Session(programs)
    for request in filter(None, requests):
        if request.word == "quit":
            break
        if request.word in CALLS or request.word == "load":
            session.answer(request)
    return Book(session.ledger, Speech(
        plainly_called, "struck, and posted again with `group all`",
        lambda category: "leave its closing out of the list, or out of the "
        "book that it loads"), session.refused, "post")


# The rows.

def played(book, category, group, rows):
    """Each row with its answer."""
    ledger = book.ledger
    all_arguments = [(category, group, *row.cells) for row in rows]
    for row, arguments, (refused, number) in zip(
            rows, all_arguments, ledger.calls("line", all_arguments)):
        if refused:
            yield Played(row, refused, 0, None, reasons(
                refused, ledger.words, "line", arguments, book.speech))
        else:
            yield Played(row, 0, number, ledger.book.entries[number - 1], [])


HEADING = ["line", "entry", "quantity", "operation mg", "provision mg",
           "operation t", "provision t"]
SIDES = [RIGHT] * 5 + [POINT] * 2


def table(answers):
    """The lines of the table: a row by the number of its line, with its entry
    and what its cells become, or with its refusal in words."""
    width = len(str(answers[-1].row.number).rjust(len(HEADING[0])))
    accepted = [answer for answer in answers if not answer.refused]
    heading, *lines = aligned([HEADING] + [
        [str(answer.row.number).rjust(width), str(answer.number),
         *[grouped(converted(cell)) for cell in answer.row.cells],
         tonnes(answer.entry.operation), tonnes(answer.entry.provision)]
        for answer in accepted], SIDES)
    if accepted:
        yield heading
    told = {}  # the first line of each refusal
    for answer in answers:
        if not answer.refused:
            yield lines.pop(0)
            continue
        number = str(answer.row.number).rjust(width)
        first, *others = answer.reasons
        same = told.setdefault((answer.refused, *answer.reasons), number)
        if same != number:
            yield "%s  refused %d, as line %s" % (number, answer.refused,
                                                  same.strip())
            continue
        yield "%s  refused %d: %s" % (number, answer.refused, first.what)
        for look in [first.look] + ["%s: %s" % reason for reason in others]:
            yield " " * (width + 6) + look


def remarks(answers):
    """What is told below the table."""
    for answer in answers:
        if answer.refused:
            continue
        for place, cell in zip(PLACES, answer.row.cells):
            for note in by_exact_value(cell):
                yield "line %d, %s: %s" % (answer.row.number, place.name, note)
    numbers = [answer.number for answer in answers if not answer.refused]
    refused = len(answers) - len(numbers)
    yield "%s: %s, %s" % (
        counted(len(answers), "row"),
        "none posted" if not numbers else
        "1 posted as entry %d" % numbers[0] if len(numbers) == 1 else
        "%d posted as entries %d %s %d" % (
            len(numbers), numbers[0], "and" if len(numbers) == 2 else "to",
            numbers[-1]),
        "%d refused" % refused if refused else "none refused")


def in_lines(answers, word, category, group, source):
    """The rows as lines of a book's text or of a list of calls."""
    for answer in answers:
        place = "%s, line %d" % (source, answer.row.number)
        if answer.refused:
            yield "# %s: refused %d: %s" % (place, answer.refused,
                                            answer.reasons[0].what)
            continue
        yield "%s category %d group %s %s    # %s" % (
            word, category, group_word(group), " ".join(
                "%s %s" % (cell_place.word, grouped(converted(cell)))
                for cell_place, cell in zip(PLACES, answer.row.cells)), place)
