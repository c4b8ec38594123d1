"""Books in the proved programs: lists of calls are played by `replay`, whole
for each answer, and its dump shows the words that they leave. Each answer and
each word is compared with the separate calculation's.
"""

from collections import namedtuple

from calculation import calls, loading, player
from calculation.book import AMOUNTS, LENGTH, LISTINGS, Book, size
from cases.file_writer import load_records
from cases.line_writer import line_records
from command.cells import cell_text
from command.fields import shown
from command.programs import Differs

OPERATIONS = {name: operation for operation, name in player.CALLS.items()}


def call_record(operation, arguments=()):
    """The record of an operation."""
    numbers = (operation, *arguments)
    return player.RECORD.pack(*numbers, *[0] * (8 - len(numbers)))


EXAMINED = call_record(player.DUMP, (0, LENGTH))

# Something that answers one line: what it is called, its records, and what
# reckons its answer and the words that it leaves.
Item = namedtuple("Item", "told records reckon")


def call_item(name, arguments):
    """A call. The cells of a line come in the records before it."""
    if name == "preview":
        return preview_item(*arguments)
    records, told = [(OPERATIONS[name], *arguments)], arguments
    if name == "line":
        category, group, *cells = arguments
        records = line_records(*arguments)
        told = (category, group, *map(cell_text, cells))
    return Item("%s %s" % (name, in_line(told)),
                b"".join(call_record(*words[:1], words[1:])
                         for words in records),
                lambda words: calls.make(name, words, *arguments))


def preview_item(category):
    """A preview, with room for its pairs and no more. All of the room is
    shown, also where it is refused."""
    arguments = category, calls.PAIR_WORDS
    return Item("preview %d" % category,
                call_record(player.PREVIEW, arguments),
                lambda words: player.with_unwritten(
                    calls.make("preview", words, *arguments),
                    calls.PAIR_WORDS))


def lines_of(output):
    """The lines that a program printed."""
    return output.decode("ascii", "replace").splitlines()


def numbers_in(line):
    """The numbers of a printed line."""
    try:
        return list(map(int, line.split()))
    except ValueError:
        raise Differs("a program prints `%s`, where numbers were expected"
                      % shown(line))


def in_line(numbers):
    return " ".join(map(str, numbers))


class Ledger:
    """A list of calls from a fresh book: what `replay` answers, and the words
    that it leaves."""

    def __init__(self, programs):
        self.programs = programs
        self.records = b""
        self.answers = []
        self.words = [0] * LENGTH
        self.call("fresh", ())

    def played(self, further):
        """The lines of further calls, each given by its records, and of the
        dump behind them. The list is played from its start, and its
        earlier answers have to come again."""
        lines = lines_of(self.programs.replay(
            self.records + b"".join(further) + EXAMINED))
        kept = len(self.answers)
        if (lines[:kept] != self.answers
                or len(lines) != kept + len(further) + 1):
            raise Differs("replay answers the same calls in another way, with "
                          "`%s`" % shown(lines[-1] if lines else ""))
        return lines[kept:]

    def call(self, name, arguments):
        """The numbers that a call answers; it is kept in the list."""
        numbers, = self.kept([call_item(name, arguments)])
        return numbers

    def calls(self, name, arguments_of_each):
        """The numbers that each of several calls answers, and the book behind
        it; all are kept in the list, and played once."""
        return self.kept([call_item(name, arguments)
                          for arguments in arguments_of_each])

    def load(self, data):
        """The numbers that loading a file answers; it is kept in the list."""
        numbers, = self.kept([Item("load", b"".join(load_records(data)),
                                   lambda words: loading.load(words, data))])
        return numbers

    def kept(self, items):
        """The numbers that each item answers, which are kept in the list; what
        is reckoned of it answers the same and leaves the same words."""
        played = self.played([records for item in items
                              for records in (item.records, EXAMINED)][:-1])
        for item, answer, dump in zip(items, played[::2], played[1::2]):
            numbers, words = numbers_in(answer), numbers_in(dump)
            reckoned_words = list(self.words)
            compare_answer(item.told, numbers, item.reckon(reckoned_words))
            compare_words(item.told, words, reckoned_words)
            self.records += item.records
            self.answers.append(answer)
            self.words = words
            self.book = Book(words)
            yield numbers

    def statements(self, chains):
        """The statements of chains, none of them kept in the list."""
        *answers, _ = self.played([
            call_record(player.STATEMENT, (chain,)) for chain in chains])
        statements = list(map(numbers_in, answers))
        for chain, numbers in zip(chains, statements):
            compare_answer("statement %d" % chain, numbers,
                           calls.make("statement", self.words, chain))
        return [numbers[1:] for numbers in statements]


def loaded(programs, data):
    """The book that loading a file leaves, and the numbers of its answer."""
    ledger = Ledger(programs)
    return ledger, ledger.load(data)


def divided(programs, pool, weights):
    """The shares that `replay` divides a pool into by the dividing rule."""
    records = [call_record(player.APPEND_WEIGHT, (weight,))
               for weight in weights]
    records.append(call_record(player.DIVIDE, (pool, len(weights))))
    refusal, *shares = numbers_in(" ".join(lines_of(
        programs.replay(b"".join(records)))) or "1")
    if refusal or len(shares) != len(weights):
        raise Differs("replay divides %d by %r with the refusal number %d "
                      "into %d shares" % (pool, weights, refusal, len(shares)))
    return shares


# Comparisons.

def compare_answer(told, numbers, reckoned):
    """The pairs of a preview are compared word by word."""
    if (numbers[:1] == reckoned[:1]
            and len(numbers) == len(reckoned) == 1 + calls.PAIR_WORDS):
        compare_each(told, numbers[1:], reckoned[1:], called_in_pairs)
    elif numbers != list(reckoned):
        raise Differs("replay answers `%s` to `%s`, and `%s` is reckoned here"
                      % (shown(in_line(numbers)), told.strip(),
                         shown(in_line(reckoned))))


def compare_words(told, words, reckoned):
    if len(words) != len(reckoned):
        raise Differs("replay shows %d words of a book" % len(words))
    compare_each(told, words, reckoned, called_in_book)


def compare_each(told, words, reckoned, called):
    for place, (word, expected) in enumerate(zip(words, reckoned)):
        if word != expected:
            raise Differs("after `%s` replay shows %d in %s, and %d is "
                          "reckoned here" % (told.strip(), word, called(place),
                                             expected))


# What a word is called, by its place.

def called_in_pairs(place):
    pair, amount = divmod(place, len(AMOUNTS))
    return "pair %d, %s" % (pair + 1, AMOUNTS[amount])


def called_in_book(place):
    for listing in reversed(LISTINGS):
        if place >= listing.start:
            record, field = divmod(place - listing.start, size(listing))
            return "the book's %s %d, %s" % (
                listing.form.__name__.lower(), record + 1,
                listing.form._fields[field].replace("_", " "))
    return "the book's word %d" % place
