"""Adds calls of the book to the cases, and keeps count of their answers."""

from calculation import book, closing, player
from calculation.book import CATEGORIES, ELEMENTS, ENTRIES, word
from calculation.calls import PAIR_WORDS
from cases import file_writer
from cases.halves import halves_of
from cases.line_writer import line_records, single

LARGEST = 2 ** 64 - 1
EMISSIONS = 10 ** 18     # the limits of ground 10
ACTIVITY = 10 ** 17
FARTHEST = 40_000_000    # the longest distance

# Numbers that are a small one in their lowest 8, 16 or 32 bits,
# and the largest.
FAR = (2 ** 8, 2 ** 8 + 1, 2 ** 16 + 1, 2 ** 32, 2 ** 32 + 1, 2 ** 63,
       2 ** 63 + 1, LARGEST - 1, LARGEST)

# What a strike of entry 0 gives.
SOUND = 2
UNSOUND = 1

OPERATIONS = {name: operation for operation, name in player.CALLS.items()}

# The sorts of closings; each may have something for a group too.
SORTS = ("freight", "passengers", "weighed passengers", "both",
         "both, weighed", "hub")


def sort_of_closing(words, category):
    """What a closed category has: elements, and groups with a B above 0."""
    sums = closing.Sums(book.Book(words), category)
    if sums.kind == book.HUB:
        sort = "hub"
    elif sums.P == 0:
        sort = "freight"
    else:
        weighed = any(element.kg_per_head > 0
                      for element in sums.elements.values())
        if sums.F > 0:
            sort = "both, weighed" if weighed else "both"
        else:
            sort = "weighed passengers" if weighed else "passengers"
    groups = any(sums.B(group, amount) > 0
                 for group in closing.COLD_GROUPS for amount in book.AMOUNTS)
    return sort + " with groups" if groups else sort


def count(counts, key):
    counts[key] = counts.get(key, 0) + 1


def added(counts, before):
    """What came to the counts since."""
    return {key: number - before.get(key, 0)
            for key, number in counts.items() if number > before.get(key, 0)}


class BookCases:
    """Adds calls and keeps count of what they tested."""

    def __init__(self, cases):
        self.cases = cases
        self.answers = {}   # (call, refusal number) -> how many
        self.pairs = {}     # (call, ground, later ground) -> how many
        self.closings = {}  # sort of accepted closing -> how many
        self.halves = {}    # (where it is rounded, side) -> how many
        self.lists = []     # for each long list: played() before and after
        self.in_lists = {}  # the same as answers, of the long lists alone
        self.loads = {}     # (number, call or none, its place) -> how many
        self.loaded = []    # for each load: played() before and after
        self.new_stop = False  # the last load was the first stop of its sort

    # Calls.

    def call(self, name, *arguments, gives=0, shows=None):
        """Makes a call; `gives` is its refusal number, None for any, and
        `shows` what else its answer is known to be, None for unknown."""
        numbers = self.play_call(name, arguments)
        if gives is not None and numbers[0] != gives:
            raise AssertionError("%s%r gives %d, not %d"
                                 % (name, arguments, numbers[0], gives))
        if shows is not None and numbers[1:] != list(shows):
            raise AssertionError("%s%r shows %r, not %r"
                                 % (name, arguments, numbers[1:], shows))
        count(self.answers, (name, numbers[0]))
        if numbers[0] == 0:
            self.note_halves(name, arguments)
        if name == "close" and numbers[0] == 0:
            count(self.closings, sort_of_closing(self.words, arguments[0]))
        return numbers

    def play_call(self, name, arguments):
        """The numbers that the call prints; the cells of a line are listed
        before it."""
        if name == "line":
            records = line_records(*arguments)
        else:
            records = [(OPERATIONS[name], *arguments)]
        return [self.cases.record(*record) for record in records][-1]

    def fresh(self, gives=0):
        return self.call("fresh", gives=gives)

    def open(self, kind, gives=0):
        return self.call("open", kind, gives=gives)

    def post(self, *arguments, gives=0):
        return self.call("post", *arguments, gives=gives)

    def line(self, *arguments, gives=0):
        return self.call("line", *arguments, gives=gives)

    def strike(self, entry, gives=0):
        return self.call("strike", entry, gives=gives)

    def enrol(self, *arguments, gives=0):
        return self.call("enrol", *arguments, gives=gives)

    def quote(self, *arguments, gives=0):
        return self.call("quote", *arguments, gives=gives)

    def close(self, category, gives=0):
        return self.call("close", category, gives=gives)

    def preview(self, category, pair_length=PAIR_WORDS, gives=0, shows=None):
        """`shows` are the pairs of the elements; after these come zeros, and
        behind the pairs what the words held before."""
        if shows is not None:
            shows = (*shows, *[0] * (PAIR_WORDS - len(shows)),
                     *[player.UNWRITTEN] * (pair_length - PAIR_WORDS))
        return self.call("preview", category, pair_length, gives=gives,
                         shows=shows)

    def preview_shares(self, category, operation, provision):
        """A preview in which a category's elements have these shares, in
        their order, and the others what they hold."""
        shares = zip(operation, provision)
        self.preview(category, shows=[
            share for element in book.Book(self.words).elements
            for share in (next(shares) if element.category == category
                          else (element.operation, element.provision))])

    def statement(self, chain, gives=0, shows=None):
        return self.call("statement", chain, gives=gives, shows=shows)

    def intensity(self, category, code, gives=0, shows=None):
        return self.call("intensity", category, code, gives=gives,
                         shows=shows)

    def intensities(self, category):
        """All four, whatever each gives."""
        for code in closing.INTENSITY_CODES:
            self.intensity(category, code, gives=None)

    def load(self, data, gives=(0, 0, 0)):
        """Loads a file; `gives` are the number, the table and the record,
        None for any."""
        before = self.played()
        numbers = self.cases.load(data)
        if gives is not None and numbers != list(gives):
            raise AssertionError("a load gives %r, not %r: %s"
                                 % (numbers, gives, data[:400].hex()))
        number, table, record = numbers
        stop = (None, None)
        if table > 0:
            stop = file_writer.stop_of(data, table, record)
        self.new_stop = table > 0 and (number, *stop) not in self.loads
        count(self.loads, (number, *stop))
        self.loaded.append((before, self.played()))
        if number == 0:
            for arguments in file_writer.quotes_of(data):
                self.note_halves("quote", arguments)
        return numbers

    def note_halves(self, name, arguments):
        """Counts the halves that an accepted call rounds."""
        for half in halves_of(name, self.words, arguments):
            count(self.halves, half)

    def load_and_show(self, data, gives=(0, 0, 0)):
        """Loads a file and shows the words that matter: all of the book
        after the first stop of its sort, otherwise the counted ones."""
        self.load(data, gives)
        if self.new_stop:
            self.dump(0, book.LENGTH)
        else:
            self.dump_book()

    def new_book(self, *kinds):
        self.fresh()
        for kind in kinds:
            self.open(kind)

    def each_call(self, gives):
        """Each call but fresh, with arguments that a book accepts whose
        category 1 is open and of kind 1 or 3."""
        self.open(3, gives=gives)
        self.post(1, 2, 3, 4, 5, gives=gives)
        self.line(1, 0, *map(single, (0.006, 0.007, 0.008)), gives=gives)
        self.strike(1, gives=gives)
        self.enrol(1, 7, 2, 8, 9, gives=gives)
        self.quote(10_000, 1, 11, 12, 13, 14, gives=gives)
        self.statement(7, gives=gives)
        self.preview(1, gives=gives)
        self.close(1, gives=gives)
        self.statement(7, gives=gives)
        self.intensity(1, 2, gives=gives)

    def played(self):
        """How many records were played and lines printed so far."""
        return self.cases.player.played, len(self.cases.player.lines)

    # The array.

    @property
    def words(self):
        return self.cases.player.state.words

    def poke(self, index, value):
        """Writes a word, where it does not hold that value yet."""
        if self.words[index] != value:
            self.cases.record(player.POKE, index, value)

    def poke_record(self, listing, number, record):
        for index, value in enumerate(record, book.place(listing, number)):
            self.poke(index, value)

    def lend(self, count):
        self.cases.record(player.LEND, count)

    def dump(self, first, count):
        self.cases.record(player.DUMP, first, count)

    def dump_all(self):
        self.dump(0, player.MOST_WORDS)

    def dump_record(self, listing, number):
        self.dump(book.place(listing, number), book.size(listing))

    def dump_book(self):
        """The header and the categories, then the counted entries and
        elements, each with the record after them."""
        self.dump(0, ENTRIES.start)
        for listing in (ENTRIES, ELEMENTS):
            count = min(self.words[listing.count] + 1, listing.most)
            self.dump(listing.start, count * book.size(listing))

    # Soundness.

    def is_sound(self):
        self.strike(0, gives=SOUND)

    def is_unsound(self):
        self.strike(0, gives=UNSOUND)

    def tried(self, changes, gives=None):
        """Writes words, tries the book and writes the old words back.
        `changes` are pairs of an index and a value."""
        old = [(index, self.words[index]) for index, _ in changes]
        for index, value in changes:
            self.poke(index, value)
        self.strike(0, gives=gives)
        for index, value in old:
            self.poke(index, value)

    # A book at some distance from the limits of ground 10.

    def fill_emissions(self, category, operation_left, provision_left):
        """Two posts that leave so much of 10^18."""
        part = 10 ** 9
        old = book.Book(self.words)
        operation = (EMISSIONS - operation_left
                     - book.emissions_of(old, "operation"))
        provision = (EMISSIONS - provision_left
                     - book.emissions_of(old, "provision"))
        self.post(category, 0, part, operation // part, provision // part)
        self.post(category, 0, 1, operation % part, provision % part)

    def post_amounts(self, category, group, operation, provision):
        """One post or two that come to these amounts, up to 10^18."""
        part = 10 ** 9
        if max(operation, provision) >= part:
            self.post(category, group, part, operation // part,
                      provision // part)
            operation, provision = operation % part, provision % part
            if operation == provision == 0:
                return
        self.post(category, group, 1, operation, provision)

    def fill_activity(self, freight, hub, left):
        """Freight, then one element of a hub, that leave so much of 10^17."""
        mass = 10 ** 9
        missing = ACTIVITY - left - book.whole_activity(book.Book(self.words))
        while missing >= mass:
            distance = min(missing // mass, FARTHEST)
            self.enrol(freight, 1, 0, mass, distance)
            missing -= mass * distance
        if missing > 0:
            self.enrol(hub, 1, 0, missing, 0)

    # A closed category.

    def poke_closed(self, category):
        """Writes the closed word alone. No call closes a category without
        elements; with nothing unstruck the book stays sound."""
        self.poke(word(CATEGORIES, category, "closed"), 1)

    def shares_are(self, category, operation, provision):
        """The shares of a category's elements, in their order."""
        elements = book.Book(self.words).elements_of(category)
        found = [[getattr(element, amount) for element in elements]
                 for amount in book.AMOUNTS]
        if found != [list(operation), list(provision)]:
            raise AssertionError("the shares are %r" % found)
