"""The tally: what the calls of a list came to, kept beside the book.

Written from document 01, "Lists and the tally", and from document 02's
weighed passengers, lines and rounding. Sentences in quotation marks are their
own. "The tally is kept beside the book and takes nothing from it. It is fed
each call with its arguments and refusal number."
"""

from collections import namedtuple

from calculation.rounding import nearest
from calculation.workbook import converted

Category = namedtuple("Category", "kind closed")
Entry = namedtuple("Entry", "category group operation provision struck")
Enrolled = namedtuple("Enrolled",
                      "category chain code amount distance activity "
                      "kg_per_head")
Quoted = namedtuple("Quoted", "chain operation provision")

HUB = 4
FREIGHT_CODES = (0, 1, 2)


class Tally:
    """"It starts without categories, entries or elements, and numbers each
    of the three from 1 in order."

    Each is a dictionary by number. An accepted call that names a category or
    an entry that is not there ends in a KeyError, an accepted line with a cell
    that has no number in a NoNumber.
    """

    def __init__(self):
        self.categories = {}
        self.entries = {}
        self.elements = {}

    def feed(self, name, arguments, refusal):
        """"A refused call changes nothing in it"."""
        if refusal == 0:
            getattr(self, name)(*arguments)

    # The accepted calls.

    def open(self, kind):
        """"adds a category of that kind, not closed"."""
        add(self.categories, Category(kind, closed=False))

    def post(self, category, group, quantity, operation_factor,
             provision_factor):
        """"adds an entry: category, group, quantity × operation factor,
        quantity × provision factor, not struck"."""
        add(self.entries, Entry(category, group, quantity * operation_factor,
                                quantity * provision_factor, struck=False))

    def line(self, category, group, *cells):
        """"in the tally an accepted line is this post, of its converted
        cells"."""
        self.post(category, group, *map(converted, cells))

    def strike(self, entry):
        """"marks the entry it names as struck"."""
        self.entries[entry] = self.entries[entry]._replace(struck=True)

    def enrol(self, category, chain, code, amount, distance, kg_per_head=0):
        """"adds an element with its arguments and activity"."""
        # "Activity is amount × distance for freight, amount in a hub, amount
        # × code × distance for passengers."
        if self.categories[category].kind == HUB:
            activity = amount
        elif code in FREIGHT_CODES:
            activity = amount * distance
        else:
            activity = amount * code * distance
        add(self.elements, Enrolled(category, chain, code, amount, distance,
                                    activity, kg_per_head))

    def quote(self, chain, adjust, mass, distance, *intensities):
        """"adds an element with its chain and its two amounts, operation and
        provision, by the formula and rounding under quote"."""
        # "(intensity × mass × D / 1000), nearest"; "D is the distance, or
        # with adjust 1 the distance plus 95,000"; "Halves go to the even
        # number.", and "demand 3 counts each accepted quote by it"
        d = distance + 95_000 if adjust == 1 else distance
        operation, provision = (nearest(intensity * mass * d, 1000)
                                for intensity in intensities)
        add(self.elements, Quoted(chain, operation, provision))

    def close(self, category):
        """"marks the category it names as closed"."""
        self.categories[category] = (
            self.categories[category]._replace(closed=True))

    # What is asked of it after a list.

    def closed_categories(self):
        return [number for number, category in self.categories.items()
                if category.closed]

    def unstruck_entries(self, category):
        return [entry for entry in self.entries.values()
                if entry.category == category and not entry.struck]

    def of_chain(self, chain):
        """The elements of a chain by number."""
        return {number: element for number, element in self.elements.items()
                if element.chain == chain}

    def quoted(self):
        """The quoted elements by number."""
        return {number: element for number, element in self.elements.items()
                if isinstance(element, Quoted)}

    def enrolled(self, category):
        """The elements of a category by number."""
        return {number: element for number, element in self.elements.items()
                if isinstance(element, Enrolled)
                and element.category == category}

    def waits(self, element):
        """Whether an element is in an open category; a quoted one is in
        none."""
        return (isinstance(element, Enrolled)
                and not self.categories[element.category].closed)


def add(records, record):
    records[len(records) + 1] = record
