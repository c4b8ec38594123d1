"""Demand 3, checked from the printed lines of a list alone.

A list is its records, each the operation and its arguments, and the lines
that were printed for them. The cells of a line are among its arguments, so
that each record has a line. A list begins with fresh. After its last call the
shares are dumped and statements are asked. The tally is fed the arguments of
the records and the refusal numbers of the lines; no book is looked at.
"""

from calculation import player
from calculation.tally import Tally
from calculation.workbook import NoNumber
from checks.exact_shares import check_exact_shares

# The calls that the tally is fed. Previews, statements and intensities change
# nothing.
FED = (player.OPEN, player.POST, player.LINE, player.STRIKE, player.ENROL,
       player.QUOTE, player.CLOSE)

# "chain (1 to 10,000)"
CHAINS = range(1, 10_001)
# "from word 356, elements [...] operation share, provision share"; "Element
# records get a ninth word"
FIRST_SHARES = 362
RECORD_WORDS = 9


class Broken(Exception):
    """Demand 3 does not hold, or the lines do not tell whether it does."""


def demand(holds, *what):
    if not holds:
        raise Broken(" ".join(map(str, what)))


# What the lines tell.

class Told:
    """The tally, and the statements and dumped words since the last call
    that could change the book."""

    def __init__(self):
        self.tally = None
        self.forget()

    def forget(self):
        self.statements = []  # pairs of a chain and the numbers of its line
        self.words = {}       # index -> word

    def read(self, operation, arguments, numbers):
        if operation == player.FRESH:
            # "It starts from the book that an accepted fresh leaves."
            demand(numbers == [0], "fresh gives", numbers)
            self.forget()
            self.tally = Tally()
            return
        demand(self.tally is not None, "the list does not begin with fresh")
        if operation in FED:
            self.feed(player.CALLS[operation], arguments, numbers[0])
        elif operation == player.STATEMENT:
            self.read_statement(arguments[0], numbers)
        elif operation == player.DUMP:
            self.words.update(enumerate(numbers, arguments[0]))
        else:
            # "nobody else writes it meanwhile"
            demand(operation in (player.PREVIEW, player.INTENSITY),
                   "operation", operation, "is none of a list")

    def feed(self, name, arguments, refusal):
        self.forget()
        arguments = player.used_arguments(name, arguments)
        try:
            self.tally.feed(name, arguments, refusal)
        except KeyError as missing:
            raise Broken("%s%r is accepted, the tally has no number %s"
                         % (name, arguments, missing)) from None
        except NoNumber:
            raise Broken("%s%r is accepted, a cell has no number"
                         % (name, arguments)) from None

    def read_statement(self, chain, numbers):
        """What is known of every statement, also between the calls: the list
        up to there is a list too."""
        if chain not in CHAINS:
            return
        demand(len(numbers) == 6 and numbers[0] == 0,
               "the statement of chain", chain, "is not accepted:", numbers)
        own = self.tally.of_chain(chain)
        waiting = [element for element in own.values()
                   if self.tally.waits(element)]
        demand(numbers[1] == len(own), "elements of chain", chain, "are",
               numbers[1], "not", len(own))
        demand(numbers[2] == len(waiting), "waiting of chain", chain, "are",
               numbers[2], "not", len(waiting))
        demand(numbers[5] == numbers[3] + numbers[4], "total of chain",
               chain, "is", numbers[5])
        self.statements.append((chain, numbers))

    def shares(self, number):
        """The two share words of an element's record."""
        place = FIRST_SHARES + RECORD_WORDS * (number - 1)
        demand(place in self.words and place + 1 in self.words,
               "the shares of element", number, "are not dumped")
        return self.words[place], self.words[place + 1]


def read_list(records, lines):
    demand(len(records) == len(lines),
           len(records), "records have", len(lines), "lines")
    told = Told()
    for number, (record, line) in enumerate(zip(records, lines), 1):
        numbers = line.split()
        demand(numbers and all(word.isdecimal() for word in numbers),
               "record", number, "has the line", repr(line[:80]))
        try:
            told.read(record[0], record[1:], [int(word) for word in numbers])
        except Broken as broken:
            raise Broken("record %d: %s" % (number, broken)) from None
    demand(told.tally is not None, "the list does not begin with fresh")
    return told


def lists_among(records, lines, spans):
    """The records and lines of each list among packed records and all their
    lines. A span is how many of both were before the list, and with it."""
    return [(printing(records[first:last]), lines[first_line:last_line])
            for (first, first_line), (last, last_line) in spans]


def printing(records):
    """The packed records that print a line: cells go to their line."""
    found, cells = [], ()
    for record in records:
        operation, *arguments = player.RECORD.unpack(record)
        if operation == player.CELL:
            cells += (player.cell_of(arguments),)
            continue
        found.append((operation,
                      *player.with_cells(operation, arguments, cells)))
        if operation == player.LINE:
            cells = ()
    return found


# The demand.

def check_list(records, lines):
    """Raises Broken where the demand does not hold; what the lines told."""
    told = read_list(records, lines)
    check_statements(told)
    check_sums(told)
    check_shares(told)
    return told


def check_statements(told):
    """A statement's operation and provision add the share words of the
    elements that the chain has by the tally."""
    asked = dict(told.statements)
    for element in told.tally.elements.values():
        demand(element.chain in asked, "chain", element.chain,
               "is not asked for")
    for chain, numbers in told.statements:
        shares = [told.shares(number) for number in told.tally.of_chain(chain)]
        for place, amount in enumerate(("operation", "provision")):
            whole = sum(pair[place] for pair in shares)
            demand(numbers[3 + place] == whole, amount, "of chain", chain,
                   "is", numbers[3 + place], "not", whole)


def check_sums(told):
    """Over the statements of all chains, operation is that of the unstruck
    entries of closed categories and of the quotes; so is provision.

    A chain that is not asked for has no elements by the tally, which
    check_statements saw to: it is taken to add nothing.
    """
    tally = told.tally
    handed_out = [entry for category in tally.closed_categories()
                  for entry in tally.unstruck_entries(category)]
    handed_out += tally.quoted().values()
    for place, amount in enumerate(("operation", "provision")):
        stated = sum(numbers[3 + place]
                     for numbers in dict(told.statements).values())
        whole = sum(getattr(record, amount) for record in handed_out)
        demand(stated == whole, amount, "over the statements is", stated,
               "not", whole)


def check_shares(told):
    """What each element gets."""
    tally = told.tally
    for number, element in tally.quoted().items():
        demand(told.shares(number) == (element.operation, element.provision),
               "the quoted element", number, "has", *told.shares(number))
    for category in tally.categories:
        # As the words of a record: kg per head is the last.
        elements = {number: (*element[:6], *told.shares(number),
                             element.kg_per_head)
                    for number, element in tally.enrolled(category).items()}
        if not tally.categories[category].closed:
            for number, element in elements.items():
                demand(element[6:8] == (0, 0),
                       "element", number, "of an open category has shares")
            continue
        entries = tally.unstruck_entries(category)
        for place in (0, 1):
            # "A is the sum of group 0, B1 and B2 of groups 1 and 2."
            pools = [sum(entry[2 + place] for entry in entries
                         if entry.group == group) for group in (0, 1, 2)]
            check_exact_shares(demand, list(elements.values()), pools,
                               6 + place)
