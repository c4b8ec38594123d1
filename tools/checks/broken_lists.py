"""Lists that break demand 3: conservation_checks.py must catch each.

Most are the lines of a long list with a few numbers changed. A change of a
share is made in the dump and in the statement of its chain, so that it is
caught by what it breaks and not for want of agreement. Others are the lines
of programs that go wrong.
"""

from contextlib import contextmanager

from calculation import calls, player
from calculation.book import AMOUNTS, ELEMENTS, Book, word
from calculation.rounding import nearest
from calculation.workbook import values_of
from cases.line_writer import line_records, single, span
from checks.conservation_checks import CHAINS, FED, Broken, check_list


def broken_by(records, lines):
    """What the lines break, None where the demand holds."""
    try:
        check_list(records, lines)
    except Broken as broken:
        return str(broken)
    return None


class Lines:
    """The lines of a list as numbers, to be changed, and what they told."""

    def __init__(self, records, lines, told):
        self.records = records
        self.numbers = [[int(number) for number in line.split()]
                        for line in lines]
        self.told = told
        self.tally = told.tally
        self.dump = None       # the place of the dump of the elements
        self.statements = {}   # chain -> numbers; one that is asked for twice
                               # has the same list in both places
        for place, (operation, argument, *_) in enumerate(records):
            if operation in FED:
                self.statements = {}
            elif operation == player.DUMP:
                self.dump = place
            elif operation == player.STATEMENT:
                self.numbers[place] = self.statements.setdefault(
                    argument, self.numbers[place])

    def printed(self):
        return [" ".join(map(str, numbers)) for numbers in self.numbers]

    def shares(self, number):
        """Those before any change."""
        return self.told.shares(number)

    def add_shares(self, number, operation, provision):
        """Changes the two shares of an element."""
        for place, more in ((6, operation), (7, provision)):
            self.numbers[self.dump][9 * (number - 1) + place] += more
        statement = self.statements[self.tally.elements[number].chain]
        for place, more in ((3, operation), (4, provision),
                            (5, operation + provision)):
            statement[place] += more

    def pairs_in_closed(self):
        """Two elements of one closed category and of different chains, each
        with its number."""
        for category in self.tally.closed_categories():
            elements = self.tally.enrolled(category).items()
            yield from (((one, first), (other, second))
                        for one, first in elements
                        for other, second in elements
                        if first.chain != second.chain)


# Each changes the lines and gives True, or finds nothing to change.

def share_moved(lines, units, place, fits):
    """From one element of a closed category to one of another chain."""
    for (one, first), (other, second) in lines.pairs_in_closed():
        if lines.shares(one)[place] >= units and fits(first, second):
            more = (units, 0) if place == 0 else (0, units)
            lines.add_shares(one, *(-number for number in more))
            lines.add_shares(other, *more)
            return True
    return False


def operation_moved(lines):
    """The exact share is less than 3 from the right one, so 6 are too many
    whichever way that is rounded."""
    return share_moved(lines, 6, 0, lambda first, second: True)


def provision_moved(lines):
    return share_moved(lines, 6, 1, lambda first, second: True)


def one_unit_moved(lines):
    """Ambient freight where there is freight alone is less than 1 from the
    exact share, so one unit may be moved: the demand leaves this free."""
    def fits(first, second):
        return (first.code == second.code == 0
                and lines.tally.categories[first.category].kind in (1, 4))
    return share_moved(lines, 1, 0, fits)


def one_waits_more(lines):
    for numbers in lines.statements.values():
        if numbers[1] > numbers[2]:
            numbers[2] += 1
            return True
    return False


def one_waits_less(lines):
    for numbers in lines.statements.values():
        if numbers[2] > 0:
            numbers[2] -= 1
            return True
    return False


def neighbours_element(lines, taken):
    """A statement has an element of the chain after it too; when it is
    `taken`, that chain's statement is without it."""
    for number, element in lines.tally.elements.items():
        before = lines.statements.get(element.chain - 1)
        if before and before[0] == 0:
            operation, provision = lines.shares(number)
            more = (0, 1, int(lines.tally.waits(element)), operation,
                    provision, operation + provision)
            after = lines.statements[element.chain]
            for place, part in enumerate(more):
                before[place] += part
                after[place] -= part if taken else 0
            return True
    return False


def neighbours_element_too(lines):
    return neighbours_element(lines, taken=False)


def neighbours_element_taken(lines):
    return neighbours_element(lines, taken=True)


def amounts_of_another_chain(lines):
    """Two statements with as many elements show each other's amounts."""
    shown = list(lines.statements.values())
    for first in shown:
        for second in shown:
            if first[:3] == second[:3] and first[3:] != second[3:]:
                first[3:], second[3:] = second[3:], first[3:]
                return True
    return False


def quote_off_by_one(lines):
    for number in lines.tally.quoted():
        lines.add_shares(number, 0, 1)
        return True
    return False


def two_quotes_off_by_one(lines):
    """The sums hold."""
    quoted = list(lines.tally.quoted())
    for number in quoted[1:]:
        if lines.shares(number)[0] > 0:
            lines.add_shares(quoted[0], 1, 0)
            lines.add_shares(number, -1, 0)
            return True
    return False


def closing_of_zeros(lines):
    for category in lines.tally.closed_categories():
        numbers = list(lines.tally.enrolled(category))
        if any(sum(lines.shares(number)) > 0 for number in numbers):
            for number in numbers:
                lines.add_shares(number, *(-share for share
                                           in lines.shares(number)))
            return True
    return False


def struck_entry_counted(lines):
    """Its amounts are handed out too, to an element of its category."""
    for entry in lines.tally.entries.values():
        if (entry.struck and lines.tally.categories[entry.category].closed
                and entry.operation + entry.provision > 0):
            number = min(lines.tally.enrolled(entry.category))
            lines.add_shares(number, entry.operation, entry.provision)
            return True
    return False


def share_in_open(lines):
    """An element that waits has a unit of one that does not; the sums hold.
    """
    waiting = [number for number, element in lines.tally.elements.items()
               if lines.tally.waits(element)]
    for category in lines.tally.closed_categories():
        for number, element in lines.tally.enrolled(category).items():
            if element.code == 0 and lines.shares(number)[1] > 0 and waiting:
                lines.add_shares(number, 0, -1)
                lines.add_shares(waiting[0], 0, 1)
                return True
    return False


def statement_refused(lines):
    for chain, numbers in lines.statements.items():
        if chain in CHAINS:
            numbers[:] = [3, 0, 0, 0, 0, 0]
            return True
    return False


def total_off_by_one(lines):
    for numbers in lines.statements.values():
        if numbers[1] > 0:
            numbers[5] += 1
            return True
    return False


def quote_called_refused(lines):
    """The book has it, the tally does not."""
    for place, record in enumerate(lines.records):
        if record[0] == player.QUOTE and lines.numbers[place][0] == 0:
            lines.numbers[place] = [8, 0]
            return True
    return False


# What changes the lines and what it breaks, None where that is nothing.
CHANGES = (
    (operation_moved, "less than 3 from the exact share"),
    (provision_moved, "less than 3 from the exact share"),
    (one_unit_moved, None),
    (one_waits_more, "waiting of chain"),
    (one_waits_less, "waiting of chain"),
    (neighbours_element_too, "elements of chain"),
    (neighbours_element_taken, "elements of chain"),
    (amounts_of_another_chain, "of chain"),
    (quote_off_by_one, "provision over the statements"),
    (two_quotes_off_by_one, "the quoted element"),
    (closing_of_zeros, "over the statements"),
    (struck_entry_counted, "over the statements"),
    (share_in_open, "of an open category has shares"),
    (statement_refused, "is not accepted"),
    (total_off_by_one, "total of chain"),
    (quote_called_refused, "elements of chain"),
)


def changed_lines(check, lists):
    for change, what in CHANGES:
        found = 0
        for records, lines, told in lists:
            changed = Lines(records, lines, told)
            if change(changed):
                found += 1
                broken = broken_by(records, changed.printed())
                check(broken == what or what is not None
                      and broken is not None and what in broken,
                      change.__name__, "breaks", broken)
        check(found > 0, "found", change.__name__)


# Programs that go wrong. Each acts instead of the right call.

def close_to_the_first(words, category):
    """All of a category to its first element."""
    calls.close(words, category)
    numbers = [number for number, element
               in enumerate(Book(words).elements, 1)
               if element.category == category]
    for amount in AMOUNTS:
        places = [word(ELEMENTS, number, amount) for number in numbers]
        words[places[0]] = sum(words[place] for place in places)
        for place in places[1:]:
            words[place] = 0
    return []


def close_once(words, category):
    """The first closing is right, later ones write zeros."""
    first = all(record.closed == 0 for record in Book(words).categories)
    calls.close(words, category)
    if not first:
        for number, element in enumerate(Book(words).elements, 1):
            if element.category == category:
                for amount in AMOUNTS:
                    words[word(ELEMENTS, number, amount)] = 0
    return []


def with_other_words(words, category, index_of, value_of):
    """Closes while a word of each weighed passenger element of the category
    holds something else."""
    old = {}
    for number, element in enumerate(Book(words).elements, 1):
        if element.category == category and element.kg_per_head > 0:
            index = word(ELEMENTS, number, index_of)
            old[index] = words[index]
            words[index] = value_of(element)
    calls.close(words, category)
    for index, value in old.items():
        words[index] = value
    return []


def close_by_standard_mass(words, category):
    """P by 100 kg per head, although it is weighed."""
    return with_other_words(words, category, "kg_per_head",
                            lambda element: 0)


def close_by_mass_among_passengers(words, category):
    """The passenger part by stated mass, and not by class."""
    return with_other_words(
        words, category, "activity", lambda element:
        element.amount * element.kg_per_head * element.distance)


def enrol_unweighed(words, category, chain, code, amount, distance,
                    kg_per_head):
    """The stated mass is not kept."""
    return calls.enrol(words, category, chain, code, amount, distance)


def line_rounded_down(words, category, group, *cells):
    """Each double without what is left of a thousandth."""
    return calls.post(words, category, group, *[
        sum(int(1000 * value) for value in values_of(cell)) // len(cell)
        for cell in cells])


def line_by_exact_mean(words, category, group, *cells):
    """A span by the mean of its ends as they are."""
    means = [sum(values_of(cell)) / len(cell) for cell in cells]
    return calls.post(words, category, group, *[
        nearest(1000 * mean.numerator, mean.denominator) for mean in means])


def line_by_first_end(words, category, group, *cells):
    return calls.line(words, category, group, *[cell[:1] for cell in cells])


def line_with_factors_exchanged(words, category, group, quantity, operation,
                                provision):
    return calls.line(words, category, group, quantity, provision, operation)


def line_to_all(words, category, group, *cells):
    """The group is not kept."""
    return calls.line(words, category, 0, *cells)


def line_of_nothing(words, category, group, *cells):
    """A record is made, and its amounts are 0."""
    return calls.post(words, category, group, 0, 0, 0)


def strike_nothing(words, entry):
    return []


def quote_one_amount(words, chain, adjust, mass, distance, *intensities):
    return calls.quote(words, chain, 0, 1, 1, 1000, 1000)


def statement_of_none_waiting(words, chain):
    numbers = calls.statement(words, chain)
    numbers[1] = 0
    return numbers


def close_nothing(words, category):
    """Accepted, and nothing is written."""
    return []


WRONG = {
    "close": (close_to_the_first, close_once, close_nothing),
    "strike": (strike_nothing,),
    "line": (line_rounded_down, line_of_nothing),
    "quote": (quote_one_amount,),
    "statement": (statement_of_none_waiting,),
}

# Those that need weighed passengers.
WRONG_WHERE_WEIGHED = (
    ("close", close_by_standard_mass),
    ("close", close_by_mass_among_passengers),
    ("enrol", enrol_unweighed),
)

# A 900, F 100, one head of 50 kg each of codes 100 and 400 over 1 m: 450, 90,
# 360. By 100 kg per head it would be 300, 120, 480.
WEIGHED = (
    (player.FRESH,), (player.OPEN, 3), (player.POST, 1, 0, 1, 900, 0),
    (player.ENROL, 1, 1, 0, 100, 1, 0), (player.ENROL, 1, 2, 100, 1, 1, 50),
    (player.ENROL, 1, 3, 400, 1, 1, 50), (player.CLOSE, 1),
    (player.DUMP, 356, 2304), (player.STATEMENT, 1), (player.STATEMENT, 2),
    (player.STATEMENT, 3))


# Those that need certain cells.
WRONG_LINES = (line_rounded_down, line_by_exact_mean, line_by_first_end,
               line_with_factors_exchanged, line_to_all, line_of_nothing)

# 1000 thousandths of 188 and of 2, the mean of 1 and 2; chilled, so that all
# of it goes to the second element: 188,000 and 2000. 187.5 rounded down is
# 187, the mean of 0.6 and 1.6 is 1.1.
LINES = (
    (player.FRESH,), (player.OPEN, 1),
    (player.LINE, 1, 1, single(1.0), single(0.1875), span(0.0006, 0.0016)),
    (player.ENROL, 1, 1, 0, 100, 1, 0), (player.ENROL, 1, 2, 1, 300, 1, 0),
    (player.CLOSE, 1), (player.DUMP, 356, 2304), (player.STATEMENT, 1),
    (player.STATEMENT, 2))


def packed(record):
    """The bytes of a record; the cells of a line come before it."""
    own = (line_records(*record[1:]) if record[0] == player.LINE
           else [record])
    return b"".join(player.RECORD.pack(*words, *[0] * (8 - len(words)))
                    for words in own)


@contextmanager
def wrong_call(name, **parts):
    """While it lasts, a call has other parts: `grounds`, `act` or
    `answers`."""
    right = calls.CALLS[name]
    calls.CALLS[name] = right._replace(**parts)
    try:
        yield
    finally:
        calls.CALLS[name] = right


def played_wrongly(records, name, act):
    """The lines of a program that does this for the call."""
    with wrong_call(name, act=act):
        data = b"".join(map(packed, records))
        return player.play(data).decode("ascii").splitlines()


def wrong_programs(check, records):
    for name, acts in WRONG.items():
        for act in acts:
            lines = played_wrongly(records, name, act)
            check(broken_by(records, lines) is not None, act.__name__)
    lines = played_wrongly(records, "close", calls.close)
    check(broken_by(records, lines) is None, "the right program")


def wrong_where_weighed(check, lists):
    """By the short list, and closings by one of the long ones, whose measures
    are large enough."""
    lines = played_wrongly(WEIGHED, "close", calls.close)
    check(broken_by(WEIGHED, lines) is None, "the right program")
    check([line.split()[3] for line in lines[-3:]] == ["450", "90", "360"],
          "weighed", lines[-3:])
    for name, act in WRONG_WHERE_WEIGHED:
        # Where enrol is wrong, other calls of a long list are accepted.
        shown_by = [WEIGHED] if name == "enrol" else [WEIGHED, lists[-1][0]]
        for records in shown_by:
            broken = broken_by(records, played_wrongly(records, name, act))
            check(broken is not None and "from the exact share" in broken,
                  act.__name__, "breaks", broken)


def wrong_lines(check):
    lines = played_wrongly(LINES, "line", calls.line)
    check(broken_by(LINES, lines) is None, "the right program")
    check(lines[-2:] == ["0 1 0 0 0 0", "0 1 0 188000 2000 190000"], "lines",
          lines[-2:])
    for act in WRONG_LINES:
        lines = played_wrongly(LINES, "line", act)
        check(broken_by(LINES, lines) is not None, act.__name__)
    # Accepted, although a cell has no number.
    for cell in ((), (0x7FF << 52,)):
        record = *LINES[2][:5], cell
        broken = broken_by((*LINES[:2], record), ["0", "0 1", "0 1"])
        check(broken is not None and "a cell has no number" in broken,
              "a cell without a number", broken)


def run(check, lists):
    """A list is its records, its lines and what they told."""
    changed_lines(check, lists)
    wrong_programs(check, lists[0][0])
    wrong_where_weighed(check, lists)
    wrong_lines(check)
