"""How the shares of a chain come about, as one would write it on a board.

Records, activities, amounts and shares are those of the book that `replay`
shows. What is reckoned here to explain them is compared with them: the sums
that are divided and divided by, each division, each share and their sums. A
difference is told by the exception Differs.
"""

from fractions import Fraction

from calculation.book import (
    AIR_DEFAULT, AMOUNTS, FREIGHT_CODES, GROUPS, HUB, PASSENGER_CODES, QUOTED,
    is_weighed, total)
from calculation.closing import COLD_GROUPS, Sums
from calculation.dividing import portions_of
from calculation.rounding import nearest
from calculation.sheet import used_chains
from command.amounts import (
    LEFT, RIGHT, aligned, counted, emissions, grouped, tonnes)
from command.fields import listed
from command.ledger import divided
from command.naming import amount_words, carried, group_word, with_name
from command.programs import Differs

LEAST_TOO_FAR = 3  # µg from the exact share
KG_PER_HEAD = 100  # where passengers are not weighed

WIDTH = 102       # signs of a line, where its numbers allow it
MOST_CHAINS = 12  # that are named where a chain is not there
MOST_NAMED = 4    # elements or entries that are named in one line
MOST_REMAINDERS = 8  # that are shown of a division
MOST_WEIGHED = 12    # elements that are shown of P

POOLS = ("A", "B1", "B2")  # by the group of entries
# Where no entry is of a group.
NO_ENTRY = ("no entry benefits all", "no entry of the chilled group",
            "no entry of the frozen group")

# What a letter stands for; it is said where the letter first appears. P has a
# meaning for each sort of passengers.
LETTERS = {
    "A": "A, the entries that benefit all,",
    "B1": "B1, the entries of the chilled group,",
    "B2": "B2, the entries of the frozen group,",
    "F": "F, the activity of all its freight,",
    "P": "P, its passengers as %d kg each × distance," % KG_PER_HEAD,
    "weighed P": "P, its passengers as what they weigh × distance,",
    "C": "C, the activity of all its passengers,",
}


class NoChain(Exception):
    """No element is on the chain; which chains there are."""


# Numbers and lines.

def mixed(number):
    """A fraction as `3 1/3`, reduced."""
    whole, part = divmod(number.numerator, number.denominator)
    if part == 0:
        return grouped(whole)
    rest = "%s/%s" % (grouped(part), grouped(number.denominator))
    return "%s %s" % (grouped(whole), rest) if whole else rest


def largest(rank):
    """`largest`, `2nd largest` and so on."""
    if rank == 1:
        return "largest"
    last = 0 if rank % 100 in (11, 12, 13) else rank % 10
    return "%d%s largest" % (rank, {1: "st", 2: "nd", 3: "rd"}.get(last, "th"))


def few(one, more, numbers):
    """Numbered records, a few of them named."""
    names = list(map(str, numbers[:MOST_NAMED]))
    if len(numbers) > MOST_NAMED:
        names.append("%d more" % (len(numbers) - MOST_NAMED))
    return "%s %s" % (one if len(numbers) == 1 else more, listed(names))


def fitted(depth, *pieces):
    """The pieces on one line, or on more where it gets too long."""
    lines = []
    for piece in filter(None, pieces):
        if lines and len(lines[-1]) + 1 + len(piece) <= WIDTH:
            lines[-1] += " " + piece
        else:
            lines.append("  " * (depth + bool(lines)) + piece)
    return lines


# Comparisons with the programs.

def compare(reckoned, told, what):
    if reckoned != told:
        raise Differs("%s: the program says %s, reckoned here it is %s"
                      % (what, grouped(told), grouped(reckoned)))


def compare_sums(book, category, sums):
    """What is divided is what the shares of the category add up to, and what
    it is divided by is the activity of its elements. An activity has the
    class of the passengers where P has their kg, stated or standard."""
    elements = book.elements_of(category)
    for side in AMOUNTS:
        compare(sum(sums.pool(group, side) for group in GROUPS),
                total(elements, side),
                "category %d, its %s entries" % (category, side))
    freight, passengers = (
        [element for element in elements if element.code in codes]
        for codes in (FREIGHT_CODES, PASSENGER_CODES))
    for letter, reckoned, told in (
            ("F", sums.F, total(freight, "activity")),
            ("C", sums.C, total(passengers, "activity")),
            ("P", sums.P, sum(kg_of_head(element) * element.activity
                              // element.code for element in passengers))):
        compare(reckoned, told, "category %d, %s" % (category, letter))


def kg_of_head(element):
    """What each passenger of an element counts against the freight."""
    return element.kg_per_head or KG_PER_HEAD


# The board.

class Board:
    """The text, the ledger and its book, the sums of each category, and what
    has been said on the board."""

    def __init__(self, text, ledger):
        self.text = text
        self.ledger = ledger
        self.book = ledger.book
        self.sums = {category: Sums(self.book, category)
                     for category in self.book.kinds
                     if self.book.is_closed(category)}
        for category, sums in self.sums.items():
            compare_sums(self.book, category, sums)
        self.said = set()
        self.meant = {}
        self.known = {}

    def portions(self, pool, weights):
        """What the dividing rule gives each weight; floors and units add up
        to what the program divides the pool into."""
        key = pool, *weights
        if key not in self.known:
            found = portions_of(pool, weights)
            told = divided(self.ledger.programs, pool, weights)
            for place, (portion, share) in enumerate(zip(found, told), 1):
                compare(portion.floor + portion.unit, share,
                        "share %d of %d" % (place, pool))
            self.known[key] = found
        return self.known[key]

    def is_new(self, *what):
        """Whether this has not been said; from now on it has."""
        new = what not in self.said
        self.said.add(what)
        return new

    def letter(self, letter, meaning=None):
        """The letter, with what it stands for where that is new: the first
        time, or where it meant something else before."""
        meaning = meaning or letter
        known = self.meant.get(letter) == meaning
        self.meant[letter] = meaning
        return letter if known else LETTERS[meaning]

    def element(self, number):
        return self.book.elements[number - 1]

    def category_sums(self, number):
        """The sums of an element's category."""
        return self.sums[self.element(number).category]


# Pools.

def pool_lines(board, category, group, side):
    """The lines of a pool; they are short where it has been worked out
    before or is 0."""
    name, pool = POOLS[group], board.sums[category].pool(group, side)
    members = [number for number, entry in enumerate(board.book.entries, 1)
               if (entry.category, entry.group) == (category, group)]
    if not members:
        return ["    %s: nothing to divide" % NO_ENTRY[group]]
    if pool == 0:
        return fitted(2, board.letter(name), "is 0 (%s):" % few(
            "entry", "entries", members), "nothing to divide")
    if not board.is_new("pool", name, category, side):
        return ["    %s is %s, as above" % (name, grouped(pool))]
    products = [entry_product(board, number, side) for number in members]
    unit = (["    (an entry: quantity in thousandths of a unit × factor in mg "
             "per unit = µg)"] if board.is_new("entry") else [])
    if len(members) == 1:
        return fitted(2, board.letter(name), "is " + products[0]) + unit
    return (["    %s is the sum of" % board.letter(name)]
            + ["      " + product for product in products]
            + ["      = " + grouped(pool)] + unit)


def entry_product(board, number, side):
    """An entry's quantity and factor; the product is the book's amount."""
    _, _, quantity, *factors = board.text.tables[1][number - 1]
    return "%s: %s × %s = %s" % (
        board.text.called("entry", number), grouped(quantity),
        grouped(factors[AMOUNTS.index(side)]),
        grouped(getattr(board.book.entries[number - 1], side)))


# Divisions.

def quotient_lines(board, depth, formula, pool, weight, total, portion):
    """A pool times a weight by the sum of the weights: a mixed number, and
    where it does not divide, floor and remainder. The first time the fraction
    is the remainder's in lowest terms, that is said."""
    exact = "= " + mixed(Fraction(pool * weight, total))
    ending = lowest = ""
    if portion.remainder > 0:
        exact += ":"
        ending = "floor %s, remainder %s" % (grouped(portion.floor),
                                             grouped(portion.remainder))
        part = Fraction(portion.remainder, total)
        if part.denominator < total and board.is_new("lowest terms"):
            lowest = "(%s / %s is %s in lowest terms)" % (
                grouped(portion.remainder), grouped(total), mixed(part))
    return fitted(depth, formula, "= %s × %s / %s" % (
        grouped(pool), grouped(weight), grouped(total)), exact, ending, lowest)


def parting_lines(board, sums, side, freight, passengers):
    """How A is divided by F and P: the portions of both."""
    pool, total = sums.A(side), sums.F + sums.P
    if freight.remainder == 0:
        ending = "both divide: nothing is left over"
    elif freight.remainder == passengers.remainder:
        ending = ("1 µg is left over; the remainders are equal, so it goes to "
                  "the freight, which comes first")
    else:
        ending = ("1 µg is left over; it goes to the %s, whose remainder is "
                  "larger" % ("freight" if freight.unit else "passengers"))
    return (["    A goes to freight and passengers by the weights F and P:"]
            + quotient_lines(board, 3, "freight: A × F / (F + P)", pool,
                             sums.F, total, freight)
            + quotient_lines(board, 3, "passengers: A × P / (F + P)", pool,
                             sums.P, total, passengers)
            + ["      " + ending]
            + ["      freight part %s, passenger part %s"
               % (grouped(freight.floor + freight.unit),
                  grouped(passengers.floor + passengers.unit))])


def unit_lines(portions, number):
    """Whether an element with a remainder gets a µg left over, and why."""
    own = portions[number]
    order = sorted(portions,
                   key=lambda other: (-portions[other].remainder, other))
    rank = 1 + order.index(number)
    left_over = sum(portion.unit for portion in portions.values())
    floors = sum(portion.floor for portion in portions.values())
    lines = fitted(
        2, "the floors of all %d add up to %s:" % (len(portions),
                                                   grouped(floors)),
        "1 µg is left over," if left_over == 1 else
        "%d µg are left over," % left_over,
        "for the largest remainder:" if left_over == 1 else
        "one each for the largest remainders:",
        *remainders_shown(portions, order, number))
    lines += fitted(2, "its own is the %s of %d:" % (
        largest(rank), len(portions)), "it gets %s" % (
            "one" if own.unit else "none"))
    ties = [other for other in portions if other != number
            and portions[other].remainder == own.remainder]
    if any(portions[other].unit != own.unit for other in ties):
        lines += fitted(2, "a tie decides: %s %s the same remainder;" % (
            few("element", "elements", ties),
            "has" if len(ties) == 1 else "have"),
            "equal remainders go to the earlier element first")
    return lines


def remainders_shown(portions, order, number):
    """The largest remainders, and an element's own where it is none of
    them."""
    most = order[:MOST_REMAINDERS]
    named = most if number in most else most[:-1] + [number]
    for place, other in enumerate(named):
        yield "%selement %d: %s%s" % (
            "... " if other not in most else "", other,
            grouped(portions[other].remainder),
            "," if place < len(named) - 1
            else "" if len(order) == len(named) else ", ...")


def part_of(board, number, codes, pool, formula):
    """The lines of a pool divided over the elements of these codes, and the
    part of one of them."""
    members = {other: element.activity for other, element
               in board.category_sums(number).elements.items()
               if element.code in codes}
    portions = dict(zip(members, board.portions(pool, [*members.values()])))
    own = portions[number]
    lines = quotient_lines(board, 2, formula, pool, members[number],
                           sum(members.values()), own)
    if own.remainder > 0:
        lines += unit_lines(portions, number)
    elif any(portion.unit for portion in portions.values()):
        lines.append("    it divides without remainder: nothing left over "
                     "goes to it")
    return lines, own.floor + own.unit


# The parts of an element.

def part_of_A(board, number, side):
    """The lines and the part of what benefits all."""
    element, sums = board.element(number), board.category_sums(number)
    is_freight = element.code in FREIGHT_CODES
    pool, name = sums.A(side), "A"
    lines = pool_lines(board, element.category, 0, side)
    if pool == 0:
        return lines, 0
    if sums.F > 0 and sums.P > 0:
        both = board.portions(pool, [sums.F, sums.P])
        own = both[0 if is_freight else 1]
        pool = own.floor + own.unit
        name = "freight part" if is_freight else "passenger part"
        lines += (parting_lines(board, sums, side, *both)
                  if board.is_new("parts", element.category, side) else
                  ["    the %s is %s, as above" % (name, grouped(pool))])
    elif board.is_new("one kind", element.category):
        lines.append("    there are no passengers: all of A goes to the "
                     "freight" if is_freight else
                     "    there is no freight: all of A goes to the "
                     "passengers" + ", whatever they weigh"
                     * is_weighed(element.kg_per_head))
    if pool == 0:
        return lines + ["    the %s is 0: nothing to divide" % name], 0
    more, part = part_of(
        board, number, FREIGHT_CODES if is_freight else PASSENGER_CODES, pool,
        "%s × activity / %s" % (name, "F" if is_freight else "C"))
    return lines + more, part


def part_of_B(board, number, side):
    """The lines and the part of what benefits the element's own group."""
    element, sums = board.element(number), board.category_sums(number)
    pool = sums.B(element.code, side)
    lines = pool_lines(board, element.category, element.code, side)
    if pool == 0:
        return lines, 0
    more, part = part_of(board, number, (element.code,), pool,
                         "%s × activity / S" % POOLS[element.code])
    return lines + more, part


def exact_share(sums, element, side):
    """The formula of the exact share, without what comes to 0, and what it
    comes to."""
    code, activity = element.code, element.activity
    A, whole = sums.A(side), sums.F + sums.P
    if code in PASSENGER_CODES:
        terms = [("A × P × activity / ((F + P) × C)" if sums.F > 0 else
                  "A × activity / C",
                  Fraction(A * sums.P * activity, whole * sums.C))]
    else:
        terms = [("A × activity / (F + P)" if sums.P > 0 else
                  "A × activity / F", Fraction(A * activity, whole))]
    if code in COLD_GROUPS:
        terms.append(("%s × activity / S" % POOLS[code],
                      Fraction(sums.B(code, side) * activity, sums.S(code))))
    return (" + ".join(formula for formula, exact in terms if exact > 0),
            sum(exact for _, exact in terms))


def share_lines(sums, element, side, parts):
    """The sum of the parts beside the exact share."""
    share = sum(parts)
    formula, exact = exact_share(sums, element, side)
    added = " + ".join(map(grouped, parts)) + " = " if len(parts) > 1 else ""
    own = "share: %s%s," % (added, emissions(share))
    if exact == share:
        return fitted(2, own, "as in the ledger,", "and that is exact")
    if abs(share - exact) >= LEAST_TOO_FAR:
        raise Differs("the share %s is %s µg from the exact one"
                      % (grouped(share), mixed(abs(share - exact))))
    return fitted(2, own, "as in the ledger") + fitted(
        2, "exact share: " + formula, "= %s;" % mixed(exact),
        "the share is %s µg %s it," % (
            mixed(abs(share - exact)),
            "above" if share > exact else "below"),
        "which is less than 3 µg, as is proved of every share")


def side_lines(board, number, side):
    """How the operation or the provision share of an element comes about."""
    element = board.element(number)
    worked = [part_of_A(board, number, side)]
    if element.code in COLD_GROUPS:
        worked.append(part_of_B(board, number, side))
    parts = [part for _, part in worked]
    compare(sum(parts), getattr(element, side), "%s, %s share" % (
        board.text.called("element", number), side))
    return (["  " + side] + [line for lines, _ in worked for line in lines]
            + share_lines(board.category_sums(number), element, side, parts))


# Elements.

def described(board, number):
    """The element in words, and its activity worked out."""
    element = board.element(number)
    place = ("quoted by its carrier" if element.category == QUOTED
             else "category %d" % element.category)
    amount, way = amount_words(element), "%s m" % grouped(element.distance)
    if board.book.kind(element.category) == HUB:
        product = "the kg alone, as it is a hub: "
    elif element.code in PASSENGER_CODES:
        product = "%s × class %d × %s = " % (amount, element.code, way)
    else:
        product = "%s × %s = " % (amount, way)
    return (fitted(0, board.text.called("element", number) + ":", place + ",",
                   carried(board.book, element))
            + ["  activity: " + product + grouped(element.activity)])


def weights_of(sums, code):
    """The letters and the sums that an element's pools are divided by."""
    both = sums.F > 0 and sums.P > 0
    if both or code in FREIGHT_CODES:
        yield "F", sums.F
    if both:
        yield "P", sums.P
    if code in PASSENGER_CODES:
        yield "C", sums.C


def weight_lines(board, number):
    """These sums, where they have not been said of the category."""
    element, sums = board.element(number), board.category_sums(number)
    category, code = element.category, element.code
    lines = []
    for letter, weight in weights_of(sums, code):
        if not board.is_new("weight", letter, category):
            continue
        weighed = weighed_of(sums) if letter == "P" else {}
        if weighed:
            lines += weighed_lines(board, category, weighed, weight)
        else:
            lines.append("  category %d: %s is %s" % (
                category, board.letter(letter), grouped(weight)))
    if (code in COLD_GROUPS and any(sums.B(code, side) for side in AMOUNTS)
            and board.is_new("weight", code, category)):
        lines.append("  category %d: S, the activity of its %s freight, is %s"
                     % (category, group_word(code), grouped(sums.S(code))))
    return lines


def weighed_of(sums):
    """The passengers of a category by their numbers, where they are
    weighed."""
    return {number: element for number, element in sums.elements.items()
            if is_weighed(element.kg_per_head)}


def weighed_lines(board, category, weighed, P):
    """P of weighed passengers, worked out for each element or for the first
    of them."""
    heading = "category %d: %s" % (category, board.letter("P", "weighed P"))
    products = [weighed_product(board, number)
                for number in list(weighed)[:MOST_WEIGHED]]
    if len(weighed) == 1:
        return fitted(1, heading, "is " + products[0])
    rest = list(weighed.values())[MOST_WEIGHED:]
    if rest:
        products.append("and %s: %s" % (
            counted(len(rest), "more element"),
            grouped(sum(map(kg_by_distance, rest)))))
    return (["  %s is the sum of" % heading]
            + ["    " + product for product in products]
            + ["    = " + grouped(P)])


def weighed_product(board, number):
    element = board.element(number)
    return "%s: %s × %d kg × %s m = %s" % (
        board.text.called("element", number), amount_words(element),
        kg_of_head(element), grouped(element.distance),
        grouped(kg_by_distance(element)))


def kg_by_distance(element):
    """What an element of passengers adds to P."""
    return element.amount * kg_of_head(element) * element.distance


def waiting_lines(board, number):
    category = board.element(number).category
    return ["  it waits for %s, which is not closed:"
            % board.text.called("category", category),
            "  it has no share until that category is closed",
            "  when all its entries are written, "
            + board.text.to_close(category)]


def quote_lines(board, number):
    """How a quoted share comes about."""
    element = board.element(number)
    *_, adjust, mass, distance, operation, provision = (
        board.text.tables[2][number - 1])
    D = distance + AIR_DEFAULT if adjust else distance
    lines = ["  D is the distance, %s m" % grouped(D)] if not adjust else [
        "  D is the distance and the %s m added for air (adjust): "
        "%s + %s = %s m" % (grouped(AIR_DEFAULT), grouped(distance),
                            grouped(AIR_DEFAULT), grouped(D))]
    for side, intensity in zip(AMOUNTS, (operation, provision)):
        product = intensity * mass * D
        share = nearest(product, 1000)
        compare(share, getattr(element, side), "%s, %s share" % (
            board.text.called("element", number), side))
        lines += (["  " + side] + fitted(
            2, "intensity × mass × D / 1000",
            "= %s × %s × %s / 1000" % tuple(
                map(grouped, (intensity, mass, D))),
            "= " + mixed(Fraction(product, 1000)))
            + rounding_lines(product)
            + ["    share: %s, as in the ledger" % emissions(share)])
    return lines


def rounding_lines(product):
    """Why a quotient by 1000 is rounded up or down."""
    floor, remainder = divmod(product, 1000)
    if remainder == 0:
        return []
    why = ("less than half of 1000: rounded down" if remainder < 500 else
           "more than half of 1000: rounded up" if remainder > 500 else
           "half of 1000: of %s and %s, a half goes to the even number, %s"
           % tuple(map(grouped, (floor, floor + 1, nearest(product, 1000)))))
    return fitted(2, "quotient %s, remainder %d," % (
        grouped(floor), remainder), why)


def element_lines(board, number):
    element = board.element(number)
    lines = described(board, number)
    if element.category == QUOTED:
        return lines + quote_lines(board, number)
    if board.book.is_open(element.category):
        return lines + waiting_lines(board, number)
    lines += weight_lines(board, number)
    for side in AMOUNTS:
        lines += side_lines(board, number, side)
    return lines


# The chain.

def sum_lines(board, ledger, chain, numbers):
    """The shares added up, beside the ledger's statement."""
    elements = [board.element(number) for number in numbers]
    waiting = [number for number, element in zip(numbers, elements)
               if board.book.is_open(element.category)]
    operation, provision = (sum(getattr(element, side)
                                for element in elements) for side in AMOUNTS)
    sums = (operation, provision, operation + provision)
    told, = ledger.statements([chain])
    for what, reckoned, number in zip(
            ("elements", "waiting", *AMOUNTS, "total"),
            (len(numbers), len(waiting), *sums), told):
        compare(reckoned, number, "chain %d, %s" % (chain, what))
    rows = [("µg", *AMOUNTS, "total")]
    for number, element in zip(numbers, elements):
        rows.append((
            "element %d%s" % (number, ", waiting" * (number in waiting)),
            *map(grouped, (element.operation, element.provision,
                           element.operation + element.provision))))
    rows.append(("sum", *map(grouped, sums)))
    rows.append(("ledger's statement", *map(grouped, told[2:])))
    rows.append(("in tonnes", *map(tonnes, sums)))
    return (["the sum over the elements"]
            + ["  " + line
               for line in aligned(rows, (LEFT, RIGHT, RIGHT, RIGHT))]
            + ["  the statement counts %s, %d waiting" % (
                counted(told[0], "element"), told[1])])


def no_chain(words, chain):
    chains = used_chains(words)
    if not chains:
        have = "no chains"
    elif len(chains) > MOST_CHAINS:
        have = "chains %s, ..." % ", ".join(map(str, chains[:MOST_CHAINS]))
    else:
        have = "%s %s" % ("chain" if len(chains) == 1 else "chains",
                          listed(list(map(str, chains))))
    return NoChain("no element is on chain %d; this book has %s"
                   % (chain, have))


def explanation(text, ledger, chain):
    """The lines that explain the shares of a chain. The ledger is the one
    that the text was loaded into, by an accepted load."""
    numbers = [number for number, element
               in enumerate(ledger.book.elements, 1) if element.chain == chain]
    if not numbers:
        raise no_chain(ledger.words, chain)
    board = Board(text, ledger)
    lines = ["chain %s: %s; all amounts are µg CO2e" % (
        with_name(text.names, chain), counted(len(numbers), "element")), ""]
    for number in numbers:
        lines += element_lines(board, number) + [""]
    return lines + sum_lines(board, ledger, chain, numbers)
