"""The calls of the book: their grounds, and what an accepted one does.

Written from document 01 and from document 02's weighed passengers, lines,
previews and rounding. Sentences in quotation marks are their own.

A call gets the words of the lent slice, reads the records out of them and,
when it is accepted, writes into them. Of the slice that is lent for the pairs
of a preview it gets the length, and answers what is written there.
"""

from collections import namedtuple

from calculation.book import (
    AIR_DEFAULT, AMOUNTS, CATEGORIES, CHAINS, DISTANCES, ELEMENTS, ENTRIES,
    FACTORS, FLAGS, FREIGHT_CODES, GROUPS, INTENSITIES, KINDS, LENGTH, MARK,
    MASSES, MOST_ACTIVITY, MOST_EMISSIONS, PASSENGER_CODES, QUANTITIES,
    QUOTED, Book, Category, Element, Entry, activity_of, amounts_of, append,
    distances_of, emissions_of, is_weighed, kg_per_head_of, limited_activity,
    sound_book, total, unsuited_code, unsuited_group, whole_activity, word)
from calculation.closing import (
    INTENSITY_CODES, MOST_INTENSITY, Sums, divisors, intensity_of,
    is_without_weight, shares_by_number)
from calculation.rounding import nearest
from calculation.workbook import LIMITS, converted, is_exchanged, is_unusable

# Refusal numbers.
ACCEPTED = 0
BAD_BOOK = 1
NO_SUCH_NUMBER = 2
NO_SUCH_VALUE = 3
CLOSED_OR_STRUCK = 4
STILL_OPEN = 5
UNSUITED = 6
OUT_OF_RANGE = 7
FULL = 8
NO_WEIGHT = 9
OVER_LIMIT = 10
MIXED = 14
UNUSABLE_CELL = 15
EXCHANGED_SPAN = 16
SHORT_PAIRS = 17

# "A preview writes 256 pairs, operation and provision": one for each element
# that there may be.
PAIR_WORDS = ELEMENTS.most * len(AMOUNTS)


# The grounds of each call: every number that holds, in checking order, so
# that the first is the refusal number; 15 and 16 once for each cell of a
# line. Nothing is asked of a book after 1. Where an earlier ground leaves a
# later one without a sense (the kind of a category that is not there), the
# later one does not hold.

def book_for_call(words):
    """The book, None for ground 1: the slice is shorter than the book "or,
    except for fresh and loading, the book is not sound."
    """
    if len(words) < LENGTH:
        return None
    return sound_book(words)


def with_ground_1(grounds):
    """Ground 1, and past it the call's own grounds on the sound book."""
    def all_grounds(words, *arguments):
        book = book_for_call(words)
        if book is None:
            yield BAD_BOOK
        else:
            yield from grounds(book, *arguments)
    return all_grounds


def grounds_of_fresh(words):
    if len(words) < LENGTH:
        yield BAD_BOOK


@with_ground_1
def grounds_of_open(book, kind):
    if kind not in KINDS:
        yield NO_SUCH_VALUE
    if len(book.categories) == CATEGORIES.most:
        yield FULL


@with_ground_1
def grounds_of_post(book, category, group, quantity, operation_factor,
                    provision_factor):
    if not book.has_category(category):
        yield NO_SUCH_NUMBER
    if group not in GROUPS:
        yield NO_SUCH_VALUE
    if book.is_closed(category):
        yield CLOSED_OR_STRUCK
    if unsuited_group(book.kind(category), group):
        yield UNSUITED
    if not (quantity in QUANTITIES and operation_factor in FACTORS
            and provision_factor in FACTORS):
        yield OUT_OF_RANGE
    if len(book.entries) == ENTRIES.most:
        yield FULL
    operation, provision = entry_amounts(quantity, operation_factor,
                                         provision_factor)
    if would_pass_emissions(book, operation, provision):
        yield OVER_LIMIT


def grounds_of_line(words, category, group, *cells):
    """"cell by cell from the left and 15 before 16 within a cell, before the
    post's own checks", so before ground 1.

    A cell that is refused has no number; 0 stands for it in the post.
    """
    numbers = []
    for cell, limit in zip(cells, LIMITS):
        refusals = list(grounds_of_cell(cell, limit))
        yield from refusals
        numbers.append(0 if refusals else converted(cell))
    yield from grounds_of_post(words, category, group, *numbers)


def grounds_of_cell(cell, limit):
    if is_unusable(cell, limit):
        yield UNUSABLE_CELL
    if is_exchanged(cell):
        yield EXCHANGED_SPAN


@with_ground_1
def grounds_of_strike(book, entry):
    if not 1 <= entry <= len(book.entries):
        yield NO_SUCH_NUMBER
        return
    record = book.entries[entry - 1]
    # "A closed category is [...] struck in [...], or the entry is struck
    # already."
    if book.is_closed(record.category) or record.struck == 1:
        yield CLOSED_OR_STRUCK


@with_ground_1
def grounds_of_enrol(book, category, chain, code, amount, distance,
                     kg_per_head=0):
    kind = book.kind(category)
    if not book.has_category(category):
        yield NO_SUCH_NUMBER
    if not (chain in CHAINS
            and (code in FREIGHT_CODES or code in PASSENGER_CODES)):
        yield NO_SUCH_VALUE
    if book.is_closed(category):
        yield CLOSED_OR_STRUCK
    if unsuited_code(kind, code):
        yield UNSUITED
    # "It refuses with 14, checked after 6"
    if would_mix(book, category, code, kg_per_head):
        yield MIXED
    if not (amount in amounts_of(code) and distance in distances_of(kind)
            and kg_per_head in kg_per_head_of(code)):
        yield OUT_OF_RANGE
    if len(book.elements) == ELEMENTS.most:
        yield FULL
    activity = activity_of(kind, code, amount, distance)
    if would_pass_activity(book, code, amount, distance, activity):
        yield OVER_LIMIT


@with_ground_1
def grounds_of_quote(book, chain, adjust, mass, distance,
                     operation_intensity, provision_intensity):
    if not (chain in CHAINS and adjust in FLAGS):
        yield NO_SUCH_VALUE
    if not (mass in MASSES and distance in DISTANCES
            and operation_intensity in INTENSITIES
            and provision_intensity in INTENSITIES):
        yield OUT_OF_RANGE
    if len(book.elements) == ELEMENTS.most:
        yield FULL
    operation, provision = quoted_shares(adjust, mass, distance,
                                         operation_intensity,
                                         provision_intensity)
    if (would_pass_emissions(book, operation, provision)
            or would_pass_activity(book, 0, mass, distance, mass * distance)):
        yield OVER_LIMIT


def closing_grounds(book, category):
    if not book.has_category(category):
        yield NO_SUCH_NUMBER
        return
    if book.is_closed(category):
        yield CLOSED_OR_STRUCK
    if is_without_weight(Sums(book, category)):
        yield NO_WEIGHT


grounds_of_close = with_ground_1(closing_grounds)


@with_ground_1
def grounds_of_preview(book, category, pair_length):
    """"It refuses with 17, checked just after 1, a pair slice under 512
    words, and otherwise exactly as closing does."
    """
    if pair_length < PAIR_WORDS:
        yield SHORT_PAIRS
    yield from closing_grounds(book, category)


@with_ground_1
def grounds_of_statement(book, chain):
    if chain not in CHAINS:
        yield NO_SUCH_VALUE


@with_ground_1
def grounds_of_intensity(book, category, code):
    if not book.has_category(category):
        yield NO_SUCH_NUMBER
    if code not in INTENSITY_CODES:
        yield NO_SUCH_VALUE
    if not book.has_category(category):
        return
    # "Intensity is wanted of an open category."
    if not book.is_closed(category):
        yield STILL_OPEN
    if code in INTENSITY_CODES:
        yield from grounds_of_result(Sums(book, category), code)


def grounds_of_result(sums, code):
    # "intensity: its F, S or C is 0"
    if 0 in divisors(sums, code):
        yield NO_WEIGHT
    # "an intensity result, operation or provision, would pass 10^15"
    elif any(intensity_of(sums, code, amount) > MOST_INTENSITY
             for amount in AMOUNTS):
        yield OVER_LIMIT


def would_mix(book, category, code, kg_per_head):
    """"a passenger element that is weighed when an earlier one in its
    category is not, or the reverse".
    """
    return code in PASSENGER_CODES and any(
        is_weighed(earlier.kg_per_head) != is_weighed(kg_per_head)
        for earlier in book.passengers_of(category))


def would_pass_emissions(book, operation, provision):
    return (emissions_of(book, "operation") + operation > MOST_EMISSIONS
            or emissions_of(book, "provision") + provision > MOST_EMISSIONS)


def would_pass_activity(book, code, amount, distance, activity):
    return (whole_activity(book)
            + limited_activity(code, amount, distance, activity)
            > MOST_ACTIVITY)


# What an accepted call does: it writes, and returns the numbers of its
# answer.

def fresh(words):
    # All words of the book "become 0, then word 0 is set"; "later words are
    # never touched"
    words[:LENGTH] = [0] * LENGTH
    words[0] = MARK
    return []


def open_category(words, kind):
    return [append(words, CATEGORIES, Category(kind, closed=0))]


def entry_amounts(quantity, operation_factor, provision_factor):
    """"quantity × factor is µg", operation and provision."""
    return quantity * operation_factor, quantity * provision_factor


def post(words, category, group, quantity, operation_factor,
         provision_factor):
    operation, provision = entry_amounts(quantity, operation_factor,
                                         provision_factor)
    return [append(words, ENTRIES, Entry(category, group, operation,
                                         provision, struck=0))]


def line(words, category, group, *cells):
    # "The line is then posted to a stated category and group."
    return post(words, category, group, *map(converted, cells))


def strike(words, entry):
    # "sets its struck word"
    words[word(ENTRIES, entry, "struck")] = 1
    return []


def enrol(words, category, chain, code, amount, distance, kg_per_head=0):
    # "Enrol takes it as a last number"
    kind = Book(words).kind(category)
    activity = activity_of(kind, code, amount, distance)
    return [append(words, ELEMENTS, Element(category, chain, code, amount,
                                            distance, activity,
                                            operation=0, provision=0,
                                            kg_per_head=kg_per_head))]


def quoted_shares(adjust, mass, distance, operation_intensity,
                  provision_intensity):
    """"(intensity × mass × D / 1000), nearest"; "Halves go to the even
    number." "D is the distance, or with adjust 1 the distance plus 95,000".
    """
    whole_distance = distance + AIR_DEFAULT if adjust == 1 else distance
    return tuple(nearest(intensity * mass * whole_distance, 1000)
                 for intensity in (operation_intensity, provision_intensity))


def quote(words, chain, adjust, mass, distance, operation_intensity,
          provision_intensity):
    operation, provision = quoted_shares(adjust, mass, distance,
                                         operation_intensity,
                                         provision_intensity)
    # "an element of category 0, code 0"; "Its activity is mass × distance.";
    # "freight and quotes hold 0"
    return [append(words, ELEMENTS, Element(QUOTED, chain, 0, mass, distance,
                                            mass * distance,
                                            operation, provision,
                                            kg_per_head=0))]


def close(words, category):
    sums = Sums(Book(words), category)
    # "Operation and provision are divided apart."
    for amount in AMOUNTS:
        for number, share in shares_by_number(sums, amount):
            words[word(ELEMENTS, number, amount)] = share
    words[word(CATEGORIES, category, "closed")] = 1
    return []


def preview(words, category, pair_length):
    """The words that it writes, from the first of the pair slice on: "words
    past the 512th are not touched".
    """
    # "It must equal closing a copy and reading it, and the book stays the
    # same."
    copy = list(words)
    close(copy, category)
    # "Pair k is what element k would hold after closing; pairs past the last
    # element are 0"
    pairs = [getattr(element, amount) for element in Book(copy).elements
             for amount in AMOUNTS]
    return pairs + [0] * (PAIR_WORDS - len(pairs))


def statement(words, chain):
    """"counted and added over the elements of that chain alone, elements,
    waiting (those in open categories), operation, provision, total
    (operation plus provision); zeros for an unused chain".
    """
    book = sound_book(words)
    return sums_over(book, [element for element in book.elements
                            if element.chain == chain])


def sums_over(book, elements):
    """The five sums over some elements of a book."""
    waiting = [element for element in elements
               if book.is_open(element.category)]
    operation, provision = (total(elements, amount) for amount in AMOUNTS)
    return [len(elements), len(waiting), operation, provision,
            operation + provision]


def intensity(words, category, code):
    # "returns operation and provision"
    sums = Sums(Book(words), category)
    return [intensity_of(sums, code, amount) for amount in AMOUNTS]


# The calls: how many arguments one takes, the cells of a line among them, its
# grounds, what it does, and how many numbers it answers beside the refusal
# number. "A refused preview writes no pair", so the pairs are not counted.

Call = namedtuple("Call", "arguments grounds act answers")

CALLS = {
    "fresh": Call(0, grounds_of_fresh, fresh, 0),
    "open": Call(1, grounds_of_open, open_category, 1),
    "post": Call(5, grounds_of_post, post, 1),
    "line": Call(5, grounds_of_line, line, 1),
    "strike": Call(1, grounds_of_strike, strike, 0),
    "enrol": Call(6, grounds_of_enrol, enrol, 1),
    "quote": Call(6, grounds_of_quote, quote, 1),
    "close": Call(1, grounds_of_close, close, 0),
    "preview": Call(2, grounds_of_preview, preview, 0),
    "statement": Call(1, grounds_of_statement, statement, 5),
    "intensity": Call(2, grounds_of_intensity, intensity, 2),
}


def make(name, words, *arguments):
    """Makes a call: the refusal number and the numbers of its answer.

    "A refusal returns its number with zeros and writes nothing".
    """
    call = CALLS[name]
    refusal = next(call.grounds(words, *arguments), ACCEPTED)
    if refusal != ACCEPTED:
        return [refusal] + [0] * call.answers
    return [ACCEPTED] + call.act(words, *arguments)
