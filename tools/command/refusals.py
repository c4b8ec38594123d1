"""Refusals in words.

A refusal's number is the program's own. What is said of it is looked for in
the book that the program shows; where nothing of that number is found, that
is told.
"""

from collections import namedtuple

from calculation import book, calls, closing, loading
from calculation.workbook import (
    BLANK, converted, is_exchanged, is_unusable, value_of)
from command.amounts import grouped
from command.calls import CALLS
from command.cells import PLACES as CELLS
from command.cells import number_text
from command.fields import listed
from command.naming import (
    code_words, group_word, group_words, kind_words, plainly_called)
from command.programs import Differs

# Each number with its meaning.
MEANINGS = {
    1: "the book is shorter than 2,660 words, or is not sound",
    2: "there is no category or entry of that number",
    3: "a kind, group, chain, code or adjust is none of its values",
    4: "the category is closed, or the entry is struck already",
    5: "the category is still open",
    6: "freight among passengers, passengers among freight or in a hub, or a "
       "group for passengers",
    7: "a quantity, factor, mass, head count, kg per head, distance or "
       "intensity is out of range",
    8: "the list is full: 16 categories, 64 entries, 256 elements and quotes",
    9: "there is nothing to divide by: no elements, or none of a group",
    10: "the book would pass 10^18 µg in operation or provision or 10^17 of "
        "activity, or an intensity 10^15",
    11: "the file is under 32 or over 16,384 bytes, or its header is wrong",
    12: "a section begins too early or ends past the file",
    13: "a flag is above 1, or a field that must be 0 is not",
    14: "passengers are weighed where earlier ones of their category are not, "
        "or the reverse",
    15: "a cell is blank, or its double is not finite, below zero or above its "
        "limit: 10^9 units, 10^7 g per unit",
    16: "the second double of a span is below its first",
    17: "the pair slice of a preview is shorter than 512 words",
}

# How one speaks of records: how one is called, from its table's word and its
# number, how entries get another group, and how a category is kept open, from
# its number.
Speech = namedtuple("Speech", "called regrouped to_keep_open")
PLAYED = Speech(
    plainly_called, "struck, and posted again with `group all`",
    lambda category: "begin again with `fresh` or `load`, and close it later")


def in_text(text):
    """How one speaks of the records of a book's text."""
    return Speech(text.called, "written with `group all`",
                  lambda category: "take `close` off line %d"
                  % text.line_of(1, category))


# A refused call: its name, its arguments by their words, the book that it was
# refused by, and how one speaks of its records.
Refused = namedtuple("Refused",
                     "name arguments book called regrouped to_keep_open")

# What holds, in a few words, and what to look at.
Reason = namedtuple("Reason", "what look")


def words_of(name):
    """The words of a call's arguments."""
    return tuple(field.word for field in CALLS[name].fields)


# The reasons of each number: all that hold.

def no_such_number(refused):
    """The reasons of 2."""
    for word, records in (("category", refused.book.categories),
                          ("entry", refused.book.entries)):
        number = refused.arguments.get(word)
        if number is not None and not 1 <= number <= len(records):
            yield Reason("there is no %s %s" % (word, grouped(number)),
                         "the book has %s" % existing(word, len(records)))


def existing(word, count):
    more = {"category": "categories", "entry": "entries"}[word]
    if count == 0:
        return "no %s yet" % word
    if count == 1:
        return "%s 1 alone" % word
    return "%s 1 %s %d, numbered in the order in which they come" % (
        more, "and" if count == 2 else "to", count)


def no_such_value(refused):
    """The reasons of 3."""
    codes = ("a code is 0 ambient, 1 chilled or 2 frozen for freight, and 100 "
             "to 1000 for passengers, the class in hundredths of the lowest")
    if refused.name == "intensity":
        codes = ("an intensity is of code 0 ambient, 1 chilled or 2 frozen, or "
                 "100 for the lowest class of passengers")
    for word, values, look in (
        ("kind", book.KINDS, "a kind is 1 freight, 2 passengers, 3 both or 4 "
                             "freight hub"),
        ("group", book.GROUPS, "a group is 0 all, 1 chilled or 2 frozen"),
        ("chain", book.CHAINS, "a chain is 1 to 10_000"),
        ("code", closing.INTENSITY_CODES if refused.name == "intensity"
         else (*book.FREIGHT_CODES, *book.PASSENGER_CODES), codes),
        ("adjust", book.FLAGS, "adjust is 0 or 1, and adds 95 km for air"),
    ):
        number = refused.arguments.get(word)
        if number is not None and number not in values:
            yield Reason("there is no %s %s" % (word, grouped(number)), look)


def closed_or_struck(refused):
    """The reasons of 4."""
    entry = refused.arguments.get("entry")
    category = refused.arguments.get("category")
    if entry is not None:
        record = refused.book.entries[entry - 1]
        category = record.category
        if record.struck == 1:
            yield Reason("entry %d is struck already" % entry,
                         "an entry is struck once and stays struck")
    if refused.book.is_closed(category):
        yield Reason(
            "%s is closed" % refused.called("category", category)
            + {"preview": " already", "close": " already",
               "strike": ", and entry %s is of it" % entry}.get(
                   refused.name, ""),
            "its emissions are handed out, and it takes no more entries, "
            "elements or strikes; " + refused.to_keep_open(category))


def still_open(refused):
    """The reasons of 5."""
    category = refused.arguments["category"]
    yield Reason("%s is still open" % refused.called("category", category),
                 "an intensity is known when the category is closed")


def unsuited(refused):
    """The reasons of 6."""
    category = refused.arguments["category"]
    kind = refused.book.kind(category)
    called = "%s is of kind %d, %s, and takes" % (
        refused.called("category", category), kind, kind_words(kind))
    group, code = (refused.arguments.get(word) for word in ("group", "code"))
    if book.unsuited_group(kind, group):
        yield Reason("emissions of %s in a category of passengers"
                     % group_words(group),
                     called + " entries of group 0, which benefit all")
    codes = "the codes 0 ambient, 1 chilled and 2 frozen"
    if book.unsuited_code(kind, code):
        carried, place, taken = {
            book.PASSENGERS: ("freight", "category of passengers",
                              "the codes 100 to 1000 of classes"),
            book.FREIGHT: ("passengers", "freight category", codes),
            book.HUB: ("passengers", "freight hub", codes),
        }[kind]
        yield Reason("%s in a %s" % (carried, place), "%s %s; code %d is %s" % (
            called, taken, code, code_words(code)))


def mixture(refused):
    """The reasons of 14: the first passengers of the category that are the
    reverse."""
    category, code, kg = (refused.arguments.get(word)
                          for word in ("category", "code", "kg"))
    earlier = [(number, element.kg_per_head) for number, element
               in enumerate(refused.book.elements, 1)
               if element.category == category
               and element.code in book.PASSENGER_CODES
               and book.is_weighed(element.kg_per_head)
               != book.is_weighed(kg)]
    if code not in book.PASSENGER_CODES or not earlier:
        return
    number, earlier_kg = earlier[0]
    place = "%s of %s has" % (refused.called("element", number),
                              refused.called("category", category))
    if book.is_weighed(kg):
        yield Reason(
            "weighed passengers in category %d, which has unweighed ones"
            % category,
            "%s no `kg`: leave it out here, or weigh all passengers of the "
            "category%s" % (place, "; a stated 100 is weighed too"
                            * (kg == book.PASSENGER_MASS)))
    else:
        yield Reason(
            "unweighed passengers in category %d, which has weighed ones"
            % category,
            "%s `kg %d`: say by `kg` what these weigh too, 1 to 300, or leave "
            "it out for all passengers of the category" % (place, earlier_kg))


def out_of_range(refused):
    """The reasons of 7."""
    for word, name, values, unit in measures(refused):
        number = refused.arguments[word]
        if number not in values:
            look = ("expected %s to %s, in %s" % (
                grouped(values[0]), grouped(values[-1]), unit)
                if len(values) > 1 else ONLY_0[word])
            yield Reason("%s %s is out of range" % (name, grouped(number)),
                         look)


# What is to be done where a measure is 0 alone.
ONLY_0 = {
    "distance": "a hub has no distances: write `distance 0`",
    "kg": "freight is not weighed by the head, and its mass is its amount: "
          "leave `kg` out",
}


def measures(refused):
    """The measures of a call: word, name, range and unit."""
    if refused.name == "post":
        yield ("quantity", "quantity", book.QUANTITIES,
               "thousandths of a unit")
        for word in book.AMOUNTS:
            yield (word, word + " factor", book.FACTORS, "mg CO2e per unit")
    if refused.name == "enrol":
        code = refused.arguments["code"]
        passengers = code in book.PASSENGER_CODES
        yield ("amount", "amount", book.amounts_of(code),
               "heads" if passengers else "kg")
        kind = refused.book.kind(refused.arguments["category"])
        yield ("distance",
               "in a freight hub distance" if kind == book.HUB
               else "distance", book.distances_of(kind), "m")
        yield ("kg", "kg per head" if passengers else
               "for freight kg per head", book.kg_per_head_of(code),
               "kg, and 0 is the standard 100")
    if refused.name == "quote":
        yield "mass", "mass", book.MASSES, "kg"
        yield "distance", "distance", book.DISTANCES, "m"
        for word in book.AMOUNTS:
            yield (word, word + " intensity", book.INTENSITIES,
                   "mg CO2e per tonne-km")


def full(refused):
    """The reasons of 8."""
    entry = ("entry", "entries", book.ENTRIES)
    one, more, listing = {
        "open": ("category", "categories", book.CATEGORIES),
        "post": entry, "line": entry,
    }.get(refused.name, ("element", "elements and quotes", book.ELEMENTS))
    yield Reason("no room for another %s" % one,
                 "a book has room for %d %s%s" % (
                     listing.most, more,
                     ", struck ones too" if one == "entry" else ""))


def nothing_to_divide_by(refused):
    """The reasons of 9."""
    category = refused.arguments["category"]
    called = refused.called("category", category)
    sums = closing.Sums(refused.book, category)
    if refused.name == "intensity":
        for words in lacking_intensity(sums, refused.arguments["code"]):
            yield Reason("no %s in category %d" % (words, category),
                         "%s carries none, so it has no intensity for it"
                         % called)
        return
    if sums.F + sums.P == 0:
        yield Reason("no element in category %d" % category,
                     "%s needs an element before it can be closed" % called)
    for group in closing.COLD_GROUPS:
        if sums.S(group) == 0 and any(sums.B(group, amount) > 0
                                      for amount in book.AMOUNTS):
            word = group_word(group)
            yield Reason(
                "%s emissions and no %s element in category %d"
                % (word, word, category),
                "%s %s freight alone; %s needs an element of `code %s`, or "
                "these emissions are %s" % (
                    entries_of_group(refused, group), word, called, word,
                    refused.regrouped))


def entries_of_group(refused, group):
    called = [refused.called("entry", number)
              for number, entry in enumerate(refused.book.entries, 1)
              if (entry.category, entry.group, entry.struck)
              == (refused.arguments["category"], group, 0)]
    return "%s benefit%s" % (listed(called), "s" * (len(called) == 1))


def lacking_intensity(sums, code):
    """The divisors of an intensity that are 0, in words."""
    if code == closing.LOWEST_CLASS:
        if sums.C == 0:
            yield "passengers"
    elif sums.F == 0:
        yield "freight"
    elif code in closing.COLD_GROUPS and sums.S(code) == 0:
        yield code_words(code)


def over_limit(refused):
    """The reasons of 10."""
    if refused.name == "intensity":
        sums = closing.Sums(refused.book, refused.arguments["category"])
        for amount in book.AMOUNTS:
            result = closing.intensity_of(sums, refused.arguments["code"],
                                          amount)
            if result > closing.MOST_INTENSITY:
                yield Reason("an intensity above 10^15 mg",
                             "%s would be %s" % (amount, grouped(result)))
        return
    emissions, activity = added(refused)
    units = {
        "post": "a quantity is in thousandths of a unit, a factor in mg",
        "line": "a quantity is in units, a factor in g CO2e per unit",
    }.get(refused.name, "an intensity is in mg per tonne-km, a mass in kg, a "
          "distance in m")
    for amount, more in zip(book.AMOUNTS, emissions):
        would = book.emissions_of(refused.book, amount) + more
        if would > book.MOST_EMISSIONS:
            yield Reason("more than 10^18 µg in %s" % amount,
                         "the unstruck entries and the quotes would add up to "
                         "%s µg; %s" % (grouped(would), units))
    would = book.whole_activity(refused.book) + activity
    if would > book.MOST_ACTIVITY:
        yield Reason("more than 10^17 of activity",
                     "kg × m over all elements, a head counted as 100 kg, "
                     "weighed or not, and a hub without m, would add up to %s"
                     % grouped(would))


def added(refused):
    """The emissions and the activity that a call would add."""
    numbers = refused.arguments
    if refused.name in ("post", "line"):
        return calls.entry_amounts(numbers["quantity"], numbers["operation"],
                                   numbers["provision"]), 0
    if refused.name == "quote":
        return (calls.quoted_shares(*[numbers[word] for word
                                      in words_of("quote")[1:]]),
                numbers["mass"] * numbers["distance"])
    code, amount, distance = (numbers[word] for word
                              in ("code", "amount", "distance"))
    kind = refused.book.kind(numbers["category"])
    return (0, 0), book.limited_activity(
        code, amount, distance,
        book.activity_of(kind, code, amount, distance))


REASONS = {
    2: no_such_number, 3: no_such_value, 4: closed_or_struck, 5: still_open,
    6: unsuited, 14: mixture, 7: out_of_range, 8: full,
    9: nothing_to_divide_by, 10: over_limit,
}


# The reasons of a line's cells, which come before those of its post.

def unusable(refused):
    """The reasons of 15."""
    for cell, place in zip(cells_of(refused), CELLS):
        if not is_unusable(cell, place.limit):
            continue
        look = "expected 0 to %s %s" % (grouped(place.limit), place.unit)
        if cell == BLANK:
            yield Reason("the %s is blank" % place.name, look)
        for end, bits in enumerate(cell):
            why = why_unusable(value_of(bits), place.limit)
            if why:
                yield Reason("%s, %s, is %s" % (double_called(place, cell, end),
                                                number_text(bits), why), look)


def why_unusable(value, limit):
    return ("not finite" if value is None else "below zero" if value < 0
            else "above its limit" if value > limit else "")


def exchanged(refused):
    """The reasons of 16."""
    for cell, place in zip(cells_of(refused), CELLS):
        if is_exchanged(cell):
            first, second = map(number_text, cell)
            yield Reason(
                "%s, %s, is below its first, %s" % (
                    double_called(place, cell, 1), second, first),
                "a span goes from its smaller number to its larger one, as "
                "%s..%s does" % (second, first))


def cells_of(refused):
    if refused.name != "line":
        return []
    return [refused.arguments[place.word] for place in CELLS]


def double_called(place, cell, end):
    """A double of a cell by its place."""
    if len(cell) == 1:
        return "the %s" % place.name
    return "the %s double of the %s" % (("first", "second")[end], place.name)


OF_CELLS = {15: unusable, 16: exchanged}


def reasons(number, words, name, arguments, speech):
    """The reasons of a refused call on a book's words. A line is refused by
    its cells, whatever the book is, or as the post of what they become."""
    refused = Refused(name, dict(zip(words_of(name), arguments)), None,
                      *speech)
    found = []
    if number in OF_CELLS:
        found = list(OF_CELLS[number](refused))
    elif number in REASONS and not is_refused_by_cells(refused):
        found = list(REASONS[number](as_posted(refused)._replace(
            book=book.Book(words))))
    if not found:
        raise Differs("the program refuses with %d, and nothing of that "
                      "number is found here" % number)
    return found


def is_refused_by_cells(refused):
    return any(list(reasons_of(refused)) for reasons_of in OF_CELLS.values())


def as_posted(refused):
    """A line with the numbers that its cells become."""
    if refused.name != "line":
        return refused
    return refused._replace(arguments={
        **refused.arguments,
        **{place.word: converted(refused.arguments[place.word])
           for place in CELLS}})


# Refused calls.

def of_call(number, words, name, arguments):
    """The lines that tell a refused call."""
    yield "refused %d: %s" % (number, MEANINGS[number])
    for what, look in reasons(number, words, name, arguments, PLAYED):
        yield "    %s: %s" % (what, look)


# Refused files.

PLACES = {1: "category", 2: "entry", 3: "element", 4: "closing of category"}


def of_file(numbers, text, ledger):
    """The number of the line that a file was stopped at, what is told of it
    and what to look at."""
    number, table, record = numbers
    step = next(step for step in loading.steps(text.data())
                if (step.table, step.record) == (table, record))
    found = (list(bad_field(text.tables[table - 1][record - 1]))
             if step.bad_field else
             reasons(number, ledger.words, step.name, step.arguments,
                     in_text(text)))
    told = "%s %d: %s (refused %d)" % (
        PLACES[table], record, found[0].what, number)
    return (text.line_of(1 if table == 4 else table, record), told,
            [found[0].look] + ["%s: %s" % reason for reason in found[1:]])


def bad_field(record):
    """The reasons of 13."""
    if len(record) == 2:
        yield Reason("there is no close %d" % record[1],
                     "`close` stands alone, or is 0 or 1")
        return
    category, _, code, adjust, _, _, operation, provision = record
    if category == book.QUOTED:
        yield Reason("code %d for an element of category 0" % code,
                     "an element of category 0 is a quote, and its code is 0")
        return
    passengers = code in book.PASSENGER_CODES
    given = [word for word, number in (
        ("adjust", 0 if passengers else adjust), ("operation", operation),
        ("provision", provision)) if number != 0]
    yield Reason("%s for an element of a category" % listed(given),
                 "only a quote has an air adjustment or intensities; an "
                 "element's share comes from its category's entries")
