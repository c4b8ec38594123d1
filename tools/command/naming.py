"""What the numbers of a book are called."""

from calculation import book
from command.amounts import grouped
from command.fields import CODES, GROUPS, KINDS


def word_for(number, words):
    """The word that stands for a number."""
    return next(word for word, other in words.items() if other == number)


def kind_words(kind):
    """What a category's kind is."""
    return {book.BOTH: "freight and passengers",
            book.HUB: "freight hub"}.get(kind) or word_for(kind, KINDS)


def code_words(code):
    """What an element's code is."""
    if code in book.PASSENGER_CODES:
        return "passenger class %d" % code
    return word_for(code, CODES) + " freight"


def group_word(group):
    """Whom an entry's group benefits, in one word."""
    return word_for(group, GROUPS)


def group_words(group):
    """Whom an entry of a group benefits."""
    return "all" if group == 0 else group_word(group) + " freight"


def amount_words(element):
    """An element's amount with its unit."""
    return grouped(element.amount) + (
        " kg" if element.code not in book.PASSENGER_CODES
        else " head" if element.amount == 1 else " heads")


def carried(held, element):
    """What an element of a book carries, and how far."""
    way = ("in a hub" if held.kind(element.category) == book.HUB
           else "over %s m" % grouped(element.distance))
    what = ("" if element.category == book.QUOTED
            else code_words(element.code) + ", ")
    return "%s%s%s %s" % (what, amount_words(element), weight_words(element),
                          way)


def weight_words(element):
    """What each of an element's passengers weighs, where they are weighed."""
    if not book.is_weighed(element.kg_per_head):
        return ""
    return " of %d kg%s" % (element.kg_per_head,
                            " each" if element.amount > 1 else "")


def plainly_called(word, number):
    """A record by its number alone."""
    return "%s %d" % (word, number)


def with_name(names, chain):
    """A chain's number, with its name where it has one."""
    return "%d (%s)" % (chain, names[chain]) if chain in names else str(chain)
