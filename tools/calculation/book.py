"""The book: its words, its records and its soundness, by exact integers.

Written from document 01 and from document 02's weighed passengers. Sentences
in quotation marks are their own.

A book is a list of words, which are whole numbers below 2^64; a damaged one
holds any of them.
"""

from collections import namedtuple

# "The book becomes 2,660 words." "Word 0 is 14083"
LENGTH = 2660
MARK = 14083


def up_to(first, last):
    return range(first, last + 1)


# "kind (1 freight, 2 passengers, 3 both, 4 freight hub)"
FREIGHT, PASSENGERS, BOTH, HUB = KINDS = up_to(1, 4)
# "closed (0 or 1)", "struck (0 or 1)", "adjust (0 or 1)"
FLAGS = up_to(0, 1)
# "group (0 benefits all, 1 chilled, 2 frozen)"
GROUPS = up_to(0, 2)
# "chain (1 to 10,000)"
CHAINS = up_to(1, 10_000)
# "Code 0, 1, 2 is freight, ambient, chilled or frozen, and amount its mass."
FREIGHT_CODES = up_to(0, 2)
# "Code 100 to 1000 is a passenger class weight in hundredths of the lowest
# class, and amount a head count."
PASSENGER_CODES = up_to(100, 1000)
# "category (0 when quoted)"
QUOTED = 0

# "quantity 0 to 10^12, factor 0 to 10^10, mass 1 to 10^9, heads 1 to 10^6,
# distance 1 to 40,000,000 but only 0 in a hub, intensity 0 to 10^9"
QUANTITIES = up_to(0, 10 ** 12)
FACTORS = up_to(0, 10 ** 10)
MASSES = up_to(1, 10 ** 9)
HEADS = up_to(1, 10 ** 6)
DISTANCES = up_to(1, 40_000_000)
HUB_DISTANCES = up_to(0, 0)
INTENSITIES = up_to(0, 10 ** 9)
# "kg per head, 1 to 300, or 0 for the standard 100; freight and quotes hold
# 0"
KG_PER_HEAD = up_to(0, 300)
NO_KG_PER_HEAD = up_to(0, 0)

# "an entry's amounts 0 to 10^18 µg"
ENTRY_AMOUNTS = up_to(0, 10 ** 18)

# "would pass 10^18 µg in operation or provision, activity over all elements
# [...] would pass 10^17"
MOST_EMISSIONS = 10 ** 18
MOST_ACTIVITY = 10 ** 17

# "the distance plus 95,000 (the air default, Annex A.3.2)"
AIR_DEFAULT = 95_000
# "100 kg per passenger, Annex A.4.2"
PASSENGER_MASS = 100


# The records.

Category = namedtuple("Category", "kind closed")
Entry = namedtuple("Entry", "category group operation provision struck")
Element = namedtuple(
    "Element",
    "category chain code amount distance activity operation provision "
    "kg_per_head")

# Operation and provision are "kept separate throughout".
AMOUNTS = ("operation", "provision")

# A list of records: the word that counts them, the word where the first
# begins, how many there may be, and what a record is.
Listing = namedtuple("Listing", "count start most form")

# "words 1 to 3 count categories, entries, elements (limits 16, 64, 256)";
# "from word 4, categories, 2 words", "from word 36, entries, 5 words",
# "from word 356, elements"; "Element records get a ninth word"
CATEGORIES = Listing(1, 4, 16, Category)
ENTRIES = Listing(2, 36, 64, Entry)
ELEMENTS = Listing(3, 356, 256, Element)
LISTINGS = (CATEGORIES, ENTRIES, ELEMENTS)


def size(listing):
    return len(listing.form._fields)


def place(listing, number):
    """Where the record of that number begins. "Records are numbered from 1."
    """
    return listing.start + (number - 1) * size(listing)


def word(listing, number, field):
    """The index of a record's field."""
    return place(listing, number) + listing.form._fields.index(field)


def counted(words, listing):
    """The counted records of a list."""
    step = size(listing)
    starts = range(listing.start, place(listing, words[listing.count] + 1),
                   step)
    return [listing.form(*words[start:start + step]) for start in starts]


def append(words, listing, record):
    """Writes every word of a new record and counts it; its number."""
    number = words[listing.count] + 1
    start = place(listing, number)
    words[start:start + size(listing)] = record
    words[listing.count] = number
    return number


class Book:
    """The counted records of words whose counts are within their limits."""

    def __init__(self, words):
        self.categories = counted(words, CATEGORIES)
        self.entries = counted(words, ENTRIES)
        self.elements = counted(words, ELEMENTS)
        # The kind of each category, by its number.
        self.kinds = {number: category.kind
                      for number, category in enumerate(self.categories, 1)}

    def has_category(self, number):
        return number in self.kinds

    def kind(self, number):
        """The kind of a category, None where there is no such category."""
        return self.kinds.get(number)

    def is_closed(self, number):
        return (number in self.kinds
                and self.categories[number - 1].closed == 1)

    def is_open(self, number):
        """A quoted element is in no category, so in no open one."""
        return number in self.kinds and not self.is_closed(number)

    def entries_of(self, category):
        return [entry for entry in self.entries if entry.category == category]

    def elements_of(self, category):
        return [element for element in self.elements
                if element.category == category]

    def passengers_of(self, category):
        return [element for element in self.elements_of(category)
                if element.code in PASSENGER_CODES]


# What a call and the soundness have in common.

def unsuited_code(kind, code):
    """"Freight is enrolled in kind 2, passengers in kind 1 or 4"."""
    return (kind == PASSENGERS and code in FREIGHT_CODES
            or kind in (FREIGHT, HUB) and code in PASSENGER_CODES)


def unsuited_group(kind, group):
    """"group 1 or 2 is posted to kind 2"."""
    return kind == PASSENGERS and group in (1, 2)


def amounts_of(code):
    """The range of an amount, which is a head count or a mass."""
    return HEADS if code in PASSENGER_CODES else MASSES


def distances_of(kind):
    return HUB_DISTANCES if kind == HUB else DISTANCES


def kg_per_head_of(code):
    """The range of kg per head, "which for freight is 0 alone"."""
    return KG_PER_HEAD if code in PASSENGER_CODES else NO_KG_PER_HEAD


def is_weighed(kg_per_head):
    """Any number but 0 is a stated mass, whether or not it is in range."""
    return kg_per_head != 0


def mass_of_head(kg_per_head):
    """The stated mass, "or 0 for the standard 100"."""
    return kg_per_head if is_weighed(kg_per_head) else PASSENGER_MASS


def activity_of(kind, code, amount, distance):
    """"Activity is amount × distance for freight, amount in a hub, amount ×
    code × distance for passengers." A quoted element has no kind.
    """
    if code in PASSENGER_CODES:
        return amount * code * distance
    if kind == HUB:
        return amount
    return amount * distance


def limited_activity(code, amount, distance, activity):
    """What an element adds to the activity that ground 10 limits: "hubs and
    quotes too, passengers as in P". "P is the sum of head count × 100 ×
    distance"; "ground 10 still counts 100 per head", whatever the stated
    mass.
    """
    if code in PASSENGER_CODES:
        return amount * PASSENGER_MASS * distance
    return activity


def total(records, amount):
    """The sum of "operation" or of "provision" over entries or elements."""
    return sum(getattr(record, amount) for record in records)


def unstruck(entries):
    return [entry for entry in entries if entry.struck == 0]


def emissions_of(book, amount):
    """"Unstruck entries plus quoted shares" of the whole book."""
    return (total(unstruck(book.entries), amount)
            + total(book.elements_of(QUOTED), amount))


def whole_activity(book):
    """The "activity over all elements" that ground 10 limits."""
    return sum(limited_activity(element.code, element.amount,
                                element.distance, element.activity)
               for element in book.elements)


# Soundness.

def is_sound(words):
    """Whether 2,660 or more words hold a sound book."""
    return sound_book(words) is not None


def sound_book(words):
    """The book that 2,660 or more words hold, None where it is not sound.

    "A book is sound when word 0 and the counts are as above, every counted
    record has its fields in range [...], suits its category's kind [...] and
    has the right activity, the sums stay within refusal 10's limits, shares
    in open categories are 0, and in each closed category the shares sum to
    the category's unstruck entries, operation and provision each."
    Weighed and unweighed passengers in one category are a mixture: "a book
    that already holds such a mixture is not sound".
    """
    words = words[:LENGTH]
    if words != LAST[0]:
        LAST[:] = words, sound_book_of(words)
    return LAST[1]


# The words that were looked at last, and their book: the next call often
# finds the same.
LAST = [None, None]


def sound_book_of(words):
    """The same of exactly 2,660 words."""
    if words[0] != MARK:
        return None
    if any(words[listing.count] > listing.most for listing in LISTINGS):
        return None
    book = Book(words)
    if (all(is_right_category(category) for category in book.categories)
            and all(is_right_entry(book, entry) for entry in book.entries)
            and all(is_right_element(book, element)
                    for element in book.elements)
            and not any(is_mixed(book, number) for number in book.kinds)
            and sums_are_within_limits(book)
            and open_shares_are_0(book)
            and closed_shares_are_right(book)):
        return book
    return None


def is_right_category(category):
    return category.kind in KINDS and category.closed in FLAGS


def is_right_entry(book, entry):
    return (book.has_category(entry.category)
            and entry.group in GROUPS
            and entry.operation in ENTRY_AMOUNTS
            and entry.provision in ENTRY_AMOUNTS
            and entry.struck in FLAGS
            and not unsuited_group(book.kind(entry.category), entry.group))


def is_right_element(book, element):
    category, chain, code, amount, distance, activity = element[:6]
    kind = book.kind(category)
    if category == QUOTED:
        # "a quoted element has code 0 and a distance above 0"
        suits = code == 0
    else:
        suits = book.has_category(category) and not unsuited_code(kind, code)
    return (suits
            and chain in CHAINS
            and (code in FREIGHT_CODES or code in PASSENGER_CODES)
            and amount in amounts_of(code)
            and distance in distances_of(kind)
            and activity == activity_of(kind, code, amount, distance)
            and element.kg_per_head in kg_per_head_of(code))


def is_mixed(book, category):
    """Whether some passenger elements of a category, open or closed, are
    weighed and others are not."""
    return len({is_weighed(element.kg_per_head)
                for element in book.passengers_of(category)}) == 2


def sums_are_within_limits(book):
    return (all(emissions_of(book, amount) <= MOST_EMISSIONS
                for amount in AMOUNTS)
            and whole_activity(book) <= MOST_ACTIVITY)


def open_shares_are_0(book):
    return all(element.operation == 0 and element.provision == 0
               for element in book.elements
               if book.is_open(element.category))


def closed_shares_are_right(book):
    return all(total(book.elements_of(number), amount)
               == total(unstruck(book.entries_of(number)), amount)
               for number in book.kinds
               if book.is_closed(number)
               for amount in AMOUNTS)
