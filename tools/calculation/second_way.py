"""The rules of document 01 once more, and those of document 02's weighed
passengers, lines, previews and rounding, by other means; the checks compare.

The dividing rule hands out its units one at a time, soundness goes through
the words with running sums, the calls work on lists beside the book, the
doubles of a line are compared as doubles and rounded as decimal numbers, a
preview closes nothing: it adds the parts to what the elements hold, and
halves go to the even number by Python's own rounding of fractions and decimal
numbers.
"""

import struct
from decimal import ROUND_HALF_EVEN, Decimal
from fractions import Fraction

EMISSIONS = 10 ** 18
ACTIVITY = 10 ** 17
INTENSITY = 10 ** 15

# The numbers of "Grounds, in checking order", which are not in order of size
# once a request puts one between others. A ground of a cell is its number
# with the cell's place in the line. The cases go by this list too; the
# calculation has the order in its tests, and nothing from here.
CHECKING_ORDER = ((15, 1), (16, 1), (15, 2), (16, 2), (15, 3), (16, 3),
                  1, 17, 2, 3, 4, 5, 6, 14, 7, 8, 9, 10, 11, 12, 13)


def in_checking_order(grounds):
    return sorted(grounds, key=CHECKING_ORDER.index)


def number_of(ground):
    """The refusal number of a ground."""
    return ground[0] if isinstance(ground, tuple) else ground


# The dividing rule.

def one_at_a_time(pool, weights):
    """The second way: each unit left over goes to the first place with the
    largest remainder among the places not yet served."""
    total = sum(weights)
    shares = []
    remainders = []
    for weight in weights:
        share, remainder = divmod(pool * weight, total)
        shares.append(share)
        remainders.append(remainder)
    served = [False] * len(weights)
    while sum(shares) < pool:
        best = None
        for place in range(len(weights)):
            if served[place]:
                continue
            if best is None or remainders[place] > remainders[best]:
                best = place
        shares[best] += 1
        served[best] = True
    return shares


# The second way of soundness: by the words, with running sums.

def is_sound_by_words(words):
    if words[0] != 14083:
        return False
    categories, entries, elements = words[1:4]
    if categories > 16 or entries > 64 or elements > 256:
        return False
    for start in range(4, 4 + 2 * categories, 2):
        if not 0 < words[start] < 5 or words[start + 1] > 1:
            return False
    operation_sum = provision_sum = activity_sum = 0
    # What the shares of each category have to come to, less what they do.
    owed = [[0, 0] for _ in range(categories + 1)]
    # Which kg per head the passengers of each category began with.
    first_kg = {}
    for start in range(36, 36 + 5 * entries, 5):
        category, group, operation, provision, struck = words[start:start + 5]
        if category == 0 or category > categories or group > 2 or struck > 1:
            return False
        if operation > EMISSIONS or provision > EMISSIONS:
            return False
        if group != 0 and words[2 + 2 * category] == 2:
            return False
        if struck == 0:
            operation_sum += operation
            provision_sum += provision
            owed[category][0] += operation
            owed[category][1] += provision
    for start in range(356, 356 + 9 * elements, 9):
        (category, chain, code, amount, distance, activity, operation,
         provision, kg_per_head) = words[start:start + 9]
        if category > categories or chain == 0 or chain > 10_000:
            return False
        if amount == 0 or distance > 40_000_000 or kg_per_head > 300:
            return False
        if code < 3 and kg_per_head > 0:
            return False
        kind = words[2 + 2 * category] if category > 0 else 0
        if kind == 4:
            # A hub: freight alone, over no distance.
            if code > 2 or amount > 10 ** 9 or distance != 0:
                return False
            if activity != amount:
                return False
            activity_sum += amount
        elif code < 3:
            # Freight; a quoted one has the code 0.
            if distance == 0 or amount > 10 ** 9 or kind == 2:
                return False
            if kind == 0 and code != 0 or activity != amount * distance:
                return False
            activity_sum += amount * distance
        else:
            # Passengers.
            if code < 100 or code > 1000 or kind not in (2, 3):
                return False
            if distance == 0 or amount > 10 ** 6:
                return False
            if activity != amount * distance * code:
                return False
            activity_sum += amount * distance * 100
            # All weighed where the first is, otherwise none.
            if first_kg.setdefault(category, kg_per_head) == 0:
                if kg_per_head > 0:
                    return False
            elif kg_per_head == 0:
                return False
        if category == 0:
            operation_sum += operation
            provision_sum += provision
        elif words[3 + 2 * category] == 0:
            if operation + provision != 0:
                return False
        else:
            owed[category][0] -= operation
            owed[category][1] -= provision
    if max(operation_sum, provision_sum) > EMISSIONS:
        return False
    if activity_sum > ACTIVITY:
        return False
    return all(owed[number] == [0, 0] for number in range(1, categories + 1)
               if words[3 + 2 * number] == 1)


# The second way of cells: doubles, and decimal numbers.

def doubles_of(cell):
    return [struct.unpack("<d", struct.pack("<Q", bits))[0] for bits in cell]


def cell_grounds(cells):
    """Whether each ground of each cell holds. Python compares a double with a
    whole number exactly; NaN is in no order."""
    grounds = {}
    limits = 10 ** 9, 10 ** 7, 10 ** 7
    for place, (cell, limit) in enumerate(zip(cells, limits), 1):
        doubles = doubles_of(cell)
        grounds[15, place] = not doubles or not all(
            0 <= double <= limit for double in doubles)
        grounds[16, place] = len(doubles) == 2 and doubles[1] < doubles[0]
    return grounds


def refusal_of_cells(cells):
    grounds = cell_grounds(cells)
    return first(grounds) if any(grounds.values()) else 0


def number_in(cell):
    """The number of a cell that is not refused."""
    # A double has an exact decimal value.
    ends = [int(Decimal(double).quantize(Decimal("0.001"), ROUND_HALF_EVEN)
                .scaleb(3)) for double in doubles_of(cell)]
    # A sum of 4 k + 1 is half a unit above an even mean, one of 4 k + 3 above
    # an odd one.
    both = ends[0] + ends[-1]
    return both // 2 + (both % 4 == 3)


# The second way of the calls: lists beside the book, and running sums.

class Lists:
    """Takes nothing from a book. A record is a list of its words."""

    def __init__(self):
        self.categories = []
        self.entries = []
        self.elements = []
        self.sums = [0, 0]
        self.activity = 0

    def read(self, words):
        """Takes over the records of a sound book."""
        for listed, count, start, size in (
            (self.categories, words[1], 4, 2), (self.entries, words[2], 36, 5),
            (self.elements, words[3], 356, 9),
        ):
            for place in range(start, start + count * size, size):
                listed.append(words[place:place + size])
        for _, _, operation, provision, struck in self.entries:
            if struck == 0:
                self.sums[0] += operation
                self.sums[1] += provision
        for (category, _, code, amount, distance, activity, operation,
             provision, _) in self.elements:
            if category == 0:
                self.sums[0] += operation
                self.sums[1] += provision
            self.activity += (activity if code < 3
                              else 100 * amount * distance)

    def write(self, words):
        """Writes the header and the records, and no other words."""
        words[:4] = [14083, len(self.categories), len(self.entries),
                     len(self.elements)]
        for listed, start in ((self.categories, 4), (self.entries, 36),
                              (self.elements, 356)):
            flat = [word for record in listed for word in record]
            words[start:start + len(flat)] = flat

    def words(self):
        """The 2,660 words of a book that holds nothing else."""
        words = [0] * 2660
        self.write(words)
        return words

    def category(self, number):
        """[kind, closed], or [0, 0] where there is no such category."""
        if number in range(1, len(self.categories) + 1):
            return self.categories[number - 1]
        return [0, 0]

    def passes(self, amounts, activity):
        return (self.activity + activity > ACTIVITY
                or any(old + new > EMISSIONS
                       for old, new in zip(self.sums, amounts)))

    def open(self, kind):
        grounds = {3: kind - 1 not in range(4), 8: len(self.categories) > 15}
        if any(grounds.values()):
            return first(grounds), 0
        self.categories.append([kind, 0])
        return 0, len(self.categories)

    def post(self, category, group, quantity, *factors):
        kind, closed = self.category(category)
        amounts = [quantity * factor for factor in factors]
        grounds = {
            2: kind == 0,
            3: group > 2,
            4: closed == 1,
            6: kind == 2 and group != 0,
            7: quantity > 10 ** 12 or max(factors) > 10 ** 10,
            8: len(self.entries) > 63,
            10: self.passes(amounts, 0),
        }
        if any(grounds.values()):
            return first(grounds), 0
        self.entries.append([category, group, *amounts, 0])
        self.sums = [old + new for old, new in zip(self.sums, amounts)]
        return 0, len(self.entries)

    def line(self, category, group, *cells):
        refusal = refusal_of_cells(cells)
        if refusal != 0:
            return refusal, 0
        return self.post(category, group, *map(number_in, cells))

    def strike(self, number):
        if number == 0 or number > len(self.entries):
            return (2,)
        entry = self.entries[number - 1]
        if entry[4] == 1 or self.category(entry[0])[1] == 1:
            return (4,)
        entry[4] = 1
        self.sums = [old - gone for old, gone in zip(self.sums, entry[2:4])]
        return (0,)

    def weighed_and_not(self, category):
        """How many passenger elements of a category are weighed, and how
        many are not."""
        weighed = [element[8] > 0 for element in self.elements
                   if element[0] == category and element[2] > 2]
        return weighed.count(True), weighed.count(False)

    def enrol(self, category, chain, code, amount, distance, kg_per_head=0):
        kind, closed = self.category(category)
        passengers = 100 <= code <= 1000
        if passengers:
            activity, counts = amount * code * distance, amount * 100 * distance
        else:
            activity = counts = amount * (1 if kind == 4 else distance)
        grounds = {
            2: kind == 0,
            3: not 0 < chain < 10_001 or not (passengers or code < 3),
            4: closed == 1,
            6: kind in ((1, 4) if passengers else (2,)),
            # One of the other sort is there.
            14: (passengers
                 and self.weighed_and_not(category)[kg_per_head > 0] > 0),
            7: (not 0 < amount <= (10 ** 6 if passengers else 10 ** 9)
                or kg_per_head > 300 * passengers
                or (distance != 0 if kind == 4
                    else not 0 < distance <= 40_000_000)),
            8: len(self.elements) > 255,
            10: self.passes((0, 0), counts),
        }
        if any(grounds.values()):
            return first(grounds), 0
        self.elements.append([category, chain, code, amount, distance,
                              activity, 0, 0, kg_per_head])
        self.activity += counts
        return 0, len(self.elements)

    def quote(self, chain, adjust, mass, distance, *intensities):
        longer = distance + 95_000 * (adjust == 1)
        # Python rounds a half to the even number.
        amounts = [round(Fraction(intensity * mass * longer, 1000))
                   for intensity in intensities]
        grounds = {
            3: not 0 < chain < 10_001 or adjust > 1,
            7: (not 0 < mass <= 10 ** 9 or not 0 < distance <= 40_000_000
                or max(intensities) > 10 ** 9),
            8: len(self.elements) > 255,
            10: self.passes(amounts, mass * distance),
        }
        if any(grounds.values()):
            return first(grounds), 0
        self.elements.append([0, chain, 0, mass, distance, mass * distance,
                              *amounts, 0])
        self.sums = [old + new for old, new in zip(self.sums, amounts)]
        self.activity += mass * distance
        return 0, len(self.elements)

    def entry_sums(self, number):
        """The unstruck entries of a category: [A, B1, B2] of operation, and
        of provision."""
        sums = [[0, 0, 0], [0, 0, 0]]
        for category, group, operation, provision, struck in self.entries:
            if category == number and struck == 0:
                sums[0][group] += operation
                sums[1][group] += provision
        return sums

    def weights(self, number):
        """A row for each element of a category: what it weighs in F, in P,
        in C and in S of groups 1 and 2; most are 0. Then their sums."""
        rows = []
        for (category, _, code, amount, distance, activity, _, _,
             kg_per_head) in self.elements:
            if category != number:
                continue
            if code < 3:
                rows.append((activity, 0, 0, activity * (code == 1),
                             activity * (code == 2)))
            else:
                kg = amount * (100 if kg_per_head == 0 else kg_per_head)
                rows.append((0, kg * distance, activity, 0, 0))
        return rows, [sum(row[place] for row in rows) for place in range(5)]

    def closing_grounds(self, number):
        kind, closed = self.category(number)
        f, p, _, s1, s2 = self.weights(number)[1]
        return {
            2: kind == 0,
            4: closed == 1,
            9: f + p == 0 or any(b1 > 0 and s1 == 0 or b2 > 0 and s2 == 0
                                 for _, b1, b2 in self.entry_sums(number)),
        }

    def parts(self, number):
        """What a closing hands out: the place of an element in the list, the
        amount, 0 or 1, and one of the parts that the element gets."""
        rows, (f, p, *_) = self.weights(number)
        own = [place for place, element in enumerate(self.elements)
               if element[0] == number]
        for amount, (a, b1, b2) in enumerate(self.entry_sums(number)):
            freight_part, passenger_part = one_at_a_time(a, [f, p])
            # Every pool over all elements of the category, many with 0.
            for pool, column in ((freight_part, 0), (passenger_part, 2),
                                 (b1, 3), (b2, 4)):
                if pool > 0:
                    parts = one_at_a_time(pool, [row[column] for row in rows])
                    for place, part in zip(own, parts):
                        yield place, amount, part

    def close(self, number):
        grounds = self.closing_grounds(number)
        if any(grounds.values()):
            return (first(grounds),)
        for place, amount, part in self.parts(number):
            self.elements[place][6 + amount] += part
        self.categories[number - 1][1] = 1
        return (0,)

    def preview(self, number, pair_length):
        grounds = {17: pair_length < 512, **self.closing_grounds(number)}
        if any(grounds.values()):
            return (first(grounds),)
        pairs = [0] * 512
        for place, element in enumerate(self.elements):
            pairs[2 * place:2 * place + 2] = element[6:8]
        for place, amount, part in self.parts(number):
            pairs[2 * place + amount] += part
        return 0, *pairs

    def statement(self, chain):
        """Running sums, also of the total."""
        if chain == 0 or chain > 10_000:
            return 3, 0, 0, 0, 0, 0
        # 0, of the quoted ones, is not among the open categories.
        still_open = {number for number, category
                      in enumerate(self.categories, 1) if category[1] == 0}
        count = waiting = operation = provision = both = 0
        for element in self.elements:
            if element[1] == chain:
                count += 1
                waiting += 1 if element[0] in still_open else 0
                operation += element[6]
                provision += element[7]
                both += element[6] + element[7]
        return 0, count, waiting, operation, provision, both

    def intensity(self, number, code):
        kind, closed = self.category(number)
        f, p, c, s1, s2 = self.weights(number)[1]
        # What the quotients are divided by.
        below = {0: (f,), 1: (f, s1), 2: (f, s2), 100: (c,)}.get(code, ())
        scale = 100 if code == 100 else 1 if kind == 4 else 1000
        results = [0, 0]
        if below and 0 not in below:
            for amount, pools in enumerate(self.entry_sums(number)):
                parts = one_at_a_time(pools[0], [f, p])
                above = [parts[1]] if code == 100 else [parts[0], *pools[1:]]
                if code == 2:
                    del above[1]
                results[amount] = sum(
                    round(Fraction(part * scale, divisor))
                    for part, divisor in zip(above, below))
        grounds = {
            2: kind == 0,
            3: below == (),
            5: closed == 0,
            9: 0 in below,
            10: max(results) > INTENSITY,
        }
        if any(grounds.values()):
            return first(grounds), 0, 0
        return 0, *results

    def close_anyhow(self, number, rng):
        """Closes a category with elements: any shares with the right sums."""
        own = [element for element in self.elements if element[0] == number]
        for amount in (0, 1):
            pool = sum(self.entry_sums(number)[amount])
            for element in own[1:]:
                element[6 + amount] = rng.randrange(pool + 1)
                pool -= element[6 + amount]
            own[0][6 + amount] = pool
        self.categories[number - 1][1] = 1


def first(grounds):
    """The refusal number: the first ground that holds."""
    return number_of(in_checking_order(
        ground for ground, holds in grounds.items() if holds)[0])


def second_way(name, words, arguments):
    """The numbers that a call gives; changes the words."""
    if name == "fresh":
        if len(words) < 2660:
            return [1]
        for index in range(2660):
            words[index] = 0 if index > 0 else 14083
        return [0]
    if name == "line":
        # The cells come before the book.
        refusal = refusal_of_cells(arguments[2:])
        if refusal != 0:
            return [refusal, 0]
    if words[:2660] != KEPT[0]:
        KEPT[:] = words[:2660], lists_of(words)
    lists = KEPT[1]
    if lists is None:
        # Open, post, line, enrol and quote give a number.
        return {"strike": [1], "close": [1], "preview": [1],
                "intensity": [1, 0, 0],
                "statement": [1, 0, 0, 0, 0, 0]}.get(name, [1, 0])
    numbers = getattr(lists, name)(*arguments)
    # These leave the words alone.
    if name not in ("preview", "statement", "intensity"):
        lists.write(words)
        if numbers[0] == 0:
            # They are those of other words now.
            KEPT[:] = None, None
    return list(numbers)


# The words that were read last, and their lists: the next call often finds
# the same.
KEPT = [None, None]


def lists_of(words):
    """The lists of a sound book, otherwise None."""
    if len(words) < 2660 or not is_sound_by_words(words):
        return None
    lists = Lists()
    lists.read(words)
    return lists
