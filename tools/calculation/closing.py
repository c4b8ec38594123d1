"""What a closing divides, and what an intensity comes to.

Written from document 01 and from document 02's weighed passengers and
rounding. Sentences in quotation marks are their own.

An amount is "operation" or "provision". The codes of a class of elements are
the freight codes, the passenger codes or those of one group.
"""

from calculation.book import (
    AMOUNTS, FREIGHT_CODES, HUB, PASSENGER_CODES, mass_of_head, total,
    unstruck)
from calculation.dividing import shares_of
from calculation.rounding import nearest

# "Intensity (category, code 0, 1, 2 or 100)"
LOWEST_CLASS = 100
INTENSITY_CODES = (*FREIGHT_CODES, LOWEST_CLASS)
# "an intensity result, operation or provision, would pass 10^15"
MOST_INTENSITY = 10 ** 15

# "1 chilled, 2 frozen"
COLD_GROUPS = (1, 2)


class Sums:
    """The sums over the unstruck entries and the elements of a category."""

    def __init__(self, book, category):
        self.kind = book.kind(category)
        self.entries = unstruck(book.entries_of(category))
        # The category's elements alone, by their numbers.
        self.elements = {number: element for number, element
                         in enumerate(book.elements, 1)
                         if element.category == category}
        # "F is the freight activity; P is the sum of head count × 100 ×
        # distance (100 kg per passenger, Annex A.4.2); C is the passengers'
        # activity." "P uses the stated mass"
        self.F = self.activity(FREIGHT_CODES)
        self.P = sum(element.amount * mass_of_head(element.kg_per_head)
                     * element.distance
                     for element in self.elements.values()
                     if element.code in PASSENGER_CODES)
        self.C = self.activity(PASSENGER_CODES)

    def activity(self, codes):
        return sum(element.activity for element in self.elements.values()
                   if element.code in codes)

    def S(self, group):
        """The activity of a group."""
        return self.activity((group,))

    def pool(self, group, amount):
        """"A is the sum of group 0, B1 and B2 of groups 1 and 2"."""
        return total([entry for entry in self.entries
                      if entry.group == group], amount)

    def A(self, amount):
        return self.pool(0, amount)

    def B(self, group, amount):
        return self.pool(group, amount)

    def parts(self, amount):
        """The freight part and the passenger part: "Divide A by the weights
        F, P in that order."
        """
        return shares_of(self.A(amount), [self.F, self.P])


# Closing.

def is_without_weight(sums):
    """"Closing: F+P is 0, or a B, operation or provision, is above 0 and its
    S is 0". F+P of 0 hinders also where nothing is to be handed out; a B of
    0 does not hinder.
    """
    return sums.F + sums.P == 0 or any(
        sums.B(group, amount) > 0 and sums.S(group) == 0
        for group in COLD_GROUPS for amount in AMOUNTS)


def shares_by_number(sums, amount):
    """The number and the share of each element of the category."""
    freight_part, passenger_part = sums.parts(amount)
    # "Divide the freight part over freight elements by activity, the
    # passenger part over passenger elements by activity, each B over the
    # freight elements of its group."
    divisions = [(freight_part, FREIGHT_CODES),
                 (passenger_part, PASSENGER_CODES)]
    divisions += [(sums.B(group, amount), (group,)) for group in COLD_GROUPS]
    # "A share is the sum of an element's parts."
    shares = dict.fromkeys(sums.elements, 0)
    for pool, codes in divisions:
        for number, part in parts_by_number(sums, pool, codes):
            shares[number] += part
    return shares.items()


def parts_by_number(sums, pool, codes):
    """A pool divided over the elements of these codes alone."""
    members = [number for number, element in sums.elements.items()
               if element.code in codes]
    weights = [sums.elements[number].activity for number in members]
    return zip(members, shares_of(pool, weights))


# Intensity.

def divisors(sums, code):
    """The F, S or C that an intensity is divided by."""
    if code == LOWEST_CLASS:
        return [sums.C]
    if code in COLD_GROUPS:
        return [sums.F, sums.S(code)]
    return [sums.F]


def quotients(sums, code, amount):
    """What is divided for an intensity, and by what: one pair or two."""
    freight_part, passenger_part = sums.parts(amount)
    if code == LOWEST_CLASS:
        # "Code 100, mg per lowest-class passenger-km: passenger part × 100 /
        # C."
        return [(passenger_part * 100, sums.C)]
    # "Freight in mg per tonne-km: freight part × 1000 / F, plus B × 1000 / S
    # for 1 and 2. Hub, mg per tonne: the same without 1000."
    scale = 1 if sums.kind == HUB else 1000
    found = [(freight_part * scale, sums.F)]
    if code in COLD_GROUPS:
        found.append((sums.B(code, amount) * scale, sums.S(code)))
    return found


def intensity_of(sums, code, amount):
    """An intensity whose divisors are above 0: "each quotient below is
    rounded to nearest, [...] and then added"; "Halves go to the even number."
    """
    return sum(nearest(number, divisor)
               for number, divisor in quotients(sums, code, amount))
