"""The dividing rule, by exact integers.

Written from document 01 alone. Sentences in quotation marks are its own.
"""

from collections import namedtuple

# Refusal numbers.
ACCEPTED = 0
BAD_SLICE = 1
NO_WEIGHT = 9
OVER_LIMIT = 10

MOST_WEIGHTS = 256
LIMIT = 10 ** 18


# What a weight gets: the floor, the remainder behind it, and 1 where a unit
# left over goes to it, else 0.
Portion = namedtuple("Portion", "floor remainder unit")


def portions_of(pool, weights):
    """What the dividing rule gives each weight, without its refusals.

    "A pool G goes to weights w of sum T > 0." A pool above 0 needs T > 0.
    """
    # "A pool of 0 gives 0 to each, also where there are no weights or T
    # is 0."
    if pool == 0:
        return [Portion(0, 0, 0)] * len(weights)
    total = sum(weights)

    # "Each gets floor(G×w/T)."
    floors = [pool * weight // total for weight in weights]
    remainders = [pool * weight % total for weight in weights]
    left_over = pool - sum(floors)

    # "The units left over go one each to the largest remainders of G×w by
    # T, equal remainders to the earlier place."
    order = sorted(
        range(len(weights)), key=lambda place: (-remainders[place], place)
    )
    units = [0] * len(weights)
    for place in order[:left_over]:
        units[place] = 1
    return list(map(Portion, floors, remainders, units))


def shares_of(pool, weights):
    """The shares of the dividing rule, without its refusals."""
    return [portion.floor + portion.unit
            for portion in portions_of(pool, weights)]


def divide(pool, weights, share_count):
    """The dividing rule called by itself: (refusal number, shares or None).

    share_count is the length of the share slice. "Called by itself the rule
    refuses, writing no share": the shares of a refusal are None.
    """
    # "with 1 a share slice of another length than the weights or a length
    # over 256"
    if share_count != len(weights) or share_count > MOST_WEIGHTS:
        return BAD_SLICE, None
    # T is the true sum, which may pass 64 bits.
    total = sum(weights)
    # "then with 9 a pool above 0 whose T is 0"
    if pool > 0 and total == 0:
        return NO_WEIGHT, None
    # "then with 10 a pool or T over 10^18"; this holds for a pool of 0 too.
    if pool > LIMIT or total > LIMIT:
        return OVER_LIMIT, None
    return ACCEPTED, shares_of(pool, weights)
