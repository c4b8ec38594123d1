"""Files for the lines of a sheet: one chain and many, in many orders, with
elements that wait, are closed or are quoted. All of them are loaded."""

from cases.file_parts import element_of, kind_of
from cases.file_writer import file_of
from cases.random_files import ELEMENTS

LARGEST = 10 ** 9

# The category of each element in turn, 0 for a quote; which categories are
# closed; the quantity of an entry and the mass of a quote.
SORTS = {
    "quoted": ((0,), (), LARGEST),
    "waiting": (range(1, 17), (), 1),
    "closed": (range(1, 5), range(1, 5), LARGEST),
    "of categories closed in part": (range(17), (1, 2, 4, 7, 8, 11, 16),
                                     999_983),
    "waiting, closed and quoted by turns": ((1, 2, 0), (2,), 1),
    "waiting and quoted by turns": ((3, 0), (), LARGEST - 1),
}


def chains_of(count):
    """So many chains from 1 to 10,000, ascending."""
    return [1 + 9999 * place // (count - 1) for place in range(count)]


# Neighbours, and chains whose lowest bits are equal.
LIKE = [1, 2, 3, 17, 255, 256, 257, 1807, 1808, 4096, 4097, 8192, 8193, 9999,
        10_000]
CHAINS = [[1], [10_000], LIKE,
          *map(chains_of, (2, 31, 32, 33, 255, 256))]


def orders(chains, rng):
    """The chain of each element: every chain once, or again behind the others
    as often as there is room."""
    def shuffled():
        return rng.sample(chains, len(chains))

    back = chains[::-1]
    rounds = range(ELEMENTS // len(chains) + 1)
    for name, order in (
        ("ascending", chains), ("descending", back), ("shuffled", shuffled()),
        ("ascending and back", chains + back),
        ("ascending in rounds", chains * ELEMENTS),
        ("descending in rounds", back * ELEMENTS),
        ("shuffled in rounds", [chain for _ in rounds
                                for chain in shuffled()]),
    ):
        yield name, order[:ELEMENTS]


def parts_on(chains, turns, closed, size):
    """An element on each of these chains, in their order. A category is
    closed only where it has elements. Entries and quotes sum to 10^9 times
    `size` or a little less, in operation and in provision; no quote is
    rounded."""
    sorts = [turns[place % len(turns)] for place in range(len(chains))]
    numbers = range(1, max(turns) + 1)
    count = len(numbers) + sorts.count(0)
    factors = iter([(LARGEST // count + more, LARGEST // count + 3 * more)
                    for more in range(1 - count, count, 2)])
    categories = [(kind_of(number), int(number in closed and number in sorts))
                  for number in numbers]
    entries = [(number, 0, size, *next(factors)) for number in numbers]
    elements = [element_of(category, chain, place) if category > 0
                else (0, chain, 0, 0, size, 1000, *next(factors))
                for place, (category, chain) in enumerate(zip(sorts, chains))]
    return categories, entries, elements


def files(rng):
    """Pairs of a name and the bytes, each file once."""
    names = {}
    for chains in CHAINS:
        for order, listed in orders(chains, rng):
            for sort, (turns, closed, size) in SORTS.items():
                names.setdefault(
                    file_of(*parts_on(listed, turns, closed, size)),
                    "%d elements %s, %d chains from %d, %s" % (
                        len(listed), sort, len(chains), chains[0], order))
    return [(name, data) for data, name in names.items()]
