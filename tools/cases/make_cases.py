#!/usr/bin/env python3
"""Makes the cases of the program replay: its stored input and output.

    python3 tools/cases/make_cases.py            writes crates/replay/stdin,
                                                 stdout
    python3 tools/cases/make_cases.py --check    writes nothing; exit status 1
                                                 when the stored bytes differ

The same seed gives the same bytes: only randrange and getrandbits are used.
"""

import os
import random
import sys

sys.path.insert(0, os.path.dirname(os.path.dirname(os.path.abspath(__file__))))

from calculation import dividing, player
from cases import book_cases, file_cases
from cases.file_writer import EXAMPLE, load_records

SEED = 14083
ROOT = os.path.dirname(os.path.dirname(os.path.dirname(
    os.path.abspath(__file__))))
STDIN = os.path.join("crates", "replay", "stdin")
STDOUT = os.path.join("crates", "replay", "stdout")

LIMIT = 10 ** 18
WORD = 2 ** 64
LARGEST = WORD - 1


class Cases:
    """A growing list of records, each played as it is added."""

    def __init__(self):
        self.records = []
        self.player = player.Player()
        self.kinds = {}  # kind of division -> how many

    def record(self, operation, *arguments):
        """Adds a record: the numbers that it prints, or None."""
        words = (operation,) + arguments + (0,) * (7 - len(arguments))
        return self.add(player.RECORD.pack(*words))

    def add(self, record):
        """The same of the record's bytes."""
        self.records.append(record)
        return self.player.play(record)

    def load(self, data):
        """Adds the records of a load: the numbers that it prints."""
        return [self.add(record) for record in load_records(data)][-1]

    def division(self, pool, weights, share_count=None):
        """Appends the weights, then divides; equal lengths by default."""
        if share_count is None:
            share_count = len(weights)
        for weight in weights:
            self.record(player.APPEND_WEIGHT, weight)
        self.record(player.DIVIDE, pool, share_count)
        kind = kind_of_division(pool, weights, share_count)
        self.kinds[kind] = self.kinds.get(kind, 0) + 1

    def data(self):
        return b"".join(self.records)


KINDS = (
    "refusal 1",
    "refusal 9",
    "refusal 10",
    "pool of 0",
    "no units left over",
    "units left over end inside a group of ties",
    "units left over end at the end of a group of ties",
    "units left over end at a single remainder, ties before it",
    "units left over end at a single remainder, no ties before it",
)


def kind_of_division(pool, weights, share_count):
    """What a division tests; every one of KINDS must occur."""
    refusal = dividing.divide(pool, weights, share_count)[0]
    if refusal != 0:
        return "refusal %d" % refusal
    if pool == 0:
        return "pool of 0"
    total = sum(weights)
    remainders = sorted((pool * w % total for w in weights), reverse=True)
    left_over = sum(remainders) // total
    if left_over == 0:
        return "no units left over"
    served = remainders[:left_over]
    last = served[-1]
    if remainders[left_over] == last:
        return "units left over end inside a group of ties"
    if left_over > 1 and served[-2] == last:
        return "units left over end at the end of a group of ties"
    for one, next_one in zip(served, served[1:]):
        if one == next_one:
            return "units left over end at a single remainder, ties before it"
    return "units left over end at a single remainder, no ties before it"


# Random numbers.

def by_bits(rng, most_bits):
    """A number whose bit length is uniform from 0 to most_bits."""
    bits = rng.randrange(most_bits + 1)
    if bits == 0:
        return 0
    return 1 << (bits - 1) | rng.randrange(1 << (bits - 1))


def pool_up_to_limit(rng):
    """A pool from 0 to 10^18, uniform in bit length."""
    return min(by_bits(rng, 60), LIMIT)


def fitted(weights):
    """The weights, halved together until their sum is at most 10^18."""
    while sum(weights) > LIMIT:
        weights = [weight // 2 for weight in weights]
    return weights


# The dividing rule.

def reckoned_by_hand(cases):
    cases.division(10, [1, 1, 1])
    cases.division(10, [1, 2, 4])
    cases.division(1, [1, 1])
    cases.division(2, [1, 1, 1, 1])
    cases.division(0, [5])


def ties(cases, rng):
    # Equal weights.
    for count in range(1, 7):
        for pool in range(2 * count + 1):
            cases.division(pool, [3] * count)
    # Several groups of equal remainders, every pool up to past T.
    for weights in (
        [1, 2, 1, 2, 1, 2],
        [2, 2, 1, 1, 3, 3],
        [3, 1, 3, 1, 5, 5, 1],
        [4, 6, 4, 6, 10],
        [1, 8, 1, 8, 3, 3],
    ):
        for pool in range(sum(weights) + 2):
            cases.division(pool, weights)
    # Unlike weights with equal remainders: w and w + T/2 with an even pool.
    for pool in range(0, 21, 2):
        cases.division(pool, [1, 6, 3])
        cases.division(pool, [6, 1, 3])
        cases.division(pool, [11, 1, 2, 6])
    # Equal weights of large sums.
    for count in (2, 3, 7, 9, 64):
        weights = [LIMIT // count] * count
        for pool in (1, count - 1, count, count + 1, LIMIT - 1, LIMIT):
            cases.division(pool, weights)
    # Remainders that differ by 1 beside a T near 10^18.
    third = LIMIT // 3
    for pool in (LIMIT - 1, LIMIT - 2, LIMIT, third, third + 1, 2 * third):
        cases.division(pool, [third, third + 1, third])
        cases.division(pool, [third + 1, third, third])
        cases.division(pool, [third, third, third + 1])
        cases.division(pool, [third - 1, third, third + 2])
    # Few values among many weights.
    for _ in range(60):
        values = [1 + by_bits(rng, 1 + rng.randrange(50))
                  for _ in range(1 + rng.randrange(4))]
        weights = fitted([values[rng.randrange(len(values))]
                          for _ in range(2 + rng.randrange(24))])
        total = sum(weights)
        if rng.randrange(2) == 0:
            pool = pool_up_to_limit(rng)
        else:
            pool = 1 + rng.randrange(2 * total if total < LIMIT // 2 else total)
        cases.division(pool, weights)
    # Small values, where groups of unlike weights meet in one remainder.
    for _ in range(80):
        weights = [rng.randrange(9) for _ in range(2 + rng.randrange(12))]
        cases.division(1 + rng.randrange(60), weights)


def whole_parts(cases, rng):
    """Pools at and beside multiples of T."""
    for _ in range(12):
        weights = [1 + by_bits(rng, 20) for _ in range(1 + rng.randrange(9))]
        total = sum(weights)
        times = 1 + by_bits(rng, 30)
        for pool in (total - 1, total, total + 1,
                     times * total - 1, times * total, times * total + 1):
            cases.division(pool, weights)


def zero_weights(cases):
    for pool in (0, 1, 2, 10, 11, LIMIT):
        cases.division(pool, [0, 1, 1, 1])
        cases.division(pool, [0, 0, 3, 4])
        cases.division(pool, [1, 0, 1, 1])
        cases.division(pool, [5, 0, 0, 2, 0, 5])
        cases.division(pool, [1, 1, 1, 0])
        cases.division(pool, [0, 7, 0])
        cases.division(pool, [0, 2, 0, 0, 3, 2, 0])
    cases.division(LIMIT, [0] * 255 + [1])
    for pool in (0, 1, LIMIT, LIMIT + 1, LARGEST):
        cases.division(pool, [])
        cases.division(pool, [0])
        cases.division(pool, [0, 0, 0])
    for pool in (0, 1):
        cases.division(pool, [0] * 256)


def pools_of_0(cases):
    for weights in (
        [5], [1, 2, 3], [LIMIT], [LIMIT - 1], [LIMIT - 3, 1, 2],
        [LIMIT + 1], [LIMIT, 1], [LIMIT // 2, 0, LIMIT // 2 + 1],
        [LARGEST], [2 ** 63, 2 ** 63], [LARGEST, 1], [LARGEST, 6],
        [LIMIT // 256] * 256,
    ):
        cases.division(0, weights)


def lengths(cases, rng):
    for count in (0, 1, 2, 255, 256, 257, 300):
        weights = [1 + by_bits(rng, 51) for _ in range(count)]
        cases.division(1 + pool_up_to_limit(rng) // 2, weights)
    # Over 256 with equal lengths comes before every other ground.
    cases.division(5, [0] * 257)
    cases.division(LARGEST, [LARGEST] * 300)
    # The largest pool over the most weights.
    cases.division(LIMIT, [LIMIT // 256] * 256)
    cases.division(255, [LIMIT // 256] * 256)
    cases.division(LIMIT, [LIMIT // 256 + 1] * 128 + [LIMIT // 256 - 1] * 128)
    # Unequal lengths.
    for count in (0, 1, 2, 3, 8):
        for share_count in (0, 1, count - 1, count + 1, 256, 257, 300):
            if share_count >= 0 and share_count != count:
                cases.division(10, [1] * count, share_count)
    for count, share_count in (
        (255, 256), (256, 255), (256, 257), (256, 0), (257, 256), (300, 44),
        (300, 299),
    ):
        cases.division(count, [1] * count, share_count)
    # Lengths that are equal modulo 256.
    for count in (0, 1, 44):
        cases.division(7, [1] * count, count + 256)
    # Unequal lengths together with other grounds: 1 comes first.
    for pool, weights in (
        (0, []), (0, [0]), (0, [1, 2]), (0, [LIMIT, 1]),
        (1, []), (1, [0]), (1, [0, 0]), (LARGEST, [0, 0]),
        (LIMIT + 1, [1, 2]), (1, [LIMIT, 1]), (LARGEST, [LARGEST] * 3),
        (1, [2 ** 63, 2 ** 63]),
    ):
        for share_count in (len(weights) - 1, len(weights) + 1):
            if share_count >= 0:
                cases.division(pool, weights, share_count)


def limits(cases):
    at_limit = (LIMIT - 1, LIMIT, LIMIT + 1)
    for pool in at_limit:
        for total in at_limit:
            cases.division(pool, [total])
            cases.division(pool, [total - 1, 1])
            cases.division(pool, [1, total - 1])
            cases.division(pool, [total // 2, total - total // 2])
            cases.division(pool, [total // 3, 0, total - total // 3])
            cases.division(pool, [10 ** 17] * 9 + [total - 9 * 10 ** 17])
        cases.division(pool, [1])
        cases.division(pool, [1, 1, 1])
        cases.division(pool, [0, 0])
        cases.division(pool, [])
    for total in at_limit:
        cases.division(1, [total])
        cases.division(1, [total - 1, 1])
        cases.division(2, [total // 2, total - total // 2])
    # The largest pool.
    for weights in ([], [0], [1], [1, 2, 3], [LIMIT], [LIMIT + 1], [LARGEST],
                    [LARGEST, LARGEST], [2 ** 63, 2 ** 63]):
        cases.division(LARGEST, weights)
        cases.division(2 ** 63, weights)
        cases.division(2 ** 60, weights)
    # T past 2^64. The sum of 256 weights of 2^56 and the sums of the last
    # list are 0 or at most 10^18 modulo 2^64.
    for weights in (
        [LARGEST] * 2, [LARGEST] * 3, [LARGEST] * 17,
        [LARGEST, LARGEST, 0, LARGEST], [LIMIT] * 19, [2 ** 63 - 1] * 3,
    ):
        cases.division(1, weights)
        cases.division(LIMIT, weights)
    for weights in ([LARGEST] * 256, [2 ** 56] * 256):
        cases.division(1, weights)
    for weights in (
        [2 ** 63, 2 ** 63], [2 ** 63, 0, 2 ** 63], [LARGEST, 1],
        [1, LARGEST], [LARGEST, 2], [LARGEST, 6], [3, LARGEST, 4],
        [2 ** 63, 2 ** 63, 5], [5, 2 ** 63, 2 ** 63], [2 ** 62] * 4,
        [2 ** 62] * 4 + [1, 1, 1],
        [WORD - LIMIT, LIMIT], [LARGEST, LIMIT], [LARGEST, LIMIT + 1],
        [LARGEST, LARGEST, 3], [WORD // 3, WORD // 3, WORD // 3 + 1],
    ):
        cases.division(0, weights)
        cases.division(1, weights)
        cases.division(10, weights)
        cases.division(LIMIT, weights)
        cases.division(LIMIT + 1, weights)
    # 300 weights of 2^64 - 1: over 256 comes first, whatever the slice.
    for share_count in (256, 0):
        cases.division(1, [LARGEST] * 300, share_count)


def large_products(cases, rng):
    """Pools and weights near 10^18: products near 10^36."""
    for _ in range(40):
        pool = LIMIT - by_bits(rng, 40)
        first = LIMIT - by_bits(rng, 40) - 2 ** 40
        second = rng.randrange(LIMIT - first)
        third = rng.randrange(LIMIT - first - second + 1)
        order = [first, second, third]
        top = rng.randrange(3)
        order[0], order[top] = order[top], order[0]
        cases.division(pool, order)
    # T - k over nearly equal weights: remainders close to one another.
    for _ in range(40):
        count = 2 + rng.randrange(20)
        base = LIMIT // count - 100
        weights = [base + rng.randrange(5) for _ in range(count)]
        pool = sum(weights) - 1 - rng.randrange(2 * count)
        cases.division(pool, weights)


def random_divisions(cases, rng):
    # 1 to 256 weights, bit lengths uniform over the weights or shared.
    for _ in range(16):
        count = 1 + rng.randrange(256)
        most_bits = 1 + rng.randrange(60)
        weights = fitted([by_bits(rng, most_bits) for _ in range(count)])
        cases.division(pool_up_to_limit(rng), weights)
    for _ in range(160):
        count = 1 + rng.randrange(1 << rng.randrange(1, 6))
        most_bits = 1 + rng.randrange(60)
        if rng.randrange(2) == 0:
            weights = [by_bits(rng, most_bits) for _ in range(count)]
        else:
            weights = [rng.getrandbits(most_bits) for _ in range(count)]
        cases.division(pool_up_to_limit(rng), fitted(weights))
    # Any words and lengths; most are refused.
    for _ in range(150):
        count = rng.randrange(7)
        weights = [by_bits(rng, 64) for _ in range(count)]
        share_count = count
        if rng.randrange(8) == 0:
            share_count = rng.randrange(9)
        cases.division(by_bits(rng, 64), weights, share_count)


def list_of_weights(cases):
    """Every division empties the list, also a refused one."""
    for _ in range(2):
        cases.division(10, [1, 2, 4])
        cases.division(10, [])
        cases.division(0, [])
        cases.division(10, [1, 2, 4])
        cases.division(10, [1, 1, 1])
    for pool, weights, share_count in (
        (10, [1, 2, 4], 2), (10, [0, 0, 0], 3), (10, [LARGEST] * 2, 2),
        (LARGEST, [3], 1),
    ):
        cases.division(pool, weights, share_count)
        cases.division(0, [])
        cases.division(pool, weights, share_count)
        cases.division(10, [1, 1, 1])
    # The room for 300 weights is there again after each division.
    cases.division(10, [1] * 300, 300)
    cases.division(10, [1] * 299, 300)
    # The unused arguments are ignored.
    for weight in (1, 2, 4):
        cases.record(player.APPEND_WEIGHT, weight, LARGEST, 1, 2, 3, 4, 5)
    cases.record(player.DIVIDE, 10, 3, LARGEST, 1, 2, 3, 4)
    # The cases reckoned by hand have the same outcome after all the others.
    reckoned_by_hand(cases)


def dividing_rule(cases):
    rng = random.Random(SEED)
    reckoned_by_hand(cases)
    ties(cases, rng)
    whole_parts(cases, rng)
    zero_weights(cases)
    pools_of_0(cases)
    lengths(cases, rng)
    limits(cases)
    large_products(cases, rng)
    random_divisions(cases, rng)
    list_of_weights(cases)
    missing = [kind for kind in KINDS if kind not in cases.kinds]
    if missing:
        raise SystemExit("no division of kind: " + ", ".join(missing))


def ending(cases):
    """The input ends within a file: nothing is printed of it but the number
    of the record that does not come."""
    for record in load_records(EXAMPLE)[:-1]:
        cases.add(record)
    cases.player.end()


def make():
    """All cases, and those of the book with what they tested."""
    cases = Cases()
    dividing_rule(cases)
    of_book = book_cases.add(cases)
    if file_cases.straddling(of_book.loaded) < 10:
        raise SystemExit("few loads on both sides of a chunk's end")
    ending(cases)
    return cases, of_book


def first_difference(path, fresh):
    """What differs between the stored file and the fresh bytes, or None."""
    try:
        with open(os.path.join(ROOT, path), "rb") as file:
            stored = file.read()
    except FileNotFoundError:
        return "%s is missing" % path
    if stored == fresh:
        return None
    place = 0
    while stored[place:place + 1] == fresh[place:place + 1]:
        place += 1
    return "%s differs from a fresh run at byte %d (stored %d bytes, fresh %d)" % (
        path, place, len(stored), len(fresh))


def place_of_stop(name, place):
    return "" if name is None else " at the %s %s" % (place, name)


def main(arguments):
    if arguments not in ([], ["--check"]):
        print("usage: make_cases.py [--check]", file=sys.stderr)
        return 2
    cases, of_book = make()
    output = cases.player.output()
    files = ((STDIN, cases.data()), (STDOUT, output))
    if arguments:
        differences = [text for text in
                       (first_difference(path, data) for path, data in files)
                       if text is not None]
        for text in differences:
            print(text)
        if differences:
            return 1
        print("the stored cases are those of a fresh run")
        return 0
    for path, data in files:
        with open(os.path.join(ROOT, path), "wb") as file:
            file.write(data)
    print("%d records, %d bytes; %d lines, %d bytes" % (
        len(cases.records), len(files[0][1]), output.count(b"\n"), len(output)))
    for kind in KINDS:
        print("%6d %s" % (cases.kinds[kind], kind))
    for name, numbers in book_cases.ANSWERS.items():
        for number in numbers:
            print("%6d %s gives %d" % (of_book.answers[name, number], name,
                                       number))
    for (name, number), count in sorted(of_book.in_lists.items()):
        print("%6d %s in a long list gives %d" % (count, name, number))
    print("%6d pairs of grounds in order" % len(of_book.pairs))
    for sort in book_cases.sorts_of_closings():
        print("%6d closings: %s" % (of_book.closings[sort], sort))
    for (where, side), count in sorted(of_book.halves.items()):
        print("%6d halves above an %s number: %s" % (count, side, where))
    for (number, *stop), count in sorted(
            of_book.loads.items(), key=lambda item: (item[0][0], str(item))):
        print("%6d loads give %d%s" % (count, number, place_of_stop(*stop)))
    print("%6d loads on both sides of a chunk's end"
          % file_cases.straddling(of_book.loaded))
    return 0


if __name__ == "__main__":
    sys.exit(main(sys.argv[1:]))
