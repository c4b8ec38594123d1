#!/usr/bin/env python3
"""Tests the separate calculation.

    python3 tools/checks/test_calculation.py

Prints `N checks passed`, or what failed with exit status 1.
"""

import itertools
import os
import random
import struct
import sys

sys.path.insert(0, os.path.dirname(os.path.dirname(os.path.abspath(__file__))))

from calculation import dividing, player
from calculation.second_way import one_at_a_time
from checks import book_checks, sheet_checks
from checks.checking import Checks

SEED = 26
LIMIT = 10 ** 18
LARGEST = 2 ** 64 - 1

check = Checks()


def check_division(pool, weights):
    """A division that is accepted."""
    refusal, shares = dividing.divide(pool, weights, len(weights))
    case = (pool, weights, shares)
    check(refusal == 0, "accepted", case)
    check(len(shares) == len(weights), "a share for each weight", case)
    check(sum(shares) == pool, "the shares sum to the pool", case)
    total = sum(weights)
    for weight, share in zip(weights, shares):
        # Over whole numbers, both sides multiplied by T; a T of 0 has no
        # exact parts.
        if total > 0:
            check(pool * weight < (share + 1) * total, "not too little", case)
            check(share * total < pool * weight + total, "not too much", case)
        if weight == 0:
            check(share == 0, "a weight of 0 gets 0", case)
    without = [weight for weight in weights if weight > 0]
    if len(without) < len(weights):
        others = [share for weight, share in zip(weights, shares) if weight > 0]
        check(dividing.divide(pool, without, len(without)) == (0, others),
              "the same without the zero weights", case)
    if total > 0:
        check(shares == one_at_a_time(pool, weights), "the second way", case)
    else:
        check(shares == [0] * len(weights), "T of 0", case)


def reckoned_by_hand():
    for pool, weights, shares in (
        (10, [1, 1, 1], [4, 3, 3]),
        (10, [1, 2, 4], [1, 3, 6]),
        (1, [1, 1], [1, 0]),
        (2, [1, 1, 1, 1], [1, 1, 0, 0]),
        (0, [5], [0]),
        # The freight and passenger parts of two closings.
        (9, [100, 200], [3, 6]),
        (6, [100, 400], [1, 5]),
        (8, [100, 300], [2, 6]),
        (5, [300], [5]),
        # Further ones.
        (0, [], []),
        (0, [0, 0], [0, 0]),
        (0, [LIMIT], [0]),
        (LIMIT, [LIMIT], [LIMIT]),
        (LIMIT, [LIMIT - 1, 1], [LIMIT - 1, 1]),
        (LIMIT - 1, [LIMIT // 2, LIMIT // 2], [LIMIT // 2, LIMIT // 2 - 1]),
        (3, [0, 1, 0, 1], [0, 2, 0, 1]),
    ):
        check(dividing.divide(pool, weights, len(weights)) == (0, shares),
              "reckoned by hand", pool, weights, shares)


def refusals():
    for refusal, pool, weights, share_count in (
        # 1: another length, or a length over 256; before 9 and 10.
        (1, 10, [1, 1, 1], 2),
        (1, 10, [1, 1, 1], 4),
        (1, 0, [], 1),
        (1, 0, [0], 0),
        (1, 1, [], 1),
        (1, LARGEST, [0], 2),
        (1, LARGEST, [LARGEST], 0),
        (1, 1, [1] * 257, 257),
        (1, 1, [0] * 257, 257),
        (1, 0, [LARGEST] * 300, 300),
        (1, 1, [1] * 257, 256),
        (1, 1, [1] * 257, 1),
        (1, 1, [1] * 256, 257),
        # 9: a pool above 0 whose T is 0; before 10.
        (9, 1, [], 0),
        (9, 1, [0], 1),
        (9, LIMIT, [0] * 256, 256),
        (9, LIMIT + 1, [], 0),
        (9, LARGEST, [0, 0], 2),
        # 10: a pool or T over 10^18, also with a pool of 0.
        (10, LIMIT + 1, [1], 1),
        (10, LARGEST, [1, 2], 2),
        (10, 1, [LIMIT + 1], 1),
        (10, 1, [LIMIT, 1], 2),
        (10, 0, [LIMIT + 1], 1),
        (10, 0, [LIMIT, 1], 2),
        (10, LIMIT + 1, [LIMIT + 1], 1),
        # 10: sums that pass 2^64.
        (10, 1, [2 ** 63, 2 ** 63], 2),
        (10, 0, [2 ** 63, 2 ** 63], 2),
        (10, 1, [LARGEST, 2], 2),
        (10, 1, [LARGEST] * 256, 256),
    ):
        check(dividing.divide(pool, weights, share_count) == (refusal, None),
              "refusal", refusal, pool, weights, share_count)
    for pool, weights in ((1, [1] * 256), (LIMIT, [1]), (1, [LIMIT])):
        check(dividing.divide(pool, weights, len(weights))[0] == 0,
              "at the limit", pool, weights)


def small_numbers():
    """Every division of small numbers."""
    for count, most_weight, most_pool in (
        (0, 0, 0), (1, 6, 12), (2, 6, 12), (3, 6, 12), (4, 4, 10), (5, 3, 7),
    ):
        for weights in itertools.product(range(most_weight + 1), repeat=count):
            for pool in range(most_pool + 1):
                if pool == 0 or sum(weights) > 0:
                    check_division(pool, list(weights))
                else:
                    check(dividing.divide(pool, list(weights), count)
                          == (9, None), "refusal 9", pool, weights)


def random_numbers():
    rng = random.Random(SEED)

    def by_bits(most):
        return rng.randrange(1 << rng.randrange(most + 1))

    for number in range(4000):
        # Most have few weights; every twentieth has up to 256.
        count = 1 + rng.randrange(256 if number % 20 == 0 else 12)
        bits = rng.randrange(61)
        weights = [by_bits(bits) for _ in range(count)]
        if number % 3 == 0:
            # Few values, so that many remainders are equal.
            weights = [weights[rng.randrange(min(count, 3))] for _ in weights]
        while sum(weights) > LIMIT:
            weights = [weight // 2 for weight in weights]
        pool = min(by_bits(60), LIMIT)
        if number % 5 == 0:
            pool = LIMIT - by_bits(30)
        if sum(weights) == 0:
            pool = 0
        check_division(pool, weights)
    for _ in range(500):
        # Remainders that differ by little beside a T near 10^18.
        count = 2 + rng.randrange(12)
        weights = [LIMIT // count - rng.randrange(5) for _ in range(count)]
        check_division(sum(weights) - 1 - rng.randrange(2 * count), weights)


def played_records():
    """The player on inputs whose output is written out here."""
    def words(*numbers):
        return struct.pack("<8Q", *(numbers + (0,) * (8 - len(numbers))))

    three = words(11, 1) + words(11, 2) + words(11, 4)
    for data, output in (
        (b"", b""),
        (three, b""),
        (three + words(10, 10, 3), b"0 1 3 6\n"),
        (three + words(10, 10, 2), b"1 7 7\n"),
        (three + words(10, 10, 0), b"1\n"),
        (words(10, 0, 0), b"0\n"),
        (words(10, 1, 0), b"9\n"),
        (words(11, 0) + words(10, 1, 1), b"9 7\n"),
        (words(11, LARGEST) + words(10, 0, 1), b"10 7\n"),
        (three + words(10, 10, 2) + words(10, 0, 0), b"1 7 7\n0\n"),
        (words(11, 3, 9, 9, 9, 9, 9, 9) + words(10, 5, 1, 9, 9, 9, 9, 9),
         b"0 5\n"),
        (words(10, 0, 300), b"1" + b" 7" * 300 + b"\n"),
        (words(10, 0, 301) + words(10, 0, 0), b"bad record 1\n"),
        (words(11, 1) * 300 + words(10, 1, 1), b"1 7\n"),
        (words(11, 1) * 301 + words(10, 1, 1), b"bad record 301\n"),
        (words(10, 0, 0) + words(0) + words(10, 0, 0), b"0\nbad record 2\n"),
        (words(10, 0, 0) + words(10, 0, 0)[:1], b"0\nbad record 2\n"),
        (words(10, 0, 0)[:63], b"bad record 1\n"),
        (words(99) + words(99), b"bad record 1\n"),
    ):
        check(player.play(data) == output, "played", data[-128:], output)


reckoned_by_hand()
refusals()
small_numbers()
random_numbers()
played_records()
book_checks.run(check)
sheet_checks.run(check)
check.end()
