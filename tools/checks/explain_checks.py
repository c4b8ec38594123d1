"""Checks of how the shares of a chain are explained; test_quay.py makes them.

The separate calculation stands for the programs.
"""

import random
import re
from fractions import Fraction
from unittest import mock

from calculation import player
from calculation.book import (
    CATEGORIES, ELEMENTS, ENTRIES, LENGTH, Book, word)
from calculation.closing import Sums
from calculation.sheet import sheet
from cases.random_files import random_parts
from checks.quay_runs import CALCULATED, stored, tells_difference, text_of
from command.explaining import (
    LEAST_TOO_FAR, NoChain, explanation, largest, mixed)
from command.ledger import loaded
from command.programs import Programs
from pack import Text

SEED = 31
TEXTS = 200


def ledger_of(text, programs=CALCULATED):
    ledger, answer = loaded(programs, text.data())
    if text.problems or answer != [0, 0, 0]:
        raise ValueError("no book: %r %r" % (text.problems, answer))
    return ledger


def board_of(lines, chain, programs=CALCULATED):
    """An explanation with single spaces between its words."""
    text = Text("\n".join(lines))
    found = explanation(text, ledger_of(text, programs), chain)
    return " ".join(" ".join(found).split())


def check_in_order(check, board, *phrases):
    """The phrases stand on the board one after another."""
    start = 0
    for phrase in phrases:
        place = board.find(phrase, start)
        check(place >= 0, "on the board", phrase, board)
        start = place + len(phrase)


# Texts.

def category(kind, is_closed=True):
    return "category kind %s%s" % (kind, " close" * is_closed)


def entry(group, operation, provision=0):
    return ("entry category 1 group %s quantity 1 operation %d provision %d"
            % (group, operation, provision))


def element(chain, code, amount, distance=1, kg=None):
    return "element category 1 chain %d code %s amount %d distance %d%s" % (
        chain, code, amount, distance, "" if kg is None else " kg %d" % kg)


def quote(mass, distance, operation, provision=0, ending=""):
    return ("quote chain 1 mass %d distance %d operation %d provision %d %s"
            % (mass, distance, operation, provision, ending))


# "Kind 3, A 9, freight activity 100, one head each of codes 100 and 400 over
# 1 m: 3, 1, 5."
BOTH = [category("both"), entry("all", 9), element(1, "ambient", 100),
        element(1, 100, 1), element(2, 400, 1)]
# The same with heads of 50 kg: 5, 1, 3.
LIGHT = [*BOTH[:3], element(1, 100, 1, kg=50), element(2, 400, 1, kg=50)]
# "A 8, B1 5, ambient 100, chilled 300: 2 and 11."
CHILLED = [category("freight"), entry("all", 8), entry("chilled", 5),
           element(1, "ambient", 100), element(2, "chilled", 300)]
# "10 over 1,1,1: 4,3,3."
EQUAL = [category("freight"), entry("all", 10), element(1, "ambient", 1),
         element(2, "ambient", 1), element(3, "ambient", 1)]


# Boards.

def both_kinds(check):
    check_in_order(
        check, board_of(BOTH, 1),
        "chain 1: 2 elements",
        "element 1 (line 3): category 1, ambient freight, 100 kg over 1 m",
        "activity: 100 kg × 1 m = 100",
        "F, the activity of all its freight, is 100",
        "P, its passengers as 100 kg each × distance, is 200",
        "operation A, the entries that benefit all, is entry 1 (line 2): "
        "1 × 9 = 9",
        "freight: A × F / (F + P) = 9 × 100 / 300 = 3 passengers: "
        "A × P / (F + P) = 9 × 200 / 300 = 6 both divide: nothing is left "
        "over freight part 3, passenger part 6",
        "freight part × activity / F = 3 × 100 / 100 = 3 share: 3 µg",
        "as in the ledger, and that is exact",
        "provision A is 0 (entry 1): nothing to divide share: 0 µg (0 t)",
        "element 2 (line 4): category 1, passenger class 100, 1 head over 1 m "
        "activity: 1 head × class 100 × 1 m = 100",
        "category 1: C, the activity of all its passengers, is 500",
        "A is 9, as above the passenger part is 6, as above",
        "passenger part × activity / C = 6 × 100 / 500 = 1 1/5: floor 1, "
        "remainder 100 (100 / 500 is 1/5 in lowest terms) the floors of all 2 "
        "add up to 5: 1 µg is left over, for the largest remainder: element 3: "
        "400, element 2: 100 its own is the 2nd largest of 2: it gets none "
        "share: 1 µg",
        "exact share: A × P × activity / ((F + P) × C) = 1 1/5; the share is "
        "1/5 µg below it, which is less than 3 µg")
    check_in_order(
        check, board_of(BOTH, 2),
        "6 × 400 / 500 = 4 4/5: floor 4, remainder 400 (400 / 500 is 4/5 in "
        "lowest terms) the floors of all 2 add up to 5: 1 µg is left over, for "
        "the largest remainder: element 3: 400, element 2: 100 its own is the "
        "largest of 2: it gets one share: 5 µg",
        "= 4 4/5; the share is 1/5 µg above it")
    check("lowest terms" not in board_of(EQUAL, 1), "in lowest terms already")


def weighed(check):
    """P of weighed passengers is worked out, and A divided by it."""
    check_in_order(
        check, board_of(LIGHT, 1),
        "element 1 (line 3): category 1, ambient freight, 100 kg over 1 m",
        "category 1: F, the activity of all its freight, is 100 category 1: P, "
        "its passengers as what they weigh × distance, is the sum of element 2 "
        "(line 4): 1 head × 50 kg × 1 m = 50 element 3 (line 5): 1 head × 50 "
        "kg × 1 m = 50 = 100 operation A,",
        "freight: A × F / (F + P) = 9 × 100 / 200 = 4 1/2: floor 4, remainder "
        "100 (100 / 200 is 1/2 in lowest terms) passengers: A × P / (F + P) = "
        "9 × 100 / 200 = 4 1/2: floor 4, remainder 100 1 µg is left over; the "
        "remainders are equal, so it goes to the freight, which comes first "
        "freight part 5, passenger part 4",
        "share: 5 µg", "exact share: A × activity / (F + P) = 4 1/2;",
        "element 2 (line 4): category 1, passenger class 100, 1 head of 50 kg "
        "over 1 m activity: 1 head × class 100 × 1 m = 100 category 1: C, the "
        "activity of all its passengers, is 500",
        "passenger part × activity / C = 4 × 100 / 500 = 4/5: floor 0, "
        "remainder 400", "it gets one share: 1 µg",
        "exact share: A × P × activity / ((F + P) × C) = 9/10; the share is "
        "1/10 µg above it")
    check_in_order(
        check, board_of(LIGHT, 2), "4 × 400 / 500 = 3 1/5: floor 3, remainder "
        "100", "it gets none share: 3 µg", "= 3 3/5; the share is 3/5 µg below")
    check(board_of(LIGHT, 1).count("= 50 = 100") == 1, "P once")
    # As the standard mass, stated or not.
    for kg in (None, 0, 100):
        lines = [*BOTH[:3], element(1, 100, 1, kg=kg),
                 element(2, 400, 1, kg=kg)]
        check_in_order(check, board_of(lines, 1), "share: 3 µg", "share: 1 µg")
        check(("P, its passengers as 100 kg each × distance, is 200"
               in board_of(lines, 1)) == (kg != 100), "not weighed", kg)
    check_in_order(
        check, board_of([*BOTH[:3], element(1, 100, 4, 3, 77)], 1),
        "category 1: P, its passengers as what they weigh × distance, is "
        "element 2 (line 4): 4 heads × 77 kg × 3 m = 924 operation",
        "passenger class 100, 4 heads of 77 kg each over 3 m activity: 4 heads "
        "× class 100 × 3 m = 1_200")
    # Without freight P is not wanted.
    board = board_of([category("passengers"), entry("all", 9),
                      element(1, 100, 1, kg=50), element(2, 400, 1, kg=80)], 1)
    check_in_order(check, board, "there is no freight: all of A goes to the "
                   "passengers, whatever they weigh A × activity / C = 9 × "
                   "100 / 500")
    check(" P" not in board, "no P", board)


def many_weighed(check):
    """The first passengers of P, and how many more."""
    for count, rest in ((12, ""), (13, "and 1 more element: 13 "),
                        (15, "and 3 more elements: 42 ")):
        lines = BOTH[:3] + [element(2, 100, 1, kg=kg)
                            for kg in range(1, count + 1)]
        check_in_order(
            check, board_of(lines, 1),
            "is the sum of element 2 (line 4): 1 head × 1 kg × 1 m = 1 element "
            "3 (line 5): 1 head × 2 kg × 1 m = 2",
            "element 13 (line 15): 1 head × 12 kg × 1 m = 12 %s= %d operation"
            % (rest, count * (count + 1) // 2))


def both_sorts(check):
    """A chain in categories of both sorts: what P means is said where it
    changes."""
    lines = [category("both")] * 5
    for number, kg in enumerate((None, 60, 70, None, None), 1):
        lines += [line.replace("category 1", "category %d" % number)
                  for line in (element(1, "ambient", 100),
                               element(2, 100, 1, 2, kg))]
    check_in_order(
        check, board_of(lines, 1),
        "category 1: P, its passengers as 100 kg each × distance, is 200",
        "category 2: P, its passengers as what they weigh × distance, is "
        "element 4 (line 9): 1 head × 60 kg × 2 m = 120",
        "category 3: P is element 6 (line 11): 1 head × 70 kg × 2 m = 140",
        "category 4: P, its passengers as 100 kg each × distance, is 200",
        "category 5: P is 200")


def formulas(check):
    """What is said of a category is what it has, and said once."""
    check("category 1: F" in board_of(BOTH, 1)
          and board_of(BOTH, 1).count("category 1: F") == 1, "F once")
    check_in_order(check, board_of(BOTH, 1), "(an entry: quantity in "
                   "thousandths of a unit × factor in mg per unit = µg)",
                   "A goes to freight and passengers by the weights F and P: "
                   "freight:")
    check("exact share: A × activity / F = 3 1/3;" in board_of(EQUAL, 1),
          "freight alone")
    check("exact share: A × activity / (F + P) = 3 1/3;" in board_of(
        [category("both"), entry("all", 10)] + BOTH[2:], 1), "both")
    check(" P," not in board_of(CHILLED, 2), "no passengers")
    check(" F," not in board_of([category("passengers"), entry("all", 9),
                                 element(1, 100, 1)], 1), "no freight")
    check("P, its passengers as 100 kg each" in board_of(
        [category("both"), entry("all", 9), element(1, "ambient", 1),
         element(1, 100, 1)], 1), "a little freight")


def parting_of_A(check):
    """A unit left over between freight and passengers."""
    lines = [category("both"), entry("all", 1, 5), element(1, "ambient", 100),
             element(2, 100, 1)]
    check_in_order(
        check, board_of(lines, 2),
        "1 µg is left over; the remainders are equal, so it goes to the "
        "freight, which comes first freight part 1, passenger part 0",
        "the passenger part is 0: nothing to divide share: 0 µg",
        "the share is 1/2 µg below it",
        "provision", "freight part 3, passenger part 2", "share: 2 µg")
    for mass, kind, parts in ((200, "freight", (1, 0)),
                              (50, "passengers", (0, 1))):
        lines[2] = element(1, "ambient", mass)
        check_in_order(
            check, board_of(lines, 1),
            "1 µg is left over; it goes to the %s, whose remainder is "
            "larger freight part %d, passenger part %d" % (kind, *parts))


def groups(check):
    check_in_order(
        check, board_of(CHILLED, 2),
        "category 1: F, the activity of all its freight, is 400",
        "category 1: S, the activity of its chilled freight, is 300",
        "there are no passengers: all of A goes to the freight",
        "A × activity / F = 8 × 300 / 400 = 6",
        "B1, the entries of the chilled group, is entry 2 (line 3): 1 × 5 = 5",
        "B1 × activity / S = 5 × 300 / 300 = 5",
        "share: 6 + 5 = 11 µg", "as in the ledger, and that is exact")
    board = board_of(CHILLED, 1)
    check_in_order(check, board, "8 × 100 / 400 = 2", "share: 2 µg")
    check("B1" not in board and "S," not in board, "ambient", board)
    lines = [category("hub"), entry("frozen", 7, 3), entry("frozen", 1),
             element(1, "frozen", 3, 0), element(1, "chilled", 2, 0)]
    check_in_order(
        check, board_of(lines, 1),
        "element 1 (line 4): category 1, frozen freight, 3 kg in a hub",
        "activity: the kg alone, as it is a hub: 3",
        "no entry benefits all: nothing to divide",
        "B2, the entries of the frozen group, is the sum of entry 1 (line 2): "
        "1 × 7 = 7 entry 2 (line 3): 1 × 1 = 1 = 8",
        "share: 0 + 8 = 8 µg", "share: 0 + 3 = 3 µg",
        "element 2 (line 5): category 1, chilled freight, 2 kg in a hub",
        "no entry of the chilled group: nothing to divide",
        "share: 0 + 0 = 0 µg")
    lines = [category("freight"), entry("chilled", 1),
             element(1, "chilled", 1), element(2, "chilled", 1)]
    check_in_order(
        check, board_of(lines, 1),
        "share: 0 + 1 = 1 µg (0.000000000001 t), as in the ledger exact "
        "share: B1 × activity / S = 1/2; the share is 1/2 µg above it, which "
        "is less than 3 µg")
    lines = [category("freight"), entry("all", 1), element(1, "frozen", 1)]
    check_in_order(check, board_of(lines, 1), "no entry of the frozen group: "
                   "nothing to divide share: 1 + 0 = 1 µg")


def passengers_alone(check):
    lines = [category("passengers"), entry("all", 9, 4), element(1, 150, 2),
             element(1, 300, 1), "name 1  The  school"]
    check_in_order(
        check, board_of(lines, 1),
        "chain 1 (The school): 2 elements",
        "passenger class 150, 2 heads over 1 m activity: 2 heads × class 150 "
        "× 1 m = 300", "category 1: C, the activity of all its passengers, is "
        "600",
        "there is no freight: all of A goes to the passengers",
        "A × activity / C = 9 × 300 / 600 = 4 1/2: floor 4, remainder 300",
        "it gets one", "exact share: A × activity / C = 4 1/2",
        "provision A is entry 1 (line 2): 1 × 4 = 4 A × activity / C = "
        "4 × 300 / 600 = 2 share: 2 µg")


def ties(check):
    tie = ("a tie decides: elements %s have the same remainder; equal "
           "remainders go to the earlier element first")
    for chain, rank, got, others, share in (
            (1, "largest", "one", "2 and 3", 4),
            (2, "2nd largest", "none", "1 and 3", 3),
            (3, "3rd largest", "none", "1 and 2", 3)):
        check_in_order(
            check, board_of(EQUAL, chain),
            "10 × 1 / 3 = 3 1/3: floor 3, remainder 1 the floors of all 3 add "
            "up to 9: 1 µg is left over, for the largest remainder: element 1: "
            "1, element 2: 1, element 3: 1 its own is the %s of 3: it gets %s"
            % (rank, got), tie % others, "share: %d µg" % share)
    # Equal remainders that decide nothing, and an element that divides.
    lines = [category("freight"), entry("all", 3), element(1, "ambient", 2),
             element(2, "ambient", 2), element(3, "ambient", 1)]
    board = board_of(lines, 1)
    check_in_order(check, board, "its own is the 2nd largest of 3: it gets "
                   "none share: 1 µg")
    check("tie" not in board, "no tie", board)
    lines = [category("freight"), entry("all", 2), element(1, "ambient", 2),
             element(2, "ambient", 1), element(2, "ambient", 1)]
    check_in_order(check, board_of(lines, 1), "2 × 2 / 4 = 1 it divides "
                   "without remainder: nothing left over goes to it share: 1")
    check_in_order(check, board_of(lines, 2), "a tie decides: element 3 has "
                   "the same remainder", "a tie decides: element 2 has")
    lines = [category("freight"), entry("all", 1)]
    lines += [element(1 + (k > 0), "ambient", 1) for k in range(7)]
    check_in_order(check, board_of(lines, 1),
                   tie % "2, 3, 4, 5 and 2 more", "share: 1 µg")
    check_in_order(check, board_of(lines[:-2], 1), tie % "2, 3, 4 and 5")


def remainders(check):
    """The largest remainders are shown, and an element's own."""
    lines = [category("freight"), entry("all", 3)]
    lines += [element(chain, "ambient", chain) for chain in range(1, 11)]
    # 3 × chain by 55: the larger the chain, the larger the remainder.
    shown = ", ".join("element %d: %d" % (chain, 3 * chain)
                      for chain in range(10, 3, -1))
    check_in_order(check, board_of(lines, 3), "the floors of all 10 add up "
                   "to 0: 3 µg are left over, one each for the largest "
                   "remainders: %s, element 3: 9, ... its own "
                   "is the 8th largest of 10: it gets none" % shown)
    check_in_order(check, board_of(lines, 2), "remainders: %s, ... element 2: "
                   "6, ... its own is the 9th largest of 10" % shown)
    check_in_order(check, board_of(lines[:-2], 1), "element 2: 6, element 1: 3 "
                   "its own is the 8th largest of 8: it gets none")


def quotes(check):
    check_in_order(
        check, board_of([quote(500, 1, 1, 3)], 1),
        "element 1 (line 1): quoted by its carrier, 500 kg over 1 m",
        "activity: 500 kg × 1 m = 500 D is the distance, 1 m operation "
        "intensity × mass × D / 1000 = 1 × 500 × 1 / 1000 = 1/2 quotient 0, "
        "remainder 500, half of 1000: of 0 and 1, a half goes to the even "
        "number, 0 share: 0 µg",
        "3 × 500 × 1 / 1000 = 1 1/2 quotient 1, remainder 500, half of 1000: "
        "of 1 and 2, a half goes to the even number, 2 share: 2 µg")
    check_in_order(
        check, board_of([quote(500, 1, 5, 1999)], 1),
        "5 × 500 × 1 / 1000 = 2 1/2 quotient 2, remainder 500, half of 1000: "
        "of 2 and 3, a half goes to the even number, 2 share: 2 µg",
        "1_999 × 500 × 1 / 1000 = 999 1/2 quotient 999, remainder 500, half of "
        "1000: of 999 and 1_000, a half goes to the even number, 1_000 share: "
        "1_000 µg")
    for mass, why, share in (
            (499, "less than half of 1000: rounded down", 0),
            (501, "more than half of 1000: rounded up", 1)):
        check_in_order(check, board_of([quote(mass, 1, 1)], 1),
                       "quotient 0, remainder %d, %s share: %d µg" % (
                           mass, why, share), "= 0 share: 0 µg")
    # "Quote 600000, adjust 1, 1000 kg, 905,000 m: 600,000,000,000."
    check_in_order(
        check, board_of([quote(1000, 905_000, 600_000, 0, "adjust")], 1),
        "activity: 1_000 kg × 905_000 m = 905_000_000",
        "(adjust): 905_000 + 95_000 = 1_000_000 m",
        "600_000 × 1_000 × 1_000_000 / 1000 = 600_000_000_000 share: "
        "600_000_000_000 µg (0.6 t)")


WAITING = ["# A category that is not closed.", category("freight", False),
           entry("all", 5), element(1, "ambient", 2), quote(1000, 1, 4, 5)]


def waiting(check):
    board = board_of(WAITING, 1)
    check_in_order(
        check, board,
        "element 1 (line 4): category 1, ambient freight, 2 kg over 1 m",
        "it waits for category 1 (line 2), which is not closed: it has no "
        "share until that category is closed when all its entries are "
        "written, put `close` on line 2 element 2",
        "element 1, waiting 0 0 0 element 2 4 5 9 sum 4 5 9 ledger's "
        "statement 4 5 9 in tonnes 0.000000000004 0.000000000005 "
        "0.000000000009 the statement counts 2 elements, 1 waiting")


def unused_chains(check):
    chains = [element(chain, "ambient", 1) for chain in range(1, 14)]
    for elements, have in (
            ([], "no chains"),
            (chains[3:4], "chain 4"),
            ([chains[6], chains[3]], "chains 4 and 7"),
            ([element(9000, "ambient", 1), chains[3]], "chains 4 and 9000"),
            (chains[:12], "chains 1, 2, 3, 4, 5, 6, 7, 8, 9, 10, 11 and 12"),
            (chains, "chains 1, 2, 3, 4, 5, 6, 7, 8, 9, 10, 11, 12, ...")):
        try:
            told = board_of([category("freight", False), *elements], 99)
        except NoChain as no_chain:
            told = str(no_chain)
        check(told == "no element is on chain 99; this book has " + have,
              "no chain", told)


def numbers_in_words(check):
    for number, words in ((Fraction(10, 3), "3 1/3"), (Fraction(6, 3), "2"),
                          (Fraction(2, 4), "1/2"), (Fraction(0), "0"),
                          (Fraction(4_000_001, 2_000), "2_000 1/2_000")):
        check(mixed(number) == words, "mixed", number)
    for rank, words in ((1, "largest"), (2, "2nd largest"),
                        (3, "3rd largest"), (4, "4th largest"),
                        (11, "11th largest"), (12, "12th largest"),
                        (13, "13th largest"), (21, "21st largest"),
                        (112, "112th largest"), (113, "113th largest"),
                        (223, "223rd largest")):
        check(largest(rank) == words, "largest", rank)


# Programs that are wrong.

def with_numbers(is_changed, place):
    """Programs that print a number greater by 1 in the lines that are
    changed, given all lines and a line's place among them."""
    def replay(data):
        lines = [line.split() for line in player.play(data).splitlines()]
        for at, line in enumerate(lines):
            if is_changed(lines, at):
                line[place] = b"%d" % (int(line[place]) + 1)
        return b"".join(b" ".join(line) + b"\n" for line in lines)
    return Programs(sheet, replay)


def with_word(place):
    """Programs that show a word of the book greater by 1 after a load."""
    return with_numbers(lambda lines, at: (len(lines), at) == (3, 2), place)


def with_statement(place):
    """The same of a number of a statement, which comes after fresh and load,
    and before the words."""
    return with_numbers(lambda lines, at: len(lines) == 4 and at == 2, place)


def with_division(place):
    """The same of a number of a division, which is played alone."""
    return with_numbers(lambda lines, at: len(lines) == 1, place)


def wrong_words(check):
    """Each word of the book is compared."""
    for place, what, wrong, right in (
            (0, "word 0", 14084, 14083), (3, "word 3", 3, 2),
            (word(CATEGORIES, 1, "closed"), "category 1, closed", 2, 1),
            (word(CATEGORIES, 16, "closed"), "category 16, closed", 1, 0),
            (word(ENTRIES, 1, "category"), "entry 1, category", 2, 1),
            (word(ENTRIES, 2, "operation"), "entry 2, operation", 6, 5),
            (word(ENTRIES, 64, "struck"), "entry 64, struck", 1, 0),
            (word(ELEMENTS, 2, "activity"), "element 2, activity", 301, 300),
            (word(ELEMENTS, 2, "operation"), "element 2, operation", 12, 11),
            (word(ELEMENTS, 256, "provision"), "element 256, provision", 1, 0),
            (word(ELEMENTS, 1, "kg_per_head"), "element 1, kg per head", 1, 0),
            (LENGTH - 1, "element 256, kg per head", 1, 0)):
        tells_difference(
            check, "after `load` replay shows %d in the book's %s, and %d is "
            "reckoned here" % (wrong, what, right), board_of, CHILLED, 1,
            with_word(place))


def changed(lines, *changes):
    """The explanation of chain 1 after changes of the book's words."""
    text = Text("\n".join(lines))
    ledger = ledger_of(text)
    words = list(ledger.words)
    for place, change in changes:
        words[place] += change
    ledger.book = Book(words)
    return explanation(text, ledger, 1)


def wrong_sums(check):
    """What is divided, and what it is divided by."""
    for place, what, told, reckoned in (
            (word(ENTRIES, 1, "operation"), "its operation entries", 9, 10),
            (word(ENTRIES, 1, "provision"), "its provision entries", 0, 1),
            (word(ELEMENTS, 3, "operation"), "its operation entries", 10, 9),
            (word(ELEMENTS, 3, "amount"), "P", 200, 300),
            (word(ELEMENTS, 3, "distance"), "P", 200, 300)):
        tells_difference(check, "category 1, %s: the program says %d, reckoned "
                         "here it is %d" % (what, told, reckoned), changed,
                         BOTH, (place, 1))
    for place, told, reckoned in (
            (word(ELEMENTS, 3, "amount"), 100, 150),
            (word(ELEMENTS, 3, "distance"), 100, 150)):
        tells_difference(check, "category 1, P: the program says %d, reckoned "
                         "here it is %d" % (told, reckoned), changed, LIGHT,
                         (place, 1))
    # Another mass is another P, and then another share.
    tells_difference(check, "element 1 (line 3), operation share: the program "
                     "says 5, reckoned here it is 4", changed, LIGHT,
                     (word(ELEMENTS, 3, "kg_per_head"), 1))
    for letter in "FCP":
        with mock.patch("command.explaining.Sums", lambda *book: mock.Mock(
                wraps=Sums(*book), **{"F": 100, "P": 200, "C": 500,
                                      letter: 99})):
            tells_difference(check, "category 1, %s: the program says" % letter,
                             changed, BOTH)


def wrong_shares(check):
    first, second = (word(ELEMENTS, number, "operation") for number in (1, 2))
    quoted = [quote(500, 1, 1, 3)]
    for lines, what, wrong, right, *changes in (
            (BOTH, "element 1 (line 3), operation share", 4, 3, (first, 1),
             (second, -1)),
            (BOTH, "element 1 (line 3), provision share", 1, 0, (first + 1, 1),
             (second + 1, -1)),
            # By halves up, and down.
            (quoted, "element 1 (line 1), operation share", 1, 0, (first, 1)),
            (quoted, "element 1 (line 1), provision share", 1, 2,
             (first + 1, -1))):
        tells_difference(check, "%s: the program says %d, reckoned here it is "
                         "%d" % (what, wrong, right), changed, lines, *changes)


def wrong_statements(check):
    """A statement is compared, and so is the sum that is explained."""
    right = [0, 2, 1, 4, 5, 9]
    for place in range(1, len(right)):
        wrong = list(right)
        wrong[place] += 1
        tells_difference(
            check, "replay answers `%s` to `statement 1`, and `%s` is reckoned "
            "here" % tuple(" ".join(map(str, numbers))
                           for numbers in (wrong, right)),
            board_of, WAITING, 1, with_statement(place))
        what = ("elements", "waiting", "operation", "provision",
                "total")[place - 1]
        with mock.patch("command.ledger.Ledger.statements",
                        return_value=[wrong[1:]]):
            tells_difference(check, "chain 1, %s: the program says %d, "
                             "reckoned here it is %d" % (
                                 what, wrong[place], right[place]),
                             board_of, WAITING, 1)


def wrong_divisions(check):
    """A part is compared with the program's own division."""
    for place, what in ((0, "replay divides 9 by [100, 200] with the refusal "
                            "number 1 into 2 shares"),
                        (1, "share 1 of 9: the program says 4, reckoned here "
                            "it is 3"),
                        (2, "share 2 of 9: the program says 7, reckoned here "
                            "it is 6")):
        tells_difference(check, what, board_of, BOTH, 1, with_division(place))
    for output, count in ((b"", 0), (b"0 3\n", 1), (b"0 3 6 0\n", 3)):
        programs = Programs(sheet, lambda data: output if len(data) < 64 * 4
                            and data[0] == player.APPEND_WEIGHT
                            else player.play(data))
        tells_difference(check, "into %d shares" % count, board_of, BOTH, 1,
                         programs)
    check(LEAST_TOO_FAR == 3, "less than 3 µg")
    with mock.patch("command.explaining.LEAST_TOO_FAR", Fraction(1, 5)):
        tells_difference(check, "the share 1 is 1/5 µg from the exact one",
                         board_of, BOTH, 1)


# Many texts.

NUMBER = "[0-9][0-9_]*"
MIXED = "(?:%s )?%s/%s|%s" % ((NUMBER,) * 4)
QUOTIENT = re.compile("((?:%s × )+%s) / (%s) = (%s)(?:: floor (%s), "
                      "remainder (%s))?" % (NUMBER, NUMBER, NUMBER, MIXED,
                                            NUMBER, NUMBER))
DISTANCE = re.compile("the share is (%s) µg (?:above|below)" % MIXED)
SHARE = re.compile("share: (?:[0-9_+ ]+ = )?(%s) µg" % NUMBER)


def fraction_of(words):
    return sum(map(Fraction, words.replace("_", "").split()))


def check_arithmetic(check, board):
    """The divisions on a board are right, and no share is too far from the
    exact one."""
    for factors, total, exact, floor, remainder in QUOTIENT.findall(board):
        product, total = 1, int(total)
        for factor in factors.split(" × "):
            product *= int(factor)
        check(fraction_of(exact) == Fraction(product, total), "quotient",
              factors, total, exact)
        if floor:
            check(divmod(product, total) == (int(floor), int(remainder)),
                  "floor and remainder", factors, total, floor, remainder)
    for distance in DISTANCE.findall(board):
        check(0 < fraction_of(distance) < 3, "less than 3 µg", distance)


def check_chains(check, text, programs=CALCULATED):
    """Every chain of a text is explained; its shares come to its line of the
    sheet, and those of all chains to the last."""
    ledger = ledger_of(text, programs)
    _, *lines, last = programs.quaymeter(
        text.data()).decode("ascii").splitlines()
    explained = 0
    for line in lines:
        chain, elements, waits, *_, total = map(int, line.split())
        board = " ".join(" ".join(explanation(text, ledger, chain)).split())
        shares = [int(share) for share in SHARE.findall(board)]
        check(len(shares) == 2 * (elements - waits), "shares", board)
        check(sum(shares) == total, "the sum of the shares", board)
        explained += sum(shares)
        check_arithmetic(check, board)
    check(last.startswith("all ") and int(last.split()[-1]) == explained,
          "the sum of all shares", explained, last)
    return len(lines)


def random_texts(rng, count):
    for number in range(count):
        yield Text(text_of(*random_parts(
            rng, (3, 6, 9 if number % 4 else 18))))


def many_texts(check):
    texts = list(random_texts(random.Random(SEED), TEXTS))
    explained = sum(check_chains(check, text) for text in texts)
    check(explained > TEXTS, "chains of random texts", explained)
    weighed = sum(any("kg" in line and "kg 0 " not in line
                      for line in text.lines) for text in texts)
    check(weighed > TEXTS // 5, "weighed passengers in random texts", weighed)
    for name in ("document.txt", "voyage.txt", "board.txt", "ferry.txt"):
        check_chains(check, Text(stored("examples", name)))


def run(check):
    both_kinds(check)
    weighed(check)
    many_weighed(check)
    both_sorts(check)
    formulas(check)
    parting_of_A(check)
    groups(check)
    passengers_alone(check)
    ties(check)
    remainders(check)
    quotes(check)
    waiting(check)
    unused_chains(check)
    numbers_in_words(check)
    wrong_words(check)
    wrong_sums(check)
    wrong_shares(check)
    wrong_statements(check)
    wrong_divisions(check)
    many_texts(check)
