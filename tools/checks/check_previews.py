#!/usr/bin/env python3
"""Checks previews by closings, from what a program prints for random lists.

    python3 tools/checks/check_previews.py PROGRAM [SEED [COUNT]]

PROGRAM is the path of an executable that plays records from its standard
input. Each preview stands behind a random list of calls, which the seed
makes; the book is dumped before and after it. The same list is played once
more with the closing in the place of the preview, and the book is dumped.
"It must equal closing a copy and reading it, and the book stays the same."
Only what the program prints is compared. Prints `N previews agree, M of them
accepted`, or what is wrong with exit status 1.
"""

import os
import random
import sys
from collections import namedtuple
from itertools import islice

sys.path.insert(0, os.path.dirname(os.path.dirname(os.path.abspath(__file__))))

from calculation import player
from cases import make_cases
from cases.book_writer import BookCases
from cases.random_cases import (
    LARGE, WILD, one_of, random_call, random_member, random_pair_length,
    some_word, wild_call)
from checks import check_endings
from checks.check_endings import dump, record
from checks.conservation_checks import (
    FIRST_SHARES, RECORD_WORDS, Broken, demand)

SEED = 1
COUNT = 1000
PLAYED_AT_ONCE = 50  # previews

# "A preview writes 256 pairs, operation and provision"
PAIR_WORDS = 512
# "from word 36, entries, 5 words"; "from word 356, elements"
FIRST_ENTRY = 36
ENTRY_WORDS = 5
FIRST_ELEMENT = 356
BOOK_WORDS = 2660

START = record(player.LEND, player.MOST_WORDS)
WHOLE = dump(0, player.MOST_WORDS)
# The operations that print no line.
SILENT = (player.APPEND_WEIGHT, player.POKE, player.LEND, player.CELL)

# The records before a preview, its category and the length of its slice.
Trial = namedtuple("Trial", "records category pair_length")


# Random lists.

def trials(rng):
    """Without end: lists that grow, and previews behind some of their calls.
    The words are the player's, so that most calls are accepted; nothing of
    its answers is kept."""
    while True:
        cases = BookCases(make_cases.Cases())
        kinds = [one_of(rng, (1, 2, 3, 3, 4))
                 for _ in range(1 + rng.randrange(6))]
        cases.new_book(*kinds)
        scale = one_of(rng, (2, 8, 20, LARGE))
        for _ in range(700 if rng.randrange(16) == 0 else 60):
            grow(cases, rng, scale)
            if rng.randrange(8) == 0:
                yield trial(cases, rng)


def grow(cases, rng, scale):
    """One call more. Half of them are enrolments, so that there is something
    to close."""
    number = 1 + rng.randrange(cases.words[1])
    sort = rng.randrange(64)
    if sort < 32:
        name, arguments = "enrol", random_member(
            cases.words, rng, number, cases.words[2 + 2 * number], scale)
    elif sort == 32:
        name, arguments = "close", (number,)
    elif sort < 36:
        name, arguments = wild_call(cases, rng)
    else:
        name, arguments = random_call(cases, rng, scale)
    cases.call(name, *arguments, gives=None)


def trial(cases, rng):
    """One preview in twelve is of a book with another word, one in twelve of
    another slice."""
    records = list(cases.cases.records)
    sort = rng.randrange(12)
    if sort == 0:
        index = some_word(cases, rng)
        value = one_of(rng, (cases.words[index] ^ 1, one_of(rng, WILD)))
        records.append(record(player.POKE, index, value))
    elif sort == 1:
        lent = one_of(rng, (0, 512, BOOK_WORDS - 1, BOOK_WORDS))
        records.append(record(player.LEND, lent))
    count = cases.words[1]
    category = one_of(rng, (*[1 + rng.randrange(count)] * 8, 0, count + 1))
    pair_length = one_of(rng, (*[random_pair_length(rng)] * 7, 511))
    return Trial(records, category, pair_length)


# What is played for a trial, and what its lines tell.

def records_of(tried):
    """The list with the preview, then with the closing."""
    before = START + b"".join(tried.records)
    return (before + WHOLE
            + record(player.PREVIEW, tried.category, tried.pair_length)
            + WHOLE + before + record(player.CLOSE, tried.category) + WHOLE)


def lines_of(tried):
    """How many lines the list prints."""
    return sum(player.RECORD.unpack(one)[0] not in SILENT
               for one in tried.records)


def check_trial(tried, lines):
    """Raises Broken where the preview is not what the closing does; whether
    it is accepted."""
    count = lines_of(tried)
    demand(len(lines) == 2 * count + 5, len(lines), "lines")
    demand(lines[:count] == lines[count + 3:-2],
           "the same calls have other answers")
    before, shown, after, closing, closed = (
        list(map(int, line.split()))
        for line in (*lines[count:count + 3], *lines[-2:]))
    demand(after == before, "a preview changes the book")
    demand(len(closing) == 1, "a closing answers", *closing)
    refusal, pairs = shown[0], shown[1:]
    wanted = number_wanted(closing[0], tried.pair_length)
    demand(refusal == wanted, "a preview gives", refusal, "not", wanted)
    demand(len(pairs) == tried.pair_length, "the slice has", len(pairs),
           "words")
    if refusal != 0:
        demand(set(pairs) <= {player.UNWRITTEN},
               "a refused preview writes pairs")
        return False
    check_pairs(tried.category, pairs, before, closed)
    return True


def number_wanted(of_closing, pair_length):
    """"It refuses with 17, checked just after 1, a pair slice under 512
    words, and otherwise exactly as closing does."
    """
    return 17 if of_closing != 1 and pair_length < PAIR_WORDS else of_closing


def check_pairs(category, pairs, before, closed):
    """The pairs by the words of the book before and after the closing."""
    elements = before[3]
    for place in range(elements):
        share = FIRST_SHARES + RECORD_WORDS * place
        demand(pairs[2 * place:2 * place + 2] == closed[share:share + 2],
               "pair", place + 1, "is", *pairs[2 * place:2 * place + 2],
               "and the element holds", *closed[share:share + 2])
    demand(set(pairs[2 * elements:PAIR_WORDS]) <= {0},
           "a pair past the last element is not 0")
    demand(set(pairs[PAIR_WORDS:]) <= {player.UNWRITTEN},
           "a word past the 512th is written")
    own = [place for place in range(elements)
           if before[FIRST_ELEMENT + RECORD_WORDS * place] == category]
    entries = [before[start:start + ENTRY_WORDS] for start in range(
        FIRST_ENTRY, FIRST_ENTRY + ENTRY_WORDS * before[2], ENTRY_WORDS)]
    for amount in (0, 1):
        handed_out = sum(pairs[2 * place + amount] for place in own)
        posted = sum(entry[2 + amount] for entry in entries
                     if entry[0] == category and entry[4] == 0)
        demand(handed_out == posted, "the pairs of category", category,
               "add up to", handed_out, "and its entries to", posted)


def check_trials(some, lines):
    """Checks several trials played one after another; how many previews are
    accepted."""
    accepted = first = 0
    for tried in some:
        last = first + 2 * lines_of(tried) + 5
        accepted += check_trial(tried, lines[first:last])
        first = last
    demand(first == len(lines), len(lines), "lines, not", first)
    return accepted


# What the program does with them.

def accepted_by(program, some):
    """How many previews are accepted; ends where the program is wrong."""
    output, status = check_endings.run(program,
                                       b"".join(map(records_of, some)))
    try:
        accepted = check_trials(some, output.decode("ascii").splitlines())
    except (Broken, ValueError) as broken:
        raise SystemExit("%s (exit status %d)" % (broken, status))
    if status < 0:
        raise SystemExit("the program was ended by signal %d" % -status)
    return accepted


def main(arguments):
    if (len(arguments) not in (1, 2, 3)
            or not all(map(str.isdecimal, arguments[1:]))):
        print("usage: check_previews.py PROGRAM [SEED [COUNT]]",
              file=sys.stderr)
        return 2
    program = os.path.abspath(arguments[0])
    seed = int(arguments[1]) if len(arguments) > 1 else SEED
    count = int(arguments[2]) if len(arguments) > 2 else COUNT
    found = islice(trials(random.Random(seed)), count)
    print("%d previews agree, %d of them accepted" % check_endings.in_parts(
        found, PLAYED_AT_ONCE, lambda some: accepted_by(program, some)))
    return 0


if __name__ == "__main__":
    sys.exit(main(sys.argv[1:]))
