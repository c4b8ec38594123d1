"""Checks of the book; test_calculation.py makes them."""

import random

import records
from calculation import book, calls, player
from calculation.second_loading import second_load
from calculation.second_way import Lists, is_sound_by_words, second_way
from cases import book_cases
from cases.file_writer import load_records
from cases.halves import demand_halves, halves_of
from cases.line_writer import (
    BLANK, INFINITY, NANS, NEGATIVE_ZERO, SUBNORMAL, ZERO, bits, single, span)
from checks import (
    broken_lists, closing_checks, conservation_checks, file_checks,
    line_checks, preview_checks, rounding_checks, tally_checks)

SEED = 64
LARGEST = 2 ** 64 - 1


# Inputs whose output is written out here.

WRITTEN_OUT = (
    # An array of zeros is no sound book.
    ("2 1; 3 1 0 1 1 1; 4 1; 5 1 1 0 1 1; 6 1 0 1 1 1 1; 7 1; 8 1; 9 1 0;"
     "14 0 4",
     "1 0; 1 0; 1; 1 0; 1 0; 1; 1 0 0 0 0 0; 1 0 0; 0 0 0 0"),
    ("1; 14 0 6; 4 0; 4 1", "0; 14083 0 0 0 0 0; 2; 2"),
    # The example of document 01, without its closing.
    ("1; 2 1; 3 1 0 12000000 3220000 560000; 5 1 7 0 1000 300000;"
     "5 1 4 0 3000 300000; 6 7 0 1000 500000 62000 10000;"
     "14 0 8; 14 36 6; 14 356 28",
     "0; 0 1; 0 1; 0 1; 0 2; 0 3;"
     "14083 1 1 3 1 0 0 0; 1 0 38640000000000 6720000000000 0 0;"
     "1 7 0 1000 300000 300000000 0 0 0 1 4 0 3000 300000 900000000 0 0 0 "
     "0 7 0 1000 500000 500000000 31000000000 5000000000 0 0"),
    # Quotes reckoned by hand, and halves: 0.5 and 1.5, 2.5 and 3.5. 0.499 and
    # 0.998, 1.503 and 0.501.
    ("1; 6 1 0 500 1 1 3; 6 1 1 1000 905000 600000 600000;"
     "6 2 0 499 1 1 2; 6 2 0 501 1 3 1; 6 2 0 500 1 5 7; 14 356 45",
     "0; 0 1; 0 2; 0 3; 0 4; 0 5;"
     "0 1 0 500 1 500 0 2 0 "
     "0 1 0 1000 905000 905000000 600000000000 600000000000 0 "
     "0 2 0 499 1 499 0 1 0 0 2 0 501 1 501 2 1 0 0 2 0 500 1 500 2 4 0"),
    # A passenger class, a hub, a group; each word of a record is written.
    ("1; 12 4 9; 12 5 9; 12 36 9; 12 40 9; 12 356 9; 12 362 9; 12 363 9;"
     "12 364 9; 12 373 9; 12 382 9; 2 3; 2 4; 2 2; 3 2 2 5 6 7;"
     "5 1 10000 400 2 3; 5 2 1 1 8 0; 6 1 0 1 1 0 0;"
     "14 0 10; 14 36 5; 14 356 28",
     "0; 0 1; 0 2; 0 3; 0 1; 0 1; 0 2; 0 3;"
     "14083 3 1 3 3 0 4 0 2 0; 2 2 30 35 0;"
     "1 10000 400 2 3 2400 0 0 0 2 1 1 8 0 8 0 0 0 0 1 0 1 1 1 0 0 0 0"),
    # kg per head: 0 to 300 for passengers, 0 for freight. The activity word
    # is by the class, whatever is stated.
    ("1; 2 3; 5 1 1 100 2 3 300; 5 1 1 1000 2 3 1; 5 1 1 100 2 3 301;"
     "5 1 1 0 2 3 1; 5 1 1 0 2 3 0; 5 1 1 2 2 3 18446744073709551615;"
     "14 356 28",
     "0; 0 1; 0 1; 0 2; 7 0; 7 0; 0 3; 7 0;"
     "1 1 100 2 3 600 0 0 300 1 1 1000 2 3 6000 0 0 1 1 1 0 2 3 6 0 0 0 0"),
    # 14: weighed after one who is not, and the reverse, each in its category;
    # before 7 and behind 6, 4, 3 and 2. The first is never 14, and freight is
    # not looked at.
    ("1; 2 3; 2 2; 2 1; 5 1 1 0 1 1; 5 1 1 100 1 1 80; 5 2 1 100 1 1 0;"
     "5 1 1 100 1 1 0; 5 2 1 100 1 1 100; 5 2 1 100 0 1 301;"
     "5 1 1 100 1 1 301; 5 1 1 100 1 1 1; 5 2 1 1000 1 1 0; 5 1 1 1 1 1 0;"
     "5 3 1 100 1 1 80; 5 4 1 100 1 1 0; 5 1 0 100 1 1 0; 5 2 1 99 1 1 80;"
     "7 2; 5 2 1 100 1 1 80; 14 3 1",
     "0; 0 1; 0 2; 0 3; 0 1; 0 2; 0 3; 14 0; 14 0; 14 0; 7 0; 0 4; 0 5; 0 6;"
     "6 0; 2 0; 3 0; 3 0; 0; 4 0; 6"),
    # A mixture is not sound, open or closed; both words together are. So is
    # 1 kg per head of freight, and 301 of a passenger.
    ("1; 2 3; 5 1 1 100 1 1 80; 5 1 1 0 1 1; 5 1 1 400 1 1 90; 4 0;"
     "12 364 0; 4 0; 12 382 0; 4 0; 12 364 1; 4 0; 12 382 300; 4 0;"
     "12 382 301; 4 0; 12 382 1; 4 0; 12 373 1; 4 0; 12 373 0; 7 1; 4 0;"
     "12 382 0; 4 0; 12 364 0; 4 0",
     "0; 0 1; 0 1; 0 2; 0 3; 2; 1; 2; 1; 2; 1; 2; 1; 0; 2; 1; 2"),
    # Strike, twice; struck records still count.
    ("1; 2 1; 3 1 0 1 2 3; 3 1 1 1 4 5; 4 1; 4 1; 4 3; 14 1 3; 14 36 11;"
     "3 1 2 1 6 7",
     "0; 0 1; 0 1; 0 2; 0; 4; 2; 1 2 0; 1 0 2 3 1 1 1 4 5 0 0; 0 3"),
    # A closed category, made by writing its words: no call makes a closed
    # one whose shares are wrong.
    ("1; 2 1; 3 1 0 1 9 4; 5 1 1 0 2 3; 12 5 1; 4 1; 12 362 9; 4 1;"
     "12 363 4; 4 1; 3 1 0 0 0 0; 5 1 1 0 1 1; 5 1 1 100 1 1; 5 1 0 0 1 1;"
     "12 362 10; 4 1; 12 5 0; 12 362 0; 4 1; 12 363 0; 4 1",
     "0; 0 1; 0 1; 0 1; 1; 1; 4; 4 0; 4 0; 4 0; 3 0; 1; 1; 0"),
    # The lent slice, and words after the book.
    ("12 2660 5; 13 2659; 1; 13 2404; 1; 13 2660; 1; 2 4; 13 0; 2 4; 13 3000;"
     "2 3; 14 0 8; 14 2659 3; 14 0 0; 14 3000 0",
     "1; 1; 0; 0 1; 1 0; 0 2; 14083 2 0 0 4 0 3 0; 0 5 0; ; "),
    # Statements of the example, before and after its closing: "4 1 0
    # 28980000000000 5040000000000 34020000000000" and "7 2 0 9691000000000
    # 1685000000000 11376000000000". Chains that are none, and unused ones.
    ("1; 2 1; 3 1 0 12000000 3220000 560000; 5 1 7 0 1000 300000;"
     "5 1 4 0 3000 300000; 6 7 0 1000 500000 62000 10000; 8 7; 8 4; 7 1; 8 4;"
     "8 7; 8 0; 8 1; 8 6; 8 8; 8 10000; 8 10001; 8 18446744073709551615;"
     "12 0 0; 8 7; 8 0; 12 0 14083; 13 2659; 8 7; 13 2660; 8 7",
     "0; 0 1; 0 1; 0 1; 0 2; 0 3; 0 2 1 31000000000 5000000000 36000000000;"
     "0 1 1 0 0 0; 0; 0 1 0 28980000000000 5040000000000 34020000000000;"
     "0 2 0 9691000000000 1685000000000 11376000000000; 3 0 0 0 0 0;"
     "0 0 0 0 0 0; 0 0 0 0 0 0; 0 0 0 0 0 0; 0 0 0 0 0 0; 3 0 0 0 0 0;"
     "3 0 0 0 0 0; 1 0 0 0 0 0; 1 0 0 0 0 0; 1 0 0 0 0 0;"
     "0 2 0 9691000000000 1685000000000 11376000000000"),
    # A statement adds the words of the shares as they are: 7 and 1 of 8, 5
    # and 1 of 6 become 2 and 6, 6 and 0. An element that is not counted adds
    # nothing.
    ("1; 2 1; 3 1 0 1 8 6; 5 1 1 0 7 1; 5 1 2 0 1 1; 7 1; 8 1; 8 2; 12 362 2;"
     "12 371 6; 12 363 6; 12 372 0; 8 1; 8 2; 12 375 2; 12 380 9; 8 2;"
     "14 362 2; 14 371 2; 14 374 9",
     "0; 0 1; 0 1; 0 1; 0 2; 0; 0 1 0 7 5 12; 0 1 0 1 1 2; 0 1 0 2 6 8;"
     "0 1 0 6 0 6; 0 1 0 6 0 6; 2 6; 6 0; 0 2 0 0 0 0 9 0 0"),
    # Limits: 10^18 in either amount, 10^17. Half a µg more is none.
    ("1; 2 1; 3 1 0 1000000000000 1000000 0; 3 1 0 1 1 0; 3 1 0 1 0 1;"
     "6 1 0 1 1 501 0; 6 1 0 1 1 500 501; 4 1; 6 1 0 1 1 501 0;"
     "3 1 0 1000000000000 10000000000 0; 14 356 18",
     "0; 0 1; 0 1; 10 0; 0 2; 10 0; 0 1; 0; 0 2; 10 0;"
     "0 1 0 1 1 1 0 1 0 0 1 0 1 1 1 1 0 0"),
    ("1; 2 3; 5 1 1 0 1000000000 40000000; 5 1 1 0 1000000000 40000000;"
     "5 1 1 0 1000000000 40000000; 5 1 1 0 1000000000 19999999;"
     "5 1 1 0 999999900 1; 5 1 1 1000 1 1; 5 1 1 100 1 1; 6 1 1 1 1 0 0",
     "0; 0 1; 0 1; 0 2; 10 0; 0 3; 0 4; 0 5; 10 0; 10 0"),
    # The last 100 of 10^17: one head is 100, with 300 kg and with 1 kg, and a
    # second one is too much.
    ("1; 2 3; 5 1 1 0 1000000000 40000000; 5 1 1 0 1000000000 40000000;"
     "5 1 1 0 1000000000 19999999; 5 1 1 0 999999900 1; 5 1 1 1000 1 1 300;"
     "5 1 1 100 1 1 1; 4 0; 12 400 1; 4 0; 12 3 4; 5 1 1 100 1 1 1;"
     "5 1 1 100 1 1 1",
     "0; 0 1; 0 1; 0 2; 0 3; 0 4; 0 5; 10 0; 2; 2; 0 5; 10 0"),
    # Bad records.
    ("14 0 1; 12 3000 1; 14 0 1", "0; bad record 2"),
    ("13 3000; 13 3001; 14 0 1", "bad record 2"),
    ("14 3000 0; 14 3001 0; 14 0 1", "; bad record 2"),
    ("14 2999 1; 14 2999 2", "0; bad record 2"),
    ("14 18446744073709551615 1; 14 0 1", "bad record 1"),
    ("14 1 18446744073709551615", "bad record 1"),
    ("12 18446744073709551615 1", "bad record 1"),
    ("12 2999 18446744073709551615; 14 2999 1", "18446744073709551615"),
    ("19; 1", "bad record 1"),
    ("1; 19 1; 1", "0; bad record 2"),
)


def written_out(check):
    for text, lines in (WRITTEN_OUT + closing_checks.WRITTEN_OUT
                        + file_checks.WRITTEN_OUT + line_checks.WRITTEN_OUT
                        + preview_checks.WRITTEN_OUT):
        data = b"".join(records.packed(line) for line in text.split(";"))
        output = "".join(line.strip() + "\n" for line in lines.split(";"))
        check(player.play(data) == output.encode("ascii"),
              "written out", text, player.play(data))


class BothWays:
    """Takes the place of the cases: plays each record by both ways."""

    def __init__(self, check):
        self.records = []
        self.player = player.Player()
        self.check = check
        self.loads = []  # for each load: the file, the numbers, the words

    def load(self, data):
        state = self.player.state
        words = state.words[:state.lent]
        after = state.words[state.lent:]
        for record in load_records(data):
            self.records.append(record)
            played = self.player.play(record)
        numbers = second_load(words, data)
        self.check(played == numbers, "a load by both ways", played, numbers,
                   data.hex())
        self.check(state.words == words + after,
                   "the words of a load by both ways", played, data.hex())
        self.loads.append((data, played, list(state.words)))
        return played

    def record(self, operation, *arguments):
        state = self.player.state
        before = list(state.words)
        words, after = before[:state.lent], before[state.lent:]
        cells = state.cells
        arguments += (0,) * (7 - len(arguments))
        self.records.append(player.RECORD.pack(operation, *arguments))
        played = self.player.play(self.records[-1])
        if operation in player.CALLS:
            name = player.CALLS[operation]
            arguments = player.used_arguments(
                name, player.with_cells(operation, arguments, cells))
            numbers = second_way(name, words, arguments)
            if name == "preview":
                numbers = player.with_unwritten(numbers, arguments[1])
            self.check(played == numbers, "the numbers by both ways", name,
                       arguments, played, numbers)
            self.check(state.words == words + after,
                       "the words by both ways", name, arguments, played)
            if name == "close" and played == [0]:
                closing_checks.check_closing(self.check, before, state.words,
                                             arguments[0])
        return played


def cases_by_both_ways(check):
    """All cases of the book; then demand 3 from the lines of the long lists
    and of what the loads came to, and that it is caught when it does not
    hold."""
    both = BothWays(check)
    spans = book_cases.add(both).lists
    file_checks.loads_conserve(check, both.loads)
    lists = []
    for records, lines in conservation_checks.lists_among(
            both.records, both.player.lines, spans):
        told = conservation_checks.check_list(records, lines)
        lists.append((records, lines, told))
        tally_checks.same_elements(check, told)
    # The first list is empty, the last asks for every chain.
    check(lists[0][2].tally.elements == {}, "the empty list")
    check(len(dict(lists[-1][2].statements)) == 10_000, "every chain")
    broken_lists.run(check, lists[1:-1])
    rounding_checks.wrong_in_lists(check, lists[1][0])


# Random calls.

ANY = (0, 1, 2, 3, 4, 5, 16, 17, 64, 65, 99, 100, 101, 256, 301, 499, 500, 501,
       511, 513, 1000, 1001, 5000, 10_000, 10_001, 10 ** 6, 10 ** 6 + 1,
       20_000_000, 40_000_000, 40_000_001, 5 * 10 ** 8, 10 ** 9, 10 ** 9 + 1,
       10 ** 10, 10 ** 10 + 1, 10 ** 12, 10 ** 12 + 1, 2 ** 32, 2 ** 63,
       LARGEST)

ANY_CELLS = (BLANK, span(2.0, 1.0), single(-1.0), single(1e7), span(0.0, 1e7),
             single(1e8), single(1e9), (bits(1e9) + 1,), NANS[:1],
             (SUBNORMAL,), (NEGATIVE_ZERO, ZERO), (bits(1.0), INFINITY))

# The numbers and cells an argument has most often, for each call.
USUAL = {
    "open": ((1, 2, 3, 4),),
    "post": ((1, 2, 3, 4), (0, 0, 1, 2), (1, 10 ** 6, 10 ** 9, 10 ** 12),
             (0, 1, 10 ** 6, 10 ** 7), (0, 1, 10 ** 6, 10 ** 7)),
    "line": ((1, 2, 3, 4), (0, 0, 1, 2),
             (single(0.001), span(0.5, 2.5), single(1e6), single(1e9)),
             (single(-0.0), single(0.0625), single(1e3), span(0.0, 1e4),
              span(0.001, 0.002)),
             (single(0.0), single(0.0005), single(1e4), span(1.0, 1e3),
              single(0.1875), span(0.002, 0.003))),
    "strike": ((1, 2, 3, 5, 8, 13, 21, 34, 55),),
    "enrol": ((1, 2, 3, 4), (1, 2, 3, 10_000), (0, 1, 2, 100, 400, 1000),
              (1, 500, 10 ** 6, 10 ** 9, 10 ** 9),
              (0, 1, 500, 40_000_000, 40_000_000), (0, 0, 0, 0, 80, 300)),
    "quote": ((1, 2, 3, 10_000), (0, 1), (1, 499, 500, 10 ** 9),
              (1, 500, 905_000, 40_000_000), (0, 1, 3, 499, 500, 10 ** 9),
              (0, 1, 3, 499, 500, 10 ** 9)),
    "close": ((1, 2, 3, 4),),
    "preview": ((1, 2, 3, 4), (512,)),
    "statement": ((1, 2, 3, 10_000),),
    "intensity": ((1, 2, 3, 4), (0, 1, 2, 100)),
}
APPENDING = ("open", "post", "post", "line", "strike", "enrol", "enrol",
             "enrol", "enrol", "quote")
NAMES = APPENDING * 5 + ("close",) + ("preview", "statement", "intensity") * 3


def random_call(rng, strange, names=NAMES):
    """A call; one argument in `strange` is any number or cell."""
    name = names[rng.randrange(len(names))]
    arguments = []
    for usual in USUAL[name]:
        choices = usual
        if rng.randrange(strange) == 0:
            choices = ANY_CELLS if isinstance(usual[0], tuple) else ANY
        arguments.append(choices[rng.randrange(len(choices))])
    return name, arguments


def random_calls(check):
    """Calls by both ways, and what holds of each."""
    rng = random.Random(SEED)
    met = set()
    halves = {}
    for number in range(40):
        words = [rng.getrandbits(64) for _ in range(2669)]
        after = words[2660:]
        check(calls.make("fresh", words) == [0], "fresh")
        lists = Lists()
        for kind in (1, 2, 3, 4):
            if number % 2 == 0:
                calls.make("open", words, kind)
                lists.open(kind)
        for step in range(400 if number < 4 else 150):
            if step % 70 == 69 and number % 4 == 3:
                close_anyhow(lists, words, rng)
            name, arguments = random_call(rng, 40 if number < 8 else 12)
            before = list(words)
            numbers = calls.make(name, words, *arguments)
            case = (name, arguments, numbers)
            met.add((name, numbers[0]))
            check(numbers == list(getattr(lists, name)(*arguments)),
                  "the numbers of the lists", case)
            check(words[:2660] == lists.words(), "the words of the lists",
                  case)
            check(words[2660:] == after, "the words after the book", case)
            check_change(check, name, numbers, before, words, case)
            if numbers[0] == 0:
                for half in halves_of(name, words, arguments):
                    halves[half] = halves.get(half, 0) + 1
            if name == "close" and numbers == [0]:
                closing_checks.check_closing(check, before, words,
                                             arguments[0])
        check(book.is_sound(words) and is_sound_by_words(words),
              "sound after a list")
    # Every ground but 1, 8 where the list is long, and 10 of an intensity,
    # whose F is never so small here.
    for name, numbers in (
        ("open", (0, 3, 8)), ("post", (0, 2, 3, 4, 6, 7, 10)),
        ("line", (0, 15, 16, 2, 3, 4, 6, 10)),
        ("strike", (0, 2, 4)), ("enrol", (0, 2, 3, 4, 6, 14, 7, 10)),
        ("quote", (0, 3, 7, 10)), ("close", (0, 2, 4, 9)),
        ("preview", (0, 17, 2, 4, 9)),
        ("statement", (0, 3)), ("intensity", (0, 2, 3, 5, 9)),
    ):
        for number in numbers:
            check((name, number) in met, "not met", name, number)
    demand_halves(halves, ("quote", "cell", "mean"))


def close_anyhow(lists, words, rng):
    """Closes a category that has elements, by writing its words: shares with
    the right sums that no closing gives."""
    for number in range(1, len(lists.categories) + 1):
        if lists.category(number)[1] == 0 and any(
                element[0] == number for element in lists.elements):
            lists.close_anyhow(number, rng)
            words[:2660] = lists.words()
            return


def check_change(check, name, numbers, before, words, case):
    """Which words a call changes."""
    changed = [index for index in range(len(words))
               if before[index] != words[index]]
    if numbers[0] != 0:
        check(changed == [] and set(numbers[1:]) <= {0},
              "a refused call changes no word", case)
        return
    if name == "close":
        return
    if name in ("preview", "statement", "intensity"):
        check(changed == [], "it changes no word", case)
        return
    if name == "strike":
        check(len(changed) == 1 and words[changed[0]] == 1
              and 36 <= changed[0] < 356 and (changed[0] - 36) % 5 == 4,
              "a strike changes one struck word", case)
        return
    count, start, size = {"open": (1, 4, 2), "post": (2, 36, 5),
                          "line": (2, 36, 5)}.get(name, (3, 356, 9))
    check(numbers[1] == words[count] == before[count] + 1,
          "an append counts one more", case)
    place = start + (numbers[1] - 1) * size
    check(all(index == count or place <= index < place + size
              for index in changed), "an append changes its record", case)


# Damaged books.

def some_books(rng):
    """Sound books with records of every sort, from lists."""
    found = []
    for number in range(4):
        lists = Lists()
        for kind in (1, 2, 3, 4, 1, 3):
            lists.open(kind)
        for _ in range(60 if number == 0 else 300):
            name, arguments = random_call(rng, 100, APPENDING)
            getattr(lists, name)(*arguments)
        for category in (1, 3):
            lists.close_anyhow(category, rng)
        found.append(lists.words())
    return found


def damaged_books(check):
    """Soundness by both ways; each call on an unsound book is 1."""
    rng = random.Random(SEED)
    outcomes = [0, 0]
    for words in some_books(rng):
        check(book.is_sound(words) and is_sound_by_words(words), "sound")
        places = [index for start, size, count in
                  ((4, 2, words[1]), (36, 5, words[2]), (356, 9, words[3]))
                  for index in range(start, start + size * (count + 1))
                  if index < 2660]
        for _ in range(700):
            index = (rng.randrange(4) if rng.randrange(20) == 0
                     else places[rng.randrange(len(places))])
            value = words[index]
            other = (ANY[rng.randrange(len(ANY))], value ^ 1, value + 1,
                     value ^ 1 << rng.randrange(64),
                     value - 1)[rng.randrange(5)]
            words[index] = other % 2 ** 64
            sound = book.is_sound(words)
            outcomes[sound] += 1
            check(sound == is_sound_by_words(words),
                  "soundness by both ways", index, value, words[index])
            if not sound and rng.randrange(20) == 0:
                check_unsound(check, words)
            words[index] = value
        # Any words in uncounted records.
        for start, size, count, most in (
            (4, 2, words[1], 16), (36, 5, words[2], 64),
            (356, 9, words[3], 256),
        ):
            for index in range(start + size * count, start + size * most):
                words[index] = rng.getrandbits(64)
        check(book.is_sound(words), "any words in uncounted records")
    check(min(outcomes) > 300, "sound and unsound ones", outcomes)


def check_unsound(check, words):
    before = list(words)
    for name, arguments in (
        ("open", (1,)), ("open", (0,)), ("post", (1, 0, 0, 0, 0)),
        ("line", (1, 0, *[single(0.0)] * 3)), ("strike", (0,)),
        ("enrol", (5, 1, 0, 1, 1, 0)), ("enrol", (0,) * 6),
        ("quote", (1, 0, 1, 1, 0, 0)), ("quote", (0,) * 6),
        ("close", (1,)), ("close", (0,)), ("preview", (1, 512)),
        ("preview", (0, 511)), ("statement", (1,)),
        ("statement", (0,)), ("intensity", (1, 0)), ("intensity", (0, 3)),
    ):
        numbers = calls.make(name, words, *arguments)
        check(numbers[0] == 1 and set(numbers[1:]) <= {0},
              "1 for an unsound book", name)
    # The cells of a line come first.
    for cell, number in ((BLANK, 15), (span(2.0, 1.0), 16)):
        check(calls.make("line", words, 1, 0, single(1.0), single(1.0), cell)
              == [number, 0], "a cell and an unsound book", cell)
    check(words == before, "a refused call changes no word")
    # Fresh takes any words.
    check(calls.make("fresh", before) == [0]
          and before == [14083] + [0] * (len(before) - 1), "fresh")


def lengths(check):
    """Slices about 2,660 words long."""
    for length in (0, 1, 4, 2404, 2659, 2660, 2661, 3000):
        words = [9] * length
        numbers = calls.make("fresh", words)
        if length < 2660:
            check(numbers == [1] and words == [9] * length, "short", length)
            sound = ([14083] + [0] * 2659)[:length]
            check(calls.make("open", sound, 1) == [1, 0], "short", length)
            check(calls.make("quote", sound, 1, 0, 1, 1, 0, 0) == [1, 0],
                  "short", length)
            check(calls.make("line", sound, 1, 0, *[single(0.0)] * 3)
                  == [1, 0], "short", length)
            check(calls.make("line", sound, 1, 0, *[BLANK] * 3) == [15, 0],
                  "a blank cell in a short slice", length)
            check(calls.make("close", sound, 1) == [1], "short", length)
            for pair_length in (0, 511, 512):
                check(calls.make("preview", sound, 1, pair_length) == [1],
                      "short", length, pair_length)
            check(calls.make("statement", sound, 1) == [1] + [0] * 5,
                  "short", length)
            check(calls.make("intensity", sound, 1, 0) == [1, 0, 0],
                  "short", length)
        else:
            check(numbers == [0], "long enough", length)
            check(words == [14083] + [0] * 2659 + [9] * (length - 2660),
                  "fresh", length)
            check(calls.make("open", words, 1) == [0, 1], "open", length)


def full_lists(check):
    """16, 64 and 256 records pass, one more is 8."""
    words = [0] * 2660
    calls.make("fresh", words)
    for name, most, arguments in (
        ("open", 16, (3,)), ("post", 64, (16, 2, 5, 6, 7)),
        ("enrol", 100, (16, 1, 100, 1, 1)), ("quote", 256, (1, 0, 1, 1, 1, 1)),
    ):
        number = 0
        while number < most:
            refusal, number = calls.make(name, words, *arguments)
            check(refusal == 0, "room in the list", name, number)
            if name == "post":
                calls.make("strike", words, number)
        if name != "enrol":
            before = list(words)
            check(calls.make(name, words, *arguments) == [8, 0], "full", name)
            check(words == before, "a refused call changes no word")
    check(calls.make("enrol", words, 16, 1, 100, 1, 1) == [8, 0], "full")
    for cell, number in ((single(1.0), 8), (BLANK, 15)):
        check(calls.make("line", words, 16, 2, *[cell] * 3) == [number, 0],
              "a line and a full list", cell)
    check(is_sound_by_words(words), "a full book")


def run(check):
    written_out(check)
    closing_checks.run(check)
    tally_checks.by_hand(check)
    line_checks.run(check)
    rounding_checks.run(check)
    preview_checks.run(check)
    lengths(check)
    full_lists(check)
    random_calls(check)
    damaged_books(check)
    file_checks.run(check)
    cases_by_both_ways(check)
