"""Refusals in words: each message, and that one is found for every refusal of
the stored cases."""

import os

import pack
from calculation import loading, player
from cases import book_cases
from cases.file_writer import table_records
from cases.line_writer import single, span
from checks.quay_runs import CALCULATED, ROOT, tells_difference, text_of
from command import playing, refusals, sheets

STORED = os.path.join(ROOT, "crates", "replay", "stdin")

# Refusal numbers that `quay` never meets: its books have all their words and
# are sound, and its previews have all their pairs. 0 is none.
UNMET = (0, 1, 17)
POSSIBLE = {(name, number) for name, numbers in book_cases.ANSWERS.items()
            for number in numbers if number not in UNMET}

POST = ("post category 1 group %s quantity %s operation %s provision %s")
ENROL = "enrol category 1 chain %s code %s amount %s distance %s"
QUOTE = ("quote chain %s mass %s distance %s operation %s provision %s "
         "adjust %s")
POSTED = POST % ("all", 1000, 10, 20)
ENROLLED = ENROL % (7, "ambient", 100, 50)
SEATS = ENROL % (7, "lowest", 40, 50)
OTHER_SEATS = SEATS.replace("category 1", "category 2")
LINE = "line category 1 group all %s %s %s"
UNITS = ": expected 0 to 1_000_000_000 units\n"
GRAMS = ": expected 0 to 10_000_000 g CO2e per unit\n"

# Calls that are accepted, then one that is refused; its number, and what is
# said of it, with a line end where nothing is said behind it.
CALLS = (
    # 2
    ((), "close 1", 2,
     "there is no category 1: the book has no category yet"),
    (("open hub",), "close 2", 2,
     "there is no category 2: the book has category 1 alone"),
    (("open hub",) * 3, "intensity 0 0", 2,
     "there is no category 0: the book has categories 1 to 3, numbered"),
    ((), "strike 0", 2, "there is no entry 0: the book has no entry yet"),
    (("open hub", POSTED, POSTED), "strike 3", 2,
     "there is no entry 3: the book has entries 1 and 2, numbered"),
    ((), ENROLLED, 2, "there is no category 1"),
    # 3
    ((), "open 9", 3, "there is no kind 9: a kind is 1 freight"),
    (("open 1",), POST % (3, 1, 1, 1), 3,
     "there is no group 3: a group is 0 all, 1 chilled or 2 frozen"),
    ((), "statement 10001", 3,
     "there is no chain 10_001: a chain is 1 to 10_000"),
    (("open 1",), ENROL % (0, 50, 1, 1), 3,
     "there is no chain 0: a chain is 1 to 10_000",
     "there is no code 50: a code is 0 ambient, 1 chilled or 2 frozen for "
     "freight, and 100 to 1000 for passengers"),
    (("open 1",), "intensity 1 101", 3,
     "there is no code 101: an intensity is of code 0 ambient"),
    ((), QUOTE % (1, 1, 1, 1, 1, 2), 3,
     "there is no adjust 2: adjust is 0 or 1, and adds 95 km for air"),
    # 4
    (("open 1", ENROLLED, "close 1"), "close 1", 4,
     "category 1 is closed already: its emissions are handed out, and it "
     "takes no more entries, elements or strikes; begin again with `fresh` or "
     "`load`"),
    (("open 1", ENROLLED, "close 1"), ENROLLED, 4,
     "category 1 is closed: its emissions are handed out"),
    (("open 1", ENROLLED, "close 1"), POSTED, 4, "category 1 is closed: "),
    (("open 1", POSTED, "strike 1"), "strike 1", 4,
     "entry 1 is struck already: an entry is struck once"),
    (("open 1", POSTED, ENROLLED, "close 1"), "strike 1", 4,
     "category 1 is closed, and entry 1 is of it: "),
    # 5
    (("open 1", ENROLLED), "intensity 1 ambient", 5,
     "category 1 is still open: an intensity is known when"),
    # 6
    (("open freight",), ENROL % (7, 100, 1, 1), 6,
     "passengers in a freight category: category 1 is of kind 1, freight, "
     "and takes the codes 0 ambient, 1 chilled and 2 frozen; code 100 is "
     "passenger class 100"),
    (("open hub",), ENROL % (7, 250, 1, 0), 6,
     "passengers in a freight hub: category 1 is of kind 4, freight hub"),
    (("open passengers",), ENROL % (7, 2, 1, 1), 6,
     "freight in a category of passengers: category 1 is of kind 2, "
     "passengers, and takes the codes 100 to 1000 of classes; code 2 is "
     "frozen freight"),
    (("open passengers",), POST % ("chilled", 1, 1, 1), 6,
     "emissions of chilled freight in a category of passengers: category 1 "
     "is of kind 2, passengers, and takes entries of group 0"),
    # 14, which comes before 7
    (("open 3", ENROLLED, SEATS), SEATS + " kg 78", 14,
     "weighed passengers in category 1, which has unweighed ones: element 2 of "
     "category 1 has no `kg`: leave it out here, or weigh all passengers of "
     "the category\n"),
    (("open 2", SEATS), SEATS + " kg 100", 14,
     "element 1 of category 1 has no `kg`: leave it out here, or weigh all "
     "passengers of the category; a stated 100 is weighed too\n"),
    (("open 2", SEATS), SEATS + " kg 301", 14,
     "element 1 of category 1 has no `kg`: leave it out here, or weigh all "
     "passengers of the category\n"),
    (("open 2", SEATS + " kg 78", SEATS + " kg 79"), SEATS, 14,
     "unweighed passengers in category 1, which has weighed ones: element 1 of "
     "category 1 has `kg 78`: say by `kg` what these weigh too, 1 to 300, or "
     "leave it out for all passengers of the category\n"),
    # Other categories are looked past.
    (("open 2", "open 2", SEATS + " kg 79", OTHER_SEATS + " kg 78"),
     OTHER_SEATS, 14, "unweighed passengers in category 2, which has weighed "
     "ones: element 2 of category 2 has `kg 78`"),
    (("open 2", "open 2", OTHER_SEATS, SEATS), SEATS + " kg 78", 14,
     "weighed passengers in category 1, which has unweighed ones: element 2 of "
     "category 1 has no `kg`"),
    # 7
    (("open 2",), SEATS + " kg 301", 7,
     "kg per head 301 is out of range: expected 0 to 300, in kg, and 0 is the "
     "standard 100\n"),
    (("open 2", SEATS + " kg 300"), SEATS + " kg 18446744073709551615", 7,
     "kg per head 18_446_744_073_709_551_615 is out of range"),
    (("open 3", SEATS + " kg 78"), ENROLLED + " kg 78", 7,
     "for freight kg per head 78 is out of range: freight is not weighed by "
     "the head, and its mass is its amount: leave `kg` out\n"),
    (("open hub",), ENROL % (7, 2, 0, 5) + " kg 1", 7,
     "amount 0 is out of range", "in a freight hub distance 5 is out of range",
     "for freight kg per head 1 is out of range"),
    (("open 1",), POST % (0, 10 ** 12 + 1, 10 ** 10 + 1, 10 ** 10 + 2), 7,
     "quantity 1_000_000_000_001 is out of range: expected 0 to "
     "1_000_000_000_000, in thousandths of a unit",
     "operation factor 10_000_000_001 is out of range: expected 0 to "
     "10_000_000_000, in mg CO2e per unit",
     "provision factor 10_000_000_002 is out of range"),
    (("open 1",), ENROL % (7, 0, 0, 0), 7,
     "amount 0 is out of range: expected 1 to 1_000_000_000, in kg",
     "distance 0 is out of range: expected 1 to 40_000_000, in m"),
    (("open 3",), ENROL % (7, 100, 1_000_001, 1), 7,
     "amount 1_000_001 is out of range: expected 1 to 1_000_000, in heads"),
    (("open hub",), ENROL % (7, 0, 1, 5), 7,
     "in a freight hub distance 5 is out of range: a hub has no distances: "
     "write `distance 0`"),
    ((), QUOTE % (1, 0, 0, 10 ** 9 + 1, 10 ** 9 + 2, 0), 7,
     "mass 0 is out of range: expected 1 to 1_000_000_000, in kg",
     "distance 0 is out of range",
     "operation intensity 1_000_000_001 is out of range: expected 0 to "
     "1_000_000_000, in mg CO2e per tonne-km",
     "provision intensity 1_000_000_002 is out of range"),
    # 8
    (("open 1",) * 16, "open 1", 8,
     "no room for another category: a book has room for 16 categories"),
    (("open 1",) + (POSTED,) * 64, POSTED, 8,
     "no room for another entry: a book has room for 64 entries, struck ones "
     "too"),
    (("open 1",) + (ENROLLED,) * 256, ENROLLED, 8,
     "no room for another element: a book has room for 256 elements and "
     "quotes"),
    (("open 1",) + (ENROLLED,) * 256, QUOTE % (1, 1, 1, 1, 1, 0), 8,
     "no room for another element"),
    # 9
    (("open 1",), "close 1", 9,
     "no element in category 1: category 1 needs an element before it can be "
     "closed"),
    (("open 1", POST % (1, 1, 1, 0)), "close 1", 9,
     "no element in category 1: category 1 needs an element",
     "chilled emissions and no chilled element in category 1: entry 1 benefits "
     "chilled freight alone"),
    (("open 1", ENROLLED, POST % (1, 1, 0, 1), POST % (1, 1, 1, 0),
      POST % (2, 1, 1, 1), POST % (2, 1, 1, 1), "strike 4", "open 1",
      (POST % (2, 1, 1, 1)).replace("category 1", "category 2")), "close 1", 9,
     "chilled emissions and no chilled element in category 1: entry 1 and "
     "entry 2 benefit chilled freight alone; category 1 needs an element of "
     "`code chilled`, or these emissions are struck, and posted again with "
     "`group all`",
     "frozen emissions and no frozen element in category 1: entry 3 benefits "
     "frozen freight alone; category 1 needs an element of `code frozen`"),
    # As much of passengers as of freight.
    (("open 3", ENROL % (7, 0, 100, 1), ENROL % (7, 100, 1, 1),
      POST % (1, 1, 1, 1)), "close 1", 9, "chilled emissions and no chilled"),
    (("open 2", ENROL % (7, 100, 1, 1), "close 1"), "intensity 1 0", 9,
     "no freight in category 1: category 1 carries none, so it has no "
     "intensity for it"),
    (("open 1", ENROLLED, "close 1"), "intensity 1 chilled", 9,
     "no chilled freight in category 1: "),
    (("open 1", ENROLLED, "close 1"), "intensity 1 lowest", 9,
     "no passengers in category 1: "),
    # 10
    (("open 1",), POST % (0, 10 ** 12, 10 ** 6 + 1, 10 ** 10), 10,
     "more than 10^18 µg in operation: the unstruck entries and the quotes "
     "would add up to 1_000_001_000_000_000_000 µg; a quantity is in "
     "thousandths of a unit, a factor in mg",
     "more than 10^18 µg in provision: the unstruck entries and the quotes "
     "would add up to 10_000_000_000_000_000_000_000 µg"),
    ((QUOTE % (1, 10 ** 9, 1000, 10 ** 3, 2, 0),),
     QUOTE % (1, 10 ** 9, 40_000_000, 10 ** 9, 0, 0), 10,
     "more than 10^18 µg in operation: the unstruck entries and the quotes "
     "would add up to 40_000_000_001_000_000_000_000 µg; an intensity is "
     "in mg per tonne-km, a mass in kg"),
    (("open 1",) + (ENROL % (7, 0, 10 ** 9, 40_000_000),) * 2,
     ENROL % (7, 0, 10 ** 9, 40_000_000), 10,
     "more than 10^17 of activity: kg × m over all elements, a head counted as "
     "100 kg, weighed or not, and a hub without m, would add up to "
     "120_000_000_000_000_000\n"),
    # What is at its limit is no reason for it.
    (("open 1",), POST % (0, 10 ** 12, 10 ** 6, 10 ** 6 + 1), 10,
     "more than 10^18 µg in provision: "),
    (("open 1", POST % (0, 10 ** 6, 10 ** 6, 10 ** 6 + 1),
      ENROL % (7, 0, 1, 1), "close 1"), "intensity 1 0", 10,
     "an intensity above 10^15 mg: provision would be 1_000_001_000_000_000"),
    (("open 1", POST % (0, 10 ** 12, 10 ** 6, 10 ** 6))
     + (ENROL % (7, 0, 10 ** 9, 40_000_000),) * 2,
     ENROL % (7, 0, 10 ** 9, 40_000_000), 10, "more than 10^17 of activity"),
    (("open 3",) + (ENROL % (7, 0, 10 ** 9, 40_000_000),) * 2
     + (ENROL % (7, 1000, 10 ** 6, 40_000_000),) * 5,
     ENROL % (7, 1000, 1, 1), 10,
     "would add up to 100_000_000_000_000_100"),
    (("open 3",) + (ENROL % (7, 0, 10 ** 9, 40_000_000),) * 2
     + (ENROL % (7, 1000, 10 ** 6, 40_000_000) + " kg 1",) * 5,
     ENROL % (7, 1000, 1, 1) + " kg 300", 10,
     "would add up to 100_000_000_000_000_100"),
    (("open 1",) + (ENROL % (7, 0, 10 ** 9, 40_000_000),) * 2,
     QUOTE % (1, 10 ** 9, 40_000_000, 0, 0, 0), 10,
     "would add up to 120_000_000_000_000_000"),
    (("open 1", "open hub") + (ENROL % (7, 0, 10 ** 9, 40_000_000),) * 2
     + (ENROL % (7, 0, 10 ** 9, 20_000_000),),
     (ENROL % (7, 0, 5, 0)).replace("category 1", "category 2"), 10,
     "would add up to 100_000_000_000_000_005"),
    (("open 1", POST % (0, 10 ** 12, 10 ** 6, 0),
      ENROL % (7, 0, 1, 1), "close 1"), "intensity 1 0", 10,
     "an intensity above 10^15 mg: operation would be "
     "1_000_000_000_000_000_000_000"),
    # 10^15 + 1.5 of a hub in operation; its 10^15 + 0.5 in provision passes.
    (("open hub", POST % (0, 10 ** 9, 2 * 10 ** 6, 2 * 10 ** 6),
      POST % (0, 1, 3, 1), ENROL % (7, 0, 2, 0), "close 1"), "intensity 1 0",
     10, "an intensity above 10^15 mg: operation would be "
     "1_000_000_000_000_002\n"),
    # 0.5 µg is none, 1.5 µg are two.
    ((QUOTE % (1, 500, 1, 1, 0, 0), "open 1"),
     POST % (0, 10 ** 12, 10 ** 6 + 1, 0), 10, "the quotes would add up to "
     "1_000_001_000_000_000_000 µg; a quantity"),
    (("open 1", POST % (0, 10 ** 12, 0, 10 ** 6)),
     QUOTE % (1, 500, 1, 1, 3, 0), 10, "more than 10^18 µg in provision: the "
     "unstruck entries and the quotes would add up to "
     "1_000_000_000_000_000_002 µg; an intensity"),
    # 15 of a line's cells, which comes before all of a post's
    ((), LINE % ("-", 1, 1), 15, "    the quantity is blank" + UNITS),
    ((), LINE % (1, "-", 1), 15, "    the operation factor is blank" + GRAMS),
    ((), LINE % (1, 1, "blank"), 15,
     "    the provision factor is blank" + GRAMS),
    ((), LINE % ("inf", "-inf", "nan"), 15,
     "    the quantity, inf, is not finite" + UNITS,
     "    the operation factor, -inf, is not finite" + GRAMS,
     "    the provision factor, nan, is not finite" + GRAMS),
    ((), LINE % ("1e309", 1, 1), 15,
     "    the quantity, inf, is not finite" + UNITS),
    ((), LINE % ("-5e-324", 1, "-12.5"), 15,
     "    the quantity, -5e-324, is below zero" + UNITS,
     "    the provision factor, -12.5, is below zero" + GRAMS),
    ((), LINE % ("1000000000.0000001", "10000000.000000002", "1e7"), 15,
     "    the quantity, 1000000000.0000001, is above its limit" + UNITS,
     "    the operation factor, 10000000.000000002, is above its limit"
     + GRAMS),
    ((), LINE % ("3..nan", "-1..-2", "0..2e7"), 15,
     "    the second double of the quantity, nan, is not finite" + UNITS,
     "    the first double of the operation factor, -1, is below zero" + GRAMS,
     "    the second double of the operation factor, -2, is below zero"
     + GRAMS,
     "    the second double of the provision factor, 20000000, is above its "
     "limit" + GRAMS),
    ((), LINE % ("-1..1e9", "1e7..inf", "0..1e7"), 15,
     "    the first double of the quantity, -1, is below zero" + UNITS,
     "    the second double of the operation factor, inf, is not finite"
     + GRAMS),
    # Within a cell it comes before 16, and a cell before those behind it.
    ((), LINE % ("5..-1", "2..1", 1), 15,
     "    the second double of the quantity, -1, is below zero" + UNITS),
    # 16
    ((), LINE % ("3.4..3.1", 1, 1), 16,
     "    the second double of the quantity, 3.1, is below its first, 3.4: a "
     "span goes from its smaller number to its larger one, as 3.1..3.4 does"
     "\n"),
    ((), LINE % (1, "2..1", "5e-324..0"), 16,
     "    the second double of the operation factor, 1, is below its first, 2",
     "    the second double of the provision factor, 0, is below its first, "
     "5e-324"),
    ((), LINE % ("2..1", "-", "nan"), 16,
     "    the second double of the quantity, 1, is below its first, 2"),
    # What a post is refused with, of what the cells become.
    ((), LINE % (1, 1, 1), 2, "there is no category 1"),
    (("open 1",), LINE.replace("all", "3") % (1, 1, 1), 3,
     "there is no group 3"),
    (("open 1", ENROLLED, "close 1"), LINE % (1, 1, 1), 4,
     "category 1 is closed: its emissions are handed out"),
    (("open 2",), LINE.replace("all", "2") % (1, 1, 1), 6,
     "emissions of frozen freight in a category of passengers"),
    (("open 1",) + (LINE % (1, "1..2", 0),) * 64, LINE % (0, 0, 0), 8,
     "no room for another entry: a book has room for 64 entries, struck ones "
     "too\n"),
    (("open 1", LINE % (0.0625, 1, 0)), LINE % ("1e9", "1e6..1e6", 1000), 10,
     "more than 10^18 µg in operation: the unstruck entries and the quotes "
     "would add up to 1_000_000_000_000_000_062_000 µg; a quantity is in units, "
     "a factor in g CO2e per unit\n"),
)


def each_call(check):
    for before, call, number, *told in CALLS:
        session = playing.Session(CALCULATED)
        for line in before:
            session.answer(playing.request_of(line))
        check(session.refused == 0, "accepted", before)
        first, *lines = session.answer(playing.request_of(call))
        check(first == "refused %d: %s" % (number, refusals.MEANINGS[number]),
              "the number", call, first)
        check(len(lines) == len(told), "as many reasons", call, lines)
        for line, words in zip(lines, told):
            check(line.startswith("    ") and words in line + "\n",
                  "a reason", line, words)
        if call.startswith("close"):
            found = session.answer(playing.request_of(
                call.replace("close", "preview")))
            check(found == [first, *lines], "its preview", call, found)
    given = {(call.split()[0], number) for _, call, number, *_ in CALLS}
    check(given <= POSSIBLE and {number for _, number in given}
          == {number for _, number in POSSIBLE}, "every number", given)


# Files.

FREIGHT = (1, 7, 0, 0, 100, 50, 0, 0)
HEADS = (1, 7, 100, 0, 40, 50, 0, 0)
WEIGHED = (1, 7, 100, 78, 40, 50, 0, 0)

# The records of a file, and the line that is told.
FILES = (
    (((1, 2),), (), (), "line 1: category 1: there is no close 2 (refused 13)",
     "`close` stands alone, or is 0 or 1"),
    (((9, 0),), (), (), "line 1: category 1: there is no kind 9 (refused 3)",
     "a kind is 1 freight"),
    (((1, 0),) * 17, (), (),
     "line 17: category 17: no room for another category (refused 8)",
     "a book has room for 16 categories"),
    (((1, 0),), ((2, 0, 1, 1, 1),), (),
     "line 2: entry 1: there is no category 2 (refused 2)",
     "the book has category 1 alone"),
    (((1, 0),), (), (FREIGHT, (1, 7, 100, 0, 1, 1, 0, 0)),
     "line 3: element 2: passengers in a freight category (refused 6)",
     "category 1 (line 1) is of kind 1, freight"),
    (((1, 0),), (), (FREIGHT, (1, 7, 0, 1, 1, 1, 0, 2)),
     "line 3: element 2: adjust and provision for an element of a category "
     "(refused 13)", "only a quote has an air adjustment or intensities"),
    (((1, 0),), (), ((1, 7, 0, 0, 1, 1, 3, 2),),
     "line 2: element 1: operation and provision for an element of a category "
     "(refused 13)", "an element's share comes from its category's entries"),
    (((1, 0),), (), ((1, 7, 0, 80, 1, 1, 0, 0),),
     "line 2: element 1: adjust for an element of a category (refused 13)",
     "only a quote has an air adjustment or intensities"),
    (((2, 0),), (), ((1, 7, 50, 80, 1, 1, 0, 0),),
     "line 2: element 1: adjust for an element of a category (refused 13)",
     "only a quote has an air adjustment or intensities"),
    # Of passengers it is what they weigh.
    (((2, 0),), (), ((1, 7, 100, 80, 1, 1, 3, 0),),
     "line 2: element 1: operation for an element of a category (refused 13)",
     "only a quote has an air adjustment or intensities"),
    (((1, 0),), (), (FREIGHT, WEIGHED),
     "line 3: element 2: passengers in a freight category (refused 6)",
     "category 1 (line 1) is of kind 1, freight"),
    (((3, 0), (2, 0)), (), ((2, *WEIGHED[1:]), FREIGHT, HEADS, WEIGHED),
     "line 6: element 4: weighed passengers in category 1, which has unweighed "
     "ones (refused 14)",
     "element 3 (line 5) of category 1 (line 1) has no `kg`: leave it out here, "
     "or weigh all passengers of the category"),
    (((2, 0),), (), (WEIGHED, WEIGHED, HEADS),
     "line 4: element 3: unweighed passengers in category 1, which has weighed "
     "ones (refused 14)",
     "element 1 (line 2) of category 1 (line 1) has `kg 78`: say by `kg` what "
     "these weigh too, 1 to 300, or leave it out for all passengers of the "
     "category"),
    (((2, 0),), (), (WEIGHED, (1, 7, 100, 301, 40, 50, 0, 0)),
     "line 3: element 2: kg per head 301 is out of range (refused 7)",
     "expected 0 to 300, in kg, and 0 is the standard 100"),
    ((), (), ((0, 7, 3, 0, 1, 1, 0, 0),),
     "line 1: element 1: code 3 for an element of category 0 (refused 13)",
     "an element of category 0 is a quote"),
    (((1, 0),), (), ((1, 7, 0, 0, 0, 0, 0, 0),),
     "line 2: element 1: amount 0 is out of range (refused 7)",
     "expected 1 to 1_000_000_000, in kg",
     "distance 0 is out of range: expected 1 to 40_000_000, in m"),
    (((1, 0), (1, 1)), ((2, 1, 1, 1, 1),), ((2, *FREIGHT[1:]),),
     "line 2: closing of category 2: chilled emissions and no chilled element "
     "in category 2 (refused 9)",
     "entry 1 (line 3) benefits chilled freight alone; category 2 (line 2) "
     "needs an element of `code chilled`, or these emissions are written with "
     "`group all`"),
)


def refusal_lines(text):
    try:
        sheets.Sheet(CALCULATED, text)
    except sheets.RefusedFile as refused:
        return refused.args[0]
    return None


def each_file(check):
    for categories, entries, elements, told, *looks in FILES:
        text = pack.Text(text_of(categories, entries, elements))
        lines = refusal_lines(text)
        check(lines is not None and lines[0] == told, "told", told, lines)
        check(lines[1].strip() in text.lines, "the line", lines)
        check(len(lines) == 2 + len(looks) and all(
            look in line for look, line in zip(looks, lines[2:])), "look",
            looks, lines)


def at_its_line(check):
    """Whatever stands before it, and however its lines end."""
    text = ("\ufeff# a book\n\n\tcategory\tkind freight\n# more\nelement "
            "category 1 chain 7 code 0 amount 1 distance 1\n  element category "
            "1 chain 7 code 100 amount 1 distance 1 # seats\n")
    for end in ("\n", "\r\n", "\r"):
        lines = refusal_lines(pack.Text(text.replace("\n", end)))
        check(lines[:2] == [
            "line 6: element 2: passengers in a freight category (refused 6)",
            "    element category 1 chain 7 code 100 amount 1 distance 1 # "
            "seats"] and "category 1 (line 3)" in lines[2], "line 6", lines)


# The stored cases.

def every_stored_refusal(check):
    """Every refused call and every stopped file of the stored cases that
    `quay` can meet has a reason, and every number that a call can give is
    among them."""
    with open(STORED, "rb") as file:
        data = file.read()
    played = player.Player()
    found = set()
    for start in range(0, len(data), player.RECORD.size):
        record = data[start:start + player.RECORD.size]
        coming, cells = played.state.file, played.state.cells
        numbers = played.play(record)
        operation, *arguments = player.RECORD.unpack(record)
        if coming is not None:
            if numbers is not None:
                check_load(check, coming.data(), numbers)
        elif (operation in player.CALLS and numbers
              and numbers[0] not in UNMET):
            name = player.CALLS[operation]
            arguments = player.used_arguments(
                name, player.with_cells(operation, arguments, cells))
            lines = list(refusals.of_call(
                numbers[0], played.state.words[:played.state.lent], name,
                arguments))
            check(len(lines) > 1, "a reason", name, arguments, lines)
            found.add((name, numbers[0]))
    check(found == POSSIBLE, "every number of every call", POSSIBLE ^ found)


def check_load(check, data, numbers):
    if numbers[0] in (0, 1, loading.BAD_FILE, loading.BAD_SECTION):
        return
    tables = [table_records(data, table) for table in (1, 2, 3)]
    text = pack.Text(text_of(*tables))
    if not text.problems:
        lines = refusal_lines(text)
        check(lines is not None and len(lines) > 2
              and "(refused %d)" % numbers[0] in lines[0], "a stopped file",
              numbers, lines)


# Wrong programs.

def differences(check):
    """A number of which nothing is found in the book is told."""
    session = playing.Session(CALCULATED)
    for line in ("open 3", ENROLLED, SEATS + " kg 78"):
        session.answer(playing.request_of(line))
    for name, arguments, numbers in (
        ("close", (1,), (1, 2, 3, 4, 9, 14)),
        ("preview", (1,), (1, 2, 4, 9, 17)),
        # Freight is looked past, and 79 kg is weighed as 78 kg is.
        ("enrol", (1, 7, 0, 1, 1, 0), (7, 14)),
        ("enrol", (1, 7, 0, 1, 1, 78), (14,)),
        ("enrol", (1, 7, 100, 1, 1, 79), (7, 14)),
        ("line", (1, 0, *[single(1.5)] * 3), (2, 3, 4, 6, 10, 15, 16)),
        ("line", (1, 0, span(0.0, 1e7), span(3.0, 3.0), span(0.0, -0.0)),
         (15, 16)),
        # A cell is refused, so nothing of the post is looked at.
        ("line", (9, 9, single(1.5), (), single(1.5)), (2, 3, 16)),
        ("line", (9, 9, single(1.5), span(2.0, 1.0), ()), (2, 3)),
        ("post", (1, 0, 1, 1, 1), (15, 16)),
    ):
        for number in numbers:
            tells_difference(
                check, "refuses with %d, and nothing of that number" % number,
                lambda: list(refusals.of_call(number, session.ledger.words,
                                              name, arguments)))


def run(check):
    each_call(check)
    each_file(check)
    at_its_line(check)
    every_stored_refusal(check)
    differences(check)
