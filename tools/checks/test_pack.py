#!/usr/bin/env python3
"""Tests the packing of texts, and the examples.

    python3 tools/checks/test_pack.py

Prints `N checks passed`, or what failed with exit status 1.
"""

import os
import subprocess
import sys

sys.path.insert(0, os.path.dirname(os.path.dirname(os.path.abspath(__file__))))

import pack
from calculation.sheet import sheet
from cases.file_writer import EXAMPLE, file_of, table_records
from checks import sheet_checks
from checks.checking import Checks
from command import texts

TOOLS = os.path.dirname(os.path.dirname(os.path.abspath(__file__)))
EXAMPLES = os.path.join(os.path.dirname(TOOLS), "examples")
PROGRAM = os.path.join(os.path.dirname(TOOLS), "crates", "quaymeter")

LARGEST_U32 = 2 ** 32 - 1
LARGEST = 2 ** 64 - 1

ENTRY = "entry category 1 group 2 quantity 3 operation 4 provision 5"
ELEMENT = "element category 1 chain 2 code 3 amount 4 distance 5"
PASSENGERS = "element category 1 chain 2 code 100 amount 4 distance 5"
QUOTE = "quote chain 1 mass 2 distance 3 operation 4 provision 5"

check = Checks()


def good(text, *tables):
    data, problems = pack.packed(text)
    check(not problems and data == file_of(*tables), "packed", text, problems)


def good_lines():
    good("")
    good("\n  \n# nothing\n   # here")
    good("category kind 1", [(1, 0)])
    good("category kind 1 close", [(1, 1)])
    good("category close kind 1", [(1, 1)])
    good("category kind 1 close 0", [(1, 0)])
    good(ENTRY, (), [(1, 2, 3, 4, 5)])
    good(ELEMENT, (), (), [(1, 2, 3, 0, 4, 5, 0, 0)])
    good(QUOTE, (), (), [(0, 1, 0, 0, 2, 3, 4, 5)])
    good(QUOTE + " adjust", (), (), [(0, 1, 0, 1, 2, 3, 4, 5)])
    # In any order, of words and of tables.
    good("quote provision 5 adjust distance 3 chain 1 operation 4 mass 2",
         (), (), [(0, 1, 0, 1, 2, 3, 4, 5)])
    good("\n".join((QUOTE, ENTRY, "category kind 4", ELEMENT,
                    "category kind 2 close", ENTRY.replace("5", "6"))),
         [(4, 0), (2, 1)], [(1, 2, 3, 4, 5), (1, 2, 3, 4, 6)],
         [(0, 1, 0, 0, 2, 3, 4, 5), (1, 2, 3, 0, 4, 5, 0, 0)])
    # Comments, spaces, the ends of lines.
    good("\tcategory   kind\t1 close# to be closed\r\ncategory kind 2 #close",
         [(1, 1), (2, 0)])
    good("CATEGORY Kind 1 Close", [(1, 1)])


def value_words():
    """Words for a kind, a group and a code."""
    for place, word in enumerate(("freight", "passengers", "both", "hub"), 1):
        good("category kind %s close" % word, [(place, 1)])
    for place, word in enumerate(("all", "chilled", "frozen")):
        good(ENTRY.replace("group 2", "group " + word), (),
             [(1, place, 3, 4, 5)])
    for number, word in ((0, "ambient"), (1, "chilled"), (2, "Frozen"),
                         (100, "lowest")):
        good(ELEMENT.replace("code 3", "code " + word), (), (),
             [(1, 2, number, 0, 4, 5, 0, 0)])
    bad("category kind fright", "did you mean `freight`?",
        "expected freight (1), passengers (2), both (3) or hub (4)")
    bad(ELEMENT.replace("code 3", "code reefer"), "did you mean `chilled`?")
    bad("category kind ambient", "`ambient` after `kind` is not a whole "
        "number, nor one of its words")
    bad(ENTRY.replace("group 2", "group ambient"), "`ambient` after `group`",
        "all (0), chilled (1) or frozen (2)")
    bad(ELEMENT.replace("code 3", "code first"), "`first` after `code`",
        "lowest (100); `code` is for passengers their class in hundredths of "
        "the lowest, 100 to 1000")
    for word in ("terminal", "port", "warehouse"):
        bad("category kind " + word, "did you mean `hub`?")
    bad("category freight", "did you mean `kind freight`?")
    bad(ENTRY.replace("quantity 3", "quantity all"), "`all` after `quantity`")


def weighed():
    """The kg per head of passengers, in the field adjust of the file."""
    for code in (100, 101, 999, 1000):
        line = PASSENGERS.replace("code 100", "code %d" % code)
        for kg in (0, 1, 78, 100, 300, 301, LARGEST_U32):
            good(line + " kg %d" % kg, (), (),
                 [(1, 2, code, kg, 4, 5, 0, 0)])
        good(line, (), (), [(1, 2, code, 0, 4, 5, 0, 0)])
    good("element KG 1_000 category 1 chain 2 code lowest amount 4 distance 5",
         (), (), [(1, 2, 100, 1000, 4, 5, 0, 0)])
    good(PASSENGERS + " kg 78 adjust 0 operation 8 provision 9", (), (),
         [(1, 2, 100, 78, 4, 5, 8, 9)])
    # The kind of the category is for the ledger to judge.
    good("category kind freight\n" + PASSENGERS + " kg 78", [(1, 0)], (),
         [(1, 2, 100, 78, 4, 5, 0, 0)])
    # Freight, what is none of both, and what is quoted hold 0.
    alone = ("expected no `kg`: it is for passengers alone, whose code is 100 "
             "to 1000")
    quoted = "`kg` for a quote, which an element of category 0 is"
    for line, code, what in (
        (ELEMENT, 0, "`kg` for freight, which is not weighed by the head: its "
                     "mass is its amount"),
        (ELEMENT, 2, "`kg` for freight, which is not weighed by the head"),
        *((ELEMENT, code, "`kg` for code %d, which is none of passengers"
           % code) for code in (3, 50, 99, 1001, LARGEST_U32)),
        *((ELEMENT.replace("category 1", "category 0"), code, quoted)
          for code in (0, 50, 100)),
    ):
        line = line.replace("code 3", "code %d" % code)
        for kg in (1, 78, 301):
            bad(line + " kg %d" % kg, what, alone)
        numbers = [(int("category 1" in line), 2, code, 0, 4, 5, 0, 0)]
        good(line + " kg 0", (), (), numbers)
        # The field itself, so that 13 can be seen.
        good(line + " adjust 80", (), (), [(*numbers[0][:3], 80, 4, 5, 0, 0)])
    for kg in (0, 1, 78):
        bad(QUOTE + " kg %d" % kg, "a quote has no `kg`: only passengers are "
            "weighed by the head, and a quote is of freight, by its `mass`",
            "expected quote with chain, mass")
    # An air adjustment is never taken for kg.
    for line in (" adjust", " adjust 1", " adjust 78 kg 78"):
        bad(PASSENGERS + line, "`adjust` for passengers: only a quote has an "
            "air adjustment", "expected no `adjust`; what each passenger "
            "weighs is `kg`, as in `kg 78`")


def kg_as_a_unit():
    """It is told as a unit where no number is behind it."""
    for line in (ELEMENT.replace("amount 4", "amount 4 kg"),
                 "element category 1 chain 2 code 3 distance 5 amount 4 kg",
                 PASSENGERS.replace("amount 4", "amount 4 KG")):
        bad(line, "no number after `kg`: a number stands without its unit, and "
            "`kg` is a word of its own; `amount` is in kg, or heads for "
            "passengers", "`kg` is what each passenger weighs, 1 to 300; left "
            "out or 0 it is the standard 100")
    bad(PASSENGERS.replace("element", "element kg"), "no number after `kg`",
        "expected a whole number such as 12000000")
    bad(PASSENGERS + " kg 78kg", "a number stands without its unit",
        "`kg` is what each passenger weighs")
    bad(PASSENGERS + " kg 78.5", "there are no decimals", "1 to 300")
    bad(PASSENGERS + " kg 78 kg", "`kg` stands twice")
    bad(PASSENGERS + " kg=78", "did you mean `kg 78`?")
    for word in ("weight", "mass", "kg_per_head", "kg/head"):
        bad(PASSENGERS + " %s 78" % word, "did you mean `kg`?")
    bad(PASSENGERS.replace("amount", "weight"), "did you mean `amount`?")
    for line in (QUOTE.replace("mass 2", "mass 2 kg"), QUOTE + " kg"):
        bad(line, "`kg` is no word here: a number stands without its unit")


LINES = ("category kind 1 close", QUOTE, "# the end")
PACKED_LINES = [(1, 1)], (), [(0, 1, 0, 0, 2, 3, 4, 5)]


def forms():
    """The same text in other encodings and with other line ends."""
    for end in ("\n", "\r\n", "\r", "\n\n", "\r\r\n"):
        for encoding in ("utf-8", "utf-8-sig", "utf-16", "utf-16-le",
                         "utf-16-be", "cp1252"):
            for last in ("", end):
                data = (end.join(LINES) + last).encode(encoding)
                good(texts.decoded(data), *PACKED_LINES)
    # Both marks of UTF-16, a mark inside the text, and letters of Windows.
    for mark, encoding in ((b"\xff\xfe", "utf-16-le"),
                           (b"\xfe\xff", "utf-16-be")):
        good(texts.decoded(mark + "\n".join(LINES).encode(encoding)),
             *PACKED_LINES)
    good("\n\ufeff".join(LINES), *PACKED_LINES)
    # Zeros in a comment make no UTF-16.
    for comment in (b"#\0\n", b"#\0a\0\n", b"#" + b"\0" * 200 + b"\n"):
        good(texts.decoded(comment + "\n".join(LINES).encode()),
             *PACKED_LINES)
    data = b"# M\xfcller\ncategory\xa0kind 1\nname 7 M\xfcller & S\xf8n \x80"
    book = pack.Text(texts.decoded(data))
    check(not book.problems and book.names
          == {7: "M\u00fcller & S\u00f8n \u20ac"}, "letters of Windows",
          book.names)
    # A text of DOS ends in Ctrl-Z.
    good("\r\n".join(LINES) + "\r\n\x1a", *PACKED_LINES)
    bad("\x1a" + QUOTE, "no record is called `<U+001A>quote`")
    # Lines are counted by their own ends.
    for end in ("\n", "\r\n", "\r"):
        problems = pack.packed(end.join((QUOTE, "", "\tzzz", QUOTE)))[1]
        check([problem.number for problem in problems] == [3], "line 3",
              problems)


def notes():
    """What is told of a text that is packed."""
    for text in ("", "\n\n", "# nothing", "name 7 Harbour Mills"):
        check(pack.Text(text).notes == ["there is no record in this text"],
              "no record", text)
    check(pack.Text(QUOTE).notes == [], "a record", pack.Text(QUOTE).notes)
    check(pack.Text("what?").notes == [], "a bad line")
    text = pack.Text("# heading\r%s\n%s\r\n" % (QUOTE, QUOTE))
    check(text.notes == ["line 1 has a carriage return inside, which is no "
                         "line end in this text"] and not text.problems
          and len(text.tables[2]) == 1, "mixed line ends", text.notes)
    text = pack.Text(QUOTE + "\n" + ELEMENT.replace("category 1",
                                                    "category 0"))
    check(text.notes == ["line 2: an element of category 0 is a quote: it is "
                         "in no category, and its emissions are by its own "
                         "intensities alone"], "category 0", text.notes)
    lines = [QUOTE.replace("distance 3", "distance " + number)
             for number in ("300", "3,206", "12,000,000", "0,620", "1_000")]
    for count, more in ((2, ""), (3, ""), (5, "; 1 more number is alike"),
                        (7, "; 2 more numbers are alike")):
        text = pack.Text("\n".join(["# 1,000", "name 1 1,000"]
                                   + (lines + lines)[:count]))
        check(text.notes == ["line 4: `3,206` is read as 3206, since a comma "
                             "stands between thousands here and never before "
                             "decimals" + more], "a comma", text.notes)


def names():
    text = pack.Text("name 7 Harbour  Mills # of the harbour\n%s\n"
                     "Name Chain 4 7 Up\nname 10,000 x" % QUOTE)
    check(not text.problems and text.names == {
        7: "Harbour Mills", 4: "7 Up", 10_000: "x"}, "names", text.names)
    check(text.data() == file_of((), (), [(0, 1, 0, 0, 2, 3, 4, 5)]),
          "a name is not packed")
    for line in ("name", "name 7", "name chain 7", "name 7 # Mills",
                 "name# Mills"):
        bad(line, "a chain's number or its name is missing",
            "the number of a chain, 1 to 10,000", "`name 7 Harbour Mills`")
    for line in ("name Mills 7", "name 7: Mills", "name 7.5 Mills"):
        bad(line, "`%s` is not the number of a chain" % line.split()[1],
            "`name 7 Harbour Mills`")
    bad("name 0 x", "there is no chain 0 to name", "1 to 10,000")
    bad("name 10001 x", "there is no chain 10001 to name")
    text = pack.Text("name 3 Pier #3 Fruit # in the harbour\nname 4 \x1b[1mA#")
    check(text.names == {3: "Pier #3 Fruit", 4: "<U+001B>[1mA"},
          "signs of a name", text.names)
    text = pack.Text("name 7 a\nname 7 b")
    check(text.problems == [(2, "name 7 b", "chain 7 has a name already",
                             "expected one name for a chain")], "two names")


def refused_by_the_ledger():
    """What the form has room for is packed."""
    good("category kind 9 close 2", [(9, 2)])
    good("category kind 4294967295 close 4294967295",
         [(LARGEST_U32, LARGEST_U32)])
    good(ELEMENT + " adjust 7 operation 8 provision 9", (), (),
         [(1, 2, 3, 7, 4, 5, 8, 9)])
    good(ELEMENT.replace("category 1", "category 0"), (), (),
         [(0, 2, 3, 0, 4, 5, 0, 0)])
    good(QUOTE.replace("chain 1", "chain 0") + " adjust 2", (), (),
         [(0, 0, 0, 2, 2, 3, 4, 5)])
    good("\n".join(["category kind 1"] * 17), [(1, 0)] * 17)


def numbers():
    for text, number in (
        ("0", 0), ("007", 7), ("1000", 1000), ("1,000", 1000),
        ("1_000", 1000), ("12,345,678", 12345678), ("12_345_678", 12345678),
        ("18446744073709551615", LARGEST),
        ("18,446,744,073,709,551,615", LARGEST), ("0" * 5000 + "1", 1),
    ):
        check(pack.number_of(text, pack.needed("quantity")) == number,
              "number", text)
    for text in ("1,00", "1,0000", ",100", "100,", "1,,000", "1,000_000",
                 "1_000,000", "1__000", "_1", "1_", "1.5", "1.000", "-1", "+1",
                 "1e6", "0x10", "1kg", "kg", "\u0663", "\u00b2"):
        bad(QUOTE.replace("mass 2", "mass " + text), "not a whole number",
            "12,000,000")
        bad("category kind %s" % text, "not a whole number", "hub (4)")
    for text in ("20,50", "20,5", "1,0000", "20,5000"):
        bad(QUOTE.replace("distance 3", "distance " + text), "ambiguous",
            "`distance` is in m")
    for text in ("1.5", "12.000.000", "1,000.5", ".5"):
        bad(QUOTE.replace("mass 2", "mass " + text), "there are no decimals",
            "`mass` is in kg")
    for text in ("300km", "1_000kg", "5m", "5KM"):
        bad(QUOTE.replace("distance 3", "distance " + text),
            "a number stands without its unit", "`distance` is in m")


def no_numbers():
    """What is no number is told with its reason."""
    for text in ("12'000", "12\u2019000\u2019000"):
        bad(QUOTE.replace("mass 2", "mass " + text), "not a whole number: "
            "between the groups of a long number stands `_`")
    for text in ("3e4", "1.5E+6", "0x10"):
        bad(QUOTE.replace("mass 2", "mass " + text), "not a whole number: it "
            "is written with all its digits")
    for text in ("1_00", "1__000", "1_000,000", "1,000_000"):
        bad(QUOTE.replace("mass 2", "mass " + text), "as it stands: `_` stands "
            "between groups of three digits")
    for text in ("-5", "+1_000", "-0.5"):
        bad(QUOTE.replace("mass 2", "mass " + text), "not a whole number as it "
            "is written here: it has no sign, and none is below 0")
    bad(QUOTE.replace("mass 2", "mass \u0663\uff11"), "not a whole number in "
        "the digits 0 to 9")
    for text in ("50%", "1/2", "780_000;", "3-4", "187_OOO", "5m\u00b2"):
        told = pack.packed(QUOTE.replace("mass 2", "mass " + text))[1][0].what
        check(told == "`%s` after `mass` is not a whole number" % text,
              "no number", told)
    for text in ("km", "KM", "kg", "tonnes", "miles", "km,", "m."):
        bad(QUOTE.replace("distance 3", "distance 3 " + text),
            "`%s` is no word here: a number stands without its unit; "
            "`distance` is in m" % text)
    bad(QUOTE.replace("mass 2", "mass 12 000 000"), "`000` has no word before "
        "it that says what it is; between the groups of a long number")


def bad(line, what, *expected):
    """A line with one problem, between good ones."""
    text = "\n".join((QUOTE, "", line, QUOTE))
    problems = pack.packed(text)[1]
    check(len(problems) == 1, "one problem", line, problems)
    number, shown, told, wanted = problems[0]
    check((number, shown) == (3, line), "the bad line", line, problems)
    check(what in told, "what is wrong", line, told)
    for words in expected:
        check(words in wanted, "what was expected", line, wanted)


def bad_lines():
    bad("elemnt category 1", "did you mean `element`?", "category, entry")
    bad("Kategory kind 1", "did you mean `category`?")
    bad("zzz", "no record is called `zzz`", "expected a line that begins with "
        "category, entry, element, quote or name")
    bad("category kind 1 close -1", "`-1` after `close` is not a whole number")
    bad(ENTRY.replace("quantity", "fuel"), "did you mean `quantity`?")
    bad(ELEMENT.replace("amount 4", "amount x"), "`x` after `amount`",
        "`amount` is in kg, or heads for passengers")
    check(pack.packed("element category 1")[1][0].expected == "expected "
          "element with category, chain, code, amount and distance; it may "
          "have kg", "what is offered")
    bad("14083", "no record is called `14083`")
    bad("category", "missing: kind", "category with kind; it may have close")
    bad("category kind", "no number after `kind`", "expected freight (1)")
    bad("category kind close", "no number after `kind`")
    bad("category kind one", "`one` after `kind`")
    for line in ("category 1", "category 1 kind 2", "category 1: kind 2"):
        bad(line, "has no word before it that says what it is; records are "
            "numbered by their order", "category with kind")
    bad("category kind 1 1", "`1` has no word before it")
    bad("category kind 1 000", "`000` has no word before it")
    bad("category kind 1 close 1 1", "`1` has no word before it")
    bad("category kind 1 kind 2", "`kind` stands twice")
    bad("category kind 1 close close", "`close` stands twice")
    bad("category kind 1 closed", "did you mean `close`?")
    bad("category close knd 1", "did you mean `kind`?")
    bad("category kind 1 close 1.5", "`1.5` after `close`")
    bad("category kind 1 adjust", "`adjust` is no word of `category`")
    bad("category kind 1: close", "`1:` after `kind`")


def bad_fields():
    bad("entry category 1",
        "missing: group, quantity, operation and provision",
        "entry with category, group, quantity, operation and provision")
    bad(ENTRY.replace("group 2", ""), "missing: group")
    bad(ENTRY + " chain 3", "`chain` is no word")
    bad("element category 1 chain 2 code 3", "missing: amount and distance",
        "chain, code, amount and distance")
    bad(ELEMENT + " " + QUOTE, "`quote` begins a record, behind another one",
        "a line for each record")
    bad(ELEMENT.replace("code 3", "code 220 cabins"), "`cabins` is no word of "
        "`element`")
    bad(ELEMENT.replace("category 1", "category A"), "`A` after `category`",
        "`category` is a number, from 1 on in their order")
    bad(ELEMENT.replace("amount", "mass"), "`mass` is no word of `element`; "
        "did you mean `amount`?")
    bad(ELEMENT.replace("distance", "length"), "did you mean `distance`?")
    bad(ELEMENT.replace("chain 2", "chain Mills"), "`Mills` after `chain`",
        "`chain` is a number from 1 to 10,000, also where `name` gives it a "
        "name")
    bad(ELEMENT.replace("distance 5", "distance x"), "`x` after `distance`",
        "`distance` is in m, and 0 in a hub")
    bad(ENTRY.replace("operation 4", "operation x"), "`x` after `operation`",
        "`operation` is in mg CO2e per unit")
    bad(QUOTE.replace("provision 5", "provision x"), "`x` after `provision`",
        "`provision` is in mg CO2e per tonne-km")
    bad(QUOTE + " adjust 1.5", "`1.5` after `adjust`", "`adjust` is for an air "
        "leg: its emissions are of 95 km more")
    bad(QUOTE.replace("mass", "amount"), "did you mean `mass`?", "chain, mass",
        "it may have adjust")
    bad(QUOTE.replace("distance 3", "distance=3"), "`distance=3` is no word "
        "here; did you mean `distance 3`?")
    bad(QUOTE.replace("distance 3", "Distance: 3"), "`Distance:` is no word "
        "here; did you mean `distance ..`?")
    bad(QUOTE + " air", "did you mean `adjust`?")
    bad(QUOTE + " x=1", "`x=1` is no word of `quote`")
    bad(QUOTE + " category 0", "`category` is no word")
    bad(QUOTE + " code 0", "`code` is no word")
    bad(QUOTE.replace("distance 3", "distance"), "no number after `distance`")
    bad(QUOTE.replace(" ", "\u00a0") + " None", "`None` is no word")
    bad("element category 1 chian 2 code 3 amount 4 distance 5",
        "`chian` is no word of `element`; did you mean `chain`?")


def calls_in_a_text():
    """A call in a book's text gets a hint."""
    for line in ("close category 1", "close", "Close 1"):
        bad(line, "no record is called `close`", "write `close` at the end of "
            "the category's line, as in `category kind freight close`")
    for word, record in (("open", "category"), ("post", "entry"),
                         ("enrol", "element")):
        bad(word + " 1", "no record is called `%s`" % word,
            "has `%s` for it" % record)
    for word in ("strike", "preview", "statement", "intensity", "fresh",
                 "load", "show", "line"):
        bad(word + " 1", "no record is called `%s`" % word,
            "`tools/quay play`")
    bad("line category 1 group all 1 2 3", "no record is called `line`",
        "`tools/quay lines --entries` prints rows of a workbook as lines of a "
        "book's text")


def widths():
    """Each field at the largest number that fits, and one more."""
    for line, small in (("category kind 1 close 1", ("kind", "close")),
                        (ENTRY, ("category", "group")),
                        (ELEMENT + " adjust 0 operation 0 provision 0",
                         ("category", "chain", "code", "adjust")),
                        (PASSENGERS + " kg 0", ("category", "chain", "code",
                                                "kg")),
                        (QUOTE + " adjust 1", ("chain", "adjust"))):
        words = line.split()
        for place in range(2, len(words), 2):
            most = LARGEST_U32 if words[place - 1] in small else LARGEST
            for number, fits in ((most, True), (most + 1, False),
                                 (10 ** 4000, False)):
                changed = " ".join(words[:place] + [str(number)]
                                   + words[place + 1:])
                if fits:
                    check(not pack.packed(changed)[1], "fits", changed)
                else:
                    bad(changed, "is too large: it does not fit %d bits"
                        % most.bit_length(), "at most {:,}, and the ledger's "
                        "own limits are lower".format(most))


def too_many_bytes():
    """340 quotes and four categories make 16,384 bytes with the header."""
    fits = [QUOTE] * 340 + ["category kind 1"] * 4
    data, problems = pack.packed("\n".join(fits))
    check(not problems and len(data) == 16_384, "the longest", len(data))
    check(len(table_records(data, 3)) == 340, "all are there")
    # A name needs no room.
    named = "\n".join(["name %d x" % chain for chain in range(1, 400)] + fits)
    check(pack.packed(named) == (data, []), "the longest, with names")
    # The first record past the limit of its list is told.
    last = QUOTE + " adjust"
    fits[256] = last
    for line in ("category kind 1", ENTRY, QUOTE):
        problems = pack.packed("\n".join(fits + [line]))[1]
        check([problem[:3] for problem in problems] == [(
            257, last, "from this record on its list is full, and all records "
            "are more than a file has room for (16,384 bytes)")], "too long",
            problems)
    for lines, number in (
        (["category kind 1"] + [ENTRY] * 600, 66),
        (["category kind 1"] * 3000, 17),
        ([ENTRY] * 100 + [QUOTE] * 400, 65),
        ([ENTRY] * 20 + [QUOTE] * 400 + [ENTRY] * 45, 277),
    ):
        problems = pack.packed("\n".join(lines))[1]
        check([problem.number for problem in problems] == [number],
              "the first past its limit", problems)
    # However many there are, they are told once, among other bad lines.
    problems = pack.packed("\n".join(["zzz"] + fits + [QUOTE] * 60
                                     + ["zzz"]))[1]
    check([problem.number for problem in problems] == [1, 258, 406],
          "told once", problems)
    check("16 categories, 64 entries and 256 elements and quotes; here are 4, "
          "0 and 400" in problems[1].expected, "the limit", problems[1])


def run(*arguments, text=b""):
    done = subprocess.run(
        [sys.executable, os.path.join(TOOLS, "pack.py"), *arguments],
        input=text, stdout=subprocess.PIPE, stderr=subprocess.PIPE)
    return done.returncode, done.stdout, done.stderr.decode()


def commands():
    document = os.path.join(EXAMPLES, "document.txt")
    check(run(document) == (0, EXAMPLE, ""), "a path")
    with open(document, "rb") as file:
        check(run(text=file.read()) == (0, EXAMPLE, ""), "standard input")
    # A mark at the start of a text, and bytes that are no letters.
    check(run(text=b"\xef\xbb\xbfcategory kind 1 # \xff\r\n")
          == (0, file_of([(1, 0)]), ""), "a marked text")
    status, data, message = run(text=b"category kind 1\nentry\n")
    check((status, data) == (1, b"") and message.startswith("line 2: missing")
          and message.endswith("\nno file is written\n"), "a bad line", message)
    status, data, message = run(text=b"\x1b[1m\xff" * 200 + b"\nwhat?" * 14)
    check((status, data) == (1, b"") and "and 5 more bad lines" in message
          and "`<U+001B>[1m" in message and "\x1b" not in message, "many",
          message)
    status, data, message = run(os.path.join(EXAMPLES, "none.txt"))
    check((status, data) == (1, b"") and "cannot be read" in message,
          "no such text", message)
    check(run("a", "b") == (2, b"", "usage: pack.py [TEXT]\n"), "two texts")
    status, data, message = run(text=b"# nothing")
    check((status, data, message) == (
        0, file_of(), "note: there is no record in this text\n"), "no record")
    office = ("it is a document of an office program; save it there as plain "
              "text")
    for start, words in (
        (EXAMPLE, "it is packed already; crates/quaymeter/out/quaymeter "
                  "reads it from its standard input"),
        (b"PK\x03\x04 ", office), (b"\xd0\xcf\x11\xe0 ", office),
        (b"{\\rtf1", "it is a text with formats (RTF); save it as plain text"),
        (b"%PDF-1.4", "it is a PDF; a book is plain text"),
    ):
        check(run(text=start) == (
            1, b"", "standard input cannot be read: %s\n" % words), "no text")
    check(run(text=b"\x7fELF\0\0\n\0")
          == (1, b"", "standard input is no text; save it as plain text, in "
              "UTF-8\n"), "a program")


def examples():
    data = packed_example("document.txt")
    check(data == EXAMPLE, "document 01's example")
    check(sheet(data) == sheet_checks.SHEET_OF_EXAMPLE, "its sheet")
    check(stored("stdin") == data, "the program's stored input")
    check(stored("stdout") == sheet(data), "its stored output")
    voyage(packed_example("voyage.txt"))
    ferry(packed_example("ferry.txt"))
    packed_example("board.txt")


def stored(name):
    with open(os.path.join(PROGRAM, name), "rb") as file:
        return file.read()


def packed_example(name):
    data, problems = pack.packed(pack.read(os.path.join(EXAMPLES, name)))
    check(not problems, name, problems)
    return data


def refusals():
    """Edits of document 01's example, each with what is printed then."""
    text = pack.read(os.path.join(EXAMPLES, "document.txt"))
    for old, new, printed in (
        ("entry category 1", "entry category 2", b"refused 2 2 1\n"),
        ("kind freight", "kind 9", b"refused 3 1 1\n"),
        ("chain 4 code", "chain 0 code", b"refused 3 3 2\n"),
        ("chain 4 code ambient", "chain 4 code 100", b"refused 6 3 2\n"),
        ("mass 1_000", "mass 0", b"refused 7 3 3\n"),
        ("category kind freight close", "category kind 1\n" * 17,
         b"refused 8 1 17\n"),
        ("group all", "group frozen", b"refused 9 4 1\n"),
        ("quantity 12_000_000", "quantity 1_000_000_000_000",
         b"refused 10 2 1\n"),
        ("kind freight close", "kind freight close 2", b"refused 13 1 1\n"),
        ("amount 1_000", "amount 1_000 adjust", b"refused 13 3 1\n"),
    ):
        check(old in text, "the example has", old)
        data, problems = pack.packed(text.replace(old, new))
        check(not problems and sheet(data) == printed, "refused", new, printed)


def ferry(data):
    """Its passengers of Tuesday are weighed, and what is printed of edits."""
    check([(code, adjust) for _, _, code, adjust, *_
           in table_records(data, 3)]
          == [(0, 0), (0, 0), (100, 0), (200, 0), (0, 0), (0, 0), (100, 74),
              (200, 79)], "a weighed ferry", data)
    text = pack.read(os.path.join(EXAMPLES, "ferry.txt"))
    for old, new, printed in (
        ("_000 kg 79", "_000", b"refused 14 3 8\n"),
        ("_000 kg 79", "_000 kg 0", b"refused 14 3 8\n"),
        ("_000 kg 79", "_000 kg 301", b"refused 7 3 8\n"),
        ("code 200 amount 40 distance 18_000  ",
         "code 200 amount 40 distance 18_000 kg 100", b"refused 14 3 4\n"),
        ("chain 22 code ambient", "chain 22 adjust 80 code ambient",
         b"refused 13 3 6\n"),
        ("chain 24 code 200", "chain 24 code 200 operation 1",
         b"refused 13 3 8\n"),
    ):
        check(text.count(old) == 1, "the ferry has", old)
        data, problems = pack.packed(text.replace(old, new))
        check(not problems and sheet(data) == printed, "refused", new, printed)


def voyage(data):
    """It has what it is said to have."""
    categories, entries, elements = (table_records(data, table)
                                     for table in (1, 2, 3))
    check({kind for kind, _ in categories} == {1, 2, 3, 4}, "every kind")
    check([flag for _, flag in categories].count(0) == 1, "one stays open")
    check({group for _, group, *_ in entries} == {0, 1, 2}, "every group")
    codes = {code for _, _, code, *_ in elements}
    check({0, 1, 2} < codes and len(codes) > 5, "freight and classes", codes)
    check({adjust for category, _, _, adjust, *_ in elements
           if category == 0} == {0, 1}, "with and without the adjustment")
    _, *lines, last = [line.split()
                       for line in sheet(data).decode().splitlines()]
    check(len(lines) >= 12, "a dozen chains", lines)
    check(sum(int(line[1]) > 1 for line in lines) >= 4, "several elements")
    check(0 < sum(int(line[2]) > 0 for line in lines) < 5, "some wait")
    check(last[:3] == ["all", str(len(elements)), "3"], "all of them", last)


good_lines()
value_words()
weighed()
kg_as_a_unit()
forms()
notes()
names()
refused_by_the_ledger()
numbers()
no_numbers()
bad_lines()
bad_fields()
calls_in_a_text()
widths()
too_many_bytes()
commands()
examples()
refusals()
check.end()
