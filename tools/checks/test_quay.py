#!/usr/bin/env python3
"""Tests the command `quay`, with the separate calculation in the place of the
proved programs.

    python3 tools/checks/test_quay.py

Prints `N checks passed`, or what failed with exit status 1.
"""

import io
import os
import re
import sys
import tempfile
from unittest import mock

sys.path.insert(0, os.path.dirname(os.path.dirname(os.path.abspath(__file__))))

import pack
from calculation import book
from calculation.rounding import nearest
from calculation.sheet import sheet
from calculation.workbook import converted
from cases.line_writer import bits
from checks import explain_checks, refusal_checks, row_checks
from checks.checking import Checks
from checks.quay_runs import (
    BOARD, CALCULATED, CLASS, DOCUMENT, EXAMPLES, FERRY, ROOT, TWO_LISTS,
    VOYAGE, WHARF, WHARF_SHEET, calculated, run, stored, tells_difference)
from command import (
    amounts, explaining, main, playing, programs, refusals, sheets)
from command.fields import Wrong
from command.ledger import loaded
from command.programs import Programs, Unavailable

check = Checks()


# Amounts.

def shown_amounts():
    for number, wanted in ((0, "0"), (1, "0.000000000001"),
                           (10 ** 12, "1"), (34_020_000_000_000, "34.02"),
                           (10 ** 18 + 5, "1_000_000.000000000005"),
                           (999_999_999_999, "0.999999999999")):
        check(amounts.tonnes(number) == wanted, "tonnes", number)
    check(amounts.moved(16_189_444, 3) == "16_189.444", "moved")
    check(amounts.emissions(1500) == "1_500 µg (0.0000000015 t)", "both")
    check([amounts.counted(number, "entry", "entries") for number in (0, 1, 2)]
          == ["0 entries", "1 entry", "2 entries"], "counted")
    rows = [["a", "b", "c"], ["x", "10", "1.25"], ["long", "7", "10"]]
    check(amounts.aligned([["t", "n"], ["5", "1"], ["10", "2"]],
                          (amounts.POINT, amounts.RIGHT))
          == [" t  n", " 5  1", "10  2"], "a table of whole numbers")
    check(amounts.aligned(rows, (amounts.LEFT, amounts.RIGHT, amounts.POINT))
          == ["a      b      c", "x     10   1.25", "long   7  10"], "a table")


# quay sheet

DOCUMENT_SHEET = sheet(pack.Text(pack.read(DOCUMENT)).data()).decode()


DOCUMENT_TABLE = """\
chain  name             elements  waiting  operation t  provision t  total t
    4  Coastal Dairies         1        0       28.98         5.04    34.02
    7  Harbour Mills           2        0        9.691        1.685   11.376
  all                          3        0       38.671        6.725   45.396
"""


def plain_sheets():
    check(run("sheet", DOCUMENT) == (0, DOCUMENT_SHEET, ""), "as it is")
    check(DOCUMENT_SHEET == stored("crates", "quaymeter", "stdout"),
          "the stored sheet")
    with open(DOCUMENT, "rb") as file:
        check(run("sheet", "-", text=file.read())
              == (0, DOCUMENT_SHEET, ""), "standard input")
    for command, ending in ((("sheet", "-"), "no sheet is printed"),
                            (("explain", "-", "7"), "nothing is explained")):
        check(run(*command, text=b"# nothing") == (
            1, "", "there is no record in this text\n    expected a line that "
            "begins with category, entry, element, quote or name; "
            "docs/BOOKS.md tells how they are written\n%s\n" % ending),
            "no record", command)
    heading = DOCUMENT_SHEET.splitlines(True)[0]
    check(run("sheet", "-", text=b"category kind hub") == (
        0, heading + "all 0 0 0 0 0\n", "no element is in this book, so no "
        "chain has a line\n"), "no element")


NAMED = b"""\
name 7 Harbour Mills
name 6 No One
name 5 Nobody
category kind freight close
category kind both close 0
category kind hub
entry category 1 group all quantity 7 operation 1 provision 100_000_000
element category 1 chain 7 code ambient amount 1 distance 1
element category 1 chain 12 code frozen amount 2 distance 1
element category 2 chain 7 code lowest amount 2 distance 1
element category 2 chain 7 code chilled amount 2 distance 1
element category 3 chain 9999 code ambient amount 2 distance 0
"""
WAITING = """\
category 2 (line 5) is not closed, so these wait for it and have no \
emissions of it yet:
    chain 7 (Harbour Mills): 2 of its 3 elements
    when all its entries are written, make `close 0` on line 5 `close` and \
print the sheet again
category 3 (line 6) is not closed, so these wait for it and have no \
emissions of it yet:
    chain 9999: 1 of its 1 element
    when all its entries are written, put `close` on line 6 and print the \
sheet again
"""
UNUSED = ("chain 5 (Nobody) is named and has no element\n"
          "chain 6 (No One) is named and has no element\n")

ODD = b"""\
category kind freight close
category kind freight
category kind hub
category kind freight
entry category 2 group all quantity 7 operation 1 provision 1
entry category 3 group all quantity 7 operation 1 provision 1
entry category 3 group all quantity 7 operation 1 provision 1
element category 1 chain 7 code ambient amount 1 distance 1
"""
ODD_REMARKS = """\
category 1 (line 1) is closed and has no entries that count: its elements get \
no emissions of it
category 2 (line 2) is not closed and has no elements: 1 entry of it is in \
nobody's line
category 3 (line 3) is not closed and has no elements: 2 entries of it are in \
nobody's line
"""


def tables():
    check(run("sheet", "--tonnes", DOCUMENT) == (0, DOCUMENT_TABLE, ""),
          "tonnes")
    unnamed = re.sub("(?m)^name .*", "", stored("examples", "document.txt"))
    check(run("sheet", "--tonnes", "-", text=unnamed.encode()) == (0, """\
chain  elements  waiting  operation t  provision t  total t
    4         1        0       28.98         5.04    34.02
    7         2        0        9.691        1.685   11.376
  all         3        0       38.671        6.725   45.396
""", ""), "without names")
    check(run("sheet", "--tonnes", "-", text=NAMED) == (0, """\
chain  name           elements  waiting     operation t     provision t\
         total t
    7  Harbour Mills         3        2  0.000000000002  0.000233333333\
  0.000233333335
   12                        1        0  0.000000000005  0.000466666667\
  0.000466666672
 9999                        1        1  0               0             \
  0
  all                        5        3  0.000000000007  0.0007        \
  0.000700000007
""" + WAITING, UNUSED), "names", run("sheet", "--tonnes", "-", text=NAMED))
    check(run("sheet", "-", text=ODD)[2] == ODD_REMARKS, "nobody's line",
          run("sheet", "-", text=ODD))
    plain = sheet(pack.Text(NAMED.decode()).data()).decode()
    check(run("sheet", "-", text=NAMED) == (0, plain, WAITING + UNUSED),
          "waiting and names beside a plain sheet")


def long_numbers():
    """One number of more than 15 digits, and several; those of the class
    total count too."""
    quotes = ["quote chain %d mass 1_000_000_000 distance 10_000_000 operation "
              "20_000 provision 0" % chain for chain in (1, 2)]
    small = "quote chain 1 mass 1 distance 1 operation 0 provision 1000"
    fifteen = "quote chain 1 mass 9_999_999 distance 10_000_010 operation %d " \
              "provision 0"
    for lines, told in (
        (quotes, ""),
        # 100_000_089_999_900 has 13 digits before its zeros, and
        # 999_000_899_099_001 has 15.
        ([fifteen % 1000], ""), ([fifteen % 9990], ""),
        (quotes[:1] + [small.replace("chain 1", "chain 2")], "a spreadsheet "
         "keeps 15 digits of a number; 1 number here has more\n"),
        (quotes[:1] + [small], "a spreadsheet keeps 15 digits of a number; 2 "
                               "numbers here have more\n"),
        (quotes[:1] + [small, small.replace("operation 0", "operation 1000")],
         "a spreadsheet keeps 15 digits of a number; 4 numbers here have "
         "more\n"),
    ):
        found = run("sheet", "--csv", "-", text="\n".join(lines).encode())[2]
        check(found == told, "digits", found)


def spreadsheets():
    check(run("sheet", "--csv", DOCUMENT) == (0, """\
chain,name,elements,waiting,operation ug,provision ug,total ug
4,Coastal Dairies,1,0,28980000000000,5040000000000,34020000000000
7,Harbour Mills,2,0,9691000000000,1685000000000,11376000000000
all,,3,0,38671000000000,6725000000000,45396000000000
""", ""), "comma-separated")
    check(run("sheet", "--csv", "--tonnes", DOCUMENT) == (0, """\
chain,name,elements,waiting,operation t,provision t,total t
4,Coastal Dairies,1,0,28.98,5.04,34.02
7,Harbour Mills,2,0,9.691,1.685,11.376
all,,3,0,38.671,6.725,45.396
""", ""), "comma-separated in tonnes")
    text = ("name 1 Müller, \"Söhne\"\nquote chain 1 mass 1_000_000_000 "
            "distance 40_000_000 operation 20_001 provision 1")
    status, output, _ = run("sheet", "--csv", "--tonnes", "-",
                            text=text.encode())
    check((status, output) == (0, """\
\ufeffchain,name,elements,waiting,operation t,provision t,total t
1,"Müller, ""Söhne\""",1,0,800040,40,800080
all,,1,0,800040,40,800080
"""), "a name in quotation marks", output)
    for name in ("=1+1", "+49", "-1", "@x"):
        output = run("sheet", "--csv", "-", text=("name 1 %s\nquote chain 1 "
                     "mass 1 distance 1 operation 1 provision 1" % name)
                     .encode())[1]
        check(output.endswith("1,'%s,1,0,0,0,0\nall,,1,0,0,0,0\n" % name),
              "no formula", output)
    text = text.replace("provision 1", "provision 1\nquote chain 1 mass 1 "
                        "distance 1 operation 1000 provision 0")
    check(run("sheet", "--csv", "-", text=text.encode())[2]
          == "a spreadsheet keeps 15 digits of a number; 4 numbers here have "
             "more\n", "many digits")


def bad_texts():
    status, output, told = run("sheet", "-", text=b"category kind 1\nzzz\n")
    check((status, output) == (1, "") and told.startswith(
        "line 2: no record is called `zzz`\n    zzz\n")
        and told.endswith("\nno sheet is printed\n"), "a bad line", told)
    for words, ending in (
        (("sheet", "%s"), "no sheet is printed"),
        (("explain", "%s", "7"), "nothing is explained"),
        (("play", "%s"), "nothing is played"),
    ):
        path = os.path.join(EXAMPLES, "none.txt")
        check(run(*[word.replace("%s", path) for word in words]) == (
            2, "", "%s cannot be read: No such file or directory\n%s\n"
            % (path, ending)), "no file", words)
        check(run(*[word.replace("%s", "-") for word in words],
                  text=b"%PDF-1.4") == (1, "", "standard input cannot be read: "
              "it is a PDF; a book is plain text\n%s\n" % ending), "no text",
              words)
    check(run("sheet", "-", text=b"\x7fELF\0\n") == (
        1, "", "- is no text; save it as plain text, in UTF-8\nno sheet is "
        "printed\n"), "a program")
    status, output, told = run("explain", "-", "7", text=b"zzz")
    check((status, output) == (1, "") and told.endswith(
        "\nnothing is explained\n"), "a bad line", told)
    check(run("play", text=b"\x7fELF\0\n") == (
        1, "", "standard input is no text; save it as plain text, in UTF-8\n"
        "nothing is played\n"), "a program")
    status, output, told = run("sheet", "no\x1bne\0")
    check((status, output, told) == (
        2, "", "no<U+001B>ne<U+0000> is no name of a file\nno sheet is "
        "printed\n"), "no name", told)
    status, output, told = run("sheet", "-", text=b"zzz\n" * 11)
    check(told.endswith("\nand 1 more bad line\nno sheet is printed\n"),
          "many", told)


REFUSED_TEXT = stored("examples", "document.txt").replace(
    "chain 4 code ambient", "chain 4 code 100")
REFUSED_TOLD = """\
line 21: element 2: passengers in a freight category (refused 6)
    element category 1 chain 4 code 100 amount 3_000 distance 300_000
    category 1 (line 13) is of kind 1, freight, and takes the codes 0 \
ambient, 1 chilled and 2 frozen; code 100 is passenger class 100
no sheet is printed
"""


def steering_signs():
    """Signs that steer a terminal are not passed on."""
    sign = "\x1b[1mx"
    named = "name 1 %s\nquote chain 1 mass 1 distance 1 operation 1 provision 1"
    refused = "category kind 9 # " + sign
    for words, text in (
        (("sheet", "-"), sign), (("sheet", "-"), "category kind " + sign),
        (("sheet", "-"), "category %s" % sign), (("sheet", sign), ""),
        (("sheet", "-"), "category kind 5%s" % sign),
        (("sheet", "-"), "name %s Mills" % sign), (("sheet", "-"), refused),
        (("sheet", "--tonnes", "-"), named % sign),
        (("sheet", "--csv", "-"), named % sign),
        (("explain", "-", "1"), named % sign),
        (("explain", "-", sign), named % "Mills"),
        (("play",), sign), (("play",), "open " + sign),
        (("play",), "# " + sign + "\nshow"), (("play",), "load " + sign),
        (("play",), "show " + sign), (("play",), "help " + sign),
        (("play",), "save %s/%s" % (sign, sign)), (("play", sign), ""),
    ):
        found = "".join(run(*words, text=text.encode())[1:])
        check("\x1b" not in found and "<U+001B>[1mx" in found, "a sign", words,
              text, found)
    check(pack.shown("x" * 120) == "x" * 120
          and pack.shown("x" * 121) == "x" * 120 + " ...", "a long text")


def refused_texts():
    for words in (("sheet", "-"), ("sheet", "--tonnes", "-"),
                  ("sheet", "--csv", "-")):
        found = run(*words, text=REFUSED_TEXT.encode())
        check(found == (3, "", REFUSED_TOLD), "a refusal", words, found)
    found = run("explain", "-", "7", text=REFUSED_TEXT.encode())
    check(found == (3, "", REFUSED_TOLD.replace(
        "no sheet is printed", "nothing is explained")), "explained", found)


# quay explain

def explanations():
    text = pack.Text(stored("examples", "document.txt"))
    lines = {chain: "\n".join(explaining.explanation(
        text, loaded(CALCULATED, text.data())[0], chain)) + "\n"
        for chain in (4, 7)}
    for word, chain in (("4", 4), ("7", 7), ("0,007", 7),
                        ("Harbour Mills", 7), ("harbour  mills", 7),
                        ("COASTAL DAIRIES", 4)):
        for words in ((word,), (" %s " % word,), word.split()):
            found = run("explain", DOCUMENT, *words)
            check(found == (0, lines[chain], ""), "explained", words, found)
    twice = stored("examples", "document.txt").replace("Coastal Dairies", "7")
    check(run("explain", "-", "7", text=twice.encode())[:2] == (0, lines[7]),
          "a number comes before a name")
    twice = twice.replace("name 4 7", "name 4 Harbour Mills")
    for word, text, told in (
        ("9", "", "no element is on chain 9; this book has chains 4 and 7"),
        ("Mills", "", "no chain of this book has the name `Mills`; it has "
                      "Coastal Dairies, Harbour Mills"),
        ("1" * 30, "", "the number after `chain` is too large: it does not fit "
                       "64 bits"),
        ("harbour mills", twice, "`harbour mills` is the name of the chains 4 "
                                 "and 7: give a number"),
        ("x", "quote chain 1 mass 1 distance 1 operation 1 provision 1",
         "no chain of this book has the name `x`"),
        *(("x", "category kind 1\n" + "\n".join(
            "name %d a%d" % (chain, chain) for chain in range(1, 1 + count)),
           "no chain of this book has the name `x`; it has %s%s"
           % (", ".join("a%d" % chain for chain in range(1, 21)), more))
          for count, more in ((20, ""), (21, ", ..."))),
    ):
        found = run("explain", "-" if text else DOCUMENT, word,
                    text=text.encode())
        check(found == (2, "", told + "\n"), "no chain", found)


def stored_explanations():
    """examples/explanations.txt has each of its commands with its output."""
    heading, *parts = stored("examples", "explanations.txt").split("\n> ")
    check(heading.startswith("# ") and len(parts) > 5, "explanations", heading)
    for part in parts:
        command, _, output = part.partition("\n")
        words = command.split()
        check(words[:2] == ["tools/quay", "explain"], "a command", command)
        found = run("explain", os.path.join(ROOT, words[2]), words[3])
        check(found == (0, output.rstrip("\n") + "\n", ""), "stored", command,
              found)


def board():
    """The book for the blackboard has what document 01 reckons by hand, halves
    of an even and an odd number, and its first closing with heads of 50 kg."""
    *lines, last = run("sheet", BOARD)[1].splitlines()[1:]
    operation, provision = ([int(line.split()[place]) for line in lines]
                            for place in (3, 4))
    check(operation == [3, 1, 5, 2, 11, 4, 3, 3, 0, 5, 1, 3],
          "reckoned by hand", lines)
    check(provision == [0, 0, 0, 0, 0, 0, 0, 0, 2, 0, 0, 0],
          "reckoned by hand", lines)
    check(last == "all 12 0 41 2 43", "their sum", last)


FERRY_TABLE = """\
chain  name                     elements  waiting  operation t  provision t\
  total t
   11  Island Grocers, Monday          1        0       0.4095      0.07938\
  0.48888
   12  Brickworks, Monday              1        0       0.273       0.05292\
  0.32592
   13  benches, Monday                 1        0       0.455       0.0882 \
  0.5432
   14  saloon, Monday                  1        0       0.2275      0.0441 \
  0.2716
   21  Island Grocers, Tuesday         1        0       0.468       0.09072\
  0.55872
   22  Brickworks, Tuesday             1        0       0.312       0.06048\
  0.37248
   23  benches, Tuesday                1        0       0.39        0.0756 \
  0.4656
   24  saloon, Tuesday                 1        0       0.195       0.0378 \
  0.2328
  all                                  8        0       2.73        0.5292 \
  3.2592
"""


def ferry():
    """The weighed ferry has what is reckoned by hand, and does what it
    says."""
    check(run("sheet", "--tonnes", FERRY) == (0, FERRY_TABLE, ""), "a ferry",
          run("sheet", "--tonnes", FERRY))
    text = stored("examples", "ferry.txt").replace("_000 kg 79", "_000")
    status, output, told = run("sheet", "-", text=text.encode())
    check((status, output) == (3, "") and told == """\
line 36: element 8: unweighed passengers in category 2, which has weighed ones \
(refused 14)
    element category 2 chain 24 code 200 amount 40 distance 18_000
    element 7 (line 35) of category 2 (line 29) has `kg 74`: say by `kg` what \
these weigh too, 1 to 300, or leave it out for all passengers of the category
no sheet is printed
""", "one of them", told)
    lines = run("sheet", "-", text=text.replace("_000 kg 74", "_000").encode())[
        1].splitlines()[1:-1]
    check(len(lines) == 8 and [line.split()[1:] for line in lines[:4]]
          == [line.split()[1:] for line in lines[4:]], "as on Monday", lines)
    for kg, told in (
        (0, "unweighed passengers in category 2, which has weighed ones "
            "(refused 14)"),
        (301, "kg per head 301 is out of range (refused 7)"),
    ):
        found = run("sheet", "-", text=stored("examples", "ferry.txt").replace(
            "_000 kg 79", "_000 kg %d" % kg).encode())
        check(found[:2] == (3, "") and found[2].startswith(
            "line 36: element 8: %s\n" % told), "refused", found)
    found = run("sheet", "-", text=stored("examples", "ferry.txt").replace(
        "8_000 distance 18_000\n", "8_000 distance 18_000 kg 79\n").encode())
    check(found == (1, "", """\
line 34: `kg` for freight, which is not weighed by the head: its mass is its \
amount
    element category 2 chain 22 code ambient amount 8_000 distance 18_000 kg 79
    expected no `kg`: it is for passengers alone, whose code is 100 to 1000
no sheet is printed
"""), "weighed freight", found)


# quay play

def class_list():
    status, output, told = run("play", CLASS)
    check((status, told) == (3, ""), "a class's list", told)
    check(output == stored("examples", "class-answers.txt"),
          "its stored answers")
    numbers = set(re.findall("^refused ([0-9]+):", output, re.M))
    check(numbers == {*"2345679", "14", "15", "16"}, "its refusals", numbers)


def two_lists():
    """Both are previewed, and README says what the second changes."""
    status, output, told = run("play", TWO_LISTS)
    check((status, told) == (0, "")
          and output == stored("examples", "two-lists-answers.txt"),
          "two lists", status, output, told)
    page = " ".join(stored("README.md").split())
    previews = previews_in(output)
    check(len(previews) == 2, "one of each", previews)
    for name, *totals in (("Coastal Dairies", "34.02", "22.68"),
                          ("Harbour Mills", "11.34", "7.56")):
        for preview, total in zip(previews, totals):
            check(re.search(r"\(%s\) .* would hold .* %s$" % (
                name, re.escape(total)), preview, re.M), "a total", name,
                preview)
        check("%s with %s t instead of %s t" % (name, *totals[::-1]) in page,
              "README's totals", name, totals)


def previews_in(transcript):
    """Each preview of category 1 with its answer."""
    return re.findall(r"^> preview 1\n(?:[^>\n].*\n)+", transcript, re.M)


def answers(*lines):
    session = playing.Session(CALCULATED)
    return [session.answer(playing.request_of(line)) for line in lines]


def answered(*lines_and_answer):
    """The answer of the last line."""
    *lines, wanted = lines_and_answer
    found = answers(*lines)[-1]
    check(found == wanted.split("\n"), "answered", lines[-1], found, wanted)


POST = "post category 1 group 1 quantity 1_000 operation 3 provision 2"
ENROL = "enrol category 1 chain 7 code 1 amount 10 distance 20"
LINE = "line category 1 group chilled "
SEATS = ENROL.replace("code 1", "code lowest")
QUOTE = ("quote adjust chain 7 mass 1_000 distance 5_000 operation 6 "
         "provision 1")
HALVES = "quote chain 7 mass 500 distance 1 operation %d provision %d"


def accepted_calls():
    answered("open freight", "category 1: freight, open")
    answered("open kind 2", "category 1: passengers, open")
    answered("Open Both", "category 1: freight and passengers, open")
    answered("open 4", "category 1: freight hub, open")
    answered("open 1", POST, "entry 1: category 1, benefits chilled freight; "
             "operation 3_000 µg (0.000000003 t), provision 2_000 µg "
             "(0.000000002 t)")
    for cells, told in (
        ("quantity 12.5 operation 3.1..3.4 provision 0.56",
         "operation 40_625_000 µg (0.000040625 t), provision 7_000_000 µg "
         "(0.000007 t)\n    quantity 12.5 units: 12_500 thousandths\n    "
         "operation factor 3.1..3.4 g CO2e per unit: its ends are 3_100 and "
         "3_400 mg, their mean is 3_250 mg\n    provision factor 0.56 g CO2e "
         "per unit: 560 mg"),
        # Halves go to the even number: of a number, 62.5 and 187.5 ..
        ("1 0.0625 0.1875",
         "operation 62_000 µg (0.000000062 t), provision 188_000 µg "
         "(0.000000188 t)\n    quantity 1 units: 1_000 thousandths\n    "
         "operation factor 0.0625 g CO2e per unit: 62 mg (62.5, a half goes to "
         "the even number)\n    provision factor 0.1875 g CO2e per unit: 188 mg "
         "(187.5, a half goes to the even number)"),
        # .. of the mean of a span, 125.5 and 124.5 ..
        ("1 0.063..0.188 0.062..0.187",
         "operation 126_000 µg (0.000000126 t), provision 124_000 µg "
         "(0.000000124 t)\n    quantity 1 units: 1_000 thousandths\n    "
         "operation factor 0.063..0.188 g CO2e per unit: its ends are 63 and "
         "188 mg, their mean is 126 mg (125.5, a half goes to the even number)"
         "\n    provision factor 0.062..0.187 g CO2e per unit: its ends are 62 "
         "and 187 mg, their mean is 124 mg (124.5, a half goes to the even "
         "number)"),
        # .. and of its ends, before their mean: 62 and 188, 62 and 312, 62
        # and 63.
        ("0.0625..0.1875 0.0625..0.3125 0.0625..0.063",
         "operation 23_375 µg (0.000000023375 t), provision 7_750 µg "
         "(0.00000000775 t)\n    quantity 0.0625..0.1875 units: its ends are 62 "
         "(62.5, a half goes to the even number) and 188 (187.5, a half goes to "
         "the even number) thousandths, their mean is 125 thousandths\n    "
         "operation factor 0.0625..0.3125 g CO2e per unit: its ends are 62 "
         "(62.5, a half goes to the even number) and 312 (312.5, a half goes to "
         "the even number) mg, their mean is 187 mg\n    provision factor "
         "0.0625..0.063 g CO2e per unit: its ends are 62 (62.5, a half goes to "
         "the even number) and 63 mg, their mean is 62 mg (62.5, a half goes to "
         "the even number)"),
        # The double decides, and not what is written for it: a little less
        # than the half that would go up, and a little more than one that would
        # go down.
        ("provision -0.0 quantity 1_000 operation 0.5015",
         "operation 501_000_000 µg (0.000501 t), provision 0 µg (0 t)\n    "
         "quantity 1000 units: 1_000_000 thousandths\n    operation factor "
         "0.5015 g CO2e per unit: 501 mg\n        as a double 0.5015 is "
         "0.501499999999999945821116..., so it becomes 501 and not 502\n    "
         "provision factor -0 g CO2e per unit: 0 mg"),
        ("1 2.0005 0.0005..0.5015",
         "operation 2_001_000 µg (0.000002001 t), provision 251_000 µg "
         "(0.000000251 t)\n    quantity 1 units: 1_000 thousandths\n    "
         "operation factor 2.0005 g CO2e per unit: 2_001 mg\n        as a double "
         "2.0005 is 2.000500000000000166977542..., so it becomes 2_001 and not "
         "2_000\n    provision factor 0.0005..0.5015 g CO2e per unit: its ends "
         "are 1 and 501 mg, their mean is 251 mg\n        as a double 0.0005 is "
         "0.000500000000000000010408..., so it becomes 1 and not 0\n        as a "
         "double 0.5015 is 0.501499999999999945821116..., so it becomes 501 and "
         "not 502"),
        # By both they go to the same number, 1.0005 down and 1.0015 up.
        ("1 1.0005 1.0015",
         "operation 1_000_000 µg (0.000001 t), provision 1_002_000 µg "
         "(0.000001002 t)\n    quantity 1 units: 1_000 thousandths\n    "
         "operation factor 1.0005 g CO2e per unit: 1_000 mg\n    provision "
         "factor 1.0015 g CO2e per unit: 1_002 mg"),
    ):
        answered("open 1", LINE + cells, "entry 1: category 1, benefits chilled "
                 "freight; " + told)
    answered("open 1", LINE + ".5 5. 1E+1", "strike 1", "entry 1: category 1, "
             "benefits chilled freight, struck and not counted; operation "
             "2_500_000 µg (0.0000025 t), provision 5_000_000 µg (0.000005 t)")
    answered("open 1", POST, "strike entry 1", "entry 1: category 1, benefits "
             "chilled freight, struck and not counted; operation 3_000 µg "
             "(0.000000003 t), provision 2_000 µg (0.000000002 t)")
    answered("open 1", ENROL, "element 1: category 1, chain 7, chilled "
             "freight, 10 kg over 20 m; it waits for category 1 to be closed")
    answered("open hub", ENROL.replace("20", "0"), "element 1: category 1, "
             "chain 7, chilled freight, 10 kg in a hub; it waits for category "
             "1 to be closed")
    answered("open 2", ENROL.replace("code 1", "code 250"), "element 1: "
             "category 1, chain 7, passenger class 250, 10 heads over 20 m; "
             "it waits for category 1 to be closed")
    for line, told in ((" kg 78", " of 78 kg each"), (" kg 0", ""),
                       (" kg 100", " of 100 kg each")):
        answered("open 2", ENROL.replace("code 1", "code 250") + line,
                 "element 1: category 1, chain 7, passenger class 250, 10 "
                 "heads%s over 20 m; it waits for category 1 to be closed"
                 % told)
    answered("open 3", ENROL + " kg 0", "element 1: category 1, chain 7, "
             "chilled freight, 10 kg over 20 m; it waits for category 1 to be "
             "closed")
    answered("open 3", "enrol kg 300 category 1 chain 7 code lowest amount 1 "
             "distance 20", "show", "category 1: freight and passengers, open"
             "\nelement 1: category 1, chain 7, passenger class 100, 1 head of "
             "300 kg over 20 m; it waits for category 1 to be closed")
    answered("name 7 Mills", QUOTE, "element 1: quoted, chain 7 (Mills), "
             "1_000 kg over 5_000 m; operation 600_000 µg (0.0000006 t), "
             "provision 100_000 µg (0.0000001 t)\n    its emissions are by "
             "the distance and 95_000 m for air (adjust)")
    answered(QUOTE.replace("adjust", ""), "element 1: quoted, chain 7, 1_000 "
             "kg over 5_000 m; operation 30_000 µg (0.00000003 t), provision "
             "5_000 µg (0.000000005 t)")
    # 0.5 and 1.5, 2.5 and 3.5 µg.
    for intensities, told in (
        ((1, 3), "operation 0 µg (0 t), provision 2 µg (0.000000000002 t)"),
        ((5, 7), "operation 2 µg (0.000000000002 t), provision 4 µg "
                 "(0.000000000004 t)"),
    ):
        answered(HALVES % intensities, "element 1: quoted, chain 7, 500 kg over "
                 "1 m; " + told)
    answered("open 1", POST, ENROL, "close category 1", "category 1: freight, "
             "closed\n    element 1: category 1, chain 7, chilled freight, 10 "
             "kg over 20 m; operation 3_000 µg (0.000000003 t), provision "
             "2_000 µg (0.000000002 t)\n    all is handed out: operation "
             "3_000 µg (0.000000003 t), provision 2_000 µg (0.000000002 t)")
    check(len(answers("open 1", *[ENROL] * 10, "close 1")[-1]) == 12,
          "a closing of ten elements")
    closed = answers("open 1", *[ENROL] * 13, "close 1")[-1]
    check(len(closed) == 13 and closed[-2:] == [
        "    and 3 more: see `show`",
        "    it has no entry that is not struck: every share is 0"],
        "a long closing", closed)
    answered("fresh", "a fresh book")
    answered("open 1", "name 9 Mills", "fresh", "show", "the book is empty")
    check(answers("name 9 Mills", "fresh", "statement 9")[-1][0]
          == "chain 9: no element is on it", "names after fresh")
    answered("open 1", POST, QUOTE, "show", "\n".join(
        lines[0] for lines in answers("open 1", POST, QUOTE)))


# Elements of the category, of an open one, of a closed one and of none, and
# entries, one of them struck.
PREVIEWED = (
    "name 7 Mills", "open both", "open hub", "open 2",
    ENROL, ENROL.replace("category 1", "category 2").replace("20", "0"),
    SEATS.replace("category 1", "category 3").replace("7", "12"),
    POST.replace("category 1 group 1", "category 3 group all"), "close 3",
    QUOTE, POST, POST, "strike 3", POST.replace("group 1", "group all"),
    SEATS.replace("7", "9999").replace("amount 10", "amount 1") + " kg 10",
    POST.replace("category 1", "category 2"))


def previews():
    # Freight and passengers get half of what benefits all: 200 kg m each.
    table = """\
category 1: freight and passengers, open
    element  chain      what                 category               operation \
t  provision t       total t
          1  7 (Mills)  chilled freight             1  would hold  0.0000000045\
  0.000000003  0.0000000075
          2  7 (Mills)  chilled freight             2  waits       0           \
  0            0
          3  12         passenger class 100         3  holds       0.000000003 \
  0.000000002  0.000000005
          4  7 (Mills)  quoted                   none  holds       0.0000006   \
  0.0000001    0.0000007
          5  9999       passenger class 100         1  would hold  0.0000000015\
  0.000000001  0.0000000025
    all would be handed out: operation 6_000 µg (0.000000006 t), provision \
4_000 µg (0.000000004 t)"""
    for line in ("preview 1", "preview category 1", "Preview  Category 1 # 2"):
        answered(*PREVIEWED, line, table)
    answered("open 4", ENROL.replace("20", "0"), "preview 1", """\
category 1: freight hub, open
    element  chain  what             category              operation t  \
provision t  total t
          1  7      chilled freight         1  would hold            0  \
          0        0
    it has no entry that is not struck: every share would be 0""")
    found = answers("open 1", *[ENROL] * 256, "preview 1")[-1]
    check(len(found) == 259 and found[-2].startswith("        256  7 "),
          "a full book", found[-2:])
    voyage = answers("load " + VOYAGE, "preview 6")[-1]
    check([sum(word in line for line in voyage) for word in (
        "  would hold  ", "  holds  ", "  waits  ")] == [3, 36, 0], "a voyage",
        voyage)


def previews_and_closings():
    """A preview leaves the book as it is, and the closing gives what it
    shows. It is saved where it is accepted."""
    session = playing.Session(CALCULATED)
    for line in PREVIEWED:
        session.answer(playing.request_of(line))
    for category in (1, 2):
        before = list(session.ledger.words)
        session.answer(playing.request_of("preview %d" % category))
        check(session.ledger.words == before, "the same book", category)
        _, *pairs = session.ledger.call("preview", (category,))
        check(len(pairs) == 512 and not any(pairs[10:]), "its pairs", pairs)
        session.answer(playing.request_of("close %d" % category))
        check(book.Book(before).elements != session.ledger.book.elements
              == playing.previewed(before, pairs).elements, "closed", category,
              pairs)
        session.answer(playing.request_of("preview %d" % category))
    check(session.refused == 2 and session.lines[len(PREVIEWED):] == [
        "preview 1", "close 1", "preview 2", "close 2"], "what is saved",
        session.lines)


def looking():
    answered("statement 9", "chain 9: no element is on it\n    operation "
             "0 µg (0 t)\n    provision 0 µg (0 t)\n    total     0 µg (0 t)")
    answered("open 1", "open 3", ENROL, ENROL, QUOTE, ENROL.replace(
        "category 1", "category 2"), "statement chain 7",
        "chain 7: 4 elements, 3 waiting for category 1 and category 2\n    "
        "operation 600_000 µg (0.0000006 t)\n    provision 100_000 µg "
        "(0.0000001 t)\n    total     700_000 µg (0.0000007 t)")
    answered("open 1", POST, ENROL, "close 1", "intensity category 1 code 1",
             "category 1, chilled freight, per tonne-km:\n    operation "
             "15_000 mg CO2e (15 g)\n    provision 10_000 mg CO2e (10 g)")
    answered("open 4", POST, ENROL.replace("20", "0"), "close 1",
             "intensity 1 chilled", "category 1, chilled freight, per tonne:\n"
             "    operation 300 mg CO2e (0.3 g)\n    provision 200 mg CO2e "
             "(0.2 g)")
    answered("open 2", ENROL.replace("code 1", "code 100"),
             POST.replace("group 1", "group all"), "close 1",
             "intensity 1 lowest", "category 1, passengers, per passenger-km "
             "of the lowest class:\n    operation 15 mg CO2e (0.015 g)\n"
             "    provision 10 mg CO2e (0.01 g)")
    # 10 heads of 50 kg beside 500 kg: half of it each.
    lines = ("open 3", ENROL.replace("code 1", "code 100") + " kg 50",
             ENROL.replace("amount 10", "amount 500"),
             POST.replace("group 1", "group all"), "close 1")
    answered(*lines, "intensity 1 lowest", "category 1, passengers, per "
             "passenger-km of the lowest class:\n    operation 8 mg CO2e (0.008 "
             "g)\n    provision 5 mg CO2e (0.005 g)")
    answered(*lines, "intensity 1 ambient", "category 1, ambient freight, per "
             "tonne-km:\n    operation 150 mg CO2e (0.15 g)\n    provision 100 "
             "mg CO2e (0.1 g)")


def halves_of_intensities():
    """Each quotient goes to the even number, and then they are added."""
    post = "post category 1 group %s quantity 1 operation %d provision %d"
    enrol = "enrol category 1 chain 7 code %s amount %d distance %d"

    def told(kind, posts, elements, code, *amounts):
        found = answers("open " + kind, *[post % words for words in posts],
                        *[enrol % words for words in elements], "close 1",
                        "intensity 1 " + code)[-1]
        check([line.split()[1] for line in found[1:]]
              == ["{:_}".format(amount) for amount in amounts], "halves", posts,
              elements, code, found)

    # By 2000 kg m: 0.5 and 1.5, 2.5 and 3.5; of a group the same once more.
    chilled = [("chilled", 2000, 1)]
    for amounts, *both in (((1, 3), 0, 2), ((5, 7), 2, 4)):
        told("freight", [("all", *amounts)], chilled, "ambient", *both)
        told("freight", [("all", *amounts), ("chilled", *amounts)], chilled,
             "chilled", *[2 * number for number in both])
    # In a hub by 2 kg, and of two heads × 100.
    told("hub", [("all", 1, 3)], [("ambient", 2, 0)], "ambient", 0, 2)
    told("hub", [("all", 5, 4)], [("ambient", 2, 0)], "ambient", 2, 2)
    told("passengers", [("all", 1, 3)], [("lowest", 2, 1)], "lowest", 0, 2)
    # Half above the limit of 10^15 is none.
    limit = ("post category 1 group all quantity 1_000_000_000 operation "
             "2_000_000 provision 0")
    found = answers("open hub", limit, post % ("all", 1, 0),
                    enrol % ("ambient", 2, 0), "close 1",
                    "intensity 1 ambient")[-1]
    check(found[1] == "    operation 1_000_000_000_000_000 mg CO2e "
          "(1_000_000_000_000 g)", "half above the limit", found)


def whole_sheets():
    table = DOCUMENT_TABLE.splitlines()
    check(answers("load " + DOCUMENT, "sheet")[-1] == table, "a sheet")
    session = playing.Session(CALCULATED)
    session.answer(playing.request_of("load " + DOCUMENT))
    for _ in range(2):
        check(session.answer(playing.request_of("sheet")) == table, "again")
    check(len(session.ledger.answers) == 2, "its statements are not kept")
    answered("sheet", "chain  elements  waiting  operation t  provision t  "
             "total t\n  all         0        0            0            0   "
             "     0\nno element is in this book, so no chain has a line")
    lines = answers("open 1", "open 4", POST.replace("category 1",
                                                     "category 2"),
                    ENROL, "sheet")[-1]
    check(lines[1:] == [
        "    7         1        1            0            0        0",
        "  all         1        1            0            0        0",
        "category 1 is not closed, so these wait for it and have no emissions "
        "of it yet:", "    chain 7: 1 of its 1 element",
        "    when all its entries are posted, `close 1`",
        "category 2 is not closed and has no elements: 1 entry of it is in "
        "nobody's line"], "who waits", lines)
    lines = answers("open 4", POST, "strike 1", "sheet")[-1]
    check(len(lines) == 3, "a struck entry", lines)


def saves():
    with tempfile.TemporaryDirectory() as folder:
        path = os.path.join(folder, "a b.txt")
        session = playing.Session(CALCULATED)
        for line, told in (
            (" open 3 # both", None), ("name 7 Mills", None),
            (SEATS + " kg 78", None), (SEATS, None),
            (LINE + "1 2..3 0 # a row", None), (LINE + "1 - 3", None),
            ("close 2", None), ("show", None), ("statement 7", None),
            ("save '%s' # here" % path,
             "saved 5 lines: `quay play` plays it again, from this folder"),
            ("save " + path, "not saved: %s is there already, and no file is "
             "written over; choose another name" % path),
            ("save %s/none/x" % folder, "not saved as %s/none/x: No such file "
             "or directory" % folder),
            ("save a\0b", "not saved as a<U+0000>b: no name of a file"),
        ):
            found = session.answer(playing.request_of(line))
            check(told is None or found == [told], "saved", line, found)
        with open(path, encoding="utf-8") as file:
            check(file.read() == "open 3 # both\nname 7 Mills\n%s kg 78\n%s1 "
                  "2..3 0 # a row\nstatement 7\n" % (SEATS, LINE),
                  "what is saved")
        check(run("play", path)[0] == 0, "it is played")
        again = ("save " + path).encode()
        check(run("play", text=again)[0] == 2, "not saved again")
        # A book beside the list is saved by the path where it is.
        with open(os.path.join(folder, "beside.txt"), "w") as file:
            file.write("category kind 3")
        session = playing.Session(CALCULATED)
        session.answer(playing.request_of("load beside.txt # it", folder))
        check(session.lines == ["load %s/beside.txt" % folder],
              "a book beside the list", session.lines)
        # A load that stops has changed the book, so it is saved.
        book_path = os.path.join(folder, "refused.txt")
        with open(book_path, "w", encoding="utf-8") as file:
            file.write(REFUSED_TEXT)
        session = playing.Session(CALCULATED)
        for line in ("open hub", "load " + book_path, "close 1",
                     "save %s2" % path):
            session.answer(playing.request_of(line))
        with open(path + "2", encoding="utf-8") as file:
            check(file.read() == "open hub\nload %s\nclose 1\n" % book_path,
                  "a load that stops")


def loads():
    answered("name 4 Old", "load " + DOCUMENT, "loaded %s: 1 category (1 "
             "closed), 1 entry and 3 elements" % DOCUMENT)
    check(answers("name 9 Old", "load " + DOCUMENT, "statement 4")[-1][0]
          == "chain 4 (Coastal Dairies): 1 element, none waiting", "a name")
    check(answers("name 9 Old", "load " + DOCUMENT, "statement 9")[-1][0]
          == "chain 9: no element is on it", "names are of a book")


def places_of_books():
    """Where the command is run, and beside the list."""
    with tempfile.TemporaryDirectory() as folder:
        for name, text in (("document.txt", "category kind 4"),
                           ("a#b  c.txt", "category kind 3")):
            with open(os.path.join(folder, name), "w") as file:
                file.write(text)
        for line in ("load a#b  c.txt", "load  'a#b  c.txt' # both",
                     "LOAD \"a#b  c.txt\""):
            request = playing.request_of(line, folder)
            check(request.given[1].tables[0] == [(3, 0)] and request.saved
                  == "load " + os.path.join(folder, "a#b  c.txt"), "a path",
                  line, request)
        before = os.getcwd()
        for here, kind in ((EXAMPLES, (1, 1)), (ROOT, (4, 0))):
            os.chdir(here)
            _, text = playing.request_of("load document.txt", folder).given
            check(text.tables[0] == [kind], "which book", here)
        os.chdir(before)
        with open(os.path.join(folder, "list.txt"), "w") as file:
            file.write("load a#b  c.txt\nshow")
        check(run("play", os.path.join(folder, "list.txt"))[1].endswith(
            "\ncategory 1: freight and passengers, open\n"), "beside a list")


def told_of_loads():
    check(answers("load " + VOYAGE)[0] == ["loaded %s: 6 categories (5 "
          "closed), 18 entries and 39 elements" % VOYAGE], "a voyage",
          answers("load " + VOYAGE)[0])
    noted = playing.Request("load", ("n.txt", pack.Text(
        "category kind 1 # a\rcategory kind 2\n")), "", "")
    check(playing.Session(CALCULATED).answer(noted) == [
        "note: line 1 has a carriage return inside, which is no line end in "
        "this text", "loaded n.txt: 1 category (0 closed), 0 entries and 0 "
        "elements"], "a note")
    text = pack.Text(REFUSED_TEXT)
    session = playing.Session(CALCULATED)
    lines = session.answer(playing.Request("load", ("b.txt", text), "", ""))
    first, *others = REFUSED_TOLD.splitlines()[:-1]
    check(lines == ["stopped at b.txt, " + first, *others, "    a load begins "
                    "a book anew, and this one has the records before that: 1 "
                    "category (0 closed), 1 entry and 1 element"]
          and session.refused == 1, "a stopped load", lines)


def bad_line(line, what, *expected):
    try:
        playing.request_of(line)
    except Wrong as wrong:
        check(what in wrong.args[0], "what is wrong", line, wrong.args)
        for words in expected:
            check(words in wrong.args[1], "what was expected", line, wrong)
    else:
        check(False, "a bad line", line)


def bad_lines():
    bad_line("zzz", "no call is `zzz`", "begins with open, post, line, strike")
    bad_line("enroll category 1", "did you mean `enrol`?")
    for record, call in (("category", "open freight"),
                         ("entry", "post category 1 group all"),
                         ("element", "enrol category 1 chain 7")):
        bad_line(record + " kind 1", "`%s` is a record of a book's text"
                 % record, "the call is `%s" % call)
    bad_line("open", "missing: kind", "expected open with kind; a call is "
             "`open freight`")
    bad_line("open ferry", "`ferry` after `kind` is not a whole number, nor "
             "one of its words", "freight (1), passengers (2), both (3) or "
             "hub (4); a call is `open freight`")
    bad_line("open 1 2", "`2` has no word before it")
    bad_line("open 1.5", "there are no decimals")
    bad_line("strike", "missing: entry")
    bad_line("strike two", "`two` after `entry` is not a whole number",
             "a call is `strike 2`")
    bad_line("statement Mills", "`Mills` after `chain` is not a whole number",
             "`chain` is a number from 1 to 10,000", "a call is `statement 7`")
    bad_line("intensity 1 ferry", "`ferry` after `code`", "expected ambient "
             "(0), chilled (1), frozen (2) or lowest (100); a call is "
             "`intensity 1 ambient`")
    bad_line("close 1 category 1", "`category` stands twice")
    bad_line("preview", "missing: category", "expected preview with category; "
             "a call is `preview 1`")
    bad_line("preview all", "`all` after `category` is not a whole number",
             "`category` is a number, from 1 on in their order; a call is "
             "`preview 1`")
    bad_line("preview 1 2", "`2` has no word before it that says what it is")
    bad_line("preview 1 category 1", "`category` stands twice")
    bad_line("preview 1 code 0", "`code` is no word of `preview`")
    bad_line("preview 1.5", "there are no decimals")
    bad_line("preveiw 1", "no call is `preveiw`; did you mean `preview`?")
    bad_line("post 1 all 5 5 5", "`1` has no word before it",
             "post with category, group, quantity")
    bad_line("post category 1", "missing: group, quantity, operation and")
    bad_line("quote chain 7 mass 5 kg", "a number stands without its unit; "
             "`mass` is in kg")
    bad_line(QUOTE + " kg 78", "a quote has no `kg`: only passengers are "
             "weighed by the head", "expected quote with chain, mass")
    bad_line(SEATS + " kg", "no number after `kg`: a number stands without its "
             "unit, and `kg` is a word of its own; `distance` is in m, and 0 in "
             "a hub", "`kg` is what each passenger weighs, 1 to 300; left out "
             "or 0 it is the standard 100; a call is `enrol category 1")
    bad_line(SEATS + " kg 78.5", "there are no decimals")
    bad_line(SEATS + " 78", "`78` has no word before it", "expected enrol with "
             "category, chain, code, amount and distance; it may have kg; a "
             "call is")
    bad_line(SEATS + " kg 18446744073709551616", "does not fit 64 bits")
    bad_line(SEATS + " adjust", "`adjust` is no word of `enrol`")
    bad_line("statement 18446744073709551616", "does not fit 64 bits")
    bad_line("intensity 1", "missing: code")
    bad_line("fresh 1", "`1` has no word before it", "expected fresh")
    bad_line("show all", "`all` stands behind `show`", "`show` alone")
    bad_line("sheet 1", "`1` stands behind `sheet`", "`sheet` alone")
    bad_line("explain 7", "no call is `explain`", "`tools/quay explain "
             "BOOK.txt CHAIN`")
    bad_line("reopen 1", "no call is `reopen`", "a closed category stays "
             "closed")
    for word in ("undo", "unstrike", "delete", "remove"):
        bad_line(word + " 1", "no call is `%s`" % word, "nothing is taken "
                 "back; `strike` strikes an entry, once and for good, and "
                 "`fresh` or `load` begins again")
    bad_line("lines 1", "no call is `lines`", "`tools/quay lines BOOK ROWS.csv "
             "CATEGORY GROUP`; one of them is a `line`")
    bad_line("name 7", "a chain's number or its name is missing")
    bad_line("help me", "no help for `me`", "one of open, post")
    bad_line("help post open", "no help for `post open`")


def bad_cells():
    """Lines whose cells are none."""
    example = ("a call is `line category 1 group all quantity 12.5 operation "
               "3.1..3.4 provision 0.56`")
    expected = ("expected a number such as 12.5, a span such as 3.1..3.4, or "
                "`-` for a blank cell")
    two_points = "between the two numbers of a span stand two points"
    groups = ("`_` stands between groups of three digits")
    for cell, what in (
        ("3..4..5", "no span: it has two numbers"),
        ("3...5", "no span: between its two numbers stand two points"),
        ("3\u20265", "no span: between its two numbers stand two points"),
        ("3.1-3.4", "no number: " + two_points),
        ("3.1\u20133.4", "no number: " + two_points),
        ("3:4", "no number: " + two_points),
        ("3..", "no span: a number stands on each side of its two points"),
        ("..4", "no span: a number stands on each side of its two points"),
        ("..", "no span: a number stands on each side of its two points"),
        ("1,5", "ambiguous: a comma may be meant before decimals or between "
                "thousands; decimals stand behind a point"),
        ("1,250", "ambiguous: a comma may be meant"),
        ("1..1,5", "ambiguous: a comma may be meant"),
        ("12.5kg", "no number: a number stands without its unit"),
        ("12.5g/kWh", "no number: a number stands without its unit"),
        ("15%", "no number: a number stands without `%`"),
        ("12'000", "no number: between the groups of a long number stands `_` "
                   "or nothing"),
        ("1_5", "no number as it stands: " + groups),
        ("1_5.5", "no number as it stands: " + groups),
        ("1.2.3", "neither a number nor a span"),
        ("0x10", "neither a number nor a span"),
        ("1e", "neither a number nor a span"),
        ("\u0661", "neither a number nor a span"),
    ):
        for words, field, unit in (
            ("%s 1 1", "quantity", "units (kg, kWh or other), 0 to "
                                   "1_000_000_000"),
            ("1 %s 1", "operation", "g CO2e per unit, 0 to 10_000_000"),
            ("quantity 1 operation 1 provision %s", "provision",
             "g CO2e per unit, 0 to 10_000_000"),
        ):
            bad_line(LINE + words % cell, "`%s` after `%s` is %s" % (
                cell, field, what), "%s; `%s` is in %s; %s" % (
                    expected, field, unit, example))
    for words, what in (
        ("1 2", "missing: provision"), ("", "missing: quantity, operation and "
                                            "provision"),
        ("1 2 3 4", "`4` has no word before it that says what it is"),
        ("quantity 1 2 3", "`2` has no word before it that says what it is"),
        ("1 2 provision 3", "`1` has no word before it that says what it is"),
        ("quantity 12 500 operation 3 provision 4", "`500` has no word before "
         "it that says what it is; between the groups of a long number stands "
         "`_` and no space"),
        ("1 kg 2 3", "`kg` is no word here: a number stands without its unit; "
                     "`quantity` is in units"),
        ("quantty 1 2 3", "`quantty` is no word of `line`; did you mean "
                          "`quantity`?"),
    ):
        bad_line(LINE + words, what, "expected line with category, group, "
                 "quantity, operation and provision; " + example)
    bad_line("line 1 all 1 2 3", "`all` has no word before it that says what it "
             "is; did you mean `group all`?")
    bad_line(LINE + "quantity operation 1 provision 2", "no number after "
             "`quantity`", expected)
    for text, cell in (("-", ()), ("blank", ()), ("\u22121", (-1.0,)),
                       ("+2", (2.0,)), ("1_000.5", (1000.5,)), (".5", (0.5,)),
                       ("5.", (5.0,)), ("1e-3..1E3", (1e-3, 1e3)),
                       ("-.5..INF", (-0.5, float("inf"))),
                       ("0.1..0.3", (0.1, 0.3))):
        found = playing.request_of(LINE + "quantity %s operation 1 provision 1"
                                   % text).given[2]
        check(found == tuple(map(bits, cell)), "a cell", text, found)


def bad_files():
    """Lines with a file that cannot be taken."""
    bad_line("load", "no file after `load`", "`load examples/voyage.txt`")
    bad_line("load # none", "no file after `load`")
    bad_line("save", "no file after `save`", "`save class.txt`")
    bad_line("load a\0b", "a<U+0000>b is no name of a file")
    bad_line("load none.txt", "none.txt cannot be read: No such file",
             "expected the path of a book's text, from where you are")
    try:
        playing.request_of("load none.txt", "somewhere")
    except Wrong as wrong:
        check(wrong.args == ("none.txt cannot be read: No such file or "
                             "directory", "expected the path of a book's text, "
                             "from where you are or from the list's folder"),
              "no book", wrong)
    bad_line("load " + CLASS, "class.txt, line 5: no record is called `open`",
             "has `category` for it; `quay sheet` tells more of its bad lines")
    with tempfile.NamedTemporaryFile() as file:
        bad_line("load " + file.name, "%s has no record" % file.name,
                 "expected the path of a book's text")
        for data, what, expected in (
            (b"zzz", "%s, line 1: no record is called `zzz`", "expected a line"),
            (b"\x7fELF\0\n", "%s is no text; save it as plain text",
             "expected a book's text"),
        ):
            file.write(data)
            file.flush()
            bad_line("load " + file.name, what % file.name, expected)


HELP = """\
open       opens a category: freight, passengers, both or hub
post       posts an entry of emissions to a category
line       posts a line from the Wharf Sheet, the old workbook, to a category
strike     strikes an entry, by its number
enrol      enrols freight or passengers of a chain in a category
quote      quotes a leg of another carrier, in no category
preview    shows what every element would hold after a closing, and closes \
nothing
close      closes a category: its elements get their shares
statement  shows what a chain is charged with
intensity  shows the intensity of a closed category, for ambient, chilled, \
frozen or lowest (class)
fresh      begins an empty book
load       begins a book from its text
show       shows every record of the book
sheet      shows what every chain is charged with, and all together, in tonnes
name       names a chain
save       saves the accepted lines as a list
help       shows this, or more of one word
quit       ends
`help post` shows how a post is written, and so on
how a share came about, `quay explain` shows of a book's text, outside of this
"""
HELP_ON = {
    "line": """\
line: posts a line from the Wharf Sheet, the old workbook, to a category
    line category 1 group all quantity 12.5 operation 3.1..3.4 provision 0.56
    a cell is blank (`-`), a number, or a span with two points; it becomes \
whole thousandths, the nearest to its double, and a span the mean of its two; \
a half goes to the even number; the cells may stand without their words, in \
this order
    expected line with category, group, quantity, operation and provision
    category is a number, from 1 on in their order
    group is a number or a word: all (0), chilled (1) or frozen (2)
    quantity is in units (kg, kWh or other), 0 to 1_000_000_000
    operation is in g CO2e per unit, 0 to 10_000_000
    provision is in g CO2e per unit, 0 to 10_000_000
""",
    "strike": """\
strike: strikes an entry, by its number
    strike 2
    an entry is struck once and stays struck; its number is not given again
    expected strike with entry
""",
    "preview": """\
preview: shows what every element would hold after a closing, and closes nothing
    preview 1
    the book stays as it is; what is not of the category is shown with what it \
holds now
    expected preview with category
    category is a number, from 1 on in their order
""",
    "close": """\
close: closes a category: its elements get their shares
    close 1
    it stays closed, and takes no more entries, elements or strikes
    expected close with category
    category is a number, from 1 on in their order
""",
    "enrol": """\
enrol: enrols freight or passengers of a chain in a category
    enrol category 1 chain 7 code ambient amount 1_000 distance 300_000
    the passengers of a category are all weighed, each element with its `kg`, \
or none is
    expected enrol with category, chain, code, amount and distance; it may \
have kg
    category is a number, from 1 on in their order
    chain is a number from 1 to 10,000, also where `name` gives it a name
    code is for passengers their class in hundredths of the lowest, 100 to 1000
    code is a number or a word: ambient (0), chilled (1), frozen (2) or lowest \
(100)
    amount is in kg, or heads for passengers
    distance is in m, and 0 in a hub
    kg is what each passenger weighs, 1 to 300; left out or 0 it is the \
standard 100
""",
    "quote": """\
quote: quotes a leg of another carrier, in no category
    quote chain 7 mass 1_000 distance 500_000 operation 62_000 provision 10_000
    its emissions are in whole µg: intensity × mass × distance / 1000, the \
nearest, and a half goes to the even number
    expected quote with chain, mass, distance, operation and provision; it may \
have adjust
    chain is a number from 1 to 10,000, also where `name` gives it a name
    adjust is for an air leg: its emissions are of 95 km more
    mass is in kg
    distance is in m
    operation is in mg CO2e per tonne-km
    provision is in mg CO2e per tonne-km
""",
    "intensity": """\
intensity: shows the intensity of a closed category, for ambient, chilled, \
frozen or lowest (class)
    intensity 1 ambient
    it is in whole mg: what benefits all and what benefits the group are \
rounded apart, a half to the even number, and then added
    expected intensity with category and code
    category is a number, from 1 on in their order
    code is a number or a word: ambient (0), chilled (1), frozen (2) or lowest \
(100)
""",
    "load": """\
load: begins a book from its text
    load examples/voyage.txt
    the book so far is left, also where the load stops at a record
""",
    "save": """\
save: saves the accepted lines as a list
    save class.txt
    no file is written over
""",
    "post": """\
post: posts an entry of emissions to a category
    post category 1 group all quantity 12_000_000 operation 3_220_000 provision \
560_000
    expected post with category, group, quantity, operation and provision
    category is a number, from 1 on in their order
    group is a number or a word: all (0), chilled (1) or frozen (2)
    quantity is in thousandths of a unit, of a kg for example
    operation is in mg CO2e per unit
    provision is in mg CO2e per unit
""",
}


def helps():
    words = answers("help")[0]
    check(words == HELP.splitlines(), "every word", words)
    check([line.split()[0] for line in words[:-2]]
          == [*playing.CALLS, *playing.OTHERS], "every word", words)
    for word, wanted in HELP_ON.items():
        check(answers("help " + word)[0] == wanted.splitlines(), "help", word,
              answers("help " + word)[0])
    check(set(playing.MORE) <= set(HELP_ON), "what else is worth knowing")
    check(answers("?")[0] == words and answers("Help Post") == answers(
        "help post"), "other words for it")
    for word in (*playing.CALLS, *playing.OTHERS):
        lines = answers("help " + word)[0]
        check(lines[0].startswith(word + ": "), "help", lines)
        check(word == "load" or playing.request_of(lines[1]).word == word,
              "its example", lines)


def lists():
    text = b"# a \x1blist\n\n  open 1 # freight\n> show\nquit\nshow\n"
    check(run("play", text=text) == (0, "# a <U+001B>list\n\n> open 1 # "
          "freight\ncategory 1: freight, open\n> show\ncategory 1: freight, "
          "open\n> quit\n", ""), "a list", run("play", text=text))
    # A comma between thousands is told of, as in a book's text.
    text = QUOTE.replace("operation 6", "operation 1,006") + " # 1,000"
    lines = answers(text)[0]
    check(lines[0] == "note: `1,006` is read as 1006, since a comma stands "
          "between thousands here and never before decimals"
          and lines[1].startswith("element 1: quoted") and len(lines) == 3,
          "a comma", lines)
    check(run("play", "-", text=b"close 1\n")[0] == 3, "a refused call")
    check(run("play", text=b"# none\n") == (
        1, "", "there is no call in this list\nnothing is played\n"), "no call")
    check(run("play", text=b"# a\ropen 1\nopen 2\n")[2] == "note: line 1 has a "
          "carriage return inside, which is no line end in this text\n",
          "mixed line ends")
    status, output, told = run("play", text=b"open 1\nopne 2\nclose\n")
    check((status, output) == (1, "") and told == """\
line 2: no call is `opne`; did you mean `open`?
    opne 2
    expected a line that begins with open, post, line, strike, enrol, quote, \
preview, close, statement, intensity, fresh, load, show, sheet, name, save, \
help, quit
line 3: missing: category
    close
    expected close with category; a call is `close 1`
nothing is played
""", "bad lines", told)


def terminals():
    """Without a list a terminal is asked; with one it is not."""
    for words, status, start in (
        (["play"], 0, main.WELCOME), (["play", CLASS], 3, "# A class's list"),
    ):
        output = io.TextIOWrapper(io.BytesIO(), encoding="utf-8")
        terminal = mock.Mock()
        terminal.isatty.return_value = True
        with mock.patch("sys.stdin", terminal), \
                mock.patch("sys.stdout", output), \
                mock.patch("builtins.input", side_effect=EOFError):
            check(main.main(words, CALCULATED) == status, "ends", words)
        output.flush()
        check(output.buffer.getvalue().decode().startswith(start), "begins",
              words)


def prompts():
    """Typed lines: a bad one, a refused one and an interrupted one can be
    tried again."""
    for last in ("exit", EOFError):
        typed = ["opn 1", "", "close 1", KeyboardInterrupt, "open 1", last]
        output = io.StringIO()
        with mock.patch("builtins.input", side_effect=typed), \
                mock.patch("sys.stdout", output):
            check(main.play_typed(playing.Session(CALCULATED)) == 0, "ends")
        lines = output.getvalue().splitlines()
        check(lines[:2] == main.WELCOME.splitlines()
              and lines[2] == "no call is `opn`; did you mean `open`?"
              and lines[4].startswith("refused 2: ")
              and lines[6:8] == ["", "category 1: freight, open"], "typed",
              lines)


# Programs that are not there, or that say something else.

def unavailable():
    def missing(data):
        raise Unavailable("not built")
    none = Programs(missing, missing)
    for words in (("sheet", DOCUMENT), ("play", CLASS),
                  ("explain", DOCUMENT, "7")):
        check(run(*words, programs=none) == (2, "", "not built\n"),
              "not built", words)
    # Programs that end well, badly, or are none.
    with tempfile.TemporaryDirectory() as folder, \
            mock.patch("command.programs.ROOT", folder):
        path = os.path.join(folder, "crates", "quaymeter", "out", "quaymeter")
        for program, name in zip(programs.PROVED, programs.Programs._fields):
            other = os.path.join(folder, "crates", name, "out", name)
            os.makedirs(os.path.dirname(other))
            with open(other, "w") as file:
                file.write("#!/bin/sh\nprintf %s\ncat\n" % name)
            os.chmod(other, 0o755)
            check(program(b" in") == name.encode() + b" in", "a program", name)
        for text, told in (
            ("#!/bin/sh\nexit 3\n", "did not end well (status 3)"),
            ("#!/bin/sh\necho no >&2\n", "did not end well (status 0): no"),
            ("#!/none\n", "does not run"),
        ):
            with open(path, "w") as file:
                file.write(text)
            os.chmod(path, 0o755)
            found = run("sheet", DOCUMENT, programs=programs.PROVED)
            check(found[:2] == (2, "") and told in found[2], "ends badly",
                  found)
    with mock.patch("command.programs.ROOT", os.path.join(ROOT, "tools")):
        status, output, told = run("sheet", DOCUMENT,
                                   programs=programs.PROVED)
        check((status, output, told) == (
            2, "", "crates/quaymeter/out/quaymeter is not built yet: `rt ci` "
            "in %s proves and builds everything\n"
            % os.path.join(ROOT, "tools")), "not built", told)


def with_sheet(change):
    """The programs with another `quaymeter`."""
    return Programs(lambda data: change(CALCULATED.quaymeter(data)),
                    CALCULATED.replay)


def told_loudly(old, new, what):
    """A sheet with this for that is a difference: it is told loudly, and no
    number is shown."""
    wrong = with_sheet(lambda output: output.replace(old, new))
    check(run("sheet", "-", text=NAMED, programs=with_sheet(
        lambda output: output))[0] == 0, "the same")
    status, output, told = run("sheet", "-", text=NAMED, programs=wrong)
    check((status, output) == (4, "") and what in told and told.startswith(
        "!" * 70 + "\nTHE PROVED PROGRAM AND WHAT IS RECKONED HERE DIFFER:"
        "\n") and told.endswith("\nTrust neither before this is cleared "
                                "up.\n" + "!" * 70 + "\n"), "loudly",
        told)


def differences():
    """Of the heading, of the lines of chains, and of a refusal."""
    row = b"7 3 2 2 233333333 233333335"
    for old, new, what in (
        (b"chain elements", b"chains elements", "quaymeter says `chains"),
        *((row, wrong, "quaymeter prints `%s`, and replay states `%s`"
           % (wrong.decode(), row.decode())) for wrong in (
               b"7 3 1 2 233333333 233333335", b"7 4 2 2 233333333 233333335",
               b"7 3 2 3 233333333 233333335", b"7 3 2 2 233333334 233333335",
               b"7 3 2 2 233333333 233333336", b"8 3 2 2 233333333 233333335",
               b"7 3 2 2 233333333", b"7 3 2 2 233333333 233333335 0", b"")),
        (row, b"7 3 2 2 x", "a program prints `7 3 2 2 x`"),
        (row + b"\n", b"", "the sheet has 2 lines, and the book 3 chains"),
        (row + b"\n", b"7 1\n7 2\n", "the sheet has 4 lines, and the book 3 "
         "chains"),
        (DOCUMENT_SHEET.encode()[:5], b"refused 3 1 1\nchain",
         "quaymeter says `refused 3 1 1`, and replay `0 0 0`"),
        (b"chain elements", b"refused x y", "a program prints `x y"),
    ):
        told_loudly(old, new, what)
    for wrong, text, what in (
        (lambda output: b"", NAMED, "quaymeter says ``, and replay `0 0 0`"),
        (lambda output: output.splitlines(True)[0], b"category kind 1",
         "the sheet ends with `chain elements waiting operation provision "
         "total`, where `all` and five sums were expected"),
        (lambda output: DOCUMENT_SHEET.encode(), b"category kind 9",
         "and replay `3 1 1`"),
        (lambda output: output + b"all 0 0 0 0 0\n", b"category kind 9",
         "quaymeter prints `all 0 0 0 0 0` behind its refusal"),
    ):
        status, output, told = run("sheet", "-", text=text,
                                   programs=with_sheet(wrong))
        check((status, output) == (4, "") and what in told, "loudly", told)


def differences_of_total():
    """Of the last line: other sums; none, without its word, of four or six
    numbers or of others, twice, not the last."""
    total = b"all 5 3 7 700000000 700000007"
    for old, new, what in (
        *((total, b"all " + wrong, "quaymeter prints `all %s`, and its lines "
           "and the book's elements add up to `%s`"
           % (wrong.decode(), total.decode())) for wrong in (
               b"6 3 7 700000000 700000007", b"5 2 7 700000000 700000007",
               b"5 3 8 700000000 700000007", b"5 3 7 700000001 700000007",
               b"5 3 7 700000000 700000008", b"3 2 7 700000000 700000007",
               b"0 0 0 0 0")),
        (total + b"\n", b"", "the sheet ends with `9999 1 1 0 0 0`, where "
         "`all` and five sums were expected"),
        (total, b"", "the sheet ends with ``, where `all`"),
        *((total, wrong, "the sheet ends with `%s`, where `all` and five sums "
           "were expected" % wrong.decode()) for wrong in (
               total[4:], b"ALL" + total[3:], b"all", total[:-10],
               total + b" 0")),
        (total, b"all 5 3 x 0 0", "a program prints `5 3 x 0 0`"),
        (total, total + b"\n" + total, "a program prints `%s`, where numbers "
         "were expected" % total.decode()),
        (total, total + b"\n10000 1 0 0 0 0", "the sheet ends with `10000 1 0 "
         "0 0 0`, where `all`"),
    ):
        told_loudly(old, new, what)


def differences_of_form():
    """The right numbers, written otherwise than the program writes them."""
    row = b"7 3 2 2 233333333 233333335"
    total = b"all 5 3 7 700000000 700000007"
    for line, wrong in (
        (total, total.replace(b" 5", b"  5")), (total, total + b" "),
        (total, total.replace(b" 5", b" 05")),
        (total, total.replace(b" 5", b" +5")),
        (total, total.replace(b"700000000", b"700_000_000")),
        (total + b"\n", total), (row, row.replace(b" 3", b"  3")),
        (row, b" " + row), (row, b"0" + row),
    ):
        told_loudly(line, wrong, "quaymeter prints `%s`, where `%s` and a "
                    "newline were expected" % (
                        wrong.decode(), line.decode().rstrip("\n")))


def differences_of_answers():
    """Programs that answer a call otherwise, from the fourth record on."""
    lines = ("open 1", ENROL, "statement 7", "sheet", "close 1")
    stated = b"\n0 1 1 0 0 0\n"
    for old, new, what in (
        *((stated, b"\n%s\n" % wrong, "replay answers `%s` to `statement 7`, "
           "and `0 1 1 0 0 0` is reckoned here" % wrong.decode()) for wrong in (
               b"0 1 0 0 0 0", b"0 1 1 0 0", b"0 1 1 0 0 0 0", b"0 1 1 0 1 1",
               b"3 0 0 0 0 0", b"23 1 1 0 0 0")),
        (b"\n0 1\n", b"\n0 2\n", "replay answers the same calls in another"),
        (stated, b"\n", "replay answers the same calls in another"),
        (stated, b"\n0 1 1 0 0 x\n", "a program prints `0 1 1 0 0 x`"),
        (stated + b"14083 1 0 1 1 0 ", stated + b"14083 1 0 1 ",
         "replay shows 2658 words"),
        (stated + b"14083 1 0 1 1 0 ", stated + b"14083 1 0 1 2 0 ",
         "after `statement 7` replay shows 2 in the book's category 1, kind, "
         "and 1 is reckoned here"),
        (stated + b"14083 1 0 1 ", stated + b"14083 1 0 9 ",
         "after `statement 7` replay shows 9 in the book's word 3, and 1 is "
         "reckoned here"),
        # The statement of the sheet, behind the one that was asked for.
        (stated + stated[1:], stated + b"0 1 0 0 0 0\n", "replay answers `0 1 "
         "0 0 0 0` to `statement 7`"),
    ):
        replay = calculated().replay
        session = playing.Session(Programs(
            None, lambda data: replay(data).replace(old, new)
            if len(data) > 4 * 64 else replay(data)))
        tells_difference(check, what, lambda: [
            session.answer(playing.request_of(line)) for line in lines])
    tells_difference(check, "in another way, with ``", playing.Session,
                     Programs(None, lambda data: b""))


def differences_of_calls():
    """Answers of loads, openings and intensities; and who waits."""
    for lines, old, new, what in (
        (("load " + DOCUMENT,), b"\n0 0 0\n", b"\n0 0\n", "`0 0` to `load`"),
        (("load " + DOCUMENT,), b"\n0 0 0\n", b"\n3 1 1\n", "answers `3 1 1` "
         "to `load`, and `0 0 0` is reckoned here"),
        (("open 1",), b"\n0 1\n", b"\n0 9\n", "`0 9` to `open 1`, and `0 1`"),
        (("open 1",), b"\n0 1\n", b"\n0\n", "`0` to `open 1`, and `0 1`"),
        (("open 1",), b"\n0 1\n", b"\n\n", "`` to `open 1`, and `0 1`"),
        (("open 9",), b"\n3 0\n", b"\n23 0\n", "`23 0` to `open 9`, and `3 0`"),
        # A program that takes a blank cell for 0.
        (("open 1", LINE + "1 - 2..3"), b"\n15 0\n", b"\n0 1\n",
         "`0 1` to `line 1 1 1 - 2..3`, and `15 0` is reckoned here"),
        # Programs that round halves up, and down: of a cell, a mean, a quote
        # and an intensity.
        (("open 1", LINE + "1 0.0625 0"), b" 1 1 62000 0 ", b" 1 1 63000 0 ",
         "after `line 1 1 1 0.0625 0` replay shows 63000 in the book's entry 1, "
         "operation, and 62000 is reckoned here"),
        (("open 1", LINE + "1 0.1875 0"), b" 1 1 188000 0 ", b" 1 1 187000 0 ",
         "after `line 1 1 1 0.1875 0` replay shows 187000 in the book's entry "
         "1, operation, and 188000 is reckoned here"),
        (("open 1", LINE + "1 0 0.062..0.187"), b" 1 1 0 124000 ",
         b" 1 1 0 125000 ", "replay shows 125000 in the book's entry 1, "
         "provision, and 124000 is reckoned here"),
        ((HALVES % (1, 3),), b" 500 1 500 0 2 ", b" 500 1 500 1 2 ", "replay "
         "shows 1 in the book's element 1, operation, and 0 is reckoned here"),
        ((HALVES % (1, 3),), b" 500 1 500 0 2 ", b" 500 1 500 0 1 ", "replay "
         "shows 1 in the book's element 1, provision, and 2 is reckoned here"),
        (("open 4", "post category 1 group 0 quantity 1 operation 1 provision 3",
          "enrol category 1 chain 7 code 0 amount 2 distance 0", "close 1",
          "intensity 1 0"), b"\n0 0 2\n", b"\n0 1 2\n", "replay answers `0 1 "
         "2` to `intensity 1 0`, and `0 0 2` is reckoned here"),
        # What a program without weighed passengers answers.
        (("open 2", SEATS, SEATS + " kg 78"), b"\n14 0\n", b"\n0 2\n",
         "`0 2` to `enrol 1 7 100 10 20 78`, and `14 0` is reckoned here"),
        (("open 1", POST, ENROL, "close 1", "intensity 1 0"),
         b"\n0 15000 10000\n", b"\n0 15000\n", "`0 15000` to `intensity 1 0`"),
        # Another pair, one past the last element, and fewer of them.
        *((("open 1", POST, ENROL, "preview 1"), b"\n0 3000 2000 0 ", wrong,
           what) for wrong, what in (
               (b"\n0 3000 2001 0 ", "after `preview 1` replay shows 2001 in "
                "pair 1, provision, and 2000 is reckoned here"),
               (b"\n0 3000 2000 7 ", "after `preview 1` replay shows 7 in pair "
                "2, operation, and 0 is reckoned here"),
               (b"\n0 3000 2000 ", "replay answers `0 3000 2000 0 0 "),
               (b"\n4 3000 2000 0 ", "replay answers `4 3000 2000 0 0 "))),
        # A preview that closes, and refused ones: with another number, and
        # one that writes a pair.
        (("open 1", POST, ENROL, "preview 1"), b" 0 0 0\n14083 1 1 1 1 0 ",
         b" 0 0 0\n14083 1 1 1 1 1 ", "after `preview 1` replay shows 1 in the "
         "book's category 1, closed, and 0 is reckoned here"),
        (("open 1", "preview 1"), b"\n9 7 7 ", b"\n17 7 7 ", " ...` to `preview "
         "1`, and `9 7 7 "),
        (("open 1", "preview 1"), b"\n9 7 7 ", b"\n9 7 0 ", "after `preview 1` "
         "replay shows 0 in pair 1, provision, and 7 is reckoned here"),
    ):
        replay = calculated().replay
        session = playing.Session(Programs(
            None, lambda data: replay(data).replace(old, new)))
        lines = [line.replace("group 1", "group 0") for line in lines]
        tells_difference(check, what, lambda: [
            session.answer(playing.request_of(line)) for line in lines])
    tells_difference(
        check, "chain 7: the program says that 2 wait, and 1 are found here",
        sheets.compare_waiting, [sheets.Row(7, 2, 2, 0, 0, 0)],
        [{7: 1}, {7: 0}])
    ledger, _ = loaded(CALCULATED, pack.Text(NAMED.decode()).data())
    rows = sheets.statements(ledger)
    check(sheets.with_total(rows, ledger)[:-1] == rows, "the same rows")
    for place in range(1, 6):
        wrong = list(rows[0])
        wrong[place] += 1
        sums = [5, 3, 7, 700_000_000, 700_000_007]
        sums[place - 1] += 1
        tells_difference(
            check, "the lines add up to `%s`, and the book's elements to `5 3 "
            "7 700000000 700000007`" % " ".join(map(str, sums)),
            sheets.with_total, [sheets.Row(*wrong), *rows[1:]], ledger)
    pairs = [getattr(element, amount) for element in ledger.book.elements
             for amount in book.AMOUNTS]
    for place, sums in ((0, "8 700000000"), (3, "7 700000001")):
        wrong = list(pairs)
        wrong[place] += 1
        tells_difference(
            check, "the shares of category 1 add up to `%s`, and its entries to "
            "`7 700000000`" % sums, playing.handed_out,
            playing.previewed(ledger.words, wrong), 1, "is")


# Outputs that cannot be written.

class Failing(io.RawIOBase):
    """A stream that cannot be written to."""

    def __init__(self, error):
        self.error = error

    def writable(self):
        return True

    def write(self, data):
        raise self.error


def outputs():
    refused = ["play", CLASS]
    for error, words, status, told in (
        (BrokenPipeError(), ["sheet", DOCUMENT], 0, ""),
        (BrokenPipeError(), ["sheet", "--csv", DOCUMENT], 0, ""),
        (BrokenPipeError(), ["explain", DOCUMENT, "7"], 0, ""),
        (BrokenPipeError(), refused, 3, ""),
        (BrokenPipeError(), ["lines", WHARF, WHARF_SHEET, "1", "2"], 3,
         row_checks.NOTE),
        (OSError(28, "No space left on device"), ["sheet", DOCUMENT], 2,
         "the output cannot be written: No space left on device\n"),
    ):
        messages = io.TextIOWrapper(io.BytesIO(), encoding="utf-8")
        raw = Failing(error)
        failing = io.TextIOWrapper(io.BufferedWriter(raw))

        def write_no_more(stream):
            raw.write = len
        with mock.patch("sys.stdout", failing), \
                mock.patch("sys.stderr", messages), \
                mock.patch("command.main.write_no_more", write_no_more):
            found = main.main(words, CALCULATED)
        messages.flush()
        check((found, messages.buffer.getvalue().decode()) == (status, told),
              "an output that fails", error, words, found)
    with tempfile.TemporaryFile("w+") as file:
        main.write_no_more(file)
        main.say("nothing", stream=file)
        check(os.fstat(file.fileno()).st_rdev == os.stat(os.devnull).st_rdev,
              "no more is written")
    for stream in ("sys.stdout", "sys.stderr"):
        with mock.patch(stream, None):
            check(main.main(["sheet", DOCUMENT], CALCULATED) == 2, "closed",
                  stream)
    with mock.patch("sys.stdin", None):
        check(pack.read(None) == "", "no standard input")
    with mock.patch("command.sheets.Sheet", side_effect=KeyboardInterrupt):
        check(run("sheet", DOCUMENT)[:2] == (2, ""), "interrupted")


# Help and documents.

def help_texts():
    status, output, told = run("--help")
    check((status, told) == (0, "") and "quay play" in output
          and "10^12 µg are 1 t" in output, "help")
    for phrase in ("the sheet of a book", "calls and their answers",
                   "how a chain's shares came about",
                   "rows of an old workbook, posted"):
        check(phrase in output, "help", phrase)
    book_path = "a book's text; - for standard input"
    for command, *phrases in (
        ("sheet", "Packs a book's text, runs `quaymeter` and prints its sheet "
         "as it is", "The last line, `all`, has the sums of all chains",
         "`name 7 Harbour Mills` in the text names chain 7",
         book_path, "a table in tonnes, exact, with chains' names",
         "comma-separated, for a spreadsheet"),
        ("play", "Plays calls in words, one a line, from a list or typed at a "
         "prompt", "a refused call changes nothing and can be tried again",
         "enrol category 2 chain 9 code lowest amount 40 distance 300_000 kg "
         "78",
         "line category 1 group all quantity 12.5 operation 3.1..3.4 provision "
         "0.56", "strike 1 preview 1 close 1",
         "a list of calls; without it they are typed"),
        ("explain", "Shows how a chain's shares came about, element by element",
         "how a quote was rounded, to the nearest µg and from a half to the "
         "even number", "Each result is compared with that of the proved program",
         book_path, "a chain's number, or its name in the text"),
        ("lines", "Posts the rows of an old workbook (the Wharf Sheet) to a "
         "category of a book, for a group", "the nearest whole thousandth of "
         "the exact value of its double, and a span the mean of its two; a half "
         "goes to the even number",
         "usage: quay lines [-h] [--entries] BOOK.txt ROWS.csv CATEGORY GROUP",
         "a book's text, or a list of calls; - for standard input",
         "the rows of the workbook; - for standard input",
         "where they are posted, as in `1 all`",
         "the rows as lines for the book"),
    ):
        status, output, told = run(command, "--help")
        check((status, told) == (0, ""), "help", command)
        output = " ".join(output.split())
        for phrase in (*phrases, "Exit status: 0 done; 1 the text is bad; 2 it "
                       "cannot be done", "3 the ledger refuses"):
            check(phrase in output, "help", command, phrase)
        # What is not understood is told by the command that it was meant for.
        words = (command, DOCUMENT, "7", "1", "1")[
            :{"explain": 3, "lines": 5}.get(command, 2)]
        status, output, told = run(*words, "--tons")
        check((status, output) == (2, "") and told.startswith(
            "usage: quay %s " % command) and told.endswith(
            "error: not understood: --tons\n"), "not understood", told)
    check(run()[0] == 2 and "quay sheet" in run()[1], "no command")
    check(run("help") == run("--help"), "help as a word")
    check(run("shet", DOCUMENT)[0] == 2, "no such command")


def documents():
    """README has every refusal with its meaning; it, docs/BOOKS.md and the
    example itself show what is printed, and both say how halves are rounded.
    """
    table = dict(re.findall(r"^\| ([0-9]+) \| ([^|]*[^| ]) +\|", stored(
        "README.md"), re.M))
    check({int(number): meaning for number, meaning in table.items()}
          == refusals.MEANINGS, "README's refusals", table)
    for lines, number in ((("load " + DOCUMENT, "close 1"), 4),
                          (("open freight", "intensity 1 ambient"), 5),
                          (("line category 1 group all 12.5 - 0",), 15),
                          (("line category 1 group all 12.5 3.4..3.1 0",),
                           16)):
        check("`%s`" % lines[-1] in stored("README.md"), "README's calls",
              lines)
        check(answers(*lines)[-1][0].startswith("refused %d: " % number),
              "README's calls", lines)
    lines = re.findall("^    ((?:%s|name) (?![0-9]+:).*)" % "|".join(
        pack.RECORDS), stored("README.md"), re.M)
    check(len(lines) > 5 and not pack.Text("\n".join(lines)).problems
          and any(" kg " in line for line in lines), "README's lines", lines)
    text = stored("examples", "document.txt").replace("chain 4 c", "chian 4 c")
    line = playing.CALLS["line"].example
    for page, output in (
        ("README.md", DOCUMENT_TABLE), ("README.md", REFUSED_TOLD),
        ("README.md", run("play", text=("open freight\n" + line).encode())[1]),
        *[("README.md", preview) for preview
          in previews_in(run("play", TWO_LISTS)[1])],
        (os.path.join("docs", "BOOKS.md"),
         run("sheet", "-", text=text.encode())[2]),
    ):
        check("".join("    %s\n" % line for line in output.splitlines())
              in stored(page), "a page shows", page, output)
    check("".join("#     %s\n" % line for line in DOCUMENT_SHEET.splitlines())
          in stored("examples", "document.txt"), "the example shows its sheet")
    for page, words, numbers in (
        ("README.md", "0.5 becomes %d, 1.5 becomes %d and 2.5 becomes %d",
         [nearest(number, 2) for number in (1, 3, 5)]),
        ("docs/BOOKS.md", "0.5 becomes %d and 2.5 becomes %d, 1.5 becomes %d "
         "and 3.5 becomes %d", [nearest(number, 2) for number in (1, 5, 3, 7)]),
        ("docs/BOOKS.md", "0.5 and 0.5 give %d, 1.5 and 1.5 give %d",
         [2 * nearest(number, 2) for number in (1, 3)]),
        ("docs/BOOKS.md", "0.062..0.187 has the mean 124.5 and becomes %d, "
         "0.063..0.188 has 125.5 and becomes %d",
         [converted((bits(0.062), bits(0.187))),
          converted((bits(0.063), bits(0.188)))]),
        ("docs/BOOKS.md", "0.0625 and 0.1875 are doubles: they are 62.5 and "
         "187.5 thousandths, both halves, and become %d and %d. 0.5015 is none: "
         "the nearest double is a little less, and becomes %d and not 502; that "
         "of 2.0005 is a little more, and becomes %d,%03d and not 2,000",
         [converted((bits(number),)) for number in (0.0625, 0.1875, 0.5015)]
         + list(divmod(converted((bits(2.0005),)), 1000))),
    ):
        check(words % tuple(numbers) in " ".join(stored(page).split()),
              "a page says", page, words, numbers)


shown_amounts()
plain_sheets()
tables()
long_numbers()
spreadsheets()
bad_texts()
steering_signs()
refused_texts()
explanations()
stored_explanations()
board()
ferry()
class_list()
two_lists()
accepted_calls()
previews()
previews_and_closings()
looking()
halves_of_intensities()
whole_sheets()
saves()
loads()
places_of_books()
told_of_loads()
bad_lines()
bad_cells()
bad_files()
helps()
lists()
terminals()
prompts()
unavailable()
differences()
differences_of_total()
differences_of_form()
differences_of_answers()
differences_of_calls()
outputs()
help_texts()
documents()
refusal_checks.run(check)
explain_checks.run(check)
row_checks.run_all(check)
check.end()
