"""`quay lines`: the rows of a workbook, the forms of their file, and what is
told of them."""

import os
import tempfile

import pack
from calculation.book import AMOUNTS, total
from calculation.workbook import converted
from checks.quay_runs import (
    CALCULATED, CLASS, DOCUMENT, WHARF, WHARF_SHEET, calculated, run, stored)
from command.ledger import loaded
from command.programs import Programs, Unavailable
from command.rows import Rows

NOTE = (
    "note: %s, line 1 is taken for a heading, and no row: `quantity`, "
    "`operation g per unit` and `provision g per unit`; the columns are "
    "quantity in units, operation and provision in g CO2e per unit\n"
    % WHARF_SHEET)


def posted(rows, *place, book=WHARF, programs=CALCULATED):
    """The status, the output and the messages of rows on standard input."""
    data = rows if isinstance(rows, bytes) else rows.encode()
    return run("lines", book, "-", *place or ("1", "all"), text=data,
               programs=programs)


# The example.

def example(check):
    found = run("lines", WHARF, WHARF_SHEET, "1", "all")
    check(found == (3, stored("examples", "wharf-answers.txt"), NOTE),
          "its stored answers", found)
    for place in (("1", "0"), ("category", "1", "group", "all"),
                  ("Group", "ALL", "1"), ("group", "0", "category", "1")):
        check(run("lines", WHARF, WHARF_SHEET, *place) == found, "the place",
              place)
    for sheet, wanted in (
        # What the example says of its rows.
        ("4", (625, 1_430_000_000, 0)), ("5", (5_500, 3_922_000_000, 0)),
        ("6", (1_788, 1_430_000_000, 0)), ("3", (6_400_000, 0, 41_300)),
        ("11", (62, 2_510_000, 620_000)), ("12", (501, 2_510_000, 620_000)),
    ):
        row = next(row for row in Rows(stored(
            "examples", "wharf-sheet.csv")).rows if row.number == int(sheet))
        check(tuple(map(converted, row.cells)) == wanted, "reckoned by hand",
              row)


def as_entries(check):
    """Its rows as lines of the book's text, and of a list of calls, give the
    same entries."""
    status, output, told = run("lines", "--entries", WHARF, WHARF_SHEET, "1",
                               "chilled")
    lines = output.splitlines()
    check((status, told) == (3, NOTE) and lines[0] == "entry category 1 group "
          "chilled quantity 1_250_500 operation 2_510_000 provision 620_000    "
          "# wharf-sheet.csv, line 2" and lines[5] == "# wharf-sheet.csv, line "
          "7: refused 15: the operation factor is blank" and len(lines) == 11,
          "entries", output)
    text = pack.Text(stored("examples", "wharf.txt") + output)
    ledger, numbers = loaded(CALCULATED, text.data())
    check(numbers == [0, 0, 0] and not text.problems, "taken", numbers)
    with tempfile.NamedTemporaryFile("w", suffix=".txt") as file:
        file.write("open hub\nopen hub\n")
        file.flush()
        output = run("lines", "--entries", file.name, WHARF_SHEET, "1",
                     "chilled")[1]
        file.write(output)
        file.flush()
        check(output.startswith("post category 1 group chilled quantity "
                                "1_250_500"), "posts", output)
        listed = run("play", file.name)
        check(listed[0] == 0 and listed[1].count("\nentry ") == 7, "played",
              listed)
        found = run("lines", file.name, WHARF_SHEET, "2", "chilled")[1]
        check("\n  12     14        501" in found and found.endswith(
            "11 rows: 7 posted as entries 8 to 14, 4 refused\n"), "again",
            found)
    # Closed, its customers are charged with all of them.
    output = run("lines", "--entries", WHARF, WHARF_SHEET, "1", "0")[1]
    text = stored("examples", "wharf.txt").replace("kind hub", "kind hub close")
    found = run("sheet", "-", text=(text + output).encode())
    sums = [total(ledger.book.entries, amount) for amount in AMOUNTS]
    check(found[::2] == (0, "") and found[1].endswith(
        "\nall 2 0 %d %d %d\n" % (*sums, sum(sums))), "charged", found)
    for entry in ledger.book.entries:
        check("operation %s µg" % "{:_}".format(entry.operation) in listed[1],
              "the same entry", entry)


# Files.

TABLE = """\
line  entry   quantity  operation mg  provision mg  operation t  provision t
   1      1     12_500         3_250           560  0.000040625     0.000007
   2      2  1_250_500             0             0  0               0
2 rows: 2 posted as entries 1 and 2, none refused
"""


def forms(check):
    """How a file may be written."""
    comma = ("note: standard input, line 1: a comma stands before decimals in "
             "this file: `12,5` is read as 12.5\n")
    rows = "12.5,3.1..3.4,0.56\n1250.5,0,0\n"
    semicolons = "12,5;3,1..3,4;0,56\n1250,5;0;0\n"
    for text, told in (
        (rows, ""), (rows.rstrip("\n"), ""),
        (rows.replace("\n", "\r\n"), ""), (rows.replace("\n", "\r"), ""),
        (rows + "\x1a", ""), (rows.replace(",", " , "), ""),
        (rows.replace(",", "\t"), ""), (rows.replace(",", ";"), ""),
        (rows.replace("3.1..3.4", " 3.1 .. 3.4 "), ""),
        (rows.replace("3.1..3.4", '"3.1..3.4"').replace("0.56", '"0.56"'), ""),
        (rows.replace("0.56", "0.56,,"), ""),
        (rows.replace("1250.5", "+1_250.50e0"), ""),
        (semicolons, comma), (semicolons.replace(";", "\t"), comma),
        (semicolons.replace("12,5", '"12,5"'), comma),
        # Between quotation marks where a comma separates the columns.
        ('"12,5","3,1..3,4","0,56"\n"1250,5",0,0\n', comma),
    ):
        for data in (text.encode(), b"\xef\xbb\xbf" + text.encode(),
                     text.encode("utf-16"), text.encode("utf-16-le"),
                     text.encode("utf-16-be")):
            check(posted(data) == (0, TABLE, told), "a form", data,
                  posted(data))
    for first in ("sep=;", '"sep=;"', "SEP=;\r"):
        found = posted(first + "\n" + rows.replace(",", ";"))
        check(found == (0, TABLE.replace("\n   2 ", "\n   3 ").replace(
            "\n   1 ", "\n   2 "), ""), "a stated separator", found)
    check(posted(rows.replace(",", "|").join(("sep=|\n", "")))[0] == 0,
          "another separator")
    for text, column in (("a;b,c,d\n1,2,3", 2), ("a,b;c;d\n1;2;3\n4;5;6", 2),
                         ("1\t2\t\n1\t2\t3", 2)):
        status, output, _ = posted(text)
        check(status in (0, 3) and "\n   %d      1 " % column in output,
              "most lines decide", text, output)
    # As they stand between `;`, and not between thousands.
    check("     3_206        " in posted("3,206;1;1")[1], "a decimal comma")


def halves(check):
    """They go to the even number, of numbers and of means, and where a number
    only looks like one, its double decides."""
    found = posted("0.0625,1,2\n1,0.1875,0.3125\n1,0.063..0.188,0.062..0.187\n"
                   "0.0625..0.1875,0.0625..0.063,0.187..0.1875\n"
                   "1.0005,0.5015,2.0005\n")
    check(found == (0, """\
line  entry  quantity  operation mg  provision mg    operation t   provision t
   1      1        62         1_000         2_000  0.000000062    0.000000124
   2      2     1_000           188           312  0.000000188    0.000000312
   3      3     1_000           126           124  0.000000126    0.000000124
   4      4       125            62           188  0.00000000775  0.0000000235
   5      5     1_000           501         2_001  0.000000501    0.000002001
line 5, operation factor: as a double 0.5015 is 0.501499999999999945821116..., \
so it becomes 501 and not 502
line 5, provision factor: as a double 2.0005 is 2.000500000000000166977542..., \
so it becomes 2_001 and not 2_000
5 rows: 5 posted as entries 1 to 5, none refused
""", ""), "halves", found)
    for cell, number in (("0.4375", 438), ("0.5625", 562), ("0..0.001", 0),
                         ("0.001..0.002", 2), ("0.002..0.003", 2)):
        row, = Rows("%s,0,0" % cell).rows
        check(converted(row.cells[0]) == number, "a half", cell)


def headings(check):
    for heading in ("quantity,operation,provision", "Menge,Betrieb,Energie",
                    '"Quantity\n(kg)",operation,provision', "a,b,c"):
        status, output, told = posted(heading + "\n1,2,3\n")
        line = 2 + heading.count("\n")
        check(status == 0 and "\n   %d      1 " % line in output
              and told.startswith("note: standard input, line 1 is taken for a "
                                  "heading, and no row: `")
              and told.endswith("; the columns are quantity in units, operation "
                                "and provision in g CO2e per unit\n"),
              "a heading", output, told)
    check(posted("\n,,\n,,,\na,b,c\n1,2,3\n")[::2] == (
        0, "note: standard input, line 4 is taken for a heading, and no row: "
        "`a`, `b` and `c`; the columns are quantity in units, operation and "
        "provision in g CO2e per unit\nnote: standard input, 2 rows without any "
        "cell are passed over: the first is line 2\n"), "behind blank lines")
    check(posted("1,2,3\n \n\n4,5,6\n\n\n")[::2] == (0, ""), "blank lines")
    check(posted("1,2,3\n , ,\n4,5,6")[::2] == (0, "note: standard input, 1 row "
          "without any cell is passed over: it is line 2\n"), "a blank row")
    check(posted("-,-,-")[0] == 3, "blank cells that are written")
    for heading, named, column in (
        ("operation,quantity,provision", "operation", 1),
        ("a,Provision g,c", "provision", 2),
        ("a,b,operation and quantity", "quantity and operation", 3),
    ):
        told = posted(heading + "\n1,2,3\n")[2]
        check("standard input, line 1: the heading has %s in column %d\n"
              % (named, column) in told, "another order", told)


def bad_rows(check):
    """What is no row is told by line and column, and nothing is posted."""
    three = ("expected three columns: quantity in units, operation and "
             "provision in g CO2e per unit")
    cell = ("expected a number such as 12.5, a span such as 3.1..3.4, or "
            "nothing for a blank cell")
    formula = "a formula: save the numbers that it comes to"
    one_sign = ("no number as it stands: one comma or one point stands before "
                "its decimals, and none between thousands")
    for row, what, expected in (
        ("1,2", "2 columns, separated by `,`", three),
        ("12,5,3,1,0,5", "6 columns, separated by `,`", three + "; where a "
         "comma stands before decimals, `;` separates the columns"),
        ("1;2;3;4", "4 columns, separated by `;`", three),
        ("1\t2", "2 columns, separated by tabs", three),
        ("1", "1 column, separated by `,`", three),
        ('1,"2,3', "a quotation mark is not closed", three),
        ("1,two,3", "column 2, operation factor: `two` is neither a number nor "
         "a span", cell),
        ("1,2,three", "column 3, provision factor: `three` is neither a number "
         "nor a span", cell),
        ("12.5 kg,2,3", "column 1, quantity: `12.5 kg` is no number: a number "
         "stands without its unit", cell),
        ("12 500,2,3", "column 1, quantity: `12 500` is no number: between the "
         "groups of a long number stands `_` or nothing", cell),
        ("1,2 to 3,3", "column 2, operation factor: `2 to 3` is no number: "
         "between the two numbers of a span stand two points", cell),
        ("1,2,15 %", "column 3, provision factor: `15 %` is no number: a "
         "number stands without `%`", cell),
        ("12.5 kg,3 g,4 g", "column 1, quantity: `12.5 kg` is no number: a "
         "number stands without its unit", cell),
        ("=A1,=A2,=A3", "column 1, quantity: `=A1` is " + formula, cell),
        ("#DIV/0!,2,3", "column 1, quantity: `#DIV/0!` is an error of the "
         "spreadsheet, and no number", cell),
        ('"3,206",1,1', "column 1, quantity: `3,206` is ambiguous: a comma may "
         "be meant before decimals or between thousands; decimals stand behind "
         "a point", cell),
        ('1,"2..3,206",1', "column 2, operation factor: `2..3,206` is "
         "ambiguous: a comma may be meant", cell),
        ('"1,234,567",1,1', "column 1, quantity: `1,234,567` is " + one_sign,
         cell),
        ("1.234,5;1;1", "column 1, quantity: `1.234,5` is " + one_sign, cell),
        ("1,5 kg;1;1", "column 1, quantity: `1,5 kg` is no number: a number "
         "stands without its unit", cell),
        ("1;1;1,234.5", "column 3, provision factor: `1,234.5` is " + one_sign,
         cell),
        ("12,5;1.5;1", "column 2, operation factor: `1.5` has a point, and "
         "`12,5` on line 2 a comma", "expected decimals behind a comma in all "
         "of a file, or behind a point in all"),
    ):
        found = posted("\n" + row)
        status, output, told = found
        told = "".join(line for line in told.splitlines(True)
                       if not line.startswith("note: "))
        check((status, output) == (1, "") and told.startswith(
            "standard input, line 2: " + what) and "\n    %s\n" % pack.shown(row)
            in told and expected + "\n" in told and told.endswith(
            "\nnothing is posted\n"), "a bad row", row, found)
    text = "1,2,3\n" + "x,2,3\n" * 11
    check(posted(text)[2].endswith("\nand 1 more bad line\nnothing is posted\n"),
          "many bad rows")
    # All of a file is judged, and those before a bad row are not posted.
    check(posted("1,2,3\n4,5\n,,x\n")[1:] == ("", """\
standard input, line 2: 2 columns, separated by `,`
    4,5
    %s
standard input, line 3: column 3, provision factor: `x` is neither a number \
nor a span
    ,,x
    %s
nothing is posted
""" % (three, cell)), "two bad rows", posted("1,2,3\n4,5\n,,x\n"))
    told = posted("1.5;2;3\n1,5;2;3\nx;2;3\n")[2]
    check([line.split(":")[0] for line in told.splitlines()
           if not line.startswith((" ", "note: "))]
          == ["standard input, line 1", "standard input, line 3",
              "nothing is posted"], "in the order of their lines", told)
    long_cell = "x" * 140_000
    check("line 2: it cannot be read as columns: field larger than field limit"
          in posted("1,2,3\n%s,1,1\n" % long_cell)[2], "a long cell")


def bad_files(check):
    for data, status, told in (
        (b"", 1, "there is no row in standard input\n"),
        (b"a,b,c\n", 1, "there is no row in standard input\n"),
        (b"\n;;\n", 1, "there is no row in standard input\n"),
        (b"PK\x03\x04", 1, "standard input cannot be read: it is a document of "
         "an office program; save it there as CSV\n"),
        (b"%PDF-1.4", 1, "standard input cannot be read: it is a PDF; rows are "
         "CSV\n"),
        (b"\x7fELF\0\n", 1, "- is no text; save it as plain text, in UTF-8\n"),
    ):
        found = posted(data)
        check(found[:2] == (status, "") and found[2].endswith(
            told + "nothing is posted\n"), "no rows", data, found)
    check(run("lines", WHARF, "none.csv", "1", "0") == (
        2, "", "none.csv cannot be read: No such file or directory\nnothing is "
        "posted\n"), "no file")
    check(run("lines", "none.txt", WHARF_SHEET, "1", "0") == (
        2, "", "none.txt cannot be read: No such file or directory\nnothing is "
        "posted\n"), "no book")
    check(run("lines", "-", "-", "1", "0") == (
        2, "", "the book and the rows cannot both be standard input\nnothing "
        "is posted\n"), "twice standard input")
    for place, told in (
        (("1",), "missing: group\n    expected lines with category and group"),
        (("all", "1"), "`all` after `category` is not a whole number\n    "
         "expected a whole number such as 12000000, 12_000_000 or 12,000,000; "
         "`category` is a number, from 1 on in their order"),
        (("1", "cold"), "`cold` after `group` is not a whole number, nor one of "
         "its words; did you mean `chilled`?\n    expected all (0), chilled (1) "
         "or frozen (2)"),
        (("1", "all", "3"), "`3` has no word before it that says what it is\n"
         "    expected lines with category and group"),
    ):
        found = posted("1,2,3", *place)
        check(found == (2, "", told + "\nnothing is posted\n"), "no place",
              found)
    check(run("lines", WHARF, WHARF_SHEET)[0] == 2, "no place at all")


def signs(check):
    """Signs that steer a terminal are not passed on."""
    sign = "\x1b[1mx"
    for words, text in (
        (("lines", WHARF, "-", "1", "0"), sign + ",2,3\n1,2,3\n1,a,3"),
        (("lines", WHARF, "-", "1", "0"), sign + ",a,b\n1,2,3"),
        (("lines", WHARF, "-", "1", sign), "1,2,3"),
        (("lines", WHARF, sign, "1", "0"), ""),
        (("lines", sign, WHARF_SHEET, "1", "0"), ""),
        (("lines", "-", WHARF_SHEET, "1", "0"), sign),
        (("lines", "-", WHARF_SHEET, "1", "0"), "open " + sign),
    ):
        found = "".join(run(*words, text=text.encode())[1:])
        check("\x1b" not in found and "<U+001B>[1mx" in found, "a sign", words,
              text, found)


# Books.

def books(check):
    """A text and a list of calls, and how one is told from the other."""
    hub, quote = "category kind hub\n", (
        "quote chain 7 mass 1 distance 1 operation 1 provision 1\n")
    for text, category, number in (
        (hub, 1, 1), ("# open\n\n" + hub, 1, 1), (quote + hub, 1, 1),
        ("name 7 Mills\n" + quote + hub, 1, 1), ("open hub", 1, 1),
        ("> open hub\ncategory 1: freight hub, open", None, None),
        ("  > open hub\n> line category 1 group all 1 2 3", 1, 2),
        (quote + "Open hub", 1, 1), ("name 7 Mills\nopen hub", 1, 1),
        ("load %s\nfresh\nopen 1\nopen 1" % DOCUMENT, 2, 1),
        ("open hub\nquit\nclose 1", 1, 1),
        ("open hub\nsave %s\nshow\nsheet\nhelp" % WHARF, 1, 1),
    ):
        with tempfile.NamedTemporaryFile("w", suffix=".csv") as file:
            file.write("1,2,3")
            file.flush()
            found = run("lines", "-", file.name, str(category or 1), "0",
                        text=text.encode())
        if number is None:
            check(found[:2] == (1, "") and "line 2: `category` is a record of a "
                  "book's text" in found[2], "a list with its answers", found)
            continue
        check(found == (0, """\
line  entry  quantity  operation mg  provision mg  operation t  provision t
   1  %5d     1_000         2_000         3_000     0.000002     0.000003
1 row: 1 posted as entry %d, none refused
""" % (number, number), ""), "a book", text, found)
    # Books and their lines beside the list.
    with tempfile.TemporaryDirectory() as folder:
        for name, text in (("book.txt", hub), ("list.txt", "load book.txt")):
            with open(os.path.join(folder, name), "w") as file:
                file.write(text)
        found = posted("1,2,3", book=os.path.join(folder, "list.txt"))
        check(found[0] == 0, "beside the list", found)


def bad_books(check):
    for text, status, told in (
        ("", 1, "there is no record in this text\n"),
        ("# none", 1, "there is no record in this text\n"),
        ("category kind 9x", 1, "-, line 1: `9x` after `kind` is not"),
        ("open 9x", 1, "-, line 1: `9x` after `kind` is not"),
        ("line category 1 group all 1 2 x", 1, "-, line 1: `x` is no word of "
                                               "`line`"),
        ("open 1 # a\ropen 2\nopne", 1, "note: -, line 1 has a carriage return "
                                        "inside"),
        ("category kind 1,000", 3, "note: -, line 1: `1,000` is read as 1000"),
        ("category kind 1\ncategory kind 9", 3, "-, line 2: category 2: there "
         "is no kind 9 (refused 3)\n    category kind 9\n    a kind is 1"),
    ):
        found = run("lines", "-", WHARF_SHEET, "1", "all", text=text.encode())
        check(found[:2] == (status, "") and told in found[2] and found[
            2].endswith("nothing is posted\n"), "a bad book", text, found)
    found = posted("1,2,3", "2", "all", book=CLASS)
    check(found[0] == 3 and found[1].endswith(
        "1 row: 1 posted as entry 6, none refused\n") and found[2] == "note: "
        "%s, 14 calls of the list are refused; `quay play` shows why\n" % CLASS,
        "refused calls of a list", found)
    with tempfile.NamedTemporaryFile("w") as file:
        file.write("open 9\nopen 1")
        file.flush()
        check(posted("1,2,3", book=file.name)[2] == "note: %s, 1 call of the "
              "list is refused; `quay play` shows why\n" % file.name, "one")


# Answers.

def refused_rows(check):
    found = posted("1,2,3\n,5..3,\n4,,5\n", book=DOCUMENT)
    check(found == (3, """\
   1  refused 4: category 1 (line 13) is closed
          its emissions are handed out, and it takes no more entries, elements \
or strikes; take `close` off line 13
   2  refused 15: the quantity is blank
          expected 0 to 1_000_000_000 units
          the provision factor is blank: expected 0 to 10_000_000 g CO2e per \
unit
   3  refused 15: the operation factor is blank
          expected 0 to 10_000_000 g CO2e per unit
3 rows: none posted, 3 refused
""", ""), "in a closed category", found)
    found = posted("1,2,3\n1,2,3\n", "1", "all", book=CLASS)[1]
    check(found == """\
   1  refused 4: category 1 is closed
          its emissions are handed out, and it takes no more entries, elements \
or strikes; leave its closing out of the list, or out of the book that it loads
   2  refused 4, as line 1
2 rows: none posted, 2 refused
""", "closed by a list", found)
    for place, told in ((("9", "0"), "refused 2: there is no category 9\n"),
                        (("1", "9"), "refused 3: there is no group 9\n")):
        found = posted("1,2,3", *place)
        check(found[0] == 3 and "   1  " + told in found[1], "a place", found)
    # More rows than the list of entries has room for, and more lines than
    # four digits count.
    status, output, told = posted("\n" * 9_935 + "1,2,3\n" * 66)
    lines = output.splitlines()
    check(status == 3 and lines[0].startswith(" line  entry ")
          and lines[1].startswith(" 9936      1 ")
          and lines[64].startswith(" 9999     64 ") and lines[65:] == [
              "10000  refused 8: no room for another entry",
              "           a book has room for 64 entries, struck ones too",
              "10001  refused 8, as line 10000",
              "66 rows: 64 posted as entries 1 to 64, 2 refused"],
          "a full list", lines[-5:])


def differences(check):
    """Programs that are not there, or that answer otherwise, in any row."""
    def missing(data):
        raise Unavailable("not built")
    check(posted("1,2,3", programs=Programs(missing, missing))
          == (2, "", "not built\n"), "not built")
    rows = "1,2,3\n4,,6\n7,8,9\n"
    check(posted(rows)[0] == 3, "the same")
    for old, new, what in (
        (b"\n0 1\n", b"\n0 2\n", "replay answers `0 2` to `line 1 0 1 2 3`"),
        (b"\n15 0\n", b"\n16 0\n", "replay answers `16 0` to `line 1 0 4 - 6`"),
        (b"\n15 0\n", b"\n0 2\n", "replay answers `0 2` to `line 1 0 4 - 6`"),
        (b"\n0 2\n", b"\n15 0\n", "replay answers `15 0` to `line 1 0 7 8 9`"),
        (b"\n0 2\n", b"\n", "replay answers the same calls in another way"),
        (b" 56000000 63000000 ", b" 56000000 63000001 ",
         "after `line 1 0 7 8 9` replay shows 63000001 in the book's entry 2, "
         "provision, and 63000000 is reckoned here"),
        (b" 2000000 3000000 ", b" 2000001 3000000 ",
         "after `line 1 0 1 2 3` replay shows 2000001 in the book's entry 1"),
    ):
        replay = calculated().replay
        status, output, told = posted(rows, programs=Programs(
            None, lambda data: replay(data).replace(old, new)))
        check((status, output) == (4, "") and what in told, "loudly", told)


def run_all(check):
    example(check)
    as_entries(check)
    forms(check)
    halves(check)
    headings(check)
    bad_rows(check)
    bad_files(check)
    signs(check)
    books(check)
    bad_books(check)
    refused_rows(check)
    differences(check)
