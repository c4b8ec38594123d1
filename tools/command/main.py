"""The command `quay`."""

import argparse
import os
import sys

import pack
from command import explaining, playing, posting, sheets
from command.amounts import counted
from command.fields import CHAIN, NUMBER, Wrong, listed, number_of, shown
from command.programs import PROVED, Differs, Unavailable
from command.rows import Rows
from command.texts import (
    NoFile, Unreadable, carriage_returns, lines_of, read)

MOST_NAMES = 20  # that are told where a chain's name is none of them

# Exit statuses.
DONE, BAD_TEXT, CANNOT, REFUSED, DIFFERENT = range(5)

ABOUT = """\
The door to Quaymeter, a proved ledger of transport emissions. Its numbers come
from the proved programs; what is reckoned to explain them is compared.

    quay sheet examples/document.txt             the sheet, in µg CO2e
    quay sheet --tonnes examples/voyage.txt      a table in tonnes
    quay sheet --csv --tonnes examples/voyage.txt > sheet.csv
    quay explain examples/document.txt 7         how chain 7's shares came about
    quay play                                    calls, typed one after another
    quay play examples/class.txt                 a list of calls with its answers
    quay lines examples/wharf.txt examples/wharf-sheet.csv 1 all
                                                 rows of an old workbook

`quay sheet --help`, `quay play --help` and so on say more.
A book's text is told in docs/BOOKS.md. 10^12 µg are 1 t.
"""

STATUSES = """\
Exit status: 0 done; 1 the text is bad; 2 it cannot be done: the command is not
understood, no such file or chain, the programs are not built, the output
cannot be written; 3 the ledger refuses (what is typed at the prompt ends with
0); 4 a program and what is reckoned here differ.
"""

SHEET = """\
Packs a book's text, runs `quaymeter` and prints its sheet as it is: a line for
each chain with its elements, how many of them wait in categories that are not
closed, and its operation, provision and total emissions in µg CO2e. The last
line, `all`, has the sums of all chains.

A bad line, or the record that the ledger refuses, is told with its line and
what to look at, and no sheet is printed. `name 7 Harbour Mills` in the text
names chain 7 in the table and for the spreadsheet. What is told beside a sheet
(who waits, and for what) goes to standard error, but under a table.
"""

PLAY = """\
Plays calls in words, one a line, from a list or typed at a prompt. Each is
answered in words; a refused call changes nothing and can be tried again. Only
`fresh` and `load` begin a book anew, a `load` also where it stops at a record.

    open freight
    post category 1 group all quantity 12_000_000 operation 3_220_000 provision 560_000
    enrol category 1 chain 7 code ambient amount 1_000 distance 300_000
    enrol category 2 chain 9 code lowest amount 40 distance 300_000 kg 78
    quote chain 7 mass 1_000 distance 500_000 operation 62_000 provision 10_000
    line category 1 group all quantity 12.5 operation 3.1..3.4 provision 0.56
    strike 1
    preview 1
    close 1
    statement 7
    intensity 1 ambient
    name 7 Harbour Mills
    fresh
    load examples/voyage.txt
    show
    sheet
    save class.txt

`help` at the prompt tells each word, `help post` how a post is written. In a
list `#` begins a comment; a list with a bad line is not played, and one in
which a call is refused ends with status 3. A book is looked for where you are,
and beside the list.
"""

EXPLAIN = """\
Shows how a chain's shares came about, element by element: what is divided, by
what, the exact share, floor and remainder, which remainders the µg left over
go to, and the sum, for operation and for provision; and how a quote was
rounded, to the nearest µg and from a half to the even number. Each result is
compared with that of the proved program.
"""

LINES = """\
Posts the rows of an old workbook (the Wharf Sheet) to a category of a book, for
a group: all, chilled or frozen. A row has three columns, the quantity in units
and the operation and the provision factor in g CO2e per unit. Each is a number,
a span of two numbers as 3.1..3.4, or blank:

    1250.5,2510,620
    0.5..0.75,1430000,0

A number becomes the nearest whole thousandth of the exact value of its double,
and a span the mean of its two; a half goes to the even number. The row is then
posted. A blank cell is refused. Each row is answered by the number of its line
in the file.

The columns are separated by `,`, or by `;` or tabs, and then decimals may stand
behind a comma. Rows without any cell are passed over, and so is a heading. Where
a row is not in this form, that is told and nothing is posted.

The book is a book's text or a list of calls, and is not changed: `--entries`
prints the rows as lines to be put into it.
"""

# What did not come about, by the command.
ENDINGS = {"sheet": "no sheet is printed", "explain": "nothing is explained",
           "play": "nothing is played", "lines": "nothing is posted"}

WELCOME = """\
A fresh book. Type a call, such as `open freight`; `help` tells the words,
`quit` ends."""


def arguments_of(words):
    """The arguments of the command."""
    form = argparse.RawDescriptionHelpFormatter
    main = argparse.ArgumentParser("quay", description=ABOUT,
                                   epilog=STATUSES, formatter_class=form)
    commands = main.add_subparsers(dest="command", metavar="COMMAND")

    def command(name, about, short, usage=None):
        return commands.add_parser(name, help=short, description=about,
                                   epilog=STATUSES, formatter_class=form,
                                   usage=usage)

    sheet = command("sheet", SHEET, "the sheet of a book")
    sheet.add_argument("book", metavar="BOOK.txt",
                       help="a book's text; - for standard input")
    sheet.add_argument("--tonnes", action="store_true",
                       help="a table in tonnes, exact, with chains' names")
    sheet.add_argument("--csv", action="store_true",
                       help="comma-separated, for a spreadsheet")
    play = command("play", PLAY, "calls and their answers")
    play.add_argument("calls", metavar="CALLS.txt", nargs="?",
                      help="a list of calls; without it they are typed")
    explain = command("explain", EXPLAIN, "how a chain's shares came about")
    explain.add_argument("book", metavar="BOOK.txt",
                         help="a book's text; - for standard input")
    explain.add_argument("chain", metavar="CHAIN", nargs="+",
                         help="a chain's number, or its name in the text")
    lines = command("lines", LINES, "rows of an old workbook, posted",
                    "quay lines [-h] [--entries] BOOK.txt ROWS.csv CATEGORY "
                    "GROUP")
    lines.add_argument("book", metavar="BOOK.txt",
                       help="a book's text, or a list of calls; - for "
                            "standard input")
    lines.add_argument("rows", metavar="ROWS.csv",
                       help="the rows of the workbook; - for standard input")
    lines.add_argument("place", metavar="CATEGORY GROUP", nargs="+",
                       help="where they are posted, as in `1 all`")
    lines.add_argument("--entries", action="store_true",
                       help="the rows as lines for the book")
    arguments, more = main.parse_known_args(words)
    if more:
        # Told by the command itself, with its own usage.
        commands.choices.get(arguments.command, main).error(
            "not understood: %s" % shown(" ".join(more)))
    if arguments.command is None:
        main.print_help()
    return arguments


def say(*lines, stream=None):
    """Lines of the output. Where nobody reads on, the rest goes nowhere."""
    stream = stream or sys.stdout
    try:
        for line in lines:
            print(line, file=stream)
        stream.flush()
    except BrokenPipeError:
        write_no_more(stream)


def tell(*lines):
    """Lines of messages."""
    say(*lines, stream=sys.stderr)


def write_no_more(stream):
    """What is left in a stream's buffer, and what comes, goes nowhere."""
    os.dup2(os.open(os.devnull, os.O_WRONLY), stream.fileno())


# The commands. Each returns the exit status.

def content_of(path):
    return read(None if path == "-" else path)


def book_text(arguments):
    return checked_text(content_of(arguments.book), arguments.book,
                        ENDINGS[arguments.command])


def checked_text(content, path, ending, source=""):
    """The text of a book without bad lines, None where it has some or no
    record."""
    text = pack.Text(content)
    if not text.is_text():
        tell(pack.NO_TEXT % shown(path), ending)
        return None
    if text.is_empty() and not text.problems:
        tell(pack.NO_RECORD, "    %s; docs/BOOKS.md tells how they are written"
             % pack.EXPECTED_RECORD, ending)
        return None
    return text if is_good(text, source, ending) else None


def is_good(content, source, ending):
    """Whether no line of it is bad. Its notes and its bad lines are told."""
    for note in content.notes:
        tell("note: " + source + note)
    if content.problems:
        tell(*pack.report(content.problems, source, ending))
    return not content.problems


def sheet(arguments, programs):
    text = book_text(arguments)
    if text is None:
        return BAD_TEXT
    made = sheets.Sheet(programs, text)
    remarks = list(sheets.remarks_of_text(made))
    if arguments.csv:
        # In UTF-8, with a byte order mark where it is more than ASCII.
        lines = sheets.comma_separated(made, arguments.tonnes)
        is_ascii = all(map(str.isascii, lines))
        sys.stdout.reconfigure(encoding="ascii" if is_ascii else "utf-8-sig")
        say(*lines)
        tell(*sheets.long_numbers(made))
    elif arguments.tonnes:
        say(*sheets.table(made.shown_rows, text.names), *remarks)
        remarks = []
    else:
        say(*made.printed.splitlines())
    tell(*remarks, *sheets.unused_names(made))
    return DONE


def explain(arguments, programs):
    text = book_text(arguments)
    if text is None:
        return BAD_TEXT
    ledger = sheets.Sheet(programs, text).ledger
    try:
        chain = chain_of(text, " ".join(arguments.chain).strip())
        lines = explaining.explanation(text, ledger, chain)
    except explaining.NoChain as none:
        tell(none)
        return CANNOT
    say(*lines)
    return DONE


def chain_of(text, word):
    """The number of a chain, which may be given by its name."""
    if NUMBER.fullmatch(word):
        try:
            return number_of(word, CHAIN)
        except Wrong as wrong:
            raise explaining.NoChain(wrong.args[0])
    chains = [chain for chain, name in sorted(text.names.items())
              if name.lower() == " ".join(word.split()).lower()]
    if len(chains) == 1:
        return chains[0]
    if chains:
        raise explaining.NoChain("`%s` is the name of the chains %s: give a "
                                 "number" % (shown(word),
                                             listed(list(map(str, chains)))))
    names = [name for _, name in sorted(text.names.items())]
    if len(names) > MOST_NAMES:
        names[MOST_NAMES:] = ["..."]
    raise explaining.NoChain("no chain of this book has the name `%s`%s" % (
        shown(word), "; it has %s" % ", ".join(names) if names else ""))


def checked_requests(lines, path, ending, source=""):
    """The requests of a list without bad lines, None where it has some or no
    call."""
    requests, problems = playing.requests_of(
        lines, os.path.dirname(path) if path else "")
    tell(*["note: " + source + note for note in carriage_returns(lines)])
    if problems and any("\0" in line for line in lines):
        tell(pack.NO_TEXT % shown(path or "standard input"), ending)
        return None
    if problems:
        tell(*pack.report(problems, source, ending))
        return None
    if not any(requests):
        tell("there is no call in this list", ending)
        return None
    return requests


def play(arguments, programs):
    if arguments.calls is None and sys.stdin and sys.stdin.isatty():
        return play_typed(playing.Session(programs))
    path = None if arguments.calls in (None, "-") else arguments.calls
    lines = lines_of(read(path))
    requests = checked_requests(lines, path, ENDINGS["play"])
    if requests is None:
        return BAD_TEXT
    session = playing.Session(programs)
    for line in playing.transcript(session, lines, requests):
        say(line)
    return (CANNOT if session.unsaved else REFUSED if session.refused
            else DONE)


def play_typed(session):
    """Calls at a prompt, to the end of the input or `quit`."""
    try:
        import readline  # the prompt then remembers lines
    except ImportError:
        pass
    say(WELCOME)
    while True:
        try:
            request = playing.request_of(input("> "))
        except Wrong as wrong:
            say(wrong.args[0], "    " + wrong.args[1])
            continue
        except KeyboardInterrupt:
            say("")
            continue
        except EOFError:
            say("")
            return DONE
        if request is None:
            continue
        if request.word == "quit":
            return DONE
        say(*session.answer(request))


def lines(arguments, programs):
    ending = ENDINGS[arguments.command]
    try:
        category, group = posting.place_of(arguments.place)
    except Wrong as wrong:
        tell(wrong.args[0], "    " + wrong.args[1], ending)
        return CANNOT
    if arguments.book == arguments.rows == "-":
        tell("the book and the rows cannot both be standard input", ending)
        return CANNOT
    path = arguments.book
    source = shown(path) + ", "
    content = content_of(path)
    is_list = posting.is_list(lines_of(content))
    made_by = (checked_requests(lines_of(content), path, ending, source)
               if is_list else checked_text(content, path, ending, source))
    rows = made_by and checked_rows(arguments.rows, ending)
    if not rows:
        return BAD_TEXT
    book = (posting.book_of_list(programs, made_by) if is_list
            else posting.book_of_text(programs, made_by, source))
    answers = list(posting.played(book, category, group, rows))
    if arguments.entries:
        say(*posting.in_lines(answers, book.word, category, group,
                              shown(os.path.basename(arguments.rows))))
    else:
        say(*posting.table(answers), *posting.remarks(answers))
    if book.refused:
        tell("note: %s%s refused; `quay play` shows why" % (source, counted(
            book.refused, "call of the list is", "calls of the list are")))
    return (REFUSED if book.refused or any(answer.refused
                                           for answer in answers) else DONE)


def checked_rows(path, ending):
    """The rows of a file without bad ones, None where it has some or no row.
    """
    rows = Rows(read(None if path == "-" else path, "rows are", "CSV"))
    source = shown("standard input" if path == "-" else path) + ", "
    if not rows.is_text():
        tell(pack.NO_TEXT % shown(path), ending)
        return None
    if not is_good(rows, source, ending):
        return None
    if not rows.rows:
        tell("there is no row in %s" % source.rstrip(", "), ending)
        return None
    return rows.rows


COMMANDS = {"sheet": sheet, "play": play, "explain": explain, "lines": lines}


def run(words, programs):
    """The exit status of a command; OSError where its output cannot be
    written."""
    arguments = arguments_of(["--help"] if words == ["help"] else words)
    if arguments.command is None:
        return CANNOT
    try:
        return COMMANDS[arguments.command](arguments, programs)
    except sheets.RefusedFile as refused:
        tell(*refused.args[0], ENDINGS[arguments.command])
        return REFUSED
    except Unreadable as error:
        tell(error, ENDINGS[arguments.command])
        return CANNOT if isinstance(error, NoFile) else BAD_TEXT
    except Unavailable as error:
        tell(error)
        return CANNOT
    except Differs as error:
        tell("!" * 70, "THE PROVED PROGRAM AND WHAT IS RECKONED HERE DIFFER:",
             error, "Trust neither before this is cleared up.", "!" * 70)
        return DIFFERENT


def main(words, programs=PROVED):
    if sys.stdout is None or sys.stderr is None:
        return CANNOT  # there is nobody to tell
    for stream in (sys.stdout, sys.stderr):
        stream.reconfigure(errors="replace")
    try:
        try:
            status = run(words, programs)
        except SystemExit as end:
            status = end.code
        sys.stdout.flush()
        return status
    except KeyboardInterrupt:
        return CANNOT
    except OSError as error:
        write_no_more(sys.stdout)
        try:
            tell("the output cannot be written: %s" % error.strerror)
        except OSError:
            write_no_more(sys.stderr)
        return CANNOT
