"""What the checks of `quay` have in common: the separate calculation in the
place of the proved programs, runs of the command, and texts."""

import io
import os
from unittest import mock

from calculation import player
from calculation.book import PASSENGER_CODES
from calculation.sheet import sheet
from cases.make_cases import ROOT
from command import main
from command.ledger import EXAMINED
from command.programs import Differs, Programs

EXAMPLES = os.path.join(ROOT, "examples")
DOCUMENT = os.path.join(EXAMPLES, "document.txt")
VOYAGE = os.path.join(EXAMPLES, "voyage.txt")
CLASS = os.path.join(EXAMPLES, "class.txt")
TWO_LISTS = os.path.join(EXAMPLES, "two-lists.txt")
BOARD = os.path.join(EXAMPLES, "board.txt")
FERRY = os.path.join(EXAMPLES, "ferry.txt")
WHARF = os.path.join(EXAMPLES, "wharf.txt")
WHARF_SHEET = os.path.join(EXAMPLES, "wharf-sheet.csv")


def stored(*names):
    """The text of a file of the repository."""
    with open(os.path.join(ROOT, *names), encoding="utf-8") as file:
        return file.read()


class Replay:
    """The separate calculation in the place of `replay`. A list that goes on
    where the last one ended before its dump is not played again."""

    def __init__(self):
        self.data = b""
        self.player = player.Player()

    def __call__(self, data):
        if not data.startswith(self.data):
            self.__init__()
        for start in range(len(self.data), len(data), player.RECORD.size):
            self.player.play(data[start:start + player.RECORD.size])
        self.player.end()
        output = self.player.output()
        if data.endswith(EXAMINED) and not self.player.ended:
            data = data[:-len(EXAMINED)]
            self.player.lines.pop()
        self.data = data
        return output


def calculated():
    """The separate calculation in the place of the proved programs."""
    return Programs(sheet, Replay())


CALCULATED = calculated()


def run(*words, text=b"", programs=CALCULATED):
    """The exit status, the output and the messages of the command."""
    streams = [io.TextIOWrapper(io.BytesIO(data), encoding="utf-8")
               for data in (text, b"", b"")]
    with mock.patch("sys.stdin", streams[0]), \
            mock.patch("sys.stdout", streams[1]), \
            mock.patch("sys.stderr", streams[2]):
        try:
            status = main.main(list(words), programs)
        except SystemExit as end:
            status = end.code
    for stream in streams[1:]:
        stream.flush()
    return (status, *[stream.buffer.getvalue().decode()
                      for stream in streams[1:]])


def text_of(categories, entries, elements):
    """The text that is packed into these records."""
    lines = ["category kind %d close %d" % record for record in categories]
    lines += ["entry category %d group %d quantity %d operation %d "
              "provision %d" % record for record in entries]
    lines += ["element category %d chain %d code %d %s %d amount %d "
              "distance %d operation %d provision %d" % (
                  *record[:3], fourth_word(*record[:3]), *record[3:])
              for record in elements]
    return "\n".join(lines)


def fourth_word(category, chain, code):
    """The word for the field that has the kg per head of passengers."""
    return "kg" if category != 0 and code in PASSENGER_CODES else "adjust"


def tells_difference(check, what, act, *arguments):
    """The act raises Differs, which says what."""
    try:
        act(*arguments)
    except Differs as differs:
        check(what in str(differs), "what differs", what, differs)
    else:
        check(False, "no difference is told", what)
