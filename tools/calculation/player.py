#!/usr/bin/env python3
"""Plays a list of records by the separate calculation.

    python3 tools/calculation/player.py < stdin > stdout

A record is 64 bytes: eight little-endian 64-bit words, the operation and
seven arguments. An operation ignores the arguments that it does not use.

The bytes of a file that is to be loaded come in the records after the one
that says so, the last of them padded to a whole record. The cells of a line
come in the records before it.
"""

import os
import struct
import sys

sys.path.insert(0, os.path.dirname(os.path.dirname(os.path.abspath(__file__))))

from calculation import calls, dividing, loading

RECORD = struct.Struct("<8Q")

MOST_LISTED = 300  # room in the list of weights, and the longest share slice
MOST_PAIRED = 600  # the longest pair slice
UNWRITTEN = 7      # what every word of either slice holds before the call
MOST_WORDS = 3000  # the array that the book lies in
MOST_BYTES = 16_448  # of a file: one record more than a file may have
MOST_CELLS = 3     # room in the list of cells: those of a line


class BadRecord(Exception):
    """The record is none that can be played."""


class State:
    """What one record leaves for the next."""

    def __init__(self):
        self.weights = []
        self.words = [0] * MOST_WORDS
        self.lent = MOST_WORDS  # how many of the words a call gets
        self.file = None        # the file whose bytes are still coming
        self.cells = ()         # those listed for the next line


class ComingFile:
    """The bytes of a file so far."""

    def __init__(self, length):
        self.length = length
        self.come = b""

    def is_whole(self):
        return len(self.come) >= self.length

    def data(self):
        """Its bytes without the padding."""
        return self.come[:self.length]


# Each operation takes the state and the seven arguments. It returns the
# numbers of its line, or None where it prints nothing.

def used_arguments(name, arguments):
    """Those of the seven that a call uses."""
    return arguments[:calls.CALLS[name].arguments]


def with_cells(operation, arguments, cells):
    """The arguments of an operation; a line's are two of the seven and the
    listed cells."""
    return (*arguments[:2], *cells) if operation == LINE else arguments


def call_of_book(name):
    """The operation that makes a call on the lent words."""
    def operation(state, arguments):
        lent = state.words[:state.lent]
        numbers = calls.make(name, lent, *used_arguments(name, arguments))
        state.words[:state.lent] = lent
        return numbers
    return operation


def cell_of(arguments):
    """The cell of a form and the bits of two doubles."""
    form, *bits = arguments[:3]
    if form > 2:
        raise BadRecord
    return tuple(bits[:form])


def list_cell(state, arguments):
    if len(state.cells) == MOST_CELLS:
        raise BadRecord
    state.cells += (cell_of(arguments),)
    return None


def line(state, arguments):
    """Makes the call, and no cells are listed after it."""
    if len(state.cells) != MOST_CELLS:
        raise BadRecord
    arguments = with_cells(LINE, arguments, state.cells)
    state.cells = ()
    return call_of_book("line")(state, arguments)


def preview(state, arguments):
    """Shows the whole pair slice, also what is not written of it."""
    pair_length = arguments[1]
    if pair_length > MOST_PAIRED:
        raise BadRecord
    numbers = call_of_book("preview")(state, arguments)
    return with_unwritten(numbers, pair_length)


def with_unwritten(numbers, pair_length):
    """The refusal number of a preview and its whole pair slice."""
    return numbers + [UNWRITTEN] * (1 + pair_length - len(numbers))


def divide(state, arguments):
    pool, share_count = arguments[:2]
    if share_count > MOST_LISTED:
        raise BadRecord
    refusal, shares = dividing.divide(pool, state.weights, share_count)
    if shares is None:
        shares = [UNWRITTEN] * share_count
    state.weights = []
    return [refusal] + shares


def append_weight(state, arguments):
    if len(state.weights) == MOST_LISTED:
        raise BadRecord
    state.weights.append(arguments[0])
    return None


def poke(state, arguments):
    index, value = arguments[:2]
    if index >= MOST_WORDS:
        raise BadRecord
    state.words[index] = value
    return None


def lend(state, arguments):
    if arguments[0] > MOST_WORDS:
        raise BadRecord
    state.lent = arguments[0]
    return None


def dump(state, arguments):
    first, count = arguments[:2]
    if first + count > MOST_WORDS:
        raise BadRecord
    return state.words[first:first + count]


def load(state, arguments):
    if arguments[0] > MOST_BYTES:
        raise BadRecord
    state.file = ComingFile(arguments[0])
    return load_whole_file(state)


def take_bytes(state, record):
    """A record of bytes, while a file is coming."""
    state.file.come += record
    return load_whole_file(state)


def load_whole_file(state):
    """Loads the file when all its bytes have come."""
    if not state.file.is_whole():
        return None
    lent = state.words[:state.lent]
    numbers = loading.load(lent, state.file.data())
    state.words[:state.lent] = lent
    state.file = None
    return list(numbers)


FRESH, OPEN, POST, STRIKE, ENROL, QUOTE, CLOSE = 1, 2, 3, 4, 5, 6, 7
STATEMENT = 8
INTENSITY = 9
DIVIDE = 10
APPEND_WEIGHT = 11
POKE = 12
LEND = 13
DUMP = 14
LOAD = 15
CELL = 16
LINE = 17
PREVIEW = 18

# The operations that are calls of a book.
CALLS = {
    FRESH: "fresh",
    OPEN: "open",
    POST: "post",
    STRIKE: "strike",
    ENROL: "enrol",
    QUOTE: "quote",
    CLOSE: "close",
    STATEMENT: "statement",
    INTENSITY: "intensity",
    LINE: "line",
    PREVIEW: "preview",
}

OPERATIONS = {
    **{operation: call_of_book(name) for operation, name in CALLS.items()},
    DIVIDE: divide,
    APPEND_WEIGHT: append_weight,
    POKE: poke,
    LEND: lend,
    DUMP: dump,
    LOAD: load,
    CELL: list_cell,
    LINE: line,
    PREVIEW: preview,
}


def play_record(state, record):
    """The numbers that one record prints, or None."""
    if len(record) != RECORD.size:
        raise BadRecord
    if state.file is not None:
        return take_bytes(state, record)
    words = RECORD.unpack(record)
    if words[0] not in OPERATIONS:
        raise BadRecord
    return OPERATIONS[words[0]](state, words[1:])


class Player:
    """Plays records one after another, up to a bad one."""

    def __init__(self):
        self.state = State()
        self.lines = []
        self.played = 0
        self.ended = False

    def play(self, record):
        """Plays one record: the numbers that it prints, or None."""
        if self.ended:
            return None
        self.played += 1
        try:
            numbers = play_record(self.state, record)
        except BadRecord:
            self.end_badly(self.played)
            return None
        if numbers is not None:
            self.lines.append(" ".join(map(str, numbers)) + "\n")
        return numbers

    def end_badly(self, number):
        self.ended = True
        self.lines.append("bad record %d\n" % number)

    def end(self):
        """The input ends here. Where bytes of a file have not come, the
        record that did not come is a bad one."""
        if not self.ended and self.state.file is not None:
            self.end_badly(self.played + 1)

    def output(self):
        return "".join(self.lines).encode("ascii")


def play(data):
    """The output bytes for the input bytes."""
    player = Player()
    for start in range(0, len(data), RECORD.size):
        player.play(data[start:start + RECORD.size])
        if player.ended:
            break
    player.end()
    return player.output()


if __name__ == "__main__":
    sys.stdout.buffer.write(play(sys.stdin.buffer.read()))
