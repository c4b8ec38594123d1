#!/usr/bin/env python3
"""What the program quaymeter prints for a file, by the separate calculation.

    python3 tools/calculation/sheet.py < file

Written from document 01, and its last line from document 02. Sentences in
quotation marks are their own.
"""

import os
import sys

sys.path.insert(0, os.path.dirname(os.path.dirname(os.path.abspath(__file__))))

from calculation import book, calls, loading

HEADING = "chain elements waiting operation provision total"
ALL = "all"


def sheet_lines(data):
    """"The program reads standard input and prints the heading and one line
    per used chain, ascending, or `refused` with number, table (0 header) and
    record (0). A refused file prints that line only"; behind the chains
    comes the class total, and "a refused file prints as before".
    """
    words = [0] * book.LENGTH
    numbers = loading.load(words, data)
    if numbers != loading.LOADED:
        return [line("refused", *numbers)]
    return [HEADING, *[chain_line(words, chain)
                       for chain in used_chains(words)],
            line(ALL, *class_total(words))]


def used_chains(words):
    return sorted({element.chain for element in book.Book(words).elements})


def chain_line(words, chain):
    """The chain, then its statement."""
    _, *statement = calls.make("statement", words, chain)
    return line(chain, *statement)


def class_total(words):
    """"Instructors want the printed statement to end with `all` and five
    sums: elements, waiting, operation, provision, total. They must equal the
    sums over the book's element records."
    """
    held = book.Book(words)
    return calls.sums_over(held, held.elements)


def line(*cells):
    return " ".join(map(str, cells))


def sheet(data):
    """The printed bytes; each line ends in one newline."""
    return "".join(text + "\n" for text in sheet_lines(data)).encode("ascii")


if __name__ == "__main__":
    sys.stdout.buffer.write(sheet(sys.stdin.buffer.read()))
