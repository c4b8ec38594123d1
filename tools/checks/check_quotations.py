#!/usr/bin/env python3
"""Checks that quotation marks hold the papers' own words alone.

    python3 tools/checks/check_quotations.py PAPER..

PAPER are the papers as text: the demands, document 01, document 02. Looks at
the comments of the definitions, the code and the proofs, and at
docs/TRACE.md, where a column headed `sentence` holds quotations too. In a
quotation `..` stands for words that are left out; what is around it stands in
one paper, in this order. Prints `path:line: text` for each quotation that
stands in no paper, and last how many there are of each sort; exit status 1
where one was not found.
"""

import glob
import os
import re
import sys

ROOT = os.path.dirname(os.path.dirname(os.path.dirname(
    os.path.abspath(__file__))))

# The files whose comments are looked at, and how their comments begin.
COMMENTED = (("crates/*/specs/**/*.antt", "--"),
             ("crates/*/src/**/*.rt", "//"),
             ("crates/*/proofs/**/*.antt", "--"))
TRACE = "docs/TRACE.md"

# What the programs print, as the definitions of their bytes spell it.
PRINTED = ("chain ", "elements ", "waiting ", "operation ", "provision ",
           "total", "bad record ")

UNPAIRED = "a quotation mark without its pair"


# The papers.

def plain(text):
    """Without Markdown's marks, and with one space for each line's break."""
    return " ".join(re.sub("[*`]", "", text).split())


def whole_words(part):
    """A pattern for these words that does not begin or end inside a word or
    a number."""
    before = r"(?<!\w)(?<!\d[,.])" if re.match(r"\w", part[0]) else ""
    after = r"(?!\w)(?![,.]\d)" if re.match(r"\w", part[-1]) else ""
    return before + re.escape(part) + after


def stands_in(quotation, papers):
    parts = [plain(part) for part in quotation.split("..")]
    pattern = ".*?".join(whole_words(part) for part in parts if part)
    return pattern != "" and any(re.search(pattern, paper)
                                 for paper in papers)


# Texts: pairs of the number of a line and the text that begins there.

def runs(lines):
    """The text of each run of lines; None is a line between two runs."""
    run = []
    for number, line in enumerate([*lines, None], 1):
        if line is not None:
            run.append(line)
        elif run:
            yield number - len(run), "\n".join(run)
            run = []


def comment_of(line, mark):
    """What a line has after its mark, None without a comment."""
    code, found, comment = (" " + line).partition(" " + mark)
    return comment.strip() if found and code.count('"') % 2 == 0 else None


def rows(lines):
    return [(number, line) for number, line in enumerate(lines, 1)
            if line.startswith("|")]


def paragraphs(lines):
    """Not those that are indented blocks, and not tables."""
    return runs(None if line.strip() == "" or line.startswith(("    ", "|"))
                else line for line in lines)


def without_marks_in_code(text):
    """Quotation marks between backticks are none of the text."""
    return re.sub("`[^`]*`", lambda code: code[0].replace('"', " "), text)


# Quotations: pairs of the number of a line and the words that begin there.

def quotations_in(texts):
    """What stands in quotation marks; None for a mark without its pair."""
    for first, text in texts:
        for match in re.finditer('"([^"]*)("?)', text):
            number = first + text.count("\n", 0, match.start())
            yield number, match[1] if match[2] else None


def sentences(lines):
    """The first column of each table whose heading it is, but for the rows in
    italics."""
    before = heading = None
    for number, line in rows(lines):
        cell = line.split("|")[1].strip()
        if before is None or number > before + 1:
            heading = cell
        elif (heading == "sentence" and cell.strip("-") != ""
              and not re.fullmatch(r"\*[^*]+\*", cell)):
            yield number, cell
        before = number


def quotations_of_comments(lines, mark):
    return quotations_in(runs(comment_of(line, mark) for line in lines))


def quotations_of_trace(lines):
    texts = [(number, without_marks_in_code(text))
             for number, text in [*rows(lines), *paragraphs(lines)]]
    return sorted([*sentences(lines), *quotations_in(texts)],
                  key=lambda quotation: quotation[0])


def lines_of(path):
    with open(os.path.join(ROOT, path), encoding="utf-8") as file:
        return file.read().split("\n")


def all_quotations():
    """(path, line, words) of every quotation."""
    for pattern, mark in COMMENTED:
        for path in sorted(glob.glob(os.path.join(ROOT, pattern),
                                     recursive=True)):
            path = os.path.relpath(path, ROOT)
            for quotation in quotations_of_comments(lines_of(path), mark):
                yield path, *quotation
    for quotation in quotations_of_trace(lines_of(TRACE)):
        yield TRACE, *quotation


def papers_from(paths):
    papers = []
    for path in paths:
        with open(path, encoding="utf-8") as file:
            papers.append(plain(file.read()))
    return papers


def main(arguments):
    if not arguments:
        print("usage: check_quotations.py PAPER..", file=sys.stderr)
        return 2
    try:
        papers = papers_from(arguments)
    except OSError as error:
        print("a paper cannot be read: %s" % error, file=sys.stderr)
        return 2
    found = printed = missing = 0
    for path, number, words in all_quotations():
        if words in PRINTED:
            printed += 1
        elif words is not None and stands_in(words, papers):
            found += 1
        else:
            missing += 1
            print("%s:%d: %s" % (path, number,
                                 UNPAIRED if words is None else plain(words)))
    print("%d quotations: %d found, %d the programs' own output, %d not found"
          % (found + printed + missing, found, printed, missing))
    return 1 if missing else 0


if __name__ == "__main__":
    sys.exit(main(sys.argv[1:]))
