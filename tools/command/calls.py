"""The calls in words: how a line of a list of calls is written."""

from collections import namedtuple

from command.cells import FIELDS as CELL_FIELDS
from command.fields import (
    CATEGORY, CHAIN, Wrong, given_numbers, meant, needed, record_numbers, shown)
from pack import RECORD_OF_CALL, RECORDS

# A call: its fields in the order of its arguments, the fields that may stand
# without their words, an example, and whether these fields stand so together
# or not at all.
Form = namedtuple("Form", "fields bare example together", defaults=(False,))


def fields_of(record, *words):
    """Fields of a book's record, by their words."""
    by_word = {field.word: field for field in RECORDS[record].fields}
    return tuple(by_word[word] for word in words)


CALLS = {
    "open": Form(fields_of("category", "kind"), ("kind",), "open freight"),
    "post": Form(
        RECORDS["entry"].fields, (),
        "post category 1 group all quantity 12_000_000 operation 3_220_000 "
        "provision 560_000"),
    "line": Form(
        (*fields_of("entry", "category", "group"), *CELL_FIELDS),
        tuple(field.word for field in CELL_FIELDS),
        "line category 1 group all quantity 12.5 operation 3.1..3.4 provision "
        "0.56", together=True),
    "strike": Form((needed("entry"),), ("entry",), "strike 2"),
    "enrol": Form(
        fields_of("element", "category", "chain", "code", "amount",
                  "distance", "kg"), (),
        "enrol category 1 chain 7 code ambient amount 1_000 distance "
        "300_000"),
    "quote": Form(
        fields_of("quote", "chain", "adjust", "mass", "distance", "operation",
                  "provision"), (),
        "quote chain 7 mass 1_000 distance 500_000 operation 62_000 "
        "provision 10_000"),
    "preview": Form((CATEGORY,), ("category",), "preview 1"),
    "close": Form((CATEGORY,), ("category",), "close 1"),
    "statement": Form((CHAIN,), ("chain",), "statement 7"),
    "intensity": Form((CATEGORY, needed("code")), ("category", "code"),
                      "intensity 1 ambient"),
    "fresh": Form((), (), "fresh"),
}

# What else a line may begin with, and its example.
OTHERS = {
    "load": "load examples/voyage.txt",
    "show": "show",
    "sheet": "sheet",
    "name": "name 7 Harbour Mills",
    "save": "save class.txt",
    "help": "help post",
    "quit": "quit",
}


# Words that are asked for here, and what to do instead.
ELSEWHERE = {
    "explain": "it is a command of its own, for a book's text: `tools/quay "
               "explain BOOK.txt CHAIN`",
    "lines": "it is a command of its own, for rows of a workbook: `tools/quay "
             "lines BOOK ROWS.csv CATEGORY GROUP`; one of them is a `line`",
    "reopen": "a closed category stays closed; begin again with `fresh` or "
              "`load`, and close it later",
    **dict.fromkeys(
        ("undo", "unstrike", "delete", "remove"),
        "nothing is taken back; `strike` strikes an entry, once and for good, "
        "and `fresh` or `load` begins again"),
}


def call_of(name, words):
    """The arguments of a call."""
    form = CALLS[name]
    in_words = any(word.lower() in form.bare for word in words)
    try:
        given = given_numbers(name, form.fields, words,
                              () if form.together and in_words else form.bare)
        return record_numbers(name, form.fields, given)
    except Wrong as wrong:
        what, expected = wrong.args
        raise Wrong(what, "%s; a call is `%s`" % (expected, form.example))


def no_such_word(name):
    """What is wrong with a line that begins with none of the words."""
    for call, record in RECORD_OF_CALL.items():
        if name == record:
            return Wrong("`%s` is a record of a book's text" % name,
                         "the call is `%s`" % CALLS[call].example)
    if name in ELSEWHERE:
        return Wrong("no call is `%s`" % name, ELSEWHERE[name])
    return Wrong("no call is `%s`" % shown(name)
                 + meant(name, (*CALLS, *OTHERS)),
                 "expected a line that begins with %s"
                 % ", ".join((*CALLS, *OTHERS)))
