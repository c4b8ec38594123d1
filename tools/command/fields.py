"""The fields of a line, each as its word and a number or a word for one.

What is wrong with a line is told by the exception Wrong.
"""

import difflib
import re
from collections import namedtuple

MOST_SIGNS = 120  # of a line or a word that are shown

# A field: its word, None where no word sets it; what it is when it is left
# out, None where it must be there; what its word stands for without a number,
# None where one must follow; what its number is, "" where that is clear;
# whether it is offered to the reader; and how it is read, None for a whole
# number.
Field = namedtuple("Field", "word left_out alone what offered reading",
                   defaults=(None,))

# How a field is read that is no whole number: from its text to its value,
# whether a text may be meant for one, and what is expected.
Reading = namedtuple("Reading", "value is_like expected")


def needed(word, what=""):
    return Field(word, None, None, what, True)


def flag(word, what="", offered=True):
    return Field(word, 0, 1, what, offered)


def optional(word, what=""):
    return Field(word, 0, None, what, True)


def read_by(reading, word, what):
    """A field that must be there and is no whole number."""
    return Field(word, None, None, what, True, reading)


def must_be_0(word):
    """A field that is taken, so that its refusal can be seen."""
    return Field(word, 0, None, "", False)


ALWAYS_0 = Field(None, 0, None, "", False)
CATEGORY = needed("category", "a number, from 1 on in their order")
CHAIN = needed("chain", "a number from 1 to 10,000, also where `name` gives it "
                        "a name")
DISTANCE = needed("distance", "in m, and 0 in a hub")

# The words that stand for numbers, by the field.
KINDS = {"freight": 1, "passengers": 2, "both": 3, "hub": 4}
GROUPS = {"all": 0, "chilled": 1, "frozen": 2}
CODES = {"ambient": 0, "chilled": 1, "frozen": 2, "lowest": 100}
VALUES = {"kind": KINDS, "group": GROUPS, "code": CODES}

# Units that are written behind a number by mistake.
UNITS = ("kg", "g", "mg", "µg", "ug", "t", "tonne", "tonnes", "km", "m", "l",
         "litre", "litres", "kwh", "mj", "head", "heads", "tkm", "metres",
         "mile", "miles")

# Words that are written for others of the same meaning; the first that is
# not given yet is meant.
ALIKE = {"mass": ("amount", "kg"), "amount": ("mass",),
         "weight": ("amount", "kg"), "kg_per_head": ("kg",),
         "kg/head": ("kg",), "fuel": ("quantity",), "length": ("distance",),
         **dict.fromkeys(("terminal", "port", "warehouse"), ("hub",)),
         **dict.fromkeys(("cargo", "goods"), ("freight",)),
         "mixed": ("both",),
         **dict.fromkeys(("reefer", "cold", "cooled"), ("chilled",)),
         "dry": ("ambient",),
         **dict.fromkeys(("seat", "economy"), ("lowest",)),
         **dict.fromkeys(("air", "flight"), ("adjust",))}
MOST_LIKE = 0.75  # from which on two words are alike

# Words that a line of that name does not have, though others do.
NO_PLACE = {
    ("quote", "kg"): "a quote has no `kg`: only passengers are weighed by the "
                     "head, and a quote is of freight, by its `mass`",
}


class Wrong(Exception):
    """What is wrong with a line, and what was expected."""


# What is shown of the reader's text.

def printable(text):
    """A text with the numbers of signs that are not seen or that steer a
    terminal."""
    return "".join(sign if sign.isprintable() or sign == "\t"
                   else "<U+%04X>" % ord(sign) for sign in text)


def shown(text):
    """A text of the reader in a message: one line, and not too long."""
    text = printable(" ".join(text.split()))
    return text if len(text) <= MOST_SIGNS else text[:MOST_SIGNS] + " ..."


def listed(words, last_joint="and"):
    """The words as "a, b and c"."""
    *others, last = words
    return (", ".join(others) + " %s " % last_joint + last if others
            else last)


def meant(word, known):
    """A question where the word is like a known one."""
    like = ([other for other in ALIKE.get(word.lower(), ())
             if other in known]
            or difflib.get_close_matches(word.lower(), known, 1, MOST_LIKE))
    return "; did you mean `%s`?" % like[0] if like else ""


# Numbers.

NUMBER = re.compile("[0-9]{1,3}(,[0-9]{3})+|[0-9]{1,3}(_[0-9]{3})+|[0-9]+")
ONE_COMMA = re.compile("[0-9]{1,3},[0-9]{3}")
EXPECTED_NUMBER = ("expected a whole number such as 12000000, 12_000_000 or "
                   "12,000,000")

# Texts that are no numbers, and what is said of them.
NO_NUMBERS = (
    ("[0-9]+(,[0-9]+)+",
     "ambiguous and not a whole number as it stands: `,` is neither a decimal "
     "comma here nor between whole groups of three digits"),
    ("[0-9_,]*([.][0-9_,]*)+",
     "not a whole number: there are no decimals, nor points between "
     "thousands"),
    ("[0-9]{1,3}(['\u2019][0-9]{3})+",
     "not a whole number: between the groups of a long number stands `_`"),
    ("[0-9.,]+[eE][+-]?[0-9]+|0[xX][0-9a-fA-F]+",
     "not a whole number: it is written with all its digits"),
    ("(?i)[0-9][0-9_,.]*(%s)" % "|".join(UNITS),
     "not a whole number: a number stands without its unit"),
    ("[0-9_,]+",
     "not a whole number as it stands: `_` stands between groups of three "
     "digits"),
    ("[+-][0-9_,.]+",
     "not a whole number as it is written here: it has no sign, and none is "
     "below 0"),
    (r"\d+", "not a whole number in the digits 0 to 9"),
)


def as_thousands(line):
    """How each number of a line is read whose comma may be meant as one before
    decimals."""
    return ["`%s` is read as %d, since a comma stands between thousands here "
            "and never before decimals" % (word, int(word.replace(",", "")))
            for word in line.split() if ONE_COMMA.fullmatch(word)]


def is_like_number(text):
    """Whether it was meant to be a number."""
    return text.lstrip("+-.,")[:1].isdecimal()


def expected_number(field):
    """What was expected behind the word of a field."""
    words = VALUES.get(field.word)
    expected = ("expected " + numbered(words) if words else
                field.reading.expected if field.reading else EXPECTED_NUMBER)
    return expected + in_words(field)


def in_words(field):
    """What the number of a field is."""
    return field.what and "; `%s` is %s" % (field.word, field.what)


def numbered(words):
    """Words for numbers as "freight (1) or hub (4)"."""
    return listed(["%s (%d)" % pair for pair in words.items()], "or")


def number_of(text, field, bits=64):
    """The number that is written behind the word of a field."""
    if field.reading:
        try:
            return field.reading.value(text)
        except Wrong as wrong:
            raise Wrong("`%s` after `%s` is %s" % (
                shown(text), field.word, wrong.args[0]),
                expected_number(field))
    word = VALUES.get(field.word, {}).get(text.lower())
    if word is not None:
        return word
    if not NUMBER.fullmatch(text):
        raise Wrong("`%s` after `%s` is %s" % (
            shown(text), field.word, why_no_number(text, field)),
            expected_number(field))
    digits = text.replace(",", "").replace("_", "").lstrip("0") or "0"
    most = 2 ** bits - 1
    if len(digits) > len(str(most)) or int(digits) > most:
        raise Wrong("the number after `%s` is too large: it does not fit %d "
                    "bits" % (field.word, bits),
                    "expected at most {:,}, and the ledger's own limits are "
                    "lower{}".format(most, in_words(field)))
    return int(digits)


def why_no_number(text, field):
    for form, what in NO_NUMBERS:
        if re.fullmatch(form, text):
            return what
    if field.word in VALUES:
        return ("not a whole number, nor one of its words"
                + meant(text, VALUES[field.word]))
    return "not a whole number"


# Fields.

def expected_fields(name, fields):
    """What a line of that name has."""
    offered = [field for field in fields if field.offered]
    must = [field.word for field in offered if field.left_out is None]
    may = [field.word for field in offered if field.left_out is not None]
    return ("expected %s" % name + (" with %s" % listed(must) if must else "")
            + ("; it may have %s" % listed(may) if may else ""))


def why_no_field(name, word, before, behind, known, given):
    """What is wrong with a word that is none of a line's; `before` is the
    field whose number stands before it, None where there is none, and
    `behind` are the words behind it."""
    alone = "`%s` has no word before it that says what it is" % shown(word)
    if before is not None and re.fullmatch("[0-9]{3}", word):
        return alone + ("; between the groups of a long number stands `_` "
                        "and no space")
    if is_like_number(word):
        return alone
    if (name, word.lower()) in NO_PLACE and is_number_next(behind):
        return NO_PLACE[name, word.lower()]
    for field in known:
        if word.lower() in VALUES.get(field, ()):
            return alone + "; did you mean `%s %s`?" % (field, word.lower())
    if before is not None and word.lower().rstrip(",.;") in UNITS:
        return ("`%s` is no word here: a number stands without its unit%s"
                % (shown(word), in_words(before)))
    field, sign, number = re.fullmatch("([^=:]*)([=:]?)(.*)", word).groups()
    if sign and field.lower() in known:
        return "`%s` is no word here; did you mean `%s %s`?" % (
            shown(word), field.lower(), shown(number) or "..")
    return "`%s` is no word of `%s`" % (shown(word), name) + meant(
        word, [field for field in known if field not in given])


def is_number_next(words):
    return bool(words) and is_like_number(words[0])


def why_no_number_next(field, before):
    """What is wrong where no number stands behind the word of a field, which
    may be meant as the unit of the number before it."""
    what = "no number after `%s`" % field.word
    if before is not None and field.word in UNITS:
        what += (": a number stands without its unit, and `%s` is a word of "
                 "its own%s" % (field.word, in_words(before)))
    return what


def given_numbers(name, fields, words, bare=(), bits_of=lambda field: 64):
    """The numbers of a line by the words before them. Those of the fields
    named in `bare` may stand without their words, in that order."""
    known = {field.word: field for field in fields if field.word is not None}
    given = {}
    before = None
    while words:
        word, *words = words
        field = known.get(word.lower())
        if field is None:
            field = next((known[other] for other in bare
                          if other not in given), None)
            if field is None or (field.reading
                                 and not field.reading.is_like(word)):
                raise Wrong(why_no_field(name, word, before, words, known,
                                         given),
                            expected_fields(name, fields))
            words = [word, *words]
        elif field.word in given:
            raise Wrong("`%s` stands twice" % field.word,
                        expected_fields(name, fields))
        elif field.alone is not None and not is_number_next(words):
            given[field.word] = field.alone
            before = None
            continue
        if not words or words[0].lower() in known:
            raise Wrong(why_no_number_next(field, before),
                        expected_number(field))
        text, *words = words
        given[field.word] = number_of(text, field, bits_of(field))
        before = field
    return given


def record_numbers(name, fields, given):
    """The numbers of all fields; those that are left out have their own."""
    missing = [field.word for field in fields
               if field.left_out is None and field.word not in given]
    if missing:
        raise Wrong("missing: %s" % listed(missing),
                    expected_fields(name, fields))
    return tuple(given.get(field.word, field.left_out) for field in fields)
