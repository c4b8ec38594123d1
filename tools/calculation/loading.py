"""Loading a file into a book.

Written from document 01 and from document 02's weighed passengers. Sentences
in quotation marks are their own.

The file is its bytes. Its counts and offsets are any numbers below 2^32.
"""

import struct
from collections import namedtuple

from calculation import calls
from calculation.book import FLAGS, LENGTH, MARK, PASSENGER_CODES, QUOTED

# Refusal numbers beside those of the calls.
BAD_FILE = 11
BAD_SECTION = 12
BAD_FIELD = 13

# "A file is under 32 or over 16,384 bytes"
FEWEST_BYTES = 32
MOST_BYTES = 16_384

# "Little-endian, a header of counts and offsets: eight u32, namely 14083,
# categories, their offset, entries, offset, elements, offset, file length."
HEADER = struct.Struct("<8I")
Header = namedtuple(
    "Header", "mark categories categories_offset entries entries_offset "
              "elements elements_offset length")

# "Category: u32 kind, u32 flag. Entry: u32 category, group; u64 quantity,
# operation factor, provision factor. Element: u32 category, chain, code,
# adjust; u64 amount, distance, two intensities."
CATEGORY = struct.Struct("<2I")
ENTRY = struct.Struct("<2I3Q")
ELEMENT = struct.Struct("<4I4Q")

# "the header, or a table (1 categories, 2 entries, 3 elements, 4 closings)
# and its record"; the program prints "table (0 header) and record (0)"
IN_HEADER = (0, 0)
IN_CATEGORIES, IN_ENTRIES, IN_ELEMENTS, IN_CLOSINGS = 1, 2, 3, 4
LOADED = (0, 0, 0)


# The header and its sections.

def header_of(data):
    return Header(*HEADER.unpack_from(data))


class Section:
    """So many records of one form, from an offset on."""

    def __init__(self, count, offset, form):
        self.count = count
        self.start = offset
        self.end = offset + count * form.size
        self.form = form

    def records(self, data):
        return self.form.iter_unpack(data[self.start:self.end])


def sections_of(header):
    """"Gaps are allowed; sections come in that order."
    """
    return (
        Section(header.categories, header.categories_offset, CATEGORY),
        Section(header.entries, header.entries_offset, ENTRY),
        Section(header.elements, header.elements_offset, ELEMENT),
    )


def is_right_file(data):
    """The opposite of "A file is under 32 or over 16,384 bytes, or its first
    or last header number is wrong." The last is the length of the file.
    """
    if not FEWEST_BYTES <= len(data) <= MOST_BYTES:
        return False
    header = header_of(data)
    return header.mark == MARK and header.length == len(data)


def sections_are_right(data):
    """The opposite of "A section starts before the previous ends (the
    header, for categories), or ends past the file; an empty section too."
    """
    previous_end = HEADER.size
    for section in sections_of(header_of(data)):
        if section.start < previous_end or section.end > len(data):
            return False
        previous_end = section.end
    return True


def grounds_of_header(words, data):
    """The numbers that stop a file before any call, in checking order:
    "Loading checks the slice length of ground 1, then 11, 12".
    """
    if len(words) < LENGTH:
        yield calls.BAD_BOOK
    if not is_right_file(data):
        yield BAD_FILE
    elif not sections_are_right(data):
        yield BAD_SECTION


# The calls of a file.

# A call of a file: the table and the record that it is of, whether ground 13
# stops it, its name and its arguments.
Step = namedtuple("Step", "table record bad_field name arguments")


def steps(data):
    """The calls in order: "opens all, posts all, enrols or quotes all, closes
    those flagged".
    """
    categories, entries, elements = (
        list(section.records(data))
        for section in sections_of(header_of(data)))
    for number, (kind, flag) in enumerate(categories, 1):
        # "A record's closing flag is above 1"
        yield Step(IN_CATEGORIES, number, flag not in FLAGS, "open", (kind,))
    for number, entry in enumerate(entries, 1):
        yield Step(IN_ENTRIES, number, False, "post", entry)
    for number, element in enumerate(elements, 1):
        yield Step(IN_ELEMENTS, number, *step_of_element(*element))
    for number, (_, flag) in enumerate(categories, 1):
        # "which for a closing is the category's number"
        if flag == 1:
            yield Step(IN_CLOSINGS, number, False, "close", (number,))


def step_of_element(category, chain, code, adjust, amount, distance,
                    operation_intensity, provision_intensity):
    """Whether ground 13 stops it, the call and its arguments: "Code must be 0
    with category 0; adjust and intensities must be 0 otherwise." But "the
    adjust field of a passenger element carries it", namely kg per head, "so
    13 no longer wants 0 there".
    """
    intensities = operation_intensity, provision_intensity
    if category == QUOTED:
        return (code != 0, "quote",
                (chain, adjust, amount, distance, *intensities))
    enrolment = category, chain, code, amount, distance
    if code in PASSENGER_CODES:
        return intensities != (0, 0), "enrol", (*enrolment, adjust)
    return adjust != 0 or intensities != (0, 0), "enrol", (*enrolment, 0)


def load(words, data):
    """Loads a file into the words: (0, 0, 0) when it is loaded, otherwise
    the refusal number, the table and the record.

    "A call that stops leaves what earlier calls made; 1, 11 and 12 leave the
    book untouched."
    """
    refusal = next(grounds_of_header(words, data), calls.ACCEPTED)
    if refusal != calls.ACCEPTED:
        return (refusal, *IN_HEADER)
    calls.make("fresh", words)
    for step in steps(data):
        # "13 comes before the record's own call"
        refusal = BAD_FIELD if step.bad_field else calls.make(
            step.name, words, *step.arguments)[0]
        if refusal != calls.ACCEPTED:
            return refusal, step.table, step.record
    return LOADED
