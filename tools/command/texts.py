"""The text that a reader wrote, from the bytes of a file to its lines."""

import codecs
import re
import sys

from command.fields import shown


class Unreadable(Exception):
    """There is no text, and why."""


class NoFile(Unreadable):
    """There is no file, or it cannot be read."""


# How files begin that are taken for a text by mistake, and what is said of
# them, with the form that is wanted.
NO_TEXTS = (
    (b"\x03\x37\0\0", "it is packed already; "
                      "crates/quaymeter/out/quaymeter reads it from its "
                      "standard input"),
    (b"PK\x03\x04", "it is a document of an office program; save it there as "
                    "{form}"),
    (b"\xd0\xcf\x11\xe0", "it is a document of an office program; save it "
                          "there as {form}"),
    (b"{\\rtf", "it is a text with formats (RTF); save it as {form}"),
    (b"%PDF", "it is a PDF; {what} {form}"),
)


def read(path, what="a book is", form="plain text"):
    """The text at a path, None for standard input."""
    name = "standard input" if path is None else shown(path)
    try:
        if path is None:
            data = sys.stdin.buffer.read() if sys.stdin else b""
        else:
            with open(path, "rb") as file:
                data = file.read()
    except OSError as error:
        raise NoFile("%s cannot be read: %s" % (name, error.strerror))
    except ValueError:
        raise NoFile("%s is no name of a file" % name)
    for start, why in NO_TEXTS:
        if data.startswith(start):
            raise Unreadable("%s cannot be read: %s" % (
                name, why.format(what=what, form=form)))
    return decoded(data)


def decoded(data):
    """UTF-8 or UTF-16, with a byte order mark or without one. Bytes that are
    no letters of UTF-8 are taken as Windows writes those of Western Europe.
    """
    if data.startswith((codecs.BOM_UTF16_LE, codecs.BOM_UTF16_BE)):
        return data.decode("utf-16", "replace")
    for encoding, zeros in (("utf-16-le", data[1::2]),
                            ("utf-16-be", data[::2])):
        # Most letters of a text are a byte and a zero.
        if 2 * zeros.count(0) > len(zeros):
            text = data.decode(encoding, "replace")
            if "\0" not in text:
                return text
    return data.decode("utf-8-sig", "windows")


def windows_letters(error):
    """The letters of bytes that are none of UTF-8, and where to go on."""
    letters = error.object[error.start:error.end].decode("cp1252", "replace")
    return letters, error.end


codecs.register_error("windows", windows_letters)


def lines_of(text):
    """The lines, without an empty one at the end. A carriage return ends a
    line where the text has no other line ends (old Macintosh), and is a space
    elsewhere. A last Ctrl-Z, which ends a text of DOS, is none of it."""
    text = re.sub("\x1a$", "", text)
    lines = text.split("\n" if "\n" in text else "\r")
    if not lines[-1].strip():
        lines.pop()
    return [line.lstrip("\ufeff") for line in lines]


def without_comment(line):
    return line.split("#", 1)[0]


def without_remark(line):
    """A line with a name or a path, where `#` begins a comment only with a
    space behind it."""
    return re.sub(r"#(\s.*)?$", "", line)


def carriage_returns(lines):
    """Notes of lines with a carriage return inside."""
    for number, line in enumerate(lines, 1):
        if "\r" in line.rstrip():
            yield ("line %d has a carriage return inside, which is no line end "
                   "in this text" % number)
