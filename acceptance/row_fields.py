"""The texts in a row, as crates/br_test_support reads and prints them.

A text is `-` if it has no bytes, or parts with `+` between them: a text as names are printed, `3*ab` for that text three times, or
`#6162` for bytes in hexadecimal. In a text of lines a `_` is a blank, and a `|` a line feed.
"""

import re

from common import escaped, unescaped

READ = bytes.maketrans(b"_|", b" \n")
PRINTED = bytes.maketrans(b" \n", b"_|")


def part_of(part):
    """Returns the bytes of a part of a field."""
    if part.startswith("#"):
        return bytes.fromhex(part[1:])
    count, times, text = part.rpartition("*")
    if not re.fullmatch(r"([^\\]|\\x[0-9a-f]{2})*", text):
        raise ValueError(f"{text} is no escaped text")
    return unescaped(text.encode()) * (int(count) if times else 1)


def bytes_of(field):
    """Returns the bytes of a field."""
    return b"" if field == "-" else b"".join(part_of(part) for part in field.split("+"))


def text_of(field):
    """Returns the bytes of a field that is a text of lines."""
    return bytes_of(field).translate(READ)


def shown(data):
    """Returns a text of lines as a field."""
    return escaped(data.translate(PRINTED)) or "-"
