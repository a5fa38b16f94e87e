"""Files and faults that fields of rows/delivery describe, and the records and blocks of them."""

import struct
from collections import namedtuple

import row_fields

# The contents of a file: its path, type, bytes, numbers, link and the number of skipped records.
Item = namedtuple("Item", "path kind data stat link skipped")
# A fault instead of a file: the number, and the stream for 65.
Fault = namedtuple("Fault", "number stream")

PLAIN = ["A_A_A_A_A_A_A_A_A_A_A_A_A", "-", "0"]
STAT = b"\0A A IGk B A A A %c A A A A A A\0\0"
FILE = b"1 3 /a" + STAT % b"F"
REST = bytes.fromhex("00000000") + b"BB02" + bytes.fromhex("0000000100000064")
NAMED = {
    "rest": REST,
    "block": bytes.fromhex("000000000000005b") + REST + struct.pack(">III", 1, 1, 38) + FILE + struct.pack(">III", 1, 2, 5) + b"hello",
    "file": FILE,
    "first": b"1 3 /a" + STAT % b"O",
    "second": b"2 3 /b" + STAT % b"O",
    "directory": b"1 5 /d/" + STAT % b"F",
    "remainder": STAT % b"O",
}


def part_of(part):
    """Returns the bytes of a part of a text."""
    if part.startswith("$"):
        return NAMED[part[1:]]
    if part.startswith("#"):
        return bytes.fromhex(part[1:])
    return row_fields.part_of(part).translate(row_fields.READ)


def text_of(field):
    """Returns the bytes of a field."""
    return b"" if field == "-" else b"".join(part_of(part) for part in field.split("+"))


def item_of(field):
    """Returns the file of a field."""
    path, kind, data, *more = field.split(",")
    stat, link, skipped = more or PLAIN
    return Item(text_of(path), int(kind), text_of(data), text_of(stat), text_of(link), int(skipped))


def outcomes_of(field, names=None):
    """Returns the files and faults of a field, or those of a name."""
    found = (names or {}).get(field, field)
    parts = [] if found == "-" else found.split(";")
    return [Fault(*map(int, it[1:].split(":"))) if it.startswith("!") else item_of(it) for it in parts]


def block_of(records):
    """Returns a block of the session 1, 100 with these records. Each is an index, a stream, a size and bytes."""
    body = b"".join(struct.pack(">iiI", index, stream, size) + data for index, stream, size, data in records)
    return struct.pack(">II", 0, 24 + len(body)) + REST + body


def whole(index, stream, data):
    """Returns a record that is whole."""
    return index, stream, len(data), data


def attributes_of(index, item):
    """Returns the record of a file's attributes."""
    return whole(index, 1, b"%d %d %s\0%s\0%s\0" % (index, item.kind, item.path, item.stat, item.link))


def fault_records(index, fault):
    """Returns records from which a file can't be restored, for this reason."""
    plain = attributes_of(index, Item(b"/fault", 3, b"", text_of(PLAIN[0]), b"", 0))
    records = {60: [whole(index, -2, b"x")], 63: [whole(index, 2, b"x")], 65: [plain, whole(index, fault.stream, b"x")]}
    return records[fault.number]


def records_of(index, outcome, is_sparse=False):
    """Returns the records of a file or a fault. Sparse data have an address before them."""
    if isinstance(outcome, Fault):
        return fault_records(index, outcome)
    data = [whole(index, 6, bytes(8) + outcome.data) if is_sparse else whole(index, 2, outcome.data)]
    return [attributes_of(index, outcome), *(data if outcome.data else []), *[whole(index, 10, b"x")] * outcome.skipped]
