"""A second reader of volumes, which returns what a bootstrap restores from them.

It shares no code with volume_sets.py, and reads only what a set needs: whole volumes, attributes, data and digests. It is there
to find mistakes of the generator.
"""

import hashlib
import os
import struct

# For the letters of each level, the lengths of the headers of a block and of a record.
FRONTS = {b"BB01": (16, 20), b"BB02": (24, 12)}


def value(word):
    """A number from 0 on in the base 64 of file attributes."""
    digits = "ABCDEFGHIJKLMNOPQRSTUVWXYZabcdefghijklmnopqrstuvwxyz0123456789+/"
    number = 0
    for digit in word:
        number = number * 64 + digits.index(digit)
    return number


def read_groups(path):
    """The groups of a bootstrap, each a volume's name and the ranges of each criterion."""
    groups = []
    with open(path) as lines:
        for line in lines:
            keyword, text = line.strip().split("=", 1)
            if keyword == "Volume":
                groups.append((text.strip('"'), {}))
            elif keyword != "MediaType":
                first, _, last = text.partition("-")
                groups[-1][1].setdefault(keyword, []).append((int(first), int(last or first)))
    return groups


def admits(ranges, number):
    return any(first <= number <= last for first, last in ranges)


def indexes_of(ranges):
    return {index for first, last in ranges for index in range(first, last + 1)}


def fragments_of(folder, groups):
    """The fragments that the groups hit, by file: group, address, place in the block, stream, stated size, data."""
    found = {}
    by_volume = {}
    for number, (volume, criteria) in enumerate(groups):
        wanted = indexes_of(criteria["FileIndex"])
        by_volume.setdefault(volume, []).append((number, criteria, wanted))
    for volume, near in by_volume.items():
        with open(os.path.join(folder, volume), "rb") as file:
            data = file.read()
        address = 0
        while address < len(data):
            size, _, letters = struct.unpack_from(">II4s", data, address + 4)
            assert letters in FRONTS, (volume, address)
            block_front, front = FRONTS[letters]
            assert block_front <= size <= len(data) - address, (volume, address)
            here = [group for group in near if admits(group[1]["VolAddr"], address)]
            at, end, ordinal = address + block_front, address + size, 0
            while end - at >= front:
                # The session comes before the record's other numbers, or last in the block's header.
                key = struct.unpack_from(">II", data, at if front == 20 else address + 16)
                index, stream, stated = struct.unpack_from(">iiI", data, at + front - 12)
                there = min(stated, end - at - front)
                for number, criteria, wanted in here:
                    if index in wanted and admits(criteria["VolSessionId"], key[0]) and admits(criteria["VolSessionTime"], key[1]):
                        part = data[at + front : at + front + there]
                        found.setdefault((*key, index), []).append((number, address, ordinal, stream, stated, part))
                        break
                at += front + there
                ordinal += 1
            address = end
    return found


def records_of(fragments):
    """The records that a file's fragments are joined to: stream and data."""
    records = []
    left = 0
    for _, _, _, stream, stated, part in sorted(fragments, key=lambda f: f[:3]):
        if left:
            assert stream == -records[-1][0] and stated == left
            records[-1][1].append(part)
        else:
            assert stream > 0
            records.append((stream, [part]))
        left = stated - len(part)
    assert left == 0
    return [(stream, b"".join(parts)) for stream, parts in records]


def line_of(key, fragments):
    """A file's line in the manifest."""
    records = records_of(fragments)
    (attributes,) = [data for stream, data in records if stream == 1]
    front, stat, link, behind = attributes.split(b"\0")
    index, kind, path = front.split(b" ", 2)
    assert int(index) == key[2] and behind == b""
    content = b"".join(data for stream, data in records if stream == 2)
    digest = hashlib.md5(content)
    assert all(data == digest.digest() for stream, data in records if stream == 3)
    numbers = ",".join(str(value(word)) for word in stat.decode().split())
    name, target = (
        "".join(chr(b) if 33 <= b <= 126 and b != 92 else "\\x%02x" % b for b in text)
        for text in (path, link)
    )
    return "F %d %d %d %d %s %s =%s %d %s\n" % (
        *key, int(kind), name, numbers, target, len(content), digest.hexdigest()
    )


def read_back(folder):
    """The manifest of a restore of the set in this folder."""
    groups = read_groups(os.path.join(folder, "bootstrap"))
    found = fragments_of(os.path.join(folder, "volumes"), groups)
    lines = [line_of(key, found[key]) for key in sorted(found)]
    return "".join(lines) + f"total {len(lines)} 0 0\n"
