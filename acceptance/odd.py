"""A volume of files with odd names, owners, times and types, and what its restore prints. Bacula
did not write it, but its tools read it."""

import hashlib
import struct
from pathlib import Path

from bacula import block_of, volume_label
from common import escaped

DIGITS = b"ABCDEFGHIJKLMNOPQRSTUVWXYZabcdefghijklmnopqrstuvwxyz0123456789+/"

# A path of 4,096 bytes, the greatest length: 15 names of 255 bytes, one of 253 and a last one.
LONGEST = b"/".join([b"", *[b"%03d" % i + b"n" * 252 for i in range(15)], b"m" * 253, b"x"])

# Type, path, mode, link, owner, group, device, time of change and bytes of each file, in the order of the volume.
FILES = [
    (5, b"/odd/", 0o41750, b"", 4294967294, 4294967293, 0, -1, b""),
    (3, b"/odd/new\nline and blanks ", 0o100600, b"", 0, 0, 0, -2147483648, b"one"),
    (3, b"/odd/\xff\xfe no UTF-8 \x80", 0o104755, b"", 2097152, 2097151, 0, 8589934592, b"two" * 1000),
    (3, b"/odd/'quote\" \\ and \t tab", 0o100000, b"", -2, -2, 0, 15032385535, b"x" * 512),
    (2, b"/odd/" + b"e" * 255, 0o101666, b"", 1, 2, 0, 8589934591, b""),
    (3, LONGEST, 0o100644, b"", 65534, 65534, 0, 1795302711, b"deep"),
    (1, b"/odd/hard", 0o100600, b"/odd/new\nline and blanks ", 0, 0, 0, -2147483648, b""),
    (4, b"/odd/soft\xe9", 0o120777, b"\xff/" * 150 + b"..", 7, 8, 0, 1795302711, b""),
    (6, b"/odd/pipe", 0o10640, b"", 0, 4294967294, 0, 1795302711, b""),
    (6, b"/odd/null", 0o20666, b"", 0, 0, 0x103, 1795302711, b""),
    (6, b"/odd/disk", 0o60660, b"", 0, 6, 0x800105, 1795302711, b""),
]


def base64(number):
    """Returns a number as Bacula writes it: digits of 64, the greatest first, and a minus if it is negative."""
    rest, text = abs(number), b""
    while rest or not text:
        text = DIGITS[rest % 64 : rest % 64 + 1] + text
        rest //= 64
    return b"-" + text if number < 0 else text


def record(index, stream, data):
    return struct.pack(">iiI", index, stream, len(data)) + data


def stat_of(file):
    """Returns the fourteen numbers of a file's attributes."""
    _kind, _path, mode, _link, uid, gid, device, mtime, data = file
    return [0, 0, mode, 1, uid, gid, device, len(data), 4096, 0, mtime, mtime, mtime, 0]


def records(index, file):
    """Returns the records of a file: its attributes and its bytes."""
    numbers = b" ".join(base64(number) for number in stat_of(file))
    text = b"%d %d %s\0%s\0%s\0" % (index, file[0], file[1], numbers, file[3])
    return record(index, 1, text) + (record(index, 2, file[8]) if file[8] else b"")


def line(index, file):
    """Returns the line of a file in the manifest."""
    numbers = ",".join(map(str, stat_of(file)))
    digest = hashlib.md5(file[8]).hexdigest()
    return f"F 1 100 {index} {file[0]} {escaped(file[1])} {numbers} ={escaped(file[3])} {len(file[8])} {digest}\n".encode()


def write_case(folder):
    """Writes a case, in the form of those in cases/, and a folder with its volume. Returns both."""
    case, volumes = Path(folder) / "odd", Path(folder) / "odd-volumes"
    case.mkdir()
    volumes.mkdir()
    data = b"".join(records(index, file) for index, file in enumerate(FILES, 1))
    label = record(-2, 0, volume_label("V"))
    (volumes / "V").write_bytes(block_of(label, 0, 0, 0) + block_of(data, 1, 1, 100))
    (case / "x.bsr").write_bytes(b"Volume=V\nMediaType=File\n")
    lines = b"".join(line(index, file) for index, file in enumerate(FILES, 1))
    (case / "expected").write_bytes(lines + b"total %d 0 0\n" % len(FILES))
    (case / "stderr").write_bytes(b"")
    (case / "status").write_text("0")
    return case, volumes
