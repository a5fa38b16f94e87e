"""A second reading of the formats, in plain Python: what `brestore extract` must print for a bootstrap and volumes.

It is written from docs/formats.md alone, and shares no code with the program. It holds everything in memory.
"""

import hashlib
import re

from common import escaped

LIMIT, GIBIBYTE = 4_194_304, 1 << 30
DIGITS = {letter: value for value, letter in enumerate(b"ABCDEFGHIJKLMNOPQRSTUVWXYZabcdefghijklmnopqrstuvwxyz0123456789+/")}
CRITERIA = {
    b"volsessionid": (0, 2**32 - 1),
    b"volsessiontime": (0, 2**32 - 1),
    b"volfile": (0, 2**32 - 1),
    b"volblock": (0, 2**32 - 1),
    b"voladdr": (0, 2**63 - 1),
    b"fileindex": (1, 2**31 - 1),
    b"stream": (1, 2**31 - 1),
}
UNREAD = (b"storage", b"mediatype", b"device", b"slot", b"count")
UNSUPPORTED = (b"client", b"job", b"jobid", b"jobtype", b"joblevel", b"fileregex")
NAME = re.compile(rb"[A-Za-z0-9_.: -]{1,127}")
ITEM = re.compile(rb"([0-9]{1,20})(?:[ \t]*-[ \t]*([0-9]{1,20}))?")


class Refused(Exception):
    """A restore that is refused, with what the line says after `refused`."""


class Fault(Exception):
    """A file that cannot be restored, with the number, and the stream for 65."""


# ---- bootstraps


def without_comment(line):
    """Returns a line up to its comment, and whether its quotes are closed."""
    quoted = False
    for place, byte in enumerate(line):
        if byte == ord('"'):
            quoted = not quoted
        elif byte == ord("#") and not quoted:
            return line[:place], True
    return line, not quoted


def ranges_of(value, least, most):
    """Returns the ranges of a list, or None if it is no list of such numbers."""
    found = []
    for item in value.split(b","):
        numbers = ITEM.fullmatch(item.strip(b" \t"))
        if not numbers:
            return None
        first = int(numbers[1])
        last = first if numbers[2] is None else int(numbers[2])
        if not least <= first <= last <= most:
            return None
        found.append((first, last))
    return found


def volume_of(value):
    """Returns the name of a volume, or None."""
    if len(value) >= 2 and value[:1] == value[-1:] == b'"':
        value = value[1:-1]
    elif b" " in value:
        return None
    return value if NAME.fullmatch(value) and value not in (b".", b"..") else None


def read_line(line, groups):
    """Adds what a line says to the groups. Returns the number of its refusal, or None."""
    if len(line) > 4096:
        return 34
    text, closed = without_comment(line)
    if not text.strip(b" \t"):
        return None
    key, equals, value = text.partition(b"=")
    keyword, value = key.strip(b" \t").lower(), value.strip(b" \t")
    if keyword in UNSUPPORTED:
        return 32
    if keyword != b"volume" and keyword not in CRITERIA and keyword not in UNREAD:
        return 31
    if keyword in CRITERIA and not groups:
        return 30
    if not equals or not closed:
        return 33
    if keyword in UNREAD:
        return None
    if keyword == b"volume":
        name = volume_of(value)
        if name is None:
            return 33
        groups.append({b"volume": name})
        return None
    ranges = ranges_of(value, *CRITERIA[keyword])
    if ranges is None:
        return 33
    groups[-1].setdefault(keyword, []).extend(ranges)
    return None


def groups_of(text):
    """Returns the groups of a bootstrap, or raises the refusal of its first refused line."""
    lines = [line[:-1] if line.endswith(b"\r") else line for line in text.split(b"\n")]
    # The last line has no LF, so a CR is a byte of it.
    lines[-1] = text.rpartition(b"\n")[2]
    groups = []
    for number, line in enumerate(lines, 1):
        refusal = read_line(line, groups)
        if refusal:
            raise Refused(f"{refusal} line {number}")
    return groups


# ---- volumes


def number_at(bytes_, place, signed=False):
    return int.from_bytes(bytes_[place : place + 4], "big", signed=signed)


def admits(group, keyword, value):
    """Returns whether a criterion of a group admits a value."""
    return keyword not in group or any(first <= value <= last for first, last in group[keyword])


def size_of_block(volume, address, is_covered):
    """Returns the size of the block at an address, or raises the number of its fault."""
    head = volume[address : address + 24]
    if len(head) < 16:
        raise Fault(12)
    if head[12:16] not in (b"BB01", b"BB02"):
        raise Fault(10)
    if head[12:16] == b"BB02" and len(head) < 24:
        raise Fault(12)
    size = number_at(head, 4)
    if not (16 if head[12:16] == b"BB01" else 24) <= size <= LIMIT:
        raise Fault(11)
    if is_covered and len(volume) - address < size:
        raise Fault(12)
    return size


def session_at(block, place):
    return number_at(block, place), number_at(block, place + 4)


def fragments_of(block):
    """Returns the fragments of a block: session, index, stream, size and bytes of each."""
    own = block[12:16] == b"BB01"
    found, place, least = [], 16 if own else 24, 20 if own else 12
    while len(block) - place >= least:
        session = session_at(block, place if own else 16)
        place += least
        index, stream = number_at(block, place - 12, signed=True), number_at(block, place - 8, signed=True)
        size = number_at(block, place - 4)
        found.append((session, index, stream, size, block[place : place + size]))
        place += size
    return found


def hits(group, address, session, index, stream):
    """Returns whether a group hits a fragment of its volume."""
    asked = {
        b"volsessionid": session[0],
        b"volsessiontime": session[1],
        b"volfile": address >> 32,
        b"volblock": address & 0xFFFFFFFF,
        b"voladdr": address,
        b"fileindex": index,
        b"stream": abs(stream),
    }
    return index > 0 and all(admits(group, keyword, value) for keyword, value in asked.items())


def walk(volume, groups, found):
    """Adds the fragments of a volume that its groups hit, by file and place. Groups come with their numbers."""
    bound = None
    if all(b"voladdr" in group for _, group in groups):
        bound = max(last for _, group in groups for _, last in group[b"voladdr"])
    address = 0
    while address < len(volume) and (bound is None or address <= bound):
        is_covered = any(admits(group, b"voladdr", address) for _, group in groups)
        size = size_of_block(volume, address, is_covered)
        if is_covered:
            block = volume[address : address + size]
            for ordinal, (session, index, stream, length, data) in enumerate(fragments_of(block)):
                first = next((n for n, group in groups if hits(group, address, session, index, stream)), None)
                if first is not None:
                    found.setdefault((*session, index), {})[first, address, ordinal] = (stream, length, data)
        address += size
    return address


def match(groups, volumes):
    """Returns the fragments that groups hit, by file and place, or raises the refusal of the first volume with a fault."""
    found = {}
    for name in dict.fromkeys(group[b"volume"] for group in groups):
        own = [(n, group) for n, group in enumerate(groups) if group[b"volume"] == name]
        if name not in volumes:
            raise Refused(f"14 {escaped(name)} 0")
        address = walk_to_fault(volumes[name], own, found)
        if address is not None:
            raise Refused(f"{address[0]} {escaped(name)} {address[1]}")
    return found


def walk_to_fault(volume, groups, found):
    """Walks a volume. Returns the number and the address of its fault, or None."""
    try:
        walk(volume, groups, found)
        return None
    except Fault as fault:
        return fault.args[0], fault_address(volume, groups)


def fault_address(volume, groups):
    """Returns the address at which the walk of a volume meets its fault."""
    address = 0
    while True:
        try:
            address += size_of_block(volume, address, any(admits(group, b"voladdr", address) for _, group in groups))
        except Fault:
            return address


# ---- files


def base64_number(word):
    """Returns a number in Bacula's base 64, or None."""
    digits = word[1:] if word[:1] == b"-" else word
    if not digits or any(byte not in DIGITS for byte in digits):
        return None
    value = 0
    for byte in digits:
        value = 64 * value + DIGITS[byte]
    value = -value if word[:1] == b"-" else value
    return value if -(2**63) <= value < 2**63 else None


def stat_of(text):
    """Returns the fourteen numbers of a file, or None."""
    words = [word for word in text.split(b" ") if word][:14]
    numbers = [base64_number(word) for word in words]
    if None in numbers or len(numbers) < 13:
        return None
    return numbers if len(numbers) == 14 else [*numbers, 0]


def is_path(path):
    if not 1 <= len(path) <= 4096 or b"\0" in path or path[:1] != b"/":
        return False
    names = path[1:].split(b"/")
    return path == b"/" or all(name not in (b"", b".", b"..") for name in (names[:-1] if names[-1] == b"" else names))


def decimal(text):
    """Returns a number from 1 to 2^31 - 1, or None."""
    if not re.fullmatch(rb"[0-9]+", text):
        return None
    digits = text.lstrip(b"0")
    return int(digits) if 0 < len(digits) <= 10 and int(digits) < 2**31 else None


def attributes_of(data, index):
    """Returns type, path, numbers and link text of a record of attributes, or raises 64."""
    first, space, rest = data.partition(b" ")
    kind, other_space, rest = rest.partition(b" ")
    path, nul, rest = rest.partition(b"\0")
    lstat, other_nul, rest = rest.partition(b"\0")
    link, stat = rest.partition(b"\0")[0], stat_of(lstat)
    is_whole = space and other_space and nul and other_nul
    if not is_whole or decimal(first) != index or decimal(kind) is None or not is_path(path) or stat is None:
        raise Fault(64)
    return decimal(kind), path, stat, link


def records_of(fragments):
    """Returns the records that fragments are cut from, or raises 60, 61 or 62."""
    records, to_come = [], 0
    for stream, size, data in fragments:
        if to_come:
            if stream >= 0 or stream != -records[-1][0]:
                raise Fault(61)
            if size != to_come:
                raise Fault(62)
            records[-1] = records[-1][0], records[-1][1] + data
        elif stream < 0:
            raise Fault(60)
        else:
            records.append((stream, data))
        to_come = size - len(data)
    if to_come:
        raise Fault(61)
    return records


def is_skipped(stream):
    return stream == 10 or 1000 <= stream <= 1999


def contents_of(records):
    """Returns the bytes of a file of type 2 or 3, or raises 67 or 68."""
    contents = bytearray()
    for stream, data in records:
        if stream == 2:
            start = len(contents)
        elif stream == 6:
            if len(data) < 8 or int.from_bytes(data[:8], "big") < len(contents):
                raise Fault(67)
            start, data = int.from_bytes(data[:8], "big"), data[8:]
        else:
            continue
        if start + len(data) > GIBIBYTE:
            raise Fault(68)
        contents += bytes(start - len(contents)) + data
    return contents


def file_of(fragments, index):
    """Returns type, path, numbers, link text, contents and the number of skipped records of a file."""
    records = records_of(fragments)
    own = [data for stream, data in records if stream == 1]
    if not own:
        raise Fault(63)
    if len(own) > 1:
        raise Fault(64)
    kind, path, stat, link = attributes_of(own[0], index)
    for stream, _ in records:
        if stream not in (1, 2, 3, 6) and not is_skipped(stream):
            raise Fault(65, stream)
    skipped = sum(is_skipped(stream) for stream, _ in records)
    if kind not in (2, 3):
        return kind, path, stat, link, b"", skipped + sum(stream in (2, 3, 6) for stream, _ in records)
    contents = contents_of(records)
    digests = [data for stream, data in records if stream == 3]
    if any(stream == 6 for stream, _ in records):
        skipped += len(digests)
    elif len(digests) > 1 or any(data != hashlib.md5(contents).digest() for data in digests):
        raise Fault(66)
    return kind, path, stat, link, contents, skipped


def manifest_lines(files):
    """Returns the manifest of files, and whether each is restored. Files are calls by key that return as `file_of`, or raise a fault."""
    lines, restored, faults, skipped = [], 0, 0, 0
    for key in sorted(files):
        begin = " ".join(str(number) for number in key)
        try:
            kind, path, stat, link, contents, more = files[key]()
        except Fault as fault:
            lines.append(f"X {begin} {' '.join(str(number) for number in fault.args)}")
            faults += 1
            continue
        numbers = ",".join(str(number) for number in stat)
        digest = hashlib.md5(contents).hexdigest()
        lines.append(f"F {begin} {kind} {escaped(path)} {numbers} ={escaped(link)} {len(contents)} {digest}")
        restored, skipped = restored + 1, skipped + more
    lines.append(f"total {restored} {faults} {skipped}")
    return "".join(f"{line}\n" for line in lines).encode(), not faults


def manifest_of(found):
    """Returns the manifest of the files of these fragments, and whether each is restored."""
    ordered = {key: [places[place] for place in sorted(places)] for key, places in found.items()}
    return manifest_lines({key: (lambda key=key: file_of(ordered[key], key[2])) for key in ordered})


def extracted(text, volumes):
    """Returns exit status, standard output and standard error of `extract` by a bootstrap over volumes, a dict of bytes by name."""
    try:
        manifest, is_clean = manifest_of(match(groups_of(text), volumes))
        return (0 if is_clean else 1), manifest, b""
    except Refused as refused:
        return 1, b"", f"refused {refused}\n".encode()
