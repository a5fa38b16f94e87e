"""Makes sets of volumes with a bootstrap, and what a restore by it must give.

The format of blocks, records and attributes is that of docs/formats.md. Labels and the blocks' checksums, which our reader
passes over, have the form that Bacula gives them (see the volumes in acceptance/sets/), so that Bacula's own tools read the
volumes too. All bytes come from a seeded generator, so a set of the same kind, size and seed is the same anywhere.

A set is a folder:

    volumes/     the volumes, a file each
    bootstrap    which files are to be restored, as a Director writes it
    manifest     what the restore must print
    set.json     how much of what there is
"""

import hashlib
import json
import os
import random
import struct
import zlib

from bacula import LABEL_FRONT, volume_label
from common import MIB, escaped

BLOCK_LIMIT = 64_512
RECORD_HEADER = struct.Struct(">iiI")
RECORD_BYTES = 65_536
ATTRIBUTES, DATA, DIGEST = 1, 2, 3
EMPTY_FILE, FILE, LINK, FOLDER = 2, 3, 4, 5
VOLUME_LABEL, START_OF_SESSION, END_OF_SESSION = -2, -4, -5
LEAST_LARGE_FILE = 256 * MIB
GREATEST_FILE = 1 << 30
FILES_IN_FOLDER = 128
DIGITS = "ABCDEFGHIJKLMNOPQRSTUVWXYZabcdefghijklmnopqrstuvwxyz0123456789+/"


def base64_number(number):
    """The shortest text of a number from 0 on, in the base 64 of file attributes."""
    text = DIGITS[number % 64]
    while number >= 64:
        number //= 64
        text = DIGITS[number % 64] + text
    return text


def session_label(number, time):
    """Returns the first fields of both labels of a session: job, time, the names of pool, client,
    job and file set, and a full backup."""
    front = struct.pack(">Iqd", number, time * 1_000_000, 0.0)
    names = ("Bench", "Backup", "Bench", "bench", f"Bench.{number}", "Bench")
    return LABEL_FRONT + front + "".join(it + "\0" for it in names).encode() + struct.pack(">II", ord("B"), ord("F")) + b"\0"


class Level:
    """The level of blocks: BB02, whose header names their session, or BB01, in which each record names its own."""

    def __init__(self, letters):
        self.letters = letters
        self.is_older = letters == b"BB01"
        self.header_size = 16 if self.is_older else 24
        self.record_header_size = RECORD_HEADER.size + (8 if self.is_older else 0)

    def header(self, size, number, session):
        """The header of a block without its checksum."""
        return struct.pack(">II4s", size, number, self.letters) + (b"" if self.is_older else struct.pack(">II", *session))

    def record_header(self, session, index, stream, size):
        return (struct.pack(">II", *session) if self.is_older else b"") + RECORD_HEADER.pack(index, stream, size)


class Volumes:
    """The volumes of a set, which are filled one after another."""

    def __init__(self, folder, prefix, capacity, level):
        os.makedirs(folder, exist_ok=True)
        self.level = level
        self.folder = folder
        self.prefix = prefix
        self.capacity = capacity
        self.names = []
        self.bytes = 0
        self.blocks = 0
        self.file = None

    def begin(self):
        """Goes to the next volume, which begins with a block that holds its label."""
        self.end()
        self.names.append(f"{self.prefix}-{len(self.names) + 1:04}")
        self.file = open(os.path.join(self.folder, self.names[-1]), "wb", buffering=4 * MIB)
        self.at = 0
        label = volume_label(self.names[-1])
        header = self.level.record_header((0, 0), VOLUME_LABEL, 0, len(label))
        self.put([header, label], len(header) + len(label), 0, (0, 0))

    def end(self):
        if self.file is not None:
            self.file.close()

    def place(self):
        """Returns the volume that takes the next block, and the block's address there."""
        if self.file is None or self.at >= self.capacity:
            self.begin()
        return self.names[-1], self.at

    def put(self, parts, length, number, session):
        """Appends a block to the others, and returns the address of its last byte."""
        size = self.level.header_size + length
        header = self.level.header(size, number, session)
        checksum = zlib.crc32(header)
        for part in parts:
            checksum = zlib.crc32(part, checksum)
        self.file.write(struct.pack(">I", checksum) + header)
        self.file.writelines(parts)
        self.at += size
        self.bytes += size
        self.blocks += 1
        return self.at - 1


class VolumesInTurns:
    """Two rows of volumes, each of which takes one block in turn, so that each block is a separate
    visit."""

    def __init__(self, folder, prefix, capacity, level):
        self.level = level
        self.rows = [Volumes(folder, f"{prefix}-{row}", capacity, level) for row in "AB"]
        self.turn = 0

    def place(self):
        self.turn = 1 - self.turn
        return self.rows[self.turn].place()

    def put(self, *block):
        return self.rows[self.turn].put(*block)

    def end(self):
        for row in self.rows:
            row.end()

    names = property(lambda self: self.rows[0].names + self.rows[1].names)
    bytes = property(lambda self: self.rows[0].bytes + self.rows[1].bytes)
    blocks = property(lambda self: self.rows[0].blocks + self.rows[1].blocks)


class Span:
    """A visit of a session to a volume."""

    def __init__(self, volume, start):
        self.volume = volume
        self.start = start
        self.end = start
        self.first_index = 0
        self.last_index = 0


class Session:
    """A session that is written: its records are packed into blocks, and these go to the volumes."""

    def __init__(self, volumes, session_id, session_time):
        self.volumes = volumes
        self.level = volumes.level
        self.id = session_id
        self.time = session_time
        self.files = 0
        self.bytes = 0
        self.blocks = 0
        self.fragments = 0
        self.lines = []
        self.spans = []
        self.empty_block()
        self.put(START_OF_SESSION, session_id, session_label(session_id, session_time))

    def empty_block(self):
        self.parts = []
        self.room = BLOCK_LIMIT - self.level.header_size
        self.first_index = 0
        self.last_index = 0

    def put(self, index, stream, data):
        """Packs a record, which may continue in later blocks."""
        left = len(data)
        at = 0
        front = self.level.record_header_size
        if self.room < front + (left > 0):
            self.close_block()
        while True:
            take = min(left, self.room - front)
            self.parts.append(self.level.record_header((self.id, self.time), index, stream if at == 0 else -stream, left))
            self.parts.append(data[at : at + take])
            self.fragments += 1
            self.room -= front + take
            at += take
            left -= take
            if index > 0:
                self.first_index = self.first_index or index
                self.last_index = index
            if left == 0:
                return
            self.close_block()

    def close_block(self):
        volume, start = self.volumes.place()
        if not self.spans or self.spans[-1].volume != volume:
            self.spans.append(Span(volume, start))
        span = self.spans[-1]
        span.first_index = span.first_index or self.first_index
        span.last_index = self.last_index or span.last_index
        length = BLOCK_LIMIT - self.level.header_size - self.room
        span.end = self.volumes.put(self.parts, length, self.blocks, (self.id, self.time))
        self.blocks += 1
        self.empty_block()

    def close(self):
        ended = struct.pack(">IQIIIIII", self.files, self.bytes, 0, 0, 0, 0, 0, ord("T"))
        self.put(END_OF_SESSION, self.id, session_label(self.id, self.time) + ended)
        self.close_block()

    def begin_file(self, kind, path, size, link=b""):
        """Packs the attributes of the next file, and returns the first part of its line in the
        manifest."""
        self.files += 1
        index = self.files
        mode, names = {FOLDER: (16_877, 2), LINK: (41_471, 1)}.get(kind, (33_188, 1))
        time = 1_600_000_000 + index
        numbers = [64_768, 35_000_000 + index, mode, names, 1000, 1000, 0, size, 4096]
        numbers += [(size + 511) // 512, time, time, time, 0]
        stat = " ".join(map(base64_number, numbers)).encode()
        record = b"%d %d %s\0%s\0%s\0" % (index, kind, path, stat, link)
        self.put(index, ATTRIBUTES, record)
        shown = ",".join(map(str, numbers))
        front = f"F {self.id} {self.time} {index} {kind} {escaped(path)} {shown} ={escaped(link)}"
        return index, front

    def add(self, kind, path, data=b"", link=b""):
        """Saves a file whose bytes are at hand."""
        index, front = self.begin_file(kind, path, len(data), link)
        for at in range(0, len(data), RECORD_BYTES):
            self.put(index, DATA, data[at : at + RECORD_BYTES])
        digest = hashlib.md5(data)
        if kind in (EMPTY_FILE, FILE):
            self.put(index, DIGEST, digest.digest())
        self.bytes += len(data)
        self.lines.append(f"{front} {len(data)} {digest.hexdigest()}\n")

    def add_large(self, path, size, chunks):
        """Saves a file whose bytes come in chunks, each of complete records except for the last."""
        index, front = self.begin_file(FILE, path, size)
        digest = hashlib.md5()
        for chunk in chunks:
            digest.update(chunk)
            view = memoryview(chunk)
            for at in range(0, len(chunk), RECORD_BYTES):
                self.put(index, DATA, view[at : at + RECORD_BYTES])
        self.put(index, DIGEST, digest.digest())
        self.bytes += size
        self.lines.append(f"{front} {size} {digest.hexdigest()}\n")


class Source:
    """Random bytes, made in large pieces."""

    def __init__(self, seed):
        self.random = random.Random(seed)
        self.piece = memoryview(b"")
        self.at = 0

    def take(self, size):
        """The next bytes, of at most one piece."""
        if len(self.piece) - self.at < size:
            self.piece = memoryview(self.random.randbytes(8 * MIB))
            self.at = 0
        self.at += size
        return self.piece[self.at - size : self.at]

    def chunks(self, size):
        while size > 0:
            take = min(size, 4 * MIB)
            yield self.take(take)
            size -= take


def ranges_without(first, last, every):
    """The indexes from first to last in ranges, without every n-th index; all of them for 0."""
    start = first
    for index in range(first, last + 1) if every else ():
        if index % every == 0:
            if start < index:
                yield start, index - 1
            start = index + 1
    if start <= last:
        yield start, last


def bootstrap_lines(sessions, without_every):
    """The groups of a restore of the sessions: one for each span."""
    for session in sessions:
        for span in session.spans:
            indexes = list(ranges_without(span.first_index, span.last_index, without_every))
            if span.first_index == 0 or not indexes:
                continue
            yield f'Volume="{span.volume}"\n'
            yield 'MediaType="File"\n'
            yield f"VolSessionId={session.id}\n"
            yield f"VolSessionTime={session.time}\n"
            yield f"VolAddr={span.start}-{span.end}\n"
            for first, last in indexes:
                yield f"FileIndex={first}-{last}\n" if first < last else f"FileIndex={first}\n"


def fill_small(sessions, size, source):
    """Many files of 4 KiB to 64 KiB, saved by the sessions in turns, with folders and links between them."""
    turns = source.random
    total = 0
    while total < size:
        session = turns.choice(sessions)
        number = session.files
        folder = f"/home/s{session.id}/folder-{number // FILES_IN_FOLDER:05}/".encode()
        if number % FILES_IN_FOLDER == 0:
            session.add(FOLDER, folder)
        elif number % FILES_IN_FOLDER == 1:
            session.add(LINK, folder + b"newest", link=b"file-%d" % number)
        elif number % FILES_IN_FOLDER == 2:
            session.add(EMPTY_FILE, folder + "with \\ and ä".encode())
        else:
            data = source.take(turns.randint(4096, 65_536))
            session.add(FILE, folder + b"file-%d" % number, data)
            total += len(data)


def fill_large(sessions, size, source):
    """Few large files."""
    (session,) = sessions
    session.add(FOLDER, b"/srv/")
    count = max(1, size // LEAST_LARGE_FILE) if size >= LEAST_LARGE_FILE else 4
    each = min(size // count, GREATEST_FILE)
    for number in range(count):
        session.add_large(b"/srv/image-%d" % number, each, source.chunks(each))


def fill_tiny(sessions, size, source):
    """Files of 1 KiB."""
    (session,) = sessions
    for number in range(size // 1024):
        folder = b"/home/folder-%05d/" % (number // FILES_IN_FOLDER)
        if number % FILES_IN_FOLDER == 0:
            session.add(FOLDER, folder)
        session.add(FILE, folder + b"file-%d" % number, source.take(1024))


# For each kind: how the sessions are filled, their number, the number and sort of volumes, and the
# level of blocks.
KINDS = {
    "small": (fill_small, 2, 4, Volumes, b"BB02"),
    "large": (fill_large, 1, 5, Volumes, b"BB02"),
    "small-older": (fill_small, 2, 4, Volumes, b"BB01"),
    "large-older": (fill_large, 1, 5, Volumes, b"BB01"),
    "one-session": (fill_small, 1, 4, Volumes, b"BB02"),
    "tiny": (fill_tiny, 1, 1, Volumes, b"BB02"),
    "short-volumes": (fill_small, 2, 100, Volumes, b"BB02"),
    "many-volumes": (fill_small, 2, 2000, Volumes, b"BB02"),
    "many-visits": (fill_small, 1, 2, VolumesInTurns, b"BB02"),
}


def make_set(folder, kind, size, seed, without_every=0):
    """Makes a set of files with this number of bytes in all, or a little more."""
    fill, session_count, volume_count, volumes_of, letters = KINDS[kind]
    os.mkdir(folder)
    volumes = volumes_of(os.path.join(folder, "volumes"), kind.capitalize(), size // volume_count + 1, Level(letters))
    sessions = [Session(volumes, n + 1, 1_700_000_000 + 60 * n) for n in range(session_count)]
    fill(sessions, size, Source(seed))
    for session in sessions:
        session.close()
    volumes.end()
    with open(os.path.join(folder, "bootstrap"), "w") as file:
        file.writelines(bootstrap_lines(sessions, without_every))
    files, restored = write_manifest(os.path.join(folder, "manifest"), sessions, without_every)
    facts = {
        "kind": kind,
        "size": size,
        "seed": seed,
        "without_every": without_every,
        "volumes": volumes.names,
        "volume_bytes": volumes.bytes,
        "blocks": volumes.blocks,
        "fragments": sum(session.fragments for session in sessions),
        "files": files,
        "restored_bytes": restored,
    }
    with open(os.path.join(folder, "set.json"), "w") as file:
        json.dump(facts, file, indent=1)
    return facts


def write_manifest(path, sessions, without_every):
    """Writes what the restore must print. Returns the number of files and bytes that it
    restores."""
    files = 0
    restored = 0
    with open(path, "w") as manifest:
        for session in sessions:
            for index, line in enumerate(session.lines, 1):
                if without_every and index % without_every == 0:
                    continue
                manifest.write(line)
                files += 1
                restored += int(line.split()[-2])
        manifest.write(f"total {files} 0 0\n")
    return files, restored
