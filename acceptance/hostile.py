#!/usr/bin/env python3
"""Hands `brestore` inputs that were made to harm it, and measures what the worst of them cost.

    acceptance/hostile.py [--program FILE] [NAME..]

Each case is compared with the second reading of the formats (reading.py), or with the refusal that docs/formats.md states. A run
may take one second and 64 MiB, if the case does not say otherwise. The status is 1 if a case differs or costs more.
"""

import argparse
import contextlib
import os
import shlex
import socket
import sqlite3
import struct
import subprocess
import sys
import tempfile
from pathlib import Path

# Nothing is left beside the script.
sys.dont_write_bytecode = True
sys.path.insert(0, os.path.join(os.path.dirname(os.path.dirname(os.path.abspath(__file__))), "tools"))
from choosing import consoled
from common import MIB, ORDER_SQL, PROGRAM, SETS, VERSION_1_SQL, run_measured
from drawing import store_job
from printed import CONSOLE_LINES, REFUSAL_LINES
from reading import extracted

HELLO = bytes.fromhex(
    "000000000000005b0000000042423032000000010000006400000001000000010000002631203320"
    "2f61004120412049476b2042204120412041204620412041204120412041204100000000000100000002" "0000000568656c6c6f"
)
OLDER = bytes.fromhex(
    "00000000000000630000000042423031000000010000006400000001000000010000002631203320"
    "2f61004120412049476b204220412041204120462041204120412041204120410000" "00000001000000640000000100000002" "0000000568656c6c6f"
)
ONE = b'Volume="V"\nFileIndex=1\n'
PLAIN = "A A IGk B A A A F A A A A A A"


def block(records, session=(1, 100), size=None):
    """Returns a block of records: index, stream, size or None for that of the data, and data."""
    body = b"".join(struct.pack(">iiI", index, stream, len(data) if said is None else said) + data for index, stream, said, data in records)
    return struct.pack(">III4sII", 0, 24 + len(body) if size is None else size, 0, b"BB02", *session) + body


def attributes(index, path=b"/a", kind=3):
    return index, 1, None, b"%d %d %s\0%s\0\0" % (index, kind, path, PLAIN.encode())


def sparse(address, data=b""):
    return 1, 6, None, struct.pack(">Q", address) + data


class Runs:
    """Runs of the program in a folder, and what was not as expected."""

    def __init__(self, program, folder):
        self.program, self.folder, self.count, self.worst, self.wrong = os.path.abspath(program), folder, 0, (0.0, 0), []

    def run(self, words, lines=os.devnull, before=()):
        """Runs the program, after other words if some are given. A run that has not ended after two minutes is ended."""
        out, errors = os.path.join(self.folder, "out"), os.path.join(self.folder, "errors")
        command = f"timeout 120 {shlex.join([*before, self.program, *words])} < {shlex.quote(lines)}"
        _, memory, seconds, status = run_measured(["sh", "-c", command], out, errors)
        self.count, self.worst = self.count + 1, (max(self.worst[0], seconds), max(self.worst[1], memory))
        return status, Path(out).read_bytes(), Path(errors).read_bytes()

    def write(self, name, data):
        path = Path(self.folder) / name
        path.parent.mkdir(exist_ok=True)
        path.write_bytes(data)
        return str(path)

    def extract(self, label, text, volumes, *more, expected=None):
        """Runs `extract` over volumes, and compares it with what is expected, or with the second reading."""
        for old in Path(self.folder).glob("volumes/*"):
            old.unlink()
        for name, data in volumes.items():
            self.write(f"volumes/{name}", data)
        words = ["extract", "--bsr", self.write("x.bsr", text), "--volumes", os.path.join(self.folder, "volumes"), *more]
        if expected is None:
            expected = extracted(text, {os.fsencode(name): data for name, data in volumes.items()})
        self.compare(label, self.run(words), expected)

    def compare(self, label, found, expected):
        if found != expected:
            self.wrong.append(f"{label}: {shortened(found)} in place of {shortened(expected)}")


def shortened(result):
    return " ".join(str(part)[-120:] for part in result)


# ---- cases: each takes the runs and returns the seconds and MiB that one run may cost


def prefixes(runs):
    """Each first part of a small volume."""
    for volume in (HELLO, OLDER):
        for length in range(len(volume)):
            runs.extract(f"{length} bytes", ONE, {"V": volume[:length]})
    return 1, 64


def sizes(runs):
    """Each kind of BlockSize and DataSize that lies."""
    for volume, places in ((HELLO, (32, 82)), (OLDER, (32, 90))):
        for size in (0, 1, 15, 16, 17, 23, 24, 25, 36, 90, 91, 92, 99, 4_194_303, 4_194_304, 4_194_305, 2**31 - 1, 2**31, 2**32 - 1):
            runs.extract(f"BlockSize {size}", ONE, {"V": volume[:4] + struct.pack(">I", size) + volume[8:]})
        for at in places:
            for size in (0, 1, 4, 5, 6, 37, 39, 2**31 - 1, 2**31, 2**32 - 1):
                runs.extract(f"DataSize {size} at {at}", ONE, {"V": volume[:at] + struct.pack(">I", size) + volume[at + 4 :]})
    return 1, 64


def letters(runs):
    """Each byte of a small volume of either level, changed in eight ways."""
    for volume in (HELLO, OLDER):
        for at in range(len(volume)):
            for bit in range(8):
                changed = volume[:at] + bytes([volume[at] ^ 1 << bit]) + volume[at + 1 :]
                runs.extract(f"bit {bit} of byte {at}", ONE, {"V": changed})
    return 1, 64


def lines_of_4096(runs):
    """Bootstrap lines at the greatest length, by comments, lists and blanks."""
    for length in (4095, 4096, 4097, 10_000, MIB):
        for line in (b"#" * length, b"FileIndex=1" + b" " * (length - 11), (b"FileIndex=" + b"1," * length)[: length - 1] + b"1"):
            for end in (b"\n", b"\r\n", b""):
                runs.extract(f"line of {length}", b'Volume="V"\n' + line + end, {"V": HELLO})
    return 1, 64


TOO_LONG = b"refused 34 line %d\n"
# What is told of a bootstrap that is no file.
NO_FILE = "brestore: %s: no regular file; - stands for standard input\n"


def endless(runs):
    """Bootstraps whose last line has no end, from a device and from pipes on standard input: refused as soon as that
    line is too long, or by an earlier line. As files neither is opened."""
    Path(runs.folder, "volumes").mkdir(exist_ok=True)
    device, pipe = Path(runs.folder) / "device", os.path.join(runs.folder, "pipe")
    device.symlink_to("/dev/zero")
    os.mkfifo(pipe)
    for path in ("/dev/zero", str(device)):
        runs.compare(f"standard input from {path}", runs.run(extract_words(runs, "-"), path), (1, b"", TOO_LONG % 1))
    # Nobody writes to the pipe.
    for path in ("/dev/zero", str(device), pipe):
        for words in (extract_words(runs, path), ["check", *extract_words(runs, path)[1:]]):
            runs.compare(f"{words[0]} by {path}", runs.run(words), (3, b"", (NO_FILE % path).encode()))
    for label, front, letter, told in (
        ("letters", b"", "a", TOO_LONG % 1),
        ("CRs", b"", "\\r", TOO_LONG % 1),
        ("a comment after good lines", ONE + b"#", "a", TOO_LONG % 3),
        ("letters after a bad line", ONE + b"FileIndex=0\n", "a", b"refused 33 line 3\n"),
        ("letters after a line that is too long", b"#" * 4097 + b"\r\n", "a", TOO_LONG % 1),
        ("letters after 10,000 groups", ONE * 10_000, "a", TOO_LONG % 20_001),
    ):
        feed = f"cat {shlex.quote(runs.write('front', front))} - | tr '\\0' '{letter}' > {shlex.quote(pipe)}"
        runs.compare(label, run_fed(runs, pipe, feed, Path("/dev/zero")), (1, b"", told))
    return 1, 64


def in_two_parts(runs):
    """Lines at the greatest length that come in two parts, so that the first part is all that is read before a pause."""
    pipe = os.path.join(runs.folder, "pipe")
    os.mkfifo(pipe)
    runs.write("volumes/V", HELLO)
    for length in (4095, 4096, 4097):
        for end in (b"\n", b"\r\n", b"\r"):
            text = b"#" * length + end + ONE
            for cut in range(length, length + len(end) + 1):
                front, back = runs.write("front", text[:cut]), runs.write("back", text[cut:])
                feed = f"(cat {shlex.quote(front)}; sleep 0.1; cat {shlex.quote(back)}) > {shlex.quote(pipe)}"
                found = run_fed(runs, pipe, feed, Path(os.devnull))
                runs.compare(f"line of {length}, {end}, cut at {cut}", found, extracted(text, {b"V": HELLO}))
    return 1, 64


def extract_words(runs, bootstrap):
    return ["extract", "--bsr", bootstrap, "--volumes", os.path.join(runs.folder, "volumes")]


def run_fed(runs, pipe, feed, lines):
    """Runs `extract` with standard input from a pipe that a command of the shell writes to, which ends with the program."""
    with lines.open("rb") as given, subprocess.Popen(["timeout", "120", "sh", "-c", feed], stdin=given, stderr=subprocess.DEVNULL):
        return runs.run(extract_words(runs, "-"), pipe)


def many_groups(runs):
    """Bootstraps of 10,000 and 100,000 groups, of one volume and of volumes that are not there."""
    for count in (10_000, 100_000):
        runs.extract(f"{count} groups", ONE * count, {"V": HELLO})
        ranges = b"".join(b'Volume="V"\nVolAddr=%d-%d\nFileIndex=1\n' % (n * 91, n * 91 + 90) for n in range(count))
        runs.extract(f"{count} addresses", ranges, {"V": HELLO})
        others = b"".join(b'Volume="N%d"\n' % n for n in range(count))
        runs.extract(f"{count} volumes", others, {"V": HELLO}, expected=(1, b"", b"refused 14 N0 0\n"))
    return 5, 256


def many_ranges(runs):
    """One group of 100,000 ranges, and files that all of them are asked about."""
    text = b'Volume="V"\n' + b"".join(b"FileIndex=%d-%d\n" % (2 * n + 2, 2 * n + 2) for n in range(100_000))
    records = [record for index in range(1, 3001) for record in (attributes(index, b"/f%d" % index), (index, 2, None, b"x"))]
    volume = b"".join(block(records[at : at + 100]) for at in range(0, len(records), 100))
    runs.extract("100,000 ranges", text, {"V": volume})
    return 5, 256


def small_blocks(runs):
    """A million blocks of 24 bytes and of 16, which hold nothing, and 40,000 records without data in one block."""
    older = struct.pack(">III4s", 0, 16, 0, b"BB01")
    for label, empty in (("blocks of 24 bytes", block([])), ("blocks of 16 bytes", older)):
        runs.extract(label, ONE, {"V": empty * 1_000_000}, expected=(0, b"total 0 0 0\n", b""))
    runs.extract("records without data", ONE, {"V": block([attributes(1), *[(1, 2, None, b"")] * 40_000])})
    return 25, 600


def jumps(runs):
    """Sparse records that jump to the greatest addresses, forwards and back."""
    for address in (0, 1, 2**30 - 1, 2**30, 2**30 + 1, 2**31, 2**32, 2**63 - 1, 2**63, 2**64 - 1):
        for data in (b"", b"x"):
            if address + len(data) <= 2**20 or address + len(data) > 2**30:
                runs.extract(f"jump to {address}", ONE, {"V": block([attributes(1), sparse(address, data)])})
                runs.extract(f"jump to {address} and back", ONE, {"V": block([attributes(1), sparse(address, data), sparse(0, b"x")])})
    return 1, 64


def gibibyte(runs):
    """A file of 1 GiB that is zeros except for one byte: its digest is computed, its zeros are not
    stored."""
    words = {"V": block([attributes(1), sparse(2**30 - 1, b"x")])}
    digest = subprocess.run("(head -c 1073741823 /dev/zero; printf x) | md5sum", shell=True, capture_output=True, check=True).stdout[:32]
    line = b"F 1 100 1 3 /a 0,0,33188,1,0,0,0,5,0,0,0,0,0,0 = 1073741824 " + digest + b"\ntotal 1 0 0\n"
    runs.extract("1 GiB of zeros", ONE, words, expected=(0, line, b""))
    return 20, 64


def names(runs):
    """Names of volumes of 127 and 128 bytes, and paths of 4,096 and 4,097."""
    for length in (126, 127):
        runs.extract(f"name of {length}", b"Volume=%s\n" % (b"v" * length), {"v" * length: HELLO})
    runs.extract("name of 128", b"Volume=%s\n" % (b"v" * 128), {"V": HELLO})
    for length in (4095, 4096, 4097, 60_000):
        runs.extract(f"path of {length}", ONE, {"V": block([attributes(1, b"/" + b"p" * (length - 1)), (1, 2, None, b"x")])})
    return 1, 64


def make_socket(path):
    with socket.socket(socket.AF_UNIX) as made:
        made.bind(str(path))


def make_without_rights(path, data=HELLO):
    path.write_bytes(data)
    path.chmod(0)


def clear(path):
    """Removes what is at a path, if something is."""
    if path.is_dir() and not path.is_symlink():
        path.chmod(0o700)
        path.rmdir()
    elif path.is_symlink() or path.exists():
        path.unlink()


def as_nobody(runs):
    """Returns the words that run a program without the rights of root, if this is root."""
    if os.getuid() != 0:
        return ()
    for path in (runs.folder, os.path.join(runs.folder, "volumes")):
        os.chmod(path, 0o755)
    return "setpriv", "--reuid=65534", "--regid=65534", "--clear-groups"


NO_DRIVE, MISSING = (1, b"", b"refused 70\n"), (1, b"", b"refused 14 V 0\n")


def odd_files(runs):
    """Links, pipes, sockets, folders and files without rights under the name of a volume, or of the folder of volumes: nothing hangs."""
    volumes = Path(runs.folder) / "volumes"
    volumes.mkdir(exist_ok=True)
    text = runs.write("x.bsr", ONE)
    hello = extracted(ONE, {b"V": HELLO})
    makers = {
        "a pipe": (os.mkfifo, NO_DRIVE),
        "a socket": (make_socket, NO_DRIVE),
        "a folder": (Path.mkdir, NO_DRIVE),
        "a file without rights": (make_without_rights, NO_DRIVE),
        "a folder without rights": (lambda path: path.mkdir(0), NO_DRIVE),
        "a link to nothing": (lambda path: path.symlink_to("nothing"), MISSING),
        "a link to itself": (lambda path: path.symlink_to(path.name), NO_DRIVE),
        "a link to a pipe": (lambda path: path.symlink_to(runs.folder + "/pipe"), NO_DRIVE),
        "a link to a device": (lambda path: path.symlink_to("/dev/zero"), NO_DRIVE),
        "a link to a volume": (lambda path: path.symlink_to(runs.write("other", HELLO)), hello),
        "an empty file": (lambda path: path.write_bytes(b""), (0, b"total 0 0 0\n", b"")),
        "nothing": (lambda path: None, MISSING),
    }
    os.mkfifo(runs.folder + "/pipe")
    for label, (make, expected) in makers.items():
        for drives in ("1", "3"):
            make(volumes / "V")
            words = ["extract", "--bsr", text, "--volumes", str(volumes), "--drives", drives]
            runs.compare(f"{label}, {drives} drives", runs.run(words, before=as_nobody(runs)), expected)
            clear(volumes / "V")
    for label, (make, expected) in makers.items():
        # A volume is not in a folder which is empty or not there, and none is below anything else.
        if label not in ("a link to a volume", "an empty file"):
            make(Path(runs.folder) / "odd")
            words = ["extract", "--bsr", text, "--volumes", runs.folder + "/odd"]
            found = runs.run(words, before=as_nobody(runs))
            runs.compare(f"volumes in {label}", found, MISSING if label == "a folder" else expected)
            clear(Path(runs.folder) / "odd")
    return 1, 64


def odd_places(runs):
    """The same for a catalogue, a bootstrap, and a target: 45, the status 3, 81."""
    volumes, odd = Path(runs.folder) / "volumes", Path(runs.folder) / "odd"
    volumes.mkdir(exist_ok=True)
    extract = ["extract", "--volumes", str(volumes), "--bsr"]
    console = ["console", "--volumes", str(volumes), "--client", "c", "--fileset", "f", "--before", "1970-01-01 00:00:10", "--db", str(odd)]
    makers = {
        "a pipe": os.mkfifo,
        "a socket": make_socket,
        "a folder": Path.mkdir,
        "a file without rights": lambda path: make_without_rights(path, b""),
        "a link to nothing": lambda path: path.symlink_to("nothing"),
        "a link to itself": lambda path: path.symlink_to("odd"),
        "a link to a device": lambda path: path.symlink_to("/dev/zero"),
        "nothing": lambda path: None,
    }
    for label, make in makers.items():
        make(odd)
        runs.compare(f"a catalogue: {label}", runs.run(console, before=as_nobody(runs)), (1, b"", b"refused 45\n"))
        runs.compare(f"a catalogue to migrate: {label}", runs.run(["migrate", "--db", str(odd)], before=as_nobody(runs)), (1, b"", b"refused 45\n"))
        status, printed, told = runs.run([*extract, str(odd)], before=as_nobody(runs))
        runs.compare(f"a bootstrap: {label}", (status, printed, told.startswith(b"brestore: ")), (3, b"", True))
        for option in ("--into", "--tar"):
            if label != "nothing" and (option, label) != ("--into", "a folder"):
                words = [*extract, runs.write("x.bsr", b""), option, str(odd)]
                runs.compare(f"{option}: {label}", runs.run(words, before=as_nobody(runs)), (1, b"", b"refused 81\n"))
        clear(odd)
    return 1, 64


def new_catalogue(runs, name, text):
    """Makes a catalogue by a script of SQL, and returns its file."""
    catalogue = os.path.join(runs.folder, name)
    with contextlib.closing(sqlite3.connect(catalogue)) as connection:
        connection.executescript(text)
    return catalogue


ODD_VALUES = "-1 0 1 3 2147483648 4294967296 9223372036854775807 -9223372036854775808 1.5 1e300 '' 'x' '1' X'' X'00' X'FF'".split()
ODD_VALUES += ["printf('%.*c', 100000, 'A')", "zeroblob(100000)", "'A A IGk B A A A A A A A A A P//////////'"]


def odd_rows(runs):
    """Each column of a catalogue with values of other types, negative, huge and repeated ones: lines in the formats, by 0 or 1."""
    lines = runs.write("lines", b"ls\nmark *\nfind *\nestimate\ndone\n")
    words = ["console", "--volumes", os.path.join(SETS, "order"), "--client", "peer-fd", "--fileset", "Peer", "--before", "2026-11-21 23:15:46"]
    for label, catalogue in odd_catalogues(runs, ORDER_SQL):
        compare_lines(runs, label, runs.run([*words, "--db", catalogue], lines))
    return 1, 64


def odd_catalogues(runs, text):
    """Gives each catalogue with an odd value in a column of one row or of all, and what was changed."""
    whole = new_catalogue(runs, "whole.db", Path(text).read_text())
    with contextlib.closing(sqlite3.connect(whole)) as connection:
        tables = [row[0] for row in connection.execute("SELECT name FROM sqlite_schema WHERE type = 'table'")]
        columns = [(table, row[1]) for table in tables for row in connection.execute(f"PRAGMA table_info({table})")]
    data = Path(whole).read_bytes()
    for table, column in columns:
        for value in ODD_VALUES:
            for place in ("1", "rowid"):
                catalogue = written_alone(runs, data)
                if is_changed(catalogue, f"UPDATE OR IGNORE {table} SET {column} = {value} WHERE rowid = {place}"):
                    yield f"{table}.{column} = {value} in {place}", catalogue


def written_alone(runs, data):
    """Writes the file of a catalogue, without a log beside it."""
    for left in Path(runs.folder).glob("x.db-*"):
        left.unlink()
    return runs.write("x.db", data)


def is_changed(catalogue, change):
    """Changes a catalogue. Returns whether the tables take the values, and some row is changed."""
    with contextlib.closing(sqlite3.connect(catalogue)) as connection:
        with contextlib.suppress(sqlite3.Error):
            changed = connection.execute(change).rowcount
            connection.commit()
            return changed > 0
    return False


def compare_lines(runs, label, found):
    """Compares the status with 0 and 1, and each line with the formats."""
    status, printed, told = found
    is_known = all(CONSOLE_LINES.fullmatch(it) for it in printed.splitlines()) and all(REFUSAL_LINES.fullmatch(it) for it in told.splitlines())
    if status not in (0, 1) or not is_known or (status == 0 and told):
        runs.wrong.append(f"{label}: {shortened(found)}")


def circles(runs):
    """Hard links that link to each other, to themselves, to a folder and to nothing, and spans of other jobs' bytes."""
    paths = [(b"/a", 2), (b"/b", 1), (b"/c", 3), (b"/d", 1), (b"/e", 9), (b"/f/", 1), (b"/g", 6), (b"/h", -1), (b"/i", 2**31)]
    numbers = [[0, 0, 33188, 1, 0, 0, 0, 5, 0, 0, 0, 0, 0, link] for _, link in paths]
    records = [record for index, (path, _) in enumerate(paths, 1) for record in (attributes(index, path, 5 if path.endswith(b"/") else 3),)]
    volume = block(records)
    job = {"id": 1, "session": (1, 100), "start": 100, "type": "B", "level": "F", "status": "T", "client": b"c", "fileset": b"f"}
    job["files"] = [(path, index, numbers[index - 1]) for index, (path, _) in enumerate(paths, 1)]
    job["spans"] = [(b"V", 1, 9, 0, len(volume) - 1)]
    other = job | {"id": 2, "session": (2, 100), "level": "I", "start": 200}
    catalogue = new_catalogue(runs, "x.db", Path(ORDER_SQL).read_text().split("INSERT")[0] + "INSERT INTO Version VALUES (2);")
    with contextlib.closing(sqlite3.connect(catalogue)) as connection:
        store_job(connection, job)
        store_job(connection, other)
        connection.commit()
    runs.write("volumes/V", volume)
    words = ["console", "--db", catalogue, "--volumes", os.path.join(runs.folder, "volumes"), "--client", "c", "--fileset", "f"]
    for before, moment in (("1970-01-01 00:02:30", 150), ("1970-01-01 00:05:00", 300)):
        for mark in (b"*", *(path.rstrip(b"/")[1:] for path, _ in paths)):
            text = b"mark %s\ndone\n" % mark
            expected = consoled([job, other], {b"V": volume}, (b"c", b"f", moment), text)
            runs.compare(f"mark {mark} before {moment}", runs.run([*words, "--before", before], runs.write("lines", text)), expected)
    return 1, 64


def odd_old_rows(runs):
    """Each column of a catalogue of version 1 with odd values: migrated with the same rows, or
    refused with 45 or 47 and unchanged."""
    words = ["console", "--volumes", os.path.join(SETS, "order"), "--client", "peer-fd", "--fileset", "Peer", "--before", "2026-11-21 23:15:46"]
    lines = runs.write("lines", b"ls\nmark *\nfind *\nestimate\ndone\n")
    for label, catalogue in odd_catalogues(runs, VERSION_1_SQL):
        if compare_migration(runs, label, catalogue):
            found = runs.run([*words, "--db", catalogue], lines)
            compare_lines(runs, label, found)
            if found[2] in (b"refused 45\n", b"refused 47\n", b"refused 48\n"):
                runs.wrong.append(f"{label}: migrated, and then {shortened(found)}")
    return 1, 64


# The rows of a catalogue of each version, and what is the same in both.
ROWS = {
    1: "SELECT FileId, FileIndex, JobId, PathId, Name, LStat, MD5 FROM File JOIN Filename USING (FilenameId) ORDER BY FileId",
    2: "SELECT FileId, FileIndex, JobId, PathId, Filename, LStat, MD5 FROM File ORDER BY FileId",
}
SAME_TABLES = "Client FileSet Media Path Job JobMedia".split()


def rows_of(catalogue, version):
    with contextlib.closing(sqlite3.connect(catalogue)) as connection:
        return [connection.execute(text).fetchall() for text in (*(f"SELECT * FROM {table} ORDER BY rowid" for table in SAME_TABLES), ROWS[version])]


def compare_migration(runs, label, catalogue):
    """Migrates a catalogue of version 1, and compares what is left in its file alone. Returns whether it is migrated."""
    before, data = rows_of(catalogue, 1), Path(catalogue).read_bytes()
    found = runs.run(["migrate", "--db", catalogue])
    if found in [(1, b"", b"refused %d\n" % number) for number in (45, 47)]:
        is_same = Path(catalogue).read_bytes() == data
        runs.wrong += [] if is_same else [f"{label}: {shortened(found)}, and the file is changed"]
        return False
    runs.compare(label, found, (0, b"migrated %d\n" % len(before[SAME_TABLES.index("Job")]), b""))
    for left in Path(runs.folder).glob("x.db-*"):
        left.unlink()
    with contextlib.closing(sqlite3.connect(catalogue)) as connection:
        sound = connection.execute("PRAGMA integrity_check").fetchall(), connection.execute("SELECT * FROM Version").fetchall()
    if sound != ([("ok",)], [(2,)]) or rows_of(catalogue, 2) != before:
        runs.wrong.append(f"{label}: migrated to other rows")
    return True


def spoilt(data, size=4096):
    """Gives each catalogue that is cut at a page or has one overwritten, and what was done to it."""
    for page in range(len(data) // size):
        front, own, rest = data[: page * size], data[page * size : (page + 1) * size], data[(page + 1) * size :]
        for label, changed in {
            "cut before": front,
            "cut within": front + own[:1000],
            "zeros in": front + bytes(size) + rest,
            "ones in": front + b"\xff" * size + rest,
            "the first page in": front + data[:size] + rest,
            "random bytes in": front + os.urandom(size) + rest,
        }.items():
            if changed:
                yield f"{label} page {page}", changed


def cut_catalogues(runs):
    """A catalogue cut after each page, and each page of it overwritten: refused with 45 or 47, or read as before."""
    data = Path(new_catalogue(runs, "whole.db", Path(ORDER_SQL).read_text())).read_bytes()
    words = ["--volumes", os.path.join(SETS, "order"), "--client", "peer-fd", "--fileset", "Peer", "--before", "2026-11-21 23:15:46"]
    lines = runs.write("lines", b"mark *\nfind *\nquit\n")
    allowed = [runs.run(["console", "--db", runs.write("y.db", data), *words], lines)] + [(1, b"", b"refused %d\n" % number) for number in (45, 47)]
    if allowed[0][0] != 0:
        runs.wrong.append(f"the whole catalogue: {shortened(allowed[0])}")
    for label, changed in spoilt(data):
        found = runs.run(["console", "--db", written_alone(runs, changed), *words], lines)
        if found not in allowed:
            runs.wrong.append(f"{label}: {shortened(found)}")
    return 1, 64


def cut_old_catalogues(runs):
    """The same for a catalogue of version 1 that is to be migrated: refused with 45 or 47 and
    unchanged, or migrated to the same rows."""
    whole = new_catalogue(runs, "whole.db", Path(VERSION_1_SQL).read_text())
    data, rows = Path(whole).read_bytes(), rows_of(whole, 1)
    for label, changed in spoilt(data):
        catalogue = written_alone(runs, changed)
        found = runs.run(["migrate", "--db", catalogue])
        if found == (0, b"migrated 3\n", b""):
            is_well = rows_of(catalogue, 2) == rows
        else:
            is_well = found in [(1, b"", b"refused %d\n" % number) for number in (45, 47)] and Path(catalogue).read_bytes() == changed
        if not is_well:
            runs.wrong.append(f"{label}: {shortened(found)}")
    return 1, 64


CASES = (prefixes, sizes, letters, lines_of_4096, endless, in_two_parts, many_groups, many_ranges, small_blocks, jumps, gibibyte, names)
CASES += (odd_files, odd_places, odd_rows, circles, cut_catalogues, odd_old_rows, cut_old_catalogues)


def main():
    parser = argparse.ArgumentParser(description=__doc__.splitlines()[0])
    parser.add_argument("--program", default=PROGRAM)
    parser.add_argument("names", nargs="*")
    given, failed = parser.parse_args(), 0
    names = [case.__name__ for case in CASES]
    if not given.names:
        # Each case runs in its own process: the peak memory of a run includes what its parent held.
        words = [sys.executable, __file__, "--program", given.program]
        return max(subprocess.run([*words, name], check=False).returncode for name in names)
    for case in (CASES[names.index(name)] for name in given.names):
        with tempfile.TemporaryDirectory(prefix="hostile-") as folder:
            runs = Runs(given.program, folder)
            seconds, memory = case(runs)
        costs = runs.worst[0] > seconds, runs.worst[1] > memory * MIB
        failed += bool(runs.wrong or any(costs))
        verdict = "differs" if runs.wrong else "costs too much" if any(costs) else "as expected"
        print(f"{case.__name__}: {runs.count} runs, at most {runs.worst[0]:.2f} s and {runs.worst[1] / MIB:.0f} MiB: {verdict}", flush=True)
        for line in runs.wrong[:5]:
            print(f"    {line}")
    return 1 if failed else 0


if __name__ == "__main__":
    sys.exit(main())
