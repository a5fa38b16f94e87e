#!/usr/bin/env python3
"""Runs the commands over volumes of a block or two, and compares status, what is printed and which files are there afterwards.

    acceptance/commands.py                     needs the program in crates/brestore/out
    acceptance/commands.py --program FILE      another program

All that is expected was worked out by hand. The status is 1 if something is not as expected.
"""

import argparse
import hashlib
import os
import struct
import subprocess
import sys
import tempfile
from pathlib import Path

# Nothing is left beside the script.
sys.dont_write_bytecode = True
sys.path.insert(0, os.path.join(os.path.dirname(os.path.dirname(os.path.abspath(__file__))), "tools"))
from catalogued import write_one_job
from common import PROGRAM, Checks

STAT = b"A A IGk B A A A F A A A A A A"
NUMBERS = b"0,0,33188,1,0,0,0,%d,0,0,0,0,0,0"
HELLO, WORLD = b"5 5d41402abc4b2a76b9719d911017c592", b"5 7d793037a0760186574b0282f2f435e7"


def whole_block(second):
    """A block of session 1 at 100: the file `/a` with the bytes `hello`, and one at a path of four bytes with the bytes `world`."""
    return (
        b"\0\0\0\0\0\0\0\xa0\0\0\0\0BB02\0\0\0\x01\0\0\0\x64"
        b"\0\0\0\x01\0\0\0\x01\0\0\0\x261 3 /a\0" + STAT + b"\0\0"
        b"\0\0\0\x01\0\0\0\x02\0\0\0\x05hello"
        b"\0\0\0\x02\0\0\0\x01\0\0\0\x282 3 " + second + b"\0" + STAT + b"\0\0"
        b"\0\0\0\x02\0\0\0\x02\0\0\0\x05world"
    )


# A block of session 2 at 50, which is older: the file `/a` with the bytes `older`.
OLDER = (
    b"\0\0\0\0\0\0\0\x5b\0\0\0\0BB02\0\0\0\x02\0\0\0\x32"
    b"\0\0\0\x01\0\0\0\x01\0\0\0\x261 3 /a\0" + STAT + b"\0\0"
    b"\0\0\0\x01\0\0\0\x02\0\0\0\x05older"
)


def small_blocks(session, path):
    """The first block of a file with the bytes `message digest`, in blocks of at most 64 bytes, and its other two."""
    return (
        b"\0\0\0\0\0\0\0@\0\0\0\0BB02" + session + b"\0\0\0\x01\0\0\0\x01\0\0\0&1 3 " + path + b"\0A A IGk B A A A O A A",
        b"\0\0\0\0\0\0\0@\0\0\0\x01BB02" + session + b"\0\0\0\x01\xff\xff\xff\xff\0\0\0\x0a A A A A\0\0"
        b"\0\0\0\x01\0\0\0\x02\0\0\0\x0emessag"
        b"\0\0\0\0\0\0\0,\0\0\0\x02BB02" + session + b"\0\0\0\x01\xff\xff\xff\xfe\0\0\0\x08e digest",
    )


FIRST_OF_A, REST_OF_A = small_blocks(b"\0\0\0\x01\0\0\0\x64", b"/a")
FIRST_OF_B, REST_OF_B = small_blocks(b"\0\0\0\x02\0\0\0\xc8", b"/b")
# Both files begin on one volume and continue on the other.
TWO_VOLUMES = {"A": FIRST_OF_A + REST_OF_B, "B": REST_OF_A + FIRST_OF_B}
ACROSS = b"""Volume=A
VolSessionId=1
VolSessionTime=100
VolAddr=0-63
FileIndex=1
Volume=B
VolSessionId=1
VolSessionTime=100
VolAddr=0-107
FileIndex=1
Volume=B
VolSessionId=2
VolSessionTime=200
VolAddr=108-171
FileIndex=1
Volume=A
VolSessionId=2
VolSessionTime=200
VolAddr=64-171
FileIndex=1
"""
DIGEST = b"14 f96b697d7cb7938d525a2f31aaf161d0"


def line_of(session, index, path, size, data):
    """A line of a manifest: a file with this digest."""
    return b"F %s %d 3 %s %s = %s\n" % (session, index, path, NUMBERS % size, data)


def both(second=b"/d/b"):
    """The lines of the two files of a whole block."""
    return line_of(b"1 100", 1, b"/a", 5, HELLO) + line_of(b"1 100", 2, second, 5, WORLD)


OLD_LINE = line_of(b"2 50", 1, b"/a", 5, b"5 6a3a6f6e33217afa6373df9d6b2e8a00")
TWO = b"total 2 0 0\n"
PLAIN, CONFLICT, NO_TEXT = {"V": whole_block(b"/d/b")}, {"V": whole_block(b"/a/b")}, {"V": whole_block(b"/b\xff\xfe")}
COPIES = {**PLAIN, "W": OLDER}
BOTH, ONLY_A = {"a": b"hello", "d/b": b"world"}, {"a": b"hello"}
INDEXES = b"Volume=V\nVolSessionId=1\nVolSessionTime=100\nFileIndex=%s\n"
GROUPS = b"Volume=V\nFileIndex=1\n" * 1999 + b"Volume=V\nFileIndex=2\n"

# Restores by a bootstrap: the volumes, the bootstrap, further words, and then status, standard output, standard error and files.
EXTRACTS = [
    ("two files", PLAIN, b"Volume=V\n", [], 0, both() + TWO, b"", BOTH),
    ("a path in the way", CONFLICT, b"Volume=V\n", [], 1, both(b"/a/b") + TWO, b"refused 81\n", ONLY_A),
    ("a path that is no text", NO_TEXT, b"Volume=V\n", [], 1, both(b"/b\\xff\\xfe") + TWO, b"refused 80\n", ONLY_A),
    (
        "files across two volumes",
        TWO_VOLUMES,
        ACROSS,
        [],
        0,
        line_of(b"1 100", 1, b"/a", 14, DIGEST) + line_of(b"2 200", 1, b"/b", 14, DIGEST) + TWO,
        b"",
        {"a": b"message digest", "b": b"message digest"},
    ),
    (
        "two copies, of which the older one comes last",
        COPIES,
        b"Volume=V\nVolume=W\n",
        [],
        0,
        both() + OLD_LINE + b"total 3 0 0\n",
        b"",
        {**BOTH, "a": b"older"},
    ),
    ("the newest copy", COPIES, b"Volume=V\nVolume=W\n", ["--newest"], 0, both() + OLD_LINE + b"total 3 0 0\n", b"", BOTH),
    ("two files too few", PLAIN, INDEXES % b"1-4", ["--complete"], 1, both() + TWO, b"missing 1 100 3-4 V\n", BOTH),
    ("two files too few without a report", PLAIN, INDEXES % b"1-4", [], 0, both() + TWO, b"", BOTH),
    ("as many as there are", PLAIN, b"Volume=V\nFileIndex=1-2\nFileIndex=2-2147483647\n", ["--complete"], 0, both() + TWO, b"", BOTH),
    ("2,000 groups", PLAIN, GROUPS, [], 0, both() + TWO, b"", BOTH),
    ("a volume that is not there", PLAIN, b"Volume=W\n", [], 1, b"", b"refused 14 W 0\n", {}),
    ("a line that is not supported", PLAIN, b"Volume=V\nJob=1\n", [], 1, b"", b"refused 32 line 2\n", {}),
]


class Place:
    """A new folder with volumes, an empty folder to restore into, and a bootstrap or a catalogue."""

    def __init__(self, folder, volumes):
        self.folder = Path(tempfile.mkdtemp(dir=folder))
        self.volumes, self.into = self.folder / "volumes", self.folder / "into"
        self.volumes.mkdir()
        self.into.mkdir()
        for name, data in volumes.items():
            (self.volumes / name).write_bytes(data)

    def bootstrap(self, text):
        (self.folder / "x.bsr").write_bytes(text)
        return self.folder / "x.bsr"

    def catalogue(self, second=b"/d/b"):
        """Makes the catalogue of the job that wrote the whole block."""
        write_one_job(self.folder / "c.db", second)
        return self.folder / "c.db"

    def files(self, top="into"):
        """Returns the bytes of each file in a folder."""
        root = self.folder / top
        return {str(it.relative_to(root)): it.read_bytes() for it in root.rglob("*") if it.is_file()}


def run(checks, words, lines=b"", output=None):
    """Runs a command. Returns its status, standard output (nothing if that is this file) and standard error."""
    ran = subprocess.run([checks.program, *words], input=lines, stdout=output or subprocess.PIPE, stderr=subprocess.PIPE, timeout=60)
    return ran.returncode, ran.stdout or b"", ran.stderr


def extract_words(place, bootstrap, *more):
    return ["extract", "--bsr", place.bootstrap(bootstrap), "--volumes", place.volumes, "--drives", "3", *more]


def extracts(checks, folder):
    for name, volumes, bootstrap, more, status, printed, told, files in EXTRACTS:
        place = Place(folder, volumes)
        found = run(checks, extract_words(place, bootstrap, *more, "--into", place.into))
        checks.check(name, (found, place.files()), ((status, printed, told), files))
    place = Place(folder, PLAIN)
    checks.check("without a folder", run(checks, extract_words(place, b"Volume=V\n")), (0, both() + TWO, b""))
    for name, lines, expected in [
        ("a bootstrap on standard input", b"Volume=V\n", (0, both() + TWO, b"")),
        ("one with a line that is not supported", b"Volume=V\nJob=1\n", (1, b"", b"refused 32 line 2\n")),
    ]:
        words = ["extract", "--bsr", "-", "--volumes", place.volumes]
        checks.check(name, run(checks, words, lines), expected)
    found = run(checks, ["check", "--bsr", "-", "--volumes", place.volumes], b"Volume=V\n")
    checks.check("a check of one", found, (0, b"memory 67110480\ntotal 2 10\n", b""))
    checks.check("no file is delivered", place.files(), {})
    words = ["extract", "--bsr", place.folder / "no.bsr", "--volumes", place.volumes, "--into", place.volumes]
    checks.check("a filled folder, and no bootstrap", run(checks, words), (1, b"", b"refused 81\n"))
    checks.check("which stays as it is", place.files("volumes"), PLAIN)
    words[-1] = place.bootstrap(b"Volume=V\n")
    checks.check("a file in place of the folder", run(checks, words), (1, b"", b"refused 81\n"))


# The stream of the files `a` with the bytes `hello` and `d/b` with the bytes `world`, written byte by byte by a script that knows the
# format, and the stream of no files.
BOTH_TAR, EMPTY_TAR = (10240, "c6308590db8577b3c4e07adddb254d29"), (10240, hashlib.md5(bytes(10240)).hexdigest())


def tar_of(file):
    """Returns length and digest of a stream."""
    data = file.read_bytes()
    return len(data), hashlib.md5(data).hexdigest()


def streams(checks, folder):
    """Restores into tar streams."""
    place = Place(folder, PLAIN)
    tar = place.folder / "x.tar"
    words = extract_words(place, b"Volume=V\n", "--tar", tar)
    checks.check("a stream of two files", (run(checks, words), tar_of(tar)), ((0, both() + TWO, b""), BOTH_TAR))
    checks.check("a file that is there", (run(checks, words), tar_of(tar)), ((1, b"", b"refused 81\n"), BOTH_TAR))
    place = Place(folder, CONFLICT)
    tar = place.folder / "x.tar"
    found = run(checks, extract_words(place, b"Volume=V\n", "--tar", tar))
    checks.check("a stream that stops has no end", (found, tar_of(tar)[0]), ((1, both(b"/a/b") + TWO, b"refused 81\n"), 1024))
    tar = place.folder / "y.tar"
    found = run(checks, extract_words(place, b"Volume=W\n", "--tar", tar))
    checks.check("a stream of nothing", (found, tar_of(tar)[0]), ((1, b"", b"refused 14 W 0\n"), 0))


ALL = b"mark *\ndone\n"
MARKED = b'2 marked\nVolume="V"\nVolSessionId=1\nVolSessionTime=100\nVolAddr=0-159\nFileIndex=1-2\n'


def console_words(place, db, *more, client="mars"):
    """The words of a session that asks for what was saved before the second after the job began."""
    words = ["console", "--db", db, "--volumes", place.volumes, "--client", client, "--fileset", "home"]
    return [*words, "--before", "2106-02-07 06:28:18", "--drives", "2", *more]


# Sessions: the path of the second file, the lines, and then status, standard output, standard error and files.
SESSIONS = [
    ("what was marked", b"/d/b", ALL, 0, MARKED + both() + TWO, b"", BOTH),
    ("a marked path in the way", b"/a/b", ALL, 1, MARKED + both(b"/a/b") + TWO, b"refused 81\n", ONLY_A),
    ("a marked path that is no text", b"/b\xff\xfe", ALL, 1, MARKED + both(b"/b\\xff\\xfe") + TWO, b"refused 80\n", ONLY_A),
    ("a line that is refused", b"/d/b", b"mark nil\n" + ALL, 1, b"refused 57\n" + MARKED + both() + TWO, b"", BOTH),
]


def sessions(checks, folder):
    for name, second, lines, status, printed, told, files in SESSIONS:
        place = Place(folder, {"V": whole_block(second)})
        found = run(checks, console_words(place, place.catalogue(second), "--into", place.into), lines)
        checks.check(name, (found, place.files()), ((status, printed, told), files))
    place = Place(folder, PLAIN)
    db, missing, tar = place.catalogue(), place.folder / "missing.db", place.folder / "x.tar"
    checks.check("another client", run(checks, console_words(place, db, client="venus"), ALL), (1, b"", b"refused 53\n"))
    found = run(checks, console_words(place, db, "--tar", tar), ALL)
    checks.check("a stream of what was marked", (found, tar_of(tar)), ((0, MARKED + both() + TWO, b""), BOTH_TAR))
    found = run(checks, console_words(place, db, "--tar", tar), ALL)
    checks.check("a file that is there", (found, tar_of(tar)), ((1, b"", b"refused 81\n"), BOTH_TAR))
    tar = place.folder / "y.tar"
    found = run(checks, console_words(place, db, "--tar", tar), b"quit\n")
    checks.check("a stream of a session that is quit", (found, tar_of(tar)), ((0, b"", b""), EMPTY_TAR))
    for name, change, number in [
        ("client, moment, folder and catalogue", {"client": "a/b", "before": "2026-11-22"}, 2),
        ("moment, folder and catalogue", {"before": "2026-11-22"}, 52),
        ("folder and catalogue", {}, 81),
    ]:
        words = console_words(place, missing, "--into", place.volumes, client=change.get("client", "mars"))
        if "before" in change:
            words[words.index("--before") + 1] = change["before"]
        checks.check(f"{name}, all of them wrong", run(checks, words), (1, b"", b"refused %d\n" % number))
    checks.check("makes no catalogue", missing.exists(), False)


def wishes(checks, folder):
    """Sessions that resume, leave out what conflicts, and report what is missing."""
    place = Place(folder, CONFLICT)
    words = console_words(place, place.catalogue(b"/a/b"), "--into", place.into, "--keep-going")
    left = (1, MARKED + both(b"/a/b") + TWO, b"left 81 /a/b\n")
    checks.check("a marked path that is left out", (run(checks, words, ALL), place.files()), (left, ONLY_A))
    place = Place(folder, PLAIN)
    words = console_words(place, place.catalogue(), "--into", place.into)
    (place.into / "a").write_bytes(b"hello")
    (place.into / "x").write_bytes(b"mine")
    checks.check("a folder that is not empty", run(checks, words, ALL), (1, b"", b"refused 81\n"))
    found = run(checks, [*words, "--resume"], ALL)
    whole = (0, MARKED + both() + TWO, b"other /x\n")
    checks.check("which a session resumes", (found, place.files()), (whole, {**BOTH, "x": b"mine"}))
    checks.check("and one that is quit", run(checks, [*words, "--resume"], b"quit\n"), (0, b"", b""))
    place = Place(folder, {"V": block_of(1, "a", b"hello")})
    words = console_words(place, place.catalogue())
    lost = (1, MARKED + line_of(b"1 100", 1, b"/a", 5, HELLO) + b"X 1 100 2 63\ntotal 1 1 0\n", b"")
    for more in ([], ["--complete"]):
        checks.check(f"a marked file that the volume lacks, {more}", run(checks, [*words, *more], ALL), lost)
    place = Place(folder, PLAIN)
    words = console_words(place, place.catalogue(), "--complete")
    checks.check("none that it lacks", run(checks, words, ALL), (0, MARKED + both() + TWO, b""))


def manifests(checks, folder):
    """Sessions that write the manifest to a file."""
    place = Place(folder, PLAIN)
    db, manifest = place.catalogue(), place.folder / "manifest"
    manifest.write_bytes(b"F" * 5000)
    words = console_words(place, db, "--manifest", manifest, "--into", place.into)
    found = run(checks, words, ALL)
    checks.check("a manifest in a file", (found, manifest.read_bytes(), place.files()), ((0, MARKED, b""), both() + TWO, BOTH))
    found = run(checks, [*words, "--resume"], b"quit\n")
    checks.check("of a session that is quit", (found, manifest.read_bytes()), ((0, b"", b""), b""))
    status, stream, told = run(checks, console_words(place, db, "--manifest", manifest, "--tar", "-"), ALL)
    found = (status, len(stream), hashlib.md5(stream).hexdigest(), told, manifest.read_bytes())
    checks.check("beside a stream", found, (0, *BOTH_TAR, MARKED, both() + TWO))
    found = run(checks, console_words(place, db, "--manifest", "/dev/stdout"), ALL)
    checks.check("in a pipe", found, (0, MARKED + both() + TWO, b""))
    (place.volumes / "V").unlink()
    found = run(checks, console_words(place, db, "--manifest", manifest), ALL)
    checks.check("of a refused restore", (found, manifest.read_bytes()), ((1, MARKED, b"refused 14 V 0\n"), b""))
    place = Place(folder, PLAIN)
    for name, file, printed, told in [
        ("in a folder that is not there", place.folder / "none/m", b"", b"brestore: %s: No such file or directory (os error 2)\n"),
        ("on a full disk", "/dev/full", MARKED, b"brestore: standard input or output, or %s: No space left on device (os error 28)\n"),
    ]:
        found = run(checks, console_words(place, place.catalogue(), "--manifest", file, "--into", place.into), ALL)
        checks.check(name, (found, place.files()), ((3, printed, told % os.fsencode(file)), {}))


JOB = b"job %d B F T 100 2 100 64512 venus work\nput 3 %s 616263 - A A IGk B A A A D A A A A A A\nplace %s 0\n"
NEW = line_of(b"2 100", 1, b"/x", 3, b"3 900150983cd24fb0d6963f7d28e17f72") + b"total 1 0 0\n"
PLANNED = b'stored 2\n1 marked\nVolume="%s"\nVolSessionId=2\nVolSessionTime=100\nVolAddr=%s\nFileIndex=1\n'
ASKED = b"restore venus work 1970-01-01 00:01:41\nmark x\ndone\n"
# The one block of the job 2: `/x` with the bytes `abc`, of session 2 at 100.
BLOCK = (
    b"\0\0\0\0\0\0\0\x59\0\0\0\0BB02\0\0\0\x02\0\0\0\x64"
    b"\0\0\0\x01\0\0\0\x01\0\0\0\x261 3 /x\0A A IGk B A A A D A A A A A A\0\0"
    b"\0\0\0\x01\0\0\0\x02\0\0\0\x03abc"
)

# Scripts of `serve`: the lines, and then status, standard output and the volumes.
SCRIPTS = [
    (
        "a job that goes to a new volume",
        b"drives 2\n" + JOB % (2, b"/x", b"W") + b"end\n" + ASKED,
        0,
        PLANNED % (b"W", b"0-88") + NEW,
        {**PLAIN, "W": BLOCK},
    ),
    (
        "a job that goes on where the one of the catalogue ends",
        JOB % (2, b"/x", b"V") + b"end\n" + ASKED + b"restore mars home 2106-02-07 06:28:18\n" + ALL,
        0,
        PLANNED % (b"V", b"160-248") + NEW + MARKED + both() + TWO,
        {"V": PLAIN["V"] + BLOCK},
    ),
    (
        "bytes that no job vouches for",
        b"volume V 00\n" + (JOB % (2, b"/x", b"V") + b"end\n") + (JOB % (2, b"/x", b"W") + b"end\n"),
        1,
        b"refused 43\nstored 2\n",
        {"V": PLAIN["V"] + b"\0", "W": BLOCK},
    ),
    (
        "a job of a number that is there, one that is given up, and one without its end",
        (JOB % (1, b"/x", b"W") + b"end\n") + (JOB % (2, b"x", b"W") + b"end\n") + JOB % (3, b"/x", b"W"),
        1,
        b"refused 40\nrefused 3\n",
        PLAIN,
    ),
]


WARNED = b"purged 1: no files of this job are in the catalogue, so older copies may come back; its bootstrap restores them\n"
CHOICE = ["--client", "mars", "--fileset", "home", "--before", "2106-02-07 06:28:18"]
LISTED = b" 1 F T 2106-02-07 06:28:17 mars home %d %d V\n"


def purged(checks, folder):
    """Lists and restores jobs whose file rows are gone, beside those that have some."""
    place = Place(folder, PLAIN)
    db = place.catalogue()
    checks.check("a job with files is marked", run(checks, ["jobs", "--db", db, *CHOICE]), (0, b"*" + LISTED % (2, 10), b""))
    subprocess.run(["sqlite3", db, "UPDATE File SET FileIndex = 0"], check=True)
    checks.check("a job that deletes", run(checks, ["jobs", "--db", db, *CHOICE]), (0, b"*" + LISTED % (0, 0), b""))
    subprocess.run(["sqlite3", db, "DELETE FROM File"], check=True)
    checks.check("a purged job is marked", run(checks, ["jobs", "--db", db, *CHOICE]), (1, b"*" + LISTED % (0, 0), WARNED))
    checks.check("a purged job is listed", run(checks, ["jobs", "--db", db]), (0, b"-" + LISTED % (0, 0), b""))
    checks.check("a session over a purged job", run(checks, console_words(place, db), b"quit\n"), (1, b"", WARNED))
    found = run(checks, console_words(place, db, "--tar", place.folder / "x.tar"), b"count\nquit\n")
    checks.check("a session for a stream", (found, tar_of(place.folder / "x.tar")), ((1, b"0 paths, 0 marked\n", WARNED), EMPTY_TAR))
    found = run(checks, console_words(place, db, client="venus"), b"quit\n")
    checks.check("a purged job that is not chosen", found, (1, b"", b"refused 53\n"))
    subprocess.run(["sqlite3", db, "DELETE FROM JobMedia"], check=True)
    checks.check("a job that wrote nothing", run(checks, ["jobs", "--db", db, *CHOICE]), (0, b"*" + (LISTED % (0, 0)).replace(b"V", b"-"), b""))


def scripts(checks, folder):
    for name, lines, status, printed, volumes in SCRIPTS:
        place = Place(folder, PLAIN)
        found = run(checks, ["serve", "--db", place.catalogue(), "--volumes", place.volumes], lines)
        checks.check(name, (found, place.files("volumes")), ((status, printed, b""), volumes))
    place = Place(folder, PLAIN)
    words = ["serve", "--db", place.catalogue(), "--volumes", place.folder / "none"]
    checks.check("no folder of volumes", run(checks, words, JOB % (2, b"/x", b"W") + b"end\n"), (1, b"refused 44\n", b""))


def block_of(number, path, data, session=1):
    """A block of a session at 100 with the whole records of a file."""
    records = [(number, 1, b"%d 3 /%s\0%s\0\0" % (number, path.encode(), STAT)), (number, 2, data)]
    text = b"".join(struct.pack(">iiI", index, stream, len(it)) + it for index, stream, it in records)
    return struct.pack(">III4sII", 0, 24 + len(text), number - 1, b"BB02", session, 100) + text


def many(checks, folder):
    """Restores forty files, every fifth of them large, into a folder. They are written side by
    side."""
    files = {f"d{number % 4}/f{number}": bytes([number]) * (300_000 if number % 5 == 0 else 411 * number) for number in range(1, 41)}
    place = Place(folder, {"V": b"".join(block_of(number, *file) for number, file in enumerate(files.items(), 1))})
    status, printed, told = run(checks, extract_words(place, b"Volume=V\n", "--into", place.into))
    checks.check("forty files", (status, printed.splitlines()[-1], told), (0, b"total 40 0 0", b""))
    checks.check("with their bytes", place.files() == files, True)


def full(checks, folder):
    """Commands whose standard output takes no byte. They deliver nothing."""
    place = Place(folder, PLAIN)
    db = place.catalogue()
    with open("/dev/full", "wb") as output:
        for name, words, lines in [
            ("extract", extract_words(place, b"Volume=V\n", "--into", place.into), b""),
            ("console", console_words(place, db, "--into", place.into), ALL),
            ("serve", ["serve", "--db", db, "--volumes", place.volumes], b"unknown\n"),
            ("a script", [], b"unknown\n"),
        ]:
            status, _, told = run(checks, words, lines, output)
            found = status, told.startswith(b"brestore: "), place.files()
            checks.check(f"{name} with a full output", found, (3, True, {}))


def main():
    parser = argparse.ArgumentParser(description="Runs the commands over volumes of a block or two.")
    parser.add_argument("--program", type=os.path.abspath, default=PROGRAM, help="the program (default: %(default)s)")
    checks = Checks(parser.parse_args().program)
    with tempfile.TemporaryDirectory() as folder:
        for part in (extracts, streams, sessions, wishes, manifests, purged, scripts, many, full):
            part(checks, folder)
    return 1 if checks.failed else 0


if __name__ == "__main__":
    sys.exit(main())
