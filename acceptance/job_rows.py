"""Jobs as fields of rows: how they are read, and made a catalogue or lines of a script.

A job is `ID:TLS:START`, with one letter each for type, level and status. After `@` comes its session as `ID:TIME`; without it the session
is `ID:7`. After `/` come client and file set as `CLIENT/FILESET`; without them they are `mars/home`. Then come the rows of its files, each
as `;PATH,INDEX,LSTAT` or `;PATH,INDEX,LSTAT,N` with a digest of the bytes N, and its spans, each as
`!VOLUME:FIRST-LAST:START-END:NUMBER`.
"""

import contextlib
import datetime
import sqlite3
from pathlib import Path

from common import ORDER_SQL, escaped
from row_fields import bytes_of

# What the words for an LStat mean: sizes of 0, 3, 14 and -7 bytes; hard links of 14 bytes to the files 1 and 2, and of 80 to file 3.
LSTATS = {
    "empty": "A A IGk B A A A A A A A A A A",
    "small": "A A IGk B A A A D A A A A A A",
    "saved": "A A IGk B A A A O A A A A A A",
    "below": "A A IGk B A A A -H A A A A A A",
    "link1": "A A IGk C A A A O A A A A A B",
    "link2": "A A IGk C A A A O A A A A A C",
    "link3": "A A IGk C A A A BQ A A A A A D",
}
TABLES = "".join(line for line in Path(ORDER_SQL).read_text().splitlines(keepends=True) if not line.startswith("INSERT"))
LATEST = "9999-12-31 23:59:59"


def moment_of(seconds):
    """Returns the text of a moment."""
    return str(datetime.datetime(1970, 1, 1) + datetime.timedelta(seconds=int(seconds)))


def lstat_of(field):
    """Returns the text of an LStat."""
    return LSTATS[field] if field in LSTATS else bytes_of(field).decode()


def file_of(field):
    """Returns path, index, LStat and digest of the row of a file."""
    path, index, lstat, *digest = field.split(",")
    return bytes_of(path), int(index), lstat_of(lstat), "".join(f"{int(it):02x}" for it in digest) * 16


def span_of(field):
    """Returns volume, first and last file, first and last byte, and number of a span."""
    volume, files, ends, number = field.split(":")
    return (volume, *(int(it) for it in (*files.split("-"), *ends.split("-"), number)))


def job_of(field):
    """Returns the job of a field."""
    front, *spans = field.split("!")
    row, *files = front.split(";")
    head, _, names = row.partition("/")
    head, _, session = head.partition("@")
    number, letters, start = head.split(":")
    client, fileset = (names or "mars/home").split("/")
    kind, level, status = letters
    return {
        "id": int(number),
        "letters": (kind, level, status),
        "start": int(start),
        "session": tuple(int(it) for it in (session or f"{number}:7").split(":")),
        "client": bytes_of(client).decode(),
        "fileset": bytes_of(fileset).decode(),
        "files": [file_of(it) for it in files],
        "spans": [span_of(it) for it in spans],
    }


def numbered(names):
    """Returns the number of each name."""
    return {name: number for number, name in enumerate(dict.fromkeys(names), 1)}


def add_rows(connection, jobs):
    """Adds the rows of jobs to a catalogue without rows."""
    clients, filesets = numbered(job["client"] for job in jobs), numbered(job["fileset"] for job in jobs)
    volumes = numbered(span[0] for job in jobs for span in job["spans"])
    paths = numbered(path[: path.rindex(b"/") + 1] for job in jobs for path, *_ in job["files"])
    add = connection.executemany
    add("INSERT INTO Client VALUES (?2, ?1)", clients.items())
    add("INSERT INTO FileSet VALUES (?2, ?1)", filesets.items())
    add("INSERT INTO Media VALUES (?2, ?1, 'File')", volumes.items())
    add("INSERT INTO Path VALUES (?2, ?1)", paths.items())
    for job in jobs:
        kind, level, status = job["letters"]
        row = job["id"], kind, level, clients[job["client"]], status, job["start"], filesets[job["fileset"]], *job["session"]
        connection.execute("INSERT INTO Job VALUES (?, ?, ?, ?, ?, ?, ?, ?, ?)", row)
        spans = [
            (job["id"], volumes[volume], first, last, start >> 32, end >> 32, start % 2**32, end % 2**32, number)
            for volume, first, last, start, end, number in job["spans"]
        ]
        add("INSERT INTO JobMedia VALUES (NULL, ?, ?, ?, ?, ?, ?, ?, ?, ?)", spans)
        files = [
            (index, job["id"], paths[path[: path.rindex(b"/") + 1]], path[path.rindex(b"/") + 1 :], lstat, digest)
            for path, index, lstat, digest in job["files"]
        ]
        add("INSERT INTO File VALUES (NULL, ?, ?, ?, ?, ?, ?)", files)


def make_catalogue(file, jobs):
    """Makes a catalogue of jobs."""
    with contextlib.closing(sqlite3.connect(file)) as connection:
        connection.execute("PRAGMA synchronous = OFF")
        connection.executescript(TABLES)
        connection.execute("INSERT INTO Version VALUES (2)")
        add_rows(connection, jobs)
        connection.commit()


def span_shown(row):
    """Returns a span as it is shown, from its row in a catalogue as stored.py asks for it."""
    _, volume, _, first, last, start_high, end_high, start, end, number = row
    ends = f"start: {start_high * 2**32 + start}, end: {end_high * 2**32 + end}"
    return f'Span {{ vol: VolName {{ name: "{volume}" }}, first: {first}, last: {last}, {ends}, vol_index: {number} }}'


def job_lines(job, limit=64, lines=b""):
    """Returns the lines of a script that commit a job with these lines between its first and its last."""
    kind, level, status = job["letters"]
    names = [escaped(job[it].encode()) for it in ("client", "fileset")]
    head = "job", job["id"], kind, level, status, job["start"], *job["session"], limit, *names
    return " ".join(str(it) for it in head).encode() + b"\n" + lines + b"end\n"
