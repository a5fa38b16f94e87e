"""Makes catalogues of some jobs, by SQLite's own library and with the tables of docs/formats.md."""

import contextlib
import os
import sqlite3
from collections import namedtuple

from common import ORDER_SQL

# A job of the client `mars` and the file set `home`: its files are tuples of index, path and numbers, and its span is a tuple of the
# volume, the first and the last index, and the first and the last address.
Job = namedtuple("Job", "id level start session files span")
# The numbers of a file with this number of bytes, which are written in base 64.
NUMBERS = b"A A IGk B A A A %s A A A A A A"


def tables():
    """Returns the statements that make the tables."""
    with open(ORDER_SQL) as text:
        return "".join(line for line in text if not line.startswith("INSERT"))


def number_of(connection, table, names, values):
    """Returns the number of a row with these values, which is added if it is not there."""
    marks = ", ".join("?" for _ in values)
    connection.execute(f"INSERT OR IGNORE INTO {table} ({names}) VALUES ({marks})", values)
    first = names.split(",")[0]
    return connection.execute(f"SELECT {table}Id FROM {table} WHERE {first} = ?", values[:1]).fetchone()[0]


def add_job(connection, job):
    """Adds the rows of a job."""
    client = number_of(connection, "Client", "Name", ("mars",))
    fileset = number_of(connection, "FileSet", "FileSet", ("home",))
    row = (job.id, "B", job.level, client, "T", job.start, fileset, *job.session)
    connection.execute("INSERT INTO Job VALUES (?, ?, ?, ?, ?, ?, ?, ?, ?)", row)
    volume, first, last, start, end = job.span
    media = number_of(connection, "Media", "VolumeName, MediaType", (volume, "File"))
    row = (job.id, media, first, last, start >> 32, end >> 32, start % 2**32, end % 2**32, 1)
    connection.execute("INSERT INTO JobMedia VALUES (NULL, ?, ?, ?, ?, ?, ?, ?, ?, ?)", row)
    for index, path, numbers in job.files:
        at = path.rfind(b"/") + 1
        way = number_of(connection, "Path", "Path", (path[:at],))
        connection.execute("INSERT INTO File VALUES (NULL, ?, ?, ?, ?, ?, '')", (index, job.id, way, path[at:], numbers.decode()))


def write_catalogue(file, jobs):
    """Makes a catalogue of these jobs in a new file. An old one is removed, with its log."""
    for name in (file, f"{file}-wal"):
        with contextlib.suppress(FileNotFoundError):
            os.remove(name)
    with contextlib.closing(sqlite3.connect(file)) as connection:
        connection.executescript("PRAGMA synchronous = OFF;" + tables())
        connection.execute("INSERT INTO Version VALUES (2)")
        for job in jobs:
            add_job(connection, job)
        connection.commit()


def write_one_job(file, second):
    """Makes the catalogue of a job that wrote two files, `/a` and this path, of five bytes each, into the first 160 bytes of the volume V.
    The job began on 2106-02-07, which 32 bits can't hold."""
    files = [(index, path, NUMBERS % b"F") for index, path in ((1, b"/a"), (2, second))]
    write_catalogue(file, [Job(1, "F", 2**32 + 1, (1, 100), files, ("V", 1, 2, 0, 159))])
