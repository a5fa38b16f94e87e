#!/usr/bin/env python3
"""Measures `brestore migrate`, beside SQLite itself that makes the same of a catalogue of version 1 by `INSERT .. SELECT`.

    bench/migrating.py                    100,000 and 1,000,000 paths
    bench/migrating.py --paths N ..       these
    bench/migrating.py --program FILE     another program than crates/brestore/out/brestore

The script makes a catalogue of version 1 of a Full by Python's `sqlite3`, and copies it. Seconds are those of the processor. The status
is 1 if the program printed something else than it must, or the rows of both are not the same.
"""

import argparse
import os
import shutil
import sqlite3
import sys
import tempfile
import time

# Nothing is left beside the script.
sys.dont_write_bytecode = True
sys.path.insert(0, os.path.join(os.path.dirname(os.path.dirname(os.path.abspath(__file__))), "tools"))
from common import MIB, PROGRAM, VERSION_1_SQL, run_measured
from loading import DIGEST, NUMBERS, number_at, path_of

# The same by SQLite itself. It can't change a column's place, so that a new table takes the rows.
BY_SQLITE = """BEGIN;
CREATE TABLE NewFile(FileId INTEGER PRIMARY KEY, FileIndex INTEGER NOT NULL, JobId INTEGER NOT NULL REFERENCES Job(JobId),
  PathId INTEGER NOT NULL REFERENCES Path(PathId), Filename BLOB NOT NULL, LStat TEXT NOT NULL, MD5 TEXT NOT NULL);
INSERT INTO NewFile SELECT FileId, FileIndex, JobId, PathId, Name, LStat, MD5 FROM File JOIN Filename USING (FilenameId) ORDER BY FileId;
DROP TABLE File;
DROP TABLE Filename;
ALTER TABLE NewFile RENAME TO File;
UPDATE Version SET VersionId = 2;
COMMIT;"""
ROWS = ("SELECT * FROM Version", "SELECT * FROM Job", "SELECT * FROM JobMedia", "SELECT * FROM Path", "SELECT * FROM File ORDER BY FileId")


def make(file, count):
    """Makes a catalogue of version 1 of one Full."""
    db = sqlite3.connect(file, isolation_level=None)
    with open(VERSION_1_SQL) as text:
        db.executescript("".join(f"{it};" for it in text.read().split(";") if "CREATE TABLE" in it))
    db.execute("BEGIN")
    db.execute("INSERT INTO Version VALUES (1)")
    db.execute("INSERT INTO Client VALUES (1, 'mars')")
    db.execute("INSERT INTO FileSet VALUES (1, 'home')")
    db.execute("INSERT INTO Media VALUES (1, 'Vol-0001', 'File')")
    db.execute("INSERT INTO Job VALUES (1, 'B', 'F', 1, 'T', 1, 1, 1, 1)")
    db.execute("INSERT INTO JobMedia VALUES (1, 1, 1, 1, ?, 0, 0, 0, 999999999, 1)", (count,))
    known = {}
    for place in range(count):
        path, _, name = path_of(number_at(place)).encode().rpartition(b"/")
        row = []
        for table, column, value in (("Path", "Path", path + b"/"), ("Filename", "Name", name)):
            if (table, value) not in known:
                known[table, value] = db.execute(f"INSERT INTO {table} ({column}) VALUES (?)", (value,)).lastrowid
            row.append(known[table, value])
        db.execute("INSERT INTO File VALUES (NULL, ?, 1, ?, ?, ?, ?)", (place + 1, *row, NUMBERS, DIGEST))
    db.execute("COMMIT")
    db.close()


def by_sqlite(file):
    """Migrates by SQLite itself. Returns the processor's seconds."""
    start = time.process_time()
    db = sqlite3.connect(file, isolation_level=None)
    db.executescript(BY_SQLITE)
    db.close()
    return time.process_time() - start


def rows_of(file):
    db = sqlite3.connect(file)
    rows = [db.execute(text).fetchall() for text in ROWS]
    db.close()
    return rows


def measure(program, paths, folder):
    """Measures a catalogue of this number of paths. Returns whether all is right."""
    file, other, told, errors = [os.path.join(folder, name) for name in (f"{paths}.db", "other.db", "told", "errors")]
    make(file, paths)
    shutil.copy(file, other)
    before = os.path.getsize(file)
    beside = by_sqlite(other)
    _, memory, seconds, status = run_measured([program, "migrate", "--db", file], told, errors)
    with open(told) as text:
        printed = text.read()
    is_right = (status, printed) == (0, "migrated 1\n") and rows_of(file) == rows_of(other)
    print(f"{paths} paths: {'right' if is_right else f'WRONG: {status}, {printed!r}'}")
    print(f"  migrate {seconds:8.2f} s, SQLite {beside:8.2f} s, ratio {seconds / beside:5.2f}; peak memory {memory / MIB:.0f} MiB")
    print(f"  file    {before / MIB:8.1f} MiB before, {os.path.getsize(file) / MIB:.1f} MiB after")
    os.remove(file)
    os.remove(other)
    return is_right


def main():
    parser = argparse.ArgumentParser(description="Measures migrations.")
    parser.add_argument("--program", default=PROGRAM, help="the program (default: %(default)s)")
    parser.add_argument("--paths", type=int, nargs="+", default=[100_000, 1_000_000])
    options = parser.parse_args()
    with tempfile.TemporaryDirectory() as folder:
        found = [measure(options.program, paths, folder) for paths in options.paths]
    return 0 if all(found) else 1


if __name__ == "__main__":
    sys.exit(main())
