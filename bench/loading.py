#!/usr/bin/env python3
"""Measures the catalogue: the jobs of a client loaded from an SQLite file by `brestore console`.

The script makes a catalogue of a Full of 100,000 and of 1,000,000 paths by SQLite itself, by
Python's module, and has the program read it twice. With `--verify-catalogue` a request for a client
that no job names is refused when all jobs are loaded: that run is the load. The other run answers
`count` and ends by `quit`, so it also builds the view and its tree. Beside them SQLite itself reads
the rows by the joined selects that the program uses. All are printed in seconds of the processor.

    bench/loading.py                    100,000 and 1,000,000 paths
    bench/loading.py --paths N ..       these
    bench/loading.py --program FILE     another program than crates/brestore/out/brestore

The status is 1 if the program printed something else than it must.
"""

import argparse
import os
import sqlite3
import sys
import tempfile
import time

# Nothing is left beside the script.
sys.dont_write_bytecode = True
sys.path.insert(0, os.path.join(os.path.dirname(os.path.dirname(os.path.abspath(__file__))), "tools"))
from common import MIB, ORDER_SQL, PROGRAM, run_measured

NUMBERS = "P0A Cat6a IGk B Po Po A C4 BAA I BfV5Ch BfV5Ch BfV5Ch A A C"
DIGEST = "07" * 16
SELECTS = (
    "SELECT * FROM Job JOIN Client USING (ClientId) JOIN FileSet USING (FileSetId) ORDER BY JobId",
    "SELECT * FROM JobMedia JOIN Media USING (MediaId) ORDER BY JobId, VolIndex",
    "SELECT JobId, FileIndex, Path, Filename, LStat, MD5 FROM File JOIN Path USING (PathId) ORDER BY FileId",
)


def tables():
    """The statements that make the tables."""
    with open(ORDER_SQL) as text:
        return [it for it in text.read().split(";") if "CREATE TABLE" in it]


def path_of(number):
    """Returns the path with this number. A project has a hundred paths, a user ten projects."""
    project = f"/home/user{number // 1000}/project{number // 100 % 10}/"
    if number == 97:
        return "/home/"
    if number % 1000 == 998:
        return f"/home/user{number // 1000}/"
    return project if number % 100 == 99 else f"{project}file{number:06}"


def number_at(place):
    """Returns the number of the path at a place of the Full. The files of a directory are in no
    order."""
    return place // 100 * 100 + place % 100 * 37 % 100


def change_at(job, place, apart):
    """Returns the path of a row of an Incremental, and whether the row is a deletion.

    `apart` is the number of paths of the Full for each row. Of ten rows one is a deletion, two are of new files, three of files that
    each Incremental has, and four of files that only this one has.
    """
    first = place * apart
    number = first + job
    if place % 10 in (1, 2):
        return f"/home/user{number // 1000}/project{number // 100 % 10}/added{job:02}-{number:06}", False
    return path_of(first if 3 <= place % 10 <= 5 else number), place % 10 == 0


def rows_of(job, count, rows):
    """Returns path and FileIndex of each row of a job: of the Full of `count` paths if its number is 0, else of an Incremental of `rows`
    rows. Deletions come last, and their FileIndex is 0."""
    if job == 0:
        return ((path_of(number_at(place)), place + 1) for place in range(count))
    changes = [change_at(job, place, count // rows) for place in range(rows)]
    saved = [path for path, is_deleted in changes if not is_deleted]
    return [*((path, index) for index, path in enumerate(saved, 1)), *((path, 0) for path, is_deleted in changes if is_deleted)]


def put_job(db, known, job, found):
    """Inserts the rows of a job, each path once in all, and its files on a volume of its own."""
    level, number, last = "I" if job else "F", job + 1, 0
    db.execute("INSERT INTO Job VALUES (?, 'B', ?, 1, 'T', ?, 1, ?, ?)", (number, level, number, number, number))
    for path, index in found:
        path, _, name = path.encode().rpartition(b"/")
        if path not in known:
            known[path] = db.execute("INSERT INTO Path (Path) VALUES (?)", (path + b"/",)).lastrowid
        row = (index, number, known[path], name, *((NUMBERS, DIGEST) if index else ("", "")))
        db.execute("INSERT INTO File (FileIndex, JobId, PathId, Filename, LStat, MD5) VALUES (?, ?, ?, ?, ?, ?)", row)
        last = max(last, index)
    db.execute("INSERT INTO Media VALUES (?, ?, 'File')", (number, f"Vol-{number:04}"))
    db.execute("INSERT INTO JobMedia VALUES (?, ?, ?, 1, ?, 0, 0, 0, 999999999, 1)", (number, number, number, last))


def make(file, count, jobs=0, rows=0):
    """Makes a catalogue of one Full, and of Incrementals of `rows` rows each."""
    db = sqlite3.connect(file, isolation_level=None)
    for statement in tables():
        db.execute(statement)
    db.execute("BEGIN")
    db.execute("INSERT INTO Version VALUES (2)")
    db.execute("INSERT INTO Client VALUES (1, 'mars')")
    db.execute("INSERT INTO FileSet VALUES (1, 'home')")
    known = {}
    for job in range(jobs + 1):
        put_job(db, known, job, rows_of(job, count, rows))
    db.execute("COMMIT")
    db.close()


def select(file):
    """Seconds in which SQLite reads the rows of jobs, spans and files, with names for numbers."""
    start = time.process_time()
    db = sqlite3.connect(file)
    count = sum(1 for text in SELECTS for _ in db.execute(text))
    db.close()
    return time.process_time() - start, count


def run(program, file, folder, client, lines, *more):
    """Returns the processor's seconds of a console session, its peak memory in bytes, its status and all that it printed."""
    names = [os.path.join(folder, name) for name in ("lines", "out", "err")]
    with open(names[0], "w") as text:
        text.write(lines)
    words = [program, "console", "--db", file, "--volumes", folder, "--client", client, "--fileset", "home"]
    words = ["sh", "-c", 'exec "$@" < "$0"', names[0], *words, "--before", "2026-01-01 00:00:00", *more]
    _, memory, seconds, status = run_measured(words, *names[1:])
    printed = ""
    for name in names[1:]:
        with open(name) as text:
            printed += text.read()
    return seconds, memory, status, printed


def measure(program, paths, folder):
    """Measures a catalogue of this number of paths. Returns whether all is right, and the seconds of both runs."""
    file = os.path.join(folder, f"{paths}.db")
    make(file, paths)
    read_by, count = select(file)
    load, most, *refused = run(program, file, folder, "nobody", "quit\n", "--verify-catalogue")
    begin, peak, *counted = run(program, file, folder, "mars", "count\nquit\n")
    is_right = count == paths + 2 and refused == [1, "refused 53\n"] and counted == [0, f"{paths} paths, 0 marked\n"]
    print(f"{paths} paths: {'right' if is_right else f'WRONG: {count} rows, {refused}, {counted}'}")
    print(f"  load          {load:8.2f} s, SQLite {read_by:8.2f} s, ratio {load / read_by:5.2f}; peak memory {most / MIB:.0f} MiB")
    print(f"  load and view {begin:8.2f} s; peak memory {peak / MIB:.0f} MiB")
    print(f"  file          {os.path.getsize(file) / MIB:8.1f} MiB")
    os.remove(file)
    return is_right, load, begin


def main():
    parser = argparse.ArgumentParser(description="Measures the catalogue.")
    parser.add_argument("--program", default=PROGRAM, help="the program (default: %(default)s)")
    parser.add_argument("--paths", type=int, nargs="+", default=[100_000, 1_000_000])
    options = parser.parse_args()
    with tempfile.TemporaryDirectory() as folder:
        found = [measure(options.program, paths, folder) for paths in options.paths]
    for before, after in zip(found, found[1:]):
        print(f"load grows {after[1] / before[1]:.1f} times, load and view {after[2] / before[2]:.1f} times")
    return 0 if all(it[0] for it in found) else 1


if __name__ == "__main__":
    sys.exit(main())
