#!/usr/bin/env python3
"""Measures commits: jobs that `brestore serve --db --volumes` stores, beside SQLite's own library that inserts the same rows.

    bench/committing.py                    100 commits over a catalogue of a million file rows, then 1,000 commits
    bench/committing.py --program FILE     another program than crates/brestore/out/brestore
    bench/committing.py --before FILE      also beside an older program, on the disk of --folder
    bench/committing.py --rows N --commits N --files N --long N

The first part copies a catalogue of a Full of `--rows` paths, which SQLite's own library made, has the program commit `--commits` jobs
of `--files` files each, and then has Python's `sqlite3` insert the same rows into another copy, in one transaction for each job. A job's
time is that between two lines `stored`. The second part commits `--long` such jobs to an empty catalogue and compares the last ones with
the tenth. With `--before` the program and an older one commit `--commits` such jobs to empty catalogues by turns; a commit is to take
at most 1.5 times as long as the older one's. The status is 1 if a program printed something else than it must, or the rows are not those
that SQLite inserted, and with `--strict` also if the target is missed.
"""

import argparse
import contextlib
import hashlib
import os
import shutil
import sqlite3
import statistics
import subprocess
import sys
import tempfile
import time

# Nothing is left beside the script.
sys.dont_write_bytecode = True
sys.path.insert(0, os.path.join(os.path.dirname(os.path.dirname(os.path.abspath(__file__))), "tools"))
from common import MIB, PROGRAM
from loading import make

# The number of files in a folder.
FILES_IN_FOLDER = 100
# How many times as long as the older program's a commit may take.
TARGET = 1.5
STAT = b"P0A Cat6a IGk B Po Po A Q BAA I BfV5Ch BfV5Ch BfV5Ch A"
FIRST_JOB = 1000
# The rows of a catalogue, in which the file rows of a job keep their order.
ROWS = (
    "SELECT * FROM Job ORDER BY JobId",
    "SELECT JobId, VolumeName, FirstIndex, LastIndex, VolIndex FROM JobMedia JOIN Media USING (MediaId) ORDER BY JobId, VolIndex",
    """SELECT JobId, FileIndex, CAST(Path AS BLOB), CAST(Filename AS BLOB), LStat, MD5
    FROM File JOIN Path USING (PathId) ORDER BY FileId""",
)


def files_of(job, count):
    """Returns path, name and contents of the files of a job. Half of its paths are those of the job before it."""
    found = []
    for index in range(count):
        place = job * count // 2 + index
        path = b"/srv/%d/%d/" % (place // FILES_IN_FOLDER // 100, place // FILES_IN_FOLDER)
        found.append((path, b"file-%07d" % place, b"%016d" % (job * count + index)))
    return found


def lines_of(job, count):
    """Returns the lines of a job of a script."""
    lines = [b"job %d B F T %d %d 7 64512 mars home" % (FIRST_JOB + job, 1_000_000 + job, FIRST_JOB + job)]
    lines += [b"putd 3 %s%s %s - %s" % (path, name, data.hex().encode(), STAT) for path, name, data in files_of(job, count)]
    return b"".join(line + b"\n" for line in [*lines, b"place Vol-%d 0" % (job % 4), b"end"])


def written(file, commits, count):
    """Writes a script with this number of jobs, and returns its length."""
    with open(file, "wb") as script:
        for job in range(commits):
            script.write(lines_of(job, count))
    return os.path.getsize(file)


def processor_seconds(process):
    """Returns the seconds of the processor that a process has used, and its peak memory in bytes."""
    with open(f"/proc/{process}/stat") as file:
        fields = file.read().rsplit(")", 1)[1].split()
    with open(f"/proc/{process}/status") as file:
        peak = next(int(line.split()[1]) for line in file if line.startswith("VmHWM"))
    return (int(fields[11]) + int(fields[12])) / os.sysconf("SC_CLK_TCK"), peak * 1024


def commit(program, catalogue, volumes, script, commits):
    """Runs a script. Returns the moments of its start and of each `stored`, on the clock and of the processor, and the peak memory."""
    words = [program, "serve", "--db", catalogue, "--volumes", volumes]
    begun, moments, peak = time.monotonic(), [], 0
    with open(script, "rb") as lines:
        ran = subprocess.Popen(words, stdin=lines, stdout=subprocess.PIPE)
        for number, line in enumerate(ran.stdout):
            if line != b"stored %d\n" % (FIRST_JOB + number):
                raise SystemExit(f"committing.py: {line!r} after {number} jobs")
            used, peak = processor_seconds(ran.pid)
            moments.append((time.monotonic() - begun, used))
        status = ran.wait()
    if status or len(moments) != commits:
        raise SystemExit(f"committing.py: status {status} after {len(moments)} jobs")
    return moments, peak


def number_of(db, known, table, column, value):
    """Returns the number of a name, which is inserted if it is new."""
    if (table, value) not in known:
        row = db.execute(f"SELECT {table}Id FROM {table} WHERE {column} = ?", (value,)).fetchone()
        if row is None:
            more = (", MediaType", ", 'File'") if table == "Media" else ("", "")
            row = (db.execute(f"INSERT INTO {table} ({column}{more[0]}) VALUES (?{more[1]})", (value,)).lastrowid,)
        known[table, value] = row[0]
    return known[table, value]


def insert(db, job, count, spans):
    """Inserts the rows of a job in one transaction. A path is looked up once in each job, as nothing else may change the file."""
    known = {}
    db.execute("BEGIN IMMEDIATE")
    client, fileset = number_of(db, known, "Client", "Name", "mars"), number_of(db, known, "FileSet", "FileSet", "home")
    db.execute("INSERT INTO Job VALUES (?, 'B', 'F', ?, 'T', ?, ?, ?, 7)", (FIRST_JOB + job, client, 1_000_000 + job, fileset, FIRST_JOB + job))
    for place, (volume, *rest) in enumerate(spans, 1):
        media = number_of(db, known, "Media", "VolumeName", volume)
        db.execute("INSERT INTO JobMedia VALUES (NULL, ?, ?, ?, ?, ?, ?, ?, ?, ?)", (FIRST_JOB + job, media, *rest, place))
    lstat = STAT.decode()
    for index, (path, name, data) in enumerate(files_of(job, count), 1):
        row = (index, FIRST_JOB + job, number_of(db, known, "Path", "Path", path), name, lstat, hashlib.md5(data).hexdigest())
        db.execute("INSERT INTO File (FileIndex, JobId, PathId, Filename, LStat, MD5) VALUES (?, ?, ?, ?, ?, ?)", row)
    db.execute("COMMIT")


def spans_in(catalogue):
    """Returns the spans of each job of a catalogue."""
    select = """SELECT JobId, VolumeName, FirstIndex, LastIndex, StartFile, EndFile, StartBlock, EndBlock
        FROM JobMedia JOIN Media USING (MediaId) ORDER BY JobId, VolIndex"""
    found = {}
    with contextlib.closing(sqlite3.connect(catalogue)) as db:
        for job, *span in db.execute(select):
            found.setdefault(job - FIRST_JOB, []).append(span)
    return found


def insert_all(catalogue, commits, count, spans, journal):
    """Has SQLite's own library insert the rows. Returns the moments after each transaction."""
    with contextlib.closing(sqlite3.connect(catalogue, isolation_level=None)) as db:
        db.execute(f"PRAGMA journal_mode = {journal}")
        db.execute("PRAGMA synchronous = FULL")
        begun, used, moments = time.monotonic(), time.process_time(), []
        for job in range(commits):
            insert(db, job, count, spans[job])
            moments.append((time.monotonic() - begun, time.process_time() - used))
    return moments


def rows_in(catalogue):
    """Returns a digest of the rows of a catalogue, with names in place of numbers."""
    found = hashlib.md5()
    with contextlib.closing(sqlite3.connect(catalogue)) as db:
        if db.execute("PRAGMA quick_check").fetchall() != [("ok",)]:
            raise SystemExit(f"committing.py: {catalogue} is not sound")
        for select in ROWS:
            for row in db.execute(select):
                found.update(repr(row).encode())
    return found.hexdigest()


def steps(moments):
    """Returns the time of each commit but the first, on the clock and of the processor."""
    return [tuple(b - a for a, b in zip(before, after)) for before, after in zip(moments, moments[1:])]


def told(name, found):
    clock, used = ([step[it] * 1000 for step in found] for it in (0, 1))
    print(f"  {name:34} {statistics.median(clock):8.2f} ms, of the processor {statistics.fmean(used):8.2f} ms on average")
    return statistics.median(clock)


def beside_sqlite(options, folder):
    """Commits jobs over a large catalogue, beside SQLite. Returns whether the rows are the same."""
    first, script = os.path.join(folder, "first"), os.path.join(folder, "script")
    make(first, options.rows)
    written(script, options.commits, options.files)
    own, volumes = os.path.join(folder, "own"), os.path.join(folder, "volumes")
    shutil.copy(first, own)
    os.mkdir(volumes)
    moments, peak = commit(options.program, own, volumes, script, options.commits)
    print(f"{options.commits} commits of {options.files} files each over {options.rows} file rows:")
    print(f"  {'loaded, and the first commit':34} {moments[0][0] * 1000:8.0f} ms; peak memory at the end {peak / MIB:.0f} MiB")
    ours, spans, is_same = told("brestore serve", steps(moments)), spans_in(own), True
    for journal in ("WAL", "DELETE"):
        other = os.path.join(folder, journal)
        shutil.copy(first, other)
        theirs = told(f"sqlite3, journal_mode {journal}", steps(insert_all(other, options.commits, options.files, spans, journal)))
        print(f"  {'':34} ratio {ours / theirs:.2f}")
        is_same = is_same and rows_in(own) == rows_in(other)
    print(f"  the rows are {'the same' if is_same else 'NOT THE SAME'}")
    for name in ("first", "own", "WAL", "DELETE"):
        os.remove(os.path.join(folder, name))
    shutil.rmtree(volumes)
    return is_same


def beside_older(options, folder):
    """Has an older program commit the same jobs by turns. Returns whether the target is met."""
    script, found = os.path.join(folder, "turns"), {options.before: [], options.program: []}
    written(script, options.commits, options.files)
    for turn in range(options.repeats):
        for program, times in found.items():
            place = os.path.join(folder, f"turn {turn}")
            os.makedirs(os.path.join(place, "volumes"))
            moments, _ = commit(program, os.path.join(place, "catalogue"), os.path.join(place, "volumes"), script, options.commits)
            times += steps(moments)
            shutil.rmtree(place)
    print(f"{options.repeats} times {options.commits} commits of {options.files} files each to an empty catalogue, by turns:")
    older, newer = told("the older program", found[options.before]), told("brestore serve", found[options.program])
    print(f"  {'':34} ratio {newer / older:.2f}, target {TARGET}")
    return newer <= TARGET * older


def in_proportion(options, folder):
    """Commits many jobs to an empty catalogue, and compares the last ones with the tenth."""
    script, volumes = os.path.join(folder, "long"), os.path.join(folder, "volumes")
    length = written(script, options.long, options.files)
    os.mkdir(volumes)
    moments, peak = commit(options.program, os.path.join(folder, "catalogue"), volumes, script, options.long)
    found = steps(moments)
    print(f"{options.long} commits of {options.files} files each to an empty catalogue, by a script of {length / MIB:.0f} MiB:")
    early = told("the commits 6 to 15", found[4:14])
    for at in (100, 300, options.long):
        if at <= options.long:
            late = told(f"the commits {at - 9} to {at}", found[at - 11 : at - 1])
            print(f"  {'':34} {late / early:.2f} times the tenth")
    print(f"  peak memory at the end {peak / MIB:.0f} MiB, for {options.long * options.files} file rows")


def main():
    parser = argparse.ArgumentParser(description="Measures commits.")
    parser.add_argument("--program", type=os.path.abspath, default=PROGRAM, help="the program (default: %(default)s)")
    parser.add_argument("--rows", type=int, default=1_000_000)
    parser.add_argument("--commits", type=int, default=100)
    parser.add_argument("--files", type=int, default=1000)
    parser.add_argument("--long", type=int, default=1000)
    parser.add_argument("--before", type=os.path.abspath, help="an older program, which commits the same jobs")
    parser.add_argument("--repeats", type=int, default=5, help="runs of each beside the older program (default: %(default)s)")
    parser.add_argument("--folder", help="where catalogues and volumes are made (default: a temporary folder)")
    parser.add_argument("--strict", action="store_true", help="status 1 also if the target is missed")
    options, is_right = parser.parse_args(), True
    with tempfile.TemporaryDirectory(dir=options.folder) as folder:
        if options.before:
            is_right = beside_older(options, folder) or not options.strict
        if options.commits:
            is_right = beside_sqlite(options, folder) and is_right
        if options.long:
            in_proportion(options, folder)
    return 0 if is_right else 1


if __name__ == "__main__":
    sys.exit(main())
