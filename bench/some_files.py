#!/usr/bin/env python3
"""Measures what a catalogue of many jobs costs a command that needs the files of one job.

The script makes a catalogue of 20 jobs, each the Full of another client, by Python's module. It has `brestore jobs` list the jobs of one
client, and a session of `brestore console` over them begin, which ends by `quit`: by the rows of files that are needed, and with
`--verify-catalogue` by all. Both must print the same. Times are the processor's seconds, the least of three runs.

    bench/some_files.py                    1,000,000 rows of files
    bench/some_files.py --rows N           so many
    bench/some_files.py --program FILE     another program than crates/brestore/out/brestore

The status is 1 if the program printed something else than it must.
"""

import argparse
import os
import sqlite3
import sys
import tempfile

# Nothing is left beside the script.
sys.dont_write_bytecode = True
sys.path.insert(0, os.path.join(os.path.dirname(os.path.dirname(os.path.abspath(__file__))), "tools"))
from common import MIB, PROGRAM, run_measured
from loading import DIGEST, NUMBERS, tables

JOBS, TURNS = 20, 3
MOMENT = "2026-01-01 00:00:00"


def make(file, rows):
    """Makes a catalogue with this number of rows of files. A folder has a hundred files."""
    db = sqlite3.connect(file, isolation_level=None)
    for statement in [*tables(), "BEGIN", "INSERT INTO Version VALUES (2)", "INSERT INTO FileSet VALUES (1, 'home')"]:
        db.execute(statement)
    for job in range(1, JOBS + 1):
        db.execute("INSERT INTO Client VALUES (?, ?)", (job, f"client{job}"))
        db.execute("INSERT INTO Media VALUES (?, ?, 'File')", (job, f"Vol-{job:04}"))
        db.execute("INSERT INTO Job VALUES (?, 'B', 'F', ?, 'T', ?, 1, ?, ?)", (job, job, job, job, job))
        db.execute("INSERT INTO JobMedia VALUES (?, ?, ?, 1, ?, 0, 0, 0, 999999999, 1)", (job, job, job, rows // JOBS))
    folders = range((rows // JOBS + 99) // 100)
    db.executemany("INSERT INTO Path VALUES (?, ?)", ((it + 1, f"/home/folder{it}/".encode()) for it in folders))
    files = ((at % (rows // JOBS) + 1, at // (rows // JOBS) + 1, at % (rows // JOBS) // 100 + 1, f"file{at:07}".encode()) for at in range(rows // JOBS * JOBS))
    db.executemany(f"INSERT INTO File (FileIndex, JobId, PathId, Filename, LStat, MD5) VALUES (?, ?, ?, ?, '{NUMBERS}', '{DIGEST}')", files)
    db.execute("COMMIT")
    db.close()


def run(folder, words):
    """Runs a command with the line `count` and `quit`. Returns the processor's seconds, peak memory in bytes, the status and what it printed."""
    names = [os.path.join(folder, name) for name in ("lines", "out", "err")]
    with open(names[0], "w") as text:
        text.write("count\nquit\n")
    _, memory, seconds, status = run_measured(["sh", "-c", 'exec "$@" < "$0"', names[0], *words], *names[1:])
    printed = []
    for name in names[1:]:
        with open(name) as text:
            printed.append(text.read())
    return seconds, memory, (status, *printed)


def measure(folder, name, words, starts):
    """Measures a command both ways. Returns whether it printed the same, and what it must begin with."""
    found = []
    for way, more in (("needed rows", []), ("all rows", ["--verify-catalogue"])):
        runs = [run(folder, words + more) for _ in range(TURNS)]
        print(f"  {name}, {way}: {min(it[0] for it in runs):.2f} s, peak memory {max(it[1] for it in runs) / MIB:.0f} MiB")
        found += [it[2] for it in runs]
    return all(it == found[0] for it in found) and found[0][0] == 0 and found[0][1].startswith(starts)


def main():
    parser = argparse.ArgumentParser(description="Measures a command that needs the files of one job in twenty.")
    parser.add_argument("--program", default=PROGRAM, help="the program (default: %(default)s)")
    parser.add_argument("--rows", type=int, default=1_000_000, help="rows of files (default: %(default)s)")
    options = parser.parse_args()
    with tempfile.TemporaryDirectory() as folder:
        file, count = os.path.join(folder, "catalogue.db"), options.rows // JOBS
        make(file, options.rows)
        print(f"{options.rows} rows in {JOBS} jobs, {os.path.getsize(file) / MIB:.0f} MiB")
        asked = ["--client", "client7", "--fileset", "home", "--before", MOMENT]
        session = [options.program, "console", "--db", file, "--volumes", folder, *asked]
        is_right = measure(folder, "jobs of a client", [options.program, "jobs", "--db", file, *asked], "* 7 F T 1970-01-01 00:00:07 client7 home ")
        is_right &= measure(folder, "a session", session, f"{count} paths, 0 marked\n")
        runs = [run(folder, [options.program, "jobs", "--db", file]) for _ in range(TURNS)]
        print(f"  all jobs: {min(it[0] for it in runs):.2f} s, peak memory {max(it[1] for it in runs) / MIB:.0f} MiB")
        is_right &= all(it[2][0] == 0 and it[2][1].count("\n") == JOBS for it in runs)
        print("right" if is_right else "WRONG")
    return 0 if is_right else 1


if __name__ == "__main__":
    sys.exit(main())
