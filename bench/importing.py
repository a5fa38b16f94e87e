#!/usr/bin/env python3
"""Measures an import of Bacula's catalogue by catalogue/import.sh: time and peak memory for 100,000 and 1,000,000 rows of File.

The script makes a catalogue in Bacula's tables, in a file of SQLite and, if they are installed, in PostgreSQL and MariaDB: a Full of all
rows, ten files to a folder. It imports it, and counts the rows. A second import has a stand-in for the last step, `brestore jobs`. Beside
them the client of the server alone prints the same rows; of SQLite there is no client beside the import.

    bench/importing.py                    100,000 and 1,000,000 rows
    bench/importing.py --rows N ..        these
    bench/importing.py --program FILE     another program than crates/brestore/out/brestore

The status is 1 if an import fails, or does not take all rows.
"""

import argparse
import contextlib
import os
import sqlite3
import subprocess
import sys
import tempfile
import time

# Nothing is left beside the script.
sys.dont_write_bytecode = True
TOP = os.path.dirname(os.path.dirname(os.path.abspath(__file__)))
sys.path[:0] = [os.path.join(TOP, "tools"), os.path.join(TOP, "acceptance")]
from bacula_rows import MariaDb, Postgres, Sqlite
from common import MIB, PROGRAM, ROOT, run_measured

FOLDER = os.path.join(ROOT, "catalogue")
# A Full that covers any number of rows. The rows follow.
HEAD = """
INSERT INTO Client(ClientId, Name) VALUES (1, 'mars-fd');
INSERT INTO FileSet(FileSetId, FileSet) VALUES (1, 'Home');
INSERT INTO Media(MediaId, VolumeName) VALUES (1, 'Vol-1');
INSERT INTO Job(JobId, Type, Level, JobStatus, ClientId, FileSetId, StartTime, EndTime, RealEndTime, JobTDate, VolSessionId, VolSessionTime)
  VALUES (1, 'B', 'F', 'T', 1, 1, '2026-11-21 23:00:00', '2026-11-21 23:01:00', '2026-11-21 23:01:00', 1795298460, 1, 1795290000);
INSERT INTO JobMedia(JobMediaId, JobId, MediaId, FirstIndex, LastIndex, StartFile, EndFile, StartBlock, EndBlock, VolIndex)
  VALUES (1, 1, 1, 1, 2000000000, 0, 9, 206, 9, 1);
"""
LSTAT, MD5 = "P0A Cat6a IGk B Po Po A C4 BAA I BfV5Ch BfV5Ch BfV5Ch A A C", "XUFAKrxLKna5cZ2REBfFkg"
PATHS = "INSERT INTO Path(PathId, Path) SELECT n, '/home/anna/documents/of the year/' || n || '/' FROM {series};"
FILES = f"""INSERT INTO File(FileId, FileIndex, JobId, PathId, Filename, LStat, MD5)
  SELECT n, n, 1, (n - 1) / 10 + 1, 'file number ' || n || '.txt', '{LSTAT}', '{MD5}' FROM {{series}};"""


def fill(source, rows):
    """Makes the catalogue of so many rows of File."""
    source.fill({}, False)
    if source.name == "SQLite":
        series = "(WITH RECURSIVE s(n) AS (SELECT 1 UNION ALL SELECT n + 1 FROM s WHERE n < {0}) SELECT n FROM s)"
        with contextlib.closing(sqlite3.connect(source.file)) as db:
            db.executescript("BEGIN;" + HEAD + PATHS.format(series=series.format(rows // 10)) + FILES.format(series=series.format(rows)) + "COMMIT;")
    else:
        series = "generate_series(1, {0}) n" if source.name == "PostgreSQL" else "(SELECT seq AS n FROM seq_1_to_{0}) s"
        text = HEAD + PATHS.format(series=series.format(rows // 10)) + FILES.format(series=series.format(rows)) + "ANALYZE;" * (source.name == "PostgreSQL")
        source.run(text if source.name == "PostgreSQL" else "USE bacula; SET sql_mode = 'PIPES_AS_CONCAT'; " + text.replace("/ 10 + 1", "DIV 10 + 1"))


def fill_apart(source, rows):
    """Makes the catalogue in a child, so that this process stays small: the peak memory of an import counts what its parent held."""
    child = os.fork()
    if child == 0:
        status = 1
        try:
            fill(source, rows)
            status = 0
        finally:
            os._exit(status)
    if os.waitpid(child, 0)[1]:
        sys.exit(f"{source.name} took no {rows} rows")


def exported(source):
    """Returns the seconds in which the client of a server alone prints the rows, and None for SQLite."""
    if source.name == "SQLite":
        return None
    with open(os.path.join(FOLDER, "pgsql.sql" if source.name == "PostgreSQL" else "mysql.sql")) as text:
        lines = text.read()
    for word, value in {"@names@": "", "@name@": "f.Filename", "@within@": "1 = 1", "@all@": "1", "@": ""}.items():
        lines = lines.replace(word, value)
    client = source.client if source.name == "PostgreSQL" else [*source.client, "--batch", "--quick", "--skip-column-names", "--default-character-set=latin1", "bacula"]
    started = time.monotonic()
    subprocess.run(client, input=lines.encode(), stdout=subprocess.DEVNULL, check=True)
    return time.monotonic() - started


def stand_in(program, folder):
    """Returns a program that lists jobs by sqlite3, so that what `brestore jobs` takes is seen by itself."""
    file = os.path.join(folder, "stand_in")
    with open(file, "w") as script:
        script.write(f'#!/bin/sh\n[ "$1" = jobs ] && exec sqlite3 -readonly "$3" "SELECT JobId FROM Job"\nexec "{program}" "$@"\n')
    os.chmod(file, 0o755)
    return file


def measure(source, rows, program, folder):
    """Imports so many rows, and prints what it took. Returns true if all were taken."""
    fill_apart(source, rows)
    db, said, found, is_whole = os.path.join(folder, "new.db"), os.path.join(folder, "said"), [], True
    for it in (program, stand_in(program, folder)):
        seconds, memory, processor, status = run_measured([os.path.join(FOLDER, "import.sh"), db, "--program", it, *source.words], said)
        with open(said) as text:
            is_whole &= status == 0 and text.read() == f"imported 1 {rows}\n"
        found.append(f"{seconds:.1f} s ({processor:.1f} s of the processor), at most {memory / MIB:.0f} MiB")
        with contextlib.suppress(FileNotFoundError):
            os.remove(db)
    alone = exported(source)
    text = f"{found[0]}, without `brestore jobs` {found[1]}" + ("" if alone is None else f", the client alone {alone:.1f} s")
    print(f"{source.name}, {rows} rows: {text if is_whole else 'FAILED'}", flush=True)
    return is_whole


def main():
    parser = argparse.ArgumentParser(description="Measures imports of Bacula's catalogue.")
    parser.add_argument("--rows", type=int, nargs="+", default=[100_000, 1_000_000], help="how many rows of File")
    parser.add_argument("--program", default=PROGRAM, help="the program (default: %(default)s)")
    options = parser.parse_args()
    is_well = True
    with tempfile.TemporaryDirectory() as folder, contextlib.ExitStack() as stops:
        for kind in (lambda: Sqlite(folder), Postgres, MariaDb):
            if kind in (Postgres, MariaDb) and not kind.program():
                print(f"{kind.name}: not installed, so it is left out")
                continue
            source = kind()
            stops.callback(source.stop)
            for rows in options.rows:
                is_well &= measure(source, rows, os.path.abspath(options.program), folder)
    return 0 if is_well else 1


if __name__ == "__main__":
    sys.exit(main())
