#!/usr/bin/env python3
"""Measures a catalogue that `brestore serve --db --volumes` fills, beside an older program whose catalogue is of version 1, and SQLite itself.

    bench/storing.py --before FILE                   1,000,000 rows of files in 10 jobs, each with a name of its own
    bench/storing.py --before FILE --names N         the files have this many names in all
    bench/storing.py --before FILE --quick           20,000 rows, one run: whether all is right, not how fast it is
    bench/storing.py --before FILE --program FILE    another program than crates/brestore/out/brestore
    bench/storing.py --before FILE --rows N --jobs N --repeats N

Both programs run the same script in turns, now the one first and now the other. The script saves empty files with digests. Compared are
the file of the catalogue; what inserting takes, which is the time of the script less that of the same script without a catalogue, in
memory; and what loading takes, which is a console's request for a client that no job names. Beside them SQLite inserts the same rows
into the tables of version 2, in a transaction for each job, and reads them again. Seconds are the least of the processor's. The status
is 1 if a program printed something else than it must, or the catalogues don't have the same rows, and with --strict if one of the three
is more than that of version 1.
"""

import argparse
import contextlib
import hashlib
import os
import shutil
import sqlite3
import sys
import tempfile
import time

# Nothing is left beside the script.
sys.dont_write_bytecode = True
sys.path.insert(0, os.path.join(os.path.dirname(os.path.dirname(os.path.abspath(__file__))), "tools"))
from common import MIB, PROGRAM, run_measured
from loading import select, tables

FILES_IN_FOLDER = 100
STAT = "P0A Cat6a IGk B Po Po A A BAA I BfV5Ch BfV5Ch BfV5Ch A"
DIGEST = hashlib.md5(b"").hexdigest()
FOLDER, FILES = "CAST(Path AS BLOB)", "FROM File JOIN Path USING (PathId)"
# The rows of a catalogue of each version, with names in place of numbers.
ROWS = {
    1: f"SELECT JobId, FileIndex, {FOLDER}, CAST(Filename.Name AS BLOB), LStat, MD5 {FILES} JOIN Filename USING (FilenameId) ORDER BY FileId",
    2: f"SELECT JobId, FileIndex, {FOLDER}, CAST(Filename AS BLOB), LStat, MD5 {FILES} ORDER BY FileId",
}
JOBS = (
    """SELECT JobId, Type, Level, JobStatus, StartTime, VolSessionId, VolSessionTime, Name, FileSet
    FROM Job JOIN Client USING (ClientId) JOIN FileSet USING (FileSetId) ORDER BY JobId""",
    """SELECT JobId, VolumeName, MediaType, FirstIndex, LastIndex, StartFile, EndFile, StartBlock, EndBlock, VolIndex
    FROM JobMedia JOIN Media USING (MediaId) ORDER BY JobId, VolIndex""",
)


def read_options():
    parser = argparse.ArgumentParser(description="Measures what a catalogue takes to be filled and loaded.")
    parser.add_argument("--before", type=os.path.abspath, required=True, help="a program whose catalogue is of version 1")
    parser.add_argument("--program", type=os.path.abspath, default=PROGRAM, help="the program (default: %(default)s)")
    parser.add_argument("--rows", type=int, default=1_000_000, help="rows of files (default: %(default)s)")
    parser.add_argument("--jobs", type=int, default=10, help="jobs to which they belong (default: %(default)s)")
    parser.add_argument("--names", type=int, default=0, help="names that the files have in all (default: as many as files)")
    parser.add_argument("--repeats", type=int, default=3, help="runs of each program (default: %(default)s)")
    parser.add_argument("--quick", action="store_true", help="20,000 rows, and one run")
    parser.add_argument("--strict", action="store_true", help="status 1 also if version 2 takes more than version 1")
    options = parser.parse_args()
    if options.quick:
        options.rows, options.repeats = 20_000, 1
    return options


def files_of(job, options):
    """Returns folder and name of each file of a job. No path comes twice."""
    count, names = options.rows // options.jobs, options.names or options.rows
    for place in range(job * count, (job + 1) * count):
        folder = place // FILES_IN_FOLDER
        # Each folder has each of its names once, since this number rises within it.
        yield f"/srv/{folder // 100}/{folder}/", f"file-{place % max(names, FILES_IN_FOLDER):07}"


def write_script(file, options):
    """Writes a script of the jobs."""
    with open(file, "w") as script:
        for job in range(1, options.jobs + 1):
            script.write(f"job {job} B F T {job} {job} 7 64512 mars home\n")
            script.writelines(f"putd 2 {folder}{name} - - {STAT}\n" for folder, name in files_of(job - 1, options))
            script.write(f"place Vol-{job} 0\nend\n")


def serve(program, script, folder, words):
    """Runs the script. Returns the processor's seconds, the peak memory, and what was printed."""
    told, errors = os.path.join(folder, "told"), os.path.join(folder, "errors")
    _, memory, seconds, status = run_measured(["sh", "-c", 'exec "$@" < "$0"', script, program, "serve", *words], told, errors)
    with open(told) as text:
        return seconds, memory, (status, text.read())


def load(program, catalogue, folder, version):
    """Has a console load the catalogue, with all rows of files. Returns the processor's seconds, the peak memory, and what was printed."""
    told, errors = os.path.join(folder, "told"), os.path.join(folder, "errors")
    words = ["console", "--db", catalogue, "--volumes", folder, "--client", "nobody", "--fileset", "home", "--before", "2026-01-01 00:00:00"]
    # An older program looks at all rows, and does not know the option.
    words += ["--verify-catalogue"] if version == 2 else []
    _, memory, seconds, status = run_measured(["sh", "-c", 'exec "$@" < /dev/null', "sh", program, *words], told, errors)
    with open(errors) as text:
        return seconds, memory, (status, text.read())


def rows_in(catalogue, version):
    """Returns a digest of the rows of a catalogue."""
    found = hashlib.md5()
    with contextlib.closing(sqlite3.connect(catalogue)) as db:
        if db.execute("PRAGMA quick_check").fetchall() != [("ok",)] or db.execute("SELECT * FROM Version").fetchall() != [(version,)]:
            return None
        for text in (*JOBS, ROWS[version]):
            for row in db.execute(text):
                found.update(repr(row).encode())
    return found.hexdigest()


class Program:
    """A program, and its least measurements."""

    def __init__(self, file, version):
        self.file, self.version = file, version
        self.inserting, self.loading, self.peaks, self.is_right = [], [], [0, 0], True
        self.size = self.rows = self.spans = None

    def run(self, script, folder, options):
        """Fills a catalogue and loads it."""
        place = os.path.join(folder, "place")
        os.mkdir(place)
        catalogue, volumes = os.path.join(place, "catalogue"), os.path.join(place, "volumes")
        os.mkdir(volumes)
        with_files, most, printed = serve(self.file, script, folder, ["--db", catalogue, "--volumes", volumes])
        in_memory, _, also = serve(self.file, script, folder, [])
        stored = (0, "".join(f"stored {job}\n" for job in range(1, options.jobs + 1)))
        seconds, peak, refused = load(self.file, catalogue, folder, self.version)
        self.inserting.append((with_files - in_memory, with_files))
        self.loading.append(seconds)
        self.peaks = [max(self.peaks[0], most), max(self.peaks[1], peak)]
        self.is_right = self.is_right and printed == also == stored and refused == (1, "refused 53\n")
        if self.rows is None:
            # SQLite copies what is in a log into the file, as the last one to close it.
            self.rows, self.spans = rows_in(catalogue, self.version), jobs_in(catalogue)
            self.size = os.path.getsize(catalogue)
        shutil.rmtree(place)


def jobs_in(catalogue):
    """Returns the rows of the jobs and of their spans."""
    with contextlib.closing(sqlite3.connect(catalogue)) as db:
        return [db.execute(text).fetchall() for text in ("SELECT * FROM Job", "SELECT * FROM JobMedia", "SELECT * FROM Media")]


def by_sqlite(file, rows, options):
    """Inserts the same rows by SQLite itself. Returns the processor's seconds, without those in which the rows are made."""
    making = time.process_time()
    for job in range(options.jobs):
        for _ in files_of(job, options):
            pass
    making = time.process_time() - making
    start = time.process_time()
    with contextlib.closing(sqlite3.connect(file, isolation_level=None)) as db:
        for statement in tables():
            db.execute(statement)
        db.executescript("INSERT INTO Version VALUES (2); INSERT INTO Client VALUES (1, 'mars'); INSERT INTO FileSet VALUES (1, 'home');")
        db.executemany("INSERT INTO Media VALUES (?, ?, ?)", rows[2])
        for job, span in zip(rows[0], rows[1]):
            known = {}
            db.execute("BEGIN")
            db.execute(f"INSERT INTO Job VALUES ({', '.join('?' * len(job))})", job)
            db.execute(f"INSERT INTO JobMedia VALUES ({', '.join('?' * len(span))})", span)
            for index, (folder, name) in enumerate(files_of(job[0] - 1, options), 1):
                if folder not in known:
                    known[folder] = db.execute("INSERT INTO Path (Path) VALUES (?)", (folder.encode(),)).lastrowid
                row = (index, job[0], known[folder], name.encode(), STAT, DIGEST)
                db.execute("INSERT INTO File (FileIndex, JobId, PathId, Filename, LStat, MD5) VALUES (?, ?, ?, ?, ?, ?)", row)
            db.execute("COMMIT")
    return time.process_time() - start - making


def show(name, unit, before, after, beside):
    """Prints a row. Returns whether version 2 takes no more than version 1."""
    is_met = after <= before
    found = f"{before:9.2f} {after:9.2f} {unit:3} {after / before:6.3f}  {'met' if is_met else 'MISSED':6}"
    print(f"{name:26} {found} {beside:9.2f} {unit:3} {after / beside:6.2f}", flush=True)
    return is_met


def main():
    options = read_options()
    with tempfile.TemporaryDirectory() as folder:
        script = os.path.join(folder, "script")
        write_script(script, options)
        before, after = programs = Program(options.before, 1), Program(options.program, 2)
        for turn in range(options.repeats):
            for it in programs if turn % 2 == 0 else reversed(programs):
                it.run(script, folder, options)
        os.remove(script)
        beside = os.path.join(folder, "beside")
        inserting = by_sqlite(beside, after.spans, options)
        reading, _ = select(beside)
        is_right = before.is_right and after.is_right and before.rows == after.rows == rows_in(beside, 2)
        size = os.path.getsize(beside)
    print(f"{options.rows} rows in {options.jobs} jobs, {options.names or options.rows} names: {'right' if is_right else 'WRONG'}")
    print(f"{'':26} version 1, version 2, ratio, target 1; sqlite3, ratio")
    met = [show("file", "MiB", before.size / MIB, after.size / MIB, size / MIB)]
    met.append(show("inserting", "s", *(min(it[0] for it in program.inserting) for program in programs), inserting))
    met.append(show("loading", "s", *(min(program.loading) for program in programs), reading))
    whole = "  ".join(f"{min(it[1] for it in program.inserting):.2f} s" for program in programs)
    print(f"the whole script {whole}; peak memory {before.peaks[0] / MIB:.0f} and {after.peaks[0] / MIB:.0f} MiB", end="")
    print(f", of loading {before.peaks[1] / MIB:.0f} and {after.peaks[1] / MIB:.0f} MiB")
    return 0 if is_right and (all(met) or not options.strict) else 1


if __name__ == "__main__":
    sys.exit(main())
