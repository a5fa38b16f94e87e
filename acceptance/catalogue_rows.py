#!/usr/bin/env python3
"""Runs rows over catalogues: what is stored, refused, loaded and migrated.

    acceptance/catalogue_rows.py [--program FILE] [NAME, NAME ..]     all rows, or those with these names

The rows are in rows/catalogues, with what each step of a row means. SQLite's own library carries
out the statements of a row, and `brestore` everything else: `serve` opens a catalogue and commits
jobs to it, `jobs` and `console` load it, and `migrate` migrates it. The output of `jobs` and
`console` is compared with the rows that SQLite's own library finds, by the second reading of the
formats. The status is 1 if something is not as expected.
"""

import contextlib
import datetime
import hashlib
import os
import re
import sqlite3
import sys
import tempfile
from pathlib import Path

# Nothing is left beside the script.
sys.dont_write_bytecode = True
sys.path.insert(0, os.path.join(os.path.dirname(os.path.dirname(os.path.abspath(__file__))), "tools"))
from choosing import consoled
from common import MIB, VERSION_1_SQL, escaped
from reading import stat_of
from row_text import BadRow, main
from scripting import put_line
from stops import COMMITS, RESTORE, text_of
from stored import memory, served

HERE = Path(__file__).resolve().parent
ROWS = HERE / "rows" / "catalogues"
# The statements of the words.
WORDS = {it.stem.replace("_", " "): it.read_text() for it in (HERE / "catalogues" / "rows").iterdir()}
TWO_JOBS, OLD_TABLES = WORDS.pop("two jobs"), Path(VERSION_1_SQL).read_text().partition("INSERT")[0]
WORDS["jobs"] = TWO_JOBS + WORDS["jobs"]
WORDS["version 1"] = f"BEGIN; {OLD_TABLES} {TWO_JOBS} {WORDS['version 1']} COMMIT;"
WORDS["version 1 of the commits"] = f"BEGIN; {OLD_TABLES} {WORDS['version 1 of the commits']} COMMIT;"
DIGEST_LINE = put_line(b"/a", b"message digest", b"putd", stat=b"A A IGk B A A A A A A A A A A")
ASKED = b"find *\nmark *\nestimate\ndone\n"
JOBS = """SELECT JobId, Type, Level, JobStatus, StartTime, VolSessionId, VolSessionTime, Name, FileSet
    FROM Job JOIN Client USING (ClientId) JOIN FileSet USING (FileSetId) ORDER BY JobId"""
FILES = """SELECT CAST(CAST(Path AS BLOB) || CAST(Filename AS BLOB) AS BLOB), FileIndex, LStat, MD5
    FROM File JOIN Path USING (PathId) WHERE JobId = ? ORDER BY FileId"""
SPANS = """SELECT VolumeName, FirstIndex, LastIndex, (StartFile << 32) + StartBlock, (EndFile << 32) + EndBlock, VolIndex
    FROM JobMedia JOIN Media USING (MediaId) WHERE JobId = ? ORDER BY VolIndex"""
# For each volume the length that the catalogue vouches for.
VOUCHED = "SELECT VolumeName, max((EndFile << 32) + EndBlock) + 1 FROM JobMedia JOIN Media USING (MediaId) GROUP BY VolumeName"


@contextlib.contextmanager
def opened(db):
    """Opens a catalogue by SQLite's own library."""
    with contextlib.closing(sqlite3.connect(db)) as connection:
        connection.text_factory = bytes
        yield connection


def queried(db, text):
    """Returns the rows that SQLite's own library finds by a query."""
    with opened(db) as connection:
        return connection.execute(text).fetchall()


def job_of(connection, row):
    """Returns a job of a catalogue, as the second reading of the console takes it, with its rows as SQLite's own library finds them."""
    number, kind, level, status, start, session, time, client, fileset = row
    job = {"id": number, "type": kind.decode(), "level": level.decode(), "status": status.decode(), "start": start}
    job |= {"session": (session, time), "client": client, "fileset": fileset}
    job["file_rows"] = connection.execute(FILES, (number,)).fetchall()
    job["files"] = [(path, index, stat_of(lstat) if index else None) for path, index, lstat, _ in job["file_rows"]]
    job["span_rows"] = connection.execute(SPANS, (number,)).fetchall()
    job["spans"] = [row[:5] for row in job["span_rows"]]
    return job


def jobs_of(db):
    """Returns the jobs of a catalogue in order of their numbers."""
    with opened(db) as connection:
        return [job_of(connection, row) for row in connection.execute(JOBS).fetchall()]


def file_text(path, index, lstat, digest):
    """Returns a file's row as `{:?}` prints it."""
    md5 = f"Some({list(bytes.fromhex(digest.decode()))})" if digest else "None"
    return f'FileRow {{ path: "{escaped(path)}", index: {index}, lstat: "{lstat.decode()}", md5: {md5} }}'


def span_text(volume, first, last, start, end, place):
    """Returns a span as `{:?}` prints it."""
    name = f'VolName {{ name: "{escaped(volume)}" }}'
    return f"Span {{ vol: {name}, first: {first}, last: {last}, start: {start}, end: {end}, vol_index: {place} }}"


def job_text(job):
    """Returns a job as `{:?}` prints it."""
    letters = ", ".join(f"{name}: Letter {{ byte: {ord(job[key])} }}" for name, key in (("kind", "type"), ("level",) * 2, ("status",) * 2))
    key = "SessionKey {{ id: {}, time: {} }}".format(*job["session"])
    names = f'client: "{escaped(job["client"])}", fileset: "{escaped(job["fileset"])}"'
    row = f'JobRow {{ id: JobId {{ id: {job["id"]} }}, {letters}, start: {job["start"]}, session: {key}, {names} }}'
    files = ", ".join(file_text(*it) for it in job["file_rows"])
    spans = ", ".join(span_text(*it) for it in job["span_rows"])
    return f"JobRows {{ row: {row}, files: [{files}], spans: [{spans}] }}"


def moment(seconds):
    """Returns the text of a moment."""
    return f"{datetime.datetime(1970, 1, 1) + datetime.timedelta(seconds=seconds):%Y-%m-%d %H:%M:%S}"


def listed(job):
    """Returns the line of `jobs` for a job."""
    saved = [(path, numbers) for path, _, numbers in job["files"] if numbers]
    size = sum(max(numbers[7], 0) for path, numbers in saved if not path.endswith(b"/"))
    volumes = ",".join(dict.fromkeys(escaped(it[0]) for it in job["spans"])) or "-"
    words = (job["id"], job["level"], job["status"], moment(job["start"]), escaped(job["client"]), escaped(job["fileset"]))
    return f"- {' '.join(map(str, words))} {len(saved)} {size} {volumes}\n"


def script_of(job):
    """Returns the lines of a script that commits a job with these rows: each file has the same bytes, and each place but the last one
    block."""
    head = (job["id"], job["type"], job["level"], job["status"], job["start"], *job["session"], 64, job["client"].decode())
    lines = [f"job {' '.join(map(str, head))} {job['fileset'].decode()}".encode()]
    for path, index, lstat, digest in job["file_rows"]:
        word = b"putd" if digest else b"put"
        lines.append(put_line(path, b"message digest", word, stat=lstat) if index else b"del " + escaped(path).encode())
    for volume, *_, place in job["span_rows"]:
        lines.append(b"place %s %d" % (escaped(volume).encode(), place != len(job["span_rows"])))
    return [*lines, b"end"]


def lines_of(field):
    """Returns the lines of a script that commits the job of a field, as `1_B_F_T_100_1_100_64_c_f;place_A_1;place_B_0`."""
    head, *places = field.replace("_", " ").encode().split(b";")
    return [b"job " + head, DIGEST_LINE, *places, b"end"]


def digest_of(path, start, end):
    """Returns the digest of bytes of a volume, or an empty text if some are missing or they are
    more than a mebibyte."""
    if not path.exists() or path.stat().st_size <= end or end - start > MIB:
        return ""
    with open(path, "rb") as file:
        file.seek(start)
        return hashlib.md5(file.read(end - start + 1)).hexdigest()


def spans_text(job):
    """Returns the number of a job and its spans."""
    return " ".join([str(job["id"]), *(f"{volume.decode()}{start}-{end}" for volume, _, _, start, end in job["spans"])]) + ";"


class World:
    """The state of a row: a catalogue, until a step loses it, a folder of volumes, and the jobs
    that were loaded last."""

    def __init__(self, place):
        self.place, self.jobs, self.gave, self.is_new = place, [], [], False
        self.begin("first")

    def begin(self, name):
        """Takes an empty catalogue and an empty folder of volumes."""
        folder = self.place.folder / name
        (folder / "volumes").mkdir(parents=True)
        self.db, self.volumes = folder / "catalogue", folder / "volumes"
        self.db.touch()

    def carry_out(self, step):
        """Does a step."""
        word, _, text = step.strip().partition(" ")
        if self.db is not None:
            do = getattr(self, "do_" + word, None)
            if do is None:
                raise BadRow("there is no such step")
            do(text)

    def show(self, value):
        """Prints a value."""
        self.gave.append(str(value))

    def serve(self, lines):
        """Runs a script over the catalogue. Returns its lines, or prints why the catalogue is refused, and loses it."""
        status, told, refused = served(self.place.program, self.db, self.volumes, text_of(lines))
        if status == 1 and not told and (found := re.fullmatch(rb"refused (\d+)\n", refused)):
            self.show(f"refused {found[1].decode()}")
            self.db = None if found[1] != b"47" else self.db
            return None
        if refused or status != int(b"refused" in told):
            raise BadRow(f"serve ended with {status}, {told} and {refused}")
        return told.decode().splitlines()

    def run(self, *words, lines=b""):
        """Runs a command over the catalogue. Returns exit status, standard output and standard error."""
        return self.place.run(words[0], "--db", str(self.db), *words[1:], lines=lines)

    def do_new(self, _):
        if self.is_new:
            raise BadRow("there is no third database")
        self.is_new = True
        self.begin("second")

    def do_replace(self, _):
        self.db = self.db.with_name("other")
        self.db.touch()

    def do_sql(self, text):
        with contextlib.closing(sqlite3.connect(self.db)) as connection:
            try:
                connection.executescript(WORDS.get(text, text))
            except sqlite3.Error:
                self.db = None

    def do_rows(self, text):
        self.show(len(queried(self.db, text)))

    def do_load(self, _):
        db = self.db
        if self.serve([]) is None:
            expected = 1, b"", self.gave[-1].encode() + b"\n"
        else:
            self.jobs = jobs_of(db)
            expected = 0, "".join(map(listed, self.jobs)).encode(), b""
        if (found := self.place.run("jobs", "--db", str(db))) != expected:
            raise BadRow(f"jobs gave {found}, and not {expected}")

    def do_count(self, _):
        self.show(len(self.jobs))

    def do_jobs(self, _):
        for job in self.jobs:
            self.look_at(job)
            self.show(job_text(job))
            digests = [digest_of(self.volumes / it[0].decode(), *it[3:5]) for it in job["spans"]]
            self.gave += [it for it in digests if it]

    def look_at(self, job):
        """Restores what was there after a job was stored, by `console`, and compares the output."""
        sizes = {it.name.encode(): it.stat().st_size for it in self.volumes.iterdir()}
        volumes = {name: (self.volumes / name.decode()).read_bytes() for name, size in sizes.items() if size < MIB}
        if sizes.keys() != volumes.keys():
            return
        asked = job["client"], job["fileset"], job["start"] + 1
        words = ["--volumes", str(self.volumes), "--client", job["client"].decode(), "--fileset", job["fileset"].decode()]
        expected = consoled(self.jobs, volumes, asked, ASKED)
        for more in ([], ["--verify-catalogue"]):
            found = self.run("console", *words, "--before", moment(asked[2]), *more, lines=ASKED)
            if found != expected:
                raise BadRow(f"console gave {found}, and not {expected}")

    def fit(self):
        """Makes each volume as long as the catalogue vouches for: bytes that no job vouches for are cut, and the others are zeros."""
        vouched = dict(queried(self.db, VOUCHED)) if queried(self.db, "SELECT 1 FROM sqlite_schema WHERE name = 'JobMedia'") else {}
        for name in {*vouched, *(it.name.encode() for it in self.volumes.iterdir())}:
            with open(self.volumes / name.decode(), "ab") as file:
                file.truncate(vouched.get(name, 0))

    def store(self, lines):
        """Runs a script that commits jobs, and prints what it refuses."""
        self.gave += [line for line in self.serve(lines) or [] if not line.startswith("stored ")]

    def do_insert(self, text):
        if text and not text.isdecimal():
            raise BadRow("a field is no number")
        jobs = [self.jobs[int(text) - 1]] if text else self.jobs
        self.fit()
        self.store([line for job in jobs for line in script_of(job)])

    def do_keep(self, text):
        self.gave += self.serve([line for field in text.split(" ") for line in lines_of(field)]) or []

    def do_commit(self, _):
        self.store(COMMITS)

    def do_restore(self, _):
        lines = self.serve(RESTORE) or []
        self.show("|".join(lines).replace(" ", "_"))

    def do_migrate(self, _):
        status, told, refused = self.run("migrate")
        found = re.fullmatch(rb"migrated (\d+)\n", told) or re.fullmatch(rb"(refused \d+)\n", refused)
        if not found or bool(told) == bool(refused) or status != bool(refused):
            raise BadRow(f"migrate gave {status}, {told} and {refused}")
        self.show(found[1].decode())

    def do_volumes(self, _):
        self.gave += [f"{it.name}={it.stat().st_size}" for it in sorted(self.volumes.iterdir())]

    def do_spans(self, _):
        self.gave += map(spans_text, self.jobs)


def run_row(place, fields, _):
    """Runs a row. Returns what its steps gave."""
    if fields[0] != "on":
        raise BadRow("there is no such call")
    world = World(place)
    for step in " ".join(fields[1:]).split("|"):
        world.carry_out(step)
    return " ".join(world.gave)


if __name__ == "__main__":
    tempfile.tempdir = memory()
    main(__doc__.splitlines()[0], ROWS, run_row)
