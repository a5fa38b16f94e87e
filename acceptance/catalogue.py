#!/usr/bin/env python3
"""Restores from a catalogue that the real sqlite3 made, with a delivery into a folder and without, lists its jobs, migrates one of
version 1, and has sqlite3 check a catalogue that the program made.

    acceptance/catalogue.py                    needs sqlite3, and the program in crates/brestore/out
    acceptance/catalogue.py --program FILE     another program

The status is 1 if something is not as expected.
"""

import argparse
import os
import shutil
import subprocess
import sys
import tempfile

# Nothing is left beside the script.
sys.dont_write_bytecode = True
sys.path.insert(0, os.path.join(os.path.dirname(os.path.dirname(os.path.abspath(__file__))), "tools"))
from common import CASES, ORDER_SQL, PROGRAM, SETS, VERSION_1_SQL, Checks
from delivered import delivery, tree_of

VOLUMES = os.path.join(SETS, "order")
TABLES = "Client File FileSet Job JobMedia Media Path Version".split()
# A console that lists what the three jobs left. Of the sizes 7, 7 and 24 of the files, the last is the Incremental's.
LISTINGS = "find *\ncd tmp/peerlab/src\nls\nmark sub\nestimate\nlsmark\nquit\n"
PATHS = [f"/tmp/peerlab/src/{name}" for name in ("", "sub/", "sub/f1", "sub/f2", "sub/f3")]
LISTED = "".join(f"{line}\n" for line in [*(f" {it}" for it in PATHS), "cwd is: /tmp/peerlab/src/", " sub/", "4 marked", "4 marked, 38 bytes", *PATHS[1:]])


def manifest_of(case):
    with open(os.path.join(CASES, case, "expected")) as text:
        return text.read().splitlines(keepends=True)


def group(session, time, ends, indexes):
    lines = [f'Volume="Vol-0001"', f"VolSessionId={session}", f"VolSessionTime={time}", f"VolAddr={ends}"]
    return "".join(f"{line}\n" for line in lines + [f"FileIndex={it}" for it in indexes])


# The records that Bacula's own bootstraps ask for: the Full, the Differential, the Incremental.
FULL, DIFFERENTIAL, INCREMENTAL = (1, 1795302931, "206-1172"), (2, 1795302931, "1173-1655"), (1, 1795302940, "1656-2149")


def answers():
    """Returns for each moment what is printed after `mark *` and `done`."""
    written = manifest_of("order-written")
    full, newest, differential = written[:5], written[5:6], written[6:7]
    kept = full[:2] + full[3:5]
    total = ["total 5 0 0\n"]
    text = lambda groups, lines: "5 marked\n" + "".join(groups) + "".join(lines + total)
    return {
        "2026-11-21 23:15:34": text([group(*FULL, ["1-5"])], full),
        "2026-11-21 23:15:45": text([group(*FULL, ["1-2", "4-5"]), group(*DIFFERENTIAL, ["1"])], kept + differential),
        "2026-11-21 23:15:46": text([group(*FULL, ["1-2", "4-5"]), group(*INCREMENTAL, ["1"])], kept + newest),
    }


class ConsoleChecks(Checks):
    def console(self, db, client="peer-fd", fileset="Peer", before="2026-11-22 00:00:00", lines="mark *\ndone\n", into=None, volumes=VOLUMES):
        words = ["console", "--db", db, "--volumes", volumes, "--client", client, "--fileset", fileset, "--before", before]
        words += ["--into", into] if into else []
        ran = subprocess.run([self.program, *words], input=lines, capture_output=True, text=True)
        return ran.returncode, ran.stdout, ran.stderr

    def jobs(self, db, **only):
        words = [word for name, value in only.items() for word in (f"--{name}", value)]
        ran = subprocess.run([self.program, "jobs", "--db", db, *words], input="", capture_output=True, text=True)
        return ran.returncode, ran.stdout, ran.stderr

    def migrate(self, db):
        ran = subprocess.run([self.program, "migrate", "--db", db], input="", capture_output=True, text=True)
        return ran.returncode, ran.stdout, ran.stderr


def sqlite3(db, text):
    return subprocess.run(["sqlite3", db], input=text, capture_output=True, text=True, check=True).stdout


def restores(checks, folder):
    """Restores from a catalogue that sqlite3 made."""
    db = os.path.join(folder, "order.db")
    with open(ORDER_SQL) as text:
        sqlite3(db, text.read())
    for before, text in answers().items():
        checks.check(f"restore of what was before {before}", checks.console(db, before=before), (0, text, ""))
    checks.check("what it lists", checks.console(db, lines=LISTINGS), (0, LISTED, ""))
    last = answers()["2026-11-21 23:15:46"].split("\n", 5)[-1]
    checks.check("the manifest of Bacula's own bootstrap", last.endswith("".join(manifest_of("order-inc"))), True)
    refusals = [
        ("client of no name", {"client": ""}, 2),
        ("client with a slash", {"client": "a/b"}, 2),
        ("moment without a time", {"before": "2026-11-22"}, 52),
        ("another client", {"client": "other"}, 53),
        ("another file set", {"fileset": "other"}, 54),
        ("moment before the Full", {"before": "2026-11-21 23:15:33"}, 50),
        ("nothing marked", {"lines": "done\n"}, 51),
    ]
    for name, words, number in refusals:
        status, _, err = checks.console(db, **words)
        expected = (2, "") if name == "client of no name" else (1, f"refused {number}\n")
        checks.check(name, (status, err if status == 1 else ""), expected)
    checks.check("a refused line", checks.console(db, lines="frob\nquit\n"), (1, "refused 55\n", ""))


def delivers(checks, folder):
    """Delivers what was marked into a folder."""
    db, missing = os.path.join(folder, "delivered.db"), os.path.join(folder, "missing")
    with open(ORDER_SQL) as text:
        sqlite3(db, text.read())
    for place, (before, text) in enumerate(answers().items()):
        into = os.path.join(folder, f"into{place}")
        os.mkdir(into)
        tree, stop = delivery(text.encode())
        checks.check(f"delivery of what was before {before}", checks.console(db, before=before, into=into), (0, text, ""))
        checks.check("and its files", (tree_of(into), stop, len(tree) > 5), (tree, None, True))
    refused = (1, "", "refused 81\n")
    checks.check("a second delivery", checks.console(db, before=before, into=into), refused)
    checks.check("changes nothing", tree_of(into), tree)
    checks.check("a filled folder and no catalogue", checks.console(missing, into=into), refused)
    checks.check("a filled folder and a moment without a time", checks.console(missing, before="2026-11-22", into=into), (1, "", "refused 52\n"))
    checks.check("a folder that is not there", checks.console(db, into=missing), refused)
    checks.check("and is not made", os.path.exists(missing), False)
    empty = os.path.join(folder, "empty")
    os.mkdir(empty)
    checks.check("an empty folder and no catalogue", checks.console(missing, into=empty), (1, "", "refused 45\n"))
    checks.check("a talk that is quit", checks.console(db, lines="mark *\nquit\n", into=empty), (0, "5 marked\n", ""))
    checks.check("delivers nothing", os.listdir(empty), [])


# The jobs of the catalogue, from the table of File: of the Full three files of 7 bytes and two folders, of the Differential one of
# 13 bytes, of the Incremental one of 24.
JOB_LINES = [
    "1 F T 2026-11-21 23:15:33 peer-fd Peer 5 21 Vol-0001\n",
    "2 D T 2026-11-21 23:15:38 peer-fd Peer 1 13 Vol-0001\n",
    "3 I T 2026-11-21 23:15:45 peer-fd Peer 1 24 Vol-0001\n",
]


def listed(marks):
    return "".join(f"{mark} {job}" for mark, job in zip(marks, JOB_LINES) if mark != " ")


def lists(checks, folder):
    """Lists the jobs of a catalogue."""
    db, missing = os.path.join(folder, "listed.db"), os.path.join(folder, "no.db")
    with open(ORDER_SQL) as text:
        sqlite3(db, text.read())
    peer = {"client": "peer-fd", "fileset": "Peer"}
    for name, only, marks in [
        ("all jobs", {}, "---"),
        ("jobs of a client", {"client": "peer-fd"}, "---"),
        ("jobs of a file set", {"fileset": "Peer"}, "---"),
        ("jobs of another client", {"client": "other"}, "   "),
        ("jobs of another file set", {"fileset": "peer"}, "   "),
        ("jobs before a moment", {"before": "2026-11-21 23:15:45"}, "-- "),
        ("jobs of a client before a moment", {"client": "peer-fd", "before": "2026-11-21 23:15:39"}, "-- "),
        ("jobs that are chosen", {**peer, "before": "2026-11-22 00:00:00"}, "***"),
        ("jobs that are chosen without the Incremental", {**peer, "before": "2026-11-21 23:15:45"}, "** "),
        ("the Full alone", {**peer, "before": "2026-11-21 23:15:34"}, "*  "),
    ]:
        checks.check(name, checks.jobs(db, **only), (0, listed(marks), ""))
    for name, only, marks, number in [
        ("jobs before the Full", {**peer, "before": "2026-11-21 23:15:33"}, "   ", 50),
        ("jobs of a client that is not there", {**peer, "client": "other", "before": "2026-11-22 00:00:00"}, "   ", 53),
        ("jobs of a file set that is not there", {**peer, "fileset": "other", "before": "2026-11-22 00:00:00"}, "   ", 54),
        ("jobs of a client with a slash", {**peer, "client": "a/b", "before": "2026-11-22 00:00:00"}, "   ", 2),
        ("jobs before a moment without a time", {"before": "2026-11-22"}, "   ", 52),
    ]:
        checks.check(name, checks.jobs(db, **only), (1, listed(marks), f"refused {number}\n"))
    sqlite3(db, "UPDATE Job SET JobStatus = 'E' WHERE JobId = 2;")
    checks.check("jobs with a Differential that failed", checks.jobs(db, **peer, before="2026-11-22 00:00:00"), (0, listed("*-*").replace("2 D T", "2 D E"), ""))
    sqlite3(db, "UPDATE JobMedia SET JobId = 1, VolIndex = 2 WHERE JobId = 3; INSERT INTO Media VALUES (2, 'Vol 2', 'File');")
    sqlite3(db, "UPDATE JobMedia SET MediaId = 2 WHERE JobId = 1 AND VolIndex = 2;")
    text = listed("---").replace("2 D T", "2 D E").replace("5 21 Vol-0001", "5 21 Vol-0001,Vol\\x202").replace("1 24 Vol-0001", "1 24 -")
    checks.check("a job on two volumes and one on none", checks.jobs(db), (0, text, ""))
    sqlite3(db, "UPDATE Job SET StartTime = 253402300799 WHERE JobId = 1; UPDATE Job SET StartTime = 0 WHERE JobId = 2;")
    text = text.replace("2026-11-21 23:15:33", "9999-12-31 23:59:59").replace("2026-11-21 23:15:38", "1970-01-01 00:00:00")
    checks.check("jobs of the last moment and of the first", checks.jobs(db), (0, text, ""))
    sqlite3(db, "UPDATE Version SET VersionId = 3;")
    checks.check("jobs of a catalogue of version 3", checks.jobs(db), (1, "", "refused 47\n"))
    checks.check("and a moment without a time", checks.jobs(db, before="2026-11-22"), (1, "", "refused 52\n"))
    checks.check("jobs of a catalogue that is not there", checks.jobs(missing), (1, "", "refused 45\n"))
    checks.check("and is not made", os.path.exists(missing), False)
    old = os.path.join(folder, "old_list.db")
    with open(VERSION_1_SQL) as text:
        sqlite3(old, text.read())
    checks.check("jobs of a catalogue of version 1", checks.jobs(old), (1, "", "refused 48\n"))
    checks.migrate(old)
    checks.check("once it is migrated", checks.jobs(old), (0, listed("---"), ""))


def renumbered(number):
    """Returns statements that give the job 2 another number."""
    return "".join(f"UPDATE {table} SET JobId = {number} WHERE JobId = 2;" for table in ("Job", "JobMedia", "File"))


def span(end_file, number):
    """Returns a statement that adds a span of this number to the job 2, at blocks from 5 * 2^32 on."""
    return f"INSERT INTO JobMedia VALUES (4, 2, 1, 1, 1, 5, {end_file}, 0, 9, {number});"


# Changes of the catalogue, and the number with which it is refused after each.
REFUSED = [
    ("a catalogue of version 3", "UPDATE Version SET VersionId = 3;", 47),
    ("a catalogue of version 1 with tables of version 2", "UPDATE Version SET VersionId = 1;", 48),
    ("two versions", "INSERT INTO Version VALUES (2);", 47),
    ("version 1 beside version 2", "INSERT INTO Version VALUES (1);", 47),
    ("no version", "DELETE FROM Version;", 47),
    ("a span number that skips", "UPDATE JobMedia SET VolIndex = 2 WHERE JobId = 3;", 47),
    ("a second span whose number skips", span(5, 3), 47),
    ("a span that ends past the greatest address", span(4294967296, 2), 47),
    ("a digest of 31 digits", "UPDATE File SET MD5 = substr(MD5, 2) WHERE FileId = 1;", 47),
    ("a digest in capitals", "UPDATE File SET MD5 = upper(MD5) WHERE FileId = 1;", 47),
    ("an index past the greatest one", "UPDATE File SET FileIndex = 2147483648 WHERE FileId = 1;", 47),
    ("a job past the greatest number", renumbered(4294967296), 47),
    ("a job of the number 0", renumbered(0), 47),
    ("numbers that are twelve", "UPDATE File SET LStat = 'A A A A A A A A A A A A' WHERE FileId = 1;", 47),
    ("a moment after the year 9999", "UPDATE Job SET StartTime = 253402300800 WHERE JobId = 1;", 47),
    ("a row that points nowhere", "DELETE FROM Path WHERE PathId = 1;", 45),
    ("a missing column", "ALTER TABLE Media DROP COLUMN MediaType;", 45),
    ("a missing table", "DROP TABLE Media;", 45),
    ("no files", "DROP TABLE File;", 45),
]

# Changes after which the same is restored.
KEPT = [
    ("a second span", span(5, 2)),
    ("a job of the greatest number", renumbered(4294967295)),
    ("another table", "CREATE TABLE Extra(Id INTEGER PRIMARY KEY);"),
    ("an index", "CREATE INDEX FilesOfJobs ON File(JobId);"),
    ("a view", "CREATE VIEW Names AS SELECT Filename FROM File;"),
]


def new_db(folder, sql, change=""):
    """Makes a catalogue by a file of statements, and changes it."""
    db = os.path.join(tempfile.mkdtemp(dir=folder), "other.db")
    with open(sql) as text:
        sqlite3(db, text.read() + change)
    return db


def refuses(checks, folder):
    """Tries catalogues that somebody changed, and files that are not catalogues."""
    for name, change, number in REFUSED:
        checks.check(name, checks.console(new_db(folder, ORDER_SQL, change)), (1, "", f"refused {number}\n"))
    before, text = list(answers().items())[-1]
    for name, change in KEPT:
        checks.check(name, checks.console(new_db(folder, ORDER_SQL, change), before=before), (0, text, ""))
    old = os.path.join(folder, "old.db")
    with open(VERSION_1_SQL) as text:
        sqlite3(old, text.read())
    checks.check("a catalogue of version 1", checks.console(old), (1, "", "refused 48\n"))
    checks.check("keeps its version", sqlite3(old, "SELECT * FROM Version;"), "1\n")
    sqlite3(old, "UPDATE Version SET VersionId = 2;")
    checks.check("a catalogue of version 2 with tables of version 1", checks.console(old), (1, "", "refused 45\n"))
    missing = os.path.join(folder, "missing.db")
    checks.check("a file that is not there", checks.console(missing), (1, "", "refused 45\n"))
    checks.check("and is not made", os.path.exists(missing), False)
    other, text = os.path.join(folder, "other.txt"), "no database, and longer than the header of one of SQLite's. " * 3
    with open(other, "w") as file:
        file.write(text)
    checks.check("a file of other bytes", checks.console(other), (1, "", "refused 45\n"))
    with open(other) as file:
        checks.check("and keeps them", file.read(), text)


# All columns of the rows of a catalogue of either version, as sqlite3 shows them.
JOBS = """SELECT * FROM Job JOIN Client USING (ClientId) JOIN FileSet USING (FileSetId) ORDER BY JobId;
SELECT * FROM JobMedia JOIN Media USING (MediaId) ORDER BY JobMediaId;"""
OLD_FILES = """SELECT FileId, FileIndex, JobId, hex(Path), hex(Name), LStat, MD5 FROM File
JOIN Path USING (PathId) JOIN Filename USING (FilenameId) ORDER BY FileId;"""
FILES = "SELECT FileId, FileIndex, JobId, hex(Path), hex(Filename), LStat, MD5 FROM File JOIN Path USING (PathId) ORDER BY FileId;"


# Changes of the catalogue of version 1, and the number with which a migration is refused after each.
NOT_MIGRATED = [
    ("two versions", "INSERT INTO Version VALUES (1);", 47),
    ("no version", "DELETE FROM Version;", 47),
    ("version 2", "UPDATE Version SET VersionId = 2;", 47),
    ("a version that is no number", "UPDATE Version SET VersionId = 'one';", 47),
    ("numbers that are two", "UPDATE File SET LStat = '1 2' WHERE FileId = 1;", 47),
    ("a digest that is no text", "UPDATE File SET MD5 = x'00' WHERE FileId = 1;", 47),
    ("a name that is a text", "UPDATE Filename SET Name = 'f1' WHERE FilenameId = 1;", 47),
    ("a name of several parts", "UPDATE Filename SET Name = x'612f2f62' WHERE FilenameId = 1;", 47),
    ("a span number that skips", "UPDATE JobMedia SET VolIndex = 2 WHERE JobId = 3;", 47),
    ("a row that points nowhere", "DELETE FROM Filename WHERE FilenameId = 1;", 45),
    ("no files", "DROP TABLE File;", 45),
    ("neither files nor names", "DROP TABLE File; DROP TABLE Filename;", 45),
    ("a table that points to jobs", "CREATE TABLE Extra(JobId INTEGER REFERENCES Job(JobId));", 45),
    ("an index", "CREATE INDEX FilesOfJobs ON File(JobId);", 45),
]

# Changes after which a migration leaves the same jobs.
MIGRATED = [
    ("a row that moves to the end", "UPDATE File SET FileId = 77 WHERE FileId = 6;"),
    ("a name of no file", "INSERT INTO Filename VALUES (7, x'ff');"),
    ("a version that is a text", "UPDATE Version SET VersionId = '1';"),
    ("another table", "CREATE TABLE Extra(Id INTEGER PRIMARY KEY);"),
    ("statistics", "ANALYZE;"),
    ("a view", "CREATE VIEW Names AS SELECT Name FROM Filename;"),
    ("an index of another table", "CREATE INDEX TypesOfMedia ON Media(MediaType);"),
]


def migrates(checks, folder):
    """Migrates a catalogue of version 1, and restores from it."""
    db, copy = os.path.join(folder, "migrated.db"), os.path.join(folder, "copy.db")
    with open(VERSION_1_SQL) as text:
        sqlite3(db, text.read())
    rows = sqlite3(db, JOBS + OLD_FILES)
    checks.check("a migration", checks.migrate(db), (0, "migrated 3\n", ""))
    shutil.copy(db, copy)
    checks.check("the rows in the file alone", sqlite3(copy, JOBS + FILES), rows)
    checks.check("its version", sqlite3(copy, "SELECT * FROM Version;"), "2\n")
    names = sqlite3(copy, "SELECT name FROM sqlite_master WHERE type = 'table' ORDER BY name;").split()
    checks.check("its tables", names, TABLES)
    checks.check("its integrity", sqlite3(copy, "PRAGMA integrity_check; PRAGMA foreign_key_check;"), "ok\n")
    for before, text in answers().items():
        checks.check(f"a migrated catalogue, before {before}", checks.console(db, before=before), (0, text, ""))
    checks.check("what it lists", checks.console(db, lines=LISTINGS), (0, LISTED, ""))
    checks.check("a second migration", checks.migrate(db), (1, "", "refused 47\n"))
    checks.check("of a file that is not there", checks.migrate(os.path.join(folder, "missing.db")), (1, "", "refused 45\n"))
    empty = os.path.join(folder, "nothing.db")
    open(empty, "w").close()
    checks.check("a session over an empty file", checks.console(empty), (1, "", "refused 45\n"))
    checks.check("and its jobs", checks.jobs(empty), (1, "", "refused 45\n"))
    checks.check("a migration of it", checks.migrate(empty), (1, "", "refused 47\n"))
    checks.check("which stays without jobs", checks.console(empty), (1, "", "refused 53\n"))
    for name, change, number in NOT_MIGRATED:
        other = new_db(folder, VERSION_1_SQL, change)
        dump = sqlite3(other, ".dump")
        checks.check(f"a migration with {name}", checks.migrate(other), (1, "", f"refused {number}\n"))
        checks.check("changes nothing", sqlite3(other, ".dump"), dump)
    for name, change in MIGRATED:
        other = new_db(folder, VERSION_1_SQL, change)
        checks.check(f"a migration with {name}", checks.migrate(other), (0, "migrated 3\n", ""))
        checks.check("and a restore", checks.console(other, before=before), (0, text, ""))


def makes(checks, folder):
    """Checks a catalogue that the program makes of an empty file."""
    db, volumes = os.path.join(folder, "empty.db"), os.path.join(folder, "no volumes")
    open(db, "w").close()
    os.mkdir(volumes)
    ran = subprocess.run([checks.program, "serve", "--db", db, "--volumes", volumes], input="", capture_output=True, text=True)
    checks.check("an empty script over an empty file", (ran.returncode, ran.stdout, ran.stderr), (0, "", ""))
    checks.check("PRAGMA integrity_check", sqlite3(db, "PRAGMA integrity_check;"), "ok\n")
    names = sqlite3(db, "SELECT name FROM sqlite_master WHERE type = 'table' ORDER BY name;").split()
    checks.check("its tables", names, TABLES)
    checks.check("its version", sqlite3(db, "SELECT * FROM Version;"), "2\n")
    checks.check("has no job", checks.console(db), (1, "", "refused 53\n"))
    checks.check("and lists none", checks.jobs(db), (0, "", ""))


def main():
    parser = argparse.ArgumentParser(description="Restores from catalogues that sqlite3 made.")
    parser.add_argument("--program", default=PROGRAM, help="the program (default: %(default)s)")
    checks = ConsoleChecks(parser.parse_args().program)
    with tempfile.TemporaryDirectory() as folder:
        restores(checks, folder)
        delivers(checks, folder)
        lists(checks, folder)
        refuses(checks, folder)
        migrates(checks, folder)
        makes(checks, folder)
    return 1 if checks.failed else 0


if __name__ == "__main__":
    sys.exit(main())
