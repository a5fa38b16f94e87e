#!/usr/bin/env python3
"""Restores from catalogues that somebody changed by the real sqlite3, and commits a job to each.

    acceptance/changed.py [--program FILE]     needs sqlite3

Each catalogue is that of catalogues/order.sql with something added to it, or made in another way. Those that are taken give the same
restores. `serve` commits a job to each: sqlite3 then finds the catalogue sound, with what was added to it as it was, and the job is
restored. A column that was added to a table of the catalogue has its default, or NULL, in the new row; if that may not be, the job is
refused with 45 and nothing changes. Catalogues that are not taken are refused by `console`, `serve` and `migrate`, and their files
stay as they are. Of version 1 all are refused with 48 by `console` and `serve`, whatever is in them, and `migrate` takes some of them.
The status is 1 if something is not as expected.
"""

import argparse
import os
import re
import shutil
import sys
import tempfile
from pathlib import Path

# Nothing is left beside the script.
sys.dont_write_bytecode = True
sys.path.insert(0, os.path.join(os.path.dirname(os.path.dirname(os.path.abspath(__file__))), "tools"))
from catalogue import TABLES, ConsoleChecks, answers, sqlite3
from common import ORDER_SQL, PROGRAM, VERSION_1_SQL
from stored import served

TAKEN = {
    "an index": "CREATE INDEX FilesOfJobs ON File(JobId);",
    "an index of unique rows": "CREATE UNIQUE INDEX MomentsOfJobs ON Job(StartTime, ClientId);",
    "an index that falls": "CREATE INDEX FilesOfJobs ON File(JobId DESC, FileIndex);",
    "an index that knows no case": "CREATE INDEX Volumes ON Media(VolumeName COLLATE NOCASE);",
    "statistics": "ANALYZE;",
    "statistics of an index": "CREATE INDEX FilesOfJobs ON File(JobId); ANALYZE;",
    "a view": "CREATE VIEW Names AS SELECT Path, Filename FROM File JOIN Path USING (PathId);",
    "a table": "CREATE TABLE Notes(JobId INTEGER, Note TEXT); INSERT INTO Notes VALUES (1, 'x');",
    "a table that points to jobs": "CREATE TABLE Notes(JobId INTEGER REFERENCES Job(JobId)); INSERT INTO Notes VALUES (1);",
    "a table without row numbers": "CREATE TABLE Notes(Note TEXT PRIMARY KEY) WITHOUT ROWID; INSERT INTO Notes VALUES ('x');",
    "a table that counts": "CREATE TABLE Notes(Id INTEGER PRIMARY KEY AUTOINCREMENT, Note TEXT); INSERT INTO Notes VALUES (NULL, 'x');",
    "a table with a trigger": "CREATE TABLE Notes(Note TEXT); CREATE TRIGGER Cleared AFTER INSERT ON Notes BEGIN DELETE FROM Notes WHERE Note = ''; END;",
    "a table with an index of some rows": "CREATE TABLE Notes(Note TEXT); CREATE INDEX Filled ON Notes(Note) WHERE Note > '';",
    "a table with a later column": "CREATE TABLE Notes(Note TEXT); INSERT INTO Notes VALUES ('x'); ALTER TABLE Notes ADD COLUMN Place TEXT;",
    "a table with a value of many pages": "CREATE TABLE Notes(Note BLOB); INSERT INTO Notes VALUES (zeroblob(100000));",
    "a table that is gone": "CREATE TABLE Notes(Note BLOB); INSERT INTO Notes VALUES (zeroblob(100000)); DROP TABLE Notes;",
    "pages of 1,024 bytes": "PRAGMA page_size = 1024; VACUUM;",
    "pages of 65,536 bytes": "PRAGMA page_size = 65536; VACUUM;",
    "journal_mode WAL": "PRAGMA journal_mode = WAL;",
    "its user's own numbers": "PRAGMA user_version = 5; PRAGMA application_id = 77;",
    "an index and a VACUUM": "CREATE INDEX FilesOfJobs ON File(JobId); VACUUM;",
}
REFUSED = {
    "a missing column": "ALTER TABLE Media DROP COLUMN MediaType;",
    "a column with another name": "ALTER TABLE Media RENAME COLUMN MediaType TO Kind;",
    "a table with another name": "ALTER TABLE Media RENAME TO Volumes;",
    "a column that hides the numbers of rows": "ALTER TABLE Version ADD COLUMN rowid TEXT;",
    "a column with a default": "ALTER TABLE Media ADD COLUMN Slot INTEGER NOT NULL DEFAULT 7;",
    "auto_vacuum": "PRAGMA auto_vacuum = FULL; VACUUM;",
    "auto_vacuum in steps": "PRAGMA auto_vacuum = INCREMENTAL; VACUUM;",
    "a trigger": "CREATE TRIGGER Cleared AFTER INSERT ON Job BEGIN DELETE FROM Client WHERE ClientId = 0; END;",
    "a trigger on a view": "CREATE VIEW One AS SELECT 1; CREATE TRIGGER Cleared INSTEAD OF INSERT ON One BEGIN DELETE FROM Client WHERE ClientId = 0; END;",
    "an index of some rows": "CREATE INDEX FilesOfJobs ON File(JobId) WHERE FileIndex > 0;",
    "an index of an expression": "CREATE INDEX LengthsOfNames ON File(length(Filename));",
    "a view that numbers rows": "CREATE VIEW Numbers AS SELECT row_number() OVER (ORDER BY JobId) FROM Job;",
    "a default for rows that were there": "CREATE TABLE Notes(Note TEXT); INSERT INTO Notes VALUES ('x'); ALTER TABLE Notes ADD COLUMN Place TEXT DEFAULT 'y';",
    "a row that points to no job": "CREATE TABLE Notes(JobId INTEGER REFERENCES Job(JobId)); INSERT INTO Notes VALUES (99);",
    "a virtual table": "CREATE VIRTUAL TABLE Words USING fts5(Word);",
}
# Those of them that are not read at all, or have no table Version: `migrate` refuses them with 45, and the others with 47.
UNREAD = {
    "a column that hides the numbers of rows",
    "a column with a default",
    "auto_vacuum",
    "auto_vacuum in steps",
    "a trigger",
    "a trigger on a view",
    "an index of some rows",
    "an index of an expression",
    "a view that numbers rows",
    "a default for rows that were there",
    "a row that points to no job",
    "a virtual table",
    "texts of two bytes a letter",
    "WITHOUT ROWID",
}
# What somebody added to a catalogue of version 1 that `migrate` does not take, and how it is removed again.
OLD_ADDITIONS = {
    "an index": ("CREATE INDEX FilesOfJobs ON File(JobId);", "DROP INDEX FilesOfJobs;"),
    "a table that points to jobs": ("CREATE TABLE Notes(JobId INTEGER REFERENCES Job(JobId));", "DROP TABLE Notes;"),
    "a column": ("ALTER TABLE Job ADD COLUMN Note TEXT;", "ALTER TABLE Job DROP COLUMN Note;"),
}
# The tables, views and indexes that somebody made.
OWN_OBJECTS = f"""SELECT type, name, sql FROM sqlite_schema WHERE type = 'view' OR type = 'index' AND sql IS NOT NULL
OR type = 'table' AND name NOT IN ('Filename', {", ".join(f"'{it}'" for it in TABLES)}) ORDER BY name;"""
# The statements that change version 1 to version 2 with sqlite3 alone.
BY_HAND = """CREATE TABLE NewFile(FileId INTEGER PRIMARY KEY, FileIndex INTEGER NOT NULL, JobId INTEGER NOT NULL REFERENCES Job(JobId),
  PathId INTEGER NOT NULL REFERENCES Path(PathId), Filename BLOB NOT NULL, LStat TEXT NOT NULL, MD5 TEXT NOT NULL);
INSERT INTO NewFile SELECT FileId, FileIndex, JobId, PathId, Name, LStat, MD5 FROM File JOIN Filename USING (FilenameId) ORDER BY FileId;
DROP TABLE File; DROP TABLE Filename; ALTER TABLE NewFile RENAME TO File; UPDATE Version SET VersionId = 2;"""

JOB = b"""job 4 B I T 1795302950 4 1795302950 64512 peer-fd Peer
putd 3 /tmp/peerlab/src/own 61 - A A IGk B A A A B A A A A A A
place Own-1 0
end
"""
# A block header, two record headers, the attributes, one byte and its digest.
JOB_BYTES = 24 + 3 * 12 + len("1 3 /tmp/peerlab/src/own.A A IGk B A A A B A A A A A A..") + 1 + 16
JOB_PRINTED = f"""cwd is: /tmp/peerlab/src/
1 marked
Volume="Own-1"
VolSessionId=4
VolSessionTime=1795302950
VolAddr=0-{JOB_BYTES - 1}
FileIndex=1
F 4 1795302950 1 3 /tmp/peerlab/src/own 0,0,33188,1,0,0,0,1,0,0,0,0,0,0 = 1 0cc175b9c0f1b6a831c399e269772661
total 1 0 0
"""


def tables_and_rows(sql=ORDER_SQL):
    """Returns the statements of a text that make its tables, and the text of its rows."""
    tables, rows = Path(sql).read_text().split("INSERT", 1)
    return tables.split(";")[:-1], ";INSERT" + rows


def remade(table, column, value="NULL", key=""):
    """Returns statements that make a table again with one more column, which has a value in the old
    rows, and a key."""
    made = next(it for it in tables_and_rows()[0] if f"TABLE {table}(" in it)
    columns, keys = re.fullmatch(r".*?\((.*?)((?:, UNIQUE\(\w+, \w+\))?)\)", made, re.S).groups()
    fill = f"INSERT INTO New SELECT *, {value} FROM {table};"
    return f"CREATE TABLE New({columns}, {column}{keys}{key}); {fill} DROP TABLE {table}; ALTER TABLE New RENAME TO {table};"


# Columns that somebody added to tables of the catalogue, and what a query shows after a job was
# committed. The job has one row in each of Job, JobMedia, File and Media.
COLUMNS = {
    "a column": (
        "ALTER TABLE File ADD COLUMN Note TEXT; UPDATE File SET Note = 'mine' WHERE FileId = 7;",
        "SELECT FileId, Note FROM File WHERE FileId > 6;",
        "7|mine\n8|\n",
    ),
    "a column in each table": (
        "".join(f"ALTER TABLE {it} ADD COLUMN Note TEXT;" for it in TABLES),
        "SELECT count(*) FROM File WHERE Note IS NULL;",
        "8\n",
    ),
    "a default that is a number": (remade("Job", "Rank INTEGER NOT NULL DEFAULT 7", 5), "SELECT Rank FROM Job;", "5\n5\n5\n7\n"),
    "a default that is a text": (remade("Media", "Note TEXT DEFAULT 'x'"), "SELECT Note FROM Media;", "\nx\n"),
    "a default of another type": (remade("Media", "Slot INTEGER DEFAULT '12'", 3), "SELECT Slot, typeof(Slot) FROM Media;", "3|integer\n12|integer\n"),
    "a column with a reference and a key": (
        "CREATE TABLE Notes(Id INTEGER PRIMARY KEY); INSERT INTO Notes VALUES (1);"
        + remade("JobMedia", "Note INTEGER REFERENCES Notes(Id)", 1, ", UNIQUE(Note, JobId)"),
        "SELECT JobId, Note FROM JobMedia ORDER BY JobId;",
        "1|1\n2|1\n3|1\n4|\n",
    ),
}
# Columns whose default may not be in the row of the job.
UNFILLED = {
    "a column that has to have a value": remade("File", "Note TEXT NOT NULL", "'x'"),
    "a check that the default breaks": remade("Media", "Slot INTEGER DEFAULT 0 CHECK (Slot > 0)", 1),
    "a key that has the default": remade("Client", "Slot INTEGER DEFAULT 1 UNIQUE", 1)
    + "DELETE FROM File; DELETE FROM JobMedia; DELETE FROM Job; UPDATE Client SET Name = 'other';",
}


def taken():
    """Returns the texts of the catalogues that are taken."""
    text, (tables, rows) = Path(ORDER_SQL).read_text(), tables_and_rows()
    texts = {name: text + more for name, more in TAKEN.items()}
    between = [*tables[:4], "CREATE INDEX TypesOfMedia ON Media(MediaType)", *tables[4:]]
    texts["an index between the tables"] = ";".join(between) + rows
    texts["an index between the tables, after a VACUUM"] = ";".join(between) + rows + "VACUUM;"
    texts["its tables the other way round"] = ";".join(reversed(tables)) + rows
    texts["its first table last"] = ";".join([*tables[1:], tables[0]]) + rows
    texts["a table before its own"] = "CREATE TABLE Notes(Note TEXT UNIQUE); INSERT INTO Notes VALUES ('x');" + text
    texts["a table between its own"] = ";".join([*tables[:4], "CREATE TABLE Notes(Note TEXT)", *tables[4:]]) + rows
    texts["files that sqlite3 migrated"] = Path(VERSION_1_SQL).read_text() + BY_HAND
    texts["files that sqlite3 migrated, after a VACUUM"] = Path(VERSION_1_SQL).read_text() + BY_HAND + "VACUUM;"
    return texts


def old_taken():
    """Returns the texts of the catalogues of version 1 that `migrate` takes."""
    text, (tables, rows) = Path(VERSION_1_SQL).read_text(), tables_and_rows(VERSION_1_SQL)
    index = "CREATE INDEX TypesOfMedia ON Media(MediaType)"
    return {
        "its tables the other way round": ";".join(reversed(tables)) + rows,
        "its first table last": ";".join([*tables[1:], tables[0]]) + rows,
        "an index between the tables": ";".join([*tables[:4], index, *tables[4:]]) + rows,
        "an index between the tables, after a VACUUM": ";".join([*tables[:4], index, *tables[4:]]) + rows + "VACUUM;",
        "an index": text + index + ";",
        "a table that is gone": "CREATE TABLE Notes(Note TEXT UNIQUE);" + text + "DROP TABLE Notes;",
        "a view": text + "CREATE VIEW Names AS SELECT Name FROM Filename;",
        "statistics": text + "ANALYZE;",
        "a table": text + "CREATE TABLE Notes(Note TEXT UNIQUE); INSERT INTO Notes VALUES ('x');",
        "a table before its own": "CREATE TABLE Notes(Note TEXT UNIQUE); INSERT INTO Notes VALUES ('x');" + text,
    }


def refused():
    """Returns the texts of the catalogues that are refused."""
    text = Path(ORDER_SQL).read_text()
    texts = {name: text + more for name, more in REFUSED.items()}
    kind, name = "MediaType TEXT NOT NULL", "VolumeName TEXT NOT NULL UNIQUE"
    texts["a column before one of its own"] = text.replace(kind, "Slot INTEGER, " + kind).replace("'File')", "1, 'File')")
    texts["columns the other way round"] = text.replace(f"{name}, {kind}", f"{kind}, {name}")
    texts["a column of another type"] = text.replace(kind, "MediaType INTEGER NOT NULL")
    texts["a column that may be empty"] = text.replace(kind, "MediaType TEXT")
    texts["a default that reads the time"] = text + remade("Job", "Stored TEXT DEFAULT CURRENT_TIMESTAMP")
    texts["a default that is computed"] = text + remade("Job", "Rank INTEGER DEFAULT (3 + 4)")
    texts["AUTOINCREMENT"] = text.replace("JobId INTEGER PRIMARY KEY", "JobId INTEGER PRIMARY KEY AUTOINCREMENT")
    texts["STRICT"] = text.replace("MediaType TEXT NOT NULL)", "MediaType TEXT NOT NULL) STRICT")
    texts["WITHOUT ROWID"] = text.replace("MediaType TEXT NOT NULL)", "MediaType TEXT NOT NULL) WITHOUT ROWID")
    texts["a key before its own"] = text + remade("JobMedia", "Slot INTEGER UNIQUE")
    texts["a table's name in other letters"] = text.replace("TABLE Client(", "TABLE CLIENT(")
    texts["texts of two bytes a letter"] = 'PRAGMA encoding = "UTF-16le";' + text
    return texts


class Place:
    """A catalogue in a folder of its own, with volumes beside it."""

    def __init__(self, folder, text):
        shutil.rmtree(folder, ignore_errors=True)
        self.db, self.volumes = os.path.join(folder, "own.db"), os.path.join(folder, "volumes")
        os.makedirs(self.volumes)
        sqlite3(self.db, text)

    def own(self):
        """Returns what does not belong to the catalogue: other tables with their rows, indexes,
        views and numbers."""
        names = ", ".join(f"'{name}'" for name in [*TABLES, "sqlite_sequence"])
        others = sqlite3(self.db, f"SELECT name FROM sqlite_schema WHERE type = 'table' AND name NOT IN ({names}) ORDER BY name;").split()
        rows = "".join(f"SELECT * FROM {name};" for name in others)
        return sqlite3(self.db, f"SELECT type, name, sql FROM sqlite_schema ORDER BY name; PRAGMA user_version; PRAGMA application_id; {rows}")


def takes(checks, folder, name, text):
    """Restores from a catalogue, commits a job to it and restores that."""
    place = Place(folder, text)
    own = place.own()
    for before, printed in answers().items():
        checks.check(f"{name}, before {before}", checks.console(place.db, before=before), (0, printed, ""))
    checks.check("a job is committed", served(checks.program, place.db, place.volumes, JOB), (0, b"stored 4\n", b""))
    sound = sqlite3(place.db, "PRAGMA integrity_check; PRAGMA foreign_key_check; SELECT count(*) FROM Job; SELECT count(*) FROM File;")
    checks.check("and sqlite3 finds it", sound, "ok\n4\n8\n")
    checks.check("beside what was there", place.own(), own)
    lines = "cd tmp/peerlab/src\nmark own\ndone\n"
    checks.check("and it is restored", checks.console(place.db, lines=lines, volumes=place.volumes), (0, JOB_PRINTED, ""))


def is_not_opened(checks, name, place, number):
    """Gives a catalogue to the commands that open it, which refuse it with a number."""
    checks.check(f"{name}: console", checks.console(place.db), (1, "", f"refused {number}\n"))
    checks.check("serve", served(checks.program, place.db, place.volumes, JOB), (1, b"", f"refused {number}\n".encode()))


def refuses(checks, folder, name, text, opened, migrated):
    """Gives a refused catalogue to all commands that take one, with the numbers of the refusals."""
    place = Place(folder, text)
    data = Path(place.db).read_bytes()
    is_not_opened(checks, name, place, opened)
    checks.check("migrate", checks.migrate(place.db), (1, "", f"refused {migrated}\n"))
    checks.check("and it stays as it was", (Path(place.db).read_bytes() == data, os.listdir(place.volumes)), (True, []))


def takes_old(checks, folder, name, added, dropped):
    """Gives a catalogue of version 1 with an addition to all commands that take one, and migrates
    it after the addition is removed."""
    text = Path(VERSION_1_SQL).read_text()
    refuses(checks, folder, f"version 1 with {name}", text + added, 48, 45)
    place = Place(folder, text + added + dropped)
    checks.check(f"version 1 without {name} again", checks.migrate(place.db), (0, "migrated 3\n", ""))
    before, printed = list(answers().items())[-1]
    checks.check("is restored", checks.console(place.db, before=before), (0, printed, ""))


def migrates_old(checks, folder, name, text):
    """Migrates a catalogue of version 1 in which something is in another place, or was added."""
    place = Place(folder, text)
    is_not_opened(checks, f"version 1, {name}", place, 48)
    own = sqlite3(place.db, OWN_OBJECTS)
    checks.check("it is migrated", checks.migrate(place.db), (0, "migrated 3\n", ""))
    checks.check("and sqlite3 finds it", sqlite3(place.db, "PRAGMA integrity_check; PRAGMA foreign_key_check; SELECT * FROM Version;"), "ok\n2\n")
    checks.check("beside what was there", sqlite3(place.db, OWN_OBJECTS), own)
    for before, printed in answers().items():
        checks.check(f"and restored, before {before}", checks.console(place.db, before=before), (0, printed, ""))


def fills(checks, folder, name, text, query, shown):
    """Commits a job to a catalogue with one more column, and compares what is then in the
    column."""
    takes(checks, folder, name, Path(ORDER_SQL).read_text() + text)
    checks.check("and its values", sqlite3(os.path.join(folder, "own.db"), query), shown)


def refuses_job(checks, name, place):
    """Commits a job to a catalogue that does not allow it."""
    dump = sqlite3(place.db, ".dump")
    checks.check(f"{name}: a job", served(checks.program, place.db, place.volumes, JOB), (1, b"refused 45\n", b""))
    checks.check("and nothing changes", sqlite3(place.db, "PRAGMA integrity_check; .dump".replace("; ", ";\n")), "ok\n" + dump)


def cannot_insert(checks, folder):
    """Commits a job to a catalogue with an added index that allows no more."""
    place = Place(folder, Path(ORDER_SQL).read_text() + "DELETE FROM File; DELETE FROM JobMedia; DELETE FROM Job; CREATE UNIQUE INDEX OneJob ON Job(ClientId);")
    first = JOB.replace(b"job 4 B I T 1795302950 4", b"job 5 B F T 1795302950 5").replace(b"Own-1", b"Own-2")
    checks.check("an index that allows one job", served(checks.program, place.db, place.volumes, first), (0, b"stored 5\n", b""))
    refuses_job(checks, "and then", place)


def cannot_fill(checks, folder, name, text):
    """Commits a job to a catalogue with a column whose default may not be in its row."""
    place = Place(folder, Path(ORDER_SQL).read_text() + text)
    refuses_job(checks, name, place)


def main():
    parser = argparse.ArgumentParser(description="Restores from catalogues that somebody changed.")
    parser.add_argument("--program", default=PROGRAM, help="the program (default: %(default)s)")
    checks = ConsoleChecks(parser.parse_args().program)
    with tempfile.TemporaryDirectory() as top:
        folder = os.path.join(top, "catalogue")
        for name, text in taken().items():
            takes(checks, folder, name, text)
        for name, text in refused().items():
            refuses(checks, folder, name, text, 45, 45 if name in UNREAD else 47)
        for name, (added, dropped) in OLD_ADDITIONS.items():
            takes_old(checks, folder, name, added, dropped)
        for name, text in old_taken().items():
            migrates_old(checks, folder, name, text)
        for name, (text, query, shown) in COLUMNS.items():
            fills(checks, folder, name, text, query, shown)
        cannot_insert(checks, folder)
        for name, text in UNFILLED.items():
            cannot_fill(checks, folder, name, text)
    return 1 if checks.failed else 0


if __name__ == "__main__":
    sys.exit(main())
