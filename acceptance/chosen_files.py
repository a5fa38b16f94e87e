#!/usr/bin/env python3
"""Looks at the files of some jobs alone in a catalogue, and at all of them: both ways must give the same, and a broken row counts only
where it is looked at.

    acceptance/chosen_files.py                    needs sqlite3, and the program in crates/brestore/out
    acceptance/chosen_files.py --program FILE     another program

The status is 1 if something is not as expected.
"""

import argparse
import contextlib
import itertools
import os
import sqlite3
import subprocess
import sys
import tempfile

# Nothing is left beside the script.
sys.dont_write_bytecode = True
sys.path.insert(0, os.path.join(os.path.dirname(os.path.dirname(os.path.abspath(__file__))), "tools"))
from common import ORDER_SQL, PROGRAM, SETS, Checks

ALL = ["--verify-catalogue"]
VOLUMES = os.path.join(SETS, "order")
SESSION = b"find *\nmark *\nestimate\ndone\n"
# The last second that a catalogue may have.
END = "9999-12-31 23:59:59"

# Jobs beside those of order.sql, each with a row of a file: a Full of another client, one of another file set, an earlier Full of the same
# file set, which is not used, and a job that failed.
MORE = """INSERT INTO Client VALUES (2, 'other-fd');
INSERT INTO FileSet VALUES (2, 'Rest');
INSERT INTO Job VALUES (4, 'B', 'F', 2, 'T', 1795302940, 1, 4, 1795302931);
INSERT INTO Job VALUES (5, 'B', 'F', 1, 'T', 1795302940, 2, 5, 1795302931);
INSERT INTO Job VALUES (6, 'B', 'F', 1, 'T', 1795302930, 1, 6, 1795302931);
INSERT INTO Job VALUES (7, 'B', 'I', 1, 'f', 1795302946, 1, 7, 1795302931);
INSERT INTO JobMedia SELECT JobId, JobId, 1, 1, 1, 0, 0, 3000 + 100 * JobId, 3099 + 100 * JobId, 1 FROM Job WHERE JobId > 3;
INSERT INTO File SELECT 10 * Job.JobId, 1, Job.JobId, 1, CAST('f9' AS BLOB), LStat, MD5 FROM Job, File WHERE Job.JobId > 3 AND FileId = 1;
"""
# Rows of a file that no history has: what is wrong with one, and the statement that makes it so of a row.
BROKEN = [
    ("a digest of 31 digits", "UPDATE File SET MD5 = substr('3e17bc1b2ed08c3055eeafa12d5c4b53', 2) WHERE FileId = {};"),
    ("a digest in capitals", "UPDATE File SET MD5 = '3E17BC1B2ED08C3055EEAFA12D5C4B53' WHERE FileId = {};"),
    ("a digest that is a blob", "UPDATE File SET MD5 = x'00' WHERE FileId = {};"),
    ("an index past the greatest one", "UPDATE File SET FileIndex = 2147483648 WHERE FileId = {};"),
    ("an index below 0", "UPDATE File SET FileIndex = -1 WHERE FileId = {};"),
    ("an index that is a text", "UPDATE File SET FileIndex = 'one' WHERE FileId = {};"),
    ("an index that comes twice", "INSERT INTO File SELECT 99, FileIndex, JobId, PathId, x'7477696365', LStat, MD5 FROM File WHERE FileId = {};"),
    ("numbers that are twelve", "UPDATE File SET LStat = 'A A A A A A A A A A A A' WHERE FileId = {};"),
    ("numbers that are a blob", "UPDATE File SET LStat = x'41' WHERE FileId = {};"),
    ("a name that is a text", "UPDATE File SET Filename = 'f9' WHERE FileId = {};"),
    ("a name with a NUL", "UPDATE File SET Filename = x'6600' WHERE FileId = {};"),
    ("a path that does not begin at the root", "INSERT INTO Path VALUES (9, x'612f'); UPDATE File SET PathId = 9 WHERE FileId = {};"),
]
# A row of a file of each kind of job: of those that are chosen, of others that are listed with them, and of the rest.
CHOSEN, LISTED, ELSEWHERE = {"Full": 1, "Differential": 6, "Incremental": 7}, {"earlier Full": 60, "failed job": 70}, {"client": 40, "file set": 50}
# Rows that are looked at whichever job is asked for.
ALWAYS = [
    ("a letter that is none", "UPDATE Job SET Level = '1' WHERE JobId = 4;"),
    ("a span number that skips", "UPDATE JobMedia SET VolIndex = 2 WHERE JobId = 4;"),
    ("a moment after the year 9999", "UPDATE Job SET StartTime = 253402300800 WHERE JobId = 4;"),
]


def changed(db, text):
    """Runs statements over a catalogue."""
    with contextlib.closing(sqlite3.connect(db)) as connection:
        connection.executescript(text)


def made(folder, *texts):
    """Makes a catalogue of order.sql and more statements."""
    db = os.path.join(tempfile.mkdtemp(dir=folder), "catalogue")
    with open(ORDER_SQL) as text:
        changed(db, "".join([text.read(), *texts]))
    return db


def run(program, words, lines=b""):
    """Runs a command. Returns exit status, standard output and standard error."""
    ran = subprocess.run([program, *words], input=lines, capture_output=True)
    return ran.returncode, ran.stdout, ran.stderr


def names_of(db):
    """Returns the clients and the file sets of the jobs in a catalogue, and a moment before and after each job begins."""
    with contextlib.closing(sqlite3.connect(db)) as connection:
        connection.text_factory = lambda it: it.decode("utf-8", "surrogateescape")
        clients = [it for (it,) in connection.execute("SELECT Name FROM Client ORDER BY ClientId")]
        filesets = [it for (it,) in connection.execute("SELECT FileSet FROM FileSet ORDER BY FileSetId")]
        moments = connection.execute("SELECT DISTINCT datetime(StartTime + more, 'unixepoch') FROM Job, (SELECT 0 AS more UNION SELECT 1)").fetchall()
    return clients, filesets, sorted({END, *(it for (it,) in moments if it)})


def requests_of(db, count):
    """Returns the words of each request for a client, a file set and one of the last moments, and of some that name none."""
    clients, filesets, moments = names_of(db)
    asked = itertools.product([*clients, "nobody"], [*filesets, "nothing"], moments[-count:])
    for client, fileset, moment in asked:
        if client != "nobody" or moment == END:
            yield ["--client", client, "--fileset", fileset, "--before", moment]


def parts_of(request):
    """Returns the words of each part of a request: with and without client, file set and moment."""
    pairs = [request[place:place + 2] for place in range(0, len(request), 2)]
    for kept in itertools.product((True, False), repeat=len(pairs)):
        yield tuple(word for pair, stays in zip(pairs, kept) if stays for word in pair)


def both_ways(checks, name, db, volumes=None, moments=3):
    """Compares what each request at one of the last moments gives of the files that it needs with what it gives of all: `jobs` with each
    part of the request, and a session, which ends by `done` if there are volumes."""
    differ, count, lists = [], 0, set()
    for request in requests_of(db, moments):
        lists.update(parts_of(request))
        words = ["console", "--db", db, "--volumes", volumes or os.path.dirname(db), *request]
        lines = SESSION if volumes else SESSION.replace(b"done", b"quit")
        found, wanted = (run(checks.program, words + more, lines) for more in ([], ALL))
        count += 1
        differ += [(request, found, wanted)] if found != wanted else []
    for part in sorted(lists):
        found, wanted = (run(checks.program, ["jobs", "--db", db, *part, *more]) for more in ([], ALL))
        count += 1
        differ += [(part, found, wanted)] if found != wanted else []
    checks.check(f"{name}: the same both ways", (count > 0, differ[:1]), (True, []))


def agree(checks, folder):
    """Compares both ways over catalogues whose rows form a history."""
    both_ways(checks, "three jobs", made(folder), VOLUMES, 100)
    both_ways(checks, "seven jobs", made(folder, MORE), VOLUMES, 6)
    both_ways(checks, "an index of files by job", made(folder, MORE, "CREATE INDEX FilesOfJobs ON File(JobId);"), VOLUMES)
    both_ways(checks, "jobs whose files are gone", made(folder, MORE, "DELETE FROM File WHERE JobId IN (2, 4);"), VOLUMES)
    both_ways(checks, "files of the jobs in turn", made(folder, MORE, "UPDATE File SET FileId = 1000 + 10 * (FileId % 10) + JobId;"), VOLUMES)
    both_ways(checks, "no file", made(folder, MORE, "DELETE FROM File;"), VOLUMES)
    both_ways(checks, "no job", made(folder, "DELETE FROM File; DELETE FROM JobMedia; DELETE FROM Job;"), VOLUMES)


def refuses(checks, name, db, sound, is_chosen, is_listed):
    """Tests a catalogue with a broken row of a file. `sound` has the same without the broken row. The row is one of a chosen job, or of
    one that is listed for the request, or of neither."""
    peer = ["--client", "peer-fd", "--fileset", "Peer", "--before", "2026-11-22 00:00:00"]
    session, jobs = ["console", "--db", db, "--volumes", VOLUMES, *peer], ["jobs", "--db", db]
    refused, well = (1, b"", b"refused 47\n"), [run(checks.program, [it.replace(db, sound) for it in words], SESSION) for words in (session, jobs + peer)]
    checks.check(f"a session over {name}", run(checks.program, session, SESSION), refused if is_chosen else well[0])
    checks.check("if all rows are looked at", run(checks.program, session + ALL, SESSION), refused)
    checks.check("its list of jobs", run(checks.program, jobs + peer), refused if is_listed else well[1])
    checks.check("if all rows are looked at", run(checks.program, jobs + peer + ALL), refused)
    checks.check("the list of all jobs", run(checks.program, jobs), refused)


def breaks(checks, folder):
    """Breaks a row of a file in each way, and in each kind of job."""
    sound = made(folder, MORE)
    status, shown, _ = run(checks.program, ["console", "--db", sound, "--volumes", VOLUMES, "--client", "peer-fd", "--fileset", "Peer", "--before", END], SESSION)
    checks.check("the sound catalogue", (status, shown.endswith(b"total 5 0 0\n")), (0, True))
    for what, text in BROKEN:
        for job, row in {**CHOSEN, **LISTED, **ELSEWHERE}.items():
            db = made(folder, MORE, text.format(row))
            refuses(checks, f"{what} ({job})", db, sound, job in CHOSEN, job not in ELSEWHERE)
    for what, text in ALWAYS:
        refuses(checks, what, made(folder, MORE, text), sound, True, True)


def nothing_is_chosen(checks, folder):
    """Looks at no file if no job is chosen."""
    db = made(folder, MORE, BROKEN[0][1].format(7))
    for name, words, number in [("an unknown client", ["nobody", "Peer"], 53), ("an unknown file set", ["peer-fd", "nothing"], 54), ("no Full", ["peer-fd", "Peer"], 50)]:
        moment = "1970-01-01 00:00:01" if number == 50 else END
        words = ["console", "--db", db, "--volumes", VOLUMES, "--client", words[0], "--fileset", words[1], "--before", moment]
        checks.check(f"{name}, beside a broken row", run(checks.program, words, b"quit\n"), (1, b"", f"refused {number}\n".encode()))
        checks.check("if all rows are looked at", run(checks.program, words + ALL, b"quit\n"), (1, b"", b"refused 47\n"))


def main():
    parser = argparse.ArgumentParser(description=__doc__.splitlines()[0])
    parser.add_argument("--program", default=PROGRAM)
    checks = Checks(parser.parse_args().program)
    with tempfile.TemporaryDirectory() as folder:
        agree(checks, folder)
        breaks(checks, folder)
        nothing_is_chosen(checks, folder)
    return int(checks.failed > 0)


if __name__ == "__main__":
    sys.exit(main())
