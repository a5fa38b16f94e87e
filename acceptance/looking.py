#!/usr/bin/env python3
"""Looks at catalogues by `brestore console` and `brestore jobs`, and compares what lies there before and after.

    acceptance/looking.py [--program FILE] [PART ..]     all parts, or these; needs sqlite3 and cc

Both must leave each file as it was and make none, also in a folder that they can't write, on an
empty file and on one that is no database. They must show what is committed in a catalogue's file and
its log, also if the log is cut off or damaged, as the real sqlite3 does over a copy of both; and, if
another program changes the two at any read, what they held before or after that. They must wait
while a journal is there that has to be rolled back, for ten seconds at most, and refuse it then.
After `serve` and `migrate` ended, a copy of the catalogue's file alone must have all jobs, by the
real sqlite3; after a `serve` that was killed, as soon as `serve` ran again. The part `moments`
counts the moments of a wait, which `passing_moments.c` lets pass at once; in `changes` it changes
the files at a read. The status is 1 if something is not as expected.
"""

import argparse
import glob
import os
import shutil
import signal
import subprocess
import sys
import tempfile
import threading
import time
from pathlib import Path

# Nothing is left beside the script.
sys.dont_write_bytecode = True
sys.path.insert(0, os.path.join(os.path.dirname(os.path.dirname(os.path.abspath(__file__))), "tools"))
from catalogue import FILES, JOBS, VERSION_1_SQL, VOLUMES, ConsoleChecks, answers, listed
from catalogue import sqlite3 as by_sqlite3
from common import ORDER_SQL, PROGRAM
from preloaded import compiled

REFUSED = (1, "", "refused 45\n")
NOBODY = ["setpriv", "--reuid=65534", "--regid=65534", "--clear-groups"]
TEXT = answers()["2026-11-21 23:15:46"]
SHOWN = (0, TEXT, "")
PEER = ["--client", "peer-fd", "--fileset", "Peer", "--before", "2026-11-21 23:15:46"]
CHOSEN = (0, listed("***"), "")
# From the first refusal to the last try, and what the program and a busy machine may add.
LONGEST, SLACK = 10, 5
# The number of tries of a file in use, with a moment of a tenth of a second after each.
TRIES = 100
# The least number of bytes of a log with a page.
LOG_ROOM = 56

JOB = b"""job 4 B F T 1795302950 4 1795302950 64512 mars home
put 3 /etc/motd 616263 - A A IGk B A A A D A A A A A A
place Vol-0002 0
end
"""


def contents(folder):
    """Returns all that a folder has, with bytes, rights and the time of the last change."""
    found = {}
    for path in sorted(Path(folder).iterdir()):
        state = path.stat()
        found[path.name] = (path.read_bytes(), state.st_mode, state.st_mtime_ns, state.st_ctime_ns)
    return found


def copied(db, *ends):
    """Returns a copy of a catalogue in a separate folder, with the files beside it that have these
    endings."""
    copy = os.path.join(tempfile.mkdtemp(dir=os.path.dirname(os.path.dirname(db))), "c.db")
    for end in ("", *ends):
        shutil.copy(db + end, copy + end)
    return copy


def numbers_by_sqlite3(db):
    """Returns the numbers of the jobs that the real sqlite3 finds in a copy of a catalogue's file and its log, if there is one."""
    copy = copied(db, *(["-wal"] if os.path.exists(db + "-wal") else []))
    return [int(it) for it in by_sqlite3(copy, "SELECT JobId FROM Job ORDER BY JobId;").split()]


def added(number):
    """Returns statements that add a job of another client with this number in a transaction of its own: the files of job 1, a hundred times."""
    return f"""BEGIN; INSERT OR IGNORE INTO Client VALUES (2, 'venus-fd');
        INSERT INTO Job SELECT {number}, Type, Level, 2, JobStatus, StartTime, FileSetId, {number}, 7 FROM Job WHERE JobId = 1;
        INSERT INTO JobMedia SELECT NULL, {number}, MediaId, FirstIndex, 500, StartFile, EndFile, StartBlock, EndBlock, VolIndex
            FROM JobMedia WHERE JobId = 1;
        WITH RECURSIVE N(I) AS (SELECT 0 UNION ALL SELECT I + 1 FROM N WHERE I < 99)
            INSERT INTO File SELECT NULL, FileIndex + 5 * I, {number}, PathId, CAST(Filename || I AS BLOB), LStat, MD5
            FROM N, File WHERE JobId = 1 AND FileIndex <= 3;
        COMMIT;"""


class Writer:
    """The real sqlite3 over a catalogue, which it closes at the end. A program that reads a file ends its own locks on it, so this
    script must not have any."""

    def __init__(self, db, text):
        self.ran = subprocess.Popen(["sqlite3", db], stdin=subprocess.PIPE, stdout=subprocess.PIPE, text=True)
        self.told = self.tell(text)

    def tell(self, text):
        """Has it carry out statements, and waits until they are."""
        self.ran.stdin.write(text + "\nSELECT 'done';\n")
        self.ran.stdin.flush()
        lines = []
        while (line := self.ran.stdout.readline()) not in ("done\n", ""):
            lines.append(line)
        return lines

    def __enter__(self):
        return self

    def __exit__(self, *_):
        self.ran.stdin.close()
        with self.ran.stdout:
            self.ran.wait()


class LookChecks(ConsoleChecks):
    def __init__(self, program, folder):
        super().__init__(program)
        self.folder, self.library = folder, compiled(folder, "passing_moments")

    def still(self, name, db, words, expected, prefix=(), is_still=True, faults=None):
        """Runs a command over a catalogue. What is printed must be this, and if nobody else is at work nothing may change beside it.
        Returns the seconds that it took."""
        before = contents(os.path.dirname(db))
        start, env = time.monotonic(), os.environ | (faults or {})
        ran = subprocess.run([*prefix, self.program, *words], input="mark *\ndone\n", capture_output=True, text=True, env=env)
        took = time.monotonic() - start
        self.check(name, (ran.returncode, ran.stdout, ran.stderr), expected)
        if is_still:
            self.check("and leaves no trace", contents(os.path.dirname(db)) == before, True)
        return took

    def look(self, name, db, expected, prefix=(), is_still=True, faults=None):
        """Looks at a catalogue by `console`, which must print this."""
        return self.still(name, db, ["console", "--db", db, "--volumes", VOLUMES, *PEER], expected, prefix, is_still, faults)

    def list(self, name, db, expected, prefix=(), is_still=True, faults=None):
        """Looks at a catalogue by `jobs`, which must print this."""
        return self.still(f"{name}, by its jobs", db, ["jobs", "--db", db, *PEER], expected, prefix, is_still, faults)

    def numbers(self, db, faults=None):
        """Returns what `jobs` gives for a catalogue: the status, the numbers of the jobs, and standard error."""
        ran = subprocess.run([self.program, "jobs", "--db", db], capture_output=True, text=True, env=os.environ | (faults or {}))
        return ran.returncode, [int(line.split()[1]) for line in ran.stdout.splitlines()], ran.stderr

    def as_sqlite3(self, name, db):
        """Compares the jobs that are shown with those that the real sqlite3 finds in a copy of file and log. Returns their number."""
        before, wanted = contents(os.path.dirname(db)), numbers_by_sqlite3(db)
        self.check(f"{name}: {len(wanted)} jobs", self.numbers(db), (0, wanted, ""))
        self.check("and leaves no trace", contents(os.path.dirname(db)) == before, True)
        return len(wanted)

    def passes(self, look, name, db, expected, waited, **more):
        """Looks at a catalogue while the moments of waiting pass at once, and counts these."""
        log = os.path.join(self.folder, "moments")
        Path(log).write_bytes(b"")
        faults = {"LD_PRELOAD": self.library, "MOMENTS_LOG": log, **more}
        look(name, db, expected, is_still="MOMENTS_FILE" not in more, faults=faults)
        self.check("and the moments that it waits", os.path.getsize(log), waited)

    def serve(self, db, volumes, script):
        ran = subprocess.run([self.program, "serve", "--db", db, "--volumes", volumes], input=script, capture_output=True)
        return ran.returncode, ran.stdout, ran.stderr


def new_catalogue(folder, sql=ORDER_SQL):
    """Makes a catalogue in a folder of its own."""
    place = tempfile.mkdtemp(dir=folder)
    db = os.path.join(place, "c.db")
    with open(sql) as text:
        by_sqlite3(db, text.read())
    return db


def only_reads(checks, folder):
    """Files and folders that can't be written, and files that are no catalogue."""
    db = new_catalogue(folder)
    checks.look("a catalogue", db, SHOWN)
    checks.list("a catalogue", db, CHOSEN)
    os.chmod(db, 0o444)
    os.chmod(os.path.dirname(db), 0o555)
    os.chmod(folder, 0o755)
    prefix = NOBODY if os.getuid() == 0 else ()
    checks.look("a catalogue that can't be written", db, SHOWN, prefix)
    checks.list("a catalogue that can't be written", db, CHOSEN, prefix)
    os.chmod(os.path.dirname(db), 0o755)
    link = os.path.join(folder, "link.db")
    os.symlink(db, link)
    checks.check("a link to a catalogue", checks.console(link, before="2026-11-21 23:15:46"), SHOWN)
    os.link(db, os.path.join(os.path.dirname(db), "other.db"))
    checks.look("a catalogue with two names", db, REFUSED)
    for name, data, expected in [
        ("an empty file", b"", (1, "", "refused 45\n")),
        ("a file that is no database", b"no database" * 1000, REFUSED),
        ("a file of two bytes", b"SQ", REFUSED),
        ("the front of a catalogue", Path(db).read_bytes()[:5000], REFUSED),
    ]:
        other = os.path.join(tempfile.mkdtemp(dir=folder), "c.db")
        Path(other).write_bytes(data)
        checks.look(name, other, expected)
        checks.list(name, other, expected)


# More rows than fit into a small cache, so that they are written to the file within the transaction.
NOTES = "WITH RECURSIVE N(I) AS (SELECT 1 UNION ALL SELECT I + 1 FROM N WHERE I < 100) INSERT INTO Notes SELECT hex(zeroblob(2000)) FROM N;"


def waits(checks, folder):
    """Catalogues to which another program writes."""
    db = new_catalogue(folder)
    for begin in ("BEGIN IMMEDIATE", "BEGIN EXCLUSIVE"):
        with Writer(db, begin + ";") as writer:
            checks.look(f"a catalogue after {begin}", db, SHOWN)
            writer.tell(f"PRAGMA cache_size = 1; CREATE TABLE Notes(Note); {NOTES}")
            checks.passes(checks.look, f"a catalogue after {begin} and changes of its file", db, REFUSED, TRIES)
            timer = threading.Timer(1, writer.tell, ["ROLLBACK;"])
            timer.start()
            took = checks.look(f"a catalogue soon after {begin}", db, SHOWN, is_still=False)
            checks.check("and waits until it is free", 0.9 <= took <= LONGEST, True)
            timer.join()
    with Writer(db, f"BEGIN IMMEDIATE; PRAGMA cache_size = 1; CREATE TABLE Notes(Note); {NOTES}") as writer:
        timer = threading.Timer(1, writer.tell, ["ROLLBACK;"])
        timer.start()
        took = checks.list("a catalogue that is free after a second", db, CHOSEN, is_still=False)
        checks.check("and waits until it is free", 0.9 <= took <= LONGEST, True)
        timer.join()
    with Writer(db, "BEGIN; SELECT count(*) FROM Job;"):
        checks.look("a catalogue that another program reads", db, SHOWN)


def journal(checks, folder):
    """A journal that has to be rolled back, and one that has not."""
    db = new_catalogue(folder)
    with Writer(db, f"PRAGMA cache_size = 1; BEGIN; CREATE TABLE Notes(Note); {NOTES}") as writer:
        hot = copied(db, "-journal")
        writer.tell("ROLLBACK;")
    checks.check("a journal is there", os.path.getsize(hot + "-journal") > 0, True)
    took = checks.look("a catalogue with a hot journal", hot, REFUSED)
    checks.check("and waits for ten seconds", LONGEST - 1 <= took <= LONGEST + SLACK, True)
    checks.check("which sqlite3 rolls back", by_sqlite3(hot, "SELECT count(*) FROM Job;"), "3\n")
    checks.look("and is shown then", hot, SHOWN)
    for data, expected, waited in ((b"", SHOWN, 0), (b"\0" * 512, SHOWN, 0), (b"\xd9", REFUSED, TRIES)):
        Path(hot + "-journal").write_bytes(data)
        checks.passes(checks.look, f"a journal of {len(data)} bytes", hot, expected, waited)


# A log that begins with the jobs 4 to 15, one in each transaction, and nothing of it in the file.
LOGGED = "PRAGMA journal_mode = WAL; PRAGMA wal_autocheckpoint = 0;" + "".join(added(number) for number in range(4, 16))
# The length of a frame of a log: its header and a page.
FRAME = 24 + 4096


def log(checks, folder):
    """A log of the real sqlite3 that was not put into the file."""
    db = new_catalogue(folder)
    with Writer(db, LOGGED) as writer:
        for look, expected in ((checks.look, SHOWN), (checks.list, CHOSEN)):
            checks.passes(look, "a catalogue with a log", db, expected, 0)
        checks.check("which has jobs", checks.as_sqlite3("it", db), 15)
        left = copied(db, "-wal")
        writer.tell(f"PRAGMA cache_size = 1; BEGIN; CREATE TABLE Notes(Note); {NOTES}")
        open_pages = os.path.getsize(db + "-wal") - os.path.getsize(left + "-wal")
        checks.check("a log with pages of an open transaction", open_pages > 10 * FRAME, True)
        checks.check("and its jobs", checks.as_sqlite3("it", db), 15)
        writer.tell("ROLLBACK;" + added(16))
        checks.check("a log with a job after a roll-back", checks.as_sqlite3("it", db), 16)
    checks.check("the log is gone once its program ended", os.path.exists(db + "-wal"), False)
    checks.check("and the file has all jobs then", checks.as_sqlite3("it", db), 16)
    os.chmod(left, 0o444)
    os.chmod(left + "-wal", 0o444)
    os.chmod(os.path.dirname(left), 0o555)
    os.chmod(folder, 0o755)
    prefix = NOBODY if os.getuid() == 0 else ()
    checks.look("a catalogue with a log that can't be written", left, SHOWN, prefix)
    os.chmod(left + "-wal", 0o000)
    checks.look("a log that can't be read", left, REFUSED, prefix)
    os.chmod(os.path.dirname(left), 0o755)


def parts_of_logs(checks, folder):
    """Logs that are cut off, or damaged, or not the file's."""
    db = new_catalogue(folder)
    with Writer(db, LOGGED):
        left = copied(db, "-wal")
    data, found = Path(left + "-wal").read_bytes(), set()
    for length in (0, 31, 32, LOG_ROOM - 1, LOG_ROOM, *range(32 + FRAME, len(data), 3 * FRAME + 1), len(data) - 1, len(data)):
        Path(left + "-wal").write_bytes(data[:length])
        found.add(checks.as_sqlite3(f"a log of {length} of {len(data)} bytes", left))
    checks.check("some logs have more jobs than others", len(found) > 8 and min(found) == 3 and max(found) == 15, True)
    for place in (0, 8, 16, 24, 32 + FRAME - 1, len(data) // 2, len(data) - FRAME + 4, len(data) - FRAME + 8, len(data) - 1):
        Path(left + "-wal").write_bytes(data[:place] + bytes([data[place] ^ 1]) + data[place + 1 :])
        checks.check(f"a log with a damaged byte {place} has fewer jobs", checks.as_sqlite3("it", left) < 15, True)
    for length, expected, waited in ((LOG_ROOM - 1, REFUSED, 0), (LOG_ROOM, REFUSED, TRIES), (len(data), REFUSED, TRIES)):
        Path(left).write_bytes(b"")
        Path(left + "-wal").write_bytes(data[:length])
        checks.passes(checks.look, f"an empty file with a log of {length} bytes", left, expected, waited)


def other_logs(checks, folder):
    """What is no file of its own under the name of a log."""
    for name, make in {
        "a folder": os.mkdir,
        "a pipe": os.mkfifo,
        "a link": lambda path: os.symlink("elsewhere", path),
        "a link to a log": lambda path: (Path(path + ".old").write_bytes(b""), os.symlink(path + ".old", path)),
        "a log with two names": lambda path: (Path(path + ".old").write_bytes(b""), os.link(path + ".old", path)),
    }.items():
        db = new_catalogue(folder)
        make(db + "-wal")
        ran = subprocess.run([checks.program, "jobs", "--db", db], capture_output=True, text=True, timeout=60)
        checks.check(f"{name} in place of a log", (ran.returncode, ran.stdout, ran.stderr), REFUSED)


def put_beside(db, before, after):
    """Puts a catalogue's file and log as they are before another program changes them, and beside them what it leaves: the bytes of either,
    if these are others, or that it removes the log (False)."""
    for path, old, new in zip((db, db + "-wal"), before, after):
        Path(path).unlink(missing_ok=True)
        if old is not None:
            Path(path).write_bytes(old)
        if new is False:
            Path(path + ".gone").write_bytes(b"")
        elif new not in (None, old):
            Path(path + ".next").write_bytes(new)


def both(db):
    """Returns the bytes of a catalogue's file and of its log."""
    return Path(db).read_bytes(), Path(db + "-wal").read_bytes()


def changed_catalogues(folder):
    """Returns what another program changes: a name, and file and log before and after."""
    db = new_catalogue(folder)
    alone = Path(db).read_bytes()
    with Writer(db, LOGGED) as writer:
        logged = both(db)
        writer.tell("PRAGMA wal_checkpoint(PASSIVE);")
        folded = both(db)
        writer.tell("".join(added(number) for number in range(16, 24)))
        anew = both(db)
        writer.tell("PRAGMA wal_checkpoint(TRUNCATE);")
        whole = both(db)
    return [
        ("a log is put into the file", logged, folded),
        ("a log begins anew over a file that has all of it", folded, anew),
        ("a log is put into the file and begins anew", logged, anew),
        ("a log is put into the file and emptied", anew, whole),
        ("a log is put into the file and removed", anew, (whole[0], False)),
        ("a log comes", (logged[0], None), logged),
        ("a file without a log is written over", (alone, None), (whole[0], None)),
        ("a longer file without a log is written over", (whole[0], None), (folded[0], None)),
    ]


def changes(checks, folder):
    """Another program changes file and log at each read in turn."""
    for name, before, after in changed_catalogues(folder):
        db = os.path.join(tempfile.mkdtemp(dir=folder), "c.db")
        most = max(len(it) for it in before if it) // 12
        faults = {"LD_PRELOAD": checks.library, "MOMENTS_CHANGED": db, "MOMENTS_MOST": str(most)}
        wanted, wrong, is_changed, read = [], [], True, 0
        while is_changed:
            read += 1
            put_beside(db, before, after)
            if read == 1:
                wanted.append((0, numbers_by_sqlite3(db), ""))
            answer = checks.numbers(db, {**faults, "MOMENTS_READ": str(read)})
            is_changed = not glob.glob(glob.escape(db) + "*.next") + glob.glob(glob.escape(db) + "*.gone")
            if read == 1:
                wanted.append((0, numbers_by_sqlite3(db), ""))
            if answer not in wanted:
                wrong.append((read, answer))
        checks.check(f"{name}, at each of {read - 1} reads", (wrong, read > 10), ([], True))


def moments(checks, folder):
    """Counts the moments for which a file in use is waited for, without waiting."""
    data = Path(new_catalogue(folder)).read_bytes()
    for name, content, end, busy, most, each, expected, waited in [
        ("a catalogue with a journal for 99 moments", data, "-journal", 99, 9999, 0, CHOSEN, 99),
        ("a catalogue with a journal for 100 moments", data, "-journal", 100, 9999, 0, REFUSED, 100),
        ("a catalogue with a journal for 3 moments, read in parts", data, "-journal", 3, 1000, 0, CHOSEN, 3),
        ("a catalogue with a journal", data, "-journal", 0, 9999, 0, REFUSED, TRIES),
        ("a catalogue with a journal, by moments of 3 seconds", data, "-journal", 0, 9999, 3, REFUSED, 4),
        ("a catalogue with a journal for 3 moments of 3 seconds", data, "-journal", 3, 9999, 3, CHOSEN, 3),
        ("a catalogue with a log without a page", data, "-wal", 0, 9999, 0, CHOSEN, 0),
        ("an empty file with a journal for 99 moments", b"", "-journal", 99, 9999, 0, REFUSED, 99),
        ("an empty file with a log", b"", "-wal", 0, 9999, 0, REFUSED, TRIES),
        ("an empty file with a log for 3 moments", b"", "-wal", 3, 9999, 0, REFUSED, 3),
        ("a text", b"S" * 5000, "", 0, 9999, 0, REFUSED, 0),
    ]:
        db = os.path.join(tempfile.mkdtemp(dir=folder), "c.db")
        Path(db).write_bytes(content)
        if end:
            Path(db + end).write_bytes(b"x" * 100)
        more = {"MOMENTS_BUSY": str(busy), "MOMENTS_FILE": db + end, "MOMENTS_MOST": str(most), "MOMENTS_SECONDS": str(each)}
        checks.passes(checks.list, name, db, expected, waited, **more)
        checks.check("and its bytes", Path(db).read_bytes() == content, True)


def is_folded(checks, name, db, selects, rows):
    """Compares the rows of a copy of the catalogue's file alone."""
    left = db + "-wal"
    checks.check(f"the log after {name}", os.path.getsize(left) if os.path.exists(left) else 0, 0)
    alone = copied(db)
    checks.check(f"the rows in the file alone after {name}", by_sqlite3(alone, selects), rows)
    checks.check("and its integrity", by_sqlite3(alone, "PRAGMA integrity_check; PRAGMA foreign_key_check;"), "ok\n")


def ends(checks, folder):
    """What `serve` and `migrate` leave."""
    db, volumes = new_catalogue(folder), tempfile.mkdtemp(dir=folder)
    checks.check("serve", checks.serve(db, volumes, JOB), (0, b"stored 4\n", b""))
    is_folded(checks, "serve", db, "SELECT JobId FROM Job ORDER BY JobId;", "1\n2\n3\n4\n")
    checks.look("the catalogue afterwards", db, SHOWN)
    checks.check("a refused job", checks.serve(db, volumes, JOB), (1, b"refused 40\n", b""))
    is_folded(checks, "a refused job", db, "SELECT JobId FROM Job ORDER BY JobId;", "1\n2\n3\n4\n")
    new = os.path.join(tempfile.mkdtemp(dir=folder), "new.db")
    checks.check("serve on a new catalogue", checks.serve(new, volumes, b""), (0, b"", b""))
    is_folded(checks, "serve on a new catalogue", new, "SELECT * FROM Version;", "2\n")
    old = new_catalogue(folder, VERSION_1_SQL)
    checks.check("migrate", checks.migrate(old), (0, "migrated 3\n", ""))
    is_folded(checks, "migrate", old, JOBS + FILES, by_sqlite3(new_catalogue(folder), JOBS + FILES))
    checks.check("a second migration", checks.migrate(old), (1, "", "refused 47\n"))
    checks.look("the catalogue after both", old, SHOWN)
    checks.check("serve on it", checks.serve(old, tempfile.mkdtemp(dir=folder), JOB), (0, b"stored 4\n", b""))
    is_folded(checks, "serve on a migrated catalogue", old, "SELECT JobId FROM Job ORDER BY JobId;", "1\n2\n3\n4\n")
    old = new_catalogue(folder, VERSION_1_SQL)
    checks.check("serve on a catalogue of version 1", checks.serve(old, volumes, JOB), (1, b"", b"refused 48\n"))
    checks.look("which is refused so afterwards", old, (1, "", "refused 48\n"))
    checks.list("which is refused so afterwards", old, (1, "", "refused 48\n"))


def running(program, db, volumes, script, lines):
    """Starts `serve` with a script that does not end, and waits for this number of lines of its
    answers."""
    ran = subprocess.Popen([program, "serve", "--db", db, "--volumes", volumes], stdin=subprocess.PIPE, stdout=subprocess.PIPE)
    ran.stdin.write(script)
    ran.stdin.flush()
    return ran, [ran.stdout.readline() for _ in range(lines)]


def ended(ran):
    """Waits for the end of a program whose script ends here."""
    with ran.stdout, ran.stdin:
        pass
    return ran.wait()


def kills(checks, folder):
    """A `serve` that is killed between the last commit and its end, and one that goes on."""
    db, volumes = new_catalogue(folder), tempfile.mkdtemp(dir=folder)
    ran, printed = running(checks.program, db, volumes, JOB, 1)
    checks.check("a job is stored", printed, [b"stored 4\n"])
    checks.check("a catalogue while serve runs", checks.as_sqlite3("it", db), 4)
    ran.kill()
    checks.check("serve is killed", ended(ran), -signal.SIGKILL)
    checks.check("the file alone lacks the job", by_sqlite3(copied(db), "SELECT JobId FROM Job ORDER BY JobId;"), "1\n2\n3\n")
    checks.check("the catalogue without serve", checks.as_sqlite3("it", db), 4)
    checks.passes(checks.look, "the catalogue without serve", db, SHOWN, 0)
    checks.check("an empty script", checks.serve(db, volumes, b""), (0, b"", b""))
    is_folded(checks, "it", db, "SELECT JobId FROM Job ORDER BY JobId;", "1\n2\n3\n4\n")
    checks.look("the catalogue afterwards", db, SHOWN)


PARTS = {it.__name__: it for it in (only_reads, waits, moments, journal, log, parts_of_logs, other_logs, changes, ends, kills)}


def main():
    parser = argparse.ArgumentParser(description="Looks at catalogues, and compares what lies there before and after.")
    parser.add_argument("--program", default=PROGRAM, help="the program (default: %(default)s)")
    parser.add_argument("parts", nargs="*", metavar="PART", help=f"the parts (default: all): {', '.join(PARTS)}")
    given = parser.parse_args()
    if not PARTS.keys() >= set(given.parts):
        parser.error("there is no such part")
    with tempfile.TemporaryDirectory() as folder:
        checks = LookChecks(os.path.abspath(given.program), folder)
        for name in given.parts or PARTS:
            PARTS[name](checks, folder)
    return 1 if checks.failed else 0


if __name__ == "__main__":
    sys.exit(main())
