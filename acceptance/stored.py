"""What a script over files leaves: the rows of its catalogue and the bytes of its volumes, and what they must be by the second reading
of scripts, scripting.py."""

import contextlib
import glob
import hashlib
import os
import shutil
import sqlite3
import subprocess
import tempfile
from pathlib import Path

from scripting import base64_of

# The rows of a catalogue, with names in place of their numbers.
SELECTS = {
    "Version": "SELECT VersionId FROM Version",
    "Job": """SELECT JobId, Type, Level, Name, JobStatus, StartTime, FileSet, VolSessionId, VolSessionTime
        FROM Job JOIN Client USING (ClientId) JOIN FileSet USING (FileSetId) ORDER BY JobId""",
    "JobMedia": """SELECT JobId, VolumeName, MediaType, FirstIndex, LastIndex, StartFile, EndFile, StartBlock, EndBlock, VolIndex
        FROM JobMedia JOIN Media USING (MediaId) ORDER BY JobId, VolIndex""",
    "File": """SELECT JobId, FileIndex, CAST(Path AS BLOB), CAST(Filename AS BLOB), LStat, MD5
        FROM File JOIN Path USING (PathId) ORDER BY FileId""",
    "Client": "SELECT Name FROM Client ORDER BY Name",
    "FileSet": "SELECT FileSet FROM FileSet ORDER BY FileSet",
    "Media": "SELECT VolumeName FROM Media ORDER BY VolumeName",
    "Path": "SELECT CAST(Path AS BLOB) FROM Path ORDER BY Path",
}


def memory():
    """Returns a folder in memory, for files that are flushed often and that no disk has to keep;
    None if there is none, or if TMPDIR names another place. Some systems forbid programs there."""
    place = "/dev/shm"
    return place if "TMPDIR" not in os.environ and os.path.isdir(place) and os.access(place, os.W_OK) else None


def names(found):
    return [(name,) for name in sorted(set(found))]


def span_row(job, place, span):
    volume, first, last, start, end = span
    return (job["id"], volume.decode(), "File", first, last, start >> 32, end >> 32, start % 2**32, end % 2**32, place)


def file_rows(job):
    rows = []
    for index, (path, _, stat, contents, _, digest) in enumerate(job["saved"], 1):
        has_digest = digest and job["saved"][index - 1][1] in (2, 3)
        lstat = b" ".join(base64_of(number) for number in stat).decode()
        rows.append((index, path, lstat, hashlib.md5(contents).hexdigest() if has_digest else ""))
    rows += [(0, path, "", "") for path in job["deleted"]]
    return [(job["id"], index, path[: path.rindex(b"/") + 1], path[path.rindex(b"/") + 1 :], *rest) for index, path, *rest in rows]


def rows_by(jobs):
    """Returns the rows that a catalogue of these jobs must have, by the second reading of scripts."""
    by_number = sorted(jobs, key=lambda job: job["id"])
    rows = {"Version": [(2,)]}
    rows["Job"] = [
        (it["id"], it["type"], it["level"], it["client"].decode(), it["status"], it["start"], it["fileset"].decode(), *it["session"])
        for it in by_number
    ]
    rows["JobMedia"] = [span_row(job, place, span) for job in by_number for place, span in enumerate(job["spans"], 1)]
    rows["File"] = [row for job in jobs for row in file_rows(job)]
    rows["Client"] = names(job["client"].decode() for job in jobs)
    rows["FileSet"] = names(job["fileset"].decode() for job in jobs)
    rows["Media"] = names(row[1] for row in rows["JobMedia"])
    rows["Path"] = names(row[2] for row in rows["File"])
    return rows


@contextlib.contextmanager
def opened_copy(catalogue):
    """Opens a copy of a catalogue by SQLite's own library, which may write when it opens a file."""
    with tempfile.TemporaryDirectory() as room:
        for file in glob.glob(glob.escape(catalogue) + "*"):
            shutil.copy(file, room)
        with contextlib.closing(sqlite3.connect(os.path.join(room, os.path.basename(catalogue)))) as connection:
            yield connection


def is_unmade(catalogue):
    """Returns whether the file of a catalogue has at most its first page, whose first byte is not written yet. It is no database then."""
    data = Path(catalogue).read_bytes() if os.path.exists(catalogue) else b""
    return data[:1] == b"\0" and len(data) <= 4096


def has_tables(catalogue):
    """Returns whether the file of a catalogue has a table."""
    if is_unmade(catalogue):
        return False
    with opened_copy(catalogue) as connection:
        return connection.execute("SELECT count(*) FROM sqlite_schema").fetchone() != (0,)


def rows_of(catalogue):
    """Returns the rows that SQLite's own library finds in a catalogue. Raises an error if the file is not sound."""
    with opened_copy(catalogue) as connection:
        if connection.execute("PRAGMA integrity_check").fetchall() != [("ok",)]:
            raise ValueError(f"{catalogue} is not sound")
        return {table: connection.execute(select).fetchall() for table, select in SELECTS.items()}


def volumes_of(folder):
    """Returns the bytes of each volume in a folder."""
    return {os.fsencode(it.name): it.read_bytes() for it in Path(folder).iterdir()}


def vouched_by(jobs):
    """Returns for each volume of these jobs the address after its last vouched byte."""
    vouched = {}
    for job in jobs:
        for volume, _, _, _, end in job["spans"]:
            vouched[volume] = max(vouched.get(volume, 0), end + 1)
    return vouched


def differences(found, expected):
    """Returns the names under which two maps differ."""
    return [name for name in sorted({*found, *expected}) if found.get(name) != expected.get(name)]


def served(program, catalogue, volumes, text):
    """Runs a script over a catalogue and a folder of volumes. Returns exit status, standard output and standard error."""
    words = [program, "serve", "--db", catalogue, "--volumes", volumes]
    ran = subprocess.run(words, input=text, capture_output=True, timeout=600)
    return ran.returncode, ran.stdout, ran.stderr
