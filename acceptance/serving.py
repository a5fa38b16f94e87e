#!/usr/bin/env python3
"""Commits jobs by `brestore serve` to a catalogue and a folder of volumes, kills it while it commits, and compares what is left.

    acceptance/serving.py [--program FILE] [--kills N] [--looks N] [--seed N]

What must be there is worked out by the second reading of scripts, scripting.py. It is compared with the rows that SQLite's own library
finds, with the bytes of the volumes, and with what `console` restores. `--kills` is the number of runs that are killed (SIGKILL) at a
moment which is drawn by the seed; a `console` that begins shortly before the kill has to show the first jobs of the script, with each
for which `stored` was printed by then. `--looks` is the number of jobs that are committed while `console` and `jobs` look: each has to
show such a front, too. The status is 1 if something is not as expected.
"""

import argparse
import contextlib
import os
import random
import re
import shutil
import sqlite3
import subprocess
import sys
import tempfile
import threading
import time
from pathlib import Path

# Nothing is left beside the script.
sys.dont_write_bytecode = True
sys.path.insert(0, os.path.join(os.path.dirname(os.path.dirname(os.path.abspath(__file__))), "tools"))
from choosing import consoled
from common import ORDER_SQL, PROGRAM, VERSION_1_SQL, Checks
from delivered import delivery, tree_of
from scripting import Script, base64_of
from stored import differences, has_tables, rows_by, rows_of, served, volumes_of, vouched_by

CLIENT, FILE_SET = b"mars", b"home"
ALL = b"mark *\ndone\n"
# The answer to a file without tables.
NO_CATALOGUE = 1, b"", b"refused 45\n"
JOBS, FILES = 24, 12
# A console begins at most this long before a kill, in seconds. It looks at the catalogue within that time.
AHEAD = 0.02

# A Full on two volumes with a folder, a link and a digest; a Differential with a deletion; and an Incremental.
THREE_JOBS = b"""drives 2
job 1 B F T 100 1 100 64 mars home
put 5 /etc/ - - A A EHt A A A A A A A A A A
putd 3 /etc/motd 6d65737361676520646967657374 - A A IGk B A A A O A A A A A A
put 1 /etc/same - 2f6574632f6d6f7464 A A IGk B A A A O A A A A A C
put 3 /etc/\\xff\\x20x 00 - A A IGk B A A A B A A A A A A
place A 2
place with\\x20space 0
end
job 2 B D T 200 2 100 64512 mars home
put 3 /etc/new 616263 - A A IGk B A A A D A A A A A A
del /etc/same
place A 0
end
restore mars home 1970-01-01 00:03:21
mark *
done
job 3 B I T 300 1 300 100 mars home
putd 3 /etc/motd 6f74686572 - A A IGk B A A A F A A A A A A
put 4 /etc/way - 2f746d70 A A KH/ B A A A E A A A A A A
place with\\x20space 0
end
"""


class Place:
    """A catalogue and a folder of volumes."""

    def __init__(self, folder):
        self.catalogue, self.volumes = os.path.join(folder, "catalogue"), os.path.join(folder, "volumes")
        os.makedirs(self.volumes)

    def serve(self, program, text):
        return served(program, self.catalogue, self.volumes, text)

    def console_words(self, program, before):
        words = [program, "console", "--db", self.catalogue, "--volumes", self.volumes, "--client", CLIENT.decode()]
        return [*words, "--fileset", FILE_SET.decode(), "--before", moment(before)]

    def console(self, program, before, into=None):
        words = [*self.console_words(program, before), *(["--into", into] if into else [])]
        ran = subprocess.run(words, input=ALL, capture_output=True, timeout=60)
        return ran.returncode, ran.stdout, ran.stderr

    def jobs(self, program):
        ran = subprocess.run([program, "jobs", "--db", self.catalogue], stdin=subprocess.DEVNULL, capture_output=True, timeout=60)
        return ran.returncode, ran.stdout, ran.stderr

    def wrong(self, script):
        """Returns the differences of the catalogue and the volumes from what the script leaves."""
        try:
            rows = differences(rows_of(self.catalogue), rows_by(script.jobs))
        except (sqlite3.Error, ValueError) as error:
            rows = [error]
        return rows + differences(volumes_of(self.volumes), script.volumes)


def moment(seconds):
    return f"1970-01-01 {seconds // 3600:02}:{seconds // 60 % 60:02}:{seconds % 60:02}"


def goes_on(text, script):
    """Returns a script that goes on with the jobs and volumes of another one, after a new start of the program."""
    later = Script(text)
    later.jobs, later.volumes, later.vouched = list(script.jobs), dict(script.volumes), vouched_by(script.jobs)
    return later


def carried_out(script):
    """Carries out a script. Returns exit status, standard output and standard error."""
    return *script.run(), b""


# ---- three jobs


def three_jobs(checks, folder):
    place, script = Place(os.path.join(folder, "three")), Script(THREE_JOBS)
    expected = carried_out(script)
    checks.check("three jobs over files", place.serve(checks.program, THREE_JOBS), expected)
    checks.check("the same answers in memory", in_memory(checks.program, THREE_JOBS), expected)
    stored = [line for line in expected[1].splitlines() if line.startswith(b"stored")]
    checks.check("each job is stored", stored, [b"stored 1", b"stored 2", b"stored 3"])
    checks.check("their rows, by SQLite's own library, and their volumes", place.wrong(script), [])
    for before in (101, 201, 301):
        answer = consoled(script.jobs, script.volumes, (CLIENT, FILE_SET, before), ALL)
        checks.check(f"console over the jobs before {before}", place.console(checks.program, before), answer)
        into = os.path.join(folder, f"into {before}")
        os.mkdir(into)
        tree, stop = delivery(answer[1])
        refused = b"" if stop is None else b"refused %d\n" % stop
        checks.check("and a delivery", place.console(checks.program, before, into), (int(stop is not None), answer[1], refused))
        checks.check("and its files", tree_of(into), tree)
    return place, script


def rights(checks, folder):
    """The catalogue that is made and its log are their owner's alone, whatever rights new files have here. A file that is there keeps its own."""
    first = THREE_JOBS[: THREE_JOBS.index(b"end\n") + 4]
    for name, before, expected in (("a catalogue that is made", None, 0o600), ("one that is there", 0o640, 0o640)):
        place = Place(os.path.join(folder, f"rights {expected}"))
        if before is not None:
            Path(place.catalogue).touch()
            os.chmod(place.catalogue, before)
        words = [checks.program, "serve", "--db", place.catalogue, "--volumes", place.volumes]
        with subprocess.Popen(words, stdin=subprocess.PIPE, stdout=subprocess.PIPE, umask=0) as child:
            child.stdin.write(first)
            child.stdin.flush()
            checks.check(f"a job of {name}", child.stdout.readline(), b"stored 1\n")
            found = [os.stat(place.catalogue + end).st_mode & 0o777 for end in ("", "-wal")]
            child.stdin.close()
        checks.check(f"the rights of {name} and its log", (found, child.returncode), ([expected] * 2, 0))


def in_memory(program, text):
    ran = subprocess.run([program, "serve"], input=text, capture_output=True, timeout=60)
    return ran.returncode, ran.stdout, ran.stderr


def by_sqlite3(checks, place):
    """Has the command `sqlite3` check the catalogue, if there is one."""
    if not shutil.which("sqlite3"):
        print("there is no sqlite3")
        return
    text = "PRAGMA integrity_check; PRAGMA foreign_key_check; SELECT count(*) FROM Job; SELECT count(*) FROM File;"
    ran = subprocess.run(["sqlite3", place.catalogue, text], capture_output=True, text=True)
    checks.check("the command sqlite3 opens the catalogue", (ran.stdout, ran.stderr), ("ok\n3\n8\n", ""))


def job_by_job(checks, folder):
    """Each job by a run of its own leaves the same, and a run goes on with the jobs of the runs before it."""
    place, script = Place(os.path.join(folder, "one by one")), Script(b"")
    for part in re.findall(rb"(?s)job .*?\nend\n", THREE_JOBS):
        later = goes_on(part + b"restore mars home 1970-01-01 00:16:40\nmark *\ndone\n", script)
        checks.check("a run with one job and a restore", place.serve(checks.program, b"\n".join(later.lines) + b"\n"), carried_out(later))
        script = later
    checks.check("the rows and volumes of three runs", place.wrong(script), [])


# ---- what has no effect


def unfinished(checks, place, script):
    """What a script did not finish has no effect, and refused jobs have none."""
    job = b"job 4 B F T 400 4 400 64 mars home\nput 3 /x 61 - A A IGk B A A A B A A A A A A\nplace A 0\n"
    texts = {
        "a script that ends in a job": job,
        "a job that is given up": job.replace(b"/x", b"x") + b"end\n",
        "a job of a number that is there": job.replace(b"job 4", b"job 3") + b"end\n",
        "a job of a session that is there": job.replace(b"4 400 64", b"1 300 64") + b"end\n",
        "a job without its last place": job.replace(b"place A 0\n", b"") + b"end\n",
        "a script that ends in a restore": b"restore mars home 1970-01-01 00:16:40\nmark *\n",
        "an empty script": b"",
    }
    for name, text in texts.items():
        later = goes_on(text, script)
        checks.check(name, place.serve(checks.program, text), carried_out(later))
        checks.check("changes nothing", place.wrong(script), [])


def refusals(checks, folder):
    """Command lines and catalogues that are refused before a line is read."""
    place = Place(os.path.join(folder, "refusals"))
    volume = b"volume A 00\n"
    for words in (["--db", place.catalogue], ["--volumes", place.volumes]):
        ran = subprocess.run([checks.program, "serve", *words], input=volume, capture_output=True, timeout=60)
        checks.check(f"serve with {words[0]} alone", (ran.returncode, ran.stdout, bool(ran.stderr)), (2, b"", True))
    checks.check("makes no catalogue", os.path.exists(place.catalogue), False)
    changes = {
        "a catalogue of version 3": (ORDER_SQL, "UPDATE Version SET VersionId = 3", 47),
        "a catalogue of version 1": (VERSION_1_SQL, "", 48),
        "a span number that skips": (ORDER_SQL, "UPDATE JobMedia SET VolIndex = 2 WHERE JobId = 3", 47),
        "a row that points nowhere": (ORDER_SQL, "DELETE FROM Path WHERE PathId = 1", 45),
        "a missing table": (ORDER_SQL, "DROP TABLE JobMedia", 45),
    }
    for name, (tables, change, number) in changes.items():
        Path(place.catalogue).unlink(missing_ok=True)
        with contextlib.closing(sqlite3.connect(place.catalogue)) as connection:
            connection.executescript(Path(tables).read_text() + change)
        checks.check(name, place.serve(checks.program, volume), (1, b"", b"refused %d\n" % number))
        checks.check("no line is read", volumes_of(place.volumes), {})
    Path(place.catalogue).write_bytes(b"no database" * 1000)
    checks.check("a file that is no database", place.serve(checks.program, volume), (1, b"", b"refused 45\n"))
    checks.check("no line is read", volumes_of(place.volumes), {})


# ---- kills


def draw_job(dice, number):
    """Returns the lines of a Full of some files, whose session has many blocks."""
    limit = dice.choice((300, 1000, 4000))
    lines = [b"job %d B F T %d %d 7 %d %s %s" % (number, 100 * number, number, limit, CLIENT, FILE_SET)]
    for index in range(FILES):
        contents = dice.randbytes(dice.randrange(1800))
        stat = b" ".join(base64_of(it) for it in (0, index, 33188, 1, 0, 0, 0, len(contents), 0, 0, 0, 0, 0))
        lines.append(b"%s 3 /%d/f%d %s - %s" % (dice.choice((b"put", b"putd")), number, index, contents.hex().encode() or b"-", stat))
    first, last = ((b"A", b"B"), (b"B", b"A"), (b"C", b"C"))[number % 3]
    return [*lines, b"place %s %d" % (first, dice.randrange(1, 9)), b"place %s 0" % last, b"end"]


class Fronts:
    """What `console` and `jobs` print over the first jobs of a script, by their number."""

    def __init__(self, whole):
        self.whole, self.known = whole, {}

    def console(self, count):
        if count not in self.known:
            before = self.whole.jobs[-1]["start"] + 1
            self.known[count] = consoled(self.whole.jobs[:count], self.whole.volumes, (CLIENT, FILE_SET, before), ALL)
        return self.known[count]

    def jobs(self, count):
        return 0, b"".join(line_of(job) for job in self.whole.jobs[:count]), b""

    def wrong(self, what, answer, least, most):
        """Compares what `console` or `jobs` printed. Returns what is wrong."""
        fronts = [getattr(self, what)(count) for count in range(least, min(most, len(self.whole.jobs)) + 1)]
        return [] if answer in fronts else [f"{what} beside serve: {answer}, and not {least} to {most} jobs"]


def line_of(job):
    """Returns the line of a Full in the list of jobs."""
    size = sum(len(it[3]) for it in job["saved"])
    volumes = b",".join(dict.fromkeys(span[0] for span in job["spans"]))
    start = f"{moment(job['start'])}".encode()
    return b"- %d F T %s %s %s %d %d %s\n" % (job["id"], start, job["client"], job["fileset"], len(job["saved"]), size, volumes)


def printed_by_now(pipe):
    """Returns what can be read from a pipe without waiting."""
    os.set_blocking(pipe.fileno(), False)
    found = b""
    while part := pipe.read(1 << 16):
        found += part
    os.set_blocking(pipe.fileno(), True)
    return found


def killed(program, place, script_file, seconds, is_early, ahead):
    """Runs a script and kills the program this time after its first line, or after its start, and `ahead` seconds after a console began.
    Returns the exit status, the whole lines that it wrote, and what the console printed, if a catalogue was there: the number of lines that
    were written before it began, and its answer."""
    words = [program, "serve", "--db", place.catalogue, "--volumes", place.volumes]
    with open(script_file, "rb") as lines:
        ran = subprocess.Popen(words, stdin=lines, stdout=subprocess.PIPE, stderr=subprocess.STDOUT, bufsize=0)
    front = b"" if is_early else ran.stdout.readline()
    time.sleep(seconds)
    front += printed_by_now(ran.stdout)
    is_there, asked = os.path.exists(place.catalogue), place.console_words(program, 100 * JOBS + 1)
    with subprocess.Popen(asked, stdin=subprocess.PIPE, stdout=subprocess.PIPE, stderr=subprocess.PIPE) as looking:
        time.sleep(ahead)
        ran.kill()
        answer = looking.communicate(ALL, timeout=60)
    with ran.stdout:
        rest = ran.stdout.read()
    seen = (front.count(b"\n"), (looking.returncode, *answer)) if is_there else None
    return ran.wait(), (front + rest).split(b"\n")[:-1], seen


def seconds_of(program, place, script_file):
    """Returns the seconds from the start of a run to its first line, and from there to its end."""
    words, moments = [program, "serve", "--db", place.catalogue, "--volumes", place.volumes], [time.monotonic()]
    with open(script_file, "rb") as lines:
        ran = subprocess.Popen(words, stdin=lines, stdout=subprocess.PIPE)
    with ran.stdout:
        moments += [time.monotonic() for _ in ran.stdout]
    ran.wait()
    return moments[1] - moments[0], moments[-1] - moments[1]


def stored_jobs(place, jobs):
    """Returns the number of first jobs that are in the catalogue. Raises an error if it has other
    rows."""
    if not has_tables(place.catalogue):
        return 0
    rows = rows_of(place.catalogue)
    count = len(rows["Job"])
    wrong = differences(rows, rows_by(jobs[:count]))
    if wrong:
        raise ValueError(f"{', '.join(wrong)} of {count} jobs")
    return count


def wrong_volumes(found, whole, vouched, are_fronts=True):
    """Returns the volumes that are no first part of the complete ones, or end before the last byte
    of a stored job. Without `are_fronts` the bytes after that one are not compared."""
    compared = found if are_fronts else {name: data[: vouched.get(name, 0)] for name, data in found.items()}
    fronts = [name for name, data in compared.items() if not whole.get(name, b"").startswith(data)]
    return fronts + [name for name, length in vouched.items() if len(found.get(name, b"")) < length]


def after_kill(given, place, whole, lines, are_fronts=True):
    """Compares what a killed run left. Returns the number of stored jobs, the number of volumes
    with bytes that no job vouches for, and what is wrong."""
    try:
        count = stored_jobs(place, whole.jobs)
    except (sqlite3.Error, ValueError) as error:
        return 0, 0, [f"rows: {error}"]
    wrong = []
    if lines != [b"stored %d" % number for number in range(1, len(lines) + 1)] or not len(lines) <= count <= len(lines) + 1:
        wrong.append(f"{count} jobs are stored after {lines[-1:]}")
    found, jobs = volumes_of(place.volumes), whole.jobs[:count]
    vouched = vouched_by(jobs)
    wrong += [f"volume {name}" for name in wrong_volumes(found, whole.volumes, vouched, are_fronts)]
    wrong += empty_run(given, place, jobs)
    for job in jobs:
        answer = place.console(given.program, job["start"] + 1)
        if answer != consoled(jobs, found, (CLIENT, FILE_SET, job["start"] + 1), ALL) or answer[0] or answer[2]:
            wrong.append(f"console over job {job['id']}")
    retired = [name for name, data in found.items() if len(data) != vouched.get(name, 0)]
    return count, len(retired), wrong + next_run(given, place, jobs, found)


def empty_run(given, place, jobs):
    """Runs an empty script after a kill, which puts all into the file of the catalogue. Returns what is wrong."""
    wrong = [] if place.serve(given.program, b"") == (0, b"", b"") else ["an empty run"]
    if os.path.getsize(place.catalogue + "-wal"):
        wrong.append("the log has bytes")
    with tempfile.TemporaryDirectory() as room:
        alone = shutil.copy(place.catalogue, room)
        return wrong + [f"the file alone: {it}" for it in differences(rows_of(alone), rows_by(jobs))]


def next_run(given, place, jobs, found):
    """Goes on after a kill with a job for each volume and one for a new volume. Returns what is wrong."""
    state, lines = Script(b""), []
    state.jobs, state.volumes = jobs, found
    for number, volume in enumerate((b"A", b"B", b"C", b"D"), 101):
        lines += [b"job %d B F T %d %d 8 64512 mars home" % (number, 100 * number, number)]
        lines += [b"put 3 /x 61 - A A IGk B A A A B A A A A A A", b"place %s 0" % volume, b"end"]
    text = b"".join(line + b"\n" for line in lines)
    later = goes_on(text, state)
    expected = carried_out(later)
    wrong = [] if place.serve(given.program, text) == expected else ["the next run"]
    return wrong + [f"after the next run: {it}" for it in place.wrong(later)]


def kills(given, folder):
    """Kills runs at drawn moments. Returns whether all left what they must."""
    dice = random.Random(given.seed)
    text = b"".join(line + b"\n" for number in range(1, JOBS + 1) for line in draw_job(dice, number))
    script_file, whole = os.path.join(folder, "script"), Script(text)
    Path(script_file).write_bytes(text)
    expected, place = carried_out(whole), Place(os.path.join(folder, "whole"))
    found = place.serve(given.program, text)
    if found != expected or place.wrong(whole):
        print(f"{JOBS} jobs without a kill: {found}, and not {expected}; {place.wrong(whole)}")
        return False
    seconds = [seconds_of(given.program, Place(os.path.join(folder, f"timed {number}")), script_file) for number in range(5)]
    start, rest = (sorted(it)[2] for it in zip(*seconds))
    counts, unvouched, failed, fronts = [], 0, 0, Fronts(whole)
    for number in range(given.kills):
        place, is_early = Place(os.path.join(folder, str(number))), dice.random() < 0.1
        after = dice.random() * (start if is_early else rest)
        status, lines, seen = killed(given.program, place, script_file, after, is_early, dice.random() * AHEAD)
        # A run that was killed before it made the tables leaves no catalogue.
        is_refused = seen and seen[1] == NO_CATALOGUE and not has_tables(place.catalogue)
        count, retired, wrong = after_kill(given, place, whole, lines)
        if seen and not is_refused:
            wrong += fronts.wrong("console", seen[1], seen[0], count)
        if status not in (-9, 0):
            wrong.append(f"status {status}")
        for it in wrong:
            print(f"kill {number} of seed {given.seed} after {after:.4f} s: {it}")
        counts.append(count)
        unvouched, failed = unvouched + bool(retired), failed + bool(wrong)
        shutil.rmtree(os.path.dirname(place.catalogue))
    between = sum(0 < it < JOBS for it in counts)
    print(f"{given.kills} kills: {between} between two jobs or in one, {counts.count(0)} before the first, {counts.count(JOBS)} after the last,", end=" ")
    print(f"{unvouched} with bytes that no job vouches for: {'as expected' if not failed else f'{failed} differ'}")
    return not failed


# ---- looks beside it


class Looks(threading.Thread):
    """Looks at a catalogue again and again, by `console` or `jobs`, and keeps each answer with the number of jobs that were stored before
    it was asked for, and that were sent before it was there."""

    def __init__(self, program, place, what, counts):
        super().__init__()
        self.program, self.place, self.what, self.counts = program, place, what, counts
        self.answers, self.is_over = [], False

    def run(self):
        while not self.is_over:
            stored = self.counts["stored"]
            answer = self.place.jobs(self.program) if self.what == "jobs" else self.place.console(self.program, self.counts["before"])
            self.answers.append((answer, stored, self.counts["sent"]))


def looks(given, folder):
    """Looks at a catalogue while jobs are committed to it. Returns whether all answers were right."""
    dice, place = random.Random(given.seed), Place(os.path.join(folder, "looks"))
    drawn = [b"".join(line + b"\n" for line in draw_job(dice, number)) for number in range(1, given.looks + 1)]
    whole = Script(b"".join(drawn))
    whole.run()
    place.serve(given.program, b"")
    counts = {"stored": 0, "sent": 0, "before": whole.jobs[-1]["start"] + 1}
    lookers = [Looks(given.program, place, what, counts) for what in ("console", "jobs", "console", "jobs")]
    for it in lookers:
        it.start()
    words = [given.program, "serve", "--db", place.catalogue, "--volumes", place.volumes]
    lines = []
    with subprocess.Popen(words, stdin=subprocess.PIPE, stdout=subprocess.PIPE) as ran:
        for job in drawn:
            counts["sent"] += 1
            ran.stdin.write(job)
            ran.stdin.flush()
            lines.append(ran.stdout.readline())
            counts["stored"] += 1
        ran.stdin.close()
        rest = ran.stdout.read()
    for it in lookers:
        it.is_over = True
        it.join()
    fronts = Fronts(whole)
    wrong = [] if (b"".join(lines), rest, ran.returncode) == (whole.run()[1], b"", 0) else [f"serve: {lines} {rest}, status {ran.returncode}"]
    wrong += [it for looker in lookers for answer in looker.answers for it in fronts.wrong(looker.what, *answer)]
    wrong += place.wrong(whole)
    shown = {answer[0] for looker in lookers for answer in looker.answers}
    for it in wrong:
        print(f"looks of seed {given.seed}: {it}")
    total = sum(len(looker.answers) for looker in lookers)
    print(f"{total} looks, {len(shown)} different, beside {given.looks} commits: {'as expected' if not wrong else f'{len(wrong)} differ'}")
    return not wrong and len(shown) > 2


def main():
    parser = argparse.ArgumentParser(description=__doc__.splitlines()[0])
    parser.add_argument("--program", type=os.path.abspath, default=PROGRAM)
    parser.add_argument("--kills", type=int, default=200)
    parser.add_argument("--looks", type=int, default=400)
    parser.add_argument("--seed", type=int, default=1)
    given = parser.parse_args()
    checks = Checks(given.program)
    with tempfile.TemporaryDirectory() as folder:
        place, script = three_jobs(checks, folder)
        rights(checks, folder)
        by_sqlite3(checks, place)
        job_by_job(checks, folder)
        unfinished(checks, place, script)
        refusals(checks, folder)
        is_well = [kills(given, folder), looks(given, folder)]
    return 0 if all(is_well) and not checks.failed else 1


if __name__ == "__main__":
    sys.exit(main())
