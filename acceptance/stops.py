#!/usr/bin/env python3
"""Stops `brestore` at each of its calls that change a file, and compares what is found afterwards.

    acceptance/stops.py [--program FILE] [PART ..]     all parts, or these: openings, migrations, commits

`stopping_calls.c`, which is compiled by `cc` and preloaded, ends the process before a call or within a write, or lets the call and each
later one fail. The program makes a catalogue of an empty file, or opens the catalogue of three jobs that `sqlite3` made, or one that
it made itself, and restores from it by a script. After each stop the same script runs again, without a stop: it finds a catalogue
without a job, or the one that was there, and SQLite's own library finds the file sound. If the calls fail, the program is refused with
45 at its start or its end, or the same as without a stop if its answer did not need them. After each stop, before that, `console` shows
what it showed at first, or shows after a run without a stop. Over the same catalogues it makes no call that changes a file.

A catalogue of version 1 is migrated, and stopped in the same ways. Afterwards it is of version 1 or of version 2, with the same jobs, as
`console` says, and another migration goes on from there. After an answer without a refusal it is of version 2.

A script that commits two jobs to a catalogue and to a folder of volumes is stopped in the same ways. Afterwards the catalogue has the
first 0, 1 or 2 of the jobs, each that was acknowledged among them, and a restore gives all that these jobs saved. The rows and the bytes
of the volumes are those of these jobs by the second reading of scripts. If the calls fail, the first job that is not stored is refused
with 44 if the first of these calls is of a path in the folder of volumes, and else with 45.

A script of four jobs has each of its calls fail alone, so that the next ones succeed. If the call is of the folder of volumes or of a
volume, the first job that is not stored is refused with 44, and each later job that names this volume with 43. If it is of the catalogue,
the number is 45. The catalogue has the stored jobs and no other one; after 45 maybe also the first that was refused, since its rows may
be in the log already. Of a sync of the volumes all is compared: what is printed, the rows and the bytes of the volumes are those of a
second reading of scripts whose job is refused with 44, once all its blocks are appended.

Migrations and commits are also stopped with the machine: the call of one of the catalogue's two files, and each later one of that file,
fails, and when the program ends, what it wrote to either and did not flush is undone. The status is 1 if something differs.
"""

import argparse
import contextlib
import os
import shutil
import sqlite3
import subprocess
import sys
import tempfile
from pathlib import Path

# Nothing is left beside the script.
sys.dont_write_bytecode = True
sys.path.insert(0, os.path.join(os.path.dirname(os.path.dirname(os.path.abspath(__file__))), "tools"))
from common import ORDER_SQL, PROGRAM, SETS, VERSION_1_SQL
from preloaded import compiled
from scripting import Bad, Script, put_line, served
from serving import wrong_volumes
from stored import differences, memory, opened_copy, rows_by, volumes_of, vouched_by
from stored import rows_of as sound_rows

WAYS = ("before", "within", "failing")
SYNCS = ("fsync", "fdatasync")
# The machine stops: the calls of the log fail, or those of the database.
LOST = ("lost-wal", "lost")
REFUSED = (1, b"", b"refused 45\n")
STOPPED = (137, b"", b"")
# What `console` says of a catalogue of version 1, and `migrate` of one of version 2.
OLD, NOT_OLD = (1, b"", b"refused 48\n"), (1, b"", b"refused 47\n")
ORDER = os.path.join(SETS, "order")
LOOK = [b"restore peer-fd Peer 2026-11-21 23:15:46", b"mark *", b"done"]


def faults_of(given, words, call, way, log):
    """Returns the variables that stop a run at a call."""
    faults = {"LD_PRELOAD": given.library, "STOPPED_CALL": str(call), "STOPPED_LOG": log}
    if way not in LOST:
        return faults | {"STOPPED_WAY": way}
    catalogue = os.path.realpath(words[words.index("--db") + 1])
    return faults | {"STOPPED_WAY": "lost", "STOPPED_FILE": catalogue + way.removeprefix("lost"), "STOPPED_LOST": catalogue}


def run(given, words, lines, call, way, log):
    """Runs the program, with a stop if a call is named."""
    faults = faults_of(given, words, call, way, log) if call else {}
    ran = subprocess.run([given.program, *words], input=lines, capture_output=True, env=os.environ | faults, timeout=60)
    return ran.returncode, ran.stdout, ran.stderr


def console(given, catalogue, call=None, way="before", log=os.devnull):
    """Runs a session over a catalogue, with a stop if a call is named."""
    words = ["console", "--db", catalogue, "--volumes", ORDER, "--client", "peer-fd"]
    words += ["--fileset", "Peer", "--before", "2026-11-21 23:15:46"]
    return run(given, words, b"mark *\ndone\n", call, way, log)


def is_traceless(given, folder, kept):
    """Returns whether a session over this catalogue makes no call that changes a file."""
    log = os.path.join(folder, "log")
    Path(log).write_bytes(b"")
    found = console(given, copied(folder, kept), 1, "before", log)
    return found[0] in (0, 1) and not os.path.getsize(log)


def migrate(given, catalogue, call=None, way="before", log=os.devnull):
    """Migrates a catalogue, with a stop if a call is named."""
    return run(given, ["migrate", "--db", catalogue], b"", call, way, log)


def rows_of(catalogue):
    """Returns what SQLite's own library finds in a file: whether it is sound, and its rows."""
    with contextlib.closing(sqlite3.connect(catalogue)) as connection:
        return connection.execute("PRAGMA integrity_check").fetchall(), list(connection.iterdump())


def copied(folder, kept):
    """Returns a fresh copy of a catalogue and its log."""
    for old in Path(folder).glob("catalogue*"):
        old.unlink()
    for file in Path(kept).iterdir():
        shutil.copy(file, folder)
    return os.path.join(folder, "catalogue")


def allowed_after(own, way):
    """Returns what a stopped run may give: before a stop nothing is written, or all that a run
    without a stop gives."""
    if way == "failing":
        return own, REFUSED, (1, own[1], REFUSED[2])
    return STOPPED, (STOPPED[0], own[1], b"")


def stop_in_turn(given, folder, kept):
    """Stops a script over this catalogue at each call in each way. Returns the number of stops, and
    the differences."""
    catalogue = copied(folder, kept)
    shown, own, rows = [console(given, catalogue)], opened(given, catalogue), rows_of(catalogue)
    # An empty file is refused until it has the tables.
    shown.append(console(given, catalogue))
    stops, wrong = 0, [] if is_traceless(given, folder, kept) else ["console changes a file"]
    for way in WAYS:
        call, was_stopped = 0, True
        while was_stopped:
            call, log = call + 1, os.path.join(folder, "log")
            Path(log).write_bytes(b"")
            catalogue = copied(folder, kept)
            found = opened(given, catalogue, call, way, log)
            was_stopped = os.path.getsize(log) > 0
            stops += was_stopped
            if found not in (allowed_after(own, way) if was_stopped else (own,)):
                wrong.append(f"{way} call {call}: {found}")
            if (looked := console(given, catalogue)) not in shown:
                wrong.append(f"after a stop {way} call {call}: {looked}")
            if (again := opened(given, catalogue)) != own:
                wrong.append(f"after a stop {way} call {call}: {again}")
            if (left := rows_of(catalogue)) != rows:
                wrong.append(f"after a stop {way} call {call}: {left}")
    return stops, wrong


class Versions:
    """What a catalogue of version 1 holds, as SQLite's own library finds it, what it holds once it is migrated, and what `console` says."""

    def __init__(self, given, folder, kept):
        catalogue = copied(folder, kept)
        self.old = found_in(catalogue), OLD
        self.migrated = migrate(given, catalogue)
        self.new = found_in(catalogue), console(given, catalogue)

    def fault(self, given, catalogue, is_done):
        """Returns what is wrong with a catalogue after a stop. It has to be of version 2 if that
        was printed."""
        found = found_in(catalogue), console(given, catalogue)
        is_new, is_old = found == self.new, found == self.old
        if not is_new and (is_done or not is_old):
            return f"left {found}"
        again = migrate(given, catalogue), (found_in(catalogue), console(given, catalogue))
        return None if again == (NOT_OLD if is_new else self.migrated, self.new) else f"and then {again}"


def found_in(catalogue):
    """Returns what SQLite's own library finds in a copy of a catalogue and of its log."""
    with opened_copy(catalogue) as connection:
        return connection.execute("PRAGMA integrity_check").fetchall(), list(connection.iterdump())


def stop_migrations(given, folder, kept):
    """Stops the migration of this catalogue at each call in each way. Returns the number of stops,
    and the differences."""
    versions, log = Versions(given, folder, kept), os.path.join(folder, "log")
    is_migrated = (versions.migrated, versions.new[1][0]) == ((0, b"migrated 3\n", b""), 0)
    stops, wrong = 0, [] if is_migrated else [f"without a stop: {versions.migrated} {versions.new}"]
    for way in WAYS + LOST:
        call, was_stopped = 0, True
        while was_stopped:
            call, catalogue = call + 1, copied(folder, kept)
            Path(log).write_bytes(b"")
            found = migrate(given, catalogue, call, way, log)
            was_stopped = os.path.getsize(log) > 0
            stops += was_stopped
            allowed = (STOPPED,) if way in ("before", "within") else (versions.migrated, REFUSED)
            if found not in (allowed if was_stopped else (versions.migrated,)):
                wrong.append(f"{way} call {call}: {found}")
            if fault := versions.fault(given, catalogue, found == versions.migrated):
                wrong.append(f"after a stop {way} call {call}: {fault}")
        if call == 1:
            wrong.append(f"{way}: no call is stopped")
    return stops, wrong


def job_lines(number, path, *volumes):
    """Returns the lines of a job. Each volume gets a block, and the last one the rest."""
    head = b"job %d B %s T %d %d %d 64 c f" % (number, b"F" if number == 1 else b"I", 100 * number, number, 100 * number)
    places = [b"place %s %d" % (volume, volume != volumes[-1]) for volume in volumes]
    return [head, put_line(path, b"message digest"), *places, b"end"]


COMMITS = [*job_lines(1, b"/a", b"A", b"B"), *job_lines(2, b"/b", b"B", b"A")]
RESTORE = [b"restore c f 1970-01-01 00:04:10", b"mark *", b"done"]
FRONTS = (b"", b"stored 1\n", b"stored 1\nstored 2\n")


def text_of(lines):
    return b"".join(line + b"\n" for line in lines)


def restored(count):
    """Returns what a restore of all prints if the first jobs are stored."""
    stored, whole = COMMITS[: 5 * count], served(text_of(COMMITS[: 5 * count] + RESTORE))
    return whole[0], whole[1].removeprefix(Script(text_of(stored)).run()[1]), b""


def serve(given, places, lines, call=None, way="before", log=os.devnull):
    """Runs a script over a catalogue and a folder of volumes, with a stop if a call is named."""
    catalogue, volumes = places
    return run(given, ["serve", "--db", catalogue, "--volumes", volumes], text_of(lines), call, way, log)


def opened(given, catalogue, call=None, way="before", log=os.devnull):
    """Opens a catalogue by a script that restores from it, with a stop if a call is named."""
    return serve(given, (catalogue, ORDER), LOOK, call, way, log)


def new_places(folder):
    """Makes an empty catalogue and an empty folder of volumes."""
    shutil.rmtree(folder)
    catalogue, volumes = os.path.join(folder, "catalogue"), os.path.join(folder, "volumes")
    os.makedirs(volumes)
    Path(catalogue).touch()
    return catalogue, volumes


def call_in(log):
    """Returns the name and the path of the call that was stopped; nothing if there was none."""
    return tuple(Path(log).read_text().removesuffix("\n").split(" ", 1)) if os.path.getsize(log) else ()


def is_of_volumes(call, places):
    """Returns whether a call is of the folder of volumes, or of a volume."""
    return call[1] == places[1] or os.path.dirname(call[1]) == places[1]


def is_stop(found, way, is_volumes):
    """Returns the number of jobs that a script acknowledged which was stopped at a call of the volumes or of the catalogue, or None if it
    may not give that."""
    status, printed, told = found
    stored = [line for line in printed.splitlines() if line.startswith(b"stored ")]
    others = [line for line in printed.splitlines() if not line.startswith(b"stored ")]
    if text_of(stored) not in FRONTS:
        return None
    if way in ("before", "within"):
        return len(stored) if status == 137 and told == b"" and not others else None
    # Each later call fails, too. A volume to which an append failed is retired: a job that names it is refused 43.
    lines = {b"refused 44", b"refused 45"} | ({b"refused 43"} if is_volumes else set())
    is_first = others[:1] == [b"refused 44" if is_volumes else b"refused 45"] and lines.issuperset(others)
    is_at_end = not is_volumes and not others
    is_refused = status == 1 and (is_first and told in (b"", b"refused 45\n") or is_at_end and told == b"refused 45\n")
    return len(stored) if is_refused or (status == 0 and is_at_end and told == b"") else None


def wrong_rows(places, count):
    """Returns the differences of a catalogue and its volumes from what the first jobs leave."""
    whole = Script(text_of(COMMITS))
    whole.run()
    jobs = whole.jobs[:count]
    try:
        wrong = differences(sound_rows(places[0]), rows_by(jobs))
    except (sqlite3.Error, ValueError) as error:
        wrong = [error]
    return wrong + wrong_volumes(volumes_of(places[1]), whole.volumes, vouched_by(jobs))


def stop_commits(given, folder):
    """Stops the commits at each call in each way. Returns the number of stops, and the
    differences."""
    stops, wrong, log = 0, [], os.path.join(folder, "..", "log")
    for way in WAYS + LOST:
        call, was_stopped, counts = 0, True, []
        while was_stopped:
            call, places = call + 1, new_places(folder)
            Path(log).write_bytes(b"")
            found = serve(given, places, COMMITS, call, way, log)
            stopped = call_in(log)
            was_stopped = bool(stopped)
            stops += was_stopped
            if was_stopped:
                told = is_stop(found, way, is_of_volumes(stopped, places))
            else:
                told = 2 if found == (0, FRONTS[2], b"") else None
            left = serve(given, places, RESTORE)
            count = next((count for count in range(3) if left == restored(count)), None)
            if told is None or count is None or count < told:
                wrong.append(f"{way} call {call} {stopped}: {found}, and then {left}")
            elif rows := wrong_rows(places, count):
                wrong.append(f"{way} call {call}: {rows}")
            counts.append(count)
        if counts != sorted(counts, key=str) or set(counts) != {0, 1, 2} and way != "lost":
            wrong.append(f"{way}: the numbers of jobs are {counts}")
    return stops, wrong


# The volumes of the places of four jobs. In this order they are synced.
PLACES = ((1, b"A"), (1, b"B"), (2, b"B"), (2, b"A"), (3, b"A"), (4, b"B"))
FOUR = [*COMMITS, *job_lines(3, b"/c", b"A"), *job_lines(4, b"/d", b"B")]


class Unsynced(Script):
    """Carries out a script in which a volume is not synced in the commit of a job, or none."""

    def __init__(self, text, place):
        super().__init__(text)
        self.place = place

    def commit(self, job):
        super().commit(job)
        if self.place and job["id"] == self.place[0]:
            self.jobs.remove(job)
            # No volume has this length, so a job that names it is refused 43.
            self.vouched[self.place[1]] = -1
            raise Bad(44)


def wrong_left(places, allowed, whole=None):
    """Returns the differences of what a call that failed alone left: the catalogue has one of these lists of jobs; and if a second reading
    is given, the rows and volumes that it leaves."""
    try:
        rows = sound_rows(places[0])
    except (sqlite3.Error, ValueError) as error:
        return [error]
    jobs = [row[0] for row in rows["Job"]]
    wrong = [] if jobs in allowed else [f"the catalogue has the jobs {jobs}"]
    return wrong + (differences(rows, rows_by(whole.jobs)) + differences(volumes_of(places[1]), whole.volumes) if whole else [])


def wrong_catalogue_call(found, places, stored, others, first):
    """Returns what is wrong after a call of the catalogue failed alone. A commit that is refused with 45 may leave the job's rows in the
    log, from where the next start takes them."""
    is_refused = found[0] == 1 and found[2] in (b"", REFUSED[2]) and (others[:1] == [b"refused 45"] or not others and found[2])
    is_own = (found[0], found[2], others) == (0, b"", [])
    wrong = [] if is_refused or is_own else [found]
    return wrong + wrong_left(places, [stored, sorted([*stored, first])] if others else [stored])


def wrong_append(found, call, places, stored, others, first):
    """Returns what is wrong after a volume could not be made, or appended to, by a call that failed alone."""
    volume = os.fsencode(os.path.basename(call[1]))
    later = {number for number, name in PLACES if name == volume and number > first}
    lines = found[1].splitlines()
    is_refused = (found[0], found[2], others[:1]) == (1, b"", [b"refused 44"]) and all(lines[it - 1 : it] == [b"refused 43"] for it in later)
    return ([] if is_refused else [found]) + wrong_left(places, [stored])


def wrong_sync(found, call, places, stored, synced):
    """Returns what is wrong after a sync of the folder or of a volume failed alone, which is that of the next place."""
    place = dict(enumerate(PLACES)).get(synced, (0, b""))
    whole = Unsynced(text_of(FOUR), place)
    expected = *whole.run(), b""
    wrong = [] if found == expected else [f"{found}, and not {expected}"]
    wrong += [] if call[1] in (places[1], os.path.join(places[1], os.fsdecode(place[1]))) else [f"and not of {place[1]}"]
    return wrong + wrong_left(places, [stored], whole)


def wrong_failure(found, call, places, synced):
    """Returns what is wrong with what a script printed and left of which a call failed alone, after this number of volumes was synced."""
    lines = found[1].splitlines()
    stored = [int(line.removeprefix(b"stored ")) for line in lines if line.startswith(b"stored ")]
    others = [line for line in lines if not line.startswith(b"stored ")]
    first = next((number for number, line in enumerate(lines, 1) if line in others), 0)
    if not is_of_volumes(call, places):
        return wrong_catalogue_call(found, places, stored, others, first)
    if call[0] not in SYNCS:
        return wrong_append(found, call, places, stored, others, first)
    return wrong_sync(found, call, places, stored, synced)


def fail_once(given, folder):
    """Lets each call of four commits fail alone. Returns the number of these calls, and the differences."""
    wrong, log, calls, was_stopped = [], os.path.join(folder, "..", "log"), [], True
    whole = Unsynced(text_of(FOUR), None)
    expected = *whole.run(), b""
    while was_stopped:
        places = new_places(folder)
        Path(log).write_bytes(b"")
        found = serve(given, places, FOUR, len(calls) + 1, "once", log)
        was_stopped = bool(call := call_in(log))
        # What was appended to the log of the catalogue goes into its file.
        again = serve(given, places, [])
        synced = sum(name in SYNCS and os.path.dirname(path) == places[1] for name, path in calls)
        if was_stopped:
            faults = wrong_failure(found, call, places, synced)
            calls.append(call)
        else:
            faults = ([] if found == expected else [f"without a stop: {found}"]) + wrong_left(places, [[1, 2, 3, 4]], whole)
        faults += [] if again == (0, b"", b"") else [f"and then {again}"]
        wrong += [f"once call {len(calls)} {call}: {fault}" for fault in faults]
    syncs = [path for name, path in calls if name in SYNCS and is_of_volumes((name, path), places)]
    # The folder once a commit, and each volume.
    if len(syncs) != len({number for number, _ in PLACES}) + len(PLACES):
        wrong.append(f"once: the volumes are synced by {syncs}")
    return len(calls), wrong


def catalogues(given, folder):
    """Makes catalogues to open, each in a folder of its own: an empty file, one of sqlite3's, one that the program made, and one of
    version 1."""
    names = ("an empty file", "a catalogue of three jobs", "a catalogue that was made", "a migration")
    empty, filled, made, old = (os.path.join(folder, name) for name in names)
    for kept in (empty, filled, made, old):
        os.mkdir(kept)
        Path(kept, "catalogue").touch()
    for kept, text in ((filled, ORDER_SQL), (old, VERSION_1_SQL)):
        with contextlib.closing(sqlite3.connect(os.path.join(kept, "catalogue"))) as connection:
            connection.executescript(Path(text).read_text())
    opened(given, os.path.join(made, "catalogue"))
    return empty, filled, made, old


def told(name, stops, wrong):
    """Prints what was found. Returns whether something differed."""
    print(f"{name}: {stops} stops: {'as expected' if not wrong else f'{len(wrong)} differ'}", *wrong[:5], sep="\n  ", flush=True)
    return bool(wrong)


def openings(given, folder):
    """Stops the openings of catalogues. Returns the number that differed."""
    *current, _ = catalogues(given, folder)
    return sum(told(os.path.basename(kept), *stop_in_turn(given, os.path.join(folder, "run"), kept)) for kept in current)


def migrations(given, folder):
    """Stops the migration of a catalogue of version 1. Returns the number that differed."""
    *_, old = catalogues(given, folder)
    return told(os.path.basename(old), *stop_migrations(given, os.path.join(folder, "run"), old))


def commits(given, folder):
    """Stops the commits of two jobs, and lets calls of four fail alone. Returns the number that differed."""
    run = os.path.join(folder, "run")
    return told("two commits", *stop_commits(given, run)) + told("four commits, a call fails alone", *fail_once(given, run))


PARTS = {it.__name__: it for it in (openings, migrations, commits)}


def main():
    parser = argparse.ArgumentParser(description="Stops brestore at each call that changes a file.")
    parser.add_argument("--program", type=os.path.abspath, default=PROGRAM, help="the program (default: %(default)s)")
    parser.add_argument("parts", nargs="*", metavar="PART", help=f"the parts (default: all): {', '.join(PARTS)}")
    given, failed = parser.parse_args(), 0
    if not PARTS.keys() >= set(given.parts):
        parser.error("there is no such part")
    with tempfile.TemporaryDirectory() as place:
        given.library = compiled(place, "stopping_calls")
        for name in given.parts or PARTS:
            with tempfile.TemporaryDirectory(dir=memory()) as folder:
                os.mkdir(os.path.join(folder, "run"))
                failed += PARTS[name](given, folder)
    return 1 if failed else 0


if __name__ == "__main__":
    sys.exit(main())
