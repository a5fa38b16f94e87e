#!/usr/bin/env python3
"""Runs `brestore` with each of its requests for memory refused in turn, and compares what it prints and leaves.

    acceptance/growths.py [--program FILE] [--each N] [--drawn N] [--seed N] [NAME..]

`failing_memory.c`, which is compiled by `cc` and preloaded, lets one request fail, and in a second turn that one and all later ones.
The program must end by itself. It prints and leaves what it does with all its memory, or it is refused:

- A script answers for each line. If the line that asked is refused by 1 (44 for the bytes of a volume), the later lines answer by
  what then holds. The second reading of scripts (here, over reading.py) says so for each line.
- A migration leaves version 1, or version 2 once it printed its jobs, and either of them after `refused 45`.
- A script that commits jobs to files leaves in the catalogue and on the volumes what its answers say, and a later run goes on from that.
- `extract` and `console` end with the status 1 and `refused 1`, or `refused 45` if the catalogue was read, after whole lines of what
  they print with all their memory. If files are delivered, the number may be 80 once all is printed.

The folder of volumes and the catalogue are unchanged, except for jobs that are committed. Of a
delivery's files the first ones are there, and perhaps a first part of the next; of a stream, a
first part. If a case has more than three times `--each` requests, this number of them is refused in
turn at its start and at its end, and `--drawn` of those between, which are drawn by the seed. If
jobs are committed to files, `--drawn` of the requests that make the catalogue are refused, and each
later one. The status is 1 if a run differs.
"""

import argparse
import contextlib
import hashlib
import os
import random
import re
import shutil
import sqlite3
import subprocess
import sys
import tempfile
from pathlib import Path

# Nothing is left beside the script.
sys.dont_write_bytecode = True
sys.path.insert(0, os.path.join(os.path.dirname(os.path.dirname(os.path.abspath(__file__))), "tools"))
from cases import unpack
from choosing import consoled
from common import CASES, ORDER_SQL, PROGRAM, ROOT, SETS, VERSION_1_SQL, unescaped
from drawing import cut_into_blocks, store_job
from hostile import attributes, block, sparse
from preloaded import compiled
from reading import Fault, Refused, file_of, groups_of, manifest_of, match
from refusing import answers_of as answers_with_jobs
from refusing import fronts_of, printed_after
from scripting import put_line
from stored import differences, has_tables, opened_copy, rows_by, served, volumes_of
from stored import rows_of as named_rows_of

# A restore to which the system refuses a thread gives up after ten.
SECONDS = 30
FIRST_SCRIPT = os.path.join(ROOT, "crates", "brestore", "stdin")
STAT = [0, 0, 33188, 1, 0, 0, 0, 14, 0, 0, 0, 0, 0, 0]
MESSAGE = b"message digest"


# ---- scripts: their answers if one line is refused


class Script:
    """A script that runs: its volumes, the kept bootstrap, and what it answered. One line is refused by a number.

    If that is `bsr` itself, the bootstrap before it may be kept or dropped, as `keeps` says.
    """

    def __init__(self, lines, refused, number, keeps=True):
        self.lines, self.refused, self.number, self.keeps = lines, refused, number, keeps
        self.volumes, self.kept, self.printed, self.place = {}, None, b"", 0

    def is_refused(self):
        return self.place == self.refused

    def refuse(self, number):
        self.printed += b"refused %s\n" % str(number).encode()

    def carry_out(self):
        line = self.lines[self.place]
        word, _, rest = line.partition(b" ")
        if self.is_refused():
            self.refuse(self.number)
            self.kept = self.kept if self.keeps or line != b"bsr" else None
        elif word == b"volume":
            name, _, data = rest.partition(b" ")
            self.volumes[name] = self.volumes.get(name, b"") + bytes.fromhex(data.decode())
        elif line == b"bsr":
            self.keep()
        elif line == b"extract":
            self.extract()
        elif word != b"drives":
            self.refuse("90 line %d" % (self.place + 1))
        self.place += 1

    def keep(self):
        """Reads the lines up to `.`, of which one may be refused."""
        end = self.lines.index(b".", self.place)
        text = b"".join(line + b"\n" for line in self.lines[self.place + 1 : end])
        is_refused = self.refused is not None and self.place < self.refused <= end
        self.kept, self.place = None if is_refused else groups_of(text), end
        if is_refused:
            self.refuse(self.number)

    def extract(self):
        if self.kept is None:
            return self.refuse("90 line %d" % (self.place + 1))
        try:
            self.printed += manifest_of(match(self.kept, self.volumes))[0]
        except Refused as refused:
            self.refuse(refused)

    def run(self):
        while self.place < len(self.lines):
            self.carry_out()
        has_fault = re.search(rb"(?m)^(refused|X) ", self.printed) is not None
        return 1 if has_fault else 0, self.printed, b""


def answers_of(lines):
    """Returns what a script answers with all its memory, and all that it may answer if one line is refused."""
    own = Script(lines, None, 1).run()
    refused = {Script(lines, place, 1, keeps).run() for place in range(len(lines)) for keeps in (True, False)}
    refused |= {Script(lines, place, 44).run() for place, line in enumerate(lines) if line.startswith(b"volume ")}
    return own, refused | {(1, b"", b"refused 1\n"), (1, b"refused 1\n", b"")}


# ---- the state of files


def contents_of(folder):
    """Returns the bytes of each file in a folder."""
    return {name: Path(folder, name).read_bytes() for name in sorted(os.listdir(folder))} if folder else {}


def rows_of(catalogue):
    """Returns the rows of a catalogue, as text."""
    with contextlib.closing(sqlite3.connect(catalogue)) as connection:
        return list(connection.iterdump())


def delivered(folder):
    """Returns the files below a folder with their bytes, and its folders with None."""
    top = Path(folder)
    return {str(it.relative_to(top)): None if it.is_dir() else it.read_bytes() for it in sorted(top.rglob("*"))}


def contents_by_digest(volumes):
    """Returns the bytes of each file that is on the volumes, by their digest."""
    text = b"".join(b'Volume="%s"\n' % os.fsencode(name) for name in volumes)
    found = match(groups_of(text), {os.fsencode(name): data for name, data in volumes.items()})
    known = {}
    for key, places in found.items():
        with contextlib.suppress(Fault):
            contents = bytes(file_of([places[place] for place in sorted(places)], key[2])[4])
            known[hashlib.md5(contents).hexdigest().encode()] = contents
    return known


def steps_of(manifest, known):
    """Returns what a delivery makes, in order: names below the folder, each with its bytes, or None for a folder."""
    fields = [line.split(b" ") for line in manifest.splitlines() if line.startswith(b"F ")]
    made = [it for it in fields if it[4] in (b"2", b"3", b"5")]
    return [(os.fsdecode(unescaped(it[5])).strip("/"), None if it[4] == b"5" else known[it[-1]]) for it in made]


def folders_above(name):
    return {name[:place]: None for place, letter in enumerate(name) if letter == "/"}


def is_begun(tree, before, name, data):
    """Returns whether a delivery that began with `before` and was refused at this name left
    this."""
    changed = {it for it in {*tree, *before} if tree.get(it, b"missing") != before.get(it, b"missing")}
    others = changed - {name} - {*folders_above(name)}
    is_cut = name not in tree or (tree[name] is None if data is None else tree[name] is not None and data.startswith(tree[name]))
    return not others and (name not in changed or is_cut)


def may_be_left(tree, steps):
    """Returns whether a delivery that was refused at one of its steps, or after all, may leave this."""
    before = {}
    for name, data in steps:
        if is_begun(tree, before, name, data):
            return True
        before |= folders_above(name) | {name: data}
    return tree == before


# ---- runs


class Case:
    """One command, with what it prints and leaves if it has all its memory."""

    def __init__(self, given, folder, words, lines=b"", volumes=None, catalogue=None, delivers=None):
        self.given, self.folder, self.words, self.lines = given, folder, words, lines
        self.volumes, self.catalogue, self.delivers = volumes, catalogue, delivers
        self.before = contents_of(volumes), catalogue and rows_of(catalogue)
        self.runs, self.wrong, self.is_script = 0, [], words[:1] in ([], ["serve"])

    def path(self, name):
        return os.path.join(self.folder, name)

    def renew(self):
        """Makes again what a run changes."""

    def run(self, request, later=False):
        """Runs the command with this request refused. Returns what it printed, what it left, and whether a request was refused."""
        self.renew()
        into, log = self.path("into"), self.path("log")
        shutil.rmtree(into, ignore_errors=True)
        for file in (log, self.path("tar")):
            if os.path.exists(file):
                os.remove(file)
        if self.delivers == "--into":
            os.mkdir(into)
        faults = {"LD_PRELOAD": self.given.library, "REFUSED_REQUEST": str(request), "REFUSED_LOG": log, "REFUSED_COUNT": self.path("count")}
        faults |= {"REFUSED_LATER": "1"} if later else {}
        words = [self.given.program, *self.words]
        words += [self.delivers, into if self.delivers == "--into" else self.path("tar")] if self.delivers else []
        try:
            ran = subprocess.run(words, input=self.lines, capture_output=True, env=os.environ | faults, timeout=SECONDS)
            found = ran.returncode, ran.stdout, ran.stderr
        except subprocess.TimeoutExpired:
            found = "no end", b"", b""
        tar = Path(self.path("tar"))
        left = delivered(into) if self.delivers == "--into" else tar.read_bytes() if tar.exists() else b""
        return found, left, os.path.exists(log) and os.path.getsize(log) > 0

    def is_expected(self, found, left, own, whole, later):
        """Returns whether a run with a refused request may print and leave this."""
        if found == own:
            return left == whole
        if self.is_script:
            return found in self.refused or (later and self.is_script_of_refusals(found, own))
        status, printed, told = found
        numbers = [1] + [45] * (self.catalogue is not None and not printed) + [80] * (self.delivers is not None and printed == own[1])
        is_told = status == 1 and told in [b"refused %d\n" % number for number in numbers]
        is_fronted = own[1].startswith(printed) and printed[-1:] in (b"", b"\n")
        return is_told and is_fronted and (whole.startswith(left) if isinstance(left, bytes) else may_be_left(left, self.steps))

    def is_script_of_refusals(self, found, own):
        """Returns whether each line of a script's answers is a possible one, with a refusal among
        them."""
        known = {line for printed in [own[1], *(it[1] for it in self.refused)] for line in printed.splitlines()}
        lines = found[1].splitlines()
        return found[0] == 1 and found[2] == b"" and known.issuperset(lines) and any(it.startswith(b"refused ") for it in lines)

    def try_one(self, request, later, own, whole):
        """Refuses a request. Returns whether there was one."""
        found, left, was_refused = self.run(request, later)
        self.runs += 1
        what = f"request {request}{' and all later' if later else ''}"
        if not self.is_expected(found, left, own, whole, later):
            self.wrong.append(f"{what}: {found[0]} {found[1][-200:]} {found[2][-200:]}")
        self.wrong += [f"{what}: {fault}" for fault in self.faults_left(found, later)]
        return was_refused

    def faults_left(self, _found, _later):
        """Returns what is wrong of the volumes and the catalogue after a run: nothing of them may change."""
        is_changed = contents_of(self.volumes) != self.before[0] or (self.catalogue and rows_of(self.catalogue) != self.before[1])
        return ["volumes or catalogue changed"] if is_changed else []

    def try_all(self, dice):
        """Refuses requests in turn, until a run has none that is refused."""
        own, whole, _ = self.run(0)
        count = int(Path(self.path("count")).read_text())
        if self.is_script:
            stated, self.refused = self.answers(self.lines)
            self.wrong += [] if own == stated else [f"with all its memory: {own}"]
        self.wrong += [] if self.stated in (None, own) else [f"with all its memory: {own}"]
        if self.delivers == "--into":
            self.steps = steps_of(own[1], contents_by_digest(self.before[0]))
        places = self.places(count, dice)
        for later in (False, True):
            for request in places:
                self.try_one(request, later, own, whole)
            request = count + 1
            while self.try_one(request, later, own, whole):
                request += 1
        return count

    def places(self, count, dice):
        """Returns which of `count` requests are refused: the first, the last, and some of those
        between."""
        each, places = self.given.each, range(1, count + 1)
        if count <= 3 * each:
            return places
        middle = dice.sample(places[each:-each], min(self.given.drawn, count - 2 * each))
        return [*places[:each], *sorted(middle), *places[-each:]]

    def answers(self, text):
        """Returns what a script answers with all its memory, and all that it may answer if one line is refused."""
        if b"job " not in text:
            return answers_of(text.splitlines())
        (own, _), found = answers_with_jobs(text)
        return own, {result for result, _ in found} | {(1, b"", b"refused 1\n"), (1, b"refused 1\n", b"")}

    stated = None
    refused = frozenset()


class Kept(Case):
    """A script that commits jobs to a new catalogue and a new folder of volumes, and one that
    continues from there."""

    def __init__(self, given, folder, lines, later_lines):
        super().__init__(given, folder, ["serve", "--db", os.path.join(folder, "jobs"), "--volumes", os.path.join(folder, "kept")], text_of(lines))
        self.later_lines = text_of(later_lines)

    def renew(self):
        for old in Path(self.folder).glob("jobs*"):
            old.unlink()
        Path(self.path("jobs")).touch()
        shutil.rmtree(self.path("kept"), ignore_errors=True)
        os.mkdir(self.path("kept"))

    def places(self, count, dice):
        """Returns some of the requests up to the first line, which make and open the catalogue, and
        each later one."""
        lines, self.lines = self.lines, b""
        self.run(0)
        self.lines, opened = lines, int(Path(self.path("count")).read_text())
        return [*sorted(dice.sample(range(1, opened), min(self.given.drawn, opened - 1))), *range(opened, count + 1)]

    def answers(self, text):
        (own, left), found = answers_with_jobs(text)
        nothing = ({}, [], [])
        unread = [((1, b"", b"refused 1\n"), nothing), ((1, b"", b"refused 45\n"), nothing), ((1, b"refused 1\n", b""), nothing)]
        self.left, self.fronts = {own: [left]}, fronts_of(text)
        for result, left in found + unread:
            self.left.setdefault(result, []).append(left)
        return own, {result for result, _ in found + unread}

    def faults_left(self, found, later):
        """Returns what is wrong of the volumes and the catalogue after a run, and of what a script prints that goes on from them."""
        volumes = {name: data for name, data in volumes_of(self.path("kept")).items() if data}
        rows = named_rows_of(self.path("jobs")) if has_tables(self.path("jobs")) else rows_by([])
        stored = {row[0] for row in rows["Job"]}
        fronts = [left for printed, left in self.fronts if later and found[1].startswith(printed)]
        for kept, must, may in self.left.get(found, []) + fronts:
            jobs = must + [job for job in may if job["id"] in stored]
            if kept == volumes and not differences(rows, rows_by(jobs)):
                again = served(self.given.program, self.path("jobs"), self.path("kept"), self.later_lines)
                return [] if again == printed_after(self.later_lines, volumes, jobs) else [f"then {again}"]
        return [f"left the jobs {sorted(stored)} and volumes of {[(name, len(data)) for name, data in sorted(volumes.items())]} bytes"]


class Migrated(Case):
    """A catalogue of version 1 that is migrated."""

    def __init__(self, given, folder):
        self.kept = catalogue_of(os.path.join(folder, "kept"), VERSION_1_SQL)
        super().__init__(given, folder, ["migrate", "--db", os.path.join(folder, "old")])
        self.old, self.new = rows_of(self.kept), named_rows_of(catalogue_of(os.path.join(folder, "new"), ORDER_SQL))
        self.stated = 0, b"migrated 3\n", b""

    def renew(self):
        for file in Path(self.folder).glob("old*"):
            file.unlink()
        shutil.copy(self.kept, self.path("old"))

    def is_expected(self, found, left, own, whole, later):
        return found in (own, (1, b"", b"refused 1\n"), (1, b"", b"refused 45\n"))

    def faults_left(self, found, _later):
        """Returns what is wrong of the catalogue: it is of version 2 after a migration, else of version 1; after 45 of either."""
        with opened_copy(self.path("old")) as connection:
            is_old = list(connection.iterdump()) == self.old
        is_new = not is_old and not differences(named_rows_of(self.path("old")), self.new)
        may_be = {self.stated: is_new, (1, b"", b"refused 45\n"): is_old or is_new}
        return [] if may_be.get(found, is_old) else [f"left {'version 2' if is_new else 'version 1' if is_old else 'other rows'}"]


# ---- cases


def first_script(given, folder):
    """The script of the README: a volume, a bootstrap, and a restore by two drives."""
    return Case(given, folder, ["serve"], Path(FIRST_SCRIPT).read_bytes())


def two_volumes(given, folder):
    """A script with two volumes, the second of which gets its bytes in two lines, and two
    bootstraps."""
    first, second = block([attributes(1), (1, 2, None, b"hello")]), block([attributes(2, b"/b"), (2, 2, None, b"hello")], (2, 200))
    lines = [b"volume V1 " + first.hex().encode(), b"volume V2 " + second[:50].hex().encode(), b"volume V2 " + second[50:].hex().encode()]
    lines += [b"bsr", b'Volume="V1"', b".", b"extract", b"drives 3", b"bsr", b"Volume=V2", b"FileIndex=2", b'Volume="V1"', b".", b"extract"]
    return Case(given, folder, ["serve"], text_of(lines))


def empty_bootstrap(given, folder):
    """A script whose bootstrap has no line, so that no earlier line of it had room for its end."""
    return Case(given, folder, [], b"bsr\n.\nextract\n")


def job_lines(number, path, first, others, level=b"I"):
    """Returns the lines of a job that saves one file in blocks of 64, 64 and 44 bytes."""
    head = b"job %d B %s T %d %d %d 64 c f" % (number, level, 100 * number, number, 100 * number)
    return [head, put_line(path, MESSAGE), b"place %s 1" % first, b"place %s 0" % others, b"end"]


def text_of(lines):
    return b"".join(line + b"\n" for line in lines)


def job_script(given, folder, lines):
    return Case(given, folder, ["serve"], text_of(lines))


def two_jobs(given, folder):
    """Two jobs on two volumes that are committed, and a restore of all."""
    lines = [*job_lines(1, b"/a", b"A", b"B", b"F"), *job_lines(2, b"/b", b"B", b"A")]
    return job_script(given, folder, [*lines, b"restore c f 1970-01-01 00:04:10", b"mark *", b"done"])


def refused_jobs(given, folder):
    """Jobs, some of which are refused, deletions, further bytes, and sessions with the console."""
    lines = [*job_lines(1, b"/a", b"A", b"B", b"F"), *job_lines(1, b"/b", b"B", b"A"), b"volume A 00", *job_lines(3, b"/c", b"A", b"B")]
    lines += [*job_lines(4, b"/d", b"B", b"C")[:-1], b"del /a", b"end", b"restore c f 1970-01-01 00:10:00", b"ls", b"mark *", b"frob", b"done"]
    return job_script(given, folder, [*lines, b"restore c f 1970-01-01 00:02:30", b"find *", b"unmark a", b"quit"])


def kept_jobs(given, folder):
    """Three jobs and a restore of all over files. Then one more job and a restore, with all the memory."""
    lines = [*job_lines(1, b"/a", b"A", b"B", b"F"), *job_lines(2, b"/b", b"B", b"A"), *job_lines(3, b"/c", b"A", b"C")]
    restore = [b"restore c f 1970-01-01 00:10:00", b"mark *", b"done"]
    return Kept(given, folder, [*lines, *restore], [*restore, *job_lines(4, b"/d", b"C", b"B"), *restore])


def restore_of(given, folder, name, *more, delivers=None):
    """A restore by a bootstrap that Bacula wrote."""
    case = Path(CASES, name)
    volumes = Path(folder, "volumes")
    unpack(Path(SETS, (case / "set").read_text().strip()), volumes)
    made = Case(given, folder, ["extract", "--bsr", str(case / "x.bsr"), "--volumes", str(volumes), *more], volumes=str(volumes), delivers=delivers)
    if delivers is None:
        made.stated = int((case / "status").read_text()), (case / "expected").read_bytes(), (case / "stderr").read_bytes()
    return made


def restored(given, folder):
    return restore_of(given, folder, "order-written")


def restored_by_drives(given, folder):
    return restore_of(given, folder, "swap-inc", "--drives", "4")


def with_sparse_files(given, folder):
    return restore_of(given, folder, "feat-full")


def into_a_folder(given, folder):
    return restore_of(given, folder, "order-written", delivers="--into")


def into_a_stream(given, folder):
    return restore_of(given, folder, "order-written", delivers="--tar")


def read_again(given, folder):
    """A restore whose data are read again for the digests."""
    return restore_of(given, folder, "swap-inc", "--memory", "0", "--drives", "2")


def read_again_into_a_folder(given, folder):
    """The same, and once more for the delivery."""
    return restore_of(given, folder, "order-written", "--memory", "0", delivers="--into")


def read_again_into_a_stream(given, folder):
    return restore_of(given, folder, "order-written", "--memory", "10", delivers="--tar")


def own_restore(given, folder, volume, delivers):
    """A restore of all that is on one volume."""
    volumes = Path(folder, "volumes")
    volumes.mkdir()
    (volumes / "V").write_bytes(volume)
    Path(folder, "x.bsr").write_bytes(b'Volume="V"\n')
    words = ["extract", "--bsr", os.path.join(folder, "x.bsr"), "--volumes", str(volumes)]
    return Case(given, folder, words, volumes=str(volumes), delivers=delivers)


def sparse_file(given, folder):
    """A sparse file of 100,000 bytes, delivered."""
    records = [attributes(1), sparse(10, b"ab"), sparse(99_999, b"c"), attributes(2, b"/b"), (2, 2, None, b"hello")]
    return own_restore(given, folder, block(records), "--into")


def conflict(given, folder):
    """A file at the path of a folder: the delivery stops with 81."""
    records = [attributes(1), (1, 2, None, b"hello"), attributes(2, b"/a/b"), (2, 2, None, b"hello")]
    return own_restore(given, folder, block(records), "--into")


def catalogue_of(file, text):
    """Makes a catalogue of the statements in a file, and returns its own file."""
    with contextlib.closing(sqlite3.connect(file)) as connection:
        connection.executescript(Path(text).read_text())
    return file


def migration(given, folder):
    """A migration of three jobs."""
    return Migrated(given, folder)


def filled_catalogue(folder, jobs=None):
    """Returns the file of a catalogue of these jobs, or of those in catalogues/order.sql."""
    catalogue, text = os.path.join(folder, "catalogue"), Path(ORDER_SQL).read_text()
    with contextlib.closing(sqlite3.connect(catalogue)) as connection:
        connection.executescript(text if jobs is None else text.split("INSERT")[0] + "INSERT INTO Version VALUES (2);")
        for job in jobs or []:
            store_job(connection, job)
        connection.commit()
    return catalogue


def console_words(catalogue, volumes, client, fileset, before):
    words = ["console", "--db", catalogue, "--volumes", str(volumes), "--client", client, "--fileset", fileset, "--before", before]
    return [*words, "--drives", "2"]


def talk(given, folder, lines, delivers=None):
    """A session with the console over the catalogue of three jobs that Bacula wrote."""
    volumes = Path(folder, "volumes")
    unpack(Path(SETS, "order"), volumes)
    catalogue = filled_catalogue(folder)
    words = console_words(catalogue, volumes, "peer-fd", "Peer", "2026-11-22 00:00:00")
    return Case(given, folder, words, lines, str(volumes), catalogue, delivers)


def marks(given, folder):
    """Marks, unmarks, lists and refused lines, and a restore of what is left."""
    lines = b"cd tmp/peerlab/src\nls\nmark *\nunmark f1\nfrob\nmark nil\nlsmark\ncd ..\nfind f*\nestimate\ncount\npwd\ndone\n"
    return talk(given, folder, lines)


def marks_delivered(given, folder):
    return talk(given, folder, b"mark *\ndone\n", "--into")


def no_restore(given, folder):
    return talk(given, folder, b"mark *\nmarkdir\nquit\n")


def saved_job(number, path, places, volumes):
    """Returns a job as choosing.py takes it, and appends its blocks to volumes: the first to one, the others to another."""
    record = b"1 3 %s\0A A IGk B A A A O A A A A A A\0\0" % path
    session = number, 100 * number
    blocks = cut_into_blocks(random.Random(0), [(1, 1, record), (1, 2, MESSAGE)], session, 64)
    job = {"id": number, "session": session, "start": 100 * number, "type": "B", "level": "FI"[number - 1], "status": "T"}
    job |= {"client": b"c", "fileset": b"f", "files": [(path, 1, STAT)], "spans": []}
    for name, data in zip(places, (blocks[0], b"".join(blocks[1:]))):
        start = len(volumes.setdefault(name, b""))
        volumes[name] += data
        job["spans"].append((name, 1, 1, start, len(volumes[name]) - 1))
    return job


def whole_restore(given, folder):
    """Two jobs on two volumes, a catalogue of both, and a restore of all."""
    data, volumes = {}, Path(folder, "volumes")
    jobs = [saved_job(1, b"/a", (b"A", b"B"), data), saved_job(2, b"/b", (b"B", b"A"), data)]
    volumes.mkdir()
    for name, content in data.items():
        (volumes / name.decode()).write_bytes(content)
    catalogue, lines = filled_catalogue(folder, jobs), b"mark *\ndone\n"
    case = Case(given, folder, console_words(catalogue, volumes, "c", "f", "1970-01-01 00:04:10"), lines, str(volumes), catalogue)
    case.stated = consoled(jobs, data, (b"c", b"f", 250), lines)
    return case


EACH = (first_script, two_volumes, empty_bootstrap, two_jobs, refused_jobs, kept_jobs, restored, restored_by_drives, with_sparse_files)
EACH += (into_a_folder, into_a_stream, read_again, read_again_into_a_folder, read_again_into_a_stream, sparse_file, conflict, whole_restore, marks, marks_delivered, no_restore, migration)


def main():
    names = [case.__name__ for case in EACH]
    parser = argparse.ArgumentParser(description="Runs brestore with each of its requests for memory refused in turn.")
    parser.add_argument("--program", type=os.path.abspath, default=PROGRAM, help="the program (default: %(default)s)")
    parser.add_argument("--each", type=int, default=300, metavar="N", help="requests at the front and at the end of a long run (default: %(default)s)")
    parser.add_argument("--drawn", type=int, default=300, metavar="N", help="requests that are drawn between them (default: %(default)s)")
    parser.add_argument("--seed", type=int, default=1, help="of what is drawn (default: %(default)s)")
    parser.add_argument("names", nargs="*", metavar="NAME", help=f"the cases (default: all): {', '.join(names)}")
    given = parser.parse_args()
    wrong = 0
    with tempfile.TemporaryDirectory() as top:
        given.library = compiled(top, "failing_memory")
        for make in EACH:
            if given.names and make.__name__ not in given.names:
                continue
            folder = os.path.join(top, make.__name__)
            os.mkdir(folder)
            case = make(given, folder)
            count = case.try_all(random.Random(given.seed))
            verdict = f"{len(case.wrong)} differ" if case.wrong else "as expected"
            print(f"{make.__name__}: {count} requests, {case.runs} runs: {verdict}", *case.wrong[:5], sep="\n  ", flush=True)
            wrong += len(case.wrong)
    return 1 if wrong else 0


if __name__ == "__main__":
    sys.exit(main())
