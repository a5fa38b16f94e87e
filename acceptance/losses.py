#!/usr/bin/env python3
"""Cuts the power of `brestore` while it commits or restores, and compares what is found afterwards.

    acceptance/losses.py [--program FILE] [--moments N] [--seed N] [PART ..]     all parts, or these: commits, each_call, deliveries

`losing_writes.c`, which is compiled by `cc` and preloaded, records each call that changes a file or syncs it, and ends the process before
one of them. Then any of what was written and not synced is dropped, as a machine without power may do:

- of a volume, or another file that was only appended to, all bytes after a drawn one; sometimes its length stays, with zeros for these;
- of any other file drawn ones of the writes and cuts, of a write also its last bytes alone;
- names that were made, removed or changed in a folder since it was synced.

In one loss of six all of it is dropped, in one nothing, and else what the dice say.

`commits` cuts a script that commits drawn jobs to a catalogue and to a folder of volumes, at drawn calls. Afterwards the catalogue has the
first of the jobs, each whose `stored` line was printed among them. Each of them is restored whole, by the second reading of scripts. A run
goes on from there. All this is what `serving.py` compares after a kill.

`each_call` drops all that was not synced at each call of two commits in turn: after each from the first append of a commit to its `stored`
line. So a row that comes before the sync of a volume, and a name that is not synced, is met each time.

`deliveries` has restores run to their end, and then drops all that was not synced: `extract` and `console` with `--sync --into` leave each
file and folder of the manifest, and without `--sync` nothing is synced there; `extract --tar FILE` leaves each entry and the end of the
stream, `--log FILE` each line, and `--manifest FILE` of `console` and `restore` the manifest, if the names of these files are there. Then
`extract --sync --into` is cut at drawn calls: each file of a line `put` in the log is whole, and `--resume` makes the folder whole. It is
also killed at these calls, and after it made the first folder and the last one, and goes on by `--resume` without a loss: then a loss of
all that was not synced in both runs leaves the whole folder.

`--seed` draws other jobs and moments, and `--moments` says how many. The status is 1 if something differs.
"""

import argparse
import hashlib
import io
import os
import random
import shutil
import subprocess
import sys
import tarfile
import tempfile
from pathlib import Path

# Nothing is left beside the script.
sys.dont_write_bytecode = True
sys.path.insert(0, os.path.join(os.path.dirname(os.path.dirname(os.path.abspath(__file__))), "tools"))
from bacula import block_of, volume_label
from choosing import consoled
from common import PROGRAM, escaped, unescaped
from delivered import delivery, tree_of
from leaving import file_of
from odd import line as line_of
from odd import record, records
from preloaded import compiled
from scripting import Script, put_line
from serving import ALL, CLIENT, FILE_SET, JOBS, Place, after_kill, carried_out, draw_job, moment
from stored import memory

CUT = 137
WAYS = ("all", "none", "some", "some", "some", "some")


class File:
    """A file: the bytes that were there at its last sync, and the changes since then."""

    def __init__(self):
        self.synced, self.changes = b"", []

    def sync(self):
        self.synced, self.changes = after(self.synced, self.changes), []

    def left(self, dice, way):
        """Returns what the loss of power leaves of it."""
        if way == "all":
            return self.synced
        if way == "none":
            return after(self.synced, self.changes)
        if all(word == "append" for word, _, _ in self.changes):
            whole = after(self.synced, self.changes)
            front = whole[: dice.randint(len(self.synced), len(whole))]
            return front + bytes(len(whole) - len(front)) if dice.random() < 0.25 else front
        kept = [(word, place, piece[: dice.choice((len(piece), len(piece), dice.randint(0, len(piece))))]) for word, place, piece in self.changes]
        return after(self.synced, [change for change in kept if dice.random() < 0.5])


class Folder:
    """A folder that was made. Its names are those of the disk."""

    def left(self, dice, way):
        return None


def after(data, changes):
    """Returns bytes after changes. A write past their end leaves zeros before it."""
    data = bytearray(data)
    for word, place, piece in changes:
        data.extend(bytes(max(0, place - len(data))))
        if word == "length":
            del data[place:]
        else:
            data[place : place + len(piece)] = piece
    return bytes(data)


class Disk:
    """What was recorded: the files and folders by the names that they have, and by those that they had when their folders were synced."""

    def __init__(self, calls):
        self.names, self.synced, self.folders = {}, {}, set()
        for call in calls:
            self.take(*call)

    def take(self, word, place, piece, path):
        """Takes a call."""
        if word == "make":
            self.names[path] = File()
        elif word == "folder":
            self.names[path] = Folder()
            self.folders.add(path)
        elif word == "remove":
            self.names.pop(path, None)
        elif word == "rename":
            self.names[os.fsdecode(piece)] = self.names.pop(path)
        elif word == "sync" and isinstance(self.names.get(path), File):
            self.names[path].sync()
        elif word == "sync":
            self.sync_folder(path)
        elif word in ("append", "write", "length"):
            self.names[path].changes.append((word, place, piece))

    def sync_folder(self, folder):
        for path in [*self.names, *self.synced]:
            if os.path.dirname(path) == folder:
                self.set(self.synced, path, self.names.get(path))

    def left(self, dice, way=None):
        """Returns what the loss of power leaves, by their names: the bytes of each file, and None for a folder. Nothing is left in a folder
        whose own name is lost."""
        way, left = way or dice.choice(WAYS), {}
        for path in sorted({*self.names, *self.synced}):
            is_kept = way == "none" or way == "some" and dice.random() < 0.5
            is_there = os.path.dirname(path) not in self.folders or os.path.dirname(path) in left
            self.set(left, path, (self.names if is_kept else self.synced).get(path) if is_there else None)
        return {path: node.left(dice, way) for path, node in left.items()}

    @staticmethod
    def set(names, path, node):
        names.pop(path, None) if node is None else names.update({path: node})


def recorded(given, words, folder, call=0, text=b""):
    """Runs the program on this input, records its calls below the folder, and cuts the power before this call, or never for 0. Returns exit
    status, standard output and standard error, and the calls: word, place, bytes and path of each."""
    log = folder + ".record"
    Path(log).write_bytes(b"")
    lost = {"LD_PRELOAD": given.library, "LOSING_CALL": str(call), "LOSING_FOLDER": folder, "LOSING_LOG": log}
    ran = subprocess.run([given.program, *words], input=text, capture_output=True, env=os.environ | lost, timeout=60)
    return (ran.returncode, ran.stdout, ran.stderr), calls_of(log)


def calls_of(log):
    """Returns the calls of a record. A rename has its new path in place of bytes."""
    calls = []
    with open(log, "rb") as lines:
        while line := lines.readline():
            word, place, size, path = line[:-1].split(b" ", 3)
            piece = lines.read(int(size))
            if word == b"to":
                calls[-1] = ("rename", 0, path, calls[-1][3])
            else:
                calls.append((word.decode(), int(place), piece, os.fsdecode(path)))
    return calls


def put_back(folder, left):
    """Makes these files and folders the only ones in a folder."""
    shutil.rmtree(folder)
    os.makedirs(folder)
    for path, data in sorted(left.items()):
        if path.startswith(folder + "/"):
            os.mkdir(path) if data is None else Path(path).write_bytes(data)


def lines_of(printed):
    return printed.split(b"\n")[:-1]


# ---- commits


def served(given, place, text, call=0):
    """Runs a script over a catalogue and its volumes, and cuts the power before this call. Returns the exit status, the lines that were
    printed, and the calls."""
    words = ["serve", "--db", place.catalogue, "--volumes", place.volumes]
    (status, printed, told), calls = recorded(given, words, os.path.dirname(place.catalogue), call, text)
    return status, lines_of(printed + told), calls


def lose(place, left):
    """Leaves these files of a catalogue and its volumes, whose folder was there before."""
    folder = os.path.dirname(place.catalogue)
    shutil.rmtree(folder)
    os.makedirs(place.volumes)
    for path, data in left.items():
        Path(path).write_bytes(data)


def without_loss(given, folder, whole):
    """Runs a script without a loss. Returns the place and the calls; and prints what differs, if something does."""
    expected, place = carried_out(whole), Place(os.path.join(folder, "whole"))
    status, lines, calls = served(given, place, text_of(whole.lines))
    if (status, lines) == (expected[0], lines_of(expected[1])) and not (wrong := place.wrong(whole)):
        return place, calls
    print(f"without a loss: {status} {lines[-1:]}; {place.wrong(whole)}")
    return None


def text_of(lines):
    return b"".join(line + b"\n" for line in lines)


def commits(given, folder):
    """Cuts the power at drawn moments. Returns whether all left what they must."""
    dice = random.Random(given.seed)
    text = text_of(line for number in range(1, JOBS + 1) for line in draw_job(dice, number))
    whole = Script(text)
    if (found := without_loss(given, folder, whole)) is None:
        return False
    calls, counts, failed = len(found[1]), [], 0
    for number in range(given.moments):
        place, call = Place(os.path.join(folder, str(number))), dice.randint(1, calls + 1)
        status, lines, done = served(given, place, text, call)
        lose(place, Disk(done).left(dice))
        count, _, wrong = after_kill(given, place, whole, lines, are_fronts=False)
        if status != (CUT if call <= calls else 0):
            wrong.append(f"status {status}")
        for it in wrong:
            print(f"loss {number} of seed {given.seed} before call {call}: {it}")
        counts.append(count)
        failed += bool(wrong)
        shutil.rmtree(os.path.dirname(place.catalogue))
    between = sum(0 < it < JOBS for it in counts)
    print(f"{given.moments} losses at {calls} calls: {between} between two jobs or in one, {counts.count(0)} before the first,", end=" ")
    print(f"{counts.count(JOBS)} after the last: {'as expected' if not failed else f'{failed} differ'}")
    return not failed


def job_lines(number, first, last):
    """Returns the lines of a small Full on two volumes, the second of which gets two blocks."""
    head = b"job %d B F T %d %d %d 64 %s %s" % (number, 100 * number, number, 100 * number, CLIENT, FILE_SET)
    return [head, put_line(b"/%d" % number, b"message digest"), b"place %s 1" % first, b"place %s 0" % last, b"end"]


def moments_of(calls, volumes):
    """Returns the numbers of the calls from the first append of each commit to its `stored` line."""
    moments, is_committing = [], False
    for number, (word, _, _, path) in enumerate(calls, 1):
        is_committing |= word == "append" and os.path.dirname(path) == volumes
        if is_committing:
            moments.append(number)
        is_committing &= word != "print"
    return moments


def losses_at(given, place, whole, calls):
    """Drops after each call of the commits of a script all that was not synced before. Returns the numbers of these calls, and what is wrong."""
    moments, wrong = moments_of(calls, place.volumes), []
    for number in moments:
        done = calls[:number]
        lose(place, Disk(done).left(None, "all"))
        lines = lines_of(b"".join(piece for word, _, piece, _ in done if word == "print"))
        faults = after_kill(given, place, whole, lines, are_fronts=False)[2]
        last = f"{calls[number - 1][0]} {os.path.basename(calls[number - 1][3])}"
        wrong += [f"a loss after call {number}, {last}: {it}" for it in faults]
    return moments, wrong


def each_call(given, folder):
    """Drops what was not synced at each call of two commits: to new volumes, and to volumes that are there. Returns whether all left what
    they must."""
    whole = Script(text_of([*job_lines(1, b"A", b"B"), *job_lines(2, b"B", b"A")]))
    if (found := without_loss(given, folder, whole)) is None:
        return False
    moments, wrong = losses_at(given, found[0], whole, found[1])
    # Each of the six blocks is an append, and each line of the two is printed.
    if len(moments) < 8:
        wrong.append(f"the calls are {found[1]}")
    print("\n".join([*wrong, f"{len(moments)} losses at each call of two commits: {'as expected' if not wrong else f'{len(wrong)} differ'}"]))
    return not wrong


# ---- deliveries

# Small files come in order in a window, and long ones are written side by side. Lines `put` are written after 64 files.
FILES = [file_of(b"/in/%d/%d" % (number % 7, number), b"%d" % number * (number if number % 40 else 100_000)) for number in range(200)]
FILES += [file_of(b"/in/far/away/none", b""), (5, b"/in/empty/", 0o40755, b"", 0, 0, 0, 1795302711, b"")]
PATHS = {escaped(file[1]): file[1].strip(b"/") for file in FILES}
# The restores into a folder, with further options: with room for all data, and for none, so that each file is read again.
INTO = {"extract": (), "extract, data read again": ("--memory", "1")}


def write_files(folder):
    """Writes the files to a volume, with its bootstrap. Returns the manifest of them."""
    folder.mkdir()
    (folder / "volumes").mkdir()
    (folder / "into").mkdir()
    blocks = [block_of(records(index, file), index, 1, 100) for index, file in enumerate(FILES, 1)]
    (folder / "volumes" / "V").write_bytes(block_of(record(-2, 0, volume_label("V")), 0, 0, 0) + b"".join(blocks))
    (folder / "x.bsr").write_bytes(b"Volume=V\nMediaType=File\n")
    return b"".join(line_of(index, file) for index, file in enumerate(FILES, 1)) + b"total %d 0 0\n" % len(FILES)


def extract_words(folder, *more):
    return ["extract", "--bsr", folder / "x.bsr", "--volumes", folder / "volumes", *more]


def content(data):
    """Returns what a tree has of a file, or of a folder."""
    return None if data is None else (b"%d" % len(data), hashlib.md5(data).hexdigest().encode())


def tree_left(calls, into):
    """Returns the tree of a folder of which all is lost that was not synced."""
    left = Disk(calls).left(None, "all")
    return {os.fsencode(os.path.relpath(path, into)): content(data) for path, data in left.items() if path.startswith(f"{into}/")}


def synced_alone(calls, file):
    """Returns the bytes of a file of which all is lost that was not synced. Its name is there, or this is nothing."""
    node = Disk(calls).names.get(str(file))
    return node.left(None, "all") if node else None


def syncs_below(calls, into):
    """Returns the paths of a folder and below it that were synced."""
    return [path for word, _, _, path in calls if word == "sync" and (path == str(into) or path.startswith(f"{into}/"))]


class Rows:
    """Compares, and prints what differs. At the end it prints the number of rows."""

    def __init__(self):
        self.count, self.failed = 0, 0

    def check(self, name, found, expected):
        self.count += 1
        if found == expected:
            return
        self.failed += 1
        if isinstance(found, dict) and isinstance(expected, dict):
            names = [it for it in sorted({*found, *expected}) if found.get(it, ()) != expected.get(it, ())]
            found, expected = ({it: side.get(it, "nothing") for it in names[:3]} for side in (found, expected))
            name += f": {len(names)} names differ"
        print(f"{name}: {shown(found)}, and not {shown(expected)}", flush=True)


def shown(value):
    text = repr(value)
    return text if len(text) < 400 else f"{text[:200]} .. {text[-200:]}"


def check_into(rows, given, name, words, into, text, expected, tree):
    """Restores into a folder: with `--sync` each file and folder is left, and without it nothing is synced."""
    for more in (["--sync"], []):
        found, calls = recorded(given, [*words, *more, "--into", into], str(into.parent), text=text)
        title = " ".join([name, *more])
        rows.check(title, found, expected)
        rows.check(f"{title}, what is there", tree_of(into), tree)
        if more:
            rows.check(f"{title}, what is left", tree_left(calls, into), tree)
        else:
            rows.check(f"{title}, what is synced", syncs_below(calls, into), [])
        shutil.rmtree(into)
        into.mkdir()


def put_all(count):
    """Returns the line of `restore` after it put this number of files."""
    return b"%d of %d files were put\n" % (count, count)


def check_console(rows, given, folder):
    """Restores by a session from a catalogue that the program made of a script."""
    lines = job_lines(1, b"A", b"B")
    lines[1:1] = [b"put 5 /d/ - - A A EHt A A A A A A A A A A", put_line(b"/e/f/g", b"long" * 400)]
    whole, place = Script(text_of(lines)), Place(str(folder))
    rows.check("a script", place.serve(given.program, text_of(lines)), carried_out(whole))
    words = ["console", "--db", place.catalogue, "--volumes", place.volumes, "--client", CLIENT.decode()]
    words += ["--fileset", FILE_SET.decode(), "--before", moment(1000)]
    expected = consoled(whole.jobs, whole.volumes, (CLIENT, FILE_SET, 1000), ALL)
    (folder / "into").mkdir()
    check_into(rows, given, "console", words, folder / "into", ALL, expected, delivery(expected[1])[0])
    status, printed, told = expected
    end, manifest = printed.index(b"\nF ") + 1, folder / "x.manifest"
    found, calls = recorded(given, [*words, "--manifest", manifest], str(folder), text=ALL)
    rows.check("console --manifest", found, (status, printed[:end], told))
    rows.check("console --manifest, what is left", synced_alone(calls, manifest), printed[end:])
    count, manifest = printed[end:].count(b"\nF ") + 1, folder / "y.manifest"
    more = ["--into", folder / "into", "--manifest", manifest]
    found, calls = recorded(given, ["restore", *words[1:], *more], str(folder))
    rows.check("restore --db --manifest", found, (status, b"", told + put_all(count)))
    rows.check("restore --db --manifest, what is left", synced_alone(calls, manifest), printed[end:])


def entries_of(stream):
    """Returns the tree of the entries of a tar stream, and whether the stream has its end."""
    try:
        with tarfile.open(fileobj=io.BytesIO(stream)) as tar:
            tree = {os.fsencode(it.name): content(tar.extractfile(it).read() if it.isfile() else None) for it in tar}
    except tarfile.TarError as error:
        return {b"": error}, False
    return tree, len(stream) % 10240 == 0 and stream.endswith(bytes(1024))


def check_files(rows, given, folder, manifest):
    """Restores into a tar stream, with a log and with a manifest, of which the bytes that were synced are compared."""
    entries = {file[1].strip(b"/"): content(file[8] if file[0] == 3 else None) for file in FILES}
    stream, log, into, file = folder / "x.tar", folder / "x.log", folder / "into", folder / "x.manifest"
    found, calls = recorded(given, extract_words(folder, "--tar", stream), str(folder))
    rows.check("extract --tar", found, (0, manifest, b""))
    tree, is_ended = entries_of(synced_alone(calls, stream) or b"")
    rows.check("extract --tar, the entries that are left", tree, entries)
    rows.check("extract --tar, their end", is_ended, True)
    found, calls = recorded(given, extract_words(folder, "--into", into, "--log", log), str(folder))
    rows.check("extract --log", found, (0, manifest, b""))
    told = [*(b"put %s" % path.encode() for path in PATHS), b"%d of %d files were put" % (len(FILES), len(FILES))]
    rows.check("extract --log, the lines that are left", (synced_alone(calls, log) or b"").splitlines(), told)
    rows.check("extract --log, what is synced below the folder", syncs_below(calls, into), [])
    more = ["--into", into, "--manifest", file]
    found, calls = recorded(given, ["restore", *extract_words(folder)[1:], *more], str(folder))
    rows.check("restore --bsr --manifest", found, (0, b"", put_all(len(FILES))))
    rows.check("restore --bsr --manifest, what is left", synced_alone(calls, file), manifest)


def put_paths(log):
    """Returns the names of the lines `put` of a log. A line that is not ended is none."""
    return [unescaped(line.removeprefix(b"put ")).strip(b"/") for line in lines_of(log) if line.startswith(b"put ")]


def check_cut(rows, given, folder, name, call, dice):
    """Cuts the power of a restore into a folder, and goes on with it. The files that the log named before the loss are whole: a log that the
    loss leaves names no other ones. Returns the number of files that are named."""
    manifest, into, log = write_files(folder), folder / "into", folder / "x.log"
    words = extract_words(folder, "--sync", "--into", into)
    found, calls = recorded(given, [*words, "--log", log], str(folder), call)
    rows.check(f"{name}, its status", found[0] in (CUT, 0), True)
    disk, tree = Disk(calls), delivery(manifest)[0]
    named = put_paths(disk.names[str(log)].left(dice, "none")) if str(log) in disk.names else []
    put_back(str(into), disk.left(dice))
    there = tree_of(into)
    rows.check(f"{name}, what the log names", {path: there[path] for path in named if path in there}, {path: tree[path] for path in named})
    ran = subprocess.run([given.program, *words, "--resume"], stdin=subprocess.DEVNULL, capture_output=True, timeout=60)
    rows.check(f"{name}, and --resume", (ran.returncode, ran.stdout, ran.stderr), (0, manifest, b""))
    rows.check(f"{name}, and what is there", tree_of(into), tree)
    shutil.rmtree(folder)
    return len(named)


def check_killed(rows, given, folder, name, call):
    """Kills a restore into a folder, goes on with it, and then loses what was not synced: not what the first run left unsynced, either."""
    manifest, into = write_files(folder), folder / "into"
    words = extract_words(folder, "--sync", "--into", into)
    _, calls = recorded(given, words, str(folder), call)
    found, more = recorded(given, [*words, "--resume"], str(folder))
    rows.check(f"{name}, killed, and --resume", found, (0, manifest, b""))
    rows.check(f"{name}, killed, and --resume, what is left", tree_left(calls + more, into), delivery(manifest)[0])
    shutil.rmtree(folder)


def check_folders(rows, given, folder):
    """Kills a restore after it made the first folder, and the last one, before their names are synced."""
    write_files(folder / "plain")
    words = extract_words(folder / "plain", "--sync", "--into", folder / "plain" / "into")
    calls = recorded(given, words, str(folder / "plain"))[1]
    made = [number for number, call in enumerate(calls, 1) if call[0] == "folder"]
    for number in (made[0], made[-1]):
        check_killed(rows, given, folder / f"made-{number}", f"before call {number + 1}, which syncs a folder's name", number + 1)


def check_cuts(rows, given, folder):
    """Cuts the power of a restore at drawn calls, and kills one there. Threads write side by side, so the same number may be that of
    another call. Returns the numbers of files that the log named."""
    write_files(folder / "whole")
    dice, log = random.Random(given.seed), folder / "whole" / "x.log"
    words = extract_words(folder / "whole", "--sync", "--into", folder / "whole" / "into", "--log", log)
    calls, named = len(recorded(given, words, str(folder / "whole"))[1]), []
    for number in range(given.moments):
        call = dice.randint(1, calls + 1)
        name = f"cut {number} of seed {given.seed} before call {call}"
        named.append(check_cut(rows, given, folder / str(number), name, call, dice))
        check_killed(rows, given, folder / str(number), name, call)
    return named


def deliveries(given, folder):
    """Loses what was not synced after restores, and within them. Returns whether all left what they must."""
    rows, folder = Rows(), Path(folder)
    manifest = write_files(folder / "extract")
    for name, more in INTO.items():
        words = extract_words(folder / "extract", *more)
        check_into(rows, given, name, words, folder / "extract" / "into", b"", (0, manifest, b""), delivery(manifest)[0])
    check_console(rows, given, folder / "console")
    check_files(rows, given, folder / "extract", manifest)
    check_folders(rows, given, folder)
    print(f"deliveries: {rows.count} rows: {'as expected' if not rows.failed else f'{rows.failed} differ'}", flush=True)
    cuts = Rows()
    named = check_cuts(cuts, given, folder)
    print(f"{given.moments} losses in a delivery: {sum(it > 0 for it in named)} after a line of the log:", end=" ")
    print("as expected" if not cuts.failed else f"{cuts.failed} of {cuts.count} rows differ")
    return not rows.failed + cuts.failed


PARTS = {it.__name__: it for it in (commits, each_call, deliveries)}


def main():
    parser = argparse.ArgumentParser(description=__doc__.splitlines()[0])
    parser.add_argument("--program", type=os.path.abspath, default=PROGRAM)
    parser.add_argument("--moments", type=int, default=200)
    parser.add_argument("--seed", type=int, default=1)
    parser.add_argument("parts", nargs="*", metavar="PART", help=f"the parts (default: all): {', '.join(PARTS)}")
    given, failed = parser.parse_args(), 0
    if not PARTS.keys() >= set(given.parts):
        parser.error("there is no such part")
    with tempfile.TemporaryDirectory() as made:
        given.library = compiled(made, "losing_writes")
        for name in given.parts or PARTS:
            with tempfile.TemporaryDirectory(dir=memory()) as folder:
                failed += not PARTS[name](given, os.path.realpath(folder))
    return 1 if failed else 0


if __name__ == "__main__":
    sys.exit(main())
