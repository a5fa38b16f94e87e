#!/usr/bin/env python3
"""Runs `restore` by bootstraps and over catalogues, and compares status, what is printed, the manifest, and which files are there afterwards.

    acceptance/restoring.py                     needs the program in crates/brestore/out, and sqlite3
    acceptance/restoring.py --program FILE      another program

What is expected was worked out by hand from docs/formats.md, or is what `extract` and `console` give with the options that `restore` implies.
Each restore into a folder runs twice: the second run must give the same, and write no file again. The status is 1 if something is not as
expected.
"""

import argparse
import hashlib
import os
import random
import re
import shutil
import subprocess
import sys
import tempfile
from pathlib import Path

# Nothing is left beside the script.
sys.dont_write_bytecode = True
sys.path.insert(0, os.path.join(os.path.dirname(os.path.dirname(os.path.abspath(__file__))), "tools"))
import sampled
from cases import unpack
from commands import ACROSS, BOTH, BOTH_TAR, CONFLICT, COPIES, DIGEST, GROUPS, HELLO, INDEXES, NO_TEXT, OLD_LINE, ONLY_A, PLAIN, TWO
from commands import TWO_VOLUMES, WARNED, WORLD, Place, block_of, both, line_of, run, whole_block
from common import CASES, ORDER_SQL, PROGRAM, SETS, VERSION_1_SQL, Checks, escaped
from delivered import tree_of
from resuming import marks
from stored import memory
from terminal import play, words

ALL_PUT = b"2 of 2 files were put\n"
ONE_PUT = b"1 of 1 files were put\n"
LINE_A, LINE_B = line_of(b"1 100", 1, b"/a", 5, HELLO), line_of(b"1 100", 2, b"/d/b", 5, WORLD)
ONE = b"total 1 0 0\n"
ACROSS_LINES = line_of(b"1 100", 1, b"/a", 14, DIGEST) + line_of(b"2 200", 1, b"/b", 14, DIGEST) + TWO
CONFLICTS = b"  /a/b conflicts with a path that was written before: one is a file, and the other one is below it. Next: Restore it into another folder.\n"
NO_UTF_8 = b"  /b\\xff\\xfe is not UTF-8, and a folder takes no such name here. Next: Use `--tar`, which takes every name.\n"
NO_VOLUME = b"  VOLUMES/%s can't be read: No such file or directory (os error 2). Next: Copy it there, or correct the folder's name.\n"
NO_FOLDER = b"is refused by the system: No such file or directory (os error 2). Next: Make the folder, or correct its name.\n"
UNTAKEN = b"  standard output takes no more bytes: the program that reads it has ended, or its disk is full. "
UNTAKEN += b"Next: Let that program read to the end, or free space.\n"
MOVE = b"Next: Move it away, or choose another folder.\n"
ONE_LEFT = b"1 of 2 files were put\n"

# Restores by a bootstrap into an empty folder: the volumes, the bootstrap, and then status, standard error, files and manifest. INTO and
# VOLUMES stand for the folders.
BOOTSTRAPS = [
    ("two files", PLAIN, b"Volume=V\n", 0, ALL_PUT, BOTH, both() + TWO),
    ("files across two volumes", TWO_VOLUMES, ACROSS, 0, ALL_PUT, {"a": b"message digest", "b": b"message digest"}, ACROSS_LINES),
    (
        "an older copy that comes last",
        COPIES,
        b"Volume=V\nVolume=W\n",
        0,
        b"2 of 3 files were put, older copies left out: 1\n",
        BOTH,
        both() + OLD_LINE + b"total 3 0 0\n",
    ),
    ("a path that conflicts", CONFLICT, b"Volume=V\n", 1, b"left 81 /a/b\n" + CONFLICTS + ONE_LEFT, ONLY_A, both(b"/a/b") + TWO),
    (
        "a path that is no text",
        NO_TEXT,
        b"Volume=V\n",
        1,
        b"left 80 /b\\xff\\xfe\n" + NO_UTF_8 + ONE_LEFT,
        ONLY_A,
        both(b"/b\\xff\\xfe") + TWO,
    ),
    ("two files too few", PLAIN, INDEXES % b"1-4", 1, b"missing 1 100 3-4 V\n" + ALL_PUT, BOTH, both() + TWO),
    ("fewer files than are counted", PLAIN, b"Volume=V\nCount=3\n", 1, b"count * * 3 2 V\n" + ALL_PUT, BOTH, both() + TWO),
    ("as many as there are", PLAIN, b"Volume=V\nFileIndex=1-2\nFileIndex=2-2147483647\nCount=2\n", 0, ALL_PUT, BOTH, both() + TWO),
    ("2,000 groups", PLAIN, GROUPS, 0, ALL_PUT, BOTH, both() + TWO),
    ("a volume that is not there", PLAIN, b"Volume=V\nVolume=W\n", 1, b"refused 14 W 0\n" + NO_VOLUME % b"W", {}, b""),
    ("a line that is not supported", PLAIN, b"Volume=V\nJob=1\n", 1, b"refused 32 line 2\n", {}, b""),
    ("a session that is not there", PLAIN, b"Volume=V\nVolSessionId=9\n", 1, b"empty\n", {}, b"total 0 0 0\n"),
    ("an index that is not there", PLAIN, INDEXES % b"9", 1, b"missing 1 100 9 V\n", {}, b"total 0 0 0\n"),
]


def content(file):
    """Returns the bytes of a file, or nothing if it is not there."""
    return file.read_bytes() if file.exists() else None


def tar_of(file):
    """Returns length and digest of a stream, or nothing if it is not there."""
    data = content(file)
    return data and (len(data), hashlib.md5(data).hexdigest())


def first_line(text):
    return text.partition(b"\n")[0]


def told_in(place, told):
    """Returns a text with the folders of a place."""
    return told.replace(b"INTO", os.fsencode(place.into)).replace(b"VOLUMES", os.fsencode(place.volumes))


def by_bootstrap(place, text):
    return ["restore", "--bsr", place.bootstrap(text), "--volumes", place.volumes]


def by_catalogue(place, *patterns, client="mars", fileset="home", before=None):
    """Returns the words of a restore over the catalogue of a place, of all jobs if there is no moment."""
    names = ["--db", place.folder / "c.db", "--client", client, "--fileset", fileset]
    return ["restore", *names, *(["--before", before] if before else []), "--volumes", place.volumes, *patterns]


def check(checks, name, place, given, status, told, files, manifest):
    """Restores into the folder of a place, with a manifest in a file, and compares all that is there then. Restores once more: the same has
    to come, and no file may be written again."""
    file = place.folder / "manifest"
    given = [*given, "--into", place.into, "--manifest", file]
    expected = (status, b"", told_in(place, told)), files, manifest
    checks.check(name, (run(checks, given), place.files(), content(file)), expected)
    there = marks(place.into)
    checks.check(f"{name}, again", (run(checks, given), place.files(), content(file)), expected)
    checks.check(f"{name}, and what is written again", marks(place.into), there)


def bootstraps(checks, folder):
    for name, volumes, text, *expected in BOOTSTRAPS:
        place = Place(folder, volumes)
        check(checks, name, place, by_bootstrap(place, text), *expected)
    for more in (["--drives", "1"], ["--drives=16"], ["--memory", "0"], ["--sync"], ["--quiet"]):
        place = Place(folder, PLAIN)
        check(checks, f"two files, {more[0]}", place, [*by_bootstrap(place, b"Volume=V\n"), *more], 0, ALL_PUT, BOTH, both() + TWO)
    place = Place(folder, PLAIN)
    given = ["restore", "--bsr", "-", "--volumes", place.volumes, "--into", place.into]
    checks.check("a bootstrap on standard input", (run(checks, given, b"Volume=V\n"), place.files()), ((0, b"", ALL_PUT), BOTH))
    place = Place(folder, PLAIN)
    given = ["restore", "--bsr", place.folder / "x.bsr", "--volumes", place.volumes, "--into", place.into]
    told = b"brestore: %s: No such file or directory (os error 2)\n" % os.fsencode(place.folder / "x.bsr")
    checks.check("a bootstrap that is not there", (run(checks, given), place.files()), ((3, b"", told), {}))
    given = [*by_bootstrap(place, b"Volume=V\n"), "--into", place.folder / "none"]
    told = b"refused 81\n  %s " % os.fsencode(place.folder / "none") + NO_FOLDER
    checks.check("a folder that is not there", run(checks, given), (1, b"", told))
    given[-1] = place.folder / "x.bsr"
    status, printed, told = run(checks, given)
    checks.check("a file in its place", (status, printed, first_line(told)), (1, b"", b"refused 81"))


def empty(checks, folder):
    """A bootstrap that asks for nothing: what `extract` says of it in its log is said."""
    for text in (b"", b"# nothing\n"):
        place = Place(folder, PLAIN)
        log, given = place.folder / "log", ["--newest", "--complete", "--keep-going", "--resume", "--into", place.into]
        found = run(checks, ["extract", *by_bootstrap(place, text)[1:], *given, "--log", log])
        checks.check("an empty bootstrap, by `extract`", found, (1, b"total 0 0 0\n", b"empty\n"))
        told = content(log) or b""
        checks.check("which is told", told.startswith(b"empty\n"), True)
        check(checks, "an empty bootstrap", place, by_bootstrap(place, text), 1, told, {}, b"total 0 0 0\n")


def others(checks, folder):
    """Folders that hold something already."""
    place = Place(folder, PLAIN)
    (place.into / "d").mkdir()
    for name, data in (("a", b"hello"), ("d/b", b"worle"), ("d/mine", b"mine"), ("x", b"mine")):
        (place.into / name).write_bytes(data)
    there, left = marks(place.into), {**BOTH, "d/mine": b"mine", "x": b"mine"}
    told = b"other /d/mine\nother /x\n" + ALL_PUT
    check(checks, "a folder that is not empty", place, by_bootstrap(place, b"Volume=V\n"), 0, told, left, both() + TWO)
    kept = {path for path, it in marks(place.into).items() if there[path] == it}
    checks.check("and the files that stay", kept, {b"/a", b"/d/mine", b"/x"})
    place = Place(folder, PLAIN)
    (place.into / "a").mkdir()
    told = b"left 80 /a\n  INTO/a is a folder, and has to be a file. " + MOVE + ONE_LEFT
    check(checks, "a folder in the place of a file", place, by_bootstrap(place, b"Volume=V\n"), 1, told, {"d/b": b"world"}, both() + TWO)
    place = Place(folder, PLAIN)
    (place.into / "d").write_bytes(b"mine")
    told = b"left 80 /d/b\n  INTO/d is a file, and has to be a folder. " + MOVE + ONE_LEFT
    check(checks, "a file in the place of a folder", place, by_bootstrap(place, b"Volume=V\n"), 1, told, {**ONLY_A, "d": b"mine"}, both() + TWO)
    (place.into / "d").unlink()
    check(checks, "which is moved away", place, by_bootstrap(place, b"Volume=V\n"), 0, ALL_PUT, BOTH, both() + TWO)
    place = Place(folder, PLAIN)
    (place.into / "d").symlink_to(place.volumes)
    told = b"left 80 /d/b\n  INTO/d is a link, and has to be a folder. " + MOVE + ONE_LEFT
    check(checks, "a link in the place of a folder", place, by_bootstrap(place, b"Volume=V\n"), 1, told, ONLY_A, both() + TWO)
    checks.check("and what it leads to", place.files("volumes"), PLAIN)


def cut(checks, folder):
    """A volume that Bacula wrote is cut before the third of its sessions. Of a path that two others saved the newest copy comes back; a whole
    copy of the volume brings the third one."""
    case, place = Path(CASES) / "order-written", Place(folder, {})
    shutil.rmtree(place.volumes)
    unpack(Path(SETS) / "order", place.volumes)
    volume, text = place.volumes / "Vol-0001", (case / "x.bsr").read_bytes()
    whole, lines = volume.read_bytes(), (case / "expected").read_bytes().splitlines(keepends=True)
    volume.write_bytes(whole[:1656])
    kept = [line for line in lines if line.startswith(b"F ") and not line.startswith(b"F 1 1795302940 ")]
    told = b"missing 1 1795302940 1 Vol-0001\n5 of 6 files were put, older copies left out: 1\n"
    at = "tmp/peerlab/src/sub/"
    files = {at + "f1": b"full 1\n", at + "f3": b"full 3\n", at + "f2": b"differential\n"}
    check(checks, "a cut volume", place, by_bootstrap(place, text), 1, told, files, b"".join(kept) + b"total 6 0 0\n")
    volume.write_bytes(whole)
    files[at + "f2"] = b"incremental, the newest\n"
    told = b"5 of 7 files were put, older copies left out: 2\n"
    check(checks, "and a whole copy of it", place, by_bootstrap(place, text), 0, told, files, b"".join(lines))


def group(volume, indexes=None, session=b"1"):
    """Returns a group of a bootstrap that names one session."""
    lines = [b"Volume=" + volume, b"VolSessionId=" + session, b"VolSessionTime=100", *([b"FileIndex=" + indexes] if indexes else [])]
    return b"".join(line + b"\n" for line in lines)


def volume_of(*numbers):
    return b"".join(block_of(number, str(number), b"%d" % number) for number in numbers)


THREE, EIGHT = {"V": volume_of(1, 2), "W": volume_of(3)}, {"V": volume_of(*range(1, 9))}

# Restores with volumes that are not there: those that are, the bootstrap, the lines after those of the lost volumes, which the names stand
# for, and the files that come back.
LOST = [
    ("a volume with files of its own", THREE, "W", group(b"V", b"1-2") + group(b"W", b"3"), b"missing 1 100 3 W\n", [1, 2]),
    ("the first volume", THREE, "V", group(b"V", b"1-2") + group(b"W", b"3"), b"missing 1 100 1-2 V\n", [3]),
    ("a volume with a part of a file", THREE, "W", group(b"V", b"1-2") + group(b"W", b"2-3"), b"missing 1 100 2-3 W\n", [1]),
    (
        "one that is asked for three times",
        THREE,
        "W",
        group(b"W", b"2") + group(b"V") + group(b"W", b"3,2"),
        b"missing 1 100 2 W\nmissing 1 100 3 W\nmissing 1 100 2 W\n",
        [1],
    ),
    ("files of another session", THREE, "W", group(b"V", b"1-2") + group(b"W", b"1-3", b"2"), b"missing 2 100 1-3 W\n", [1, 2]),
    ("each file of a session", THREE, "W", group(b"V", b"1-2") + group(b"W"), b"", []),
    ("each index up to the greatest", THREE, "W", group(b"V", b"1-2") + group(b"W", b"2-2147483647"), b"", [1]),
    (
        "a range with files on both sides",
        EIGHT,
        "W",
        group(b"V", b"1-8") + group(b"W", b"3-4,6"),
        b"missing 1 100 3-4 W\nmissing 1 100 6 W\n",
        [1, 2, 5, 7, 8],
    ),
    (
        "two volumes",
        EIGHT,
        "WX",
        group(b"W", b"1") + group(b"V") + group(b"X", b"8"),
        b"missing 1 100 1 W\nmissing 1 100 8 X\n",
        [*range(2, 8)],
    ),
]


def lost(checks, folder):
    """Volumes that are not there: the files of which they may have a part do not come back, and all others do. The groups name sessions."""
    for name, volumes, gone, text, told, numbers in LOST:
        place = Place(folder, {it: data for it, data in volumes.items() if it not in gone})
        front = b"".join(b"lost %s\n" % it + NO_VOLUME % it for it in (it.encode() for it in gone))
        end = b"%d of %d files were put\n" % (len(numbers), len(numbers)) if numbers else b""
        check_lost(checks, name, place, text, front + told + end, numbers)
    place = Place(folder, {"V": volume_of(1)})
    (place.volumes / "W").mkdir()
    told = b"lost W\n  VOLUMES/W is a folder, and has to be a file. " + MOVE + b"missing 1 100 2 W\n" + ONE_PUT
    text = group(b"V", b"1-2") + group(b"W", b"2")
    check_lost(checks, "a folder in the place of a volume", place, text, told, [1])
    (place.volumes / "W").rmdir()
    log = place.folder / "log"
    told = told_in(place, b"lost W\n" + NO_VOLUME % b"W" + b"missing 1 100 2 W\n" + ONE_PUT)
    found = run(checks, [*by_bootstrap(place, text), "--into", place.into, "--log", log])
    logged = told.replace(b"missing 1 100 2 W\n", b"put /1\nmissing 1 100 2 W\n")
    checks.check("a volume that is lost, in a log", (found, content(log)), ((1, b"", told), logged))
    tar = place.folder / "x.tar"
    found = run(checks, [*by_bootstrap(place, text), "--tar", tar])
    names = subprocess.run(["tar", "-tf", tar], capture_output=True, timeout=60).stdout
    checks.check("and of a stream", (found, names), ((1, b"", told), b"1\n"))
    given = by_bootstrap(place, text)
    checks.check("`extract` refuses it", run(checks, ["extract", *given[1:]]), (1, b"", b"refused 14 W 0\n"))
    (place.volumes / "V").unlink()
    told = b"refused 14 V 0\n" + NO_VOLUME % b"V" + NO_VOLUME % b"W"
    check(checks, "all volumes", place, given, 1, told, {"1": b"1"}, b"")


def check_lost(checks, name, place, text, told, numbers):
    """Restores the files with these numbers, of a bootstrap of which a volume is lost."""
    lines = [line_of(b"1 100", it, b"/%d" % it, 5, b"1 " + hashlib.md5(b"%d" % it).hexdigest().encode()) for it in numbers]
    manifest = b"".join(lines) + b"total %d 0 0\n" % len(lines)
    check(checks, f"lost: {name}", place, by_bootstrap(place, text), 1, told, {str(it): b"%d" % it for it in numbers}, manifest)


CUT_OFF = b"  the block is cut off, at address %d\n"
NO_LETTERS = b"  not a block: bytes 12 to 15 of its header are neither BB01 nor BB02, at address %d\n"
NO_SIZE = b"  not a block: its header gives a size below that of the header or above 4194304 bytes, at address %d\n"
SECOND = len(volume_of(1))

# Volumes that are damaged: what is done to the bytes of a volume of two blocks, and what is said of it.
DAMAGES = [
    ("without its last byte", lambda data: data[:-1], CUT_OFF % SECOND),
    ("that ends in its first header", lambda data: data[:20], CUT_OFF % 0),
    ("with other letters", lambda data: data[:SECOND] + data[SECOND:].replace(b"BB02", b"BB03"), NO_LETTERS % SECOND),
    ("with a size of 0", lambda data: data[:4] + bytes(4) + data[8:], NO_SIZE % 0),
]


def torn(checks, folder):
    """Volumes of which a block is refused: the files of which they may have a part do not come back, and all others do."""
    for name, damage, reason in DAMAGES:
        place = Place(folder, {"V": volume_of(1, 2), "W": damage(volume_of(3, 4))})
        text = group(b"V", b"1-2") + group(b"W", b"3-4")
        told = b"lost W\n" + reason + b"missing 1 100 3-4 W\n" + ALL_PUT
        check_lost(checks, f"a volume {name}", place, text, told, [1, 2])
    cut = volume_of(4)[:-1]
    place = Place(folder, {"V": volume_of(1), "W": cut, "X": volume_of(2, 3), "Y": cut})
    text = group(b"V", b"1") + group(b"W", b"2,4") + group(b"X", b"2-3") + group(b"Y", b"4-5")
    told = b"lost W\n" + CUT_OFF % 0 + b"lost Y\n" + CUT_OFF % 0 + b"missing 1 100 2 W\nmissing 1 100 4 W\nmissing 1 100 4-5 Y\n" + ALL_PUT
    check_lost(checks, "two volumes that are cut off", place, text, told, [1, 3])
    place = Place(folder, {"V": volume_of(1, 2), "W": cut})
    told = b"lost X\n" + NO_VOLUME % b"X" + b"lost W\n" + CUT_OFF % 0 + b"missing 1 100 4 W\nmissing 1 100 2 X\n" + ONE_PUT
    text = group(b"V", b"1-2") + group(b"W", b"4") + group(b"X", b"2")
    check_lost(checks, "a volume that is cut off, and one that is not there", place, text, told, [1])
    tar = place.folder / "x.tar"
    found = run(checks, [*by_bootstrap(place, text), "--tar", tar])
    names = subprocess.run(["tar", "-tf", tar], capture_output=True, timeout=60).stdout
    checks.check("and into a stream", (found, names), ((1, b"", told_in(place, told)), b"1\n"))
    given = by_bootstrap(place, group(b"V", b"1") + group(b"W", b"4"))
    checks.check("`extract` refuses it", run(checks, ["extract", *given[1:]]), (1, b"", b"refused 12 W 0\n"))
    place = Place(folder, {"W": cut})
    check(checks, "no volume without damage", place, by_bootstrap(place, group(b"W", b"4")), 1, b"refused 12 W 0\n", {}, b"")


def drawn_lost(checks, folder):
    """Drawn bootstraps of which volumes are lost, with what a plain set gives."""
    draw = random.Random(61)
    files = {(session, number) for session in (1, 2) for number in range(1, 31)}
    volume = b"".join(block_of(number, f"{session}.{number}", b"%d" % number, session) for session, number in sorted(files))
    for count in range(150):
        groups = []
        for _ in range(draw.randint(2, 9)):
            ranges = [sorted(draw.choices(range(1, 36), k=2)) for _ in range(draw.randint(0, 4))]
            groups.append((draw.choice("VVW"), draw.randint(1, 2), ranges))
        groups += [("V", 1, [[1, 30]]), ("W", 1, [[7, 7]])]
        draw.shuffle(groups)
        asked = {name: {it for it in files if any(has(one, it) for one in groups if one[0] == name)} for name in "VW"}
        text = b"".join(group(it.encode(), b",".join(b"%d-%d" % (*pair,) for pair in ranges), b"%d" % number) for it, number, ranges in groups)
        place = Place(folder, {"V": volume})
        manifest = place.folder / "manifest"
        status, printed, told = run(checks, [*by_bootstrap(place, text), "--into", place.into, "--manifest", manifest])
        left = sorted(asked["V"] - asked["W"])
        lines = [line.split(b" ") for line in (content(manifest) or b"").splitlines() if line.startswith(b"F ")]
        found = status, printed, told.splitlines()[0], sorted((int(line[1]), int(line[3])) for line in lines)
        checks.check(f"drawn groups {count}", found, (1, b"", b"lost W", left))
        checks.check(f"drawn groups {count}, files", set(place.files()), {f"{session}.{number}" for session, number in left})


def has(asked, file):
    """Returns whether a drawn group asks for a file."""
    _, session, ranges = asked
    return session == file[0] and (not ranges or any(low <= file[1] <= high for low, high in ranges))


def logs(checks, folder):
    """Restores with a log, which has the lines of standard error, too."""
    place = Place(folder, CONFLICT)
    log, left = place.folder / "log", b"left 81 /a/b\n" + CONFLICTS + ONE_LEFT
    given = [*by_bootstrap(place, b"Volume=V\n"), "--into", place.into, "--log", log]
    for count in (1, 2):
        found = run(checks, given), place.files(), content(log)
        checks.check(f"a log, run {count}", found, ((1, b"", left), ONLY_A, (b"put /a\n" + left) * count))
    given[-1] = "-"
    checks.check("a log on standard error", run(checks, given), (1, b"", b"put /a\nleft 81 /a/b\n" + left))
    place = Place(folder, PLAIN)
    place.catalogue()
    log = place.folder / "log"
    given = [*by_catalogue(place, "/x", "/a"), "--into", place.into, "--log", log]
    told = b"unmatched /x\n"
    found = run(checks, given), place.files(), content(log)
    checks.check("a pattern in a log", found, ((1, b"", told + ONE_PUT), ONLY_A, told + b"put /a\n" + ONE_PUT))
    log.unlink(missing_ok=True)
    given[given.index("/a")] = "/y"
    told, more = b"unmatched /x\nunmatched /y\nrefused 51\n", "".join(f"{it}\n" for it in words(51)).encode()
    checks.check("two that meet no path", (run(checks, given), content(log)), ((1, b"", told), told + more))
    for front in (by_bootstrap(place, b"Volume=V\n"), by_catalogue(place)):
        given = [*front, "--into", place.folder / "none", "--log", place.folder / "none/log", "--manifest", place.folder / "m"]
        told = b"brestore: %s: No such file or directory (os error 2)\n" % os.fsencode(place.folder / "none/log")
        found = run(checks, given), (place.folder / "m").exists()
        checks.check(f"a log that can't be opened, {front[1]}", found, ((3, b"", told), False))


def manifests(checks, folder):
    """Files of manifests: one that is replaced, none, and those that can't be opened or written."""
    for front in ("--bsr", "--db"):
        place = Place(folder, PLAIN)
        place.catalogue()
        given = [*(by_bootstrap(place, b"Volume=V\n") if front == "--bsr" else by_catalogue(place)), "--into", place.into, "--manifest"]
        manifest = place.folder / "manifest"
        manifest.write_bytes(b"F" * 5000)
        found = run(checks, [*given, manifest]), content(manifest), place.files()
        checks.check(f"a manifest that is replaced, {front}", found, ((0, b"", ALL_PUT), both() + TWO, BOTH))
        checks.check(f"none, {front}", run(checks, given[:-1]), (0, b"", ALL_PUT))
        checks.check(f"one in a pipe, {front}", run(checks, [*given, "/dev/stdout"]), (0, both() + TWO, ALL_PUT))
        (place.volumes / "V").unlink()
        told = told_in(place, b"refused 14 V 0\n" + NO_VOLUME % b"V")
        checks.check(f"one of a refused restore, {front}", (run(checks, [*given, manifest]), content(manifest)), ((1, b"", told), b""))
        place = Place(folder, PLAIN)
        place.catalogue()
        given = [*(by_bootstrap(place, b"Volume=V\n") if front == "--bsr" else by_catalogue(place)), "--into", place.into, "--manifest"]
        told = b"brestore: %s: No such file or directory (os error 2)\n" % os.fsencode(place.folder / "none/m")
        found = run(checks, [*given, place.folder / "none/m"]), place.files()
        checks.check(f"one in a folder that is not there, {front}", found, ((3, b"", told), {}))
        told = b"brestore: /dev/full: No space left on device (os error 28)\n"
        checks.check(f"one on a full disk, {front}", (run(checks, [*given, "/dev/full"]), place.files()), ((3, b"", told), {}))
        given[given.index("--into") + 1] = place.folder / "none"
        found = run(checks, [*given, manifest.parent / "none/m"])[0], run(checks, [*given, place.folder / "m"])[0]
        checks.check(f"it is opened before the folder is tested, {front}", (*found, content(place.folder / "m")), (3, 1, b""))


def streams(checks, folder):
    """Restores into tar streams. That of standard output is alone there."""
    for front in ("--bsr", "--db"):
        place = Place(folder, PLAIN)
        place.catalogue()
        given = [*(by_bootstrap(place, b"Volume=V\n") if front == "--bsr" else by_catalogue(place)), "--tar"]
        tar, manifest = place.folder / "x.tar", place.folder / "manifest"
        found = run(checks, [*given, tar, "--manifest", manifest])
        checks.check(f"a stream, {front}", (found, tar_of(tar), content(manifest)), ((0, b"", ALL_PUT), BOTH_TAR, both() + TWO))
        told = b"refused 81\n  %s is a file already. Next: Name a file that is not there.\n" % os.fsencode(tar)
        checks.check(f"a file that is there, {front}", (run(checks, [*given, tar]), tar_of(tar)), ((1, b"", told), BOTH_TAR))
        status, stream, told = run(checks, [*given, "-"])
        found = status, (len(stream), hashlib.md5(stream).hexdigest()), told
        checks.check(f"one on standard output, {front}", found, (0, BOTH_TAR, ALL_PUT))
        reader, pipe = os.pipe()
        os.close(reader)
        for name, output in (("that is full", os.open("/dev/full", os.O_WRONLY)), ("that nobody reads", pipe)):
            with open(output, "wb") as stream:
                status, _, told = run(checks, [*given, "-"], output=stream)
            checks.check(f"one {name}, {front}", (status, told), (1, b"refused 80\n" + UNTAKEN + b"0 of 2 files were put\n"))
    place = Place(folder, COPIES)
    tar = place.folder / "x.tar"
    found = run(checks, [*by_bootstrap(place, b"Volume=V\nVolume=W\n"), "--tar", tar])
    told = b"2 of 3 files were put, older copies left out: 1\n"
    checks.check("a stream of the newest copies", (found, tar_of(tar)), ((0, b"", told), BOTH_TAR))
    place = Place(folder, NO_TEXT)
    found = run(checks, [*by_bootstrap(place, b"Volume=V\n"), "--tar", place.folder / "x.tar"])
    checks.check("a stream takes each name", found, (0, b"", ALL_PUT))
    place = Place(folder, CONFLICT)
    tar = place.folder / "x.tar"
    found = run(checks, [*by_bootstrap(place, b"Volume=V\n"), "--tar", tar])
    told = b"left 81 /a/b\n" + CONFLICTS + ONE_LEFT
    checks.check("a stream without a path that conflicts", (found, len(content(tar) or b"")), ((1, b"", told), 10240))


def closed(checks, folder):
    """Restores with standard streams that are closed. No file that is opened may get what is printed: the restore ends with status 3 at the
    first line that can't be printed, and files, manifest, log and catalogue have what is theirs."""
    for front in ("--bsr", "--db"):
        for streams in ("2>&-", "<&- >&- 2>&-"):
            place = Place(folder, PLAIN)
            db = place.catalogue()
            given = by_bootstrap(place, b"Volume=V\n") if front == "--bsr" else by_catalogue(place)
            manifest, log, before = place.folder / "manifest", place.folder / "log", content(db)
            words = [*given, "--into", place.into, "--manifest", manifest, "--log", log]
            ran = subprocess.run(["sh", "-c", f'exec "$@" {streams}', "sh", checks.program, *words], timeout=60)
            found = ran.returncode, place.files(), content(manifest), content(log), content(db) == before
            expected = 3, BOTH, both() + TWO, b"put /a\nput /d/b\n", True
            checks.check(f"a restore with closed streams, {front}, {streams}", found, expected)


# Patterns over the catalogue of one job with the files `/a` and `/d/b`: the status, the lines that come before the number of files, and the
# files.
PATTERNS = [
    ([], 0, b"", BOTH),
    (["/"], 0, b"", BOTH),
    (["/*"], 0, b"", BOTH),
    (["/?"], 0, b"", BOTH),
    (["/a"], 0, b"", ONLY_A),
    (["/a/"], 0, b"", ONLY_A),
    (["/a*"], 0, b"", ONLY_A),
    (["/d"], 0, b"", {"d/b": b"world"}),
    (["/d/"], 0, b"", {"d/b": b"world"}),
    (["/d/b"], 0, b"", {"d/b": b"world"}),
    (["/d/*"], 0, b"", {"d/b": b"world"}),
    (["/d/?"], 0, b"", {"d/b": b"world"}),
    (["/d/*b*"], 0, b"", {"d/b": b"world"}),
    (["/a", "/d/b"], 0, b"", BOTH),
    (["/d/b", "/a"], 0, b"", BOTH),
    (["/", "/a", "/a"], 0, b"", BOTH),
    (["/x", "/a"], 1, b"unmatched /x\n", ONLY_A),
    (["/a", "/d/b?", "/x\\y z"], 1, b"unmatched /d/b?\nunmatched /x\\x5cy\\x20z\n", ONLY_A),
    (["a", "/a"], 1, b"unmatched a\n", ONLY_A),
    (["/*/b", "/a"], 1, b"unmatched /*/b\n", ONLY_A),
    (["/a/b", "/a"], 1, b"unmatched /a/b\n", ONLY_A),
    (["//a", "//", "/d/..", "/./a", "/a"], 1, b"unmatched //a\nunmatched //\nunmatched /d/..\nunmatched /./a\n", ONLY_A),
    (["/A", "/a"], 1, b"unmatched /A\n", ONLY_A),
    (["/x"], 1, b"unmatched /x\n", {}),
    (["/x", "/b", "*"], 1, b"unmatched /x\nunmatched /b\nunmatched *\n", {}),
    (["a"], 1, b"unmatched a\n", {}),
]


def patterns(checks, folder):
    """Restores paths of a catalogue with one job, of all jobs and of those before the second after it began."""
    for names, status, told, files in PATTERNS:
        for before in (None, "2106-02-07 06:28:18"):
            place = Place(folder, PLAIN)
            place.catalogue()
            lines = [LINE_A] * ("a" in files) + [LINE_B] * ("d/b" in files)
            manifest = b"".join(lines) + b"total %d 0 0\n" % len(lines) if files else b""
            end = b"%d of %d files were put\n" % (len(files), len(files)) if files else b"refused 51\n"
            name = f"the paths {names}" + (" before a moment" if before else "")
            check(checks, name, place, by_catalogue(place, *names, before=before), status, told + end, files, manifest)
    place = Place(folder, {"V": whole_block(b"/\xc3\xa4x")})
    place.catalogue(b"/\xc3\xa4x")
    line = line_of(b"1 100", 2, b"/\\xc3\\xa4x", 5, WORLD)
    check(checks, "a name in UTF-8", place, by_catalogue(place, "/äx"), 0, ONE_PUT, {"äx": b"world"}, line + ONE)
    told = b"unmatched /\\xc3\\xb6\n"
    check(checks, "and one that is not there", place, by_catalogue(place, "/ö", "/ä?"), 1, told + ONE_PUT, {"äx": b"world"}, line + ONE)
    place = Place(folder, PLAIN)
    place.catalogue()
    given = by_catalogue(place)
    found = run(checks, [given[0], "/a", *given[1:], "/d/b", "--into", place.into])
    checks.check("paths before and after the options", (found, place.files()), ((0, b"", ALL_PUT), BOTH))


def refusals(checks, folder):
    """Restores over a catalogue that are refused before a volume is read, and those that lack something."""
    place = Place(folder, PLAIN)
    place.catalogue()
    for name, change, told in [
        ("another client", {"client": "venus"}, b"refused 53\n"),
        ("another file set", {"fileset": "work"}, b"refused 54\n"),
        ("a moment before the job", {"before": "2106-02-07 06:28:17"}, b"refused 50\n"),
        ("no moment", {"before": "2106-02-07"}, b"refused 52\n"),
        ("no name", {"client": "a/b"}, b"refused 2\n"),
        ("no file set's name", {"fileset": "a/b", "before": "2106-02-07"}, b"refused 2\n"),
    ]:
        check(checks, name, place, by_catalogue(place, "/x", **change), 1, told, {}, b"")
    given = [*by_catalogue(place, before="2106-02-07"), "--into", place.folder / "none"]
    checks.check("the moment is tested before the folder", run(checks, given), (1, b"", b"refused 52\n"))
    (place.folder / "c.db").rename(place.folder / "d.db")
    given = [*by_catalogue(place), "--into", place.folder / "none"]
    told = b"refused 81\n  %s " % os.fsencode(place.folder / "none") + NO_FOLDER
    checks.check("and that before the catalogue", run(checks, given), (1, b"", told))
    check(checks, "a catalogue that is not there", place, by_catalogue(place, "/x"), 1, b"refused 45\n", {}, b"")
    checks.check("which is not made", (place.folder / "c.db").exists(), False)
    with open(VERSION_1_SQL) as text:
        subprocess.run(["sqlite3", place.folder / "c.db"], stdin=text, check=True)
    check(checks, "a catalogue of version 1", place, by_catalogue(place), 1, b"refused 48\n", {}, b"")
    place = Place(folder, {})
    place.catalogue()
    check(checks, "a volume of the catalogue", place, by_catalogue(place, "/a"), 1, b"refused 14 V 0\n" + NO_VOLUME % b"V", {}, b"")
    place = Place(folder, {"V": block_of(1, "a", b"hello")})
    place.catalogue()
    told = "\n".join(["outcome 63 of 1 file: 1 100 2", *words(63), "  1 100 2 on V has no path that can be read", ""]).encode()
    lost = LINE_A + b"X 1 100 2 63\ntotal 1 1 0\n"
    check(checks, "a file that the volume lacks", place, by_catalogue(place), 1, told + b"1 of 1 files were put, not restored: 1\n", ONLY_A, lost)
    place = Place(folder, CONFLICT)
    place.catalogue(b"/a/b")
    told = b"left 81 /a/b\n" + CONFLICTS + ONE_LEFT
    check(checks, "a path of a catalogue that conflicts", place, by_catalogue(place), 1, told, ONLY_A, both(b"/a/b") + TWO)
    place = Place(folder, PLAIN)
    db = place.catalogue()
    subprocess.run(["sqlite3", db, "DELETE FROM File"], check=True)
    check(checks, "a purged job", place, by_catalogue(place), 1, WARNED + b"unmatched /\nrefused 51\n", {}, b"")


# Command lines with a fault: further words, of which V stands for `--volumes` and I for `--into` with its folder, B for `--bsr` with its file,
# and D for `--db`, `--client` and `--fileset` with their values.
FAULTS = [
    "B V",
    "D V",
    "D V /a",
    "V I",
    "V I /a",
    "--db c.db V I",
    "--db c.db --client mars V I",
    "--client mars --fileset home V I",
    "B I",
    "D I",
    "B V I --db c.db",
    "B V I --client mars",
    "B V I --fileset home",
    "B V I --before 2106-02-07",
    "B V I /a",
    "B V I D",
    "B V I --tar x.tar",
    "B V I --drives 0",
    "B V I --drives 17",
    "B V I --memory 1x",
    "B V I --manifest m --manifest n",
    "B V I --newest",
    "B V I --complete",
    "B V I --keep-going",
    "B V I --resume",
    "D V I --verify-catalogue",
]


def faults(checks, folder):
    """Command lines with a fault: it is told, and nothing is made."""
    place = Place(folder, PLAIN)
    place.catalogue()
    short = {"V": ["--volumes", place.volumes], "I": ["--into", place.into], "B": ["--bsr", place.bootstrap(b"Volume=V\n")]}
    short["D"] = ["--db", place.folder / "c.db", "--client", "mars", "--fileset", "home"]
    more = ["--log", place.folder / "log", "--manifest", place.folder / "m"]
    for line in FAULTS:
        given = [it for word in line.split(" ") for it in short.get(word, [word])]
        status, printed, told = run(checks, ["restore", *given, *(more if "--manifest" not in given else [])])
        found = status, printed, told.startswith(b"error: "), place.files()
        checks.check(f"a fault: {line}", found, (2, b"", True, {}))
    status, printed, told = run(checks, [*by_catalogue(place, ""), "--into", place.into, *more])
    checks.check("a fault: an empty pattern", (status, printed, told.startswith(b"error: "), place.files()), (2, b"", True, {}))
    checks.check("nothing is made", sorted(it.name for it in place.folder.iterdir()), ["c.db", "into", "volumes", "x.bsr"])
    status, printed, told = run(checks, ["--help"])
    commands = re.search(rb"^Commands:\n +(\S+)", printed, re.MULTILINE)
    checks.check("the help begins with it", (status, commands and commands[1], told), (0, b"restore", b""))


def terminals(checks, folder):
    """At a terminal a refusal has its meaning, too."""
    place = Place(folder, PLAIN)
    given = [*by_bootstrap(place, b"Volume=V\n"), "--into", place.into, "--quiet"]
    checks.check("a restore at a terminal", play(checks.program, given, [], folder), (0, ["2 of 2 files were put"], ""))
    (place.volumes / "V").unlink()
    told = ["refused 14 V 0", *words(14), told_in(place, NO_VOLUME % b"V").decode().rstrip("\n")]
    checks.check("a refusal at a terminal", play(checks.program, given, [], folder), (1, told, ""))
    place = Place(folder, PLAIN)
    place.catalogue()
    given = [*by_catalogue(place, "/x"), "--into", place.into, "--quiet"]
    told = ["chosen: * 1 F T 2106-02-07 06:28:17 mars home 2 10 V", "unmatched /x", "refused 51", *words(51)]
    checks.check("a pattern at a terminal", play(checks.program, given, [], folder), (1, told, ""))


FILE_LINES = (b"put ", b"skipped ", b"failed ", b"X ")


def told_by(log):
    """Returns what a log has for standard error: all but the lines of files, and the two lines of words after a refusal."""
    told, after = [], 0
    for line in log.splitlines(keepends=True):
        if after == 0 and not line.startswith(FILE_LINES):
            told.append(line)
        after = 2 if line.startswith(b"refused ") else max(0, after - 1)
    return b"".join(told)


def beside(checks, name, folder, front, reference, lines=b""):
    """Restores into a folder and into a stream, by `restore` and by a command with the options that it implies, and compares status, files,
    streams, manifests, and what is told. The manifest of the other command ends its standard output. Returns its status and manifest."""
    log = folder / "log"
    for target, more in (("into", ["--resume"]), ("x.tar", [])):
        for at in ("one", "other"):
            shutil.rmtree(folder / at, ignore_errors=True)
            (folder / at).mkdir()
            (folder / at / "into").mkdir()
        log.unlink(missing_ok=True)
        option = ["--into" if target == "into" else "--tar", target]
        what = {"input": lines, "capture_output": True, "timeout": 60}
        wanted = subprocess.run([checks.program, *reference, *option, *more, "--log", log], cwd=folder / "other", **what)
        found = subprocess.run([checks.program, *front, *option, "--manifest", "m"], cwd=folder / "one", **what)
        manifest = content(folder / "one" / "m")
        at_end = wanted.stdout[-len(manifest) :] if manifest else b""
        expected = wanted.returncode, b"", told_by(content(log) or b""), at_end
        checks.check(f"{name}, {option[0]}", (found.returncode, found.stdout, found.stderr, manifest), expected)
        if target == "into":
            one, other = (tree_of(folder / at / target) for at in ("one", "other"))
        else:
            one, other = (content(folder / at / target) for at in ("one", "other"))
        checks.check(f"{name}, {option[0]}, what comes back", one == other, True)
    return wanted.returncode, wanted.stdout


def cases(checks, folder):
    """All cases that Bacula wrote, beside `extract`."""
    for case in sorted(Path(CASES).iterdir()):
        place = Path(tempfile.mkdtemp(dir=folder))
        unpack(Path(SETS) / (case / "set").read_text().strip(), place / "volumes")
        given = ["--bsr", case / "x.bsr", "--volumes", place / "volumes"]
        reference = ["extract", *given, "--newest", "--complete", "--keep-going", "--drives", "4"]
        found = beside(checks, case.name, place, ["restore", *given], reference)
        checks.check(f"{case.name}, its manifest", found, (int((case / "status").read_text()), (case / "expected").read_bytes()))


# Patterns over the three jobs of catalogues/order.sql, and the lines of a session that mark the same.
ORDER = [
    ([], ["mark *"]),
    (["/"], ["mark *"]),
    (["/tmp"], ["mark tmp"]),
    (["/tmp/peerlab/src/sub"], ["cd /tmp/peerlab/src", "mark sub"]),
    (["/tmp/peerlab/src/sub/"], ["cd /tmp/peerlab/src", "mark sub"]),
    (["/tmp/peerlab/src/sub/f2"], ["cd /tmp/peerlab/src/sub", "mark f2"]),
    (["/tmp/peerlab/src/sub/f?"], ["cd /tmp/peerlab/src/sub", "mark f?"]),
    (["/tmp/peerlab/src/sub/*2"], ["cd /tmp/peerlab/src/sub", "mark *2"]),
    (["/tmp/peerlab/src/sub/f1", "/tmp/peerlab/src/sub/f3"], ["cd /tmp/peerlab/src/sub", "mark f1", "mark f3"]),
]
# The moments before the Differential, before the Incremental, and after it.
MOMENTS = ("2026-11-21 23:15:38", "2026-11-21 23:15:45", "2026-11-21 23:15:46")


def by_jobs(command, jobs):
    """Returns the words of a command over a catalogue and the volumes of its jobs."""
    return [command, "--db", jobs["db"], "--client", jobs["client"], "--fileset", jobs["fileset"], "--volumes", jobs["volumes"]]


def session_beside(checks, name, folder, jobs, names, lines, before=None):
    """Restores paths beside a session that marks the same. A restore without a moment is one of all jobs."""
    front = [*by_jobs("restore", jobs), *(["--before", before] if before else []), *names]
    moment = before or "9999-12-31 23:59:59"
    reference = [*by_jobs("console", jobs), "--before", moment, "--complete", "--keep-going", "--drives", "4"]
    text = "".join(f"{line}\n" for line in [*lines, "done"]).encode()
    return beside(checks, name, folder, front, reference, text)


def order(checks, folder):
    """Paths of the catalogue of a volume that Bacula wrote, beside sessions, at three moments and at the last one."""
    place = Path(tempfile.mkdtemp(dir=folder))
    with open(ORDER_SQL) as text:
        subprocess.run(["sqlite3", place / "jobs.db"], stdin=text, check=True)
    jobs = {"db": place / "jobs.db", "client": "peer-fd", "fileset": "Peer", "volumes": os.path.join(SETS, "order")}
    manifest = (Path(CASES) / "order-inc" / "expected").read_bytes()
    for names, lines in ORDER:
        for before in (*MOMENTS[:2], None):
            session_beside(checks, f"{' '.join(names) or 'no path'} before {before}", place, jobs, names, lines, before)
    for before in (MOMENTS[2], None):
        status, printed = session_beside(checks, f"all before {before}", place, jobs, ["/"], ["mark *"], before)
        checks.check("and its manifest", (status, printed.endswith(b"\n" + manifest)), (0, True))
    subprocess.run(["sqlite3", jobs["db"], "DELETE FROM File WHERE JobId = 3"], check=True)
    given = [*by_jobs("restore", jobs), "--into", place / "purged", "/tmp/peerlab/src/sub/f2"]
    (place / "purged").mkdir()
    found = run(checks, given), (place / "purged/tmp/peerlab/src/sub/f2").read_bytes()
    expected = (1, b"", WARNED.replace(b"purged 1", b"purged 3") + ONE_PUT), b"differential\n"
    checks.check("an older copy in place of that of a purged job", found, expected)


# Patterns over the catalogue of the director's sample, with the lines that mark the same: a folder, names with wildcards, a hard link, whose
# first name comes with it, and a symbolic link.
AT = "/tmp/director/mars"
SAMPLE = [
    (["/"], ["mark *"]),
    ([f"{AT}/many"], [f"cd {AT}", "mark many"]),
    ([f"{AT}/many/0?", f"{AT}/l*"], [f"cd {AT}/many", "mark 0?", f"cd {AT}", "mark l*"]),
    ([f"{AT}/hard/second"], [f"cd {AT}/hard", "mark second"]),
    ([f"{AT}/link", f"{AT}/before 1970"], [f"cd {AT}", "mark link", "mark before 1970"]),
]


def director(checks, folder):
    """Paths of a catalogue that Bacula's Director kept, beside sessions."""
    place = Path(tempfile.mkdtemp(dir=folder))
    file, volumes = sampled.unpack(place)
    words_of_import = [sampled.SCRIPT, place / "jobs.db", "--program", checks.program, "--sqlite", file]
    ran = subprocess.run(words_of_import, capture_output=True, env={**os.environ, "TZ": "Europe/Berlin"})
    checks.check("the import", ran.returncode, 0)
    for client, fileset, names in (("mars-fd", "Home", SAMPLE), ("venus-fd", "Root", SAMPLE[:1])):
        jobs = {"db": place / "jobs.db", "client": client, "fileset": fileset, "volumes": volumes}
        for paths, lines in names:
            session_beside(checks, f"{client}, {' '.join(paths)}", place, jobs, paths, lines)
        without_each(checks, client, place, jobs)


def groups_of(text):
    """Returns the groups of a canonical bootstrap: of each its keywords with their values."""
    groups = []
    for line in text.splitlines():
        word, _, value = line.partition(b"=")
        if word == b"Volume":
            groups.append({})
        groups[-1].setdefault(word, []).append(value.strip(b'"'))
    return groups


def asked_by(groups):
    """Returns session and indexes of the files that groups ask for, as lines of a manifest have them."""
    asked = set()
    for it in groups:
        for pair in it[b"FileIndex"]:
            low, _, high = pair.partition(b"-")
            session = b"%s %s" % (it[b"VolSessionId"][0], it[b"VolSessionTime"][0])
            asked |= {b"%s %d" % (session, number) for number in range(int(low), int(high or low) + 1)}
    return asked


def without_each(checks, client, place, jobs):
    """Restores all files of the director's sample by a bootstrap, whole and without each of its volumes."""
    moment = ["--before", "9999-12-31 23:59:59"]
    printed = run(checks, [*by_jobs("console", jobs), *moment], b"mark *\ndone\n")[1]
    text = b"".join(re.findall(rb"^[A-Z][A-Za-z]+=.*\n", printed, re.MULTILINE))
    bsr, manifest = place / f"{client}.bsr", place / "manifest"
    bsr.write_bytes(text)
    groups = groups_of(text)

    by_bsr = ["--bsr", bsr]
    by_names = ["--db", jobs["db"], "--client", jobs["client"], "--fileset", jobs["fileset"]]

    def restored(name, given):
        into = place / f"{client} {name}"
        into.mkdir()
        given = ["restore", *given, "--volumes", jobs["volumes"], "--into", into, "--manifest", manifest]
        status, _, told = run(checks, given)
        lines = [line for line in manifest.read_bytes().splitlines() if line.startswith((b"F ", b"X "))]
        return status, told.splitlines(), lines, {os.fsencode("/" + str(it.relative_to(into))) for it in into.rglob("*") if it.is_file()}

    _, _, whole, files = restored("whole", by_bsr)
    checks.check(f"{client}: whole by a catalogue", restored("whole by names", by_names)[2:], (whole, files))
    checks.check(f"{client}: by a bootstrap of several volumes", len({it[b"Volume"][0] for it in groups}) > 1, True)
    for volume in sorted({it[b"Volume"][0] for it in groups}):
        file = Path(jobs["volumes"]) / os.fsdecode(volume)
        file.rename(place / "away")
        gone = asked_by([it for it in groups if it[b"Volume"][0] == volume])
        left = [line for line in whole if b" ".join(line.split(b" ")[1:4]) not in gone]
        paths = {line.split(b" ")[5] for line in left}
        found = restored(volume.decode(), by_bsr)
        checks.check(f"{client}: without {volume.decode()}", (found[0], found[1][0], found[2]), (1, b"lost " + volume, left))
        missing = [line.split(b" ") for line in found[1] if line.startswith(b"missing ")]
        named = asked_by([{b"VolSessionId": it[1:2], b"VolSessionTime": it[2:3], b"FileIndex": it[3:4]} for it in missing])
        checks.check(f"{client}: without {volume.decode()}, what is missing", named, gone)
        there = {it for it in files if escaped(it).encode() in paths}
        checks.check(f"{client}: without {volume.decode()}, the files", found[3], there)
        keys = [b" ".join(line.split(b" ")[1:4]) for line in whole]
        lines = [b"X %s 63" % key if key in gone else line for key, line in zip(keys, whole)]
        found = restored(f"{volume.decode()} by names", by_names)
        expected = 1, b"lost " + volume, lines, there
        checks.check(f"{client}: without {volume.decode()}, by a catalogue", (found[0], found[1][0], *found[2:]), expected)
        (place / "away").rename(file)
        data = file.read_bytes()
        file.write_bytes(bytes(24) + data[24:])
        for way, given in (("a bootstrap", by_bsr), ("a catalogue", by_names)):
            found = restored(f"{volume.decode()} spoilt, by {way}", given)
            expected = 1, b"lost " + volume, left if given is by_bsr else lines, there
            checks.check(f"{client}: {volume.decode()} spoilt, by {way}", (found[0], found[1][0], *found[2:]), expected)
        file.write_bytes(data)


PARTS = (bootstraps, empty, others, cut, lost, torn, drawn_lost, logs, manifests, streams, closed, patterns, refusals, faults, terminals, cases, order, director)


def main():
    parser = argparse.ArgumentParser(description="Runs `restore` by bootstraps and over catalogues.")
    parser.add_argument("--program", type=os.path.abspath, default=PROGRAM, help="the program (default: %(default)s)")
    checks = Checks(parser.parse_args().program)
    with tempfile.TemporaryDirectory(dir=memory()) as folder:
        for part in PARTS:
            part(checks, folder)
    return 1 if checks.failed else 0


if __name__ == "__main__":
    sys.exit(main())
