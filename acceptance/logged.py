#!/usr/bin/env python3
"""Restores with `--log`, stops the program in the middle, and compares the log with what is in the folder.

    acceptance/logged.py                       needs the program in crates/brestore/out, `cc` and sqlite3
    acceptance/logged.py --program FILE        another program

The log of a whole restore is compared line by line with docs/formats.md, and the words beside a
refusal with the table of docs/REFUSALS.md. `stopping_calls.c`, which is compiled and preloaded,
ends the process before each of its calls that change a file: then each file that the log names is
complete in the folder, and of the others there are no more than the log may lack. Standard output
and standard error are those of the same restore without a log, also if the log is a pipe. The
status is 1 if something differs.
"""

import argparse
import os
import subprocess
import sys
import tempfile
from pathlib import Path

# Nothing is left beside the script.
sys.dont_write_bytecode = True
sys.path.insert(0, os.path.join(os.path.dirname(os.path.dirname(os.path.abspath(__file__))), "tools"))
from bacula import block_of, volume_label
from common import CASES, ORDER_SQL, PROGRAM, SETS, escaped
from explain import rows
from leaving import LONG, Deliveries, file_of, held, into_disk, write_volume
from odd import line, record, records
from preloaded import compiled

# The number of files that may be put and have no line yet.
LATE = 64
MANY = [(b"/in/%d/%d" % (number % 7, number), b"%d" % number * number) for number in range(150)]
SOME = [(b"/in/a", b"one"), (b"/in/b c", b"two"), (b"/in/z", b"three")]


def words_of(number):
    """The lines of words beside a refusal."""
    _, name, meaning, following = next(row for row in rows() if row[0] == number)
    return [f"  {name}: {meaning}", f"  Next: {following}"]


def puts(files):
    """The lines of files that were put."""
    return [f"put {escaped(path)}" for path, _ in files]


def count(put, files):
    return [f"{put} of {files} files were put"]


def lines_of(log):
    return log.read_text().splitlines()


class Logged(Deliveries):
    def check_run(self, name, folder, words, plain, told):
        """Runs `extract` with a log. `plain` is the status, standard output and standard error, `told` what the log got."""
        log = folder / "restore.log"
        before = lines_of(log) if log.exists() else []
        self.check(name, self.extract(folder, *words, "--log", log), plain)
        found = lines_of(log)
        self.check(name + ", and its log", (found[: len(before)], found[len(before) :]), (before, told))


def checks_whole(checks):
    """The log of a restore, one that is refused since the folder is not empty, and one that is resumed."""
    with tempfile.TemporaryDirectory() as made:
        folder = Path(made)
        manifest, into = write_volume(folder, SOME), folder / "into"
        into.mkdir()
        checks.check_run("a restore", folder, ["--into", into], (0, manifest, b""), [*puts(SOME), *count(3, 3)])
        full = f"  {into} is a folder that is not empty. Next: Choose an empty folder; "
        full += "`--resume` goes on with a restore that was cut off."
        told = ["refused 81", *words_of(81), full]
        checks.check_run("a second one", folder, ["--into", into], (1, b"", b"refused 81\n"), told)
        (into / "in" / "z").write_bytes(b"other")
        told = [*puts(SOME), *count(3, 3)]
        checks.check_run("one that is resumed", folder, ["--into", into, "--resume"], (0, manifest, b""), told)
        checks.check("and its files", held(into), dict(SOME))
        tar = folder / "x.tar"
        checks.check_run("a tar stream", folder, ["--tar", tar], (0, manifest, b""), told)
        taken = [f"  {tar} is a file already. Next: Name a file that is not there."]
        told = ["refused 81", *words_of(81), *taken]
        checks.check_run("a file that is there", folder, ["--tar", tar], (1, b"", b"refused 81\n"), told)
        checks.check_run("no target", folder, [], (0, manifest, b""), [])


# A file, a hard link to it, a symbolic link, a pipe, a device, a folder and an empty file.
KINDS = [
    file_of(b"/in/a", b"one"),
    (1, b"/in/b hard", 0o100644, b"/in/a", 0, 0, 0, 1795302711, b""),
    (4, b"/in/c", 0o120777, b"a", 0, 0, 0, 1795302711, b""),
    (6, b"/in/d", 0o10644, b"", 0, 0, 0, 1795302711, b""),
    (6, b"/in/e", 0o20666, b"", 0, 0, 0x103, 1795302711, b""),
    (5, b"/in/f/", 0o40755, b"", 0, 0, 0, 1795302711, b""),
    (2, b"/in/g", 0o100600, b"", 0, 0, 0, 1795302711, b""),
]


def checks_kinds(checks):
    """Links and special files, which a folder skips and a tar stream has, also if data are read again."""
    with tempfile.TemporaryDirectory() as made:
        folder = Path(made)
        write_volume(folder, [])
        blocks = b"".join(block_of(records(index, file), index, 1, 100) for index, file in enumerate(KINDS, 1))
        label = block_of(record(-2, 0, volume_label("V")), 0, 0, 0)
        (folder / "volumes" / "V").write_bytes(label + blocks)
        manifest = b"".join(line(index, file) for index, file in enumerate(KINDS, 1)) + b"total 7 0 0\n"
        words = ["put", *["skipped"] * 4, "put", "put"]
        told = [f"{word} {escaped(file[1])}" for word, file in zip(words, KINDS)]
        told.append("3 of 7 files were put, links and special files skipped: 4")
        for number, options in enumerate((["--quiet"], ["--memory", "0"], ["--keep-going", "--sync"])):
            into = folder / f"into{number}"
            into.mkdir()
            checks.check_run(f"files of each type {options}", folder, ["--into", into, *options], (0, manifest, b""), told)
            checks.check("and the folder", sorted(it.name for it in (into / "in").iterdir()), ["a", "f", "g"])
            checks.check_run("and once more", folder, ["--into", into, "--resume", *options], (0, manifest, b""), told)
        told = [f"put {escaped(file[1])}" for file in KINDS] + count(7, 7)
        checks.check_run("and as a tar stream", folder, ["--tar", folder / "x.tar"], (0, manifest, b""), told)
        (folder / "into0" / "in" / "f").rmdir()
        (folder / "into0" / "in" / "f").write_bytes(b"a file")
        told = ["put /in/a", *(f"skipped {escaped(file[1])}" for file in KINDS[1:5]), "failed /in/f/", "refused 80", *words_of(80)]
        told.append(f"  {folder}/into0/in/f is a file, and has to be a folder. Next: Move it away, or choose another folder.")
        told.append("1 of 7 files were put, links and special files skipped: 4")
        checks.check_run("and a stop", folder, ["--into", folder / "into0", "--resume"], (1, manifest, b"refused 80\n"), told)


def checks_reasons(checks):
    """What the log says of files that can't be put."""
    files = [(b"/in/a", b"one"), (b"/in/b/c", b"two"), (b"/in/d", b"three"), (b"/in/e\xff", b"four"), (b"/in/" + b"n" * 300, b"five")]

    def way(into):
        (into / "in").mkdir()
        (into / "in" / "b").write_bytes(b"a file")
        (into / "in" / "d").mkdir()

    moved = "Next: Move it away, or choose another folder."
    with tempfile.TemporaryDirectory() as made:
        folder = Path(made)
        manifest, into = write_volume(folder, files), folder / "into"
        into.mkdir()
        way(into)
        reasons = [
            f"  {into}/in/b is a file, and has to be a folder. {moved}",
            f"  {into}/in/d is a folder, and has to be a file. {moved}",
            "  /in/e\\xff is not UTF-8, and a folder takes no such name here. Next: Use `--tar`, which takes every name.",
            f"  {into}/in/{'n' * 300} is refused by the system: File name too long (os error 36). "
            "Next: The disk takes no name that long: use `--tar` for this file.",
        ]
        left = [f"left 80 {escaped(path)}" for path, _ in files[1:]]
        told = [*puts(files[:1]), *(f"failed {escaped(path)}" for path, _ in files[1:]), *left, *reasons, *count(1, 5)]
        plain = (1, manifest, "".join(f"{line}\n" for line in left).encode())
        checks.check_run("files in the way", folder, ["--into", into, "--resume", "--keep-going"], plain, told)
        told = [*puts(files[:1]), "failed /in/b/c", "refused 80", *words_of(80), reasons[0], *count(1, 5)]
        plain = (1, manifest, b"refused 80\n")
        checks.check_run("and without --keep-going", folder, ["--into", into, "--resume"], plain, told)
    files = [(b"/in/a", b"one"), (b"/in/a/b", b"two"), (b"/in/c", b"three")]
    conflict = "  /in/a/b conflicts with a path that was written before: one is a file, and the other one is below it. Next: "
    with tempfile.TemporaryDirectory() as made:
        folder = Path(made)
        manifest, into = write_volume(folder, files), folder / "into"
        into.mkdir()
        told = [*puts(files[:1]), "refused 81", *words_of(81), conflict + "`--keep-going` leaves it out.", *count(1, 3)]
        checks.check_run("a path that conflicts", folder, ["--into", into], (1, manifest, b"refused 81\n"), told)
        told = [*puts([files[0], files[2]]), "left 81 /in/a/b", conflict + "Restore it into another folder.", *count(2, 3)]
        plain = (1, manifest, b"left 81 /in/a/b\n")
        checks.check_run("and is left out", folder, ["--into", into, "--resume", "--keep-going"], plain, told)


def checks_disks(checks):
    """What the log says of a disk that is full, one that can't be written, and a folder that this user may not write."""
    unwritten = "can be made but not written: the disk is full, or it fails. Next: Free space (`df` shows it), or choose a folder on another disk."
    read_only = "is refused by the system: Read-only file system (os error 30). Next: Mount the disk for writing, or choose a folder on another disk."
    for name, options, files, put, way, reason in (
        ("a full disk", "size=24k", [SOME[0], (b"/in/long", LONG), SOME[2]], 1, "in/long", unwritten),
        ("a disk that can't be written", "size=24k,ro", SOME, 0, "in", read_only),
    ):
        with tempfile.TemporaryDirectory() as made:
            folder = Path(made)
            manifest, log = write_volume(folder, files), folder / "restore.log"
            found = into_disk(checks, folder, options, "--log", log)
            if found is None:
                print(f"{name}: not tried, since no disk can be mounted here")
                continue
            checks.check(name, found[0], (1, manifest, b"refused 80\n"))
            failed = f"failed {escaped(files[put][0])}"
            told = [*puts(files[:put]), failed, "refused 80", *words_of(80), f"  {folder}/into/{way} {reason}", *count(put, len(files))]
            checks.check(name + ", and its log", lines_of(log), told)


def checks_denied(checks):
    """A folder that the user may not write. Only root can become another user."""
    if os.geteuid() != 0:
        print("a folder of somebody else: not tried, since this is not root")
        return
    with tempfile.TemporaryDirectory() as made:
        folder = Path(made)
        manifest, log = write_volume(folder, SOME), folder / "restore.log"
        folder.chmod(0o755)
        (folder / "into").mkdir(mode=0o755)
        log.touch()
        os.chown(log, 65534, 65534)
        words = [checks.program, "extract", "--bsr", folder / "x.bsr", "--volumes", folder / "volumes", "--into", folder / "into", "--log", log]
        try:
            ran = subprocess.run(words, stdin=subprocess.DEVNULL, capture_output=True, user=65534, group=65534, extra_groups=[])
        except PermissionError:
            print("a folder of somebody else: not tried, since the program may not be run by others")
            return
        checks.check("a folder of somebody else", (ran.returncode, ran.stdout, ran.stderr), (1, manifest, b"refused 80\n"))
        denied = f"  {folder}/into/in is refused by the system: Permission denied (os error 13). "
        denied += "Next: Run the command as a user who may write there, or choose another folder."
        told = [f"failed {escaped(SOME[0][0])}", "refused 80", *words_of(80), denied, *count(0, 3)]
        checks.check("and its log", lines_of(log), told)


def checks_faults(checks):
    """A volume that is missing, and a log that can't be opened or written."""
    with tempfile.TemporaryDirectory() as made:
        folder = Path(made)
        manifest, into = write_volume(folder, SOME), folder / "into"
        into.mkdir()
        found = checks.extract(folder, "--into", into, "--log", folder / "none" / "restore.log")
        told = f"brestore: {folder}/none/restore.log: No such file or directory (os error 2)\n".encode()
        checks.check("a log that can't be opened", (found, held(into)), ((3, b"", told), {}))
        found = checks.extract(folder, "--into", into, "--log", "/dev/full")
        told = b"brestore: the log could not be written, so it is not whole\n"
        checks.check("a log that can't be written", (found, held(into)), ((3, manifest, told), dict(SOME)))
        found = checks.extract(folder, "--into", into, "--log", "/dev/full")
        checks.check("and of a restore that is refused", found, (3, b"", b"refused 81\n" + told))
        (folder / "volumes" / "V").rename(folder / "V")
        why = f"  {folder}/volumes/V can't be read: No such file or directory (os error 2). Next: Copy it there, or correct the folder's name."
        told = ["refused 14 V 0", *words_of(14), why]
        checks.check_run("a volume that is missing", folder, [], (1, b"", b"refused 14 V 0\n"), told)
        (folder / "x.bsr").unlink()
        told = [f"brestore: {folder}/x.bsr: No such file or directory (os error 2)"]
        plain = (3, b"", (told[0] + "\n").encode())
        checks.check_run("a bootstrap that is missing", folder, [], plain, told)


def checks_untaken(checks):
    """A stream on standard output that takes no byte: its reader has ended, or its disk is full."""
    untaken = "  standard output takes no more bytes: the program that reads it has ended, or its disk is full. "
    untaken += "Next: Let that program read to the end, or free space."
    reader, pipe = os.pipe()
    os.close(reader)
    for name, output in (("without a reader", pipe), ("to a full disk", os.open("/dev/full", os.O_WRONLY))):
        with tempfile.TemporaryDirectory() as made, open(output, "wb") as stream:
            folder = Path(made)
            # The first file is longer than what may wait to be written.
            manifest, log = write_volume(folder, [(b"/in/long", LONG * 8), SOME[2]]), folder / "restore.log"
            words = ["extract", "--bsr", folder / "x.bsr", "--volumes", folder / "volumes", "--tar", "-", "--log", log]
            ran = subprocess.run([checks.program, *words], stdin=subprocess.DEVNULL, stdout=stream, stderr=subprocess.PIPE)
            checks.check(f"a stream {name}", (ran.returncode, ran.stderr), (1, manifest + b"refused 80\n"))
            checks.check("and its log", lines_of(log), ["failed /in/long", "refused 80", *words_of(80), untaken, *count(0, 2)])


def checks_standard_error(checks):
    """Logs on standard error, between its other lines."""
    with tempfile.TemporaryDirectory() as made:
        folder = Path(made)
        manifest, into = write_volume(folder, SOME), folder / "into"
        into.mkdir()
        told = "".join(f"{line}\n" for line in [*puts(SOME), *count(3, 3)]).encode()
        found = checks.extract(folder, "--into", into, "--log", "-")
        checks.check("a log on standard error", (found, held(into)), ((0, manifest, told), dict(SOME)))
        (folder / "x.bsr").write_text("Volume=V\nJob=1\n")
        told = "".join(f"{line}\n" for line in ["refused 32 line 2", *words_of(32)]).encode()
        found = checks.extract(folder, "--log", "-")
        checks.check("and one of a refusal", found, (1, b"", told + b"refused 32 line 2\n"))
        checks.check("makes no file", sorted(it.name for it in folder.iterdir()), ["into", "volumes", "x.bsr"])


def checks_pipe(checks):
    """A log that is a pipe, which is read: it has no sync, and nothing is told of that."""
    with tempfile.TemporaryDirectory() as made:
        folder = Path(made)
        manifest, into, pipe = write_volume(folder, SOME), folder / "into", folder / "pipe"
        into.mkdir()
        os.mkfifo(pipe)
        # The lines are few: all of them have room in the pipe.
        reader = os.open(pipe, os.O_RDONLY | os.O_NONBLOCK)
        checks.check("a log to a pipe", (checks.extract(folder, "--into", into, "--log", pipe), held(into)), ((0, manifest, b""), dict(SOME)))
        with open(reader, "rb") as lines:
            told = lines.read().decode()
        checks.check("and what was read from it", told.splitlines(), [*puts(SOME), *count(3, 3)])


def strange(session, index, path, known=True):
    """The block of a file that can't be restored: its attributes, unless they are not known, and a record of a stream that is not supported."""
    kept = records(index, file_of(path, b"")) if known else record(index, 2, b"x")
    return block_of(kept + record(index, 20, b"y"), index, *session)


def write_strange(folder, volumes):
    """Writes volumes: of each the name, the session and the paths of its files. Where there is no path, the attributes are missing. Returns
    the lines of the manifest and of what is told of each file, in order of key."""
    (folder / "volumes").mkdir()
    lost, told, bootstrap = [], [], ""
    for name, session, paths in volumes:
        label = block_of(record(-2, 0, volume_label(name)), 0, 0, 0)
        blocks = [strange(session, index, path or b"", path is not None) for index, path in enumerate(paths, 1)]
        (folder / "volumes" / name).write_bytes(label + b"".join(blocks))
        bootstrap += f"Volume={name}\nVolSessionId={session[0]}\nVolSessionTime={session[1]}\nFileIndex=1-{len(paths)}\n"
        for index, path in enumerate(paths, 1):
            key = f"{session[0]} {session[1]} {index}"
            lost.append((f"X {key} 63" if path is None else f"X {key} 65 20", key))
            told.append((path is None, f"  {key} on {name} " + ("has no path that can be read" if path is None else f"is {escaped(path)}")))
    (folder / "x.bsr").write_text(bootstrap)
    return lost, told


def checks_lost(checks):
    """Files that can't be restored, more than the line of their number names: of each the log has the volume and the path."""
    first = [b"/in/%d" % index for index in range(300)]
    second = [None if index % 3 == 1 else b"/in/of b/%d" % index for index in range(40)]
    third = [b"/in/c"]
    with tempfile.TemporaryDirectory() as made:
        folder = Path(made)
        lost, told = write_strange(folder, [("B", (1, 100), first), ("A", (2, 90), second), ("C", (3, 80), third)])
        manifest = "".join(f"{line}\n" for line, _ in lost) + f"total 0 {len(lost)} 0\n"
        bare = [(line.split()[4], key) for line, key in lost]
        lines = [line for line, _ in lost]
        for number, what in (("65", " (stream 20)"), ("63", "")):
            keys = [key for found, key in bare if found == number]
            lines.append(f"outcome {number} of {len(keys)} files: {', '.join(key + what for key in keys[:8])}, ..")
            lines += words_of(int(number))
        lines += [line for bad, line in told if not bad] + [line for bad, line in told if bad]
        checks.check_run("files that can't be restored", folder, [], (1, manifest.encode(), b""), lines)


def check_stop(checks, folder, call):
    """Stops a restore before a call. Returns whether there was a stop."""
    into, log, noted = folder / "into", folder / "restore.log", folder / "noted"
    into.mkdir()
    noted.write_bytes(b"")
    faults = {"LD_PRELOAD": checks.library, "STOPPED_CALL": str(call), "STOPPED_WAY": "before", "STOPPED_LOG": str(noted)}
    os.environ.update(faults)
    checks.extract(folder, "--into", into, "--log", log)
    for name in faults:
        del os.environ[name]
    lines, there = lines_of(log) if log.exists() else [], held(into)
    named = [line for line in lines if line.startswith("put ")]
    whole = [path for path, data in MANY if there.get(path) == data]
    name = f"a stop before call {call}"
    checks.check(name, named, puts([(path, None) for path in whole])[: len(named)])
    checks.check(name + ", and files without a line", len(whole) - len(named) <= LATE, True)
    return noted.stat().st_size > 0


def checks_stops(checks):
    call, was_stopped = 0, True
    while was_stopped:
        call += 1
        with tempfile.TemporaryDirectory() as made:
            folder = Path(made)
            write_volume(folder, MANY)
            was_stopped = check_stop(checks, folder, call)
    print(f"stops: {call - 1}", flush=True)


def checks_console(checks):
    """The log of a console session: refused lines, and the files."""
    with open(os.path.join(CASES, "order-inc", "expected"), "rb") as text:
        manifest = text.read()
    names = [line.split(b" ") for line in manifest.splitlines() if line.startswith(b"F ")]
    with tempfile.TemporaryDirectory() as made:
        folder = Path(made)
        db, into, log = folder / "jobs.db", folder / "into", folder / "restore.log"
        into.mkdir()
        with open(ORDER_SQL) as text:
            subprocess.run(["sqlite3", db], stdin=text, check=True)
        words = [checks.program, "console", "--db", db, "--volumes", os.path.join(SETS, "order"), "--client", "peer-fd"]
        words += ["--fileset", "Peer", "--before", "2026-11-21 23:15:46", "--into", into, "--log", log]
        ran = subprocess.run(words, input=b"frob\nmark *\ndone\n", capture_output=True)
        checks.check("a session", (ran.returncode, ran.stdout.endswith(manifest), ran.stderr), (1, True, b""))
        found = lines_of(log)
        put = [line for line in found if line.startswith("put ")]
        checks.check("and its log", (len(put), found[-1]), (len(names), *count(len(names), len(names))))
        checks.check("and its refused line", found[:3], ["refused 55", *words_of(55)])


def main():
    arguments = argparse.ArgumentParser()
    arguments.add_argument("--program", type=os.path.abspath, default=PROGRAM)
    checks = Logged(arguments.parse_args().program)
    checks_whole(checks)
    checks_kinds(checks)
    checks_reasons(checks)
    checks_disks(checks)
    checks_denied(checks)
    checks_faults(checks)
    checks_pipe(checks)
    checks_untaken(checks)
    checks_standard_error(checks)
    checks_lost(checks)
    checks_console(checks)
    with tempfile.TemporaryDirectory() as folder:
        checks.library = compiled(folder, "stopping_calls")
        checks_stops(checks)
    sys.exit(1 if checks.failed else 0)


if __name__ == "__main__":
    main()
