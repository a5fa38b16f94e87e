#!/usr/bin/env python3
"""Stops a restore into a folder at each of its calls that change a file, goes on by `extract --resume`, and compares the folder.

    acceptance/resuming.py                     needs the program in crates/brestore/out, and `cc`
    acceptance/resuming.py --program FILE      another program

`stopping_calls.c`, which is compiled and preloaded, ends the process before a call or within a write, or lets the call and each later
one fail. After each stop the same restore runs with `--resume`, and without a stop: the folder is then that of a whole restore, and
each file that was whole before is the same file still, which was not written again. Other cases have files in the folder that differ,
that no outcome names or that are no files, and the same path twice. The status is 1 if something differs.
"""

import argparse
import os
import sys
import tempfile
from pathlib import Path

# Nothing is left beside the script.
sys.dont_write_bytecode = True
sys.path.insert(0, os.path.join(os.path.dirname(os.path.dirname(os.path.abspath(__file__))), "tools"))
from common import PROGRAM
from leaving import Deliveries, held, write_volume
from preloaded import compiled

FILES = [(b"/in/%d" % i, bytes([i]) * (100 * i)) for i in range(20)]
FILES += [(b"/in/far/long", bytes(range(256)) * 1000), (b"/in/far/none", b""), (b"/last", b"the last one")]
WHOLE = dict(FILES)
WAYS = ("before", "within", "failing")


def marks(folder):
    """Returns of each file in a folder which one it is, and when it was written."""
    root = os.fsencode(folder)
    found = {}
    for at, _, names in os.walk(root):
        for name in names:
            path = os.path.join(at, name)
            what = os.lstat(path)
            found[path[len(root) :]] = (what.st_ino, what.st_mtime_ns)
    return found


class Resumed(Deliveries):
    def stopped(self, folder, call, way):
        """Restores into a new folder, with a stop. Returns whether there was one."""
        (folder / "into").mkdir()
        log = folder / "log"
        log.write_bytes(b"")
        faults = {"LD_PRELOAD": self.library, "STOPPED_CALL": str(call), "STOPPED_WAY": way, "STOPPED_LOG": str(log)}
        os.environ.update(faults)
        self.extract(folder, "--into", folder / "into")
        for name in faults:
            del os.environ[name]
        return log.stat().st_size > 0

    def check_stop(self, folder, manifest, call, way):
        """Stops a restore at a call and goes on. Returns whether there was a stop."""
        name = f"a stop {way} call {call}"
        was_stopped = self.stopped(folder, call, way)
        before, kept = held(folder / "into"), marks(folder / "into")
        found = self.extract(folder, "--into", folder / "into", "--resume")
        self.check(name, found, (0, manifest, b""))
        self.check(name + ", and what was put", held(folder / "into"), WHOLE)
        after = marks(folder / "into")
        again = [path for path, data in before.items() if WHOLE[path] == data and after[path] != kept[path]]
        self.check(name + ", and what was put again", again, [])
        return was_stopped

    def check_over(self, name, files, there, expected, left, *more):
        """Delivers into a folder that `there` fills first: `expected` is the status and standard error, `left` the files there."""
        with tempfile.TemporaryDirectory() as made:
            folder = Path(made)
            manifest = write_volume(folder, files)
            (folder / "into").mkdir()
            there(folder / "into")
            status, printed, told = self.extract(folder, "--into", folder / "into", "--resume", *more)
            self.check(name, (status, printed, told), (expected[0], manifest, expected[1]))
            self.check(name + ", and what is there", held(folder / "into"), left)


def checks_stops(checks):
    for way in WAYS:
        call, was_stopped = 0, True
        while was_stopped:
            call += 1
            with tempfile.TemporaryDirectory() as made:
                folder = Path(made)
                was_stopped = checks.check_stop(folder, write_volume(folder, FILES), call, way)
        print(f"stops {way} a call: {call - 1}", flush=True)


def checks_others(checks):
    some = [(b"/in/a", b"one"), (b"/in/b", b"two"), (b"/in/c", b"three")]

    def with_in(folder):
        (folder / "in").mkdir()
        return folder / "in"

    def differing(folder):
        at = with_in(folder)
        (at / "a").write_bytes(b"owe")
        (at / "b").write_bytes(b"two and more")
        (at / "mine").write_bytes(b"mine")

    left = dict(some) | {b"/in/mine": b"mine"}
    checks.check_over("files that differ", some, differing, (0, b"other /in/mine\n"), left)
    checks.check_over("an empty folder", some, lambda folder: None, (0, b""), dict(some))
    twice = [*some, (b"/in/a", b"newer"), (b"/in/d", b"four")]

    def first_copy(folder):
        (with_in(folder) / "a").write_bytes(b"one")

    def last_copy(folder):
        (with_in(folder) / "a").write_bytes(b"newer")

    for there in (first_copy, last_copy):
        checks.check_over("a path that comes twice", twice, there, (0, b""), dict(twice))

    def folder_there(folder):
        (with_in(folder) / "b").mkdir()

    checks.check_over("a folder in the way", some, folder_there, (1, b"refused 80\n"), {b"/in/a": b"one"})
    kept = {b"/in/a": b"one", b"/in/c": b"three"}
    checks.check_over("and the others", some, folder_there, (1, b"left 80 /in/b\n"), kept, "--keep-going")

    def link_there(folder):
        (folder / "other").write_bytes(b"two")
        (with_in(folder) / "b").symlink_to(folder / "other")

    kept = {b"/in/a": b"one", b"/in/b": b"two", b"/other": b"two"}
    checks.check_over("a link to an equal file", some, link_there, (1, b"other /other\nrefused 80\n"), kept)

    def link_above(folder):
        (folder / "other").mkdir()
        (folder / "other" / "a").write_bytes(b"one")
        (folder / "in").symlink_to(folder / "other")

    told = b"other /other\nrefused 80\n"
    checks.check_over("a link on the way", some, link_above, (1, told), {b"/other/a": b"one"})


def checks_refused(checks):
    with tempfile.TemporaryDirectory() as made:
        folder = Path(made)
        write_volume(folder, FILES)
        (folder / "into").mkdir()
        (folder / "into" / "mine").write_bytes(b"mine")
        checks.check("a folder that is not empty", checks.extract(folder, "--into", folder / "into"), (1, b"", b"refused 81\n"))
        found = checks.extract(folder, "--into", folder / "none", "--resume")
        checks.check("a folder that is not there", found, (1, b"", b"refused 81\n"))
        for more in ((), ("--tar", folder / "x.tar")):
            status, printed, told = checks.extract(folder, "--resume", *more)
            checks.check("no folder", (status, printed, b"'--resume' must be given with '--into <DIR>'" in told), (2, b"", True))


def main():
    arguments = argparse.ArgumentParser()
    arguments.add_argument("--program", type=os.path.abspath, default=PROGRAM)
    checks = Resumed(arguments.parse_args().program)
    with tempfile.TemporaryDirectory() as folder:
        checks.library = compiled(folder, "stopping_calls")
        checks_stops(checks)
    checks_others(checks)
    checks_refused(checks)
    sys.exit(1 if checks.failed else 0)


if __name__ == "__main__":
    main()
