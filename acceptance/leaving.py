#!/usr/bin/env python3
"""Restores files, some of which can't be delivered, with and without `--keep-going`, and compares
the results.

    acceptance/leaving.py                     needs the program in crates/brestore/out
    acceptance/leaving.py --program FILE      another program

The volumes are written here: a path that conflicts with another one, a name that is not UTF-8, a name that ends in `/`, and a file for
which a disk has no room. Without the option the delivery stops at the first of them. With it each is named on standard error, and all
others are delivered. Disks that are full or can't be written are mounted, which only root may do. The status is 1 if something differs.
"""

import argparse
import os
import subprocess
import sys
import tarfile
import tempfile
from pathlib import Path

# Nothing is left beside the script.
sys.dont_write_bytecode = True
sys.path.insert(0, os.path.join(os.path.dirname(os.path.dirname(os.path.abspath(__file__))), "tools"))
from bacula import block_of, volume_label
from common import PROGRAM, Checks
from odd import line, record, records

LONG = bytes(range(256)) * 160
SHORT = {b"/in/a": b"one", b"/in/b": b"two", b"/in/z": b"three"}


def file_of(path, data):
    """Returns a file as `odd` writes it."""
    return (3, path, 0o100644, b"", 0, 0, 0, 1795302711, data)


def write_volume(folder, files):
    """Writes a volume with these files, and its bootstrap. Returns the manifest of them."""
    volumes = folder / "volumes"
    volumes.mkdir()
    taken = [file_of(path, data) for path, data in files]
    blocks = [block_of(records(index, file), index, 1, 100) for index, file in enumerate(taken, 1)]
    (volumes / "V").write_bytes(block_of(record(-2, 0, volume_label("V")), 0, 0, 0) + b"".join(blocks))
    (folder / "x.bsr").write_bytes(b"Volume=V\nMediaType=File\n")
    return b"".join(line(index, file) for index, file in enumerate(taken, 1)) + b"total %d 0 0\n" % len(taken)


def held(folder):
    """Returns the files in a folder, with their bytes, under the names of the restore."""
    root = os.fsencode(folder)
    names = [os.path.join(at, name) for at, _, found in os.walk(root) for name in found]
    return {name[len(root) :]: Path(os.fsdecode(name)).read_bytes() for name in names}


class Deliveries(Checks):
    def extract(self, folder, *more):
        words = [self.program, "extract", "--bsr", folder / "x.bsr", "--volumes", folder / "volumes", *more]
        ran = subprocess.run(words, stdin=subprocess.DEVNULL, capture_output=True)
        return ran.returncode, ran.stdout, ran.stderr

    def check_both(self, name, files, stopped, going):
        """Delivers into empty folders: `stopped` and `going` are the standard error and the files that come, without the option and with it."""
        for option, (told, kept), status in (((), stopped, 1), (("--keep-going",), going, 1)):
            with tempfile.TemporaryDirectory() as made:
                folder = Path(made)
                manifest = write_volume(folder, files)
                (folder / "into").mkdir()
                found = self.extract(folder, "--into", folder / "into", *option)
                self.check(f"{name} {' '.join(option)}", found, (status, manifest, told))
                self.check("and what was put", held(folder / "into"), kept)


def with_files(*names):
    return {name: SHORT[name] for name in names}


def checks_paths(checks):
    a, b, z = SHORT.items()
    way = [a, (b"/in/a/x", b"in the way"), (b"/in/a/", b"a folder"), b, z]
    told = b"left 81 /in/a/x\n"
    checks.check_both(
        "a path that conflicts", way[:2] + way[3:], (b"refused 81\n", with_files(b"/in/a")), (told, SHORT)
    )
    conflicting = [(b"/in/b/1/2", b"deep"), b, (b"/in/b/3", b"later"), a, (b"/in/a/4", b"no")]
    told = b"left 81 /in/b\nleft 81 /in/a/4\n"
    kept = {b"/in/b/1/2": b"deep", b"/in/b/3": b"later", b"/in/a": b"one"}
    checks.check_both("two of them", conflicting, (b"refused 81\n", {b"/in/b/1/2": b"deep"}), (told, kept))
    odd = [a, (b"/in/n\xff", b"odd"), (b"/in/m/", b"no folder"), b, z, (b"/in/\xe4", b"last")]
    told = b"left 80 /in/n\\xff\nleft 80 /in/m/\nleft 80 /in/\\xe4\n"
    checks.check_both("names that a folder can't take", odd, (b"refused 80\n", with_files(b"/in/a")), (told, SHORT))
    both = [a, (b"/in/n\xff", b"odd"), (b"/in/a/x", b"in the way"), z]
    told = b"left 81 /in/a/x\nleft 80 /in/n\\xff\n"
    checks.check_both("both", both, (b"refused 80\n", with_files(b"/in/a")), (told, with_files(b"/in/a", b"/in/z")))
    many = [(b"/in/%d\xff" % i if i % 3 == 0 else b"/in/%d" % i, b"%d" % i) for i in range(1000)]
    told = b"".join(b"left 80 /in/%d\\xff\n" % i for i in range(0, 1000, 3))
    kept = {name: data for name, data in many if b"\xff" not in name}
    checks.check_both("each third of many", many, (b"refused 80\n", {}), (told, kept))


def checks_sound(checks):
    """Nothing is left out, and the option changes nothing."""
    for option in ((), ("--keep-going",)):
        with tempfile.TemporaryDirectory() as made:
            folder = Path(made)
            manifest = write_volume(folder, SHORT.items())
            (folder / "into").mkdir()
            checks.check("sound files", checks.extract(folder, "--into", folder / "into", *option), (0, manifest, b""))
            checks.check("and what was put", held(folder / "into"), SHORT)


def checks_tar(checks):
    """A tar stream can contain each name, and so only conflicts are left out."""
    files = [*SHORT.items(), (b"/in/n\xff", b"odd"), (b"/in/a/x", b"in the way"), (b"/in/y", b"last")]
    with tempfile.TemporaryDirectory() as made:
        folder = Path(made)
        manifest = write_volume(folder, files)
        found = checks.extract(folder, "--tar", folder / "x.tar", "--keep-going")
        checks.check("a tar stream", found, (1, manifest, b"left 81 /in/a/x\n"))
        with tarfile.open(folder / "x.tar", encoding="utf-8", errors="surrogateescape") as tar:
            names = [os.fsencode(it.name) for it in tar]
        checks.check("and its entries", names, [b"in/a", b"in/b", b"in/z", b"in/n\xff", b"in/y"])


def into_disk(checks, folder, options, *more):
    """Delivers into a disk that is mounted with these options. Returns the result and the files
    there; nothing if none can be mounted."""
    (folder / "into").mkdir()
    if subprocess.run(["mount", "-t", "tmpfs", "-o", options, "tmpfs", folder / "into"], capture_output=True).returncode:
        return None
    try:
        return checks.extract(folder, "--into", folder / "into", *more), held(folder / "into")
    finally:
        subprocess.run(["umount", folder / "into"], check=True)


def checks_disk(checks, name, options, files, first, left):
    """Delivers into such a disk: without the option it gets the files `first`, with it all except
    those of `left`, and no part of another file."""
    going = {name: data for name, data in files if name not in left}
    told = b"".join(b"left 80 %s\n" % name for name in left)
    for more, wanted in (((), (b"refused 80\n", first)), (("--keep-going",), (told, going))):
        with tempfile.TemporaryDirectory() as made:
            folder = Path(made)
            manifest = write_volume(folder, files)
            found = into_disk(checks, folder, options, *more)
            if found is None:
                print(f"{name}: not tried, since no disk can be mounted here")
                return
            checks.check(f"{name} {' '.join(more)}", found[0], (1, manifest, wanted[0]))
            checks.check("and what was put", found[1], wanted[1])


def checks_disks(checks):
    a, b, z = SHORT.items()
    checks_disk(checks, "a full disk", "size=24k", [a, (b"/in/long", LONG), b, z], with_files(b"/in/a"), [b"/in/long"])
    checks_disk(checks, "a disk that can't be written", "size=24k,ro", list(SHORT.items()), {}, list(SHORT))


def main():
    arguments = argparse.ArgumentParser()
    arguments.add_argument("--program", default=PROGRAM)
    checks = Deliveries(arguments.parse_args().program)
    checks_paths(checks)
    checks_sound(checks)
    checks_tar(checks)
    checks_disks(checks)
    sys.exit(1 if checks.failed else 0)


if __name__ == "__main__":
    main()
