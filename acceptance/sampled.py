#!/usr/bin/env python3
"""Imports a catalogue that Bacula's Director kept, restores from it at four moments, and compares what comes back with what Bacula's own
`restore` brought back.

    acceptance/sampled.py                    needs sqlite3, and the program in crates/brestore/out
    acceptance/sampled.py --program FILE     another program

The catalogue, the volumes and what Bacula restored are in sets/director; `beside_bacula.py --sample` made them. The status is 1 if something
is not as expected.
"""

import argparse
import contextlib
import hashlib
import lzma
import os
import sqlite3
import stat
import subprocess
import sys
import tarfile
import tempfile
import time
from itertools import zip_longest

# Nothing is left beside the script.
sys.dont_write_bytecode = True
sys.path.insert(0, os.path.join(os.path.dirname(os.path.dirname(os.path.abspath(__file__))), "tools"))
from common import PROGRAM, ROOT, SETS, Checks, escaped

SCRIPT = os.path.join(ROOT, "catalogue", "import.sh")
SAMPLE = os.path.join(SETS, "director")
FORMATS = {tarfile.DIRTYPE: stat.S_IFDIR, tarfile.SYMTYPE: stat.S_IFLNK, tarfile.FIFOTYPE: stat.S_IFIFO, tarfile.CHRTYPE: stat.S_IFCHR, tarfile.BLKTYPE: stat.S_IFBLK}


def seen_in_stream(stream, entry, names):
    """Returns what is compared of an entry: kind, mode, owner, time, and what is in it; of a file also how many names it has."""
    owner = (entry.uid, entry.gid)
    if entry.issym():
        return (stat.S_IFLNK, *owner, entry.linkname.encode("utf-8", "surrogateescape"))
    if entry.isreg():
        data = stream.extractfile(entry).read()
        return (stat.S_IFREG, entry.mode, *owner, int(entry.mtime), len(data), hashlib.md5(data).hexdigest(), names)
    device = os.makedev(entry.devmajor, entry.devminor) if entry.ischr() or entry.isblk() else 0
    return (FORMATS[entry.type], entry.mode, *owner, int(entry.mtime), device)


def tree_in_stream(file, below):
    """Returns for each path of a tar stream below a folder what is compared of it."""
    with tarfile.open(file, errors="surrogateescape", encoding="utf-8") as stream:
        entries = {it.name: it for it in stream}
        first = {name: it.linkname if it.islnk() else name for name, it in entries.items()}
        targets = list(first.values())
        found = {name: seen_in_stream(stream, entries[first[name]], targets.count(first[name])) for name in entries}
    front = below.strip("/") + "/"
    return {name[len(front):].encode("utf-8", "surrogateescape"): seen for name, seen in found.items() if name.startswith(front)}


def is_same(found, wanted):
    """Returns whether what is found is what is wanted, in which `-` stands for anything."""
    return len(found) == len(wanted) and all(one == other or other == "-" for one, other in zip(found, wanted))


def lines_of(tree):
    """Returns a tree as lines: each path, escaped, and what is compared of it."""
    text = lambda it: escaped(it) if isinstance(it, bytes) else str(it)
    return [" ".join([escaped(path), *(text(it) for it in seen)]) for path, seen in sorted(tree.items())]


def restore(program, db, volumes, client, fileset, moment, file):
    """Restores all of a client by `console --tar`. Returns the status, and what is printed to standard error."""
    words = ["--client", client, "--fileset", fileset, "--before", time.strftime("%Y-%m-%d %H:%M:%S", time.gmtime(moment))]
    ran = subprocess.run([program, "console", "--db", db, "--volumes", volumes, *words, "--tar", file], input=b"mark *\ndone\n", capture_output=True)
    said = ran.stderr.decode(errors="replace")
    if ran.returncode:
        said += "".join(f"{line}\n" for line in ran.stdout.decode(errors="replace").splitlines() if line.startswith("X"))
    return ran.returncode, said


def unpack(folder):
    """Unpacks the sample's catalogue and volumes into a folder. Returns the places of both."""
    file, volumes = os.path.join(folder, "bacula.db"), os.path.join(folder, "volumes")
    os.mkdir(volumes)
    with contextlib.closing(sqlite3.connect(file)) as db:
        db.executescript(lzma.open(os.path.join(SAMPLE, "bacula.sql.xz")).read().decode())
    for name in os.listdir(os.path.join(SAMPLE, "volumes")):
        with open(os.path.join(volumes, name.removesuffix(".xz")), "wb") as volume:
            volume.write(lzma.open(os.path.join(SAMPLE, "volumes", name)).read())
    return file, volumes


def sections():
    """Yields what Bacula restored: client, file set, moment, folder, and the lines of the tree. A section begins with a line `# ..`."""
    for text in lzma.open(os.path.join(SAMPLE, "restored.xz")).read().decode().split("# ")[1:]:
        head, *lines = text.splitlines()
        client, fileset, moment, below = head.split(" ")
        yield client, fileset, int(moment), below, lines


def main():
    parser = argparse.ArgumentParser(description="Compares restores from a catalogue that Bacula kept with what Bacula restored.")
    parser.add_argument("--program", default=PROGRAM, help="the program (default: %(default)s)")
    checks = Checks(os.path.abspath(parser.parse_args().program))
    with tempfile.TemporaryDirectory() as folder:
        file, volumes = unpack(folder)
        db = os.path.join(folder, "jobs.db")
        ran = subprocess.run([SCRIPT, db, "--program", checks.program, "--sqlite", file], capture_output=True, text=True, env={**os.environ, "TZ": "Europe/Berlin"})
        with open(os.path.join(SAMPLE, "lines")) as text:
            checks.check("the import", (ran.returncode, ran.stdout, ran.stderr), (0, text.read(), ""))
        for place, (client, fileset, moment, below, lines) in enumerate(sections()):
            stream = os.path.join(folder, f"{place}.tar")
            checks.check(f"{client}, restore {place + 1}", restore(checks.program, db, volumes, client, fileset, moment, stream), (0, ""))
            found = lines_of(tree_in_stream(stream, below))
            differ = [(one, other) for one, other in zip_longest(found, lines, fillvalue="") if not is_same(one.split(" "), other.split(" "))]
            checks.check(f"and its {len(lines)} paths", differ, [])
    return 1 if checks.failed else 0


if __name__ == "__main__":
    sys.exit(main())
