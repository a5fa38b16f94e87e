"""Compares what Bacula's own `bextract` restores of a case with what GNU tar unpacked of the program's stream.

Path by path: type, mode, owner, time, size and digest, link, device, and which paths are one file.
The known differences are worked out from the manifest and the volumes, and what has to be there
instead is compared too.
"""

import hashlib
import os
import stat as stat_module
import subprocess
import time

from bacula import words_of_bextract
from common import unescaped
from reading import attributes_of, groups_of, match, records_of

# The system takes no longer path, and bextract names each file by its whole path, with that of the
# folder before it.
LONGEST_PATH = 4095
SECOND = 10**9


def facts_of(name, place):
    """Returns what is compared of a name in an open folder, and which file it is."""
    stat = os.stat(name, dir_fd=place, follow_symlinks=False)
    facts = {"type": stat_module.S_IFMT(stat.st_mode), "mode": stat.st_mode & 0o7777, "owner": (stat.st_uid, stat.st_gid)}
    facts["time"] = stat.st_mtime_ns
    if stat_module.S_ISREG(stat.st_mode):
        with open(name, "rb", opener=lambda it, flags: os.open(it, flags, dir_fd=place)) as file:
            facts["content"] = stat.st_size, hashlib.file_digest(file, "md5").hexdigest()
    elif stat_module.S_ISLNK(stat.st_mode):
        facts["link"] = os.readlink(name, dir_fd=place)
    else:
        facts["device"] = stat.st_rdev
    return facts, (stat.st_dev, stat.st_ino)


def tree_of(folder):
    """Returns what is compared of each path below a folder."""
    tree, files, top = {}, {}, os.fsencode(folder)
    for place, folders, others, descriptor in os.fwalk(top):
        for name in folders + others:
            path = os.path.join(place, name)[len(top) + 1 :]
            tree[path], file = facts_of(name, descriptor)
            files.setdefault(file, []).append(path)
    for paths in files.values():
        for path in paths:
            tree[path]["paths"] = sorted(paths)
    return tree


class Line:
    """A restored file, as the manifest has it."""

    def __init__(self, fields):
        session_id, session_time, index, self.kind = map(int, fields[1:5])
        # Bacula counts the sessions anew after each start of the storage daemon; they carry its
        # time.
        self.written = session_time, session_id, index
        self.path = unescaped(fields[5])[1:].rstrip(b"/")
        stat = [int(number) for number in fields[6].split(b",")]
        self.facts = {
            "mode": stat[2] & 0o7777,
            "owner": (stat[4] % 2**32, stat[5] % 2**32),
            "time": stat[11] * SECOND,
        }
        if self.kind in (2, 3):
            self.facts["content"] = int(fields[-2]), fields[-1].decode()


def lines_of(manifest):
    """Returns the restored files of a manifest in its order."""
    fields = [line.split(b" ") for line in manifest.splitlines()]
    return [Line(it) for it in fields if it[0] == b"F"]


def unsupported(manifest, bootstrap, volumes):
    """Returns the paths of the files that are not restored, as the volumes have them."""
    found = match(groups_of(bootstrap.read_bytes()), {os.fsencode(it.name): it.read_bytes() for it in volumes.iterdir()})
    paths = set()
    for line in manifest.splitlines():
        fields = line.split(b" ")
        if fields[0] == b"X":
            key = tuple(int(number) for number in fields[1:4])
            records = records_of([found[key][place] for place in sorted(found[key])])
            paths.add(attributes_of(records[0][1], key[2])[1][1:].rstrip(b"/"))
    return paths


def changed_later(lines, folder):
    """Returns whether a file directly in a folder was written after the folder."""
    return any(line.written > folder.written and line.path.rpartition(b"/")[0] == folder.path for line in lines)


class Comparison:
    """Both trees of a case, and the known differences between the two programs."""

    def __init__(self, manifest, ours, theirs, begin):
        self.lines, self.ours, self.theirs, self.begin = lines_of(manifest), ours, theirs, begin
        self.last = {line.path: line for line in self.lines}
        self.newest = {line.path: line for line in sorted(self.lines, key=lambda it: it.written)}
        self.wrong, self.known = [], {}

    def know(self, what, path):
        self.known.setdefault(what, []).append(path)

    def compare(self, path):
        """Compares a path that both trees have."""
        ours, theirs = dict(self.ours[path]), dict(self.theirs[path])
        line = self.newest.get(path)
        if line is None:
            # A folder on the way to a file has no entry, and each program sets its attributes as it
            # likes.
            for facts in (ours, theirs):
                del facts["mode"], facts["time"]
        elif line is not self.last[path]:
            self.know("an older copy in the stream", path)
            theirs_expected = {**theirs, **line.facts}
            ours_expected = {**ours, **self.last[path].facts}
            self.judge(path, theirs, theirs_expected)
            self.judge(path, ours, ours_expected)
            return
        elif line.kind == 5 and changed_later(self.lines, line):
            self.know("the time of a folder whose files were written after it", path)
            if theirs["time"] < self.begin or ours["time"] != line.facts["time"]:
                self.wrong.append(f"the time of {path!r}")
            del ours["time"], theirs["time"]
        self.judge(path, theirs, ours)

    def judge(self, path, facts, expected):
        self.wrong += [f"{what} of {path!r}" for what in {**facts, **expected} if facts.get(what) != expected.get(what)]

    def run(self, without_data, longest):
        """Compares the trees. Takes the paths of the files that only bextract restores, and the
        length of the longest path that it can make."""
        for path in sorted({*self.ours, *self.theirs}):
            if path in self.ours and path in self.theirs:
                self.compare(path)
            elif path in self.theirs and path in without_data:
                self.know("a file of unsupported data, which the stream has not", path)
            elif path in self.ours and len(path) > longest:
                self.know("a path too long for bextract with the folder in front", path)
            else:
                self.wrong.append(f"{path!r}, which only {'bextract' if path in self.theirs else 'the stream'} has")
        self.wrong += [f"{path!r}, which bextract has not" for path in without_data - {*self.theirs}]


def compare_with_bextract(program, case, volumes, unpacked):
    """Returns what differs from what bextract restores, and the known differences: what they are, with their paths."""
    folder = unpacked.parent / "bextract"
    folder.mkdir()
    words = words_of_bextract(program, str(unpacked.parent / "bacula"), str(volumes), str(case / "x.bsr"))
    begin = time.time_ns() // SECOND * SECOND
    run = subprocess.run([*words, folder], stdin=subprocess.DEVNULL, capture_output=True, check=False)
    if run.returncode != 0:
        return [f"the status of bextract, {run.returncode}: {run.stdout + run.stderr!r}"], {}
    manifest = (case / "expected").read_bytes()
    comparison = Comparison(manifest, tree_of(unpacked), tree_of(folder), begin)
    comparison.run(unsupported(manifest, case / "x.bsr", volumes), LONGEST_PATH - len(os.fsencode(folder)) - 1)
    return comparison.wrong, comparison.known
