#!/usr/bin/env python3
"""Spoils volumes that Bacula wrote, as operators find them, and compares what `check`, `--complete`, `--keep-going` and `--resume` say and do.

    acceptance/found.py                     needs the program in crates/brestore/out
    acceptance/found.py --program FILE      another program

Each case is made here from a set of `sets/`: a volume that is cut, empty or another one's, one byte
changed, a name that is not UTF-8, a full disk, a conflicting file, and volumes that are missing.
The output and status of each command, and the files that must be there afterwards, were worked out
by hand from docs/formats.md. The full disk is mounted, which only root may do. The status is 1 if
something differs.
"""

import argparse
import hashlib
import os
import subprocess
import sys
import tempfile
import zlib
from pathlib import Path

# Nothing is left beside the script.
sys.dont_write_bytecode = True
sys.path.insert(0, os.path.join(os.path.dirname(os.path.dirname(os.path.abspath(__file__))), "tools"))
from cases import unpack
from checking import flipped
from common import CASES, PROGRAM, SETS, Checks
from leaving import held

ORDER, SWAP = Path(CASES) / "order-inc", Path(CASES) / "swap-full"
AT = b"/tmp/peerlab/src/"
# The files of the case: three with bytes, and two folders.
F1, F2, F3 = (AT + b"sub/f%d" % number for number in (1, 2, 3))
WHOLE = {F1: b"full 1\n", F3: b"full 3\n", F2: b"incremental, the newest\n"}
MISSING = b"missing 1 1795302931 1-2 %s\nmissing 1 1795302931 4-5 %s\nmissing 1 1795302940 1 %s\n"
# The bootstrap counts four files of the first session, and one of the second.
MISSING += b"count 1 1795302931 4 0 %s\ncount 1 1795302940 1 0 %s\n"
# 64 MiB; 200 bytes for each of 11 fragments; 400 for each of 5 files; their paths of 23, 23, 21, 17 and 23 bytes; 38 bytes of data.
ALL = b"memory 67113209\ntotal 5 38\n"
# The same of the 8 fragments and the 4 files of the first session, with 14 bytes.
FIRST = b"memory 67112162\ntotal 4 14\n"
NONE = b"memory 67108864\ntotal 0 0\n"
# Where the first block of the set `order` begins that a bootstrap asks for, and where the first of the block's files has its data, and
# the stream of their digest.
BLOCK, BLOCK_END, DATA, DIGEST_STREAM = 206, 1173, 477, 491
# Where the path of the second file ends.
PATH_END = 550


class Found(Checks):
    """Runs commands over the volumes of a case."""

    def __init__(self, program):
        super().__init__(program)
        words = [program, "extract", "--bsr", "/dev/null", "--volumes", ".", "--into", "/dev/null", "--resume"]
        self.can_resume = subprocess.run(words, capture_output=True).returncode != 2

    def run(self, made, command, *more):
        words = [self.program, command, "--bsr", made / "x.bsr", "--volumes", made / "volumes", *more]
        ran = subprocess.run(words, stdin=subprocess.DEVNULL, capture_output=True)
        return ran.returncode, ran.stdout, ran.stderr

    def checks_found(self, name, made, found, sums=None):
        """Checks the volumes, also with their checksums, if those find more."""
        self.check(f"{name}: check", self.run(made, "check"), (1 if found.count(b"\n") > 2 else 0, found, b""))
        if sums is not None:
            self.check(f"{name}: check --checksums", self.run(made, "check", "--checksums"), (1, sums, b""))

    def complete(self, name, made, status, printed, told=b""):
        self.check(f"{name}: --complete", self.run(made, "extract", "--complete"), (status, printed, told))

    def into(self, name, made, options, status, printed, told, files):
        """Delivers into the folder of the case, which stays for the next delivery."""
        if "--resume" in options and not self.can_resume:
            print(f"{name}: {' '.join(options)}: not tried, since the program has no --resume")
            return
        (made / "into").mkdir(exist_ok=True)
        found = self.run(made, "extract", "--into", made / "into", *options)
        self.check(f"{name}: {' '.join(options)}", found, (status, printed, told))
        self.check(f"{name}: what is there", held(made / "into"), files)

    def both(self, name, made, status, printed, told, files):
        """Delivers with `--keep-going`, and then once more with `--resume`: nothing is left out, so both give the same."""
        for option in ("--keep-going", "--resume"):
            self.into(name, made, (option,), status, printed, told, files)


def new_case(folder, set_name="order", bsr=None):
    """Returns a new folder with the volumes of a set and a bootstrap."""
    made = Path(tempfile.mkdtemp(dir=folder))
    unpack(Path(SETS) / set_name, made / "volumes")
    (made / "x.bsr").write_bytes(bsr or (ORDER / "x.bsr").read_bytes())
    return made


def volume_of(made):
    return made / "volumes" / "Vol-0001"


def manifest_of(change=lambda line: line, total=b"total 5 0 0\n"):
    """Returns the manifest of the case with some of its lines changed or left out."""
    lines = (ORDER / "expected").read_bytes().splitlines(keepends=True)[:-1]
    return b"".join(change(line) for line in lines) + total


def changed(index, edit):
    """Returns the change of the line of a file of the first session."""
    return lambda line: edit(line) if line.startswith(b"F 1 1795302931 %d " % index) else line


def only_first(line):
    return line if line.startswith(b"F 1 1795302931 ") else b""


def checks_cut(checks, folder):
    """The volume ends before the incremental, as one that was copied too early does. A later copy has it."""
    made = new_case(folder)
    whole = volume_of(made).read_bytes()
    volume_of(made).write_bytes(whole[:1656])
    name, some = "a cut incremental", {F1: WHOLE[F1], F3: WHOLE[F3]}
    lost = b"missing 1 1795302940 1 Vol-0001\ncount 1 1795302940 1 0 Vol-0001\n"
    manifest = manifest_of(only_first, b"total 4 0 0\n")
    checks.checks_found(name, made, lost + FIRST)
    checks.complete(name, made, 1, manifest, lost)
    checks.both(name, made, 0, manifest, b"", some)
    volume_of(made).write_bytes(whole)
    checks.into(f"{name}, copied whole", made, ("--resume", "--complete"), 0, manifest_of(), b"", WHOLE)


def checks_nothing(checks, folder):
    """Nothing that is asked for is there: the volume is empty, or it is one of another set."""
    for name, volume in (("an empty volume", "Vol-0001"), ("another set's volume", "Vol-0001"), ("another label", "Vol-0002")):
        made = new_case(folder, "order" if name == "an empty volume" else "swap", (ORDER / "x.bsr").read_bytes().replace(b"Vol-0001", volume.encode()))
        volume_of(made).rename(made / "volumes" / volume)
        if name == "an empty volume":
            volume_of(made).write_bytes(b"")
        lost, label = MISSING % ((volume.encode(),) * 5), b"label Vol-0002 Vol-0001\n" if volume == "Vol-0002" else b""
        checks.checks_found(name, made, label + lost + NONE)
        checks.complete(name, made, 1, b"total 0 0 0\n", lost)
        checks.both(name, made, 0, b"total 0 0 0\n", b"", {})


def checks_path(checks, folder):
    """A byte of a path is changed: the file has the path of a newer one, and nothing has its own
    path."""
    made, name = new_case(folder), "a flipped byte in a path"
    volume_of(made).write_bytes(flipped(volume_of(made).read_bytes(), PATH_END))
    copies = b"older 1 1795302931 2 %s\nnewest 1 1795302940 1 %s\n" % (F2, F2)
    manifest = manifest_of(changed(2, lambda line: line.replace(F3, F2)))
    checks.checks_found(name, made, copies + ALL, copies + b"checksum Vol-0001 206\n" + ALL)
    checks.complete(name, made, 0, manifest)
    checks.both(name, made, 0, manifest, b"", {F1: WHOLE[F1], F2: WHOLE[F2]})


def checks_data(checks, folder):
    """A byte of the data of a file is changed. Its digest shows it; without a digest only the
    block's checksum does."""
    made, name = new_case(folder), "a flipped byte in signed data"
    whole = volume_of(made).read_bytes()
    volume_of(made).write_bytes(flipped(whole, DATA))
    manifest = manifest_of(changed(1, lambda line: b"X 1 1795302931 1 66\n"), b"total 4 1 0\n")
    checks.checks_found(name, made, ALL, b"checksum Vol-0001 206\n" + ALL)
    checks.complete(name, made, 1, manifest)
    checks.both(name, made, 1, manifest, b"", {F2: WHOLE[F2], F3: WHOLE[F3]})

    made, name, odd = new_case(folder), "a flipped byte in unsigned data", b"gull 1\n"
    # A digest of stream 10 is not compared. The block gets its new checksum.
    unsigned = whole[:DIGEST_STREAM] + b"\x0a" + whole[DIGEST_STREAM + 1 :]
    sum_of_block = zlib.crc32(unsigned[BLOCK + 4 : BLOCK_END]).to_bytes(4, "big")
    volume_of(made).write_bytes(flipped(unsigned[:BLOCK] + sum_of_block + unsigned[BLOCK + 4 :], DATA))
    digests = [hashlib.md5(data).hexdigest().encode() for data in (WHOLE[F1], odd)]
    manifest = manifest_of(changed(1, lambda line: line.replace(*digests)), b"total 5 0 1\n")
    checks.checks_found(name, made, ALL, b"checksum Vol-0001 206\n" + ALL)
    checks.complete(name, made, 0, manifest)
    checks.both(name, made, 0, manifest, b"", WHOLE | {F1: odd})


def checks_name(checks, folder):
    """A name is not UTF-8: a folder can't take it."""
    made, name = new_case(folder), "a name that is not UTF-8"
    whole = volume_of(made).read_bytes()
    volume_of(made).write_bytes(whole[:PATH_END] + b"\xff" + whole[PATH_END + 1 :])
    path, some = F3[:-1] + b"\\xff", {F1: WHOLE[F1], F2: WHOLE[F2]}
    manifest = manifest_of(changed(2, lambda line: line.replace(F3, path)))
    odd = b"name 1 1795302931 2 %s\n" % path
    checks.checks_found(name, made, odd + ALL, odd + b"checksum Vol-0001 206\n" + ALL)
    checks.complete(name, made, 0, manifest)
    checks.into(name, made, ("--keep-going",), 1, manifest, b"left 80 %s\n" % path, some)
    checks.into(name, made, ("--resume",), 1, manifest, b"refused 80\n", some)
    checks.into(name, made, ("--resume", "--keep-going"), 1, manifest, b"left 80 %s\n" % path, some)


def checks_disk(checks, folder):
    """The disk has room for two files, but gets more."""
    made, name, some = new_case(folder), "a full disk", {F1: WHOLE[F1], F3: WHOLE[F3]}
    checks.checks_found(name, made, ALL)
    checks.complete(name, made, 0, manifest_of())
    (made / "into").mkdir()
    if subprocess.run(["mount", "-t", "tmpfs", "-o", "size=8k", "tmpfs", made / "into"], capture_output=True).returncode:
        print(f"{name}: not tried, since no disk can be mounted here")
        return
    try:
        checks.into(name, made, ("--keep-going",), 1, manifest_of(), b"left 80 %s\n" % F2, some)
        checks.into(name, made, ("--resume",), 1, manifest_of(), b"refused 80\n", some)
        subprocess.run(["mount", "-o", "remount,size=64k", made / "into"], check=True)
        checks.into(f"{name} that gets more room", made, ("--resume",), 0, manifest_of(), b"", WHOLE)
    finally:
        subprocess.run(["umount", made / "into"], check=True)


def checks_way(checks, folder):
    """Two backups, with a file in one at the path of a folder in the other, by the bootstrap that
    Bacula keeps of both."""
    group = 'Volume="Vol-0001"\nVolSessionId=%d\nVolSessionTime=1795302717\nFileIndex=1-%d\n'
    made, name = new_case(folder, "swap", (group % (1, 5) + group % (2, 4)).encode()), "a file in the way"
    escaped = AT + b"name\\x20with\\x20spaces"
    conflicts = [(1, AT + b"tiny.txt/inner"), (2, AT + b"tiny.txt/"), (3, escaped)]
    lines = b"".join(b"conflict 2 1795302717 %d %s\n" % it for it in conflicts)
    lines += b"older 1 1795302717 5 %s\nnewest 2 1795302717 4 %s\n" % (AT, AT)
    # 19 fragments and 9 files with paths of 25, 22, 36, 34, 17, 31, 26, 33 and 17 bytes.
    checks.checks_found(name, made, lines + b"memory 67116543\ntotal 9 38\n")
    first, second = ((Path(CASES) / it / "expected").read_bytes().splitlines(keepends=True)[:-1] for it in ("swap-full", "swap-inc"))
    manifest = b"".join(first + second[1:]) + b"total 9 0 0\n"
    kept = {AT + b"tiny.txt": b"hello\n", AT + b"stays": b"stays\n", AT + b"name with spaces/in": b"a\n"}
    left = b"".join(b"left 81 %s\n" % path for _, path in conflicts)
    checks.complete(name, made, 0, manifest)
    checks.into(name, made, ("--keep-going",), 1, manifest, left, kept)
    checks.into(name, made, ("--resume",), 1, manifest, b"refused 81\n", kept)
    checks.into(name, made, ("--resume", "--keep-going"), 1, manifest, left, kept)

    made, name, mine = new_case(folder), "a file in the folder's way", {b"/tmp": b"mine"}
    (made / "into").mkdir()
    (made / "into" / "tmp").write_bytes(b"mine")
    checks.into(name, made, ("--keep-going",), 1, b"", b"refused 81\n", mine)
    checks.into(name, made, ("--resume",), 1, manifest_of(), b"refused 80\n", mine)
    left = b"".join(b"left 80 %s\n" % path for path in (F1, F3, AT + b"sub/", AT, F2))
    checks.into(name, made, ("--resume", "--keep-going"), 1, manifest_of(), left, mine)


def checks_missing(checks, folder):
    """Three volumes are missing: a check names all of them, a restore stops at the first."""
    there = b'Volume="Vol-0001"\nVolSessionId=1\nVolSessionTime=1795302940\nFileIndex=1\n'
    made, name = new_case(folder, "order", b'Volume="A"\n' + there + b'Volume="B C"\nVolume="D"\n'), "three missing volumes"
    # 3 fragments and one file with a path of 23 bytes.
    checks.checks_found(name, made, b"volume 14 A 0\nvolume 14 B\\x20C 0\nvolume 14 D 0\nmemory 67109911\ntotal 1 24\n")
    checks.complete(name, made, 1, b"", b"refused 14 A 0\n")
    checks.both(name, made, 1, b"", b"refused 14 A 0\n", {})


def main():
    parser = argparse.ArgumentParser(description="Restores from volumes as operators find them, and compares what is said and done.")
    parser.add_argument("--program", default=PROGRAM, help="the program (default: %(default)s)")
    checks = Found(os.path.abspath(parser.parse_args().program))
    with tempfile.TemporaryDirectory() as folder:
        for case in (checks_cut, checks_nothing, checks_path, checks_data, checks_name, checks_disk, checks_way, checks_missing):
            case(checks, folder)
    return 1 if checks.failed else 0


if __name__ == "__main__":
    sys.exit(main())
