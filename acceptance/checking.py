#!/usr/bin/env python3
"""Runs `brestore check` over volumes that Bacula wrote, whole and spoilt, and compares what it prints.

    acceptance/checking.py                     needs the program in crates/brestore/out
    acceptance/checking.py --program FILE      another program

What a check of a case must find is worked out from the case's manifest: its files and their bytes, the files that can't be restored, the
paths that conflict, and those that come more than once. The memory is worked out from the fragments that `reading.py` finds. The status is
1 if something is not as expected.
"""

import argparse
import fcntl
import os
import re
import shutil
import struct
import subprocess
import sys
import tempfile
import termios
import time
from pathlib import Path

# Nothing is left beside the script.
sys.dont_write_bytecode = True
sys.path.insert(0, os.path.join(os.path.dirname(os.path.dirname(os.path.abspath(__file__))), "tools"))
from bacula import block_of, volume_label
from cases import unpack
from common import CASES, MIB, PROGRAM, SETS, Checks, unescaped
from delivered import is_on_the_way
from leaving import file_of, write_volume
from odd import line as manifest_line, record, records, write_case
from reading import Fault, groups_of, walk

NAME = "Vol-0001"
# What is missing of the case `order-inc` if nothing is there: its bootstrap counts four files of the first session, and one of the second.
NOTHING = f"missing 1 1795302931 1-2 {NAME}\nmissing 1 1795302931 4-5 {NAME}\nmissing 1 1795302940 1 {NAME}\n"
NOTHING += f"count 1 1795302931 4 0 {NAME}\ncount 1 1795302940 1 0 {NAME}\n"


def copy_lines(files):
    """Returns the lines of the files whose paths occur more than once: session, time, index and
    path of each."""
    lines = []
    for session, time, index, path in files:
        ages = [(int(it[1]), int(it[0]), int(it[2])) for it in files if it[3] == path]
        if len(ages) > 1:
            word = "newest" if (int(time), int(session), int(index)) == max(ages) else "older"
            lines.append(f"{word} {session} {time} {index} {path}\n")
    return lines


def conflict_lines(files):
    """Returns the lines of the files whose paths conflict with an earlier one that does not
    conflict itself."""
    lines, kept = [], []
    for session, time, index, path in files:
        own = unescaped(path.encode())
        if any(is_on_the_way(own, other) or is_on_the_way(other, own) for other in kept):
            lines.append(f"conflict {session} {time} {index} {path}\n")
        else:
            kept.append(own)
    return lines


def found(manifest):
    """Returns the findings in the files of a manifest, and the line of their number and bytes."""
    fields = [line.split(" ") for line in manifest.splitlines()]
    files = [it for it in fields if it[0] == "F"]
    faults = [it for it in fields if it[0] == "X"]
    lines = [" ".join(["file", it[4], *it[1:4], *it[5:]]) + "\n" for it in faults]
    named = [(*it[1:4], it[5]) for it in files]
    lines += conflict_lines(named) + copy_lines(named)
    return lines, f"total {len(files)} {sum(int(it[-2]) for it in files)}\n"


def fragments_of(bsr, volumes):
    """Returns the fragments that a bootstrap asks for on each volume that can be searched to its end, by file."""
    groups, fragments = groups_of(Path(bsr).read_bytes()), {}
    for name in dict.fromkeys(group[b"volume"] for group in groups):
        volume, on_it = Path(volumes) / name.decode(), {}
        own = [(n, group) for n, group in enumerate(groups) if group[b"volume"] == name]
        try:
            walk(volume.read_bytes() if volume.exists() else b"", own, on_it)
        except Fault:
            continue
        for key, hits in on_it.items():
            fragments.setdefault(key, []).extend(hits)
    return fragments


def memory_line(bsr, volumes, manifest, budget=1 << 30):
    """Returns the line with the memory that a restore of the files of a manifest needs."""
    fragments = fragments_of(bsr, volumes)
    files = [line.split(" ") for line in manifest.splitlines() if line.startswith("F ")]
    paths, size = sum(len(unescaped(it[5].encode())) for it in files), sum(int(it[-2]) for it in files)
    held = 64 * MIB + 200 * sum(len(hits) for hits in fragments.values()) + 400 * len(fragments)
    return f"memory {held + paths + min(budget, size)}\n"


def with_memory(text, bsr, volumes, manifest):
    """Returns what is expected of a check, with the line of the memory before that of the files."""
    return text.replace("total ", memory_line(bsr, volumes, manifest) + "total ")


class BootstrapChecks(Checks):
    def run(self, bsr, volumes, *options):
        words = [self.program, "check", "--bsr", bsr, "--volumes", volumes, *options]
        ran = subprocess.run(words, stdin=subprocess.DEVNULL, capture_output=True, text=True)
        return ran.returncode, ran.stdout, ran.stderr


def checks_cases(checks, folder):
    """Each case over its whole volumes."""
    for case in sorted(Path(CASES).iterdir()):
        volumes = folder / case.name
        unpack(Path(SETS) / (case / "set").read_text().strip(), volumes)
        before = {it.name: it.read_bytes() for it in volumes.iterdir()}
        refused = (case / "stderr").read_text()
        manifest = (case / "expected").read_text()
        lines, total = found(manifest)
        if refused:
            expected, small = ((1, "", refused),) * 2
        else:
            memories = [memory_line(case / "x.bsr", volumes, manifest, budget) for budget in (1 << 30, 10)]
            expected, small = [(1 if lines else 0, "".join(lines) + memory + total, "") for memory in memories]
        checks.check(case.name, checks.run(case / "x.bsr", volumes), expected)
        checks.check("and its memory for 10 bytes of data", checks.run(case / "x.bsr", volumes, "--memory", "10"), small)
        checks.check("and its checksums", checks.run(case / "x.bsr", volumes, "--checksums"), expected)
        checks.check("and its volumes stay", {it.name: it.read_bytes() for it in volumes.iterdir()} == before, True)


def new_volumes(folder):
    """Returns a new folder with the volume of the set `order`."""
    volumes = Path(tempfile.mkdtemp(dir=folder))
    shutil.copy(os.path.join(SETS, "order", NAME), volumes / NAME)
    return volumes


def checks_spoilt(checks, folder):
    """Volumes that are cut, damaged, missing, or another one's."""
    case = Path(CASES) / "order-inc"
    bsr, manifest = case / "x.bsr", (case / "expected").read_text()
    full = "".join(line for line in manifest.splitlines(keepends=True) if line.startswith("F 1 1795302931 "))
    total = found(manifest)[1]
    nothing = NOTHING + "total 0 0\n"
    volumes = new_volumes(folder)
    whole = (volumes / NAME).read_bytes()
    for name, data, expected, files in [
        ("a volume that ends before the last session", whole[:1656], f"missing 1 1795302940 1 {NAME}\ncount 1 1795302940 1 0 {NAME}\n{found(full)[1]}", full),
        ("a volume that ends within a block", whole[:1700], f"volume 12 {NAME} 1656\n{nothing}", ""),
        ("an empty volume", b"", nothing, ""),
        ("other bytes", b"These bytes are no block of a volume.", f"volume 10 {NAME} 0\n{nothing}", ""),
    ]:
        (volumes / NAME).write_bytes(data)
        checks.check(name, checks.run(bsr, volumes), (1, with_memory(expected, bsr, volumes, files), ""))
    os.remove(volumes / NAME)
    gone = with_memory(f"volume 14 {NAME} 0\n{nothing}", bsr, volumes, "")
    checks.check("a missing volume", checks.run(bsr, volumes), (1, gone, ""))
    checks.check("a missing folder", checks.run(bsr, volumes / "no"), (1, gone, ""))
    (volumes / NAME).write_bytes(whole)
    (volumes / "Vol-0002").write_bytes(whole)
    other = volumes / "other.bsr"
    other.write_text(bsr.read_text().replace(NAME, "Vol-0002"))
    label = with_memory(f"label Vol-0002 {NAME}\n{total}", other, volumes, manifest)
    checks.check("a volume under another name", checks.run(other, volumes), (1, label, ""))
    many = volumes / "many.bsr"
    many.write_text(f'Volume="A"\nVolume="{NAME}"\nVolSessionId=1\nVolSessionTime=1795302940\nFileIndex=1\nVolume="B C"\nVolume="D"\n')
    one = "".join(line for line in manifest.splitlines(keepends=True) if line.startswith("F 1 1795302940 "))
    gone = with_memory("volume 14 A 0\nvolume 14 B\\x20C 0\nvolume 14 D 0\ntotal 1 24\n", many, volumes, one)
    checks.check("three missing volumes", checks.run(many, volumes), (1, gone, ""))
    status, out, _ = checks.run(volumes / "no.bsr", volumes)
    checks.check("a bootstrap that is not there", (status, out), (3, ""))


def write_pair(folder):
    """Writes two volumes, with a file on the first one, a file on both, and a file on the second one. Returns the manifest."""
    files = [file_of(path, b"data") for path in (b"/a", b"/b", b"/c")]
    one, two, three = (records(index, file) for index, file in enumerate(files, 1))
    data = record(2, 2, b"data")
    (folder / "volumes").mkdir()
    for name, blocks in (("V", [one, two[: -len(data)]]), ("W", [data, three])):
        label = block_of(record(-2, 0, volume_label(name)), 0, 0, 0)
        (folder / "volumes" / name).write_bytes(label + b"".join(block_of(it, number, 1, 100) for number, it in enumerate(blocks, 1)))
    return b"".join(manifest_line(index, file) for index, file in enumerate(files, 1)).decode() + "total 3 0 0\n"


def flipped(data, at):
    """Returns the bytes with the last bit of one of them changed."""
    return data[:at] + bytes([data[at] ^ 1]) + data[at + 1 :]


def checks_flipped(checks, folder):
    """Volumes with one bit changed."""
    case = Path(CASES) / "order-inc"
    manifest = (case / "expected").read_text()
    path = "/tmp/peerlab/src/sub/f3"
    line = next(it for it in manifest.splitlines(keepends=True) if path in it)
    volumes = new_volumes(folder)
    whole = (volumes / NAME).read_bytes()
    # The attributes of the file. Before them are index, stream and length of their record; the last byte of the stream is 5 bytes before.
    at = whole.index(b"2 3 %s\0" % path.encode())
    for name, place, changed in [
        ("a path that is another file's", at + len(f"2 3 {path}") - 1, line.replace("sub/f3", "sub/f2")),
        ("attributes of another index", at, "X 1 1795302931 2 64\n"),
        ("a file without attributes", at - 5, "X 1 1795302931 2 63\n"),
        ("a time in the attributes, which is not compared", whole.index(b"BrAiYS", at) + 1, line),
    ]:
        (volumes / NAME).write_bytes(flipped(whole, place))
        files = manifest.replace(line, changed)
        lines, total = found(files)
        expected = with_memory("".join(lines) + total, case / "x.bsr", volumes, files)
        checks.check(name, checks.run(case / "x.bsr", volumes), (1 if lines else 0, expected, ""))
    last = at + len(f"2 3 {path}") - 1
    (volumes / NAME).write_bytes(whole[:last] + b"\xff" + whole[last + 1 :])
    _, total = found(manifest)
    odd = with_memory(f"name 1 1795302931 2 {path[:-1]}\\xff\n{total}", case / "x.bsr", volumes, manifest)
    checks.check("a path that is not UTF-8", checks.run(case / "x.bsr", volumes), (1, odd, ""))
    (volumes / NAME).write_bytes(flipped(whole, 206 + 12))
    status, out, _ = checks.run(case / "x.bsr", volumes)
    checks.check("a block of another level", (status, out.splitlines()[0]), (1, f"volume 10 {NAME} 206"))


def block_at(data, place):
    """Returns the address of the block that contains a place, and the address after it."""
    address = 0
    while True:
        end = address + int.from_bytes(data[address + 4 : address + 8], "big")
        if place < end:
            return address, end
        address = end


def checks_sums(checks, folder):
    """Blocks with one bit changed, with their checksums compared."""
    case = Path(CASES) / "order-inc"
    manifest = (case / "expected").read_text()
    lines, total = found(manifest)
    volumes = new_volumes(folder)
    clean = with_memory("".join(lines) + total, case / "x.bsr", volumes, manifest)
    whole = (volumes / NAME).read_bytes()
    # A letter of a time in the attributes of a file, which nothing else compares.
    place = whole.index(b"BrAiYS") + 1
    address, end = block_at(whole, place)
    unsigned = whole[:address] + bytes(4) + whole[address + 4 :]
    differs = f"checksum {NAME} {address}\n{clean}"
    for name, data, expected in [
        ("a byte of a block with a checksum", flipped(whole, place), differs),
        ("the last byte of the block", flipped(whole, end - 1), None),
        ("the checksum itself", flipped(whole, address + 3), differs),
        ("a block without a checksum", flipped(unsigned, place), clean),
        ("the label, which the bootstrap does not ask for", flipped(whole, 200), clean),
        ("a byte of each of two blocks", flipped(flipped(whole, place), len(whole) - 1), None),
    ]:
        (volumes / NAME).write_bytes(data)
        status, out, _ = checks.run(case / "x.bsr", volumes, "--checksums")
        if expected is None:
            addresses = [block_at(whole, at)[0] for at in range(len(whole)) if data[at] != whole[at]]
            told = [line for line in out.splitlines() if line.startswith("checksum ")]
            checks.check(name, (status, told), (1, [f"checksum {NAME} {it}" for it in addresses]))
        else:
            checks.check(name, (status, out), (1 if expected != clean or lines else 0, expected))
        plain = checks.run(case / "x.bsr", volumes)
        checks.check("and no checksums are compared without --checksums", "checksum" in plain[1], False)
    (volumes / NAME).write_bytes(flipped(whole, place)[:1700])
    status, out, _ = checks.run(case / "x.bsr", volumes, "--checksums")
    told = [line for line in out.splitlines() if line.split(" ")[0] in ("checksum", "volume")]
    checks.check("a volume that ends within a later block", (status, told), (1, [f"volume 12 {NAME} 1656", f"checksum {NAME} {address}"]))


def checks_at_once(checks, folder):
    """Blocks that all differ, while nobody reads the lines: the program waits at a full pipe before it reads most of them for checksums,
    after it read all of them once."""
    made, size, count, room = Path(tempfile.mkdtemp(dir=folder)), 2**18, 1024, 4096
    data = struct.pack(">iiI", 1, 2, size - 36) + bytes(size - 36)
    with open(made / "V", "wb") as volume:
        for number in range(count):
            volume.write(struct.pack(">III4sII", 1, size, number, b"BB02", 1, 100) + data)
    (made / "x.bsr").write_text("Volume=V\n")
    words = [checks.program, "check", "--bsr", made / "x.bsr", "--volumes", made, "--checksums"]
    lines, into = os.pipe()
    fcntl.fcntl(into, fcntl.F_SETPIPE_SZ, room)
    ends = time.monotonic() + 60
    with subprocess.Popen(words, stdout=into) as program:
        os.close(into)
        while struct.unpack("i", fcntl.ioctl(lines, termios.FIONREAD, bytes(4)))[0] < room - 64 and time.monotonic() < ends:
            time.sleep(0.01)
        read = int(re.search(r"^rchar: (\d+)$", Path(f"/proc/{program.pid}/io").read_text(), re.MULTILINE)[1])
        program.kill()
    told = os.read(lines, room)
    os.close(lines)
    first = told[told.index(b"checksum V ") :].split(b"\n")[:2]
    checks.check("lines that nobody reads", (first, read < size * count * 3 // 2), ([b"checksum V 0", b"checksum V %d" % size], True))


def checks_long(checks, folder):
    """Names of 255 and 256 bytes, and paths up to 4,096 bytes: the check says which of them a folder takes, and a restore by them agrees."""
    deep = b"/".join([b"", *[b"d" * 200] * 20, b""])
    long = {b"/" + b"n" * 255: False, b"/" + b"n" * 256: True, b"/" + b"m" * 256 + b"/f": True, deep + b"e" * (4094 - len(deep)): False}
    long[deep + b"e" * (4095 - len(deep))] = long[deep + b"e" * (4096 - len(deep))] = True
    made = Path(tempfile.mkdtemp(dir=folder))
    manifest = write_volume(made, [(path, b"data") for path in long])
    wanted = [line.split(b" ") for line in manifest.splitlines()]
    lines = [b" ".join([b"long", *it[1:4], it[5]]).decode() + "\n" for it, is_long in zip(wanted, long.values()) if is_long]
    expected = with_memory("".join(lines) + f"total {len(long)} {4 * len(long)}\n", made / "x.bsr", made / "volumes", manifest.decode())
    checks.check("long names", checks.run(made / "x.bsr", made / "volumes"), (1, expected, ""))
    # The folder is named by one byte.
    (made / "o").mkdir()
    words = [checks.program, "extract", "--bsr", "x.bsr", "--volumes", "volumes", "--into", "o", "--keep-going"]
    ran = subprocess.run(words, cwd=made, stdin=subprocess.DEVNULL, capture_output=True)
    left = b"".join(b"left 80 " + it[5] + b"\n" for it, is_long in zip(wanted, long.values()) if is_long)
    checks.check("and a restore of them", (ran.returncode, ran.stdout, ran.stderr), (1, manifest, left))


def checks_conflicts(checks, folder):
    """Paths that conflict: the lines of a check name the files that a restore leaves out for
    them."""
    paths = [b"/a/b", b"/a", b"/a/", b"/a/b/c", b"/ab", b"/a/b/", b"/d/e/f", b"/d/e", b"/d/e/g"]
    made = Path(tempfile.mkdtemp(dir=folder))
    manifest = write_volume(made, [(path, b"data") for path in paths])
    odd = [f"name 1 100 {index} {path.decode()}\n" for index, path in enumerate(paths, 1) if path.endswith(b"/")]
    conflicting = [(2, b"/a"), (4, b"/a/b/c"), (6, b"/a/b/"), (8, b"/d/e")]
    lines = [f"conflict 1 100 {index} {path.decode()}\n" for index, path in conflicting]
    expected = with_memory("".join(odd + lines) + "total 9 36\n", made / "x.bsr", made / "volumes", manifest.decode())
    checks.check("paths that conflict", checks.run(made / "x.bsr", made / "volumes"), (1, expected, ""))
    (made / "into").mkdir()
    words = [checks.program, "extract", "--bsr", made / "x.bsr", "--volumes", made / "volumes", "--into", made / "into", "--keep-going"]
    ran = subprocess.run(words, stdin=subprocess.DEVNULL, capture_output=True)
    left = b"".join(b"left 81 %s\n" % path for _, path in conflicting) + b"left 80 /a/\n"
    checks.check("and a restore of them", (ran.returncode, ran.stdout, ran.stderr), (1, manifest, left))


def checks_counts(checks, folder):
    """Groups that count more files than there are, on a volume that is complete or cut, and on two
    volumes that share a file."""
    group = "Volume={}\nVolSessionId=1\nVolSessionTime={}\n"
    full, last = group.format(NAME, 1795302931), group.format(NAME, 1795302940)
    volumes = new_volumes(folder)
    whole = (volumes / NAME).read_bytes()
    bsr = volumes / "x.bsr"
    for name, text, size, expected in [
        ("as many files as are counted", full + "Count=5\n" + last + "Count=1\n", None, ""),
        ("as many with indexes", full + "FileIndex=1-2147483647\nCount=5\n", None, ""),
        ("one file too few", full + "Count=6\n", None, f"count 1 1795302931 6 5 {NAME}\n"),
        ("one file too few with indexes", full + "FileIndex=2-2147483647\nCount=5\n", None, f"count 1 1795302931 5 4 {NAME}\n"),
        ("a cut volume", full + "Count=5\n" + last + "Count=1\n", 1656, f"count 1 1795302940 1 0 {NAME}\n"),
        ("a cut volume and all indexes", last + "FileIndex=1-2147483647\nCount=1\n", 1656, f"count 1 1795302940 1 0 {NAME}\n"),
        ("a cut volume and an index", last + "FileIndex=1\nCount=1\n", 1656, f"missing 1 1795302940 1 {NAME}\ncount 1 1795302940 1 0 {NAME}\n"),
        ("the last of some counts", last + "Count=7\ncount = 1 # one\nCount=x\n", None, ""),
    ]:
        bsr.write_text(text)
        (volumes / NAME).write_bytes(whole[:size])
        status, out, told = checks.run(bsr, volumes)
        lines = "".join(line for line in out.splitlines(keepends=True) if line.split(" ")[0] in ("missing", "count"))
        checks.check(name, (status if lines else 0, lines, told), (1 if expected else 0, expected, ""))
        words = [checks.program, "extract", "--bsr", bsr, "--volumes", volumes, "--complete"]
        ran = subprocess.run(words, stdin=subprocess.DEVNULL, capture_output=True, text=True)
        checks.check("and --complete", (ran.returncode, ran.stderr), (1 if expected else 0, expected))
        ran = subprocess.run(words[:-1], stdin=subprocess.DEVNULL, capture_output=True, text=True)
        checks.check("and a restore without it", (ran.returncode, ran.stderr), (0, ""))
    # The second file begins on the first volume and ends on the second one, where the third is.
    made = Path(tempfile.mkdtemp(dir=folder))
    manifest = write_pair(made)
    pair = group.format("V", 100) + "FileIndex=1-2\nCount={}\n" + group.format("W", 100) + "FileIndex=2-3\nCount={}\n"
    for counts, expected in [((2, 2), ""), ((3, 2), "count 1 100 3 2 V\n"), ((2, 3), "count 1 100 3 2 W\n")]:
        (made / "x.bsr").write_text(pair.format(*counts))
        lines = with_memory(expected + "total 3 12\n", made / "x.bsr", made / "volumes", manifest)
        checks.check(f"two volumes of {counts} files", checks.run(made / "x.bsr", made / "volumes"), (1 if expected else 0, lines, ""))


def checks_kinds(checks, folder):
    """Files of each type: what a folder skips, and two files that it can't take."""
    case, volumes = write_case(folder)
    manifest = (case / "expected").read_text()
    paths = {int(line.split(" ")[3]): line.split(" ")[5] for line in manifest.splitlines() if line.startswith("F ")}
    words = {3: "name", 7: "skipped", 8: "skipped", 9: "skipped", 10: "skipped", 11: "skipped", 6: "long"}
    lines = "".join(f"{word} 1 100 {index} {paths[index]}\n" for index, word in words.items())
    lines = with_memory(lines + found(manifest)[1], case / "x.bsr", volumes, manifest)
    checks.check("files of each type", checks.run(case / "x.bsr", volumes), (1, lines, ""))


def checks_mistakes(checks, folder):
    """Other files that an operator may give as the bootstrap or its volumes."""
    bsr = Path(CASES) / "order-inc" / "x.bsr"
    volumes = new_volumes(folder)
    lines = bsr.read_text()
    spoilt = volumes / "spoilt.bsr"
    for name, text, expected in [
        ("an empty bootstrap", "", (1, f"empty\nmemory {64 * MIB}\ntotal 0 0\n", "")),
        ("one with a comment alone", "# none\n", (1, f"empty\nmemory {64 * MIB}\ntotal 0 0\n", "")),
        ("a line that is not supported", lines + "Job=1\n", (1, "", f"refused 32 line {len(lines.splitlines()) + 1}\n")),
        ("an unknown word in the first line", "Volumes=A\n" + lines, (1, "", "refused 31 line 1\n")),
    ]:
        spoilt.write_text(text)
        checks.check(name, checks.run(spoilt, volumes), expected)
    status, out, _ = checks.run(volumes, volumes)
    checks.check("a folder in place of the bootstrap", (status, out), (3, ""))
    unpack(Path(SETS) / "swap", volumes / "swap")
    missing = NOTHING + f"memory {64 * MIB}\ntotal 0 0\n"
    checks.check("the volume of another set", checks.run(bsr, volumes / "swap"), (1, missing, ""))
    words = [checks.program, "check", "--bsr", bsr, "--volumes", volumes]
    with open("/dev/full", "w") as full:
        ran = subprocess.run(words, stdin=subprocess.DEVNULL, stdout=full, stderr=subprocess.PIPE, text=True)
    checks.check("a full output", (ran.returncode, ran.stderr[:26]), (3, "brestore: standard output:"))


def main():
    parser = argparse.ArgumentParser(description="Checks bootstraps over volumes, and compares what is found.")
    parser.add_argument("--program", default=PROGRAM, help="the program (default: %(default)s)")
    checks = BootstrapChecks(os.path.abspath(parser.parse_args().program))
    with tempfile.TemporaryDirectory() as folder:
        checks_cases(checks, Path(folder))
        checks_spoilt(checks, Path(folder))
        checks_flipped(checks, Path(folder))
        checks_sums(checks, Path(folder))
        checks_at_once(checks, Path(folder))
        checks_long(checks, Path(folder))
        checks_conflicts(checks, Path(folder))
        checks_counts(checks, Path(folder))
        checks_kinds(checks, Path(folder))
        checks_mistakes(checks, Path(folder))
    return 1 if checks.failed else 0


if __name__ == "__main__":
    sys.exit(main())
