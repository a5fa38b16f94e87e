#!/usr/bin/env python3
"""Runs `brestore extract --tar` over volumes that Bacula wrote, and has other programs read the streams.

    acceptance/tarred.py [EXECUTABLE] [CASE..]

Without an executable it is the proved program, or else the one that tools/build makes. Each case is run with `--tar FILE` and a new
file, and with `--tar -`. Both streams have to be the same, and everything else that is printed as README.md says. From the expected
manifest the script works out what entries the stream must have. Python's `tarfile` has to read just these; GNU tar has to list and
to unpack them without a word, and so has bsdtar if there is one. What both unpacked is compared path by path: type, mode, time,
length and digest, link, and if root runs the script owner and device. If there is Bacula's `bextract`, and root runs the script,
what it restores is compared with what GNU tar unpacked (bextracted.py). A last run, into the same file, has to be refused and to
change nothing. The case `odd` is none of Bacula's: odd.py writes it, and only root can unpack it.
"""
import codecs
import hashlib
import os
import shutil
import stat as stat_module
import subprocess
import sys
import tarfile
import tempfile
from pathlib import Path

# Nothing is left beside the script.
sys.dont_write_bytecode = True
sys.path.insert(0, os.path.join(os.path.dirname(os.path.dirname(os.path.abspath(__file__))), "tools"))
from bacula import find_bextract
from bextracted import compare_with_bextract
from cases import unpack
from common import CASES, PROGRAM, SETS, escaped, unescaped
from delivered import is_on_the_way
from odd import write_case

# GNU tar warns of each time before 1970 and after today, and sets it.
LISTERS = {
    "GNU tar": ["tar", "--list", "--quoting-style=escape", "--warning=no-timestamp"],
    "bsdtar": ["bsdtar", "-t"],
}
UNPACKERS = {
    "GNU tar": ["tar", "--extract", "--preserve-permissions", "--numeric-owner", "--delay-directory-restore", "--warning=no-timestamp"],
    "bsdtar": ["bsdtar", "-x", "-p", "--numeric-owner"],
}


FORMATS = {
    tarfile.REGTYPE: stat_module.S_ISREG,
    tarfile.DIRTYPE: stat_module.S_ISDIR,
    tarfile.CHRTYPE: stat_module.S_ISCHR,
    tarfile.BLKTYPE: stat_module.S_ISBLK,
    tarfile.FIFOTYPE: stat_module.S_ISFIFO,
}
DEVICES = (tarfile.CHRTYPE, tarfile.BLKTYPE)


def kind_of(kind, path, mode, link):
    """Returns the type of a file's entry, or None if it has none."""
    if kind == 5:
        return tarfile.DIRTYPE
    if path.endswith(b"/"):
        return None
    if kind in (2, 3):
        return tarfile.REGTYPE
    if kind == 1:
        names = link[1:].split(b"/")
        is_path = link[:1] == b"/" and b"\0" not in link and not {b"", b".", b".."} & set(names)
        return tarfile.LNKTYPE if is_path else None
    if kind == 4:
        return tarfile.SYMTYPE if link and b"\0" not in link else None
    formats = {0o2: tarfile.CHRTYPE, 0o6: tarfile.BLKTYPE, 0o1: tarfile.FIFOTYPE}
    return formats.get(mode >> 12 & 15) if kind > 5 and kind != 23 else None


def device_of(number):
    """Returns the major and the minor number of a device, as Linux packs them."""
    return number >> 8 & 0xFFF, number & 0xFF | number >> 12 & 0xFFF00


def entries_of(manifest):
    """Returns the entries that the stream must have, the number of files without an entry, and the
    number with which the delivery stops."""
    entries, left_out, put = [], 0, []
    for line in manifest.splitlines():
        fields = line.split(b" ")
        if fields[0] != b"F":
            continue
        path, stat = unescaped(fields[5]), [int(number) for number in fields[6].split(b",")]
        if any(is_on_the_way(path, earlier) or is_on_the_way(earlier, path) for earlier in put):
            return entries, left_out, 81
        put.append(path)
        link = unescaped(fields[7][1:])
        kind = kind_of(int(fields[4]), path, stat[2], link)
        if kind is None:
            left_out += 1
            continue
        is_file = kind == tarfile.REGTYPE
        entries.append({
            "name": path[1:].rstrip(b"/") or b".",
            "type": kind,
            "mode": stat[2] & 0o7777,
            "owner": (stat[4] % 2**32, stat[5] % 2**32),
            "mtime": stat[11],
            "link": link if kind == tarfile.SYMTYPE else link[1:] if kind == tarfile.LNKTYPE else b"",
            "content": tuple(fields[-2:]) if is_file else None,
            "device": device_of(stat[6]) if kind in DEVICES else None,
        })
    return entries, left_out, None


def content_of(data):
    return str(len(data)).encode(), hashlib.md5(data).hexdigest().encode()


def entries_read(file):
    """Returns the entries that Python's tarfile reads, in the form of `entries_of`."""
    read = []
    with tarfile.open(file, "r:", encoding="utf-8", errors="surrogateescape") as stream:
        for entry in stream:
            read.append({
                "name": os.fsencode(entry.name),
                "type": entry.type,
                "mode": entry.mode,
                "owner": (entry.uid, entry.gid),
                "mtime": entry.mtime,
                "link": os.fsencode(entry.linkname),
                "content": content_of(stream.extractfile(entry).read()) if entry.isreg() else None,
                "device": (entry.devmajor, entry.devminor) if entry.type in DEVICES else None,
            })
    return read


def names_listed(words, file):
    """Returns the names that a program lists, and its other output."""
    run = subprocess.run([*words, "-f", file], stdin=subprocess.DEVNULL, capture_output=True, check=False)
    names = [codecs.escape_decode(line)[0] for line in run.stdout.splitlines()]
    return [name.rstrip(b"/") for name in names], (run.returncode, run.stderr)


def is_split(entries, folder):
    """Returns whether the entry of a folder comes between entries of its files. bsdtar sets the time of such a folder too early."""
    below = [entry["name"].startswith(folder["name"] + b"/") for entry in entries]
    place = entries.index(folder)
    return folder["type"] == tarfile.DIRTYPE and any(below[:place]) and any(below[place:])


def is_unpacked(entry, has_time):
    """Returns whether an entry was unpacked as it is into the working folder, its time too if it has one."""
    path = entry["name"]
    if not os.path.lexists(path):
        return False
    if entry["type"] == tarfile.LNKTYPE:
        return os.path.samefile(path, entry["link"])
    stat = os.lstat(path)
    if os.geteuid() == 0 and (stat.st_uid, stat.st_gid) != entry["owner"]:
        return False
    if has_time and stat.st_mtime_ns // 10**9 != entry["mtime"]:
        return False
    if entry["type"] == tarfile.SYMTYPE:
        return os.readlink(path) == entry["link"]
    if FORMATS[entry["type"]](stat.st_mode) and stat.st_mode & 0o7777 == entry["mode"]:
        if entry["type"] in DEVICES:
            return (os.major(stat.st_rdev), os.minor(stat.st_rdev)) == entry["device"]
        return entry["content"] is None or content_of(Path(os.fsdecode(path)).read_bytes()) == entry["content"]
    return False


def differences(words, expected):
    """Returns the differences of a run from the expected status, standard output and standard
    error."""
    run = subprocess.run(words, stdin=subprocess.DEVNULL, capture_output=True, check=False)
    names = ("status", "standard output", "standard error")
    return [name for name, answer, wanted in zip(names, (run.returncode, run.stdout, run.stderr), expected) if answer != wanted]


def unpacking_faults(file, entries, folder):
    """Returns which programs list or unpack the stream differently, or with a warning."""
    wrong = []
    for name, words in LISTERS.items():
        if shutil.which(words[0]) and names_listed(words, file) != ([entry["name"] for entry in entries], (0, b"")):
            wrong.append(f"the names as {name} lists them")
    # Of entries of the same name the last one counts.
    last = {entry["name"]: entry for entry in entries}
    for name, words in UNPACKERS.items():
        if not shutil.which(words[0]):
            continue
        target = folder / words[0]
        target.mkdir()
        wrong += [f"{what} of {name}" for what in differences([*words, "-f", file, "-C", target], (0, b"", b""))]
        # The longest path is one that the system takes, but not with the folder before it.
        os.chdir(target)
        for entry in last.values():
            if not is_unpacked(entry, name != "bsdtar" or not is_split(entries, entry)):
                wrong.append(f"{entry['name']!r} as {name} unpacked it")
        os.chdir("/")
    return wrong


def case_of(name, folder):
    """Returns the folder of a case, and one with its volumes."""
    if name == "odd":
        return write_case(folder)
    case = Path(CASES) / name
    volumes = folder / (case / "set").read_text().strip()
    unpack(Path(SETS) / volumes.name, volumes)
    return case, volumes


def faults(executable, case, volumes, folder):
    """Returns the differences between the runs of a case and what is expected."""
    file = folder / "restored.tar"
    words = [executable, "extract", "--bsr", case / "x.bsr", "--volumes", volumes, "--tar"]
    status, manifest, errors = int((case / "status").read_text()), (case / "expected").read_bytes(), (case / "stderr").read_bytes()
    entries, left_out, stop = entries_of(manifest)
    if stop is not None:
        status, errors = 1, errors + b"refused %d\n" % stop
    elif left_out:
        errors += b"left out %d\n" % left_out
    wrong = differences([*words, file], (status, manifest, errors))
    stream = file.read_bytes()
    wrong += [f"{name} with -" for name in differences([*words, "-"], (status, stream, manifest + errors))]
    wrong += [f"{name} of a second run" for name in differences([*words, file], (1, b"", b"refused 81\n"))]
    if file.read_bytes() != stream:
        wrong.append("the file after a second run")
    if not manifest or stop is not None:
        return wrong if manifest or not stream else wrong + ["the stream of a refused restore"]
    if len(stream) % 10240 or stream[-1024:] != bytes(1024):
        wrong.append("the end of the stream")
    if entries_read(file) != entries:
        wrong.append("the entries")
    return wrong + unpacking_faults(file, entries, folder)


def beside_bextract(program, case, volumes, unpacked):
    """Returns the differences from bextract, and a remark on the comparison."""
    if not unpacked.exists():
        return [], "nothing was restored to compare with bextract"
    wrong, known = compare_with_bextract(program, case, volumes, unpacked)
    if wrong:
        return [f"{what} beside bextract" for what in wrong], "bextract restored something else"
    shown = [f"{what} ({', '.join(escaped(path[-40:]) for path in paths)})" for what, paths in known.items()]
    return [], "the same as bextract restored" + ", but for " * bool(known) + ", and ".join(shown)


def run_case(executable, name, bextract):
    """Runs a case. Returns the differences, and a remark on the comparison with bextract."""
    with tempfile.TemporaryDirectory() as place:
        folder = Path(place)
        case, volumes = case_of(name, folder)
        wrong = faults(executable, case, volumes, folder)
        if bextract is None:
            return wrong, None
        differing, said = beside_bextract(bextract, case, volumes, folder / "tar")
        return wrong + differing, said


def main(arguments):
    executable = Path(arguments[0]).resolve() if arguments else Path(PROGRAM)
    names = arguments[1:] or [*sorted(case.name for case in Path(CASES).iterdir()), "odd"]
    bextract = find_bextract() if os.geteuid() == 0 else None
    if bextract is None:
        print("not compared with bextract: it is not there (Debian's package bacula-sd), or the script is not run by root")
    failed = 0
    for name in names:
        wrong, said = run_case(executable, name, bextract)
        failed += bool(wrong)
        print(f"{name}: {'differs in ' + ', '.join(wrong) if wrong else 'as expected'}" + (f"; {said}" if said else ""))
    print(f"{len(names) - failed} as expected, {failed} not")
    return 1 if failed else 0


if __name__ == "__main__":
    sys.exit(main(sys.argv[1:]))
