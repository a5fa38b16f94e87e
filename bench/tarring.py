#!/usr/bin/env python3
"""Measures `brestore extract --tar - | cat > FILE` beside `extract --into` over the same volumes and the same bootstrap.

The sets are those of extract.py: one of many small files, and one of few large ones. The program delivers each into a new folder, as
a stream that `cat` writes to a file, and as a stream that it writes to a file itself, in turns, many times, each time with another
one first. The medians of the processor's time, that of `cat` with it, are compared, since these depend less than seconds on what
else the machine does; so are the medians of the seconds. What was delivered is compared with the manifest, path by path and digest
by digest, and of each stream the entries too, as Python's `tarfile` reads them.

A folder has regular files and folders only, without owner, mode and time; a stream has links, owners, modes and times too. Neither
is flushed to the disk. What was compared is cut to nothing, so that little goes to the disk. The script needs Python 3.11.

    bench/tarring.py                    256 MiB a set, 15 runs of each
    bench/tarring.py --quick            16 MiB a set, two runs of each: whether all is right, not how fast it is
    bench/tarring.py --folder DIR       keeps the sets there, and takes those that are there already
    bench/tarring.py --program FILE     another program than crates/brestore/out/brestore
    bench/tarring.py --drives N         reads with N drives

The status is 1 if the program failed or delivered other files, and with --strict if a target was missed.
"""

import argparse
import hashlib
import os
import shutil
import statistics
import subprocess
import sys
import tarfile
import tempfile
import time

# Nothing is left beside the script.
sys.dont_write_bytecode = True
sys.path.insert(0, os.path.join(os.path.dirname(os.path.dirname(os.path.abspath(__file__))), "tools"))
from common import MIB, PROGRAM, escaped, run_measured
from delivering import count_lines, delivered, empty_files, wanted
from extract import KINDS, make, same_bytes

MOST_TIME = 1.1
WAYS = {"into": "--into", "piped": "--tar - | cat", "file": "--tar FILE"}
# The number of entries of each type in a stream, by the manifest's type of a file.
TYPES = {"2": tarfile.REGTYPE, "3": tarfile.REGTYPE, "4": tarfile.SYMTYPE, "5": tarfile.DIRTYPE}


def read_options():
    parser = argparse.ArgumentParser(description="Measures `brestore extract --tar` beside `extract --into`.")
    parser.add_argument("--program", default=PROGRAM, help="the program (default: %(default)s)")
    parser.add_argument("--size", type=int, default=256, metavar="MIB", help="bytes of files in a set (default: %(default)s MiB)")
    parser.add_argument("--quick", action="store_true", help="sets of 16 MiB, and two runs of each")
    parser.add_argument("--repeats", type=int, default=15, metavar="N", help="runs of each (default: %(default)s)")
    parser.add_argument("--kind", choices=KINDS, action="append", help="these sets only (default: all)")
    parser.add_argument("--drives", type=int, default=6, metavar="N", help="the number of drives (default: %(default)s)")
    parser.add_argument("--seed", type=int, default=1, help="of the files' bytes")
    parser.add_argument("--folder", help="where the sets are made and stay (default: a temporary folder)")
    parser.add_argument("--strict", action="store_true", help="status 1 also if a target is missed")
    parser.add_argument("--list", nargs=2, help=argparse.SUPPRESS)
    options = parser.parse_args()
    if options.quick:
        options.size, options.repeats = 16, 2
    return options


def run_piped(words, output, errors):
    """Runs a child whose standard output `cat` writes to a file.

    Returns what `run_measured` does, with the processor's time of both, the peak memory of the first, and its status or that of `cat`.
    """
    source, target = os.pipe()
    flags = os.O_WRONLY | os.O_CREAT | os.O_TRUNC
    start = time.monotonic()
    actions = [(os.POSIX_SPAWN_DUP2, target, 1), (os.POSIX_SPAWN_OPEN, 2, errors, flags, 0o644)]
    child = os.posix_spawnp(words[0], words, os.environ, file_actions=actions)
    actions = [(os.POSIX_SPAWN_DUP2, source, 0), (os.POSIX_SPAWN_OPEN, 1, output, flags, 0o644)]
    cat = os.posix_spawnp("cat", ["cat"], os.environ, file_actions=actions)
    os.close(source)
    os.close(target)
    (_, status, usage), (_, other_status, other) = os.wait4(child, 0), os.wait4(cat, 0)
    seconds = time.monotonic() - start
    busy = sum(it.ru_utime + it.ru_stime for it in (usage, other))
    return seconds, usage.ru_maxrss * 1024, busy, os.waitstatus_to_exitcode(status) or os.waitstatus_to_exitcode(other_status)


def streamed(file):
    """Returns a line for each entry of a stream: type, path, link and digest."""
    with tarfile.open(file, "r:", encoding="utf-8", errors="surrogateescape") as stream:
        for entry in stream:
            digest = hashlib.file_digest(stream.extractfile(entry), "md5").hexdigest() if entry.isreg() else "-"
            name, link = (escaped(os.fsencode(text)) for text in (entry.name, entry.linkname))
            yield f"{entry.type.decode()} /{name} ={link} {digest}\n"


def entries(manifest):
    """Returns the same of each file in a manifest."""
    with open(manifest) as lines:
        for line in lines:
            words = line.split()
            if words[0] == "F":
                kind = TYPES[words[4]]
                digest = words[-1] if kind == tarfile.REGTYPE else "-"
                path = words[5].rstrip("/")
                yield f"{kind.decode()} {path} {words[7] if kind == tarfile.SYMTYPE else '='} {digest}\n"


def list_in_child(words):
    """Lists what a manifest, a folder or a stream has, in order."""
    source, output = words
    read = delivered if os.path.isdir(source) else streamed if source.endswith(".tar") else entries
    if output.endswith("-files"):
        read = wanted
    with open(output, "w") as file:
        file.writelines(sorted(read(source)))


class Tarring:
    """A set, the ways of delivering it, and what was measured."""

    def __init__(self, folder, kind, facts, options):
        self.folder, self.kind, self.facts = folder, kind, facts
        self.words = [options.program, "extract", "--bsr", self.path("bootstrap"), "--volumes", self.path("volumes")]
        self.words += ["--drives", str(options.drives)]
        self.runs = {way: [] for way in WAYS}
        self.is_right = True

    def path(self, name):
        return os.path.join(self.folder, name)

    def list(self, source, name):
        """Lists a manifest, a folder or a stream, in a process of its own, so that this one stays small."""
        subprocess.run([sys.executable, os.path.abspath(__file__), "--list", source, self.path(name)], check=True)

    def prepare(self):
        """Reads the volumes into the system's memory, and lists what is to be delivered."""
        run_measured(["cat", *(os.path.join(self.path("volumes"), name) for name in self.facts["volumes"])], os.devnull)
        self.list(self.path("manifest"), "wanted-files")
        self.list(self.path("manifest"), "wanted-entries")

    def deliver(self, way, out, printed):
        """Delivers into a new folder or file."""
        if way == "into":
            os.makedirs(out)
            return run_measured([*self.words, "--into", out], printed)
        if way == "piped":
            return run_piped([*self.words, "--tar", "-"], out, printed)
        return run_measured([*self.words, "--tar", out], printed)

    def run(self, way, new, turn):
        """Delivers once, and checks what was printed and delivered."""
        out, printed = os.path.join(new, f"{way}-{turn}.tar"), self.path(f"printed-{way}")
        *measured, status = self.deliver(way, out, printed)
        self.runs[way].append(measured)
        self.list(out, f"list-{way}")
        listed, expected = self.path(f"list-{way}"), self.path("wanted-files" if way == "into" else "wanted-entries")
        if status != 0 or not same_bytes(printed, self.path("manifest")) or not same_bytes(listed, expected):
            print(f"{self.kind}: {WAYS[way]}: status {status}, or {printed} or {listed} is not what it should be")
            self.is_right = False
        if way == "into":
            empty_files(out)
        else:
            os.truncate(out, 0)

    def take_turns(self, repeats):
        with tempfile.TemporaryDirectory(dir=self.folder, prefix="delivered-") as new:
            # The first run is not counted.
            self.run("into", new, "first")
            self.runs["into"].clear()
            for turn in range(repeats):
                ways = list(WAYS)
                for way in ways[turn % 3 :] + ways[: turn % 3]:
                    self.run(way, new, turn)

    def ratio(self, way, place):
        """Returns the ratio of the medians, and the median of the ratios of two runs of the same turn."""
        ours, theirs = ([measured[place] for measured in self.runs[it]] for it in (way, "into"))
        return statistics.median(ours) / statistics.median(theirs), statistics.median(a / b for a, b in zip(ours, theirs))

    def show(self):
        """Prints what was measured. Returns whether the targets are met."""
        print(f"{self.kind}: {count_lines(self.path('wanted-files'))} regular files, {self.facts['restored_bytes'] / MIB:.1f} MiB")
        for way, shown in WAYS.items():
            seconds, memory, busy = zip(*self.runs[way])
            print(f"  {shown:14} {statistics.median(busy):.3f} s of the processor ({min(busy):.3f} to {max(busy):.3f})", end="")
            print(f"  {statistics.median(seconds):.3f} s ({min(seconds):.3f} to {max(seconds):.3f})  {max(memory) / MIB:.0f} MiB")
        are_met = True
        for way in ("piped", "file"):
            for what, place in (("processor's time", 2), ("seconds", 0)):
                medians, pairs = self.ratio(way, place)
                met = "" if way == "file" else f"  at most {MOST_TIME}  {'met' if medians <= MOST_TIME else 'MISSED'}"
                are_met &= way == "file" or medians <= MOST_TIME
                print(f"  {what} of {WAYS[way]} by --into: {medians:.3f} (ratios of a turn: {pairs:.3f}){met}")
        print(f"  {'the files and entries of the manifest, with its digests' if self.is_right else 'WRONG'}", flush=True)
        return are_met


def measure(folder, kind, options):
    """Measures a kind's set. Returns whether all was right, and whether the targets are met."""
    place = os.path.join(os.path.abspath(folder), f"{kind}-whole")
    facts = make(place, kind, options.size * MIB, options.seed, 0)
    tarring = Tarring(place, kind, facts, options)
    tarring.prepare()
    tarring.take_turns(options.repeats)
    are_met = tarring.show()
    return tarring.is_right, are_met


def main():
    options = read_options()
    if options.list:
        list_in_child(options.list)
        return 0
    if not os.access(options.program, os.X_OK):
        print(f"there is no program {options.program}: tools/prove_all makes it")
        return 1
    folder = options.folder or tempfile.mkdtemp(prefix="brestore-bench-")
    os.makedirs(folder, exist_ok=True)
    print(f"load {os.getloadavg()[0]:.1f} on {os.cpu_count()} processors; {options.repeats} runs of each, {options.drives} drives")
    try:
        verdicts = [measure(folder, kind, options) for kind in options.kind or KINDS]
    finally:
        if options.folder is None:
            shutil.rmtree(folder, ignore_errors=True)
    is_right, are_met = (all(it) for it in zip(*verdicts))
    return 0 if is_right and (are_met or not options.strict) else 1


if __name__ == "__main__":
    sys.exit(main())
