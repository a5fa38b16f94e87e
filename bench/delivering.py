#!/usr/bin/env python3
"""Measures `brestore extract --into` beside Bacula's own `bextract` over the same volumes and the same bootstrap.

Two sets of volumes are made: one of many small files (4 KiB to 64 KiB, one session), and one of few large files (256 MiB each, over
several volumes). Both programs deliver each into a new empty folder, in turns. Turns are taken too by `brestore extract` without a
folder, which shows what the delivery itself costs, and by `md5sum` of what `bextract` delivered, which is what it leaves
unchecked. The regular files of both folders are compared with the manifest, path by path and digest by digest.

The two don't do the same work:

    brestore    computes the MD5 digest of each file, compares it, and prints the manifest; reads all before it writes anything;
                writes regular files and folders only, without owner, mode and time
    bextract    compares the checksum of each block, and no file's digest; writes what it reads at once; writes symbolic links
                too (and hard ones, of which there are none here), and sets owner, mode and times; prints a line for each file

Of the folders only regular files are compared. Neither flushes its files to the disk. `bextract` mixes up the files of sessions that
take turns on a volume, so the small files are of one session here. It is in Debian's package bacula-sd (no daemon is needed). The
script needs Python 3.11.

What was delivered and compared is cut to nothing, so that little goes to the disk, and is deleted
only at the end: an ext4 without a journal makes new files slowly for six minutes after many were
deleted. So wait this long before the next run on such a system.

    bench/delivering.py                    1 GiB a set; needs 4 GiB of disk and 4 GiB of memory
    bench/delivering.py --quick            16 MiB a set: whether all is right, not how fast it is
    bench/delivering.py --folder DIR       keeps the sets there, and takes those that are there already
    bench/delivering.py --program FILE     another program than crates/brestore/out/brestore
    bench/delivering.py --bextract FILE    another program than the bextract of the system
    bench/delivering.py --drives N         brestore reads with N drives
    bench/delivering.py --memory SIZE      brestore holds this much of the files' bytes, and reads the rest again: its time is
                                           compared with that of bextract and of md5sum, and its peak with the budget
    bench/delivering.py --kind tiny        a file of 1 KiB for each KiB of a set
    bench/delivering.py --unchecked        bextract doesn't compare the blocks' checksums

The status is 1 if a program failed or delivered other files, and with --strict if a target was missed.
"""

import argparse
import hashlib
import os
import shutil
import subprocess
import sys
import tempfile

# Nothing is left beside the script.
sys.dont_write_bytecode = True
sys.path.insert(0, os.path.join(os.path.dirname(os.path.dirname(os.path.abspath(__file__))), "tools"))
from bacula import find_bextract, words_of_bextract
from common import MIB, PROGRAM, escaped, run_measured
from extract import Best, make, same_bytes

# The sets by the names that are shown.
KINDS = {"small": "one-session", "large": "large", "tiny": "tiny"}
USUAL_KINDS = ("small", "large")
MOST_TIME = {"small": 1.5, "large": 1.0, "tiny": 1.5}
# With a budget: by the time of bextract and md5sum, and the bytes of memory beyond the budget.
MOST_TIME_WITHIN = 1.3
FREE_MEMORY = 64 * MIB
FRAGMENT_MEMORY = 200
FILE_MEMORY = 400
UNITS = {"K": 1 << 10, "M": 1 << 20, "G": 1 << 30}
# As many as the larger set has volumes.
DRIVES = 6


def read_options():
    parser = argparse.ArgumentParser(description="Measures `brestore extract --into` beside Bacula's `bextract`.")
    parser.add_argument("--program", default=PROGRAM, help="the program (default: %(default)s)")
    parser.add_argument("--bextract", default=find_bextract(), help="Bacula's program (default: %(default)s)")
    parser.add_argument("--size", type=int, default=1024, metavar="MIB", help="bytes of files in a set (default: %(default)s MiB)")
    parser.add_argument("--quick", action="store_true", help="sets of 16 MiB")
    parser.add_argument("--repeats", type=int, default=3, metavar="N", help="runs of each, of which the best counts (default: %(default)s)")
    parser.add_argument("--kind", choices=KINDS, action="append", help="these sets only (default: %s)" % ", ".join(USUAL_KINDS))
    parser.add_argument("--memory", metavar="SIZE", help="handed on to brestore")
    parser.add_argument("--drives", type=int, default=DRIVES, metavar="N", help="the number of drives that brestore reads with (default: %(default)s)")
    parser.add_argument("--unchecked", action="store_true", help="have bextract compare no checksums")
    parser.add_argument("--seed", type=int, default=1, help="of the files' bytes")
    parser.add_argument("--folder", help="where the sets are made and stay, and the files are delivered (default: a temporary folder)")
    parser.add_argument("--strict", action="store_true", help="status 1 also if a target is missed")
    parser.add_argument("--list", nargs=2, help=argparse.SUPPRESS)
    options = parser.parse_args()
    if options.quick:
        options.size = 16
    return options


def wanted(manifest):
    """The path and digest of each regular file in a manifest."""
    with open(manifest) as lines:
        for line in lines:
            words = line.split()
            if words[0] == "F" and words[4] in "23":
                yield f"{words[5]} {words[-1]}\n"


def delivered(folder):
    """The same of each regular file below a folder."""
    top = os.fsencode(folder)
    for place, _, names in os.walk(top):
        for path in (os.path.join(place, name) for name in names):
            if not os.path.islink(path):
                with open(path, "rb") as file:
                    yield f"{escaped(path[len(top):])} {hashlib.file_digest(file, 'md5').hexdigest()}\n"


def list_in_child(words):
    """Lists what a manifest or a folder has, in order."""
    source, output = words
    with open(output, "w") as file:
        file.writelines(sorted((delivered if os.path.isdir(source) else wanted)(source)))


def empty_files(folder):
    """Cuts the regular files below a folder to nothing."""
    for place, _, names in os.walk(folder):
        for path in (os.path.join(place, name) for name in names):
            if not os.path.islink(path):
                os.truncate(path, 0)


def count_lines(path):
    with open(path) as lines:
        return sum(1 for _ in lines)


class Delivery:
    """A set, the programs that deliver it, and what was measured."""

    def __init__(self, folder, kind, facts, options):
        self.folder, self.kind, self.facts = folder, kind, facts
        volumes, bootstrap = self.path("volumes"), self.path("bootstrap")
        self.delivered = []
        extract = [options.program, "extract", "--bsr", bootstrap, "--volumes", volumes, "--drives", str(options.drives)]
        self.budget = options.memory
        extract += ["--memory", options.memory] if options.memory else []
        self.commands = {
            "brestore": [*extract, "--into"],
            "bextract": words_of_bextract(options.bextract, self.path("bacula"), volumes, bootstrap, not options.unchecked),
            "manifest": extract,
            "md5sum": ["find"],
        }
        self.best = {name: Best() for name in self.commands}
        self.is_right = True

    def path(self, name):
        return os.path.join(self.folder, name)

    def list(self, source, name):
        """Lists a manifest or a folder, in a process of its own, so that this one stays small."""
        subprocess.run([sys.executable, os.path.abspath(__file__), "--list", source, self.path(name)], check=True)

    def prepare(self):
        """Reads the volumes into the system's memory, and lists what is to be delivered."""
        run_measured(["cat", *(os.path.join(self.path("volumes"), name) for name in self.facts["volumes"])], os.devnull)
        self.list(self.path("manifest"), "wanted")

    def fail(self, name, what):
        print(f"{self.kind}: {name}: {what}")
        self.is_right = False

    def run(self, name, words):
        """Runs a program once, and checks its output."""
        printed = self.path(f"printed-{name}")
        seconds, memory, busy, status = run_measured([*self.commands[name], *words], printed)
        self.best[name].take(seconds, memory, busy)
        if status != 0:
            self.fail(name, f"status {status}")
        if name in ("brestore", "manifest") and not same_bytes(printed, self.path("manifest")):
            self.fail(name, "the manifest is not what it should be")

    def deliver(self, name):
        """Lets a program deliver into a new folder, and checks what it put there."""
        out = tempfile.mkdtemp(prefix=f"{name}-", dir=self.folder)
        self.run(name, [out])
        if name == "bextract":
            self.run("md5sum", [out, "-type", "f", "-exec", "md5sum", "{}", "+"])
        self.list(out, f"list-{name}")
        if same_bytes(self.path(f"list-{name}"), self.path("wanted")):
            empty_files(out)
            self.delivered.append(out)
        else:
            self.fail(name, f"{out} has other files than {self.path('manifest')}")

    def take_turns(self):
        self.deliver("brestore")
        self.deliver("bextract")
        self.run("manifest", [])

    def remove(self):
        """Deletes what was delivered, except what was wrong."""
        for out in self.delivered:
            shutil.rmtree(out)

    def show(self):
        print(f"{self.kind}: {count_lines(self.path('wanted'))} regular files, {self.facts['restored_bytes'] / MIB:.1f} MiB")
        for name, best in self.best.items():
            print(f"  {name:8} {best.seconds:7.2f} s ({best.busy:.2f} of the processor) {best.memory / MIB:8.1f} MiB")
        ours, theirs, plain, checked = self.best.values()
        seconds, busy = ours.seconds - plain.seconds, ours.busy - plain.busy
        print(f"  what --into adds {seconds:.2f} s ({busy:.2f}), {seconds / theirs.seconds:.2f} of bextract ({busy / theirs.busy:.2f})")
        seconds, busy = theirs.seconds + checked.seconds, theirs.busy + checked.busy
        print(f"  time by that of bextract and md5sum {ours.seconds / seconds:.2f} ({ours.busy / busy:.2f} of the processor's)")
        print(f"  {'the same files and bytes from both, with the digests of the manifest' if self.is_right else 'WRONG'}")

    def most_memory(self):
        """Returns the most memory that the budget, the fragments and the files allow."""
        number, unit = self.budget.rstrip("KMG"), self.budget[-1]
        files = sum(FILE_MEMORY + len(line.split()[0]) for line in open(self.path("wanted"))) if self.kind == "tiny" else 0
        return int(number) * UNITS.get(unit, 1) + FREE_MEMORY + FRAGMENT_MEMORY * self.facts["fragments"] + files

    def judge_within(self):
        """Shows the targets of a run within a budget, and says whether they are met."""
        ours, theirs, checked = self.best["brestore"], self.best["bextract"], self.best["md5sum"]
        ratio, most = ours.seconds / (theirs.seconds + checked.seconds), self.most_memory()
        print(f"{self.kind}: time by that of bextract and md5sum {ratio:.2f}, at most {MOST_TIME_WITHIN}  {'met' if ratio <= MOST_TIME_WITHIN else 'MISSED'}")
        print(f"{self.kind}: peak {ours.memory / MIB:.0f} MiB, at most {most / MIB:.0f}  {'met' if ours.memory <= most else 'MISSED'}")
        return ratio <= MOST_TIME_WITHIN and ours.memory <= most

    def judge(self):
        """Shows the target, and says whether it is met."""
        if self.budget:
            return self.judge_within()
        ours, theirs, most = self.best["brestore"], self.best["bextract"], MOST_TIME[self.kind]
        ratio, busy = ours.seconds / theirs.seconds, ours.busy / theirs.busy
        met = "met" if ratio <= most else "MISSED"
        print(f"{self.kind}: time by that of bextract {ratio:.2f} ({busy:.2f} of the processor's), at most {most:.1f}  {met}")
        return ratio <= most


def measure(folder, kind, options):
    """Measures a kind's set."""
    place = os.path.join(os.path.abspath(folder), f"delivering-{kind}")
    facts = make(place, KINDS[kind], options.size * MIB, options.seed, 0)
    delivery = Delivery(place, kind, facts, options)
    delivery.prepare()
    for _ in range(options.repeats):
        delivery.take_turns()
    delivery.show()
    return delivery


def main():
    options = read_options()
    if options.list:
        list_in_child(options.list)
        return 0
    if not os.access(options.program, os.X_OK):
        print(f"there is no program {options.program}: tools/prove_all makes it")
        return 1
    if not options.bextract or not os.access(options.bextract, os.X_OK):
        print("there is no bextract: it is in Debian's package bacula-sd")
        return 1
    # bextract asks if it doesn't find a volume, and gets no answer.
    os.dup2(os.open(os.devnull, os.O_RDONLY), 0)
    folder = options.folder or tempfile.mkdtemp(prefix="brestore-bench-")
    os.makedirs(folder, exist_ok=True)
    least = run_measured(["true"], os.devnull)[1] / MIB
    print(f"load {os.getloadavg()[0]:.1f} on {os.cpu_count()} processors; a peak below {least:.0f} MiB is not seen")
    try:
        sets = [measure(folder, kind, options) for kind in options.kind or USUAL_KINDS]
        are_met = options.quick or all([it.judge() for it in sets])
        for it in sets:
            it.remove()
    finally:
        if options.folder is None:
            shutil.rmtree(folder, ignore_errors=True)
    return 0 if all(it.is_right for it in sets) and (are_met or not options.strict) else 1


if __name__ == "__main__":
    sys.exit(main())
