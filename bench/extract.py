#!/usr/bin/env python3
"""Measures `brestore extract` beside `md5sum` of the same volumes.

Two sets of volumes are made: one of many small files (4 KiB to 64 KiB, two sessions in turns), and one of few large files
(256 MiB and more, over several volumes), and of each one with half as many files. Each is restored by its bootstrap, the manifest
is compared with what the generator knows, and the time and the peak memory are printed as ratios. On request there are two sets
more, of small files too: one on 2,000 volumes, and one whose blocks go to two volumes in turns, so that its bootstrap has a group
for each block.

    bench/extract.py                    1 GiB a set; needs 4 GiB of disk and 2 GiB of memory
    bench/extract.py --quick            16 MiB a set: whether all is right, not how fast it is
    bench/extract.py --folder DIR       keeps the sets there, and takes those that are there already
    bench/extract.py --program FILE     another program than crates/brestore/out/brestore

The status is 1 if the program failed or printed another manifest, and with --strict if a target was missed.
"""

import argparse
import json
import os
import shutil
import subprocess
import sys
import tempfile
import time

# Nothing is left beside the script.
sys.dont_write_bytecode = True
sys.path.insert(0, os.path.join(os.path.dirname(os.path.dirname(os.path.abspath(__file__))), "tools"))
from common import MIB, PROGRAM, run_measured

HERE = os.path.dirname(os.path.abspath(__file__))
KINDS = ("small", "large")
OTHER_KINDS = ("many-volumes", "many-visits")
MOST_TIME = {"small": 4.0, "large": 2.5, "many-volumes": 4.0, "many-visits": 4.0}
MOST_MEMORY = 2.3
FREE_MEMORY = 64 * MIB
MOST_GROWTH = 2.3


def read_options():
    parser = argparse.ArgumentParser(description="Measures `brestore extract` beside `md5sum` of the same volumes.")
    parser.add_argument("--program", default=PROGRAM, help="the program (default: %(default)s)")
    parser.add_argument("--size", type=int, default=1024, metavar="MIB", help="bytes of files in a set (default: %(default)s MiB)")
    parser.add_argument("--quick", action="store_true", help="sets of 16 MiB")
    parser.add_argument("--repeats", type=int, default=3, metavar="N", help="runs of each, of which the best counts (default: %(default)s)")
    parser.add_argument("--kind", choices=KINDS + OTHER_KINDS, action="append", help="these sets only (default: %s)" % ", ".join(KINDS))
    parser.add_argument("--drives", type=int, metavar="N", help="handed on to the program")
    parser.add_argument("--without-every", type=int, default=0, metavar="N", help="restore all files but each N-th one")
    parser.add_argument("--seed", type=int, default=1, help="of the files' bytes")
    parser.add_argument("--folder", help="where the sets are made and stay (default: a temporary folder)")
    parser.add_argument("--read-back", action="store_true", help="read the sets back by a second reader too")
    parser.add_argument("--no-run", action="store_true", help="make the sets, and run no program")
    parser.add_argument("--strict", action="store_true", help="status 1 also if a target is missed")
    parser.add_argument("--make", nargs=5, help=argparse.SUPPRESS)
    options = parser.parse_args()
    if options.quick:
        options.size = 16
    return options


def make(folder, kind, size, seed, without_every):
    """Makes a set, in a process of its own, so that this one stays small: a child's peak counts what its parent held."""
    facts_file = os.path.join(folder, "set.json")
    wanted = {"kind": kind, "size": size, "seed": seed, "without_every": without_every}
    if os.path.exists(facts_file):
        with open(facts_file) as file:
            facts = json.load(file)
        if all(facts.get(key) == value for key, value in wanted.items()):
            return facts
    shutil.rmtree(folder, ignore_errors=True)
    start = time.monotonic()
    words = [folder, kind, size, seed, without_every]
    subprocess.run([sys.executable, os.path.abspath(__file__), "--make", *map(str, words)], check=True)
    print(f"made {os.path.basename(folder)} in {time.monotonic() - start:.1f} s")
    with open(facts_file) as file:
        return json.load(file)


def make_in_child(words):
    from volume_sets import make_set

    folder, kind, size, seed, without_every = words
    make_set(folder, kind, int(size), int(seed), int(without_every))


def read_back_in_child(folder):
    code = "import sys; from read_back import read_back; sys.stdout.write(read_back(sys.argv[1]))"
    text = os.path.join(folder, "read-back")
    with open(text, "w") as file:
        subprocess.run([sys.executable, "-B", "-c", code, os.path.abspath(folder)], cwd=HERE, stdout=file, check=True)
    return same_bytes(text, os.path.join(folder, "manifest"))


def same_bytes(one, other):
    with open(one, "rb") as a, open(other, "rb") as b:
        while True:
            x, y = a.read(MIB), b.read(MIB)
            if x != y:
                return False
            if not x:
                return True


class Best:
    """The best of several runs."""

    def __init__(self):
        self.seconds = self.memory = self.busy = float("inf")

    def take(self, seconds, memory, busy):
        self.seconds = min(self.seconds, seconds)
        self.memory = min(self.memory, memory)
        self.busy = min(self.busy, busy)


class Measured:
    """A set with what was measured on it."""

    def __init__(self, folder, facts):
        self.folder = folder
        self.facts = facts
        self.extract = Best()
        self.md5sum = Best()
        self.is_right = True

    def path(self, name):
        return os.path.join(self.folder, name)

    def run_md5sum(self):
        volumes = [os.path.join(self.path("volumes"), name) for name in self.facts["volumes"]]
        seconds, memory, busy, status = run_measured(["md5sum", *volumes], self.path("md5"))
        self.md5sum.take(seconds, memory, busy)
        self.is_right &= status == 0

    def run_extract(self, options):
        words = [options.program, "extract", "--bsr", self.path("bootstrap"), "--volumes", self.path("volumes")]
        if options.drives is not None:
            words += ["--drives", str(options.drives)]
        seconds, memory, busy, status = run_measured(words, self.path("restored"))
        self.extract.take(seconds, memory, busy)
        if status != 0:
            print(f"{os.path.basename(self.folder)}: the program ended with status {status}")
            self.is_right = False
        elif not same_bytes(self.path("restored"), self.path("manifest")):
            print(f"{os.path.basename(self.folder)}: the manifest is not what it should be")
            self.is_right = False


def judge(kind, whole, half):
    """Returns each target with the ratio that was reached, and that of the processor's time if time is meant."""
    extract, md5sum, before = whole.extract, whole.md5sum, half.extract
    memory = max(0, extract.memory - FREE_MEMORY) / whole.facts["restored_bytes"]
    return [
        (f"{kind}: time by that of md5sum", extract.seconds / md5sum.seconds, extract.busy / md5sum.busy, MOST_TIME[kind]),
        (f"{kind}: peak memory less 64 MiB by the restored bytes", memory, None, MOST_MEMORY),
        (f"{kind}: time of twice the files by that of once", extract.seconds / before.seconds, extract.busy / before.busy, MOST_GROWTH),
    ]


def show(name, measured):
    facts, extract, md5sum = measured.facts, measured.extract, measured.md5sum
    print(
        f"{name:12} {facts['files']:7} files {facts['restored_bytes'] / MIB:8.1f} MiB"
        f"  extract {extract.seconds:7.2f} s ({extract.busy:.2f} busy) {extract.memory / MIB:8.1f} MiB"
        f"  md5sum {md5sum.seconds:6.2f} s ({md5sum.busy:.2f} busy)"
        f"  {extract.seconds / md5sum.seconds:5.2f} of md5sum ({extract.busy / md5sum.busy:.2f} busy)"
        f"  {'right' if measured.is_right else 'WRONG'}"
    )


def show_target(name, ratio, busy, most):
    """Prints a target, and whether it is met. The ratio of the processor's time is printed too, for busy machines."""
    shown = f"({busy:.2f} of the processor's)" if busy is not None else ""
    print(f"{name:58} {ratio:6.2f} {shown:26} at most {most:.1f}  {'met' if ratio <= most else 'MISSED'}")
    return ratio <= most


def measure(folder, kind, options):
    """Measures a kind's two sets in turns. Whether the manifests were right, and the targets."""
    sets = {}
    for name, part in (("half", 2), ("whole", 1)):
        set_folder = os.path.join(folder, f"{kind}-{name}")
        facts = make(set_folder, kind, options.size * MIB // part, options.seed, options.without_every)
        sets[name] = Measured(set_folder, facts)
        if options.read_back:
            sets[name].is_right &= read_back_in_child(set_folder)
            print(f"read back {kind}-{name}: {'right' if sets[name].is_right else 'WRONG'}")
    is_right = all(measured.is_right for measured in sets.values())
    if options.no_run:
        return is_right, []
    for measured in sets.values():
        # The first reading brings the volumes into the system's memory, and is not counted.
        measured.run_md5sum()
        measured.md5sum = Best()
    for _ in range(options.repeats):
        for measured in sets.values():
            measured.run_extract(options)
            measured.run_md5sum()
    for name, measured in sets.items():
        show(f"{kind}-{name}", measured)
        is_right &= measured.is_right
    return is_right, [] if options.quick else judge(kind, sets["whole"], sets["half"])


def main():
    options = read_options()
    if options.make:
        make_in_child(options.make)
        return 0
    if not options.no_run and not os.access(options.program, os.X_OK):
        print(f"there is no program {options.program}: tools/prove_all makes it")
        return 1
    folder = options.folder or tempfile.mkdtemp(prefix="brestore-bench-")
    os.makedirs(folder, exist_ok=True)
    is_right, targets = True, []
    try:
        print(f"load {os.getloadavg()[0]:.1f} on {os.cpu_count()} processors; a peak below {run_measured(['true'], os.devnull)[1] / MIB:.0f} MiB is not seen")
        for kind in options.kind or KINDS:
            kind_is_right, kind_targets = measure(folder, kind, options)
            is_right &= kind_is_right
            targets += kind_targets
    finally:
        if options.folder is None:
            shutil.rmtree(folder, ignore_errors=True)
    are_met = all([show_target(*target) for target in targets])
    return 0 if is_right and (are_met or not options.strict) else 1


if __name__ == "__main__":
    sys.exit(main())
