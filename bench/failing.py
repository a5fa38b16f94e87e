#!/usr/bin/env python3
"""Measures `brestore extract` with four drives, three of which fail at their tenth read, beside one sound drive.

Both restore the set `large` of extract.py, and both must print its manifest. `failing_reads.c`, which is compiled by `cc` and
preloaded, lets the drives fail. The runs come in turns, and the best of each counts.

    bench/failing.py                    1 GiB; needs 1.5 GiB of disk
    bench/failing.py --quick            16 MiB: whether all is right, not how fast it is
    bench/failing.py --folder DIR       keeps the set there, and takes one that is there already
    bench/failing.py --program FILE     another program than crates/brestore/out/brestore

The status is 1 if the program failed or printed another manifest, if not three drives failed, and with --strict if the target was
missed.
"""

import argparse
import os
import shutil
import subprocess
import sys
import tempfile

# Nothing is left beside the script.
sys.dont_write_bytecode = True
sys.path.insert(0, os.path.join(os.path.dirname(os.path.dirname(os.path.abspath(__file__))), "tools"))
from common import MIB, PROGRAM, run_measured
from extract import HERE, Best, make, same_bytes

DRIVES = 4
FAILING = 3
MOST_TIME = 1.3


def read_options():
    parser = argparse.ArgumentParser(description="Measures `brestore extract` with drives that fail beside one sound drive.")
    parser.add_argument("--program", default=PROGRAM, help="the program (default: %(default)s)")
    parser.add_argument("--size", type=int, default=1024, metavar="MIB", help="bytes of files (default: %(default)s MiB)")
    parser.add_argument("--quick", action="store_true", help="a set of 16 MiB")
    parser.add_argument("--repeats", type=int, default=3, metavar="N", help="runs of each, of which the best counts (default: %(default)s)")
    parser.add_argument("--seed", type=int, default=1, help="of the files' bytes")
    parser.add_argument("--folder", help="where the set is made and stays (default: a temporary folder)")
    parser.add_argument("--strict", action="store_true", help="status 1 also if the target is missed")
    options = parser.parse_args()
    if options.quick:
        options.size = 16
    return options


def compiled(folder):
    """Compiles the library that lets drives fail, and returns its file."""
    library = os.path.join(os.path.abspath(folder), "failing_reads.so")
    source = os.path.join(HERE, "failing_reads.c")
    subprocess.run(["cc", "-O2", "-Wall", "-shared", "-fPIC", "-o", library, source, "-ldl"], check=True)
    return library


class Restore:
    """The runs of the program with some drives, some of which fail."""

    def __init__(self, options, folder, drives, failing, library):
        self.name = f"{drives} drives, {failing} of which fail" if failing else "1 sound drive"
        self.set = folder
        self.failing = failing
        self.log = os.path.join(folder, "failures")
        faults = ["env", f"LD_PRELOAD={library}", f"FAILING_DRIVES={failing}", f"FAILING_LOG={self.log}"] if failing else []
        words = ["extract", "--bsr", self.path("bootstrap"), "--volumes", self.path("volumes"), "--drives", str(drives)]
        self.words = faults + [options.program] + words
        self.best = Best()
        self.is_right = True

    def path(self, name):
        return os.path.join(self.set, name)

    def failures(self):
        """Returns the number of drives that failed in the last run."""
        return os.path.getsize(self.log) if os.path.exists(self.log) else 0

    def complain(self, text):
        print(f"{self.name}: {text}")
        self.is_right = False

    def run(self):
        if os.path.exists(self.log):
            os.remove(self.log)
        seconds, memory, busy, status = run_measured(self.words, self.path("restored"))
        self.best.take(seconds, memory, busy)
        if status != 0:
            self.complain(f"the program ended with status {status}")
        elif not same_bytes(self.path("restored"), self.path("manifest")):
            self.complain("the manifest is not what it should be")
        if self.failures() != self.failing:
            self.complain(f"{self.failures()} drives failed")


def measure(folder, options):
    """Returns the runs of one sound drive, and those of drives that fail."""
    large = os.path.join(folder, "large-whole")
    make(large, "large", options.size * MIB, options.seed, 0)
    library = compiled(folder)
    sound = Restore(options, large, 1, 0, library)
    failing = Restore(options, large, DRIVES, FAILING, library)
    # The first run brings the volumes into the system's memory, and is not counted.
    sound.run()
    sound.best = Best()
    for _ in range(options.repeats):
        sound.run()
        failing.run()
    return sound, failing


def main():
    options = read_options()
    if not os.access(options.program, os.X_OK):
        print(f"there is no program {options.program}: tools/prove_all makes it")
        return 1
    folder = options.folder or tempfile.mkdtemp(prefix="brestore-bench-")
    os.makedirs(folder, exist_ok=True)
    try:
        print(f"load {os.getloadavg()[0]:.1f} on {os.cpu_count()} processors")
        sound, failing = measure(folder, options)
    finally:
        if options.folder is None:
            shutil.rmtree(folder, ignore_errors=True)
    for runs in (sound, failing):
        verdict = "right" if runs.is_right else "WRONG"
        print(f"{runs.name:28} {runs.best.seconds:7.2f} s ({runs.best.busy:.2f} busy) {runs.best.memory / MIB:8.1f} MiB  {verdict}")
    ratio = failing.best.seconds / sound.best.seconds
    is_met = ratio <= MOST_TIME
    if not options.quick:
        busy = failing.best.busy / sound.best.busy
        print(f"time by that of one sound drive {ratio:.2f} ({busy:.2f} of the processor's) at most {MOST_TIME}  {'met' if is_met else 'MISSED'}")
    is_right = sound.is_right and failing.is_right
    return 0 if is_right and (is_met or options.quick or not options.strict) else 1


if __name__ == "__main__":
    sys.exit(main())
