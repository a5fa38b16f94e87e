#!/usr/bin/env python3
"""Measures whether `brestore extract` of one program takes longer than that of an older one, with drives that do not fail.

Both programs restore the same sets of extract.py in turns, many times, now the one first and now the other: with one drive, with
four, and with four into a new folder. The medians of the processor's time are compared, since these depend less than seconds on
what else the machine does; the medians of the seconds are shown after them. So is the greatest peak memory of each program, less
64 MiB, by the restored bytes. The files in the folders are compared with the manifest, path by path and digest by digest.

    bench/side_by_side.py --before FILE                 sets of 64 MiB
    bench/side_by_side.py --before FILE --quick         two runs each: whether all is right, not how fast it is
    bench/side_by_side.py --before FILE --after FILE    another program than crates/brestore/out/brestore
    bench/side_by_side.py --before FILE --kind large --drives 1 --drives 6    these sets, and these numbers of drives without a folder

The status is 1 if a program failed or printed another manifest, and with --strict if a target was missed.
"""

import argparse
import os
import shutil
import statistics
import sys
import tempfile

# Nothing is left beside the script.
sys.dont_write_bytecode = True
sys.path.insert(0, os.path.join(os.path.dirname(os.path.dirname(os.path.abspath(__file__))), "tools"))
from common import MIB, PROGRAM, run_measured
from delivering import delivered, empty_files, wanted
from extract import FREE_MEMORY, make, same_bytes

# The last one has the most pieces.
KINDS = ("small", "large", "many-visits")
# The number of drives, and whether the files are delivered.
WAYS = ((1, False), (4, False), (4, True))
MOST_TIME = 1.03
# Of the newer program, by the restored bytes. What is delivered shares the bytes that are held.
MOST_MEMORY = 1.02


def read_options():
    parser = argparse.ArgumentParser(description="Measures whether a program takes longer than an older one.")
    parser.add_argument("--before", required=True, help="the older program")
    parser.add_argument("--after", default=PROGRAM, help="the newer program (default: %(default)s)")
    parser.add_argument("--size", type=int, default=64, metavar="MIB", help="bytes of files in a set (default: %(default)s MiB)")
    parser.add_argument("--quick", action="store_true", help="two runs of each")
    parser.add_argument("--repeats", type=int, default=15, metavar="N", help="runs of each program (default: %(default)s)")
    parser.add_argument("--kind", choices=KINDS, action="append", help="these sets only (default: all)")
    parser.add_argument("--drives", type=int, metavar="N", action="append", help="with these numbers of drives only, and without a folder")
    parser.add_argument("--seed", type=int, default=1, help="of the files' bytes")
    parser.add_argument("--folder", help="where the sets are made and stay (default: a temporary folder)")
    parser.add_argument("--strict", action="store_true", help="status 1 also if the target is missed")
    options = parser.parse_args()
    if options.quick:
        options.repeats = 2
    return options


def holds(into, manifest):
    """Returns whether a folder holds exactly the regular files of a manifest. Cuts the files to
    nothing."""
    is_right = sorted(delivered(into)) == sorted(wanted(manifest))
    empty_files(into)
    return is_right


def run_once(program, folder, drives, into):
    """Runs a program. Returns the processor's seconds, the seconds and the peak memory; None if the
    output is not right."""
    words = [program, "extract", "--bsr", os.path.join(folder, "bootstrap"), "--volumes", os.path.join(folder, "volumes")]
    words += ["--drives", str(drives)]
    if into:
        os.makedirs(into)
        words += ["--into", into]
    restored, manifest = os.path.join(folder, "restored"), os.path.join(folder, "manifest")
    seconds, memory, busy, status = run_measured(words, restored)
    is_right = status == 0 and same_bytes(restored, manifest) and (not into or holds(into, manifest))
    return (busy, seconds, memory) if is_right else None


def compare(folder, drives, delivers, options):
    """Returns the measurements of both programs, which run in turns; None for a run that was not
    right."""
    programs, runs = (options.before, options.after), ([], [])
    with tempfile.TemporaryDirectory(dir=folder, prefix="delivered-") as new:
        # The first run brings the volumes into the system's memory, and is not counted.
        run_once(options.before, folder, drives, None)
        for turn in range(options.repeats):
            for place in (0, 1) if turn % 2 == 0 else (1, 0):
                into = os.path.join(new, f"{turn}-{place}") if delivers else None
                runs[place].append(run_once(programs[place], folder, drives, into))
    return runs


def show_times(name, before, after):
    """Prints two medians, the least and the greatest value, and returns their ratio."""
    medians = [statistics.median(times) for times in (before, after)]
    shown = "  ".join(f"{median:.3f} s ({min(times):.3f} to {max(times):.3f})" for median, times in zip(medians, (before, after)))
    print(f"{name:32} {shown}  {medians[1] / medians[0]:.3f}", end="")
    return medians[1] / medians[0]


def show(name, runs, restored_bytes):
    """Prints what was measured. Returns whether all runs were right, and whether the targets are met."""
    if None in runs[0] + runs[1]:
        print(f"{name:32} WRONG")
        return False, False
    (busy, seconds, memory), (busy_after, seconds_after, memory_after) = (tuple(zip(*each)) for each in runs)
    is_met = show_times(name, busy, busy_after) <= MOST_TIME
    print(f" at most {MOST_TIME}  {'met' if is_met else 'MISSED'}")
    pairs = statistics.median(after / before for before, after in zip(busy, busy_after))
    show_times("  seconds", seconds, seconds_after)
    print(f"  (the processor's time, the median of the ratios of two runs in turn: {pairs:.3f})")
    needs = [(max(peaks) - FREE_MEMORY) / restored_bytes for peaks in (memory, memory_after)]
    is_small = needs[1] <= MOST_MEMORY
    peaks = "  ".join(f"{max(peaks) / MIB:.0f} MiB ({need:.3f})" for peaks, need in zip((memory, memory_after), needs))
    print(f"  {'peak memory':30} {peaks} at most {MOST_MEMORY}  {'met' if is_small else 'MISSED'}", flush=True)
    return True, is_met and is_small


def main():
    options = read_options()
    folder = options.folder or tempfile.mkdtemp(prefix="brestore-bench-")
    os.makedirs(folder, exist_ok=True)
    verdicts = []
    try:
        print(f"load {os.getloadavg()[0]:.1f} on {os.cpu_count()} processors; seconds of the processor before and after")
        for kind in options.kind or KINDS:
            part = os.path.join(folder, f"{kind}-whole")
            facts = make(part, kind, options.size * MIB, options.seed, 0)
            for drives, delivers in [(drives, False) for drives in options.drives or ()] or WAYS:
                runs = compare(part, drives, delivers, options)
                verdicts.append(show(f"{kind}, --drives {drives}{' --into' if delivers else ''}", runs, facts["restored_bytes"]))
    finally:
        if options.folder is None:
            shutil.rmtree(folder, ignore_errors=True)
    is_right = all(right for right, _ in verdicts)
    are_met = all(met for _, met in verdicts)
    return 0 if is_right and (are_met or not options.strict) else 1


if __name__ == "__main__":
    sys.exit(main())
