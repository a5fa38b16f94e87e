#!/usr/bin/env python3
"""Measures whether blocks of the level BB01 take `brestore extract` longer than those of the level BB02.

Of each kind of set there are twins: the same files, by the same seed, in blocks of the one level and of the other. The program restores
both in turns, now the one first and now the other. The least and the medians of the processor's time and of the seconds are compared.

    bench/levels.py                     sets of 256 MiB, with one drive and with six
    bench/levels.py --quick             16 MiB and two runs: whether all is right, not how fast it is
    bench/levels.py --program FILE      another program than crates/brestore/out/brestore
    bench/levels.py --kind large --drives 1 --size MIB --repeats N

The status is 1 if the program failed, or printed another manifest than the generator knows, and with --strict if the target was missed.
"""

import argparse
import os
import shutil
import statistics
import sys
import tempfile

# Nothing is left beside the script.
sys.dont_write_bytecode = True
sys.path.insert(0, os.path.join(os.path.dirname(os.path.dirname(os.path.abspath(__file__))), "tools"))
from common import MIB, PROGRAM
from extract import KINDS, make, same_bytes
from side_by_side import run_once

MOST_TIME = 1.05


def read_options():
    parser = argparse.ArgumentParser(description="Measures whether blocks of the level BB01 take longer than those of BB02.")
    parser.add_argument("--program", default=PROGRAM, help="the program (default: %(default)s)")
    parser.add_argument("--size", type=int, default=256, metavar="MIB", help="bytes of files in a set (default: %(default)s MiB)")
    parser.add_argument("--quick", action="store_true", help="sets of 16 MiB, and two runs of each")
    parser.add_argument("--repeats", type=int, default=15, metavar="N", help="runs over each set (default: %(default)s)")
    parser.add_argument("--kind", choices=KINDS, action="append", help="these sets only (default: %s)" % ", ".join(KINDS))
    parser.add_argument("--drives", type=int, metavar="N", action="append", help="with these numbers of drives only (default: 1 and 6)")
    parser.add_argument("--seed", type=int, default=1, help="of the files' bytes")
    parser.add_argument("--folder", help="where the sets are made and stay (default: a temporary folder)")
    parser.add_argument("--strict", action="store_true", help="status 1 also if the target is missed")
    options = parser.parse_args()
    if options.quick:
        options.size, options.repeats = 16, 2
    return options


def compare(program, twins, drives, repeats):
    """Returns the measurements of both twins, which are restored in turns; None for a run that was
    not right."""
    runs = [], []
    for folder in twins:
        # The first run brings the volumes into the system's memory, and is not counted.
        run_once(program, folder, drives, None)
    for turn in range(repeats):
        for place in (0, 1) if turn % 2 == 0 else (1, 0):
            runs[place].append(run_once(program, twins[place], drives, None))
    return runs


def show(name, runs):
    """Prints what was measured. Returns whether all runs were right, and whether the target is met by the least times."""
    if None in runs[0] + runs[1]:
        print(f"{name:24} WRONG")
        return False, False
    are_met = []
    for what, place in (("of the processor", 0), ("seconds", 1)):
        newer, older = ([run[place] for run in each] for each in runs)
        pairs = statistics.median(b / a for a, b in zip(newer, older))
        least, medians = min(older) / min(newer), statistics.median(older) / statistics.median(newer)
        are_met.append(least <= MOST_TIME)
        shown = f"BB02 {min(newer):.3f} s, BB01 {min(older):.3f} s, {least:.3f} at most {MOST_TIME} {'met' if are_met[-1] else 'MISSED'}"
        print(f"{name if place == 0 else '':24} {what:16} {shown}; medians {medians:.3f}, of two in turn {pairs:.3f}", flush=True)
    return True, all(are_met)


def main():
    options = read_options()
    folder = options.folder or tempfile.mkdtemp(prefix="brestore-bench-")
    os.makedirs(folder, exist_ok=True)
    verdicts = []
    try:
        print(f"load {os.getloadavg()[0]:.1f} on {os.cpu_count()} processors; the least of {options.repeats} runs over each")
        for kind in options.kind or KINDS:
            twins = [os.path.join(folder, f"{name}-whole") for name in (kind, f"{kind}-older")]
            for name, part in zip((kind, f"{kind}-older"), twins):
                make(part, name, options.size * MIB, options.seed, 0)
            are_twins = same_bytes(*(os.path.join(part, "manifest") for part in twins))
            if not are_twins:
                print(f"{kind}: the sets don't have the same files")
            verdicts.append((are_twins, True))
            for drives in options.drives or (1, 6):
                runs = compare(options.program, twins, drives, options.repeats)
                verdicts.append(show(f"{kind}, --drives {drives}", runs))
    finally:
        if options.folder is None:
            shutil.rmtree(folder, ignore_errors=True)
    is_right = all(right for right, _ in verdicts)
    are_met = all(met for _, met in verdicts)
    return 0 if is_right and (are_met or not options.strict) else 1


if __name__ == "__main__":
    sys.exit(main())
