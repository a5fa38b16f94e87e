#!/usr/bin/env python3
"""Restores with room for few of the data, and counts the bytes that the program reads: each byte of the volumes once.

    acceptance/once.py                    needs the program in crates/brestore/out
    acceptance/once.py --program FILE     another program

`brestore extract --memory 4M` prints the manifest of small files of 24 MiB, by one drive, two and six: of one session, and of two that
take turns, on a few volumes and on many, from each of which files go on to the next. What it cannot hold is digested as it comes, so
that it is not read again. What comes too early, from a later volume, waits. The bytes of all reads are those that the system counts
for the process (`rchar`). The status is 1 if a manifest is another one, or if more than 1.05 times the bytes of the volumes were read.
"""

import argparse
import os
import subprocess
import sys
import tempfile

# Nothing is left beside the script.
sys.dont_write_bytecode = True
TOP = os.path.dirname(os.path.dirname(os.path.abspath(__file__)))
sys.path[:0] = [os.path.join(TOP, "bench"), os.path.join(TOP, "tools")]
from common import MIB, PROGRAM, Checks
from volume_sets import make_set

SIZE = 24 * MIB
MEMORY = "4M"
KINDS = {"one-session": "one session", "small": "two sessions that take turns", "short-volumes": "files that go on from volume to volume"}
DRIVES = (1, 2, 6)
MOST = 1.05


def run_counted(words):
    """Runs a program. Returns its status, what it printed, and the number of bytes that it read."""
    with tempfile.TemporaryFile() as output, subprocess.Popen(words, stdin=subprocess.DEVNULL, stdout=output) as ran:
        # A process that has ended keeps its numbers until it is waited for.
        os.waitid(os.P_PID, ran.pid, os.WEXITED | os.WNOWAIT)
        with open(f"/proc/{ran.pid}/io", encoding="ascii") as numbers:
            read = dict(line.split(": ") for line in numbers)["rchar"]
        status = ran.wait()
        output.seek(0)
        return status, output.read(), int(read)


def check_set(checks, folder, kind):
    facts = make_set(folder, kind, SIZE, 1)
    with open(os.path.join(folder, "manifest"), "rb") as file:
        manifest = file.read()
    for drives in DRIVES:
        name = f"{KINDS[kind]}, {drives} drive{'s' * (drives > 1)}"
        words = ["extract", "--bsr", f"{folder}/bootstrap", "--volumes", f"{folder}/volumes", "--drives", str(drives), "--memory", MEMORY]
        status, printed, read = run_counted([checks.program, *words])
        checks.check(f"{name}, manifest", (status, printed == manifest), (0, True))
        times = read / facts["volume_bytes"]
        checks.check(f"{name}, {times:.3f} times the volumes read, at most {MOST}", 1 <= times <= MOST, True)


def main():
    parser = argparse.ArgumentParser(description="Restores with room for few of the data, and counts the bytes that are read.")
    parser.add_argument("--program", default=PROGRAM, help="the program (default: %(default)s)")
    checks = Checks(os.path.abspath(parser.parse_args().program))
    with tempfile.TemporaryDirectory() as room:
        for kind in KINDS:
            check_set(checks, os.path.join(room, kind), kind)
    return 1 if checks.failed else 0


if __name__ == "__main__":
    sys.exit(main())
