"""Rows, which are tests written as text: how they are read, run over the program and compared. selection_rows.py and format_rows.py give
them their meaning.

A row is `CALL FIELD FIELD .. = WANTED`, as in the files `stdin` of the test crates. `## NAME` names the rows after it, and any other line
that is empty or begins with `#` is for the reader alone. The rows that do not hold are under a name of their own: they show that rows can
fail.
"""

import argparse
import os
import subprocess
import sys
import tempfile
from pathlib import Path

from common import PROGRAM, escaped

FAILING = "rows that do not hold"


class BadRow(Exception):
    """A row that can't be run, with the reason."""


def printed(data):
    """Returns bytes as a row prints them."""
    return escaped(data) or "-"


class Place:
    """A new folder for one row, and the program that runs in it."""

    def __init__(self, program, folder):
        self.program, self.folder = program, Path(folder)

    def run(self, *words, lines=b"", **environment):
        """Runs the program. Returns its exit status, standard output and standard error."""
        by_default = {name: value for name, value in os.environ.items() if name not in ("TZ", "TZDIR")}
        words = [self.program, *words]
        ran = subprocess.run(words, input=lines, capture_output=True, timeout=120, env={**by_default, **environment})
        return ran.returncode, ran.stdout, ran.stderr


def rows_in(file):
    """Yields the name under which a row is, its call and what it has to give."""
    name = ""
    for line in Path(file).read_text().splitlines():
        if line.startswith("## "):
            name = line[3:]
        elif line and not line.startswith("#"):
            call, _, wanted = line.rstrip().partition(" = ")
            yield name, call.removesuffix(" ="), wanted


def given_by(run_row, program, call, wanted):
    """Returns what a row gave, or why it can't be run."""
    with tempfile.TemporaryDirectory() as folder:
        try:
            return run_row(Place(program, folder), call.split(" "), wanted).rstrip(" ")
        except (BadRow, ValueError, IndexError) as fault:
            return f"no answer, since {fault!r}"


def run_rows(program, file, names, run_row):
    """Runs the rows of a file, prints those that do not hold and the numbers of all. Returns whether all is as expected.

    `run_row` takes a place, the fields of a call and what is wanted, and returns what the program gave, in the same form."""
    held, count = {}, {}
    for name, call, wanted in rows_in(file):
        if names and name not in names:
            continue
        gave = given_by(run_row, program, call, wanted)
        count[name] = count.get(name, 0) + 1
        held[name] = held.get(name, 0) + (gave == wanted)
        if gave != wanted and name != FAILING:
            print(f"wrong: {call} = {wanted}\n gave: {gave}", flush=True)
    for name in count:
        print(f"{name}: {held[name]} of {count[name]} rows hold", flush=True)
    lacking = [name for name in names if name not in count]
    print("".join(f"there are no rows {name}\n" for name in lacking), end="")
    return not lacking and all(held[name] == (0 if name == FAILING else count[name]) for name in count)


def main(description, file, run_row):
    """Runs the rows whose names are given, or all."""
    parser = argparse.ArgumentParser(description=description)
    parser.add_argument("--program", type=os.path.abspath, default=PROGRAM, help="the program (default: %(default)s)")
    parser.add_argument("names", nargs="*", help="the names of the rows, with `,` between two (default: all rows)")
    options = parser.parse_args()
    names = [name.strip() for name in " ".join(options.names).split(",") if name.strip()]
    sys.exit(0 if run_rows(options.program, file, names, run_row) else 1)
