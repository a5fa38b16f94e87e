#!/usr/bin/env python3
"""Runs rows over the commands of the program, its command lines, scripts, restores and sessions with the console.

    acceptance/rows.py                     all rows
    acceptance/rows.py extract long_scripts
                                           the rows with these names, of which each blank is a `_`
    acceptance/rows.py --program FILE      over another program

Rows are in the files of rows/. A row is a sequence of steps with ` ; ` between them, ` = `, and what the steps have to give, worked out
by hand. Lines that begin with `> ` after it are what its commands must write to standard output, and those that begin with `! ` what
they must write to standard error; in all else they must write nothing. `## NAME` names the rows after it, which run in a new folder, one
after another. Other lines that are empty or begin with `#` say something to the reader alone.

Rows that differ are printed, and how many rows of each name hold. The rows of rows/wrong must differ: they show that rows can fail. The
status is 1 if another row differs, or if one of these holds. Needs cc.
"""

import argparse
import os
import sys
import tempfile
from collections import namedtuple
from pathlib import Path

# Nothing is left beside the script.
sys.dont_write_bytecode = True
sys.path.insert(0, os.path.join(os.path.dirname(os.path.dirname(os.path.abspath(__file__))), "tools"))
from common import PROGRAM
from row_steps import Place, take

FOLDER = Path(__file__).resolve().parent / "rows"
FILES = ("commands", "lines", "scripts", "sessions", "terminal")
WRONG = "wrong"

# What a row says to do, what that has to give, and the lines that its commands have to write.
Row = namedtuple("Row", "call wanted printed told")


def row_of(line):
    call, _, wanted = line.rstrip().partition(" = ")
    return Row(call.removesuffix(" ="), wanted, [], [])


def sections_of(file):
    """Returns the rows of a file by their name."""
    sections = {}
    for line in (FOLDER / file).read_text().splitlines():
        if line.startswith("## "):
            rows = sections[line.removeprefix("## ")] = []
        elif line.startswith(("> ", "! ")):
            (rows[-1].printed if line.startswith(">") else rows[-1].told).append(line[2:])
        elif line and not line.startswith("#"):
            rows.append(row_of(line))
    return sections


def text_of(lines):
    return "".join(f"{line}\n" for line in lines)


def run_row(place, row):
    """Runs a row. Returns what differs, a line for each."""
    place.printed, place.told = b"", b""
    try:
        gave = " ".join(word for step in row.call.split(" ; ") for word in take(place, step))
    except Exception as fault:
        return [f"failed: {fault!r}"]
    found = [] if gave == row.wanted else [f"gave: {gave}"]
    for name, written, wanted in (("printed", place.printed, row.printed), ("told", place.told, row.told)):
        text = written.decode(errors="backslashreplace")
        found += [] if text == text_of(wanted) else [f"{name}: {text!r}"]
    return found


def run_rows(program, rows, libraries):
    """Runs rows in a new folder. Returns those that differ, each with what differs."""
    with tempfile.TemporaryDirectory() as folder:
        place = Place(program, folder, libraries)
        found = [(row, run_row(place, row)) for row in rows]
        return [(row, differs) for row, differs in found if differs]


def run_section(program, name, rows, libraries):
    """Runs the rows of a name. Prints those that differ, and how many hold. Returns if all do."""
    wrong = run_rows(program, rows, libraries)
    for row, differs in wrong:
        print(f"wrong: {row.call} = {row.wanted}", *differs, sep="\n  ")
    print(f"{name}: {len(rows) - len(wrong)} of {len(rows)} rows hold", flush=True)
    return not wrong


def can_fail(program, libraries):
    """Runs the rows that must differ. Returns if each does."""
    rows = [row for part in sections_of(WRONG).values() for row in part]
    wrong = run_rows(program, rows, libraries)
    print(f"rows that do not hold: {len(wrong)} of {len(rows)} differ", flush=True)
    return len(wrong) == len(rows)


def main():
    parser = argparse.ArgumentParser(description="Runs rows over the commands of the program.")
    parser.add_argument("names", nargs="*", metavar="NAME", help="the rows to run, each blank of their name a `_` (default: all)")
    parser.add_argument("--program", default=PROGRAM, help="the program (default: %(default)s)")
    options = parser.parse_args()
    program = os.path.abspath(options.program)
    sections = {name.replace(" ", "_"): (name, rows) for file in FILES for name, rows in sections_of(file).items()}
    unknown = [name for name in options.names if name not in sections]
    if unknown:
        parser.error(f"there are no rows {', '.join(unknown)}")
    with tempfile.TemporaryDirectory() as libraries:
        chosen = [sections[name] for name in options.names or sections]
        hold = [run_section(program, name, rows, libraries) for name, rows in chosen]
        return 0 if all(hold) and can_fail(program, libraries) else 1


if __name__ == "__main__":
    sys.exit(main())
