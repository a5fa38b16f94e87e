#!/usr/bin/env python3
"""Runs the rows of rows/delivery over the program: what volumes hold, the files made of it, manifests, and deliveries.

    acceptance/delivery_rows.py                     needs the program in crates/brestore/out, sqlite3 and `cc`
    acceptance/delivery_rows.py --program FILE      another program
    acceptance/delivery_rows.py windows hits        the rows with these names, in which `_` may be a blank
    acceptance/delivery_rows.py --rows FILE         the rows of another text

For each row it writes the volumes that the fields describe, runs the program on them, and prints
the result as the row does: the manifest, the refusal, the log, and what is then in the folder.
`trapped_calls.c`, which is compiled and preloaded, lets calls of the program in the folder fail,
limits the room of files, and changes the volume while the files are put. Each row that gives
something else is printed, and the number of rows of each name that hold. The status is 1 if one of
them does not.
"""

import argparse
import os
import sys
import tempfile
from collections import namedtuple
from pathlib import Path

# Nothing is left beside the script.
sys.dont_write_bytecode = True
HERE = Path(os.path.abspath(__file__)).parent
sys.path.insert(0, str(HERE.parent / "tools"))
import row_deliveries
import row_volumes
from common import PROGRAM
from preloaded import compiled
from row_text import rows_in

Row = namedtuple("Row", "name call wanted")
CALLS = {**row_volumes.CALLS, **row_deliveries.CALLS}
# These rows show that rows can fail: none of them may hold.
WRONG = "rows that do not hold"


def gave(tools, row):
    """Returns what a row gives, in a folder of its own."""
    call, *fields = row.call.split(" ")
    with tempfile.TemporaryDirectory() as made:
        try:
            return CALLS[call](tools._replace(folder=Path(made)), fields, row.wanted)
        except Exception as fault:
            return f"{type(fault).__name__}: {fault}"


def run_rows(tools, rows):
    """Runs rows, prints those that differ, and the number of each name that hold. Returns true if
    all do that have to."""
    held = {}
    for row in rows:
        found = gave(tools, row).strip()
        held.setdefault(row.name, []).append(found == row.wanted)
        if (found == row.wanted) == (row.name == WRONG):
            print(f"wrong: {row.call} = {row.wanted}\n gave: {found}", flush=True)
    for name, of_name in held.items():
        print(f"{name}: {sum(of_name)} of {len(of_name)} rows hold", flush=True)
    return all(not any(it) if name == WRONG else all(it) for name, it in held.items())


def main():
    parser = argparse.ArgumentParser(description="Runs rows over volumes, files and deliveries.")
    parser.add_argument("names", nargs="*", metavar="NAME", help="names of rows (default: all)")
    parser.add_argument("--rows", type=Path, default=HERE / "rows" / "delivery", metavar="FILE", help="default: %(default)s")
    parser.add_argument("--program", type=os.path.abspath, default=PROGRAM, help="the program (default: %(default)s)")
    options = parser.parse_args()
    names = {name.replace("_", " ") for name in options.names}
    rows = [row for row in map(Row._make, rows_in(options.rows)) if not names or row.name in names]
    unknown = names - {row.name for row in rows}
    if unknown:
        parser.error(f"there are no rows {', '.join(sorted(unknown))}")
    with tempfile.TemporaryDirectory() as folder:
        tools = row_deliveries.Tools(options.program, compiled(folder, "trapped_calls"), None)
        return 0 if run_rows(tools, rows) else 1


if __name__ == "__main__":
    sys.exit(main())
