#!/usr/bin/env python3
"""Compares what `brestore explain` prints with the table of docs/REFUSALS.md, word for word.

    acceptance/explain.py [EXECUTABLE]

Without an executable it is the proved program, or else the one that tools/build makes. The table is printed whole, and
each number alone. A number that the table lacks has to be refused with status 2, as a word that is no number, and `--help` has to name
the command. The status is 0 if all is as expected, else 1.
"""
import os
import re
import subprocess
import sys
import textwrap
from pathlib import Path

# Nothing is left beside the script.
sys.dont_write_bytecode = True
sys.path.insert(0, os.path.join(os.path.dirname(os.path.dirname(os.path.abspath(__file__))), "tools"))
from common import PROGRAM, ROOT

PAGE = Path(ROOT) / "docs" / "REFUSALS.md"
ROW = re.compile(r"\| (\d+) \| (.+?) \| (.+?) \| (.+?) \|")


def rows():
    """Returns the rows of the page's table: number, name, meaning and what to do next."""
    found = (ROW.fullmatch(line) for line in PAGE.read_text().splitlines())
    return [(int(row[1]), *row.group(2, 3, 4)) for row in found if row]


def field(label, words):
    """Returns a field as lines of at most 79 columns."""
    return textwrap.fill(
        words,
        79,
        initial_indent=label,
        subsequent_indent=" " * 9,
        break_long_words=False,
        break_on_hyphens=False,
    )


def text_of(row):
    """Returns a row as the program has to print it."""
    number, name, meaning, following = row
    kind = "outcome" if 60 <= number <= 69 else "refused"
    lines = [f"{kind} {number}  {name}", field("  means: ", meaning), field("  next:  ", following)]
    return "".join(f"{line}\n" for line in lines)


def run(program, *words):
    """Returns the exit status of a run, and what it prints to standard output and to standard error."""
    done = subprocess.run([program, *words], stdin=subprocess.DEVNULL, capture_output=True, text=True, check=False)
    return done.returncode, done.stdout, done.stderr


def differences(program):
    """Yields a line for each run that differs from what is expected."""
    table = rows()
    numbers = [row[0] for row in table]
    if not numbers or numbers != sorted(set(numbers)):
        yield f"the numbers of {PAGE.name} do not ascend"
    if run(program, "explain") != (0, "".join(map(text_of, table)), ""):
        yield "explain"
    for row in table:
        if run(program, "explain", str(row[0])) != (0, text_of(row), ""):
            yield f"explain {row[0]}"
    for number in sorted(set(range(100)) - set(numbers)) + [4294967295]:
        status, output, refusal = run(program, "explain", str(number))
        if (status, output) != (2, "") or refusal.count("\n") != 1:
            yield f"explain {number}"
    if run(program, "explain", "x")[:2] != (2, ""):
        yield "explain x"
    if not re.search(r"^ +explain ", run(program, "--help")[1], re.MULTILINE):
        yield "--help"


def main(arguments):
    program = Path(arguments[0]).resolve() if arguments else PROGRAM
    wrong = list(differences(program))
    for name in wrong:
        print(f"{name}: differs")
    print("as expected" if not wrong else f"{len(wrong)} not as expected")
    return 1 if wrong else 0


if __name__ == "__main__":
    sys.exit(main(sys.argv[1:]))
