#!/usr/bin/env python3
"""Runs whole scripts, and compares what they write with a text and with what a second reading of the script works out.

    acceptance/scripts.py                     all scripts
    acceptance/scripts.py deletions marks     those whose names have one of these words
    acceptance/scripts.py --program FILE      over another program

The scripts are in rows/whole_scripts, each after a line that begins with `@` and says what it tries, and what they have to write is in
rows/whole_scripts.wanted. It is worked out by hand, but for the scripts of drawn jobs; scripting.py, the second reading, works out all.
Each script runs in memory, with room for all data, and with `--memory 0` and `--memory 24`: without room files are put part by part,
else some of them are put together. The status is 1 if something differs.
"""

import argparse
import os
import subprocess
import sys
from pathlib import Path

# Nothing is left beside the script.
sys.dont_write_bytecode = True
sys.path.insert(0, os.path.join(os.path.dirname(os.path.dirname(os.path.abspath(__file__))), "tools"))
from common import PROGRAM
from scripting import served

FOLDER = Path(__file__).resolve().parent / "rows"
ROOMS = (), ("serve", "--memory", "0"), ("serve", "--memory", "24")
ENDS = {0: "clean", 1: "refused"}


def parts_of(file):
    """Returns the name of each script of a file, and the text after it."""
    parts = (FOLDER / file).read_text().split("@")[1:]
    return [(name.strip(), text) for name, _, text in (part.partition("\n") for part in parts)]


def text_of(status, printed):
    return f"{printed.decode()}end: {ENDS.get(status, status)}\n"


def run(program, words, script):
    """Runs a script. Returns what it writes to both outputs, and a line for its end."""
    ran = subprocess.run([program, *words], input=script.encode(), capture_output=True, timeout=60)
    return text_of(ran.returncode, ran.stdout + ran.stderr)


def differences(program, script, wanted):
    """Returns the texts that differ from the wanted one, each with the way to it."""
    found = [(" ".join(("brestore", *words)), run(program, words, script)) for words in ROOMS]
    found.append(("the second reading", text_of(*served(script.encode())[:2])))
    return [(way, text) for way, text in found if text != wanted]


def compare(program, name, script, wanted):
    """Compares what a script writes, and prints what differs. Returns if nothing does."""
    wrong = differences(program, script, wanted)
    for way, text in wrong:
        print(f"{way} writes {text!r}, and not {wanted!r}")
    print(f"{name}: {'not ' if wrong else ''}as expected", flush=True)
    return not wrong


def main():
    parser = argparse.ArgumentParser(description="Runs whole scripts.")
    parser.add_argument("words", nargs="*", metavar="WORD", help="the scripts whose names have this word (default: all)")
    parser.add_argument("--program", default=PROGRAM, help="the program (default: %(default)s)")
    options = parser.parse_args()
    program = os.path.abspath(options.program)
    scripts, wanted = parts_of("whole_scripts"), parts_of("whole_scripts.wanted")
    if [name for name, _ in scripts] != [name for name, _ in wanted]:
        parser.error("the scripts and the texts have other names")
    chosen = [
        compare(program, name, script, text)
        for (name, script), (_, text) in zip(scripts, wanted)
        if not options.words or any(word in name for word in options.words)
    ]
    print(f"{len(chosen)} scripts, {chosen.count(False)} not as expected")
    return 0 if chosen and all(chosen) else 1


if __name__ == "__main__":
    sys.exit(main())
