#!/usr/bin/env python3
"""Asks for `help` and `dir` at a console's terminal, and compares what the terminal shows with sizes and moments of a manifest.

Standard input and standard error are a pseudo terminal; standard output is a file, which must
contain nothing of what was asked. Needs sqlite3.

    acceptance/helping.py                    over the program that is there
    acceptance/helping.py --program FILE     over another program

The status is 1 if something is not as expected.
"""

import argparse
import datetime
import os
import shutil
import subprocess
import sys
import tempfile

# Nothing is left beside the script.
sys.dont_write_bytecode = True
sys.path.insert(0, os.path.join(os.path.dirname(os.path.dirname(os.path.abspath(__file__))), "tools"))
from common import CASES, ORDER_SQL, PROGRAM, Checks
from terminal import CHOSEN, GREETING, NOWHERE, PROMPT, QUIT, console_words, play, told, typed

COMMANDS = ["ls", "dir", "cd", "pwd", "find", "mark", "unmark", "markdir", "unmarkdir", "lsmark", "count", "estimate", "done", "quit", "help"]
SOURCE = "/tmp/peerlab/src/"
NO_ROW = "           -                   - "


def listed(folder):
    """Returns the lines of `dir` for the names with their own rows in a folder, by the manifest of
    the same jobs."""
    with open(os.path.join(CASES, "order-inc", "expected")) as text:
        rows = [line.split(" ") for line in text if line.startswith("F ")]
    lines = {}
    for row in rows:
        path, numbers = row[5], row[6].split(",")
        name = path.removeprefix(folder)
        if path.startswith(folder) and name and "/" not in name[:-1]:
            moment = datetime.datetime.fromtimestamp(int(numbers[11]), datetime.timezone.utc)
            lines[name] = f"{numbers[7]:>12} {moment:%Y-%m-%d %H:%M:%S} {name}"
    return [lines[name] for name in sorted(lines)]


def asked(*answers):
    """Returns what the terminal shows: a prompt before each typed line, and its answer after it, if
    it has one."""
    shown = "".join(PROMPT + "".join(f"{line}\n" for line in answer) for answer in answers)
    return [*CHOSEN, *GREETING, *shown.splitlines()]


def session(checks, folder, db, lines):
    """Runs a console session at a terminal without a folder to deliver into."""
    words = console_words(db, folder)[:-2]
    return play(checks.program, words, typed(*lines), folder)


def helps(checks, folder, db):
    """`help` lists the commands."""
    status, shown, printed = session(checks, folder, db, ["help", "quit"])
    lines = [line.removeprefix(PROMPT) for line in shown[len(CHOSEN) + len(GREETING) : -1]]
    found = [line.split(" ")[0] for line in lines if line[:1].isalpha() and line[:1].islower()]
    checks.check("help", (status, printed, shown[-1]), (0, "", PROMPT + QUIT))
    checks.check("each command has a line", found, COMMANDS)
    checks.check("no line is too long", [line for line in lines if len(line) > 80], [])
    checks.check("what `?` stands for", "`?` for one byte" in " ".join(lines), True)


def lists(checks, folder, db):
    """`dir` lists the names of the folder, wherever the console is."""
    status, shown, printed = session(checks, folder, db, ["dir", "quit"])
    checks.check("dir at /", (status, shown, printed), (0, [*asked([f"{NO_ROW}tmp/"]), PROMPT + QUIT], ""))
    lines = ["cd tmp/peerlab", "cd src/sub", "dir", "cd ..", " \tdir  ", "cd nowhere", "dir", "cd /", "dir", "quit"]
    status, shown, printed = session(checks, folder, db, lines)
    sub, source = listed(f"{SOURCE}sub/"), listed(SOURCE)
    answers = [[], [], sub, [], source, told(56)[1:], source, [], [f"{NO_ROW}tmp/"], [QUIT]]
    checks.check("dir after some steps", (status, shown), (1, asked(*answers)))
    wanted = ["/tmp/peerlab/", f"{SOURCE}sub/", SOURCE, None, "/"]
    lines = "".join("refused 56\n" if place is None else f"cwd is: {place}\n" for place in wanted)
    checks.check("and the answers of the console", printed, lines)
    lines = ["mark tmp", "dir", "cd tmp/peerlab/src", "dir", "help me", "dir x", "done"]
    status, shown, printed = session(checks, folder, db, lines)
    with open(os.path.join(CASES, "order-inc", "expected")) as text:
        manifest = text.read()
    answers = [[], [f"{NO_ROW}tmp/"], [], source, told(55)[1:], told(55)[1:], [NOWHERE]]
    checks.check("a restore with dir between", (status, shown), (1, asked(*answers)))
    checks.check("and what it prints", (printed.split("Volume=")[0], printed.endswith(manifest)), (f"5 marked\ncwd is: {SOURCE}\nrefused 55\nrefused 55\n", True))


def stays(checks, folder, db):
    """Without a terminal both are lines like any other."""
    words = [checks.program, *console_words(db, folder)[:-2]]
    done = subprocess.run(words, input="help\ndir\nquit\n", capture_output=True, text=True)
    checks.check("without a terminal", (done.returncode, done.stdout, done.stderr), (1, "refused 55\nrefused 55\n", ""))


def main():
    parser = argparse.ArgumentParser(description="Asks for help and dir at a console's terminal.")
    parser.add_argument("--program", default=PROGRAM, help="the program (default: %(default)s)")
    options = parser.parse_args()
    checks = Checks(os.path.abspath(options.program))
    folder = tempfile.mkdtemp(prefix="brestore-helping-")
    try:
        db = os.path.join(folder, "jobs.db")
        with open(ORDER_SQL) as text:
            subprocess.run(["sqlite3", db], stdin=text, check=True)
        for plays in (helps, lists, stays):
            plays(checks, folder, db)
    finally:
        shutil.rmtree(folder)
    return 1 if checks.failed else 0


if __name__ == "__main__":
    sys.exit(main())
