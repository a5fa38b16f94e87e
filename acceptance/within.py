#!/usr/bin/env python3
"""Runs other scripts of this folder over a program that holds few of the files' bytes, and reads the rest again from the volumes.

Each script gets a shell script in place of the program. That adds `--memory SIZE` to the commands `restore`, `extract`, `console` and
`serve`, unless they are called with a size, and hands on all else. What the scripts compare must be as it is without.

    acceptance/within.py 0                         all of those below
    acceptance/within.py 64K leaving.py tarred.py  these only
    acceptance/within.py 0 --program FILE          over another program

The status is 1 if one of the scripts failed.
"""

import argparse
import os
import subprocess
import sys
import tempfile

# Nothing is left beside the script.
sys.dont_write_bytecode = True
HERE = os.path.dirname(os.path.abspath(__file__))
sys.path.insert(0, os.path.join(os.path.dirname(HERE), "tools"))
from common import PROGRAM

# The scripts that restore, and have few runs with `--memory` of their own, or none.
SCRIPTS = ("catalogue.py", "commands.py", "hostile.py", "leaving.py", "restoring.py", "serving.py", "stops.py", "tarred.py", "terminal.py")
# These take the program without `--program`.
PLAIN = ("tarred.py",)
WRAPPER = """#!/bin/sh
for word; do
    case "$word" in --memory | --memory=*) exec {program} "$@" ;; esac
done
case "$1" in
restore | extract | console | serve)
    command=$1
    shift
    exec {program} "$command" --memory {size} "$@"
    ;;
esac
exec {program} "$@"
"""


def quoted(text):
    """Returns a text as one word of the shell."""
    return "'" + text.replace("'", "'\\''") + "'"


def write_wrapper(folder, program, size):
    """Writes the shell script, and returns its path."""
    path = os.path.join(folder, "brestore")
    with open(path, "w") as file:
        file.write(WRAPPER.format(program=quoted(os.path.abspath(program)), size=quoted(size)))
    os.chmod(path, 0o755)
    return path


def has_passed(script, program):
    """Runs a script over a program, and returns whether everything was as expected."""
    words = [program] if script in PLAIN else ["--program", program]
    ran = subprocess.run([sys.executable, os.path.join(HERE, script), *words], stdin=subprocess.DEVNULL)
    print(f"{script}: {'as expected' if ran.returncode == 0 else f'status {ran.returncode}'}", flush=True)
    return ran.returncode == 0


def main():
    parser = argparse.ArgumentParser(description="Runs other scripts over a program that holds few of the files' bytes.")
    parser.add_argument("size", metavar="SIZE", help="as of `--memory`")
    parser.add_argument("scripts", nargs="*", metavar="SCRIPT", help=f"default: {' '.join(SCRIPTS)}")
    parser.add_argument("--program", default=PROGRAM, help="the program (default: %(default)s)")
    options = parser.parse_args()
    with tempfile.TemporaryDirectory(prefix="brestore-within-") as folder:
        # hostile.py runs it as a user without rights, too.
        os.chmod(folder, 0o755)
        program = write_wrapper(folder, options.program, options.size)
        results = [has_passed(script, program) for script in options.scripts or SCRIPTS]
    return 0 if all(results) else 1


if __name__ == "__main__":
    sys.exit(main())
