#!/usr/bin/env python3
"""Compares the manual page and the completions for bash with the program's help, and tries both.

`tools/manual` writes them; here it is asked for what it would write. `man` has to show the page
without a warning, with each command and each number of `explain`, and bash has to complete the
lines below. Needs bash, and man if the page is to be shown.

    acceptance/manual.py                  over the program that is there
    acceptance/manual.py --program FILE   over another program
"""

import argparse
import os
import re
import shutil
import subprocess
import sys
import tempfile

# Nothing is left beside the script.
sys.dont_write_bytecode = True
ROOT = os.path.dirname(os.path.dirname(os.path.abspath(__file__)))
sys.path.insert(0, os.path.join(ROOT, "tools"))
from common import PROGRAM

PAGE = os.path.join(ROOT, "share/man/man1/brestore.1")
COMPLETIONS = os.path.join(ROOT, "share/bash-completion/completions/brestore")
COMMANDS = ["check", "console", "explain", "extract", "jobs", "migrate", "restore", "serve"]
RESTORE = ["--before", "--bsr", "--client", "--db", "--drives", "--fileset", "--help", "--into", "--log", "--manifest", "--memory", "--quiet"]
RESTORE += ["--sync", "--tar", "--volumes"]
# The folder in which lines are completed has a file and a folder.
FILE, FOLDER = "jobs of mars.db", "volumes"
# A line whose last word is completed, and the words that fit.
LINES = [
    ("brestore ex", ["explain", "extract"]),
    ("brestore ch", ["check"]),
    ("brestore re", ["restore"]),
    ("brestore ", ["--help", "--version", *COMMANDS]),
    ("brestore extract --n", ["--newest"]),
    ("brestore extract --bsr ", [FILE, FOLDER]),
    ("brestore extract --bsr x --volumes ", [FOLDER]),
    ("brestore extract --bsr x --volumes v --in", ["--into"]),
    ("brestore console --db j", [FILE]),
    ("brestore restore --", RESTORE),
    ("brestore restore --m", ["--manifest", "--memory"]),
    ("brestore restore --bsr x --volumes v --in", ["--into"]),
    ("brestore restore --into ", [FOLDER]),
    ("brestore restore --db ", [FILE, FOLDER]),
    ("brestore restore --manifest j", [FILE]),
    ("brestore restore --before ", []),
    ("brestore check --", ["--bsr", "--checksums", "--help", "--memory", "--volumes"]),
    ("brestore check --bsr ", [FILE, FOLDER]),
    ("brestore check --volumes ", [FOLDER]),
    ("brestore console --client ", []),
    ("brestore console --f", ["--fileset"]),
    ("brestore console --m", ["--manifest", "--memory"]),
    ("brestore console --manifest j", [FILE]),
    ("brestore jobs --", ["--before", "--client", "--db", "--fileset", "--help", "--local", "--verify-catalogue"]),
    ("brestore serve --m", ["--memory"]),
    ("brestore migrate --v", []),
    ("brestore nothing --he", ["--help"]),
]
SCRIPT = """source "$1"; shift; COMP_WORDS=("$@"); COMP_CWORD=$(($# - 1)); _brestore; printf '%s\\0' "${COMPREPLY[@]}" """


def completed(line, folder):
    """Returns how bash completes the last word of a line."""
    words = ["bash", "-c", SCRIPT, "bash", COMPLETIONS, *line.split(" ")]
    printed = subprocess.run(words, cwd=folder, check=True, capture_output=True, text=True).stdout
    return sorted(word for word in printed.split("\0") if word)


def check_completions():
    is_right = True
    with tempfile.TemporaryDirectory() as folder:
        os.mkdir(os.path.join(folder, FOLDER))
        open(os.path.join(folder, FILE), "w").close()
        for line, wanted in LINES:
            found = completed(line, folder)
            if found != sorted(wanted):
                print(f"{line!r} is completed by {found} and not by {sorted(wanted)}")
                is_right = False
    return is_right


def check_page(program):
    """Shows the page, and looks for the commands and numbers in it."""
    man = shutil.which("man")
    if not man:
        print("there is no man: the page is not shown")
        return True
    shown = subprocess.run([man, "-l", "--warnings", PAGE], capture_output=True, text=True, env={**os.environ, "LC_ALL": "C.UTF-8"})
    is_right = shown.returncode == 0 and not shown.stderr
    if not is_right:
        print(f"man: status {shown.returncode}\n{shown.stderr}")
    explained = subprocess.run([program, "explain"], check=True, capture_output=True, text=True).stdout
    headings = [re.sub(r" +", " ", line) for line in explained.splitlines() if line and not line.startswith(" ")]
    for heading in COMMANDS + headings:
        if not re.search(rf"^ +{re.escape(heading)}$", shown.stdout, re.MULTILINE):
            print(f"the page has no heading {heading}")
            is_right = False
    return is_right


def main():
    parser = argparse.ArgumentParser(description="Compares the manual page and the completions with the program, and tries them.")
    parser.add_argument("--program", default=PROGRAM, help="the program (default: %(default)s)")
    options = parser.parse_args()
    program = os.path.abspath(options.program)
    checked = subprocess.run([os.path.join(ROOT, "tools/manual"), "--check", "--program", program]).returncode == 0
    is_right = all([checked, check_page(program), check_completions()])
    print("as expected" if is_right else "NOT as expected")
    return 0 if is_right else 1


if __name__ == "__main__":
    sys.exit(main())
