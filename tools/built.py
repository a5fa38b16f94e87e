"""The program that tools/build makes, and the sum of the sources that it was made of."""

import hashlib
import os
import re
import shutil

from common import BUILT, ROOT

BUILD = os.path.dirname(BUILT)
# The files that decide how the program is built, besides the toolchain.
TOOLS = ("tools/build", "tools/bitcode.py")


def rows_below(name):
    """Returns the words of each line of crates.txt for a crate and all that it uses, by the crates' names."""
    with open(os.path.join(ROOT, "crates.txt")) as file:
        rows = [re.findall(r"\w+", line.partition("#")[0]) for line in file]
    rows, found, waiting = {row[0]: row for row in rows if row}, {}, [name]
    while waiting:
        it = waiting.pop()
        if it in rows and it not in found:
            found[it] = rows[it]
            waiting += rows[it][1:]
    return found


def sum_of_sources():
    """Returns a sum of all sources of the program in this repository, and of the scripts that build it."""
    rows = sorted(rows_below("brestore").values())
    whole, files = hashlib.sha256(repr(rows).encode()), [os.path.join(ROOT, it) for it in TOOLS]
    for row in rows:
        for folder, folders, names in os.walk(os.path.join(ROOT, "crates", row[0], "src")):
            folders.sort()
            files += [os.path.join(folder, it) for it in sorted(names)]
    for path in files:
        with open(path, "rb") as file:
            whole.update(repr((os.path.relpath(path, ROOT), file.read())).encode())
    return whole.hexdigest()


def is_of(program, sources):
    """Returns whether the program is there, and was built of the sources with this sum."""
    try:
        with open(program + ".sum") as file:
            return os.access(program, os.X_OK) and file.read() == sources
    except FileNotFoundError:
        return False


def put(made, program, sources):
    """Replaces the old program by one that was built of these sources. Only one process at a time
    may do so."""
    shutil.copy2(made, program + ".new")
    # The sum is never beside another program.
    if os.path.exists(program + ".sum"):
        os.remove(program + ".sum")
    os.replace(program + ".new", program)
    with open(program + ".sum.new", "w") as file:
        file.write(sources)
    os.replace(program + ".sum.new", program + ".sum")
