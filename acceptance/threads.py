#!/usr/bin/env python3
"""Restores while the system refuses threads, and compares what is printed with a second reading of the volumes.

    acceptance/threads.py                    needs cc
    acceptance/threads.py --program FILE     another program

There are two volumes, each with many more blocks than the queue between the drives and the joiner has room for. `brestore extract` reads
them with one drive, with two and with sixteen. `refused_threads.c`, which is compiled by `cc` and preloaded, refuses one thread, another
one in each run, and then all of them. Each run has to print the manifest, whichever threads there are: files are made from what drives
found, however few threads find it. The same has to be printed with room for no data, when these are read again.

The status is 1 if a run prints something else, or has not ended within a minute, or if no run was refused a thread.
"""

import argparse
import os
import subprocess
import sys
import tempfile

# Nothing is left beside the script.
sys.dont_write_bytecode = True
sys.path.insert(0, os.path.join(os.path.dirname(os.path.dirname(os.path.abspath(__file__))), "tools"))
from common import PROGRAM, Checks
from preloaded import compiled
from reading import extracted
from scripting import blocks_of

SECONDS = 60
DRIVES = (1, 2, 16)
# The threads of which one is refused in each run: those of the pool, and some of those after it.
THREADS = range(1, 9)
STAT = [0, 0, 33188, 1, 0, 0, 0, 100, 0, 0, 0, 0, 0, 0]
FILES = 200
LIMIT = 256
BOOTSTRAP = b"Volume=A\nVolume=B\n"


def volume_of(session):
    """Returns a volume with a session of small files, about one in each two blocks."""
    files = [(b"/%d/%d" % (session, at), 3, STAT, b"%d" % at * 50, b"", True) for at in range(FILES)]
    return b"".join(block for block, _ in blocks_of(files, (session, 100), LIMIT))


class Runs:
    """Runs of the program over volumes in a folder, in which threads are refused."""

    def __init__(self, checks, folder, volumes):
        self.checks, self.folder, self.refused = checks, folder, 0
        self.log, self.library = os.path.join(folder, "refused"), compiled(folder, "refused_threads")
        self.expected = extracted(BOOTSTRAP, volumes)
        os.mkdir(self.path("volumes"))
        for name, data in volumes.items():
            self.write(os.path.join("volumes", name.decode()), data)
        self.write("bootstrap", BOOTSTRAP)

    def path(self, name):
        return os.path.join(self.folder, name)

    def write(self, name, data):
        with open(self.path(name), "wb") as file:
            file.write(data)

    def printed(self, words, settings):
        """Runs `extract`. Returns its status, standard output and standard error, or that it did not end."""
        words = [self.checks.program, "extract", "--bsr", self.path("bootstrap"), "--volumes", self.path("volumes"), *words]
        settings = {**os.environ, "LD_PRELOAD": self.library, "REFUSED_LOG": self.log, **settings}
        try:
            run = subprocess.run(words, capture_output=True, timeout=SECONDS, env=settings)
            return run.returncode, run.stdout, run.stderr
        except subprocess.TimeoutExpired:
            return "it had not ended"

    def compare(self, name, words, settings):
        self.checks.check(name, self.printed(words, settings), self.expected)
        if os.path.exists(self.log):
            self.refused += 1
            os.remove(self.log)


def main():
    parser = argparse.ArgumentParser(description="Restores while the system refuses threads.")
    parser.add_argument("--program", default=PROGRAM, help="the program (default: %(default)s)")
    checks = Checks(os.path.abspath(parser.parse_args().program))
    with tempfile.TemporaryDirectory(prefix="brestore-threads-") as folder:
        runs = Runs(checks, folder, {b"A": volume_of(1), b"B": volume_of(2)})
        for drives in DRIVES:
            words = ["--drives", str(drives)]
            for thread in THREADS:
                runs.compare(f"{drives} drives without thread {thread}", words, {"REFUSED_THREAD": str(thread)})
            all_threads = {"REFUSED_THREAD": "1", "REFUSED_REST": "1"}
            runs.compare(f"{drives} drives without threads", words, all_threads)
            runs.compare(f"{drives} drives without threads and data in memory", [*words, "--memory", "0"], all_threads)
    print(f"{runs.refused} runs were refused a thread")
    return 1 if checks.failed or not runs.refused else 0


if __name__ == "__main__":
    sys.exit(main())
