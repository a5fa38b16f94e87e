#!/usr/bin/env python3
"""Commits jobs with each request for memory refused in turn, and compares what each call returns and leaves.

    acceptance/keeping.py [--program FILE] [--step N]

The program is `br_test_commits`. It commits jobs by a keeper over a catalogue and volumes in memory, publishes what waits, appends a byte
to a volume, and lets a session learn a receipt. After each call it prints what that returned, the lengths of the volumes and those that
the keeper vouches for, and how many jobs a snapshot shows; at the end the jobs of the catalogue, and the digests of the volumes. Another
keeper then goes on from what is left.

`failing_memory.c`, which is compiled by `cc` and preloaded, lets one request for memory fail, and
in a second turn that one and all later ones. A call returns the same as with all its memory, or it
is refused:

- a commit by 1 before the first block is written, by 44 if a volume does not take a block, by 45 if the catalogue does not take the rows,
  and by 46 if the job is stored and not published;
- `republish` and the making of a keeper by 1, and `append_raw` by 44.

What is there must be what the refusal says, and the later calls must return what follows from that. A job or a name that the program
itself did not get is a line of its own. The script works all this out from what each call returned, and shares no code with the program.
The status is 1 if a run differs, or if one of the four numbers was in none.
"""

import argparse
import concurrent.futures
import copy
import hashlib
import os
import re
import subprocess
import sys
import tempfile
from pathlib import Path

# Nothing is left beside the script.
sys.dont_write_bytecode = True
sys.path.insert(0, os.path.join(os.path.dirname(os.path.dirname(os.path.abspath(__file__))), "tools"))
from common import KEEPER_PROGRAM
from preloaded import compiled
from scripting import blocks_of

SECONDS = 30
STAT = [0, 0, 33188, 1, 0, 0, 0, 14, 0, 0, 0, 0, 0, 0]
# Of each job the path, and its volumes with the number of blocks that go there; the last one takes all that are left.
JOBS = {1: (b"/a", ("A", 1), ("B", None)), 2: (b"/b", ("B", 1), ("A", None)), 3: (b"/c", ("C", None)), 4: (b"/d", ("A", 2), ("B", None))}
# The deeds of each keeper, and whether it continues from what the previous one left.
PARTS = (
    (False, ("learn 1", "republish", "republish", "commit 1", "append", "commit 2", "republish", "commit 3")),
    (True, ("learn 4", "commit 3", "commit 2", "republish")),
    (False, ("learn 1", "commit 1", "republish", "commit 2", "commit 3", "republish")),
)
NUMBERS = {"1", "44", "45", "46"}


def placed_blocks(number):
    """Returns the blocks of a job by their volumes, in order."""
    path, *places = JOBS[number]
    left = [block for block, _ in blocks_of([(path, 3, STAT, b"message digest", b"", False)], (number, 100 * number), 64)]
    placed = []
    for name, count in places:
        own, left = left[:count], left[len(left) if count is None else count :]
        placed.append((name, own))
    return placed


class Keeper:
    """The state: the volumes, the lengths that are vouched for, the jobs of the catalogue with
    their spans, and what is published."""

    def __init__(self, refused=0, volumes=(), jobs=()):
        self.volumes, self.jobs, self.refused = dict(volumes), list(jobs), refused
        self.entries, self.retired, self.opening, self.published = {}, set(), len(self.jobs), len(self.jobs)

    def after(self, change=lambda keeper: None, refused=False):
        """Returns a copy after a change, with one more refusal of memory if there was one."""
        made = copy.deepcopy(self)
        made.refused += refused
        change(made)
        return made

    def publish(self):
        self.published = len(self.jobs)

    def length(self, name):
        return len(self.volumes.get(name, b""))

    def vouched(self, name):
        """Returns the length of a volume that is vouched for: that after the last commit to it, or that which the catalogue says."""
        ends = [end + 1 for _, spans in self.jobs for volume, _, end in spans if volume == name]
        return self.entries.get(name, max(ends, default=0))

    def append(self, name, data):
        self.volumes[name] = self.volumes.get(name, b"") + data

    def receipt(self):
        return f"{self.published - self.opening}:{self.jobs[-1][0]}"

    def state(self):
        """Returns what the program prints of this after a call."""
        last = self.jobs[self.published - 1][0] if self.published else 0
        lengths = [f"{name}={len(data)}/{self.vouched(name)}" for name, data in self.volumes.items()]
        return " ".join([*lengths, f"seen={self.published}:{last}"])

    def left(self):
        """Returns what the program prints of this at the end."""
        jobs = [" ".join([str(number), *(f"{name}{start}-{end}" for name, start, end in spans)]) + ";" for number, spans in self.jobs]
        return " ".join(["left", *jobs, *(f"{name}={hashlib.md5(data).hexdigest()}" for name, data in self.volumes.items())])

    def commit(self, number):
        """Returns what a commit may return, each with what it leaves."""
        if self.published < len(self.jobs):
            yield "refused 1", self.after(refused=True)
        keeper, spans = self.after(Keeper.publish), []
        if number in [it[0] for it in keeper.jobs]:
            yield "refused 40", keeper
            return
        yield "refused 1", keeper.after(refused=True)
        placed = placed_blocks(number)
        if any(name in keeper.retired or keeper.length(name) != keeper.vouched(name) for name, _ in placed):
            yield "refused 43", keeper
            return
        keeper.entries |= {name: keeper.vouched(name) for name, _ in placed}
        for name, blocks in placed:
            start = keeper.length(name)
            for block in blocks:
                yield "refused 44", keeper.after(lambda it, name=name: it.retired.add(name), refused=True)
                keeper.append(name, block)
                keeper.entries[name] += len(block)
            spans.append((name, start, keeper.length(name) - 1))
        yield "refused 45", keeper.after(refused=True)
        keeper.jobs.append((number, spans))
        yield "refused 46", keeper.after(refused=True)
        keeper.publish()
        yield keeper.receipt(), keeper

    def republish(self):
        """Returns what a publishing may return, each with what it leaves."""
        if self.published == len(self.jobs):
            yield "none", self
            return
        yield "refused 1", self.after(refused=True)
        keeper = self.after(Keeper.publish)
        yield keeper.receipt(), keeper

    def append_raw(self):
        """Returns what appending a byte to C may return, each with what it leaves."""
        yield "done", self.after(lambda keeper: keeper.append("C", b"0"))
        yield "refused 44", self.after(refused=True)


def lines_of(keeper, deed):
    """Returns the lines that a deed may print, each with what it leaves."""
    word, _, number = deed.partition(" ")
    if word in ("commit", "learn"):
        yield f"no job {keeper.state()}", keeper.after(refused=True)
        results = keeper.commit(int(number))
    else:
        results = keeper.republish() if word == "republish" else keeper.append_raw()
    if word == "append":
        yield f"no name {keeper.state()}", keeper.after(refused=True)
    for result, after in results:
        yield f"{'learn' if word == 'learn' else deed} {result} {after.state()}", after


class Reading:
    """The output of a run, read line by line together with all states that are possible after at
    most this number of refusals of memory."""

    def __init__(self, text, most):
        self.lines, self.most = text.split("\n"), most

    def take(self):
        return self.lines.pop(0) if self.lines else ""

    def is_refused(self, keepers):
        """Reads the line that says that a keeper was not made, if it is there. Returns whether it was, and what is there then."""
        if self.lines[:1] != ["no keeper: refused 1"]:
            return False, keepers
        self.take()
        return True, [keeper.after(refused=True) for keeper in keepers if keeper.refused < self.most]

    def does(self, keepers, deeds):
        """Reads what the deeds of a keeper printed and left. Returns what may be there then."""
        for deed in deeds:
            line = self.take()
            found = [after for keeper in keepers for text, after in lines_of(keeper, deed) if text == line]
            keepers = [keeper for keeper in found if keeper.refused <= self.most]
        line = self.take()
        return [keeper for keeper in keepers if keeper.left() == line]

    def is_expected(self):
        """Returns whether a run may print this."""
        keepers, has_kept = [Keeper()], True
        for goes_on, deeds in PARTS:
            if goes_on and not has_kept:
                continue
            old = {"volumes", "jobs"} if goes_on else set()
            keepers = [Keeper(it.refused, **{name: getattr(it, name) for name in old}) for it in keepers]
            was_refused, keepers = self.is_refused(keepers)
            keepers, has_kept = keepers if was_refused else self.does(keepers, deeds), not was_refused
        return bool(keepers) and self.lines == [""]


class Runs:
    """Runs of the program, each with a request refused."""

    def __init__(self, program, folder):
        self.program, self.folder, self.library = program, folder, compiled(folder, "failing_memory")

    def run(self, request, later=False):
        """Runs the program with this request refused. Returns what it gave, whether a request was refused, and how many there were."""
        log, count = (os.path.join(self.folder, f"{name}{request}") for name in ("log", "count"))
        faults = {"LD_PRELOAD": self.library, "REFUSED_REQUEST": str(request), "REFUSED_LOG": log, "REFUSED_COUNT": count}
        faults |= {"REFUSED_LATER": "1"} if later else {}
        try:
            ran = subprocess.run([self.program], stdin=subprocess.DEVNULL, capture_output=True, env=os.environ | faults, timeout=SECONDS)
            found = ran.returncode, ran.stdout.decode(), ran.stderr.decode()
        except subprocess.TimeoutExpired:
            found = "no end", "", ""
        made = Path(count).read_text()
        was_refused = os.path.getsize(log) > 0
        os.remove(log)
        os.remove(count)
        return found, was_refused, int(made or 0)

    def try_each(self, requests, later):
        """Refuses requests in turn. Returns the number of runs in which each number occurred, the
        number of runs, and the differences."""
        met, runs, wrong = {}, 0, []
        with concurrent.futures.ThreadPoolExecutor(os.cpu_count()) as pool:
            for request, (found, was_refused, _) in zip(requests, pool.map(lambda request: self.run(request, later), requests)):
                runs += was_refused
                for number in set(re.findall(r"refused (\d+)", found[1])):
                    met[number] = met.get(number, 0) + 1
                if not was_refused or not is_expected(found, sys.maxsize if later else 1):
                    wrong.append(f"request {request}: {found[0]} {found[2]}\n{found[1]}")
        return met, runs, wrong


def is_expected(found, most):
    """Returns whether a run may give this, with at most this number of refusals of memory."""
    status, printed, told = found
    return (status, told) == (0, "") and Reading(printed, most).is_expected()


def main():
    parser = argparse.ArgumentParser(description="Commits jobs with each request for memory refused in turn.")
    parser.add_argument("--program", type=os.path.abspath, default=KEEPER_PROGRAM, help="the program (default: %(default)s)")
    parser.add_argument("--step", type=int, default=1, metavar="N", help="refuses only each N-th request (default: %(default)s)")
    given, failed = parser.parse_args(), 0
    with tempfile.TemporaryDirectory() as folder:
        runs = Runs(given.program, folder)
        found, _, count = runs.run(0)
        if not is_expected(found, 0):
            print("with all its memory: differs", *found, sep="\n  ")
            failed = 1
        for later in (False, True):
            met, made, wrong = runs.try_each(range(1, count + 1, given.step), later)
            missing = NUMBERS - met.keys() if given.step == 1 and not later else set()
            what = "a request and all later ones" if later else "one request"
            numbers = ", ".join(f"{number} in {met[number]}" for number in sorted(met, key=int))
            verdict = f"{len(wrong)} differ" if wrong else f"never {', '.join(sorted(missing))}" if missing else "as expected"
            print(f"{what}: {made} runs, {numbers}: {verdict}", *wrong[:3], sep="\n  ", flush=True)
            failed += bool(wrong or missing)
    return 1 if failed else 0


if __name__ == "__main__":
    sys.exit(main())
