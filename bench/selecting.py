#!/usr/bin/env python3
"""Measures a selection: a session of `brestore console`, from its start to the bootstrap.

The script makes a catalogue of a Full and thirty Incrementals by Python's `sqlite3`. It sends the lines of a session to the program
over a pipe, one after another. For each it takes the processor's time up to the end of its answer, and the time of the clock. The
program writes each answer before it reads the next line. The first answer comes once the program has loaded the catalogue, chosen the
jobs, and built the view and its tree. After `done` it prints the bootstrap and looks for a volume. No volume is there, and its standard
error takes no bytes, so it stops at the refusal. Each answer is compared with the one that this script finds by a walk over the same
paths.

    bench/selecting.py                    1,000,000 paths, and half of that
    bench/selecting.py --paths N          N paths, and half of that
    bench/selecting.py --jobs N --rows N  N Incrementals, of N rows each (half of that over half of the paths)
    bench/selecting.py --program FILE     another program than crates/brestore/out/brestore
    bench/selecting.py --before FILE      runs an earlier program in turns with it, and compares each step

The time is that of the process's clock of the processor: it counts nanoseconds, unlike `/proc/PID/stat`, and all threads, also those that
have ended, unlike `/proc/PID/schedstat`. It is read once all threads sleep. The status is 1 if an answer is wrong or the program failed.
With --strict it is also 1 if a step of a millisecond or more grows more than 1.3 times as much as the paths.
"""

import argparse
import contextlib
import ctypes
import os
import select
import statistics
import subprocess
import sys
import tempfile
import time

# Nothing is left beside the script.
sys.dont_write_bytecode = True
sys.path.insert(0, os.path.join(os.path.dirname(os.path.dirname(os.path.abspath(__file__))), "tools"))
from common import MIB, PROGRAM
from loading import make, rows_of

LARGE, DEEP = "/home/", "/home/user0/project1/"
# The size field of the numbers of each file.
FILE_SIZE = 184
ENDING = "7"
MOST_GROWTH = 1.3
# Steps of fewer seconds are not judged.
LEAST_JUDGED = 0.001
# Seconds without output after which a program that sleeps is done with its answer.
PATIENCE = 1
LIBC = ctypes.CDLL(None)


def read_options():
    parser = argparse.ArgumentParser(description="Measures a session of the console.")
    parser.add_argument("--program", type=os.path.abspath, default=PROGRAM, help="the program (default: %(default)s)")
    parser.add_argument("--before", type=os.path.abspath, metavar="FILE", help="an earlier program to compare with")
    parser.add_argument("--paths", type=int, default=1_000_000, help="rows of the Full, a multiple of 2,000 (default: %(default)s)")
    parser.add_argument("--jobs", type=int, default=30, help="Incrementals (default: %(default)s)")
    parser.add_argument("--rows", type=int, help="rows of each Incremental (default: a hundredth of the paths)")
    parser.add_argument("--repeats", type=int, default=5, metavar="N", help="sessions of each, of which the median counts (default: %(default)s)")
    parser.add_argument("--strict", action="store_true", help="status 1 also if a step grows more than 1.3 times as much as the paths")
    options = parser.parse_args()
    if options.rows is None:
        options.rows = options.paths // 100
    if options.rows < 20 or options.rows % 20 or options.paths % 2000 or not 0 < options.jobs < min(options.paths // options.rows, 97):
        parser.error("paths have to be a multiple of 2,000, rows of 20, and jobs fewer than the paths for each row, and than 97")
    return options


def newest_copies(paths, jobs, rows):
    """Returns job and FileIndex of the newest copy of each path that is left."""
    newest = {}
    for job in range(jobs + 1):
        for path, index in rows_of(job, paths, rows):
            if index:
                newest[path] = job, index
            else:
                newest.pop(path, None)
    return newest


def listed(paths, directory):
    """Returns what `ls` prints in a directory while nothing is marked."""
    names = set()
    for path in paths:
        if path.startswith(directory) and path != directory:
            name, slash, _ = path[len(directory) :].partition("/")
            names.add(name + slash)
    return "".join(f" {name}\n" for name in sorted(names))


def bootstrap_of(newest):
    """Returns the bootstrap of all paths. Each job has one volume, and FileIndex in the longest ranges."""
    found, text = {}, []
    for job, index in newest.values():
        found.setdefault(job + 1, []).append(index)
    for job, indexes in sorted(found.items()):
        text.append(f'Volume="Vol-{job:04}"\nVolSessionId={job}\nVolSessionTime={job}\nVolAddr=0-999999999\n')
        indexes.sort()
        ends = [place for place, (a, b) in enumerate(zip(indexes, indexes[1:]), 1) if b != a + 1]
        for begin, end in zip([0, *ends], [*ends, len(indexes)]):
            first, last = indexes[begin], indexes[end - 1]
            text.append(f"FileIndex={first}\n" if first == last else f"FileIndex={first}-{last}\n")
    return "".join(text)


def session_over(paths, jobs, rows):
    """Returns the steps of a session: its name, or None if it is not measured, its line and the answer."""
    newest = newest_copies(paths, jobs, rows)
    order = sorted(newest)
    count = len(order)
    names = [path.rstrip("/").rpartition("/")[2] for path in order]
    size = sum(FILE_SIZE for path in order if not path.endswith("/"))
    steps = [
        ("start, first answer", "pwd", "cwd is: /\n"),
        ("ls in /", "ls", listed(order, "/")),
        (None, f"cd {LARGE}", f"cwd is: {LARGE}\n"),
        (f"ls in {LARGE}", "ls", listed(order, LARGE)),
        (None, f"cd {DEEP}", f"cwd is: {DEEP}\n"),
        (f"ls in {DEEP}", "ls", listed(order, DEEP)),
        (None, "cd /", "cwd is: /\n"),
        ("mark *", "mark *", f"{count} marked\n"),
        ("count", "count", f"{count} paths, {count} marked\n"),
        ("lsmark", "lsmark", "".join(f"{path}\n" for path in order)),
        (f"find *{ENDING}", f"find *{ENDING}", "".join(f"*{path}\n" for path, name in zip(order, names) if name.endswith(ENDING))),
        ("estimate", "estimate", f"{count} marked, {size} bytes\n"),
        ("unmark *", "unmark *", f"{count} unmarked\n"),
        (None, "mark *", f"{count} marked\n"),
        ("done, bootstrap", "done", bootstrap_of(newest)),
    ]
    return [(name, line.encode() + b"\n", answer.encode()) for name, line, answer in steps]


def clock_of(process):
    """Returns the clock of a process that counts its time on the processors."""
    clock = ctypes.c_int()
    if LIBC.clock_getcpuclockid(process, ctypes.byref(clock)):
        raise SystemExit("selecting.py: the process has no clock")
    return clock.value


def is_asleep(process):
    """Returns whether all threads of a process sleep, or it has ended and was not waited for."""
    for thread in os.listdir(f"/proc/{process}/task"):
        try:
            with open(f"/proc/{process}/task/{thread}/stat") as file:
                state = file.read().rsplit(")", 1)[1].split()[0]
        except (FileNotFoundError, ProcessLookupError):
            # A thread that has just ended may have woken another one.
            return False
        if state not in "SZ":
            return False
    return True


def peak_of(process):
    """Returns the peak memory of a process in bytes; 0 if it has ended."""
    with open(f"/proc/{process}/status") as file:
        return next((int(line.split()[1]) * 1024 for line in file if line.startswith("VmHWM")), 0)


def full_pipe():
    """Returns both ends of a pipe that takes no more bytes, and the number that it holds."""
    reader, writer = os.pipe()
    os.set_blocking(writer, False)
    count = 0
    with contextlib.suppress(BlockingIOError):
        while True:
            count += os.write(writer, bytes(4096))
    os.set_blocking(writer, True)
    return reader, writer, count


def read_answer(output, process, count):
    """Returns as many bytes as the answer is to have, or those that came before the process slept or ended."""
    found, got = [], 0
    while got < count:
        if not select.select([output], [], [], PATIENCE)[0]:
            if is_asleep(process):
                break
            continue
        part = os.read(output, 1 << 20)
        if not part:
            break
        found.append(part)
        got += len(part)
    return b"".join(found)


def difference(line, found, expected):
    """Returns a text that says where an answer differs from the one that is expected."""
    pairs = zip([*found.splitlines(), None], [*expected.splitlines(), None])
    at, (one, other) = next((it for it in enumerate(pairs, 1) if it[1][0] != it[1][1]), (0, (None, None)))
    return f"{line!r}: {len(found)} bytes, and not {len(expected)}; its line {at} is {one!r}, and not {other!r}"


class Session:
    """A program that runs over a catalogue. It sleeps as it reads a line, and as it writes its refusal."""

    def __init__(self, program, catalogue, folder):
        words = [program, "console", "--db", catalogue, "--volumes", folder, "--client", "mars", "--fileset", "home"]
        self.errors, refusals, self.filling = full_pipe()
        self.begun, self.used = time.monotonic(), 0
        words += ["--before", "2026-01-01 00:00:00"]
        self.ran = subprocess.Popen(words, bufsize=0, stdin=subprocess.PIPE, stdout=subprocess.PIPE, stderr=refusals)
        os.close(refusals)
        self.clock = clock_of(self.ran.pid)

    def take(self, line, expected):
        """Sends a line. Returns the seconds of the processor and of the clock up to the end of its answer, and what is wrong with it."""
        with contextlib.suppress(BrokenPipeError):
            self.ran.stdin.write(line)
        found = read_answer(self.ran.stdout.fileno(), self.ran.pid, len(expected))
        wall = time.monotonic() - self.begun
        while not is_asleep(self.ran.pid):
            time.sleep(0.0005)
        used = time.clock_gettime_ns(self.clock)
        spent, self.used = (used - self.used) / 1e9, used
        if select.select([self.ran.stdout], [], [], 0)[0]:
            found += os.read(self.ran.stdout.fileno(), 1 << 20)
        self.begun = time.monotonic()
        return spent, wall, None if found == expected else difference(line, found, expected)

    def end(self):
        """Ends the session. Returns status, the rest of standard output, and standard error."""
        self.ran.stdin.close()
        with open(self.errors, "rb") as file:
            errors = file.read()[self.filling :]
        rest = b"" if self.ran.stdout.closed else self.ran.stdout.read()
        self.ran.stdout.close()
        return self.ran.wait(), rest, errors


class Measured:
    """A catalogue of one size, with the seconds of each step and the peak memory, by sessions."""

    def __init__(self, program, catalogue, steps):
        self.program, self.catalogue, self.steps = program, catalogue, steps
        self.seconds = {name: [] for name, _, _ in steps if name}
        self.walls = {name: [] for name in self.seconds}
        self.peaks, self.is_right = [], True

    def run(self, folder):
        """Measures a session, up to the first answer that is wrong."""
        session, wrong = Session(self.program, self.catalogue, folder), None
        for name, line, expected in self.steps:
            spent, wall, wrong = session.take(line, expected)
            if wrong:
                # A program that writes more ends by this.
                session.ran.stdout.close()
                break
            if name:
                self.seconds[name].append(spent)
                self.walls[name].append(wall)
        if not wrong:
            self.peaks.append(peak_of(session.ran.pid))
        ended = session.end()
        if wrong or ended != (1, b"", b"refused 14 Vol-0001 0\n"):
            print(f"{self.program} over {os.path.basename(self.catalogue)}: {wrong or 'the end'}; {ended}")
            self.is_right = False

    def second(self, step):
        return statistics.median(self.seconds[step])


def show(small, large):
    """Prints a line for each step, with its growth, and one for the peak memory. Returns whether no step grew by more than it may."""
    well = True
    for step in large.seconds:
        before, after = small.second(step), large.second(step)
        is_met = after <= 2 * MOST_GROWTH * before or after < LEAST_JUDGED
        well &= is_met
        spread = max(large.seconds[step]) - min(large.seconds[step])
        wall = statistics.median(large.walls[step])
        print(
            f"{step:27} {before * 1000:9.2f} ms {after * 1000:9.2f} ms (runs differ by {spread * 1000:.2f})"
            f" {after / before:5.1f} times; {wall * 1000:9.2f} ms of the clock  {'' if is_met else 'MISSED'}"
        )
    before, after = (statistics.median(it.peaks) / MIB for it in (small, large))
    print(f"{'peak memory':27} {before:8.1f} MiB {after:8.1f} MiB {after / before:5.1f} times")
    return well


def compare(before, after):
    """Prints what each step takes by an earlier program and by this one."""
    for step in after.seconds:
        older, newer = before.second(step), after.second(step)
        print(f"{step:27} before {older * 1000:9.2f} ms, now {newer * 1000:9.2f} ms, {100 * newer / older:.0f} %")


def main():
    options = read_options()
    with tempfile.TemporaryDirectory() as folder:
        volumes = os.path.join(folder, "volumes")
        os.mkdir(volumes)
        measured = []
        for share in (2, 1):
            size = options.paths // share, options.jobs, options.rows // share
            catalogue = os.path.join(folder, f"{size[0]} paths")
            make(catalogue, *size)
            steps = session_over(*size)
            measured.append(Measured(options.program, catalogue, steps))
        if options.before:
            measured.append(Measured(options.before, catalogue, steps))
        for _ in range(options.repeats):
            for one in measured:
                one.run(volumes)
    if not all(one.is_right for one in measured):
        return 1
    rows = f"{options.rows // 2} and {options.rows} rows"
    print(f"A Full of {options.paths // 2} and {options.paths} paths, {options.jobs} Incrementals of {rows}; time of the processor:")
    well = show(*measured[:2])
    if options.before:
        compare(measured[2], measured[1])
    return 0 if well or not options.strict else 1


if __name__ == "__main__":
    sys.exit(main())
