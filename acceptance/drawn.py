#!/usr/bin/env python3
"""Runs `brestore` on drawn inputs, most of them spoilt, and compares all that it prints with a second reading of the formats.

    acceptance/drawn.py [--program FILE] [--count N] [--seed N] [--keep DIR]

Each input is drawn by the seed and its number alone. Kinds of input: `extract` over a folder of volumes, the same with `--into`,
scripts of `serve`, also with jobs that are committed, `console` over a catalogue of drawn jobs, and `console` over one of which
rows or bytes were changed. Of all but the last, exit status, standard output and standard error must be those that reading.py,
choosing.py and scripting.py work out, and a delivery those files. Of the last the status must be 0 or 1, and each line in one of
the formats. A run takes at most a second of the processor and 64 MiB of memory, unless a file has more than 16 MiB. An input
that fails is kept in DIR, with its command. The status is 1 if one fails.
"""

import argparse
import concurrent.futures
import contextlib
import os
import random
import re
import shlex
import shutil
import sqlite3
import sys
import tempfile
from pathlib import Path

# Nothing is left beside the script.
sys.dont_write_bytecode = True
sys.path.insert(0, os.path.join(os.path.dirname(os.path.dirname(os.path.abspath(__file__))), "tools"))
from cases import unpack
from common import CASES, MIB, ORDER_SQL, PROGRAM, SETS, escaped, run_measured
from choosing import consoled
from delivered import delivery, tree_of
from drawing import draw_backups, draw_bootstrap, draw_lines, draw_script, draw_volumes, spoil, spoil_headers, spoil_volumes, store_job
from printed import CONSOLE_LINES, REFUSAL_LINES
from reading import Refused, extracted, groups_of, manifest_of, match
from scripting import served

LARGE, LONGEST = 16 * MIB, 60
# A script answers on standard output alone; the other commands refuse on standard error.
ODD_VALUES = "NULL -1 0 1 7 4294967295 4294967296 9223372036854775807 -9223372036854775808 1.5 '' 'x' X'00' X'FF'".split()


def bacula_input(dice):
    """Returns volumes and a bootstrap that Bacula wrote."""
    name = dice.choice(("order-inc", "order-written", "pruned-all", "swap-full", "swap-inc"))
    with tempfile.TemporaryDirectory() as room:
        folder = Path(room) / "set"
        unpack(Path(SETS) / (Path(CASES) / name / "set").read_text().strip(), folder)
        volumes = {os.fsencode(it.name): it.read_bytes() for it in folder.iterdir()}
    return volumes, (Path(CASES) / name / "x.bsr").read_bytes()


def draw_input(dice):
    """Returns volumes and a bootstrap, spoilt or not."""
    if dice.random() < 0.15:
        volumes, text = bacula_input(dice)
    else:
        volumes, sessions = draw_volumes(dice)
        text = draw_bootstrap(dice, volumes, sessions)
    return spoil_volumes(dice, volumes), spoil(dice, text) if dice.random() < 0.15 else text


class Trial:
    """One input in a folder of its own, and what its run must give."""

    def __init__(self, given, folder):
        self.program, self.seconds, self.memory = os.path.abspath(given.program), given.seconds, given.memory * MIB
        self.folder, self.wrong = folder, []

    def write(self, name, data):
        path = os.path.join(os.fsencode(self.folder), name if isinstance(name, bytes) else name.encode())
        os.makedirs(os.path.dirname(path), exist_ok=True)
        with open(path, "wb") as file:
            file.write(data)
        return os.fsdecode(path)

    def run(self, words, lines=os.devnull):
        """Runs the program. Returns status, standard output and standard error, and notes a run that costs too much."""
        out, errors = os.path.join(self.folder, "out"), os.path.join(self.folder, "errors")
        # The shell's own memory is small. The peak of a child includes what the process held that
        # started it.
        command = f"ulimit -t {LONGEST}; {shlex.join([self.program, *words])} < {shlex.quote(lines)}"
        self.write("command", command.encode())
        _, memory, seconds, status = run_measured(["sh", "-c", command], out, errors)
        printed, told = Path(out).read_bytes(), Path(errors).read_bytes()
        sizes = [int(size) for size in re.findall(rb"(?m)^F .* (\d+) [0-9a-f]{32}$", printed)]
        if sum(sizes) <= LARGE:
            self.wrong += [f"{seconds:.2f} seconds"] * (seconds > self.seconds)
            self.wrong += [f"{memory >> 20} MiB"] * (memory > self.memory)
        return status, printed, told

    def compare(self, found, expected):
        names = "status", "standard output", "standard error"
        self.wrong += [name for name, one, other in zip(names, found, expected) if one != other]

    def put_volumes(self, volumes):
        os.makedirs(os.path.join(self.folder, "volumes"))
        for name, data in volumes.items():
            self.write(b"volumes/" + name, data)

    def extract(self, dice, delivers):
        volumes, text = draw_input(dice)
        self.put_volumes(volumes)
        words = ["extract", "--bsr", self.write("x.bsr", text), "--volumes", os.path.join(self.folder, "volumes")]
        words += ["--drives", str(dice.choice((2, 3, 16)))] if dice.random() < 0.5 else []
        words += ["--memory", dice.choice(("0", "5", "1K"))] if dice.random() < 0.5 else []
        status, manifest, refusals = extracted(text, volumes)
        tree = {}
        if delivers:
            tree, stop = delivery(manifest)
            words += ["--into", os.path.join(self.folder, "into")]
            os.makedirs(words[-1])
            if stop is not None:
                status, refusals = 1, b"refused %d\n" % stop
        self.compare(self.run(words), (status, manifest, refusals))
        if delivers and tree_of(words[-1]) != tree:
            self.wrong.append("delivered files")

    def script(self, dice):
        lines, expected, kept, volumes = [], [], None, {}
        for _ in range(dice.randrange(1, 4)):
            drawn, text = draw_input(dice)
            for name, data in drawn.items():
                if len(data) <= 1500:
                    lines.append(b"volume %s %s" % (escaped(name).encode(), data.hex().encode() or b"-"))
                    volumes[name] = volumes.get(name, b"") + data
                if dice.random() < 0.1:
                    lines.append(dice.choice((b"frob", b"drives 17", b"drives 0", b"volume", b"volume A", b"volume A 0", b"volume \\x 00")))
                    expected.append(b"refused 90 line %d\n" % len(lines))
            lines.append(b"bsr")
            body = [line for line in text.split(b"\n") if line != b"."]
            lines += [*body, b"."]
            try:
                kept = groups_of(b"".join(line + b"\n" for line in body))
            except Refused as refused:
                kept = None
                expected.append(f"refused {refused}\n".encode())
            if dice.random() < 0.5:
                lines.append(b"drives %d" % dice.randrange(1, 17))
            lines.append(b"extract")
            if kept is None:
                expected.append(b"refused 90 line %d\n" % len(lines))
                continue
            try:
                expected.append(manifest_of(match(kept, volumes))[0])
            except Refused as refused:
                expected.append(f"refused {refused}\n".encode())
        printed = b"".join(expected)
        has_fault = re.search(rb"(?m)^(refused|X) ", printed) is not None
        script = self.write("script", b"".join(line + b"\n" for line in lines))
        self.compare(self.run(["serve"], script), (1 if has_fault else 0, printed, b""))

    def served(self, dice):
        text = draw_script(dice)
        text = spoil(dice, text) if dice.random() < 0.1 else text
        self.compare(self.run(["serve"], self.write("script", text)), served(text))

    def console(self, dice):
        jobs, volumes = draw_backups(dice)
        catalogue = os.path.join(self.folder, "catalogue")
        with contextlib.closing(sqlite3.connect(catalogue)) as connection:
            connection.executescript("".join(line for line in Path(ORDER_SQL).read_text().split("INSERT")[:1]))
            connection.execute("INSERT INTO Version VALUES (2)")
            for job in jobs if dice.random() < 0.5 else reversed(jobs):
                store_job(connection, job)
            connection.commit()
        if dice.random() < 0.2:
            volumes = spoil_volumes(dice, volumes)
        self.put_volumes(volumes)
        moment, text = dice.choice((100, 201, 250, 301, 1000, 1000, 1000)), draw_lines(dice)
        asked = b"web" if dice.random() < 0.95 else b"nobody", b"all" if dice.random() < 0.95 else b"none"
        before = f"1970-01-01 00:{moment // 60:02}:{moment % 60:02}"
        words = ["console", "--db", catalogue, "--volumes", os.path.join(self.folder, "volumes"), "--client", asked[0].decode()]
        words += ["--fileset", asked[1].decode(), "--before", before]
        words += ["--drives", "3"] if dice.random() < 0.3 else []
        words += ["--memory", dice.choice(("0", "5", "1K"))] if dice.random() < 0.3 else []
        jobs.sort(key=lambda job: job["id"])
        self.compare(self.run(words, self.write("lines", text)), consoled(jobs, volumes, (*asked, moment), text))

    def spoilt_catalogue(self, dice):
        catalogue = os.path.join(self.folder, "catalogue")
        with contextlib.closing(sqlite3.connect(catalogue)) as connection:
            connection.executescript(Path(ORDER_SQL).read_text())
            if dice.random() < 0.6:
                self.change_rows(dice, connection)
            connection.commit()
        if dice.random() < 0.4:
            data = Path(catalogue).read_bytes()
            Path(catalogue).write_bytes(spoil(dice, data))
        volume = (Path(SETS) / "order" / "Vol-0001").read_bytes()
        self.put_volumes({b"Vol-0001": spoil_headers(dice, volume) if dice.random() < 0.3 else volume})
        lines = [b"cd /tmp/peerlab/src", b"ls", b"mark *", b"unmark f1", b"count", b"estimate", b"find *", b"lsmark", b"cd ..", b"frob", b"pwd"]
        text = b"".join(line + b"\n" for line in dice.sample(lines, 6)) + b"mark *\ndone\n"
        text = spoil(dice, text) if dice.random() < 0.3 else text
        words = ["console", "--db", catalogue, "--volumes", os.path.join(self.folder, "volumes"), "--client", "peer-fd"]
        words += ["--fileset", "Peer", "--before", "2026-11-21 23:15:46"]
        status, printed, told = self.run(words, self.write("lines", text))
        self.wrong += [f"status {status}"] * (status not in (0, 1))
        self.wrong += ["a line of standard output"] * (not all(CONSOLE_LINES.fullmatch(it) for it in printed.splitlines()))
        self.wrong += ["a line of standard error"] * (not all(REFUSAL_LINES.fullmatch(it) for it in told.splitlines()))

    def change_rows(self, dice, connection):
        """Changes rows of a catalogue to values of other types, repeated ones, and ones that point nowhere."""
        tables = [row[0] for row in connection.execute("SELECT name FROM sqlite_schema WHERE type = 'table'")]
        for _ in range(dice.choice((1, 1, 2, 4))):
            table = dice.choice(tables)
            columns = [row[1] for row in connection.execute(f"PRAGMA table_info({table})")]
            rows = [row[0] for row in connection.execute(f"SELECT rowid FROM {table}")] or [1]
            way, row = dice.randrange(4), dice.choice(rows)
            change = f"UPDATE {table} SET {dice.choice(columns)} = {dice.choice(ODD_VALUES)} WHERE rowid = {row}"
            if way == 1:
                change = f"DELETE FROM {table} WHERE rowid = {row}"
            elif way == 2:
                change = f"INSERT INTO {table} SELECT {', '.join(['NULL', *columns[1:]])} FROM {table} WHERE rowid = {row}"
            try:
                connection.execute(change)
            except sqlite3.Error:
                pass


def run_one(given, number):
    """Runs one input. Returns what was not as expected."""
    dice = random.Random(f"{given.seed} {number}")
    folder = tempfile.mkdtemp(prefix="drawn-")
    trial, chance = Trial(given, folder), dice.random()
    try:
        if chance < 0.5:
            trial.extract(dice, delivers=False)
        elif chance < 0.6:
            trial.extract(dice, delivers=True)
        elif chance < 0.7:
            trial.script(dice)
        elif chance < 0.8:
            trial.served(dice)
        elif chance < 0.95:
            trial.console(dice)
        else:
            trial.spoilt_catalogue(dice)
        if trial.wrong and given.keep:
            shutil.copytree(folder, os.path.join(given.keep, str(number)), dirs_exist_ok=True)
    finally:
        shutil.rmtree(folder)
    return trial.wrong


def main():
    parser = argparse.ArgumentParser(description=__doc__.splitlines()[0])
    parser.add_argument("--program", default=PROGRAM)
    parser.add_argument("--count", type=int, default=10_000)
    parser.add_argument("--first", type=int, default=0)
    parser.add_argument("--seed", type=int, default=1)
    parser.add_argument("--keep", help="a folder for the inputs that fail")
    parser.add_argument("--seconds", type=float, default=1.0, help="of the processor, for one run")
    parser.add_argument("--memory", type=int, default=64, help="MiB for one run")
    given, failed = parser.parse_args(), 0
    numbers = range(given.first, given.first + given.count)
    with concurrent.futures.ThreadPoolExecutor(os.cpu_count()) as pool:
        for number, wrong in zip(numbers, pool.map(lambda n: run_one(given, n), numbers)):
            if wrong:
                failed += 1
                print(f"input {number} of seed {given.seed} differs in {', '.join(wrong)}", flush=True)
    print(f"{given.count - failed} as expected, {failed} not")
    return 1 if failed else 0


if __name__ == "__main__":
    sys.exit(main())
