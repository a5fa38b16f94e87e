#!/usr/bin/env python3
"""Measures what hostile input costs: time and memory by bytes of input, for each reader and the worst input that is known.

    bench/costs.py [--program FILE] [--size KIB] [NAME..]

Each input is made in the size that is asked for and in twice it. The table has the processor's seconds, the peak memory (that of the
script at least) and the exit status for both. The inputs of the reader `growth` have sizes of their own, and are made in each, in twice
and in four times it. The status is 1 if a run ended by another status than 0 or 1, or if four times the input of a line of `growth` took
more than MOST times as long.
"""

import argparse
import contextlib
import os
import sqlite3
import struct
import subprocess
import sys
import tempfile
from pathlib import Path

# Nothing is left beside the script.
sys.dont_write_bytecode = True
sys.path.insert(0, os.path.join(os.path.dirname(os.path.dirname(os.path.abspath(__file__))), "tools"))
from common import MIB, ORDER_SQL, PROGRAM, run_measured

# What four times the input may cost, in what the input costs: linear is 4, n log n a bit more, and quadratic is 16.
MOST = 7
# Seconds of the processor that count as nothing: a run takes as long for an input of some bytes.
START = 0.02

ALL = b"Volume=V\n"
NUMBERS = b"A A A A A A A A A A A A A"


def block(body, session=1):
    return struct.pack(">III4sII", 0, 24 + len(body), 0, b"BB02", session, 100) + body


def record(index, stream, data, size=None):
    return struct.pack(">iiI", index, stream, len(data) if size is None else size) + data


def saved(index):
    """Returns the shortest record of attributes: a file of type 3 at `/`."""
    return record(index, 1, b"%d 3 /\0%s\0" % (index, NUMBERS))


def filled(size, make):
    """Returns the results of `make` for 0, 1, 2 and on, as many as fit into a size."""
    parts, total = [], 0
    while True:
        part = make(len(parts))
        total += len(part)
        if total > size:
            return b"".join(parts)
        parts.append(part)


def in_blocks(size, make, each):
    """Returns blocks of `each` records, as many as fit into a size."""
    return filled(size, lambda place: block(b"".join(make(place * each + more) for more in range(each))))


# ---- bootstraps: text, and the volume V


def comments(size):
    return b"#\n" * (size // 2), b""


def one_volume(size):
    return ALL * (size // len(ALL)), b""


def many_volumes(size):
    return filled(size, lambda place: b"Volume=%x\n" % place), None


def ranges(size):
    return ALL + filled(size, lambda place: b"FileIndex=" + b",".join(b"%d" % (2 * (place * 400 + more) + 1) for more in range(400)) + b"\n"), b""


def lists_of_ones(size):
    line = b"Slot=\nStream=" + b"1," * 2040 + b"1\n"
    return ALL + line * (size // len(line)), b""


# ---- volumes: all of V is restored


def empty_blocks(size):
    return ALL, block(b"") * (size // 24)


def records_without_data(size):
    return ALL, in_blocks(size, lambda place: saved(1) if place == 0 else record(1, 2, b""), 5000)


def files_without_attributes(size):
    return ALL, in_blocks(size, lambda place: record(place + 1, 2, b""), 5000)


def shortest_files(size):
    return ALL, in_blocks(size, lambda place: saved(place + 1), 1000)


def short_files_with_data(size):
    return ALL, in_blocks(size, lambda place: saved(place // 2 + 1) if place % 2 == 0 else record(place // 2 + 1, 2, b"x"), 1000)


def cut_records(size):
    """One record whose data goes on in each block by one byte."""
    count = size // 37
    return ALL, b"".join(block(record(1, 2 if place == 0 else -2, b"x", count - place)) for place in range(count))


def sparse_records(size):
    return ALL, in_blocks(size, lambda place: saved(1) if place == 0 else record(1, 6, struct.pack(">Q", 2 * place) + b"x"), 2000)


def long_link(size):
    return ALL, block(record(1, 1, b"1 4 /a\0%s\0%s\0" % (NUMBERS, b"l" * (size - 100))))


def long_numbers(size):
    return ALL, block(record(1, 1, b"1 3 /a\0%s%s\0\0" % (b"A" * (size - 100), NUMBERS)))


def one_file(size):
    return ALL, b"".join(block(it) for it in [saved(1), *[record(1, 2, b"x" * 60_000) for _ in range(size // 60_036)]])


# ---- both, each with half of the size


def groups_of_records(size):
    """Groups that admit no record, so that each record is compared with each of them."""
    text, half = b"Volume=V\nStream=9\n", size // 2
    return text * (half // len(text)), in_blocks(half, lambda place: record(1, 2, b""), 1000)


def ranges_of_records(size):
    return ranges(size // 2)[0].replace(b"FileIndex", b"Stream"), in_blocks(size // 2, lambda place: record(1, 2, b""), 1000)


EXTRACTS = {
    "bootstrap": (comments, one_volume, many_volumes, ranges, lists_of_ones),
    "volume": (
        empty_blocks,
        records_without_data,
        files_without_attributes,
        shortest_files,
        short_files_with_data,
        cut_records,
        sparse_records,
        one_file,
    ),
    "attributes": (long_link, long_numbers),
    "bootstrap and volume": (groups_of_records, ranges_of_records),
}


# ---- scripts


def volumes_of_a_script(size):
    return filled(size, lambda place: b"volume %x -\n" % place)


def refused_lines(size):
    return b"\n" * size


def long_lines(size):
    return (b"volume V " + b"00" * 2043 + b"\n") * (size // 4096)


def restores(size):
    """A volume and a bootstrap of a fourth of the size each, and restores by it."""
    text = b"volume V %s\nbsr\nVolume=V\n.\n" % block(saved(1)).hex().encode()
    return text + b"extract\n" * ((size - len(text)) // 8)


SCRIPTS = (refused_lines, long_lines, volumes_of_a_script, restores)


# ---- sessions with the console over a small catalogue, and catalogues


def lines_of(line):
    return lambda size: line * (size // len(line)) + b"quit\n"


CONSOLES = {
    "pwd": lines_of(b"pwd\n"),
    "find *": lines_of(b"find *\n"),
    "empty lines": lines_of(b"\n"),
    "stars": lines_of(b"find " + b"*a" * 2040 + b"z\n"),
    "a long pattern": lines_of(b"find *" + b"a" * 2000 + b"z\n"),
}


def connected(file):
    connection = sqlite3.connect(file)
    connection.executescript(Path(ORDER_SQL).read_text().split("INSERT")[0] + "INSERT INTO Version VALUES (2);")
    connection.executescript("INSERT INTO Client VALUES (1, 'c'); INSERT INTO FileSet VALUES (1, 'f'); INSERT INTO Media VALUES (1, 'V', 'File');")
    return connection


def insert_job(connection, number):
    connection.execute("INSERT INTO Job VALUES (?, 'B', 'F', 1, 'T', 100, 1, ?, 100)", (number, number))


def many_jobs(connection, count):
    connection.executemany("INSERT INTO Job VALUES (?, 'B', 'I', 1, 'T', 100, 1, ?, 100)", ((it, it) for it in range(1, count)))


def many_spans(connection, count):
    insert_job(connection, 1)
    rows = ((it, it, it + 1) for it in range(count))
    connection.executemany("INSERT INTO JobMedia VALUES (NULL, 1, 1, 1, 1, 0, 0, ?, ?, ?)", rows)


def many_files(connection, count):
    insert_job(connection, 1)
    connection.execute("INSERT INTO Path VALUES (1, CAST('/' AS BLOB))")
    rows = ((it, b"%x" % it, NUMBERS.decode()) for it in range(1, count))
    connection.executemany("INSERT INTO File VALUES (NULL, ?, 1, 1, ?, ?, '')", rows)


def long_names(connection, count):
    """Names of 4,000 letters that end in another one."""
    insert_job(connection, 1)
    connection.execute("INSERT INTO Path VALUES (1, CAST('/' AS BLOB))")
    rows = ((it, b"a" * 4000 + b"%x" % it, NUMBERS.decode()) for it in range(1, count))
    connection.executemany("INSERT INTO File VALUES (NULL, ?, 1, 1, ?, ?, '')", rows)


def same_files(connection, count):
    """Deletions of one path again and again."""
    insert_job(connection, 1)
    connection.execute("INSERT INTO Path VALUES (1, CAST('/' AS BLOB))")
    connection.executemany("INSERT INTO File VALUES (NULL, 0, 1, 1, CAST('a' AS BLOB), '', '')", (() for _ in range(count)))


def long_texts(connection, count):
    """Deletions with a text of numbers that is not read."""
    same_files(connection, 0)
    connection.executemany("INSERT INTO File VALUES (NULL, 0, 1, 1, CAST('a' AS BLOB), ?, '')", (("x" * 10_000,) for _ in range(count // 250)))


CATALOGUES = {many_jobs: 40, many_spans: 40, many_files: 60, same_files: 17, long_texts: 40}


# ---- inputs that are to cost as much as they are long: a run for each, by its number of parts


def incrementals(costs, count):
    """The choice of a Full and Incrementals, of which each has a line."""

    def fill(connection, count):
        many_jobs(connection, count)
        connection.execute("UPDATE Job SET Level = 'F' WHERE JobId = 1")

    costs.catalogue(fill, count)
    words = ["jobs", "--db", os.path.join(costs.folder, "catalogue"), "--client", "c", "--fileset", "f", "--before", "2026-01-01 00:00:00"]
    return costs.run(words)


def spans_over_all_files(costs, count):
    """As many files as spans, of which each has a part of each file."""

    def fill(connection, count):
        many_files(connection, count + 1)
        rows = ((count, it, it, it + 1) for it in range(count))
        connection.executemany("INSERT INTO JobMedia VALUES (NULL, 1, 1, 1, ?, 0, 0, ?, ?, ?)", rows)

    costs.catalogue(fill, count)
    return costs.console(lambda size: b"mark *\ndone\n", 0)


def marks(costs, count):
    """A line that marks one name, for each second name of a directory."""
    costs.catalogue(many_files, count)
    return costs.console(lambda size: b"".join(b"mark %x\n" % it for it in range(1, count, 2)) + b"quit\n", 0)


def records_read_again(costs, count):
    """A file of records with a byte each in one block, of which none is held."""
    body = saved(1) + record(1, 2, b"x") * count
    return costs.extract(lambda size: (ALL, block(body)), 0, ["--memory", "0"])


GROWTH = {incrementals: 20_000, spans_over_all_files: 8_000, marks: 16_000, records_read_again: 40_000}


class Costs:
    """Measures runs in a folder."""

    def __init__(self, program, folder):
        self.program, self.folder, self.failed = program, folder, False

    def run(self, words, lines=os.devnull):
        """Returns the processor's seconds, the peak memory and the status of a run."""
        command = f'ulimit -t 300; exec "$0" "$@" < {lines}'
        _, memory, seconds, status = run_measured(["sh", "-c", command, self.program, *words], os.path.join(self.folder, "out"), os.devnull)
        self.failed |= status not in (0, 1)
        return seconds, memory, status

    def run_lines(self, words, make, size):
        """Runs a command that reads these lines."""
        self.write(lambda: {"lines": make(size)})
        return self.run(words, os.path.join(self.folder, "lines"))

    def write(self, make):
        """Writes the files that `make` returns by their names. A child makes them: what this process holds counts as memory of a run."""
        child = os.fork()
        if child == 0:
            for name, data in make().items():
                path = Path(self.folder, name)
                path.parent.mkdir(exist_ok=True)
                path.unlink(missing_ok=True)
                if data is not None:
                    path.write_bytes(data)
            os._exit(0)
        if os.waitpid(child, 0)[1] != 0:
            raise RuntimeError("the input was not made")

    def extract(self, make, size, words=()):
        self.write(lambda: dict(zip(("x.bsr", "volumes/V"), make(size))))
        command = ["extract", "--bsr", os.path.join(self.folder, "x.bsr"), "--volumes", os.path.join(self.folder, "volumes")]
        return self.run([*command, *words])

    def console(self, make, size):
        words = ["console", "--db", os.path.join(self.folder, "catalogue"), "--volumes", self.folder, "--client", "c", "--fileset", "f"]
        return self.run_lines([*words, "--before", "2026-01-01 00:00:00"], make, size)

    def catalogue(self, fill, count):
        """Makes a catalogue of `count` rows. Returns its size."""

        def make():
            catalogue = Path(self.folder, "made")
            catalogue.unlink(missing_ok=True)
            with contextlib.closing(connected(catalogue)) as connection:
                fill(connection, count)
                connection.commit()
            return {"catalogue": catalogue.read_bytes(), "catalogue-wal": None}

        self.write(make)
        return os.path.getsize(os.path.join(self.folder, "catalogue"))

    def tried(self, fill, count):
        """Measures a catalogue of `count` rows. Returns its size too."""
        return self.catalogue(fill, count), self.console(lambda size: b"quit\n", 0)

    def grow(self, run, count):
        """Measures an input of `count` parts, of twice and of four times as many."""
        runs = [run(self, count * times) for times in (1, 2, 4)]
        grows = runs[2][0] / max(runs[0][0], START)
        self.failed |= grows > MOST
        cells = [f"{count * times:8} parts {seconds:8.3f} s {memory / MIB:7.1f} MiB {status}" for times, (seconds, memory, status) in zip((1, 2, 4), runs)]
        print(f"{'growth':20} {run.__name__:26} {' | '.join(cells)} | {grows:5.1f} times", flush=True)

    def show(self, reader, name, sizes, runs):
        cells = []
        for size, (seconds, memory, status) in zip(sizes, runs):
            cells += [f"{size / 1024:8.0f} KiB {seconds:8.3f} s {memory / MIB:7.1f} MiB {status}"]
        print(f"{reader:20} {name:26} {' | '.join(cells)}", flush=True)


def measure(costs, wanted, kib):
    """Measures all that is wanted, in the size that was asked for and in twice it."""
    sizes = [kib * 1024, 2 * kib * 1024]
    for reader, makers in EXTRACTS.items():
        for make in makers:
            if wanted(make.__name__):
                costs.show(reader, make.__name__, sizes, [costs.extract(make, size) for size in sizes])
    for make in SCRIPTS:
        if wanted(make.__name__):
            costs.show("script", make.__name__, sizes, [costs.run_lines(["serve"], make, size) for size in sizes])
    for name, make in CONSOLES.items():
        if wanted(name):
            costs.catalogue(long_names, 20)
            costs.show("console", name, sizes, [costs.console(make, size) for size in sizes])
    for fill, each in CATALOGUES.items():
        if wanted(fill.__name__):
            runs = [costs.tried(fill, size // each) for size in sizes]
            costs.show("catalogue", fill.__name__, [it[0] for it in runs], [it[1] for it in runs])
    for run, count in GROWTH.items():
        if wanted(run.__name__):
            costs.grow(run, count)


def main():
    parser = argparse.ArgumentParser(description="Measures what hostile input costs.")
    parser.add_argument("--program", type=os.path.abspath, default=PROGRAM, help="the program (default: %(default)s)")
    parser.add_argument("--size", type=int, default=1024, metavar="KIB", help="the size of the smaller input (default: %(default)s KiB)")
    parser.add_argument("names", nargs="*", metavar="NAME", help="the inputs (default: all)")
    given = parser.parse_args()
    with tempfile.TemporaryDirectory() as folder:
        costs = Costs(given.program, folder)
        measure(costs, lambda name: not given.names or name in given.names, given.size)
    return 1 if costs.failed else 0


if __name__ == "__main__":
    sys.exit(main())
