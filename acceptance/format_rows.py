#!/usr/bin/env python3
"""Runs rows over blocks, bootstraps, checks and sessions, and compares what the program prints with what each row wants.

    acceptance/format_rows.py                  needs the program in crates/brestore/out
    acceptance/format_rows.py --program FILE   another program
    acceptance/format_rows.py checks           only the rows of that name; with `,` between two names

The rows are in rows/formats, with what each call means. Their volumes and bootstraps are files for `check` and `extract`, and their
files are saved by scripts of `serve`. What a row wants was worked out by hand. Rows that do not hold are printed, and then the numbers of
all. The status is 1 if one does not hold.
"""

import hashlib
import os
import re
import struct
import sys

# Nothing is left beside the script.
sys.dont_write_bytecode = True
sys.path.insert(0, os.path.join(os.path.dirname(os.path.dirname(os.path.abspath(__file__))), "tools"))
from bacula import block_of
from common import ROOT, unescaped
from job_rows import job_of, make_catalogue, span_shown
from odd import record
from reading import groups_of, hits, manifest_of
from row_fields import bytes_of, shown, text_of
from row_text import BadRow, main, printed
from scripting import put_line
from stored import rows_of

FILE = os.path.join(ROOT, "acceptance", "rows", "formats")
STAT = b"A A IGk B A A A F A A A A A A"
# The most bytes of a volume that a file here is made to have.
MOST = 1 << 30


def volumes_in(place, volumes=None):
    """Makes the folder of volumes with these bytes, and returns it."""
    folder = place.folder / "volumes"
    folder.mkdir(exist_ok=True)
    for name, data in (volumes or {}).items():
        (folder / name).write_bytes(data)
    return folder


def run_bootstrap(place, command, text, volumes, *more):
    """Runs a command by a bootstrap over volumes. Returns status, standard output and standard error."""
    bsr = place.folder / "x.bsr"
    bsr.write_bytes(text)
    return place.run(command, "--bsr", bsr, "--volumes", volumes_in(place, volumes), *more)


def named_fields(field):
    """Returns the names and the bytes of `NAME:BYTES,..`; `-` is none."""
    return {} if field == "-" else {name: bytes_of(data) for name, _, data in (it.partition(":") for it in field.split(","))}


# Blocks.


def fragment_of(text):
    """Returns the file key of a fragment as a row prints it, and stream, size and bytes."""
    index, stream, size, id_, time, data = text.split(" ")
    data = b"" if data == "-" else unescaped(data.encode())
    return (int(id_), int(time), int(index)), (int(stream), int(size), data)


def expected_manifest(fragments):
    """Returns the manifest of fragments of one block, by a second reading."""
    found = {}
    for ordinal, text in enumerate(fragments):
        key, fragment = fragment_of(text)
        if key[2] > 0:
            found.setdefault(key, {})[ordinal] = fragment
    return manifest_of(found)[0]


def block(place, fields, wanted):
    """Restores the block at the start of these bytes: the manifest is that of the wanted fragments.
    If only the block is there, the next one is looked for after as many bytes as are wanted."""
    data = bytes_of(fields[1])
    _, output, told = run_bootstrap(place, "extract", b"Volume=V\nVolAddr=0\n", {"V": data})
    if told:
        return re.fullmatch(r"(refused \d+) V 0\n", told.decode())[1]
    *fragments, count = wanted.split(" | ")
    if output != expected_manifest(fragments):
        return f"the manifest {printed(output)}"
    alone = {"V": data[: int(count)] + b"no block, sixteen"}
    told = run_bootstrap(place, "extract", b"Volume=V\n", alone)[2]
    return wanted if told == b"refused 10 V %s\n" % count.encode() else f"what follows is {printed(told)}"


# Bootstraps.


def refusal(place, text):
    """Returns how a bootstrap is refused. One that is read is not refused, or a volume of it is."""
    told = run_bootstrap(place, "extract", text, {})[2].decode()
    found = re.fullmatch(r"refused (3\d) line (\d+)\n", told)
    return f"{found[1]} in line {found[2]}" if found else "none" if re.fullmatch(r"(refused 14 \S+ 0\n)?", told) else told


def volumes_with(groups, keys):
    """Returns the volumes of groups with a file of each key, on the volume of the first group that asks for it."""
    volumes = {group[b"volume"].decode(): b"" for group in groups}
    for number, (id_, time, index) in enumerate(dict.fromkeys(keys)):
        asking = [group for group in groups if hits(group, 0, (id_, time), index, 1)]
        if asking:
            text = b"%d 3 /%d\0%s\0\0" % (index, number, STAT)
            volumes[asking[0][b"volume"].decode()] += block_of(record(index, 1, text), 0, id_, time)
    return volumes


def complete(place, text, fields):
    """Returns what `--complete` prints of a bootstrap and of files that are given as ID:TIME:INDEX."""
    keys = [tuple(int(number) for number in field.split(":")) for field in fields]
    return run_bootstrap(place, "extract", text, volumes_with(groups_of(text), keys), "--complete")[2]


def missing(place, text, fields):
    """Returns the runs of indexes that are asked for and not there, as they are shown."""
    names, gaps = [group[b"volume"] for group in groups_of(text)], []
    for line in complete(place, text, fields).splitlines():
        word, _, _, indexes, volume = line.split(b" ")
        low, _, high = indexes.decode().partition("-")
        if word != b"missing":
            raise BadRow("a line of another kind")
        gaps.append(f"Gap {{ group: {names.index(volume)}, indexes: Range {{ low: {low}, high: {high or low} }} }}")
    return f"Ok([{', '.join(gaps)}])"


def pieces(place, text):
    """Returns the volumes of the pieces in order, each with the numbers of the groups whose files are found on it."""
    missed = re.findall(r"(?m)^volume 14 (\S+) 0$", run_bootstrap(place, "check", text, {})[1].decode())
    groups, volumes = groups_of(text), {}
    for number, group in enumerate(groups):
        index, name = number + 1, group[b"volume"].decode()
        data = record(index, 1, b"%d 3 /%d\0%s\0\0" % (index, number, STAT))
        volumes[name] = volumes.get(name, b"") + block_of(data, 0, group[b"volsessionid"][0][0], 100)
    output = run_bootstrap(place, "extract", text, volumes)[1].decode()
    found = [int(index) - 1 for index in re.findall(r"(?m)^F \d+ 100 (\d+) ", output)]
    return " ".join(" ".join([name, *(str(n) for n in sorted(found) if groups[n][b"volume"] == name.encode())]) for name in missed)


def bootstrap(place, fields, _wanted):
    """Runs a call over the text of a bootstrap."""
    call, text, *rest = fields
    text = text_of(text)
    if call == "report":
        return shown(complete(place, text, rest))
    if call == "missing":
        return missing(place, text, rest)
    return {"refusal": refusal, "pieces": pieces}[call](place, text)


def check(place, fields, _wanted):
    """Prints what a check finds. A drive that fails reads a folder instead of its first volume."""
    kind, volumes, tails, text, *memory = fields
    volumes, text = named_fields(volumes), text_of(text)
    if kind != "growing":
        (volumes_in(place) / next(iter(volumes))).mkdir()
        volumes = {}
    if tails != "-":
        raise BadRow("no volume grows here")
    status, output, told = run_bootstrap(place, "check", text, volumes, *(["--memory", *memory] if memory else []))
    return f"{shown(output)} {({0: 'true', 1: 'false'}).get(status, status)}" if not told else printed(told)


def explanation(place, fields, _wanted):
    """Prints the output of `explain` for a number, or `none`."""
    status, output, _ = place.run("explain", fields[1])
    return printed(output) if status == 0 else "none" if (status, output) == (2, b"") else printed(output)


# Volumes in memory, files and sessions.


def store(place, fields, wanted):
    """Appends to volumes in memory. Each begins with a block whose one file has what is appended afterwards: the manifest shows length and
    digest of it."""
    names = [name for name, *_ in (it.split(" ")[0].partition(":") for it in re.findall(r"\S+:\S+", wanted))]
    contents = {name: bytes_of(text) for name, text in re.findall(r"(\S+):(\S+)", wanted)}
    lines, asked = [], b"".join(b"bsr\nVolume=%s\n.\nextract\n" % name.encode() for name in [*names, "v"])
    for name, data in contents.items():
        head = record(1, 1, b"1 3 /a\0%s\0\0" % STAT) + struct.pack(">iiI", 1, 2, len(data))
        front = block_of(head + data, 0, 1, 100)[: len(head) + 24]
        lines.append(b"volume %s %s\n" % (name.encode(), front.hex().encode()))
    for field in [*fields, "V:f"]:
        name, _, data = field.partition(":")
        lines.append(b"volume %s %s\n" % (name.encode(), bytes_of(data).hex().encode() or b"-"))
    output = place.run("serve", lines=b"".join(lines) + asked)[1].decode()
    found = re.findall(r"= (\d+) (\w{32})\ntotal 1 0 0\n", output)
    wanted_sums = [(str(len(data)), hashlib.md5(data).hexdigest()) for data in contents.values()]
    return wanted if found == wanted_sums and output.endswith("refused 14 v 0\n") else printed(output.encode())


def saved_line(field):
    """Returns the path of a file and the line that saves it."""
    path, kind, numbers, link, data, digest = field.split(",")
    word = b"putd" if digest else b"put"
    link = bytes_of(link).hex().encode() or b"-"
    return path, put_line(path.encode(), bytes_of(data), word, int(kind), link, bytes_of(numbers)) + b"\n"


def saved_file(place, field, wanted):
    """Saves a file and restores it. Shows path, type, size, bytes if their digest is that of the wanted ones, and link."""
    path, line = saved_line(field)
    asked = f"restore c f 1970-01-01 00:00:01\nmark {path.strip('/')}\ndone\n".encode()
    output = place.run("serve", lines=b"job 1 B F T 0 1 100 64512 c f\n" + line + b"place V 0\nend\n" + asked)[1].decode()
    refused = re.match(r"refused (\d+)\n", output)
    if refused:
        return f"refused {refused[1]}"
    kind, name, numbers, link, count, digest = re.search(r"(?m)^F 1 100 1 (\d) (\S+) (\S+) =(\S*) (\d+) (\w+)$", output).groups()
    data = bytes_of(wanted.split(" ")[3])
    shown = printed(data) if (int(count), digest) == (len(data), hashlib.md5(data).hexdigest()) else "other bytes"
    return f"{name} {kind} {numbers.split(',')[7]} {shown} {link or '-'}"


def long_printed(data):
    """Returns bytes as a row prints them; if they are many, only the first and the last."""
    return printed(data) if len(data) <= 200 else f"{printed(data[:90])}..{printed(data[-16:])}"


def blocks_after(volume, start):
    """Returns the blocks that a volume has from an address on, each with its number."""
    data, blocks = volume.read_bytes()[start:] if volume.exists() else b"", []
    while data:
        size, number = struct.unpack(">II", data[4:12])
        blocks.append((number, volume.name, data[:size]))
        data = data[size:]
    return blocks


def vouch(place, starts):
    """Makes a catalogue of a job whose spans end where volumes have these lengths, and these volumes, unless they are too long."""
    job, folder = job_of("9:BFT:0@9:9"), volumes_in(place)
    job["spans"] = [(name, 1, 1, 0, start - 1, number) for number, (name, start) in enumerate(starts.items(), 1)]
    make_catalogue(place.folder / "c.db", [job])
    for name, start in starts.items():
        if start < MOST:
            (folder / name).write_bytes(bytes(start))


def session(place, head, places, starts, files):
    """Commits the job of a session, and shows the blocks on its volumes and the spans in its catalogue."""
    id_, time, limit = head.split(":")
    starts = {} if starts == "-" else dict(it.split(":") for it in reversed(starts.split(",")))
    starts = {name: int(start) for name, start in reversed(starts.items()) if int(start)}
    vouch(place, starts)
    lines = f"job 1 B F T 0 {id_} {time} {limit} c f\n".encode() + b"".join(saved_line(field)[1] for field in files)
    lines += b"".join(b"place %s %s\n" % tuple(it.encode() for it in field.split(":")) for field in places.split(","))
    db, folder = place.folder / "c.db", place.folder / "volumes"
    output = place.run("serve", "--db", db, "--volumes", folder, lines=lines + b"end\n")[1].decode()
    if output != "stored 1\n":
        return output.rstrip("\n")
    volumes = dict.fromkeys(field.split(":")[0] for field in places.split(","))
    blocks = sorted(it for name in volumes for it in blocks_after(folder / name, starts.get(name, 0)))
    spans = ", ".join(span_shown(row) for row in rows_of(db)["JobMedia"] if row[0] == 1)
    return "".join(f"{name}:{len(data)}:{long_printed(data)} " for _, name, data in blocks) + f"[{spans}]"


def sessions(place, fields, wanted):
    """Saves a file, or writes a session."""
    match fields:
        case ["file", field]:
            return saved_file(place, field, wanted)
        case ["write", head, places, starts, *files]:
            return session(place, head, places, starts, files)
    raise BadRow("no such call")


CALLS = {
    "types": explanation,
    "block": block,
    "bootstrap": bootstrap,
    "check": check,
    "volume": lambda place, fields, wanted: store(place, fields[1:], wanted),
    "session": sessions,
}


def run_row(place, fields, wanted):
    """Runs a row. Returns what it gave."""
    return CALLS[fields[0]](place, fields[1:], wanted)


if __name__ == "__main__":
    main("Runs rows over formats.", FILE, run_row)
