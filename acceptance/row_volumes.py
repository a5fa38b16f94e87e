"""The calls of rows/delivery that print: what bootstraps select in volumes, the files made of fragments, and manifests."""

import hashlib
import subprocess

from common import ORDER_SQL
from reading import fragments_of, manifest_of
from row_fields import shown
from row_items import block_of, outcomes_of, records_of, text_of

ENDS = ("open", "ready")


def served(tools, volumes, bootstrap):
    """Runs a script that restores by a bootstrap from volumes. Returns its status and standard output."""
    lines = []
    for name, data in volumes.items():
        parts = [data[at : at + 1000].hex() for at in range(0, len(data), 1000)] or ["-"]
        lines += [f"volume {name} {part}\n".encode() for part in parts]
    text = b"".join([*lines, b"bsr\n", bootstrap, b".\nextract\n"])
    ran = subprocess.run([tools.program, "serve"], input=text, capture_output=True, timeout=60)
    return ran.returncode, ran.stdout


def fields_of_refusal(printed):
    """Returns what is printed if it is one line of a refusal."""
    lines = printed.decode().splitlines()
    return lines[0] if len(lines) == 1 and lines[0].startswith("refused ") else None


def hit_in(volume, word):
    """Returns the file, the place and the fragment of a hit of a volume; a row gives its group,
    address and ordinal."""
    group, address, ordinal = map(int, word.split(":"))
    end = address + int.from_bytes(volume[address + 4 : address + 8], "big")
    session, index, *fragment = fragments_of(volume[address:end])[ordinal]
    return (*session, index), (group, address, ordinal), tuple(fragment)


def spots_in(volume, words):
    """Returns the hits of a row that gives group, address and ordinal."""
    return [hit_in(volume, word) for word in words]


def indexes_in(volume, words):
    """Returns the hits that are records of these files: each is the record of that number in the one block of a volume."""
    return [hit_in(volume, f"0:0:{int(word) - 1}") for word in words]


def records_in(_volume, words):
    """Returns the hits of a row that gives session, index, stream, size and bytes."""
    found = []
    for at in range(0, len(words), 6):
        session, time, index, stream, size = map(int, words[at : at + 5])
        found.append(((session, time, index), (0, at, 0), (stream, size, text_of(words[at + 5]))))
    return found


READERS = {"spots": spots_in, "indexes": indexes_in, "records": records_in}


def matched(tools, fields, wanted):
    """Runs `match`. Returns what is wanted if the manifest is that of the hits that are wanted."""
    shown, volume, bootstrap = fields[0], text_of(fields[1]), text_of(fields[2])
    status, printed = served(tools, {"V1": volume, "E": b""}, bootstrap)
    refused = fields_of_refusal(printed)
    if refused is not None:
        return refused
    found = {}
    for key, place, fragment in READERS[shown](volume, [it for it in wanted.split(" ") if it[-1:] != ":" and it]):
        found.setdefault(key, {})[place] = fragment
    manifest, is_clean = manifest_of(found)
    return wanted if (status, printed) == (0 if is_clean else 1, manifest) else f"{status} {shown(printed)}, and not {shown(manifest)}"


def over_fronts(tools, fields, _wanted):
    """Runs `fronts`. Returns what a bootstrap gives over the first bytes of a volume, from one byte to all but one, and how often."""
    volume, bootstrap, given = text_of(fields[0]), text_of(fields[1]), {}
    for length in range(1, len(volume)):
        status, printed = served(tools, {"V1": volume[:length]}, bootstrap)
        told = fields_of_refusal(printed) or f"{status} {shown(printed)}"
        given[told] = given.get(told, 0) + 1
    return " ".join(f"{count}: {told}" for told, count in given.items())


def hits_of(steps):
    """Returns the hits of steps, by group, address, ordinal and index: index, stream, size and bytes of each."""
    hits = {}
    for step in steps:
        for field in step.partition("/")[2].split(";"):
            if field:
                index, spot, stream, size, data = field.split(":")
                place = *map(int, spot.split(".")), int(index)
                hits[place] = int(index), int(stream), int(size), text_of(data)
    return hits


def volumes_of(hits):
    """Returns the volumes A and B; the first has the fragments of group 0 and the second those of
    group 1."""
    volumes = {}
    for group, name in enumerate("AB"):
        blocks = {}
        for (of_group, address, *_), hit in sorted(hits.items()):
            if of_group == group:
                blocks.setdefault(address, []).append(hit)
        volumes[name] = b"".join(map(block_of, blocks.values()))
    return volumes


def outcome_of(line):
    """Returns the line of a manifest as a row prints it: of a file index, type, path, mode, size, link, number of bytes and digest."""
    if line[0] == "X":
        return f"{line[3]}: fault {' '.join(line[4:])}" + (" 0" if len(line) == 5 else "")
    numbers = line[6].split(",")
    link = line[7][1:] or "-"
    return f"{line[3]}: {line[4]} {line[5]} {numbers[2]} {numbers[7]} {link} {line[8]} {line[9]}"


def wanted_outcomes(words):
    """Returns the outcomes that a row prints, as `outcome_of`, and the totals. The bytes must be those of the digest."""
    found, totals, at = [], [0, 0, 0], 0
    while at < len(words):
        is_fault = words[at + 1] == "fault"
        if is_fault:
            found.append(" ".join(words[at : at + 4]))
            totals[1] += 1
        else:
            *numbers, data, length, digest, skipped = words[at : at + 10]
            if (int(length), digest) != (len(text_of(data)), hashlib.md5(text_of(data)).hexdigest()):
                raise ValueError("the digest is another one")
            found.append(" ".join([*numbers, length, digest]))
            totals = [totals[0] + 1, totals[1], totals[2] + int(skipped)]
        at += 4 if is_fault else 10
    return found, totals


def planned(tools, volumes, names):
    """Restores planned files by a session with the console over a catalogue, which has these names. Returns what is printed of it."""
    tables = "".join(it for it in open(ORDER_SQL) if not it.startswith("INSERT"))
    rows = [
        "INSERT INTO Version VALUES (2); INSERT INTO Client VALUES (1, 'mars'); INSERT INTO FileSet VALUES (1, 'home');",
        "INSERT INTO Path VALUES (1, x'2f'); INSERT INTO Job VALUES (1, 'B', 'F', 1, 'T', 101, 1, 1, 100);",
    ]
    (tools.folder / "volumes").mkdir()
    for number, (name, data) in enumerate(volumes.items(), 1):
        whole = data or block_of([])
        (tools.folder / "volumes" / name).write_bytes(whole)
        rows.append(f"INSERT INTO Media VALUES ({number}, '{name}', 'File');")
        rows.append(f"INSERT INTO JobMedia VALUES ({number}, 1, {number}, 1, 3, 0, 0, 0, {len(whole) - 1}, {number});")
    for number, planned_file in enumerate(names.split(";"), 1):
        index, path = planned_file.split(",")
        rows.append(f"INSERT INTO File VALUES ({number}, {index}, 1, 1, CAST('{path[1:]}' AS BLOB), 'A A A A A A A A A A A A A', '');")
    database = tools.folder / "c.db"
    subprocess.run(["sqlite3", database], input=tables + "".join(rows), text=True, check=True)
    words = [tools.program, "console", "--db", database, "--volumes", tools.folder / "volumes"]
    words += ["--client", "mars", "--fileset", "home", "--before", "1970-01-01 00:01:42"]
    return subprocess.run(words, input=b"mark *\ndone\n", capture_output=True, timeout=60).stdout


def joined(tools, fields, wanted):
    """Runs `join`. Returns what is wanted if the manifest has these outcomes."""
    _room, names, *steps = fields
    volumes = volumes_of(hits_of(steps))
    printed = served(tools, volumes, b"Volume=A\nVolume=B\n")[1] if names == "-" else planned(tools, volumes, names)
    lines = [line.split(" ") for line in printed.decode().splitlines()]
    found = [outcome_of(line) for line in lines if line[0] in "FX"]
    outcomes, totals = wanted_outcomes([word for word in wanted.split(" ") if word not in ENDS])
    if (found, lines[-1]) == (outcomes, ["total", *map(str, totals)]):
        return wanted
    return f"{found} {lines[-1]}, and not {outcomes} {totals}"


def manifests(tools, fields):
    """Restores the outcomes of a row, whose first file has the index that is named. Returns the manifest, and its totals."""
    blocks = [block_of(records_of(index, it)) for index, it in enumerate(outcomes_of(fields[1]), int(fields[0]))]
    (tools.folder / "volumes").mkdir()
    (tools.folder / "volumes" / "V").write_bytes(b"".join(blocks))
    (tools.folder / "x.bsr").write_bytes(b"Volume=V\n")
    words = [tools.program, "extract", "--bsr", tools.folder / "x.bsr", "--volumes", tools.folder / "volumes"]
    printed = subprocess.run(words, stdin=subprocess.DEVNULL, capture_output=True, timeout=60).stdout
    return printed, printed.decode().splitlines()[-1].removeprefix("total ")


def whole_manifest(tools, fields, wanted):
    """Runs `manifest`. Returns the manifest and the totals."""
    printed, totals = manifests(tools, fields)
    return f"{shown(printed)} {totals}"


def length_of_manifest(tools, fields, wanted):
    """Runs `length`. Returns the length of the manifest, and the totals."""
    printed, totals = manifests(tools, fields)
    return f"{len(printed)} {totals}"


CALLS = {"match": matched, "fronts": over_fronts, "join": joined, "manifest": whole_manifest, "length": length_of_manifest}
