"""Draws inputs for `brestore`: volumes with sessions of many kinds, bootstraps that ask for them, and ways to spoil both."""

import hashlib
import struct

WORDS = (0, 1, 2, 23, 24, 25, 64, 255, 256, 4095, 4096, 65535, 65536, 2**30, 2**31 - 1, 2**31, 2**31 + 1, 2**32 - 2, 2**32 - 1)
LETTERS = b"ABCDEFGHIJKLMNOPQRSTUVWXYZabcdefghijklmnopqrstuvwxyz0123456789+/"
KINDS = (1, 2, 3, 3, 3, 3, 4, 5, 6, 23, 2**31 - 1)
NAMES = (b"A", b"B", b"Vol-1", b"with space", b"x" * 127, b"a:b_c.d")


def base64_of(value):
    """Returns a number in Bacula's base 64."""
    sign, value, digits = b"-" if value < 0 else b"", abs(value), b""
    while value or not digits:
        digits, value = LETTERS[value % 64 : value % 64 + 1] + digits, value // 64
    return sign + digits


def draw_number(dice):
    return dice.choice((0, 1, -1, dice.randrange(100_000), -dice.randrange(100_000), 2**63 - 1, -(2**63), dice.getrandbits(62)))


def draw_path(dice, kind):
    parts = [b"a", b"b", b"etc", b"\xff\xfe", b"with space", b"n" * 200, b"line\nfeed", b"\\x41", b"..a"]
    path = b"".join(b"/" + dice.choice(parts) for _ in range(dice.randrange(1, 4)))
    if dice.random() < 0.03:
        return dice.choice((b"/", b"", b"a", b"//", b"/a//b", b"/./a", b"/..", b"/" + b"p" * 4095, b"/" + b"p" * 4096))
    return path + b"/" if kind == 5 and dice.random() < 0.95 else path


def draw_attributes(dice, index, kind):
    """Returns the record of a file's attributes, now and then a bad one."""
    count = 14 if dice.random() < 0.9 else dice.choice((0, 12, 13, 15, 16))
    numbers = [base64_of(draw_number(dice)) for _ in range(count)]
    if dice.random() < 0.03 and numbers:
        numbers[dice.randrange(count)] = dice.choice((b"-", b"A=", b"IAAAAAAAAAA", b"AAAAAAAAAAAAAAAAAB", b"\t", b"--A", b"-A"))
    link = draw_path(dice, 3) if kind in (1, 4) else b""
    said = index if dice.random() < 0.98 else index + 1
    tail = b"\0" if dice.random() < 0.9 else dice.choice((b"", b"\0more", b"\0\0"))
    space = b" " if dice.random() < 0.9 else b"  "
    zeros = b"" if dice.random() < 0.9 else b"000000000000"
    return zeros + b"%d %d %s\0%s\0%s%s" % (said, kind, draw_path(dice, kind), space.join(numbers), link, tail)


def draw_data(dice):
    size = dice.choice((0, 1, 5, 16, 100, 100, 1000, dice.randrange(5000)))
    return dice.randbytes(size)


def draw_sparse(dice):
    """Returns records of sparse data and the contents that they give, if these are small."""
    records, end = [], 0
    for _ in range(dice.randrange(1, 5)):
        address = end + dice.choice((0, 0, 1, 4096, 100_000))
        if dice.random() < 0.05:
            address = dice.choice((0, 2**30 + 1, 2**32, 2**63, 2**64 - 1, max(end - 1, 0)))
        data = draw_data(dice)
        records.append((6, struct.pack(">Q", min(address, 2**64 - 1)) + data))
        end = address + len(data)
    return records


def draw_records(dice, index):
    """Returns the records of a file: stream and data of each."""
    kind = dice.choice(KINDS)
    records = [(1, draw_attributes(dice, index, kind))]
    if kind in (2, 3) or dice.random() < 0.1:
        if dice.random() < 0.2:
            records += draw_sparse(dice)
        else:
            parts = [draw_data(dice) for _ in range(dice.randrange(0, 4))]
            records += [(2, part) for part in parts]
            if dice.random() < 0.6:
                digest = hashlib.md5(b"".join(parts)).digest()
                records.append((3, digest if dice.random() < 0.9 else dice.choice((digest[:15], b"", bytes(16)))))
    for stream in (10, 1000, 1999, 1002, 4, 7, 0, 5, 2000, 2**31 - 1, 1):
        if dice.random() < 0.02:
            records.insert(dice.randrange(len(records) + 1), (stream, draw_data(dice)))
    return records if dice.random() < 0.98 else records[1:]


def cut_into_blocks(dice, records, session, limit):
    """Returns blocks that hold records of a session, cut if they do not fit."""
    blocks, block = [], bytearray()

    def close():
        nonlocal block
        head = struct.pack(">III4sII", dice.getrandbits(32), 24 + len(block), len(blocks), b"BB02", *session)
        blocks.append(head + bytes(block))
        block = bytearray()

    for index, stream, data in records:
        left, own = data, stream
        while True:
            room = limit - 24 - len(block) - 12
            if room < 0 or (left and room < 1):
                close()
                continue
            block += struct.pack(">iiI", index, own, len(left)) + left[:room]
            left, own = left[room:], -stream
            if not left:
                break
    if block:
        close()
    return blocks


def cut_into_older_blocks(dice, records, limit):
    """Returns blocks of the level BB01 that hold records of sessions by turns, cut if they do not fit."""
    blocks, block = [], bytearray()
    left = {session: [(index, stream, stream, data) for index, stream, data in own] for session, own in records.items() if own}
    while left:
        session = dice.choice([*left])
        index, stream, own, data = left[session][0]
        room = limit - 16 - len(block) - 20
        if room < (1 if data else 0):
            blocks.append(older_block(dice, block, len(blocks)))
            block = bytearray()
            continue
        block += struct.pack(">IIiiI", *session, index, own, len(data)) + data[:room]
        if len(data) > room:
            left[session][0] = index, stream, -stream, data[room:]
            continue
        left[session].pop(0)
        if not left[session]:
            del left[session]
    if block:
        blocks.append(older_block(dice, block, len(blocks)))
    return blocks


def older_block(dice, body, number):
    """Returns a block of the level BB01."""
    return struct.pack(">III4s", dice.getrandbits(32), 16 + len(body), number, b"BB01") + bytes(body)


def draw_session(dice):
    """Returns the key, the number of files and the records of a session."""
    session = dice.choice((1, 2, 2**32 - 1)), dice.choice((100, 200, 0))
    files = dice.randrange(1, 6)
    records = [(index, *record) for index in range(1, files + 1) for record in draw_records(dice, index)]
    if dice.random() < 0.3:
        records.insert(0, (dice.choice((-1, -2, -4, 0)), dice.choice((0, 1, 5)), draw_data(dice)))
    return session, files, records


def draw_blocks(dice, sessions, limit):
    """Returns the blocks of one session or more, whose keys and numbers of files are added to the sessions."""
    session, files, records = draw_session(dice)
    sessions.append((session, files))
    if dice.random() < 0.7:
        return cut_into_blocks(dice, records, session, limit)
    together = {session: records}
    for _ in range(dice.randrange(0, 3)):
        session, files, records = draw_session(dice)
        sessions.append((session, files))
        together.setdefault(session, []).extend(records)
    return cut_into_older_blocks(dice, together, limit)


def draw_volumes(dice):
    """Returns volumes by name, with the sessions that are on them."""
    names = dice.sample(NAMES, dice.randrange(1, 4))
    volumes, sessions = {name: b"" for name in names}, []
    for _ in range(dice.randrange(1, 4)):
        limit, name = dice.choice((64, 100, 300, 2000, 64512)), dice.choice(names)
        for block in draw_blocks(dice, sessions, limit):
            if dice.random() < 0.2:
                name = dice.choice(names)
            volumes[name] += block
    return volumes, sessions


def draw_ranges(dice, values, most):
    """Returns the text of a list of numbers, mostly around these values."""
    items = []
    for _ in range(dice.randrange(1, 4)):
        first = min(dice.choice(values), most)
        last = min(max(first + dice.choice((0, 0, 1, 5, 2**40)), first), most)
        blank = dice.choice(("", "", "", " ", "\t"))
        items.append(f"{first}" if dice.random() < 0.5 and first == last else f"{first}{blank}-{blank}{last}")
    return dice.choice((",", ",", " , ")).join(items)


def draw_bootstrap(dice, volumes, sessions):
    """Returns the text of a bootstrap that asks for something of these volumes."""
    end, lines = dice.choice(("\n", "\n", "\n", "\r\n")), []
    names = [*volumes] + ([b"Q"] if dice.random() < 0.03 else [])
    if dice.random() < 0.2:
        lines.append("Storage = File # where")
    for _ in range(dice.randrange(1, 5)):
        name = dice.choice(names)
        lines.append(f'Volume="{name.decode()}"' if b" " in name or dice.random() < 0.7 else f"volume = {name.decode()}")
        length = len(volumes.get(name, b""))
        (session, time), files = dice.choice(sessions)
        wishes = (
            (0.6, "VolSessionId", [session], 2**32 - 1),
            (0.5, "VolSessionTime", [time], 2**32 - 1),
            (0.5, "FileIndex", [*range(1, files + 1)], 2**31 - 1),
            (0.1, "Stream", [1, 2, 3, 6], 2**31 - 1),
            (0.4, "VolAddr", [0, 0, length // 2, max(length - 1, 0), length, dice.randrange(length + 1)], 2**63 - 1),
            (0.1, "VolFile", [0], 2**32 - 1),
            (0.1, "VolBlock", [0, length // 2], 2**32 - 1),
        )
        for chance, keyword, values, most in wishes:
            while dice.random() < chance:
                lines.append(f"{keyword}={draw_ranges(dice, values, most)}")
                chance /= 3
        if dice.random() < 0.2:
            lines.append(dice.choice(("Count=3", 'MediaType="File # 1"', "Slot = 0", "", "  # nothing", "\t")))
    text = "".join(f"{line}{end}" for line in lines).encode()
    return text if dice.random() < 0.9 else text[: -len(end)]


def spoil(dice, data):
    """Returns data with some bytes changed, cut, doubled, exchanged or added."""
    data = bytearray(data)
    for _ in range(dice.choice((1, 1, 1, 2, 5))):
        way, size = dice.randrange(8), len(data)
        at = dice.randrange(size + 1)
        to = min(size, at + dice.choice((1, 2, 4, 12, 24, 100, size)))
        if way == 0 and size:
            data[at % size] ^= 1 << dice.randrange(8)
        elif way == 1:
            del data[at:]
        elif way == 2:
            del data[at:to]
        elif way == 3:
            data[at:at] = data[at:to]
        elif way == 4:
            data[at:at] = dice.randbytes(dice.choice((1, 4, 24, 100)))
        elif way == 5:
            data[at : at + 4] = struct.pack(">I", dice.choice(WORDS))
        elif way == 6:
            other = dice.randrange(size + 1)
            piece, data[at:to] = bytes(data[at:to]), data[other : other + to - at]
            data[other : other + len(piece)] = piece
        elif way == 7 and size:
            data[at % size] = dice.choice((0, 10, 13, 32, 34, 35, 45, 61, 255))
    return bytes(data)


def places_of_words(volume):
    """Returns where the numbers of block and record headers are in a volume."""
    places, address = [], 0
    while len(volume) - address >= 24:
        size = int.from_bytes(volume[address + 4 : address + 8], "big")
        if size < 24:
            break
        places += [address + 4, address + 12, address + 16, address + 20]
        place = address + 24
        while min(address + size, len(volume)) - place >= 12:
            places += [place, place + 4, place + 8]
            place += 12 + int.from_bytes(volume[place + 8 : place + 12], "big")
        address += size
    return places


def spoil_headers(dice, volume):
    """Returns a volume with some numbers of its headers changed."""
    places, volume = places_of_words(volume), bytearray(volume)
    for place in dice.sample(places, min(len(places), dice.choice((1, 1, 2, 4)))):
        old = int.from_bytes(volume[place : place + 4], "big")
        word = dice.choice((old + 1, old - 1, -old, 2 * old, dice.choice(WORDS), dice.randrange(300)))
        volume[place : place + 4] = struct.pack(">I", word % 2**32)
    return bytes(volume)


def spoil_volumes(dice, volumes):
    """Returns volumes of which one or none is spoilt."""
    chance, name = dice.random(), dice.choice([*volumes])
    if chance < 0.35:
        return volumes
    if chance < 0.7:
        return {**volumes, name: spoil_headers(dice, volumes[name])}
    if chance < 0.95:
        return {**volumes, name: spoil(dice, volumes[name])}
    return {other: data for other, data in volumes.items() if other != name or dice.random() < 0.5}


# ---- backups with a catalogue


def draw_saved(dice, paths):
    """Returns saved files: path, type, numbers and link text of each, and the records of its contents."""
    files = []
    for path in dice.sample(paths, dice.randrange(0, min(len(paths), 6) + 1)):
        index, kind = len(files) + 1, 5 if path.endswith(b"/") else dice.choice((2, 3, 3, 3, 4, 6))
        numbers = [dice.randrange(1000) for _ in range(13)] + [0]
        numbers[7] = dice.choice((0, 5, 100, -1, 10**12))
        earlier = [at for at, it in enumerate(files, 1) if it[1] in (2, 3)]
        if earlier and kind == 3 and dice.random() < 0.3:
            kind, numbers[13] = 1, dice.choice(earlier)
        link = dice.choice((b"/x", b"to")) if kind in (1, 4) else b""
        parts = [draw_data(dice) for _ in range(dice.randrange(0, 3))] if kind == 3 else []
        records = [(2, part) for part in parts]
        if kind in (2, 3) and dice.random() < 0.5:
            records.append((3, hashlib.md5(b"".join(parts)).digest()))
        text = b" ".join(base64_of(number) for number in numbers)
        attributes = b"%d %d %s\0%s\0%s\0" % (index, kind, path, text, link)
        files.append((path, kind, numbers, [(1, attributes), *records]))
    return files


def draw_backups(dice):
    """Returns jobs as choosing.py takes them, and the volumes on which their sessions are."""
    paths = [b"/", b"/a/", b"/a/b", b"/a/c/", b"/a/c/d", b"/a/c/d2", b"/b", b"/b/", b"/b/x\xff", b"/e t/", b"/e t/f", b"/a/c/e/f", b"/z\nz"]
    volumes, jobs = {name: b"" for name in dice.sample(NAMES, dice.randrange(1, 4))}, []
    clients, filesets, ids = [b"web", b"other client"], [b"all", b"home"], dice.sample(range(1, 50), 8)
    for number in range(dice.randrange(1, 8)):
        files = draw_saved(dice, paths)
        session = number % 3 + 1, 100 + number
        records = [(index, *record) for index, it in enumerate(files, 1) for record in it[3]]
        job = {
            "id": ids[number],
            "session": session,
            "start": dice.choice((100, 200, 200, 300, 400, 500 + number) if number else (100, 200)),
            "type": dice.choice("BBBBBBR" if number else "B"),
            "level": dice.choice("FDIII" if number else "F"),
            "status": dice.choice("TTTTTWE" if number else "TTW"),
            "client": clients[number > 0 and dice.random() < 0.1],
            "fileset": filesets[number > 0 and dice.random() < 0.1],
            "spans": [],
        }
        gone = dice.sample(paths, dice.randrange(0, 3))
        job["files"] = [(path, index, numbers) for index, (path, _, numbers, _) in enumerate(files, 1)] + [(path, 0, None) for path in gone]
        put_blocks(dice, job, cut_into_blocks(dice, records, session, dice.choice((64, 100, 500, 64512))), volumes)
        jobs.append(job)
    return jobs, volumes


def put_blocks(dice, job, blocks, volumes):
    """Appends the blocks of a session to volumes, and notes its spans."""
    name = None
    for block in blocks:
        if name is None or dice.random() < 0.2:
            name = dice.choice([*volumes])
            job["spans"].append((name, 2**31, 0, len(volumes[name]), 0))
        indexes = [int.from_bytes(block[place : place + 4], "big") for place in places_of_records(block)]
        _, first, last, start, _ = job["spans"][-1]
        volumes[name] += block
        job["spans"][-1] = name, min(first, *indexes), max(last, *indexes), start, len(volumes[name]) - 1


def places_of_records(block):
    """Returns where the headers of the records of a whole block are."""
    places, place = [], 24
    while len(block) - place >= 12:
        places.append(place)
        place += 12 + int.from_bytes(block[place + 8 : place + 12], "big")
    return places


def number_of(connection, table, column, value):
    """Returns the number of a name, which is added if it is new."""
    key = f"{table}Id"
    row = connection.execute(f"SELECT {key} FROM {table} WHERE {column} = ?", (value,)).fetchone()
    if row is None:
        more = ("", "") if table != "Media" else (", MediaType", ", 'File'")
        return connection.execute(f"INSERT INTO {table} ({column}{more[0]}) VALUES (?{more[1]})", (value,)).lastrowid
    return row[0]


def store_job(connection, job):
    """Writes the rows of a job into a catalogue."""
    row = [job["id"], job["type"], job["level"], number_of(connection, "Client", "Name", job["client"].decode()), job["status"], job["start"]]
    row += [number_of(connection, "FileSet", "FileSet", job["fileset"].decode()), *job["session"]]
    connection.execute("INSERT INTO Job VALUES (?, ?, ?, ?, ?, ?, ?, ?, ?)", row)
    for place, (volume, first, last, start, end) in enumerate(job["spans"], 1):
        row = [job["id"], number_of(connection, "Media", "VolumeName", volume.decode()), first, last]
        row += [start >> 32, end >> 32, start % 2**32, end % 2**32, place]
        connection.execute("INSERT INTO JobMedia VALUES (NULL, ?, ?, ?, ?, ?, ?, ?, ?, ?)", row)
    for path, index, numbers in job["files"]:
        cut = path.rindex(b"/") + 1
        lstat = "" if numbers is None else b" ".join(base64_of(number) for number in numbers).decode()
        row = [index, job["id"], number_of(connection, "Path", "Path", path[:cut]), path[cut:], lstat, ""]
        connection.execute("INSERT INTO File VALUES (NULL, ?, ?, ?, ?, ?, ?)", row)


LINES = (
    b"cd a", b"cd /a/c", b"cd ..", b"cd ../b", b"cd /e t/", b"cd /", b"cd //", b"cd nil/..", b"cd nil", b"cd ./", b"cd", b"pwd", b"pwd x", b"ls",
    b"ls *", b"ls a*", b"ls nil", b"ls ?", b"mark *", b"mark a", b"mark c", b"mark ?", b"mark *d*", b"mark b", b"mark nil", b"mark", b"unmark *",
    b"unmark b", b"unmark d*", b"markdir", b"markdir *", b"unmarkdir", b"unmarkdir a", b"markdir nil", b"count", b"lsmark", b"find *", b"find d*",
    b"find nil", b"find", b"estimate", b"frob", b"", b" \t", b"\tmark  * ", b"mark *\r", b"MARK *", b"mark\t*", b"ls " + b"*a" * 40, b"quit x", b"done x",
)

MARKING = (b"mark *", b"mark a", b"mark b", b"mark e*", b"unmark a", b"unmark b", b"markdir", b"cd a", b"cd ..", b"cd /", b"ls", b"count", b"find *", b"lsmark")


def draw_lines(dice):
    """Returns the lines of a session with the console."""
    lines = [dice.choice(LINES if dice.random() < 0.4 else MARKING) for _ in range(dice.randrange(1, 12))]
    lines += dice.choice(([b"mark *", b"done"], [b"done"], [b"done"], [b"done", b"frob"], [b"quit"], [], [b"x" * 4097, b"done"]))
    return b"".join(line + b"\n" for line in lines)[: dice.choice((None, None, None, -1))]


# ---- scripts


BAD_LINES = (
    b"", b" ", b"frob", b"end", b"put", b"put 3 /a", b"place A", b"place A 1 2", b"place . 0", b"del /a/", b"del a", b"del /a//b", b"del \\x", b"drives 17",
    b"job 0 B F T 1 1 1 64 c f", b"job 1 B F T 1 1 1 63 c f", b"job 1 BB F T 1 1 1 64 c f", b"job 1 B F T 1 1 1 64 c", b"restore c f", b"restore c",
    b"put 3 a 00 - A", b"put 3 /a 0 - A A A A A A A A A A A A A", b"put 3 /a 00 - A A", b"put 3 /a 00 - A= A A A A A A A A A A A A",
    b"put 5 /a - - A A A A A A A A A A A A A", b"put 6 /a - - A A A A A A A A A A A A A", b"put 2 /a 00 - A A A A A A A A A A A A A",
    b"put 3 /a 00 2f A A A A A A A A A A A A A", b"put 1 /l - 2f78 A A A A A A A A A A A A A B", b"putd 3 /q\\x0a - - A A A A A A A A A A A A A",
    b"restore c f 1970-01-01 00:16:60", b"restore c f 1970-1-1 00:00:00", b"restore nobody f 1970-01-01 00:16:40", b"extract", b"volume A 00", b"bsr", b".",
)  # fmt: skip


def spelled(data):
    """Returns a name as a script has it."""
    return b"".join(bytes([byte]) if 0x21 <= byte <= 0x7E and byte != 0x5C else b"\\x%02x" % byte for byte in data)


def draw_put(dice, index, earlier):
    """Returns a line that saves a file, and its type."""
    path = dice.choice((b"/a", b"/b", b"/a/c", b"/a/d\xff", b"/e t/f", b"/z\nz", b"/", b"/a/", b"/e t/", b"/a/c/e"))
    kind = 5 if path.endswith(b"/") else dice.choice((2, 3, 3, 3, 3, 4))
    numbers = [dice.randrange(1000) for _ in range(13)] + [0] * dice.randrange(2)
    if earlier and kind == 3 and dice.random() < 0.3:
        kind, numbers = 1, [*numbers[:13], dice.choice(earlier)]
    contents = dice.randbytes(dice.choice((0, 1, 5, 14, 100, 900))) if kind == 3 else b""
    link = dice.choice((b"/x", b"to")) if kind in (1, 4) else b""
    stat = b" ".join(base64_of(number) for number in numbers)
    word = dice.choice((b"put", b"putd"))
    return b"%s %d %s %s %s %s" % (word, kind, spelled(path), contents.hex().encode() or b"-", link.hex().encode() or b"-", stat), kind


def draw_job_lines(dice, number):
    """Returns the lines of a job, most of them good."""
    volumes = (b"A", b"B", b"with\\x20space")
    level, kind, status = dice.choice((b"F", b"D", b"I", b"I")) if number else b"F", dice.choice(b"BBBBBR"), dice.choice(b"TTTTWE")
    start = dice.choice((100, 200, 300, 300, 400, 253_402_300_799, 253_402_300_800)) if dice.random() < 0.2 else 100 + 50 * number
    limit = dice.choice((64, 65, 100, 300, 64512))
    id_, session = (number + 1, number + 1) if dice.random() < 0.9 else (dice.randrange(1, 4), dice.randrange(1, 4))
    lines = [b"job %d %c %s %c %d %d %d %d %s %s" % (id_, kind, level, status, start, session, dice.choice((7, 7, 9)), limit, b"c", b"f")]
    kinds = []
    for index in range(1, dice.randrange(1, 5)):
        line, kind = draw_put(dice, index, [at for at, it in enumerate(kinds, 1) if it in (2, 3)])
        lines.append(line)
        kinds.append(kind)
    lines += [b"del " + spelled(dice.choice((b"/a", b"/b", b"/a/", b"/nil"))) for _ in range(dice.choice((0, 0, 1, 2)))]
    places = [b"place %s %d" % (dice.choice(volumes), dice.randrange(1, 3)) for _ in range(dice.choice((0, 0, 1, 2)))]
    lines += places + [b"place %s 0" % dice.choice(volumes)] * (dice.random() < 0.97)
    return [*lines, b"end"]


def draw_script(dice):
    """Returns a script that commits jobs and restores."""
    lines = []
    for number in range(dice.randrange(1, 6)):
        lines += draw_job_lines(dice, number)
        if dice.random() < 0.4:
            seconds = dice.choice((100, 101, 251, 1000, 1000, 1000))
            lines.append(b"restore c f 1970-01-01 00:%02d:%02d" % (seconds // 60, seconds % 60))
            lines += [dice.choice(LINES if dice.random() < 0.3 else MARKING) for _ in range(dice.randrange(6))]
            lines += dice.choice(([b"mark *", b"done"], [b"done"], [b"quit"]))
        if dice.random() < 0.1:
            lines.append(dice.choice((b"volume A 00", b"volume B -", b"drives 3", b"drives 16")))
    for _ in range(dice.choice((0, 0, 0, 1, 3))):
        lines.insert(dice.randrange(len(lines) + 1), dice.choice(BAD_LINES))
    if dice.random() < 0.1:
        del lines[dice.randrange(len(lines)) :]
    return b"".join(line + b"\n" for line in lines)[: dice.choice((None, None, None, -1))]
