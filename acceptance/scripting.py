"""A second reading of the script of `serve`, in plain Python: what it must print, with jobs that are committed to memory.

It is written from docs/formats.md alone, as reading.py and choosing.py, and shares no code with the program.
"""

import datetime
import hashlib
import re
import struct

from choosing import Session, bootstrap_of, choose, converse, plan_of, planned_file, view_of
from common import escaped
from reading import NAME, Refused, groups_of, is_path, manifest_lines, manifest_of, match, stat_of

LETTERS = b"ABCDEFGHIJKLMNOPQRSTUVWXYZabcdefghijklmnopqrstuvwxyz0123456789+/"
JOB_WORDS = (b"put", b"putd", b"del", b"place", b"end")
LATEST = 253_402_300_799


class Bad(Exception):
    """A line that is refused, with its number."""


def base64_of(value):
    sign, value, digits = b"-" if value < 0 else b"", abs(value), b""
    while value or not digits:
        digits, value = LETTERS[value % 64 : value % 64 + 1] + digits, value // 64
    return sign + digits


def number(text, least=0, most=2**32 - 1):
    if not re.fullmatch(rb"[0-9]+", text) or not least <= int(text) <= most:
        raise Bad(90)
    return int(text)


def plain(text):
    """Returns the bytes that an escaped text means."""
    if not re.fullmatch(rb"(?s)([^\\]|\\x[0-9a-f]{2})*", text):
        raise Bad(90)
    return re.sub(rb"\\x([0-9a-f]{2})", lambda digits: bytes([int(digits[1], 16)]), text)


def name(text):
    if not NAME.fullmatch(plain(text)):
        raise Bad(90)
    return plain(text)


def volume_name(text):
    if name(text) in (b".", b".."):
        raise Bad(90)
    return name(text)


def bytes_of(text):
    if text == b"-":
        return b""
    if not re.fullmatch(rb"([0-9a-f]{2})+", text):
        raise Bad(90)
    return bytes.fromhex(text.decode())


def letter(text):
    if not re.fullmatch(rb"[A-Za-z]", text):
        raise Bad(90)
    return text.decode()


def moment_of(text):
    """Returns the seconds of a moment."""
    if not re.fullmatch(rb"[0-9]{4}-[0-9]{2}-[0-9]{2} [0-9]{2}:[0-9]{2}:[0-9]{2}", text):
        raise Bad(52)
    try:
        found = datetime.datetime.strptime(text.decode(), "%Y-%m-%d %H:%M:%S")
    except ValueError:
        raise Bad(52) from None
    seconds = (found - datetime.datetime(1970, 1, 1)) // datetime.timedelta(seconds=1)
    if seconds < 0:
        raise Bad(52)
    return seconds


def fields_of(line, count):
    fields = line.split(b" ")
    if len(fields) != count + 1:
        raise Bad(90)
    return fields[1:]


def blocks_of(files, session, limit):
    """Returns the blocks of a session, each with the indexes of its fragments."""
    records = []
    for index, (path, kind, stat, contents, link, digest) in enumerate(files, 1):
        text = b"%d %d %s\0%s\0%s\0" % (index, kind, path, b" ".join(base64_of(it) for it in stat), link)
        records.append((index, 1, text))
        records += [(index, 2, contents[at : at + 65_536]) for at in range(0, len(contents), 65_536)]
        if digest and kind in (2, 3):
            records.append((index, 3, hashlib.md5(contents).digest()))
    blocks, body, indexes = [], b"", []

    def close():
        nonlocal body, indexes
        head = struct.pack(">III4sII", 0, 24 + len(body), len(blocks) % 2**32, b"BB02", *session)
        blocks.append((head + body, indexes))
        body, indexes = b"", []

    for index, stream, data in records:
        left, own = data, stream
        while True:
            room = limit - 24 - len(body) - 12
            if room < (1 if left else 0):
                close()
                continue
            body, indexes = body + struct.pack(">iiI", index, own, len(left)) + left[:room], [*indexes, index]
            left, own = left[room:], -stream
            if not left:
                break
    if body:
        close()
    return blocks


class Script:
    """A script that is carried out line by line over memory."""

    def __init__(self, text):
        self.lines = text.split(b"\n")
        if not self.lines[-1]:
            self.lines.pop()
        self.at, self.printed, self.is_clean = 0, [], True
        self.volumes, self.jobs, self.vouched = {}, [], {}
        self.kept, self.job = None, None

    def refuse(self, what):
        self.printed.append(f"refused {what}\n")
        self.is_clean = False

    def run(self):
        """Returns exit status and standard output."""
        while self.at < len(self.lines):
            line = self.lines[self.at]
            self.at += 1
            try:
                self.carry_out(line)
            except Bad as bad:
                self.refuse(f"90 line {self.at}" if bad.args[0] == 90 else bad)
                self.give_up(line)
            except Refused as refused:
                self.refuse(refused)
                self.give_up(line)
        return (0 if self.is_clean else 1), "".join(self.printed).encode()

    def give_up(self, line):
        word = line.split(b" ")[0]
        if word in JOB_WORDS[:4] and self.job is not None:
            self.job["given_up"] = True
        if word == b"restore":
            while self.at < len(self.lines):
                self.at += 1
                if self.lines[self.at - 1] in (b"done", b"quit"):
                    break

    def carry_out(self, line):
        word = line.split(b" ")[0]
        known = (b"drives", b"volume", b"bsr", b"extract", b"job", b"restore")
        wanted = JOB_WORDS if self.job is not None else known
        if len(line) > 4096 or word not in wanted:
            raise Bad(90)
        getattr(self, "do_" + word.decode())(line)

    def do_drives(self, line):
        (count,) = fields_of(line, 1)
        number(count, 1, 16)

    def do_volume(self, line):
        volume, data = fields_of(line, 2)
        volume, data = volume_name(volume), bytes_of(data)
        self.volumes[volume] = self.volumes.get(volume, b"") + data

    def do_bsr(self, line):
        fields_of(line, 0)
        body = []
        while self.at < len(self.lines):
            self.at += 1
            if self.lines[self.at - 1] == b".":
                self.kept = None
                self.kept = groups_of(b"".join(it + b"\n" for it in body))
                return
            body.append(self.lines[self.at - 1])

    def do_extract(self, line):
        fields_of(line, 0)
        if self.kept is None:
            raise Bad(90)
        self.show(manifest_of(match(self.kept, self.volumes)))

    def show(self, manifest):
        self.printed.append(manifest[0].decode())
        self.is_clean &= manifest[1]

    def do_job(self, line):
        id_, kind, level, status, start, session, time, limit, client, fileset = fields_of(line, 10)
        self.job = {
            "id": number(id_, 1),
            "type": letter(kind),
            "level": letter(level),
            "status": letter(status),
            "start": number(start, 0, 2**64 - 1),
            "session": (number(session), number(time)),
            "limit": number(limit, 64, 64_512),
            "client": name(client),
            "fileset": name(fileset),
            "saved": [],
            "deleted": [],
            "places": [],
            "given_up": False,
        }

    def do_put(self, line, digest=False):
        fields = line.split(b" ", 5)
        if len(fields) != 6:
            raise Bad(90)
        kind, path, contents, link = number(fields[1]), plain(fields[2]), bytes_of(fields[3]), bytes_of(fields[4])
        if not is_path(path):
            raise Bad(3)
        stat = stat_of(fields[5])
        if stat is None:
            raise Bad(20 if has_bad_number(fields[5]) else 21)
        if not 1 <= kind <= 5 or (kind == 5) != path.endswith(b"/") or (contents and kind != 3):
            raise Bad(17)
        if (link and kind not in (1, 4)) or b"\0" in link or len(link) > 4096:
            raise Bad(17)
        self.job["saved"].append((path, kind, stat, contents, link, digest))

    def do_putd(self, line):
        self.do_put(line, digest=True)

    def do_del(self, line):
        (path,) = fields_of(line, 1)
        if not is_path(plain(path)):
            raise Bad(3)
        self.job["deleted"].append(plain(path))

    def do_place(self, line):
        volume, count = fields_of(line, 2)
        volume, count = volume_name(volume), number(count)
        if self.job["places"] and self.job["places"][-1][1] == 0:
            raise Bad(90)
        self.job["places"].append((volume, count))

    def do_end(self, line):
        fields_of(line, 0)
        job, self.job = self.job, None
        if job["given_up"]:
            return
        if job["saved"] and (not job["places"] or job["places"][-1][1] != 0):
            raise Bad(90)
        self.commit(job)
        self.printed.append(f"stored {job['id']}\n")

    def commit(self, job):
        """Commits a job, or raises its refusal."""
        for index, (_, kind, stat, *_) in enumerate(job["saved"], 1):
            if kind == 1 and not (1 <= stat[13] < index and job["saved"][stat[13] - 1][1] in (2, 3)):
                raise Bad(16)
        if job["start"] > LATEST:
            raise Bad(42)
        if any(it["id"] == job["id"] for it in self.jobs):
            raise Bad(40)
        if any(it["session"] == job["session"] for it in self.jobs):
            raise Bad(41)
        for volume, _ in job["places"]:
            if len(self.volumes.get(volume, b"")) != self.vouched.get(volume, 0):
                raise Bad(43)
        job["spans"], left = [], blocks_of(job["saved"], job["session"], job["limit"])
        for volume, count in job["places"]:
            own, left = (left, []) if count == 0 else (left[:count], left[count:])
            if own:
                start = len(self.volumes.get(volume, b""))
                indexes = [index for _, more in own for index in more]
                self.volumes[volume] = self.volumes.get(volume, b"") + b"".join(block for block, _ in own)
                self.vouched[volume] = len(self.volumes[volume])
                job["spans"].append((volume, min(indexes), max(indexes), start, self.vouched[volume] - 1))
        job["files"] = [(it[0], index, it[2]) for index, it in enumerate(job["saved"], 1)] + [(path, 0, None) for path in job["deleted"]]
        self.jobs.append(job)

    def do_restore(self, line):
        fields = line.split(b" ", 3)
        if len(fields) != 4:
            raise Bad(90)
        client, fileset, moment = name(fields[1]), name(fields[2]), moment_of(fields[3])
        chosen = choose(self.jobs, client, fileset, moment)
        dialogue = []
        while True:
            if self.at == len(self.lines):
                return
            dialogue.append(self.lines[self.at])
            self.at += 1
            if dialogue[-1] in (b"done", b"quit"):
                break
        session = Session(view_of(chosen))
        printed, has_refusal, is_wanted = converse(session, b"".join(it + b"\n" for it in dialogue))
        self.printed.append(printed)
        self.is_clean &= not has_refusal
        if is_wanted:
            self.restore(chosen, session)

    def restore(self, chosen, session):
        try:
            groups, names = plan_of(chosen, session)
            self.printed.append(bootstrap_of(groups))
            found = match(groups, self.volumes)
        except Refused as refused:
            self.refuse(refused)
            return
        self.show(manifest_lines({key: (lambda key=key: planned_file(found.get(key, {}), key, names[key])) for key in names}))


def has_bad_number(text):
    words = [word for word in text.split(b" ") if word][:14]
    return any(stat_of(b" ".join([word] * 13)) is None for word in words)


def served(text):
    """Returns exit status, standard output and standard error of a script over memory."""
    return *Script(text).run(), b""


def put_line(path, contents, word=b"put", kind=3, link=b"-", stat=b"A A IGk B A A A O A A A A A A"):
    return b"%s %d %s %s %s %s" % (word, kind, escaped(path).encode(), contents.hex().encode() or b"-", link, stat)
