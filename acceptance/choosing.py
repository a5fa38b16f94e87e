"""A second reading of the catalogue and the console, in plain Python: what `brestore console` must print.

It is written from docs/formats.md alone, as reading.py, and shares no code with the program. A job is a dict of its row, with
`files` (path, index, numbers) and `spans` (volume, first index, last index, first byte, last byte).
"""

import re

from common import escaped
from reading import Fault, Refused, file_of, manifest_lines, match

COMMANDS = {
    b"cd": "one",
    b"pwd": "none",
    b"ls": "maybe",
    b"mark": "one",
    b"unmark": "one",
    b"markdir": "maybe",
    b"unmarkdir": "maybe",
    b"count": "none",
    b"lsmark": "none",
    b"find": "one",
    b"estimate": "none",
    b"done": "none",
    b"quit": "none",
}


class Line(Exception):
    """A console line that is refused, with its number."""


def rank(job):
    return job["start"], job["id"]


def choose(jobs, client, fileset, moment):
    """Returns the chosen jobs in order of rank, or raises the refusal."""
    jobs = [job for job in jobs if job["client"] == client]
    if not jobs:
        raise Refused("53")
    jobs = [job for job in jobs if job["fileset"] == fileset]
    if not jobs:
        raise Refused("54")
    good = sorted((job for job in jobs if job["type"] == "B" and job["status"] in "TW" and job["start"] < moment), key=rank)
    fulls = [job for job in good if job["level"] == "F"]
    if not fulls:
        raise Refused("50")
    chosen = [fulls[-1]]
    chosen += [job for job in good if job["level"] == "D" and rank(job) > rank(chosen[0])][-1:]
    return chosen + [job for job in good if job["level"] == "I" and rank(job) > rank(chosen[-1])]


def view_of(chosen):
    """Returns for each path of the view its job, index and numbers."""
    view = {}
    for job in chosen:
        newest = {}
        for path, index, numbers in job["files"]:
            if path not in newest or index > newest[path][1]:
                newest[path] = job, index, numbers
        view.update(newest)
    return {path: copy for path, copy in view.items() if copy[1] > 0}


def pattern_of(text):
    """Returns a test for a pattern with `*` and `?`."""
    parts = {b"*": b"(?s:.*)", b"?": b"(?s:.)"}
    return re.compile(b"".join(parts.get(text[i : i + 1], re.escape(text[i : i + 1])) for i in range(len(text)))).fullmatch


def without_slash(name):
    return name[:-1] if name.endswith(b"/") else name


class Session:
    """A dialogue over a view: what is printed, and the marks."""

    def __init__(self, view):
        self.view, self.directory, self.marks = view, b"/", set()

    def has(self, directory):
        return directory == b"/" or any(path.startswith(directory) for path in self.view)

    def children(self):
        """Returns the names of the children of the directory, in byte order."""
        rests = (path[len(self.directory) :] for path in self.view if path.startswith(self.directory) and path != self.directory)
        return sorted({rest[: rest.index(b"/") + 1] if b"/" in rest else rest for rest in rests})

    def matching(self, text):
        found = [child for child in self.children() if pattern_of(text)(without_slash(child))]
        if not found:
            raise Line(57)
        return found

    def below(self, names):
        """Returns the paths that equal one of these children, or lie below one."""
        places = [self.directory + name for name in names]
        return {path for path in self.view for place in places if path == place or place.endswith(b"/") and path.startswith(place)}

    def change(self, paths, is_mark):
        before = len(self.marks)
        self.marks = self.marks | paths if is_mark else self.marks - paths
        return f"{abs(len(self.marks) - before)} {'marked' if is_mark else 'unmarked'}\n"

    def cd(self, text):
        names = text.split(b"/")
        if text.startswith(b"/"):
            place, names = [], names[1:]
        else:
            place = self.directory.split(b"/")[1:-1]
        names = names[:-1] if names and names[-1] == b"" else names
        for name in names:
            if name == b"":
                raise Line(56)
            if name == b"..":
                place = place[:-1]
            elif name != b".":
                place = [*place, name]
        directory = b"".join(b"/" + name for name in place) + b"/"
        if not self.has(directory):
            raise Line(56)
        self.directory = directory
        return self.pwd(None)

    def pwd(self, _):
        return f"cwd is: {escaped(self.directory)}\n"

    def ls(self, text):
        lines = []
        for name in self.children() if text is None else self.matching(text):
            place = self.directory + name
            below = name.endswith(b"/") and any(path.startswith(place) for path in self.marks)
            lines.append(f"{'*' if place in self.marks else '+' if below else ' '}{escaped(name)}\n")
        return "".join(lines)

    def mark(self, text):
        return self.change(self.below(self.matching(text)), True)

    def unmark(self, text):
        return self.change(self.below(self.matching(text)), False)

    def own(self, text):
        """Returns the own paths of the directories that a line selects."""
        if text is None:
            paths = {self.directory} & {*self.view}
        else:
            test = pattern_of(text)
            names = [name for name in self.children() if name.endswith(b"/") and test(without_slash(name))]
            paths = {self.directory + name for name in names} & {*self.view}
        if not paths:
            raise Line(57)
        return paths

    def markdir(self, text):
        return self.change(self.own(text), True)

    def unmarkdir(self, text):
        return self.change(self.own(text), False)

    def count(self, _):
        return f"{len(self.view)} paths, {len(self.marks)} marked\n"

    def lsmark(self, _):
        return "".join(f"{escaped(path)}\n" for path in sorted(self.marks) if path.startswith(self.directory))

    def find(self, text):
        test = pattern_of(text)
        found = [path for path in sorted(self.view) if test(without_slash(path).rpartition(b"/")[2])]
        if not found:
            raise Line(57)
        return "".join(f"{'*' if path in self.marks else ' '}{escaped(path)}\n" for path in found)

    def estimate(self, _):
        sizes = [max(self.view[path][2][7], 0) for path in self.marks if not path.endswith(b"/")]
        return f"{len(self.marks)} marked, {sum(sizes)} bytes\n"

    def carry_out(self, line):
        """Returns what a line prints, None at `done`, and False at `quit`."""
        text = line.strip(b" \t")
        word, rest = re.fullmatch(rb"(?s)([^ \t]*)(.*)", text).groups()
        argument = rest.strip(b" \t") or None
        wanted = COMMANDS.get(word)
        if len(line) > 4096 or wanted is None or (wanted == "none" and argument is not None) or (wanted == "one" and argument is None):
            raise Line(55)
        if word in (b"done", b"quit"):
            return None if word == b"done" else False
        return getattr(self, word.decode())(argument)


def converse(session, text):
    """Returns what the lines print, whether one was refused, and whether a restore is wanted."""
    printed, has_refusal = [], False
    lines = text.split(b"\n")
    for line in lines if lines[-1] else lines[:-1]:
        try:
            answer = session.carry_out(line)
            if answer is None or answer is False:
                return "".join(printed), has_refusal, answer is None
            printed.append(answer)
        except Line as refused:
            has_refusal = True
            printed.append(f"refused {refused}\n")
    return "".join(printed), has_refusal, False


def runs_of(numbers):
    """Returns ascending numbers as ranges that are as long as possible."""
    runs = []
    for number in numbers:
        if runs and runs[-1][1] + 1 == number:
            runs[-1] = runs[-1][0], number
        else:
            runs.append((number, number))
    return runs


def plan_of(chosen, session):
    """Returns the groups of a plan and the path of each file key, or raises the refusal."""
    view, wanted = session.view, session.marks & {*session.view}
    if not wanted:
        raise Refused("51")
    for path in [*wanted]:
        job, _, numbers = view[path]
        if numbers[13] > 0:
            wanted |= {other for other, copy in view.items() if copy[0] is job and copy[1] == numbers[13]}
    names = {(*view[path][0]["session"], view[path][1]): path for path in wanted}
    groups = []
    for job in chosen:
        indexes = sorted(view[path][1] for path in wanted if view[path][0] is job)
        for volume, first, last, start, end in job["spans"]:
            own = [index for index in indexes if first <= index <= last]
            if own:
                group = {b"volume": volume, b"volsessionid": [(job["session"][0],) * 2], b"volsessiontime": [(job["session"][1],) * 2]}
                groups.append({**group, b"voladdr": [(start, end)], b"fileindex": runs_of(own)})
    return groups, names


def bootstrap_of(groups):
    """Returns the canonical text of groups that a plan made."""
    keywords = {b"volsessionid": "VolSessionId", b"volsessiontime": "VolSessionTime", b"voladdr": "VolAddr", b"fileindex": "FileIndex"}
    lines = []
    for group in groups:
        lines.append(f'Volume="{group[b"volume"].decode()}"\n')
        for key, keyword in keywords.items():
            lines += [f"{keyword}={first}\n" if first == last else f"{keyword}={first}-{last}\n" for first, last in group[key]]
    return "".join(lines)


def planned_file(fragments, key, name):
    """Returns a file as `file_of`, or raises 69 if its path is not the planned one, 63 if it has no fragment."""
    if not fragments:
        raise Fault(63)
    found = file_of([fragments[place] for place in sorted(fragments)], key[2])
    if found[1] != name:
        raise Fault(69)
    return found


def consoled(jobs, volumes, asked, text):
    """Returns exit status, standard output and standard error of `console`. The request is client,
    file set and moment in seconds."""
    try:
        chosen = choose(jobs, *asked)
    except Refused as refused:
        return 1, b"", f"refused {refused}\n".encode()
    session = Session(view_of(chosen))
    printed, has_refusal, is_wanted = converse(session, text)
    if not is_wanted:
        return int(has_refusal), printed.encode(), b""
    try:
        groups, names = plan_of(chosen, session)
        printed += bootstrap_of(groups)
        found = match(groups, volumes)
    except Refused as refused:
        return 1, printed.encode(), f"refused {refused}\n".encode()
    files = {key: (lambda key=key: planned_file(found.get(key, {}), key, names[key])) for key in names}
    manifest, is_clean = manifest_lines(files)
    return int(has_refusal or not is_clean), printed.encode() + manifest, b""
