#!/usr/bin/env python3
"""Runs rows over jobs, views, trees, dialogues, plans and lists of jobs, and compares what the program prints with what each row wants.

    acceptance/selection_rows.py                  needs the program in crates/brestore/out
    acceptance/selection_rows.py --program FILE   another program
    acceptance/selection_rows.py long plans       only the rows of that name; with `,` between two names

The rows are in rows/selection, with what each call means. Their jobs are made rows of a catalogue by SQLite's own library, or lines of
a script that commits them; `console`, `jobs` and `serve` then show what is chosen of them. What a row wants was worked out by hand. Rows
that do not hold are printed, and then the numbers of all. The status is 1 if one does not hold.
"""

import os
import re
import sys

# Nothing is left beside the script.
sys.dont_write_bytecode = True
sys.path.insert(0, os.path.join(os.path.dirname(os.path.dirname(os.path.abspath(__file__))), "tools"))
from bacula import block_of
from commands import TWO_VOLUMES
from common import ROOT, escaped, unescaped
from job_rows import LATEST, job_lines, job_of, lstat_of, make_catalogue, moment_of, span_shown
from odd import record
from row_fields import bytes_of
from row_text import BadRow, main, printed
from scripting import put_line
from stored import rows_of

FILE = os.path.join(ROOT, "acceptance", "rows", "selection")
REFUSED = re.compile(rb"refused (\d+)(?: \S+ \d+)?\n")
DIRECTORIES, PATTERNS = (b"/", b"/etc/", b"/home/"), (b"*", b"?????", b"e*", b"*s*")


def refusal(told):
    """Returns the number with which the program refused, or nothing."""
    found = REFUSED.fullmatch(told)
    return found[1].decode() if found else ""


def catalogue_of(place, jobs):
    """Makes the catalogue of a row."""
    db = place.folder / "c.db"
    if not db.exists():
        make_catalogue(db, jobs)
    return db


def console(place, jobs, lines, request=("mars", "home", LATEST)):
    """Runs a session with the console over a catalogue of jobs. Returns status, standard output and standard error."""
    volumes = place.folder / "volumes"
    volumes.mkdir(exist_ok=True)
    client, fileset, before = request
    words = ["console", "--db", catalogue_of(place, jobs), "--volumes", volumes]
    return place.run(*words, "--client", client, "--fileset", fileset, "--before", before, lines=b"".join(line + b"\n" for line in lines))


def request_of(field):
    """Returns client, file set and moment of a request."""
    client, fileset, seconds = field.split(":")
    return client, fileset, moment_of(seconds)


def answers(place, jobs, lines, request=("mars", "home", LATEST)):
    """Returns what a session prints for each line. Lines after `done` or `quit` are those of a session without them."""
    given, before, asked = [], [], b""
    for line in lines:
        _, output, _ = console(place, jobs, [*before, line], request)
        if not output.startswith(asked):
            raise BadRow("a line changes what was printed before")
        given.append(output[len(asked) :])
        if line not in (b"done", b"quit"):
            before, asked = [*before, line], output
    return given


def paths_debugged(lines):
    """Returns paths, one in a line, as a list of them is shown."""
    return "Ok([" + ", ".join(f'"{line}"' for line in lines.decode().splitlines()) + "])"


# Rows of jobs and histories.


def fate(output):
    """Returns `taken` for a job that was stored, or the number of the refusal."""
    return "taken" if output.startswith(b"stored ") else refusal(output)


def rows(place, field):
    """Makes the job of a field: by a script if it has rows alone, else as the rows of a catalogue, where 42 is 47."""
    job = job_of(field)
    if not job["files"] and not job["spans"]:
        return fate(place.run("serve", lines=job_lines(job))[1])
    status, output, told = place.run("jobs", "--db", catalogue_of(place, [job]))
    is_listed = status == 0 and output.count(b"\n") == 1
    return "taken" if is_listed else {"47": "42"}.get(refusal(told), "neither taken nor refused")


def histories(place, fields):
    """Commits jobs to a catalogue. Prints the result for each, and number and session of those that
    the catalogue has."""
    (place.folder / "volumes").mkdir()
    words = ["serve", "--db", place.folder / "c.db", "--volumes", place.folder / "volumes"]
    told = place.run(*words, lines=b"".join(job_lines(job_of(field)) for field in fields))[1]
    jobs = [f"({row[0]}, SessionKey {{ id: {row[7]}, time: {row[8]} }})" for row in rows_of(place.folder / "c.db")["Job"]]
    return " ".join([fate(line) for line in told.splitlines(keepends=True)] + jobs)


def many(place, count):
    """Commits many jobs; the last one has a file and is restored. Then a history with as many jobs
    is opened."""
    jobs = [job_of(f"{number}:BFT:0") for number in range(1, int(count) + 1)]
    lines = b"".join(job_lines(job) for job in jobs[:-1])
    lines += job_lines(jobs[-1], lines=put_line(b"/a", b"") + b"\nplace V 0\n") + b"restore mars home 1970-01-01 00:00:01\nmark a\ndone\n"
    output = place.run("serve", lines=lines)[1]
    stored = [int(number) for number in re.findall(rb"(?m)^stored (\d+)$", output)]
    session = re.search(rb"VolSessionId=(\d+)\nVolSessionTime=(\d+)\n", output)
    id_, time = session.groups() if session else (b"none", b"none")
    (place.folder / "volumes").mkdir()
    words = ["serve", "--db", catalogue_of(place, jobs), "--volumes", place.folder / "volumes"]
    again = place.run(*words, lines=b"".join(job_lines(job_of(f"{number}:BFT:0")) for number in (1, len(jobs), len(jobs) + 1)))[1]
    is_as_long = again == b"refused 40\nrefused 40\nstored %d\n" % (len(jobs) + 1)
    shown = f"({stored[-1]}, SessionKey {{ id: {id_.decode()}, time: {time.decode()} }})" if stored else "none"
    return f"{len(stored)} {shown} {str(is_as_long).lower()}"


def history(place, fields, _wanted):
    """Adds jobs to a history."""
    match fields:
        case ["rows", field]:
            return rows(place, field)
        case ["jobs", *jobs]:
            return histories(place, jobs)
        case ["many", count]:
            return many(place, count)
    raise BadRow("no such call")


# Choices and views.


def chosen(place, request, fields):
    """Commits jobs with a file each, and restores everything. The bootstrap has the sessions of the
    chosen jobs in their order."""
    put = [put_line(b"/%d" % number, b"") + b"\nplace V 0\n" for number in range(len(fields))]
    jobs = b"".join(job_lines(job_of(field), lines=line) for field, line in zip(fields, put))
    request = " ".join(escaped(it.encode()) for it in request_of(request)[:2]) + f" {request_of(request)[2]}"
    output = place.run("serve", lines=jobs + f"restore {request}\nmark *\ndone\n".encode())[1]
    left = output.removeprefix(b"".join(b"stored %d\n" % job_of(field)["id"] for field in fields))
    numbers = re.findall(rb"(?m)^VolSessionId=(\d+)$", left)
    return " ".join(it.decode() for it in numbers) or f"refused {refusal(left)}"


def with_span(job):
    """Returns a job with a visit to a separate volume, so that plans show which files of it are
    restored."""
    return {**job, "spans": [(f"V{job['id']}", 1, 2**31 - 1, 0, 99, 1)]}


def copy_at(place, jobs, path, request):
    """Returns session and index of a path's copy, by the plan for it alone, and its size."""
    lines = [b"mark " + path.strip(b"/"), b"estimate", b"done"]
    estimate, plan = answers(place, jobs, lines, request)[1:]
    size = re.fullmatch(rb"1 marked, (\d+) bytes\n", estimate)
    found = re.search(rb"VolSessionId=(\d+)\nVolSessionTime=(\d+)\nVolAddr=0-99\nFileIndex=(\d+)\n", plan)
    if not size or not found or plan.count(b"Volume=") != 1:
        raise BadRow("the path is not restored alone")
    return [int(it) for it in (*found.groups(), size[1])]


def paths_in(place, jobs, request):
    """Returns the paths of the view."""
    return [unescaped(line[1:]) for line in console(place, jobs, [b"find *"], request)[1].splitlines()]


def entries_of(place, jobs, request=("mars", "home", LATEST)):
    """Returns the paths of a view, each with session, index and size."""
    return {path: copy_at(place, jobs, path, request) for path in paths_in(place, jobs, request)}


def pushed(entries):
    """Returns the paths of a view, each with its job and its index, as a row prints them. The session of a job has its number."""
    return "".join(f"{escaped(path)} {id_} {index} " for path, (id_, _, index, _) in entries.items())


def view(place, fields):
    """Shows the view of jobs. One more Full, which has no files and is the oldest job, makes a choice of them."""
    jobs = [*(with_span(job_of(field)) for field in fields), job_of("77:BFT:0")]
    return pushed(entries_of(place, jobs))


def view_by(place, request, fields):
    """Shows the view of the jobs that a request chooses, and its contents at three paths, except
    for what links lead to."""
    jobs, request = [with_span(job_of(field)) for field in fields], request_of(request)
    entries = entries_of(place, jobs, request)
    count = console(place, jobs, [b"count"], request)[1].split(b" ")[0].decode()
    at = []
    for path in (b"/a", b"/b", b"/d"):
        id_, time, index, size = entries.get(path, (None,) * 4)
        session = f"job: JobId {{ id: {id_} }}, session: SessionKey {{ id: {id_}, time: {time} }}"
        at.append(f"Some(Entry {{ {session}, index: FileIndex {{ number: {index} }}, size: {size} }}) " if path in entries else "None ")
    return f"{count} {pushed(entries)}{''.join(at)}"


def choice(place, fields, _wanted):
    """Chooses jobs, or shows a view."""
    match fields:
        case ["jobs", request, *jobs]:
            return chosen(place, request, jobs)
        case ["view", *jobs]:
            return view(place, jobs)
        case ["view_by", request, *jobs]:
            return view_by(place, request, jobs)
    raise BadRow("no such call")


# Trees and dialogues.


def is_match(place, pattern, name):
    """Returns whether a pattern finds the one path of a view. The name of `/` is empty."""
    jobs = [job_of("1:BFT:100")]
    jobs[0]["files"] = [(b"/" + bytes_of(name), 1, lstat_of("empty"), "")]
    output = console(place, jobs, [b"find " + bytes_of(pattern)])[1]
    return {b" /" + escaped(bytes_of(name)).encode() + b"\n": "true", b"refused 57\n": "false"}.get(output, "neither")


def bare(place, name, wanted):
    """Returns the name under which a directory is found, if it is the wanted one and not that of the field."""
    jobs = [job_of(f"1:BFT:100;/{name},1,empty")]
    outputs = [console(place, jobs, [b"ls " + it.encode()])[1] for it in (name, wanted)]
    return wanted if outputs == [b"refused 57\n", b" " + name.encode() + b"\n"] else "another name"


def step_line(field):
    """Returns the directory in which a step is done, and its line."""
    word, _, at = field.partition(":")
    directory, _, pattern = at.partition(":")
    if word in ("count", "has", "find", "marked", "entries"):
        lines = {"count": "count", "find": f"find {at}", "marked": "lsmark", "entries": "lsmark"}
        return (at if word == "has" else "/").encode(), lines.get(word, "pwd").encode()
    word = "markdir" if word == "markhere" else word
    return directory.encode(), f"{word} {pattern}".strip().encode()


def found_paths(output):
    """Returns what was found, each path with its mark, as it is shown."""
    found = [f'("{line[1:].decode()}", {str(line[:1] == b"*").lower()})' for line in output.splitlines() if output != b"refused 57\n"]
    return "Ok([" + ", ".join(found) + "])"


def step_shown(word, gone, output):
    """Returns what a step gave, from what the console printed for `cd` and for its line."""
    match word:
        case "count":
            return "({}, {}) ".format(*re.fullmatch(r"(\d+) paths, (\d+) marked\n", output.decode()).groups())
        case "has":
            return str(gone != b"refused 56\n").lower() + " "
        case "ls":
            lines = output.splitlines() if gone != b"refused 56\n" else []
            return "".join(f"{escaped(line[:1])}{line[1:].decode()} " for line in lines)
        case "find":
            return found_paths(output) + " "
        case "marked":
            return paths_debugged(output) + " "
        case "entries":
            return "".join(f'"{line.decode()}" ' for line in output.splitlines())
    changed = re.fullmatch(rb"(\d+) (?:un)?marked\n", output)
    return f"Some({changed[1].decode()}) " if changed else {b"refused 57\n": "None "}.get(output, "neither ")


def steps(place, field, fields):
    """Does steps on the tree of a job, each after a `cd` to its directory."""
    lines = [line for it in fields for line in (b"cd " + step_line(it)[0], step_line(it)[1])]
    given = answers(place, [job_of(field)], lines)
    words = [it.partition(":")[0] for it in fields]
    return "".join(step_shown(word, *given[2 * at : 2 * at + 2]) + "; " for at, word in enumerate(words))


def counts(place, field):
    """Marks and unmarks two hundred times. Prints the number of changes after which `count` is
    right, and the number of paths."""
    number, lines = 1, []
    for _ in range(200):
        number = (number * 1_664_525 + 1_013_904_223) % 2**32
        word = b"mark" if number // 1_048_576 % 2 == 0 else b"unmark"
        lines += [b"cd " + DIRECTORIES[number // 4_096 % 3], word + b" " + PATTERNS[number // 65_536 % 4], b"cd /", b"count", b"lsmark"]
    output = console(place, [job_of(field)], [*lines, b"find *"])[1].decode()
    counted = re.findall(r"(?m)^(\d+) paths, (\d+) marked\n((?:/\S+\n)*)", output)
    listed = len(re.findall(r"(?m)^[* ]/", output))
    right = sum(int(paths) == listed and int(marks) == shown.count("\n") for paths, marks, shown in counted)
    return f"{right} {listed}"


def tree(place, fields, wanted):
    """Finds and marks paths in a tree."""
    match fields:
        case ["matches", pattern, name]:
            return is_match(place, pattern, name)
        case ["bare", name]:
            return bare(place, name, wanted)
        case ["steps", job, *more]:
            return steps(place, job, more)
        case ["counts", job]:
            return counts(place, job)
    raise BadRow("no such call")


def answer_shown(line, output):
    """Returns what a line of a dialogue gave. `done` prints a bootstrap and a manifest, and `quit` nothing."""
    if line == b"done":
        return "done" if re.search(rb"(?m)^total \d+ \d+ \d+\n\Z", output) else "no restore"
    if line == b"quit":
        return "quit" if not output else "a restore"
    return f"refused {refusal(output)}" if refusal(output) else printed(output)


def dialogue(place, fields, _wanted):
    """Reads lines of the console."""
    if fields[0] == "line":
        output = console(place, [job_of("1:BFT:100")], [bytes_of(fields[1])])[1]
        return {b"cwd is: /\n": "read"}.get(output, f"refused {refusal(output)}")
    word, job, *lines = fields
    if word != "over":
        raise BadRow("no such call")
    lines = [bytes_of(line) for line in lines]
    *given, _, marked = answers(place, [job_of(job)], [*lines, b"cd /", b"lsmark"])
    return "".join(answer_shown(*it) + "; " for it in zip(lines, given)) + paths_debugged(marked)


# Plans, moments and requests.


def volumes_of(jobs):
    """Returns the volumes of jobs: those of formats.md for its two jobs, else a block at the start of each with the records of its files."""
    volumes = {span[0] for job in jobs for span in job["spans"]}
    if volumes == set(TWO_VOLUMES):
        return TWO_VOLUMES
    return {job["spans"][0][0]: one_block(job) for job in jobs if job["spans"]}


def one_block(job):
    """Returns a block with the attributes of the files of a job."""
    texts = ((index, b"%d 4 %s\0%s\0\0" % (index, path, lstat.encode())) for path, index, lstat, _ in job["files"])
    return block_of(b"".join(record(index, 1, text) for index, text in texts), 0, *job["session"])


def plan(place, request, marks, fields):
    """Marks paths, and shows the bootstrap, and session, index and path of each file in the manifest."""
    jobs = [job_of(field) for field in fields]
    (place.folder / "volumes").mkdir()
    for name, data in volumes_of(jobs).items():
        (place.folder / "volumes" / name).write_bytes(data)
    lines = [b"mark " + mark.strip(b"/") for mark in marks]
    _, output, told = console(place, jobs, [*lines, b"done"], request_of(request))
    if told:
        return f"refused {refusal(told)}"
    output = re.sub(rb"\A(\d+ marked\n|refused 57\n)*", b"", output)
    bootstrap, files = re.fullmatch(rb'((?:\w+=\S+\n)*)((?:F .*\n)*)total .*\n', output).groups()
    names = [line.split(b" ") for line in files.splitlines()]
    return printed(bootstrap) + "".join(f" {it[1].decode()} {it[3].decode()} {it[5].decode()} " for it in names).replace("  ", " ")


def groups(place, count):
    """Shows the number of groups and of files in the plan for a file in many spans. Its volume is
    empty, so the file is missing."""
    job = job_of("1:BFT:100;/a,1,saved")
    job["spans"] = [("A", 1, 1, 100 * before, 100 * before + 99, before + 1) for before in range(int(count))]
    (place.folder / "volumes").mkdir()
    (place.folder / "volumes" / "A").write_bytes(b"")
    output = console(place, [job], [b"mark a", b"done"], ("mars", "home", moment_of(250)))[1].decode()
    is_found = re.search(r"(?m)^X 1 7 1 63\ntotal 0 (\d+) 0\n\Z", output)
    return f"({output.count('Volume=')}, {is_found[1] if is_found else 'none'})"


def seconds_by(place, before, wanted, words=()):
    """Returns the wanted seconds, if of two jobs, one that begins then and one a second earlier,
    only the earlier one is before the moment."""
    jobs = [job_of(f"{number}:BFT:{int(wanted) + 1 - number}") for number in (1, 2)] if wanted.isdigit() else []
    status, output, told = place.run("jobs", "--db", catalogue_of(place, jobs), *words, "--before", before)
    if output:
        return wanted if re.fullmatch(rb"[-*] 2 .*\n", output) else "another moment"
    return f"refused {refusal(told)}" if status == 1 else f"status {status}"


def request(place, client, fileset, before, wanted):
    """Shows the request of a client, a file set and a moment: how it is refused, or what is chosen for it."""
    client, before = "" if client == "-" else client, bytes_of(before).decode()
    status, _, told = console(place, [], [b"quit"], (client, fileset, before))
    if status == 2:
        return "status 2"
    fault = {"2": "Err(BadName)", "52": "Err(BadMoment)"}.get(refusal(told))
    if fault:
        return fault
    (place.folder / "c.db").unlink()
    seconds = re.search(r"moment: (\d+) ", wanted)[1]
    given = seconds_by(place, before, seconds, ("--client", client, "--fileset", fileset))
    return f'Ok(Request {{ client: "{client}", fileset: "{fileset}", moment: {given} }})'


def plans(place, fields, wanted):
    """Makes a plan, or reads a moment or a request."""
    match fields:
        case ["for", asked, marks, *jobs]:
            return plan(place, asked, [bytes_of(it) for it in marks.split(",") if it != "-"], jobs)
        case ["by_tree", asked, pattern, *jobs]:
            return plan(place, asked, [bytes_of(pattern)], jobs)
        case ["groups", count]:
            return groups(place, count)
        case ["moment", text]:
            return seconds_by(place, bytes_of(text).decode(), wanted)
        case ["request", client, fileset, before]:
            return request(place, client, fileset, before, wanted)
    raise BadRow("no such call")


# Lists of jobs, and jobs that are to be committed.


def listed(place, client, fileset, before, fields, *more, **environment):
    """Lists jobs. The program lists them by number; in a row they come in the order of the history."""
    given = {"--client": client, "--fileset": fileset, "--before": before if before == "-" else moment_of(before)}
    words = [word for option, value in given.items() if value != "-" for word in (option, value)]
    jobs = [job_of(field) for field in fields]
    _, output, told = place.run("jobs", "--db", catalogue_of(place, jobs), *more, *words, **environment)
    lines, order = output.splitlines(keepends=True), [job["id"] for job in jobs]
    numbers = [int(line.split(b" ")[1]) for line in lines]
    if numbers != sorted(numbers):
        raise BadRow("the jobs are not in the order of their numbers")
    lines.sort(key=lambda line: order.index(int(line.split(b" ")[1])))
    return printed(b"".join(lines)) + (f" refused {refusal(told)}" if told else "")


def put_lines(fields):
    """Returns the lines that save files, with digests, at one place, and note `/z` as deleted."""
    lines = b""
    for path, kind, numbers, link, data in (field.split(",") for field in fields):
        link = bytes_of(link).hex().encode() or b"-"
        lines += put_line(bytes_of(path), bytes_of(data), b"putd", int(kind), link, lstat_of(numbers).encode()) + b"\n"
    return lines + b"del /z\nplace V1 0\n"


def saved_rows(place, row, fields):
    """Shows the rows of a job that was committed, as a catalogue has them."""
    (place.folder / "volumes").mkdir()
    db = place.folder / "saved.db"
    lines = job_lines(job_of(row), 64_512, put_lines(fields))
    place.run("serve", "--db", db, "--volumes", place.folder / "volumes", lines=lines)
    found = rows_of(db)
    (number, kind, level, client, status, start, fileset, id_, time) = found["Job"][0]
    letters = (f"{word}: Letter {{ byte: {ord(letter)} }}" for word, letter in (("kind", kind), ("level", level), ("status", status)))
    session = f"start: {start}, session: SessionKey {{ id: {id_}, time: {time} }}"
    head = f'id: JobId {{ id: {number} }}, {", ".join(letters)}, {session}, client: "{client}", fileset: "{fileset}"'
    files = ", ".join(file_shown(*it[1:]) for it in found["File"])
    spans = ", ".join(span_shown(it) for it in found["JobMedia"])
    return f"Ok(JobRows {{ row: JobRow {{ {head} }}, files: [{files}], spans: [{spans}] }})"


def file_shown(index, path, name, lstat, digest):
    """Returns the row of a file as it is shown."""
    sum_ = f"Some({[*bytes.fromhex(digest)]})" if digest else "None"
    return f'FileRow {{ path: "{(path + name).decode()}", index: {index}, lstat: "{lstat}", md5: {sum_} }}'


def saved(place, fields, _wanted):
    """Commits a job."""
    word, row, *files = fields
    if word == "rows":
        return saved_rows(place, row, files)
    output = place.run("serve", lines=job_lines(job_of(row), lines=put_lines(files)))[1]
    return "made" if output == b"stored %d\n" % job_of(row)["id"] else f"refused {refusal(output)}"


CALLS = {"history": history, "choice": choice, "tree": tree, "dialogue": dialogue, "plan": plans, "saved": saved}


def run_row(place, fields, wanted):
    """Runs a row. Returns what it gave."""
    word, *more = fields
    if word == "list":
        client, fileset, before, *jobs = more
        return listed(place, client, fileset, before, jobs)
    if word == "local":
        rule, client, fileset, before, *jobs = more
        return listed(place, client, fileset, before, jobs, "--local", TZ="Nowhere/Land" if rule == "-" else rule)
    return CALLS[word](place, more, wanted)


if __name__ == "__main__":
    main("Runs rows over the selection.", FILE, run_row)
