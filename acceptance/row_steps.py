"""The steps of rows over the program: files and folders, and its commands. What each means is at the top of the files in rows/."""

import errno
import os
import re
import resource
import shutil
import signal
import socket
import subprocess
from pathlib import Path

from catalogued import NUMBERS, Job, write_catalogue, write_one_job
from common import MIB
from leaving import write_volume
from preloaded import compiled
from row_fields import bytes_of, shown, text_of
from scripting import base64_of
from terminal import PROMPT, play

# The second after the job of the catalogue began. 32 bits can't hold it.
AFTER = "2106-02-07 06:28:18"
# The error with which reading fails, by its word in a row.
ERRORS = {"pipe": errno.EPIPE, "memory": errno.ENOMEM}
SECONDS = 60
# The message for each kind of fault of a command line, by clap and by the program itself.
KINDS = (
    (r"error: the following required arguments were not provided|.* must be given( together| with '.*)?$", "MissingRequiredArgument"),
    (r"error: unexpected argument ", "UnknownArgument"),
    (r"error: a value is required for ", "InvalidValue"),
    (r"error: invalid value |error: the value of '.*' is no ", "ValueValidation"),
    (r"error: the argument .* cannot be used ", "ArgumentConflict"),
)


def limited(size):
    """Returns a function that keeps a child from writing files beyond this number of bytes; further
    bytes are an error, and do not end the child."""

    def limit():
        signal.signal(signal.SIGXFSZ, signal.SIG_IGN)
        resource.setrlimit(resource.RLIMIT_FSIZE, (size, size))

    return limit


class Place:
    """The folder in which rows run, and what their commands wrote to standard output and standard error."""

    def __init__(self, program, folder, libraries):
        self.program, self.folder, self.libraries = program, Path(folder), Path(libraries)
        self.printed, self.told = b"", b""

    def path(self, name):
        return self.folder / name

    def preload(self, name, settings):
        """Returns the environment in which a library is preloaded, which is compiled if it is not there."""
        library = self.libraries / f"{name}.so"
        if not library.exists():
            compiled(self.libraries, name)
        return {**os.environ, "LD_PRELOAD": str(library), **settings}

    def run(self, words, lines=b"", output=subprocess.PIPE, **more):
        """Runs the program. Returns its status, standard output and standard error."""
        ran = subprocess.run(
            [self.program, *words],
            **({"input": lines} if isinstance(lines, bytes) else {"stdin": lines}),
            stdout=output,
            stderr=subprocess.PIPE,
            cwd=self.folder,
            timeout=SECONDS,
            **more,
        )
        return ran.returncode, ran.stdout or b"", ran.stderr

    def command(self, words, lines=b"", **more):
        """Runs the program, and keeps what it writes. Returns its status as what a step gives."""
        status, printed, told = self.run(words, lines, **more)
        self.printed, self.told = self.printed + printed, self.told + told
        return [str(status)]


# Files and folders.


def make_folder(place, name):
    place.path(name).mkdir()
    return []


def write_text(place, name, text):
    place.path(name).write_bytes(text_of(text))
    return []


def write_bytes(place, name, data):
    place.path(name).write_bytes(bytes_of(data))
    return []


def remove(place, name):
    shutil.rmtree(place.path(name))
    return []


def there(place, name, way):
    """Returns what is at a name: what a function gives of the bytes of a file, the number of entries of a folder, or `none`."""
    path = place.path(name)
    if path.is_dir():
        return [str(len(list(path.iterdir())))]
    return way(path.read_bytes()) if path.exists() else ["none"]


def look(place, name):
    return there(place, name, lambda data: [shown(data)])


def size_of(place, name):
    return there(place, name, lambda data: [str(len(data))])


def lines_of(place, name):
    return there(place, name, lambda data: [shown(line) for line in data.split(b"\n") if not line.startswith(b"  ")])


def last_of(place, count, name):
    return there(place, name, lambda data: [shown(data[-int(count) :])])


# Commands over files.


def target_words(target):
    if target == "-":
        return []
    return ["--tar" if target.endswith(".tar") else "--into", target]


def option_words(options):
    return [f"--{option}" for option in options.split(",") if option != "-"]


def log_words(log):
    return [] if log == "-" else ["--log", log]


def extract(place, bsr, target, options, log):
    words = ["extract", "--bsr", bsr, "--volumes", "volumes", "--drives", "3", "--quiet"]
    return place.command([*words, *target_words(target), *option_words(options), *log_words(log)])


def check(place, bsr, word):
    words = ["check", "--bsr", bsr, "--volumes", "volumes"]
    if word == "command":
        return place.command(words)
    status, printed, told = place.run([*words, *option_words(word)])
    return [*[shown(it) for it in [printed + told] if it], str(status)]


def input_of(script):
    """Returns the lines of a script, none for `input`."""
    return b"" if script == "input" else text_of(script)


def console(place, script, target, second, client, before, db, log):
    if db == "c.db":
        write_one_job(place.path(db), bytes_of(second))
    words = ["console", "--db", db, "--volumes", "volumes", "--client", client, "--fileset", "home"]
    words += ["--before", AFTER if before == "after" else before, "--drives", "2", "--quiet"]
    return place.command([*words, *target_words(target), *log_words(log)], input_of(script))


def serve(place, script, volumes, db, call=None):
    if db == "c.db":
        write_one_job(place.path(db), b"/d/b")
    stops = {"STOPPED_CALL": call, "STOPPED_WAY": "failing"}
    more = {"env": place.preload("stopping_calls", stops)} if call else {}
    return place.command(["serve", "--db", db, "--volumes", volumes], input_of(script), **more)


# Scripts, restores and sessions, by streams.


def source_of(place, way, text):
    """Returns what lets a command read a text from the file `given` in a way."""
    file = place.path("given")
    file.write_bytes(text)
    if way == "whole":
        return {}
    settings = {"READ_FILE": str(file)}
    settings |= {"READ_STEP": "1"} if way == "slow" else {"READ_ERROR": str(ERRORS[way])}
    return {"env": place.preload("ending_reads", settings)}


def written_to(place, field, words, lines, **more):
    """Runs the program, and lets it write to a standard output that holds a text or can't be written. Returns its status, what it holds
    then, and standard error."""
    before, _, way = field.partition("!")
    if way == "pipe":
        reading, writing = os.pipe()
        os.close(reading)
        status, _, told = place.run(words, lines, writing, **more)
        os.close(writing)
        return status, b"", told
    if way:
        more["preexec_fn"] = limited(int(way))
    file = place.path("taken")
    file.write_bytes(text_of(before))
    with open(file, "ab") as output:
        status, _, told = place.run(words, lines, output, **more)
    return status, file.read_bytes(), told


def shown_output(printed):
    """Returns standard output, or its length if that is above 4,096."""
    return shown(printed) if len(printed) <= 4096 else str(len(printed))


def shown_end(status, told):
    """Returns the status, and standard error: if a stream failed, only the error."""
    return [str(status), shown(told.split(b": ")[-1] if status == 3 and told.startswith(b"brestore: ") else told)]


def script(place, source, output, text):
    more = source_of(place, source, text_of(text))
    with open(place.path("given"), "rb") as lines:
        status, printed, told = written_to(place, output, [], lines, **more)
    return [shown_output(printed), *shown_end(status, told)]


def files_in(folder):
    """Returns path and bytes of each file in a folder."""
    found = sorted(it for it in folder.rglob("*") if it.is_file())
    return [f"/{it.relative_to(folder)}:{shown(it.read_bytes())}" for it in found]


def delivered(place, target, words, output, lines, more):
    """Runs a command that delivers into a new folder, if it is to. Returns what it gives, and the files that are there then. A folder may
    take files of some bytes at most: then standard output is a pipe, which takes all."""
    folder, _, most = target.partition("!")
    if folder == "-":
        status, printed, told = written_to(place, output, words, lines, **more)
        return [*shown_end(status, told), shown_output(printed)]
    into = place.path(folder)
    into.mkdir()
    words = [*words, "--into", folder]
    if most:
        status, printed, told = place.run(words, lines, preexec_fn=limited(int(most)), **more)
    else:
        status, printed, told = written_to(place, output, words, lines, **more)
    found = files_in(into)
    shutil.rmtree(into)
    return [*shown_end(status, told), shown_output(printed), *found]


def volumes_of(place, names, data):
    """Makes the folder of volumes anew: each has the same bytes. One whose name ends in `/` is a folder."""
    volumes = place.path("volumes")
    shutil.rmtree(volumes, ignore_errors=True)
    volumes.mkdir()
    for name in set(names):
        if name.endswith("/"):
            (volumes / name).mkdir()
        else:
            (volumes / name).write_bytes(data)


def restore(place, memory, source, output, target, text):
    words = ["extract", "--bsr", "given", "--volumes", "volumes", "--drives", "2", "--quiet"]
    words += ["--memory", "0"] if memory == "tight" else []
    more = source_of(place, source, text_of(text))
    return delivered(place, target, words, output, b"", more)


def job_of(number, files, end):
    """Returns a good job of some files, `PATH,INDEX` with `;` between them: a Full, or an Incremental after it."""
    rows = []
    for file in files.split(";") if files != "-" else []:
        path, index = file.rsplit(",", 1)
        rows.append((int(index), bytes_of(path), NUMBERS % b"D"))
    return Job(number, "F" if number == 1 else "I", 100 * number, (number, 7), rows, ("V", 1, 4, 0, end))


def session_words(place, jobs, drives, block):
    """Makes a catalogue of some jobs, and volumes with a block. Returns the words of a session over them."""
    data, names = text_of(block), drives.split(";")
    volumes_of(place, names, data)
    end = max(0, len(data) - 1)
    write_catalogue(place.path("s.db"), [job_of(number, files, end) for number, files in enumerate(jobs.split("+"), 1)])
    words = ["console", "--db", "s.db", "--volumes", "volumes", "--client", "mars", "--fileset", "home"]
    return [*words, "--before", "1970-01-01 00:16:40", "--drives", str(len(names)), "--quiet"]


def session(place, jobs, drives, block, source, output, target, text):
    words = session_words(place, jobs, drives, block)
    more = source_of(place, source, text_of(text))
    with open(place.path("given"), "rb") as lines:
        return delivered(place, target, words, output, lines, more)


def turns(place, jobs, drives, block, text):
    """Runs a session, and gives it each line after the answer to the previous one has come. Returns
    what each call wrote, and the status."""
    words = [place.program, *session_words(place, jobs, drives, block)]
    # Of such a socket each call reads what one call wrote.
    reading, writing = socket.socketpair(socket.AF_UNIX, socket.SOCK_SEQPACKET)
    reading.settimeout(SECONDS)
    with reading, subprocess.Popen(words, stdin=subprocess.PIPE, stdout=writing, cwd=place.folder) as child:
        writing.close()
        parts = []
        for line in text_of(text).splitlines(keepends=True):
            child.stdin.write(line)
            child.stdin.flush()
            parts.append(reading.recv(65536))
        child.stdin.close()
        while parts[-1]:
            parts.append(reading.recv(65536))
        return [*[shown(part) for part in parts[:-1]], str(child.wait())]


# Command lines.


def read(place, line):
    """Returns the kind of a fault of a command line and the exit status, or `accepted`. The help and the version are such kinds."""
    status, printed, told = place.run(line.split(" ")[1:])
    if status == 2:
        return [*[kind for said, kind in KINDS if re.match(said, told.decode(), re.M)], "2"]
    if b"Usage: " in printed or printed.startswith(b"brestore "):
        return ["DisplayHelp" if b"Usage: " in printed else "DisplayVersion", str(status)]
    return ["accepted" if status in (0, 1, 3) else str(status)]


def status_of(place, line):
    return [str(place.run(line.split(" ")[1:])[0])]


def usage_of(place, line):
    """Returns the command in the usage that is told of a command line with a fault."""
    _, _, told = place.run(line.split(" ")[1:])
    found = re.search(r"^Usage: (brestore(?: [a-z]+)?)", told.decode(), re.M)
    return found[1].split(" ") if found else ["none"]


LINE_CALLS = {"read": read, "status": status_of, "usage": usage_of}


def counted(place, words):
    """Returns the memory that a check counts."""
    printed = place.run(["check", "--bsr", "x.bsr", "--volumes", "volumes", *words])[1]
    return int(re.search(rb"^memory (\d+)$", printed, re.M)[1])


def held(place, memory):
    """Returns the number of bytes of a file of 3 MiB that may be held with this memory; `-` if no
    memory is given."""
    if not place.path("volumes").exists():
        write_volume(place.folder, [(b"/a", bytes(3 * MIB))])
    words = [] if memory == "-" else ["--memory", memory]
    return [str(counted(place, words) - counted(place, ["--memory", "0"]))]


# At a terminal.


def at_terminal(place, files, text):
    """Types a text and the end of the input at the prompt of a console over a job of these files. Returns what the terminal showed."""
    db = place.path("t.db")
    write_catalogue(db, [Job(1, "F", 100, (1, 7), files, ("V", 1, 1, 0, 0))])
    words = ["console", "--db", str(db), "--volumes", str(place.folder), "--client", "mars", "--fileset", "home"]
    ends = "\x04" if text.endswith("\n") or not text else "\x04\x04"
    status, terminal, _ = play(place.program, [*words, "--before", AFTER], [(PROMPT, text + ends)], place.folder)
    if status not in (0, 1):
        raise ValueError(f"the console ends with status {status}")
    return terminal


ASKED = {
    "Help": r"^(\$ )?unmarkdir ",
    "Dir": r" f2$",
    "Exit": r"`quit` ends without a restore, `done` restores what is marked\.$",
    "LongList": r"`dir` lists with sizes and moments\.$",
    "Folder": r"`cd /` goes to the top, `cd \.\.` up, `pwd` prints the folder\.$",
    "Other": r"^(\$ )*  [A-Z][A-Za-z]+: ",
}


def asked(place, line):
    """Returns the request of a line at a terminal, by the words that answer it: `Other` if it is refused, and `Nothing` if no words come."""
    terminal = at_terminal(place, [(1, b"/f2", NUMBERS % b"Y")], text_of(line).decode())
    found = [name for name, words in ASKED.items() if any(re.search(words, it) for it in terminal)]
    return found or ["Nothing"]


def name_line(place, name, number, moment):
    """Returns the line of a name in `dir`. A name without a size has no row, but a name below it
    has one."""
    name = text_of(name)
    numbers = [b"A", b"A", b"IGk", b"B", b"A", b"A", b"A", b"A", b"A", b"A", b"A", b"A", b"A", b"A"]
    numbers[7] = b"A" if number == "-" else base64_of(int(number)) or b"A"
    numbers[11] = b"-B" if moment == "-" else base64_of(int(moment)) or b"A"
    path = b"/" + name + (b"x" if number == "-" else b"")
    terminal = at_terminal(place, [(1, path, b" ".join(numbers))], "dir\n")
    found = next(it for it in terminal if it.startswith(PROMPT)).removeprefix(PROMPT)
    return [shown(found.encode() + b"\n")]


STEPS = {
    "folder": make_folder,
    "text": write_text,
    "bytes": write_bytes,
    "remove": remove,
    "look": look,
    "size": size_of,
    "lines": lines_of,
    "extract": extract,
    "check": check,
    "console": console,
    "serve": serve,
    "script": script,
    "restore": restore,
    "session": session,
    "turns": turns,
    "held": held,
    "asked": asked,
    "name": name_line,
}


def take(place, step):
    """Takes a step. Returns what it gives."""
    name, *fields = step.split(" ")
    if name == "line":
        return LINE_CALLS[fields[0]](place, step.split(" ", 2)[2])
    if name.isdigit():
        return last_of(place, name, *fields)
    return STEPS[name](place, *fields)
