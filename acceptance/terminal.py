#!/usr/bin/env python3
"""Plays an operator at a terminal who makes mistakes, and compares what the terminal shows beside standard output.

Standard input and standard error are a pseudo terminal, without echo; standard output is a file. What a refusal means is compared
with the table of docs/REFUSALS.md. Needs sqlite3 and cc.

    acceptance/terminal.py                    over the program that is there
    acceptance/terminal.py --program FILE     over another program

The status is 1 if something is not as expected.
"""

import argparse
import fcntl
import os
import pty
import re
import select
import shutil
import struct
import subprocess
import sys
import tempfile
import termios
import time
from pathlib import Path

# Nothing is left beside the script.
sys.dont_write_bytecode = True
sys.path.insert(0, os.path.join(os.path.dirname(os.path.dirname(os.path.abspath(__file__))), "tools"))
from cases import unpack
from commands import small_blocks
from common import CASES, ORDER_SQL, PROGRAM, SETS, Checks, escaped
from explain import rows
from preloaded import compiled

VOLUMES = os.path.join(SETS, "order")
BOOTSTRAP = os.path.join(CASES, "order-inc", "x.bsr")
SECONDS = 60
PIPE_LEN = 4096
CLEARED = "\r\x1b[K"
PROMPT = "$ "
GREETING = [
    "Mark files with `mark NAME`, or all with `mark *`. `ls` lists, `cd NAME` goes",
    "into a folder. `done` restores what is marked, and `quit` restores nothing.",
    "`help` lists all commands.",
]
CHOSEN = [
    "chosen: * 1 F T 2026-11-21 23:15:33 peer-fd Peer 5 21 Vol-0001",
    "chosen: * 2 D T 2026-11-21 23:15:38 peer-fd Peer 1 13 Vol-0001",
    "chosen: * 3 I T 2026-11-21 23:15:45 peer-fd Peer 1 24 Vol-0001",
]
NOWHERE = "no file was written. Next: `--into` and `--tar` say where to."
NO_JOB = "No job of this catalogue is asked for. Without --client, --fileset and --before all are listed."
EMPTY = "The catalogue has no jobs."
QUIT = "nothing was restored. `done` restores what is marked."
AWAITED = "brestore: reads a script from standard input. `brestore --help` lists the commands; Ctrl-D ends the input."


def told(number, line=None):
    """The lines of a refusal at a terminal."""
    _, name, meaning, following = next(row for row in rows() if row[0] == number)
    return [line or f"refused {number}", f"  {name}: {meaning}", f"  Next: {following}"]


def words(number):
    """The two lines beside a refusal."""
    return told(number)[1:]


def count(put, files, older=0, lost=0):
    line = f"{put} of {files} files were put"
    if older:
        line += f", older copies left out: {older}"
    return line + (f", not restored: {lost}" if lost else "")


def paths_saved(volume):
    """Returns the paths in the attributes of a volume by the index of their file."""
    paths = {}
    for found in re.finditer(rb"(?s)(.{4})\0\0\0\x01.{4}(\d+) \d+ (/[^\0]*)\0", volume):
        if struct.unpack(">I", found[1])[0] == int(found[2]):
            paths[int(found[2])] = found[3]
    return paths


def files_in(manifest):
    return sum(line.startswith("F ") for line in manifest.splitlines())


def read_until(terminal, text, wanted, ends):
    """Reads what the terminal shows until that ends with a text, or until it is closed."""
    while not (wanted and text.endswith(wanted)):
        if not select.select([terminal], [], [], max(0.0, ends - time.monotonic()))[0]:
            raise TimeoutError(f"after {text!r} nothing came")
        try:
            more = os.read(terminal, 65536)
        except OSError:
            return text
        if not more:
            return text
        text += more.decode().replace("\r\n", "\n")
    return text


def play(program, words, lines, folder, prints=False, **settings):
    """Runs the program at a terminal, to which it also prints if that is asked for, and types each line when it is asked for, with more
    settings in its environment. Returns the exit status, what the terminal showed as lines, and standard output if that is not the
    terminal."""
    terminal, inner = pty.openpty()
    modes = termios.tcgetattr(inner)
    modes[0] &= ~termios.ICRNL
    modes[3] &= ~termios.ECHO
    termios.tcsetattr(inner, termios.TCSANOW, modes)
    ends, shown = time.monotonic() + SECONDS, ""
    with open(os.path.join(folder, "printed"), "w+") as printed:
        environment = {**os.environ, **settings}
        child = subprocess.Popen([program, *words], stdin=inner, stdout=inner if prints else printed, stderr=inner, env=environment)
        os.close(inner)
        for wanted, line in lines:
            shown = read_until(terminal, shown, wanted, ends)
            os.write(terminal, line.encode())
        shown = read_until(terminal, shown, None, ends)
        status = child.wait()
        os.close(terminal)
        printed.seek(0)
        return status, shown.splitlines(), printed.read()


def length_in(pipe):
    """Returns the number of bytes in a pipe."""
    return struct.unpack("i", fcntl.ioctl(pipe, termios.FIONREAD, b"\0\0\0\0"))[0]


def block_of(stream, data):
    """Returns a block with one record of the first file."""
    record = struct.pack(">iiI", 1, stream, len(data)) + data
    return struct.pack(">III4sII", 0, 24 + len(record), 0, b"BB02", 1, 100) + record


def play_slowly(program, words, at_terminal=True, lines="", room=0):
    """Runs the program with a pipe as standard output that takes `room` bytes, and then nothing for two seconds after it has them. Standard
    input has these lines, and standard error is a terminal, or a pipe. Returns the exit status, what came on standard error, and standard
    output."""
    errors, inner = pty.openpty() if at_terminal else os.pipe()
    output, into = os.pipe()
    fcntl.fcntl(into, fcntl.F_SETPIPE_SZ, PIPE_LEN)
    os.write(into, b"x" * (PIPE_LEN - room))
    child = subprocess.Popen([program, *words], stdin=subprocess.PIPE, stdout=into, stderr=inner)
    child.stdin.write(lines.encode())
    child.stdin.close()
    os.close(into)
    os.close(inner)
    ends = time.monotonic() + SECONDS
    while length_in(output) < PIPE_LEN and time.monotonic() < ends:
        time.sleep(0.05)
    time.sleep(2)
    with open(output, "rb") as printed:
        text = printed.read()[PIPE_LEN - room:].decode()
    shown = read_until(errors, "", None, time.monotonic() + SECONDS)
    os.close(errors)
    return child.wait(), shown, text


def console_words(db, into, client="peer-fd"):
    words = ["console", "--db", db, "--volumes", VOLUMES, "--client", client, "--fileset", "Peer", "--before", "2026-11-21 23:15:46"]
    return [*words, "--into", into]


def typed(*lines):
    """Lines that are typed at the prompt."""
    return [(PROMPT, f"{line}\n") for line in lines]


def restores(checks, folder):
    """A whole restore from a catalogue, with mistakes."""
    db, into = os.path.join(folder, "jobs.db"), os.path.join(folder, "restored")
    with open(ORDER_SQL) as text:
        subprocess.run(["sqlite3", db], stdin=text, check=True)
    status, shown, printed = play(checks.program, console_words(db, into), [], folder)
    reason = f"  {into} is refused by the system: No such file or directory (os error 2). Next: Make the folder, or correct its name."
    checks.check("a folder that is not there", (status, shown, printed), (1, [*told(81), reason], ""))
    os.mkdir(into)
    status, shown, printed = play(checks.program, console_words(os.path.join(folder, "nothing.db"), into), [], folder)
    checks.check("a catalogue that is not there", (status, shown, printed), (1, told(45), ""))
    status, shown, printed = play(checks.program, console_words(db, into, client="mars-fd"), [], folder)
    checks.check("another client", (status, shown, printed), (1, told(53), ""))
    status, shown, printed = play(checks.program, ["jobs", "--db", db, "--client", "mars-fd"], [], folder)
    checks.check("its jobs", (status, shown, printed), (0, [NO_JOB], ""))
    blank = os.path.join(folder, "blank.db")
    with open(blank, "w"):
        pass
    status, shown, printed = play(checks.program, ["jobs", "--db", blank], [], folder)
    checks.check("the jobs of an empty file", (status, shown, printed), (1, told(45), ""))
    subprocess.run([checks.program, "serve", "--db", blank, "--volumes", folder], stdin=subprocess.DEVNULL, check=True)
    status, shown, printed = play(checks.program, ["jobs", "--db", blank], [], folder)
    checks.check("the jobs of an empty catalogue", (status, shown, printed), (0, [EMPTY], ""))
    status, shown, printed = play(checks.program, console_words(db, into), typed("done"), folder)
    checks.check("nothing is marked", (status, shown, printed), (1, [*CHOSEN, *GREETING, *told(51, f"{PROMPT}refused 51")], ""))
    with open(os.path.join(CASES, "order-inc", "expected")) as text:
        manifest = text.read()
    lines = typed("frob", "ls", "mark *", "done")
    status, shown, printed = play(checks.program, console_words(db, into), lines, folder)
    put = files_in(manifest)
    wanted = [*CHOSEN, *GREETING, PROMPT + words(55)[0], words(55)[1], PROMPT * 3 + count(put, put)]
    checks.check("a session with a line that is refused", (status, shown), (1, wanted))
    checks.check("and its answers", (printed.startswith("refused 55\n"), printed.endswith(manifest)), (True, True))
    with open(os.path.join(into, "tmp/peerlab/src/sub/f2")) as text:
        checks.check("and a file", len(text.read()), 24)
    status, shown, printed = play(checks.program, console_words(db, into), [], folder)
    reason = f"  {into} is a folder that is not empty. Next: Choose an empty folder; "
    reason += "`--resume` goes on with a restore that was cut off."
    checks.check("a second restore into the folder", (status, shown, printed), (1, [*told(81), reason], ""))


def asks_again(checks, folder):
    """A session with lines that mark nothing, over a catalogue with a job that wrote to a volume and has no files."""
    db = os.path.join(folder, "pruned.db")
    with open(ORDER_SQL) as text:
        subprocess.run(["sqlite3", db], stdin=text, check=True)
    subprocess.run(["sqlite3", db, "DELETE FROM File WHERE JobId = 3"], check=True)
    chosen = [*CHOSEN[:2], "chosen: * 3 I T 2026-11-21 23:15:45 peer-fd Peer 0 0 Vol-0001"]
    chosen.append("purged 3: no files of this job are in the catalogue, so older copies may come back; its bootstrap restores them")
    lines = typed("", "mark /tmp", "quit")
    status, shown, printed = play(checks.program, console_words(db, folder)[:-2], lines, folder)
    wanted = [*chosen, *GREETING, PROMPT * 2 + words(57)[0], words(57)[1], PROMPT + QUIT]
    checks.check("a blank line, and a path from the top", (status, shown, printed), (1, wanted, "refused 57\n"))
    empty = os.path.join(folder, "none")
    os.mkdir(empty)
    session = console_words(db, folder)[:-2]
    session[session.index("--volumes") + 1] = empty
    lost = f"  {empty}/Vol-0001 can't be read: No such file or directory (os error 2). Next: Copy it there, or correct the folder's name."
    status, shown, printed = play(checks.program, session, typed("quit"), folder)
    wanted = [*chosen[:3], lost, chosen[3], *GREETING, PROMPT + QUIT]
    checks.check("volumes that are not there", (status, shown, printed), (1, wanted, ""))


def extracts(checks, folder):
    """Restores by a bootstrap, with faults of the volumes."""
    empty, cut = os.path.join(folder, "empty"), os.path.join(folder, "cut")
    for place in (empty, cut):
        os.mkdir(place)
    extract = ["extract", "--bsr", BOOTSTRAP, "--volumes"]
    status, shown, printed = play(checks.program, [*extract, empty], [], folder)
    lost = f"  {empty}/Vol-0001 can't be read: No such file or directory (os error 2). Next: Copy it there, or correct the folder's name."
    checks.check("a volume that is missing", (status, shown, printed), (1, [*told(14, "refused 14 Vol-0001 0"), lost], ""))
    os.mkdir(os.path.join(empty, "Vol-0001"))
    status, shown, printed = play(checks.program, [*extract, empty], [], folder)
    lost = f"  {empty}/Vol-0001 is a folder, and has to be a file. Next: Move it away, or choose another folder."
    checks.check("a folder in its place", (status, shown, printed), (1, [*told(70), lost], ""))
    with open(os.path.join(VOLUMES, "Vol-0001"), "rb") as whole, open(os.path.join(cut, "Vol-0001"), "wb") as part:
        part.write(whole.read()[:300])
    status, shown, printed = play(checks.program, [*extract, cut], [], folder)
    checks.check("a volume that is cut", (status, shown, printed), (1, told(12, "refused 12 Vol-0001 206"), ""))
    status, shown, printed = play(checks.program, [*extract, VOLUMES], [], folder)
    checks.check("a restore without a fault, into no folder", (status, shown), (0, [NOWHERE]))
    status, shown, printed = play(checks.program, [*extract, VOLUMES, "--quiet"], [], folder)
    checks.check("and with --quiet", (status, shown), (0, []))
    spoilt(checks, folder)


def spoilt(checks, folder):
    """A restore with some outcomes that are no files and a file at the path of a folder, and the
    same again with the mistakes corrected."""
    case, into, volumes = os.path.join(CASES, "feat-full"), os.path.join(folder, "spoilt"), os.path.join(folder, "feat")
    unpack(Path(SETS) / "feat", Path(volumes))
    with open(os.path.join(case, "expected")) as text:
        manifest = text.read()
    outcomes = [line.split(" ") for line in manifest.splitlines() if line.startswith("X ")]
    keys = ", ".join(f"{' '.join(fields[1:4])} (stream {fields[5]})" for fields in outcomes if fields[4] == "65")
    number = sum(fields[4] == "65" for fields in outcomes)
    paths = [line.split(" ")[5] for line in manifest.splitlines() if line.startswith("F ")]
    outcome = [f"outcome 65 of {number} files: {keys}", *words(65)]
    with open(os.path.join(volumes, "Vol-0001"), "rb") as volume:
        saved = paths_saved(volume.read())
    outcome += [f"  {' '.join(fields[1:4])} on Vol-0001 is {escaped(saved[int(fields[3])])}" for fields in outcomes]
    extract = ["extract", "--bsr", os.path.join(case, "x.bsr"), "--volumes", volumes]
    status, shown, printed = play(checks.program, extract, [], folder)
    checks.check("outcomes that are no files", (status, shown, printed), (1, [*outcome, NOWHERE], manifest))
    os.mkdir(into)
    top = os.path.join(into, paths[0].split("/")[1])
    with open(top, "w") as file:
        file.write("in the way")
    extract += ["--into", into]
    reason = f"  {top} is a file, and has to be a folder. Next: Move it away, or choose another folder."
    status, shown, printed = play(checks.program, [*extract, "--resume"], [], folder)
    checks.check("a file in the way", (status, shown, printed), (1, [*told(80), reason, *outcome, count(0, len(paths), lost=number)], manifest))
    status, shown, printed = play(checks.program, [*extract, "--resume", "--quiet"], [], folder)
    checks.check("and with --quiet", (status, shown, printed), (1, [*told(80), reason, *outcome, count(0, len(paths), lost=number)], manifest))
    os.remove(top)
    status, shown, printed = play(checks.program, [*extract, "--resume"], [], folder)
    checks.check("and moved away", (status, shown, printed), (1, [*outcome, count(len(paths), len(paths), lost=number)], manifest))
    status, shown, printed = play(checks.program, [*extract, "--resume", "--quiet"], [], folder)
    checks.check("once more with --quiet", (status, shown, printed), (1, outcome, manifest))


def tells(checks, folder):
    """The line that shows the progress of a restore."""
    into = [os.path.join(folder, f"told{number}") for number in range(3)]
    for place in into:
        os.mkdir(place)
    with open(os.path.join(CASES, "order-inc", "expected")) as text:
        manifest = text.read()
    files = files_in(manifest)
    extract = ["extract", "--bsr", BOOTSTRAP, "--volumes", VOLUMES, "--into"]
    status, shown, printed = play_slowly(checks.program, [*extract, into[0]])
    checks.check("a restore that takes its time", (status, printed), (0, manifest))
    begun = f"\r0.0 MiB of 0.0 MiB written, 0 of {files} files put\x1b[K"
    ended = f"{CLEARED}{count(files, files)}\n"
    checks.check("is told", (shown[:len(begun)], shown[-len(ended):]), (begun, ended))
    status, shown, printed = play_slowly(checks.program, [*extract, into[1], "--quiet"])
    checks.check("and not with --quiet", (status, shown, printed), (0, "", manifest))
    status, shown, printed = play_slowly(checks.program, [*extract, into[2]], at_terminal=False)
    checks.check("and not without a terminal", (status, shown, printed), (0, "", manifest))


def tells_a_session(checks, folder):
    """The same line of a console session, which knows the number of bytes to read after its
    bootstrap is printed."""
    db, into = os.path.join(folder, "told.db"), os.path.join(folder, "told3")
    with open(ORDER_SQL) as text:
        subprocess.run(["sqlite3", db], stdin=text, check=True)
    os.mkdir(into)
    with open(os.path.join(CASES, "order-inc", "expected")) as text:
        manifest = text.read()
    files, lines = files_in(manifest), "mark *\ndone\n"
    session = console_words(db, into)
    whole = subprocess.run([checks.program, *session[:-2]], input=lines.encode(), capture_output=True).stdout.decode()
    checks.check("what a session prints ends with the manifest", whole.endswith(manifest), True)
    # What comes before the manifest goes into the pipe.
    room = len(whole) - len(manifest)
    status, shown, printed = play_slowly(checks.program, session, lines=lines, room=room)
    checks.check("a session that takes its time", (status, printed), (0, whole))
    told = f"\r0.0 MiB of 0.0 MiB written, 0 of {files} files put\x1b[K{CLEARED}{count(files, files)}\n"
    checks.check("is told", shown[-len(told):], told)


def tells_bytes(checks, folder):
    """The bytes of one large file, which is read again while it goes into a stream that takes its time."""
    volumes, bsr = os.path.join(folder, "large"), os.path.join(folder, "large.bsr")
    os.mkdir(volumes)
    with open(os.path.join(volumes, "V"), "wb") as volume:
        volume.write(block_of(1, b"1 3 /a\0A A IGk B A A A BAAAA A A A A A A\0\0"))
        volume.write(b"".join(block_of(2, b"a" * 2**16) for _ in range(256)))
    with open(bsr, "w") as text:
        text.write("Volume=V\n")
    status, shown, printed = play_slowly(checks.program, ["extract", "--bsr", bsr, "--volumes", volumes, "--tar", "-", "--memory", "0"])
    checks.check("a large file", (status, printed.count("a") >= 2**24), (0, True))
    told = [float(size) for size in re.findall(r"\r([0-9.]+) MiB of 16.0 MiB written, 0 of 1 files put", shown)]
    checks.check("is told by its bytes", any(0 < size < 16 for size in told), True)


def tells_a_check(checks, folder):
    """How far a check is, by a clock in which each read takes a second."""
    words = ["check", "--bsr", BOOTSTRAP, "--volumes", VOLUMES, "--checksums"]
    found = subprocess.run([checks.program, *words], capture_output=True, text=True)
    settings = {"LD_PRELOAD": compiled(folder, "passing_moments"), "MOMENTS_READ_SECONDS": "1"}
    status, shown, printed = play(checks.program, words, [], folder, **settings)
    checks.check("a check at a terminal", (status, printed), (found.returncode, found.stdout))
    # The line is taken away before the findings of the first reading, of which there are none, and at the end.
    pattern = r"((\r0\.0 MiB (of 0\.0 MiB read|read, and 0\.0 MiB again)(, 0:\d\d left)?\x1b\[K)+\r\x1b\[K){2}"
    checks.check("is told how far it is", bool(re.fullmatch(pattern, "\r".join(shown))), True)
    shown, (first, *others) = play(checks.program, words, [], folder, prints=True, **settings)[1], printed.splitlines()
    checks.check("and takes the line away", shown[-1 - len(others):], [f"\x1b[K{first}", *others])


def leaves_unsaid(checks, folder):
    """Restores without `--newest` and `--complete`: a later job of a storage daemon that began to count anew, and a volume that was cut."""
    volumes, bsr = os.path.join(folder, "anew"), os.path.join(folder, "anew.bsr")
    os.mkdir(volumes)
    for name, session in (("A", (5, 100)), ("B", (1, 200))):
        with open(os.path.join(volumes, name), "wb") as volume:
            volume.write(b"".join(small_blocks(struct.pack(">II", *session), b"/a")))
    with open(bsr, "w") as text:
        text.write("Volume=A\nVolSessionId=5\nVolSessionTime=100\nFileIndex=1-3\n")
        text.write("Volume=B\nVolSessionId=1\nVolSessionTime=200\nFileIndex=1\n")
    extract = ["extract", "--bsr", bsr, "--volumes", volumes]
    absent = "indexes that the bootstrap asks for and that gave no outcome: 2. Next: `--complete` names them."
    older = "older copies among the files: 1, paths at which one is put last: 1. Next: `check` names them, `--newest` leaves them out."
    status, shown, printed = play(checks.program, extract, [], folder)
    checks.check("what is left unsaid", (status, shown, files_in(printed)), (0, [absent, older, NOWHERE], 2))
    status, shown, printed = play(checks.program, [*extract, "--newest"], [], folder)
    checks.check("with --newest", (status, shown, files_in(printed)), (0, [absent, NOWHERE], 2))
    status, shown, printed = play(checks.program, [*extract, "--complete"], [], folder)
    checks.check("with --complete", (status, shown, files_in(printed)), (1, ["missing 5 100 2-3 A", older, NOWHERE], 2))
    status, shown, printed = play(checks.program, [*extract, "--complete", "--newest"], [], folder)
    checks.check("with both", (status, shown, files_in(printed)), (1, ["missing 5 100 2-3 A", NOWHERE], 2))
    for quiet, told in (([], [absent, count(1, 2, older=1)]), (["--quiet"], [absent])):
        into = os.path.join(folder, f"newest{len(quiet)}")
        os.mkdir(into)
        status, shown, printed = play(checks.program, [*extract, "--newest", "--into", into, *quiet], [], folder)
        checks.check(f"the newest into a folder {quiet}", (status, shown, files_in(printed), os.listdir(into)), (0, told, 2, ["a"]))


def looks(checks, folder):
    """Checks of bootstraps: findings go to standard output, and a line that is refused is explained."""
    bsr = os.path.join(folder, "x.bsr")
    with open(BOOTSTRAP) as text, open(bsr, "w") as more:
        more.write("Job=1\n" + text.read())
    status, shown, printed = play(checks.program, ["check", "--bsr", bsr, "--volumes", VOLUMES], [], folder)
    checks.check("a bootstrap with a refused line", (status, shown, printed), (1, told(32, "refused 32 line 1"), ""))
    checked = ["check", "--bsr", BOOTSTRAP, "--volumes", os.path.join(folder, "nothing")]
    status, shown, printed = play(checks.program, checked, [], folder)
    checks.check("findings", (status, shown, printed[:21]), (1, [], "volume 14 Vol-0001 0\n"))


# A name in UTF-8, one with a blank, a character that turns the direction of a line, and a byte that is no UTF-8.
NAMES = {6: "4dc3a4727a", 7: "612062", 8: "e280ae", 9: "ff"}


def names(checks, folder):
    """Names that are no ASCII: a terminal shows those that are UTF-8 as they are, and takes them so and escaped. A pipe gets them escaped."""
    db, place = os.path.join(folder, "names.db"), os.path.join(folder, "names")
    os.mkdir(place)
    rows = [f"INSERT INTO File SELECT {it} + 10, {it}, 1, 1, x'{name}', LStat, MD5 FROM File WHERE FileId = 1;" for it, name in NAMES.items()]
    more = "UPDATE JobMedia SET LastIndex = 9 WHERE JobId = 1;" + "".join(rows)
    subprocess.run(["sqlite3", db], input=Path(ORDER_SQL).read_text() + more, text=True, check=True)
    lines = ["cd /tmp/peerlab/src/sub", "ls", r"mark M\xc3\xa4rz", "unmark März", r"mark a\x20b", r"mark \xe2\x80\xae", "find M*", "ls", "dir", "quit"]
    listed = [" März", r" a\x20b", " f1", " f2", " f3", r" \xe2\x80\xae", r" \xff"]
    marked = [" März", r"*a\x20b", " f1", " f2", " f3", r"*\xe2\x80\xae", r" \xff"]
    answers = ["cwd is: /tmp/peerlab/src/sub/", *listed, "1 marked", "1 unmarked", "1 marked", "1 marked", " /tmp/peerlab/src/sub/März", *marked]
    status, shown, _ = play(checks.program, console_words(db, place), typed(*lines), folder, prints=True)
    shown = [line.removeprefix(PROMPT) for line in shown]
    start = shown.index(answers[0])
    checks.check("names at a terminal", (status, shown[start : start + len(answers)]), (0, answers))
    checks.check("names of `dir`", [line.split(" ")[-1] for line in shown[start + len(answers) :]][:7], [line[1:] for line in listed])
    plain = [line for line in lines if line != "dir" and "\\" not in line]
    found = subprocess.run([checks.program, *console_words(db, place)], input="".join(f"{line}\n" for line in plain), capture_output=True, text=True)
    escaped_names = [line.replace("ä", r"\xc3\xa4") for line in listed]
    expected = [answers[0], *escaped_names, "0 unmarked", r" /tmp/peerlab/src/sub/M\xc3\xa4rz", *escaped_names]
    checks.check("names in a pipe", (found.returncode, found.stdout.splitlines()), (0, expected))


def streams(checks, folder):
    """Streams to a terminal, which are refused before a line is read."""
    db = os.path.join(folder, "streamed.db")
    with open(ORDER_SQL) as text:
        subprocess.run(["sqlite3", db], stdin=text, check=True)
    told_of = [*told(81), "  standard output is a terminal. Next: Name a file, or send the stream to another program."]
    for words in (["extract", "--bsr", BOOTSTRAP, "--volumes", VOLUMES], console_words(db, folder)[:-2]):
        status, shown, _ = play(checks.program, [*words, "--tar", "-"], [], folder, prints=True)
        checks.check(f"a stream of {words[0]} to a terminal", (status, shown), (1, told_of))


def lists(checks, folder):
    """Lists of jobs, with the heads of their columns if they go to a terminal."""
    db = os.path.join(folder, "listed.db")
    with open(ORDER_SQL) as text:
        subprocess.run(["sqlite3", db], stdin=text, check=True)
    heads = "MARK JOBID LEVEL STATUS DATE TIME CLIENT FILESET FILES BYTES VOLUMES"
    for options, head in (([], heads), (["--local"], heads.replace("TIME", "TIME LOCAL-DATE LOCAL-TIME"))):
        words = ["jobs", "--db", db, *options]
        printed = subprocess.run([checks.program, *words], capture_output=True, text=True).stdout.splitlines()
        checks.check(f"three jobs {options}", len(printed), 3)
        checks.check("as many words as heads", {len(line.split(" ")) for line in printed}, {len(head.split(" "))})
        checks.check("at a terminal", play(checks.program, words, [], folder, prints=True)[:2], (0, [head, *printed]))
        checks.check("into a file", play(checks.program, words, [], folder)[:2], (0, []))
    none = [*words, "--client", "mars-fd"]
    checks.check("none at a terminal", play(checks.program, none, [], folder, prints=True)[:2], (0, [NO_JOB]))


# Changes of a catalogue, and what is wrong with its rows then.
WRONG = (
    ("UPDATE Job SET Level = 'FF' WHERE JobId = 2", "row 2 of Job, in order of JobId: Level cannot be read"),
    ("UPDATE Client SET Name = 'a/b'", "row 1 of Job, in order of JobId: Name of its Client cannot be read"),
    ("UPDATE JobMedia SET VolIndex = -1 WHERE JobId = 3", "row 3 of JobMedia, in order of JobMediaId: VolIndex cannot be read"),
    ("UPDATE File SET LStat = x'ff' WHERE FileId = 6", "row 6 of File, in order of FileId: LStat cannot be read"),
    ("UPDATE File SET MD5 = 'CA' WHERE FileId = 7", "row 7 of File, in order of FileId: MD5 cannot be read"),
    ("UPDATE Path SET Path = CAST('tmp/' AS BLOB) WHERE PathId = 2", "row 5 of File, in order of FileId: Path of its Path with Filename cannot be read"),
    ("UPDATE File SET FileId = 9, MD5 = '1' WHERE FileId = 1", "row 7 of File, in order of FileId: MD5 cannot be read"),
    ("UPDATE JobMedia SET FirstIndex = 6 WHERE JobId = 1", "rows of job 1 contradict each other"),
)


def says_rows(checks, folder):
    """Catalogues of which a row is wrong: which one is told at a terminal alone."""
    for at, (change, wrong) in enumerate(WRONG):
        db, into = os.path.join(folder, f"wrong{at}.db"), os.path.join(folder, f"wrong{at}")
        os.mkdir(into)
        with open(ORDER_SQL) as text:
            subprocess.run(["sqlite3", db], input=f"{text.read()}\n{change};\n", text=True, check=True)
        wanted = (1, [*told(47), wrong], "")
        jobs = ["jobs", "--db", db, "--verify-catalogue"]
        checks.check(f"jobs: {change}", play(checks.program, jobs, [], folder), wanted)
        checks.check(f"console: {change}", play(checks.program, console_words(db, into), [], folder), wanted)
        log = os.path.join(folder, f"wrong{at}.log")
        quiet = subprocess.run([checks.program, *console_words(db, into), "--log", log], stdin=subprocess.DEVNULL, capture_output=True, text=True)
        checks.check(f"off a terminal: {change}", (quiet.returncode, quiet.stderr, quiet.stdout), (1, "refused 47\n", ""))
        with open(log) as lines:
            checks.check(f"and in the log: {change}", wrong in lines.read(), True)
        served = play(checks.program, ["serve", "--db", db, "--volumes", into], [], folder)
        checks.check(f"serve: {change}", served, wanted)


def waits(checks, folder):
    """The program without a command."""
    status, shown, printed = play(checks.program, [], [(f"{AWAITED}\n", "\x04")], folder)
    checks.check("no command", (status, shown, printed), (0, [AWAITED], ""))


def main():
    parser = argparse.ArgumentParser(description="Plays an operator at a terminal who makes mistakes.")
    parser.add_argument("--program", default=PROGRAM, help="the program (default: %(default)s)")
    options = parser.parse_args()
    checks = Checks(os.path.abspath(options.program))
    folder = tempfile.mkdtemp(prefix="brestore-terminal-")
    try:
        for plays in (restores, asks_again, extracts, tells, tells_a_session, tells_bytes, tells_a_check, leaves_unsaid, looks, names, streams, lists, says_rows, waits):
            plays(checks, folder)
    finally:
        shutil.rmtree(folder)
    return 1 if checks.failed else 0


if __name__ == "__main__":
    sys.exit(main())
