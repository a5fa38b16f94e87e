#!/usr/bin/env python3
"""Has Bacula's own daemons make backups in a folder of its own, imports their catalogue, and compares what `brestore console` restores
with what Bacula restores.

    acceptance/beside_bacula.py                    needs root, bacula-director, -sd, -fd and -console, bacula-director-pgsql with
                                                   PostgreSQL, bacula-director-mysql with MariaDB, or bacula-director-sqlite3
    acceptance/beside_bacula.py --program FILE     another program
    acceptance/beside_bacula.py --keep DIR         keeps the folder of the run, which is made
    acceptance/beside_bacula.py --sample DIR       makes a small run, and writes its catalogue, volumes and restored trees there

Two clients have trees of files, with hard and symbolic links, holes, odd names, modes, owners and times. A Full, a Differential and two
Incrementals save them, with changes, deletions and renamed files between them; venus has Accurate and sparse data, mars has neither. The
jobs of both run at the same time and over several volumes, and one more job is cancelled. For the moment after each of the four, all that
`mark *` restores as a tar stream is compared with Bacula's own `restore`: path, kind, size, digest, mode, owner, link and time.

The daemons run as children of this script, on ports of 127.0.0.1, and are ended by their process ids. Without the packages the script says
so, and its status is 0. The status is 1 if something is not as expected.
"""

import argparse
import contextlib
import glob
import hashlib
import lzma
import os
import random
import shutil
import signal
import socket
import stat
import subprocess
import sys
import tempfile
import time
from concurrent.futures import ThreadPoolExecutor

# Nothing is left beside the script.
sys.dont_write_bytecode = True
sys.path.insert(0, os.path.join(os.path.dirname(os.path.dirname(os.path.abspath(__file__))), "tools"))
from bacula_rows import MariaDb, Postgres, Sqlite, as_sqlite
from common import PROGRAM, ROOT, Checks
from sampled import is_same, lines_of, restore

SCRIPT = os.path.join(ROOT, "catalogue", "import.sh")
# The statements that make the Director's tables, of the package that is installed: only one of them can be.
TABLES = "/usr/share/dbconfig-common/data/bacula-director-{0}/install/{0}"
# Each client: its file set, whether it has Accurate, and the options of the file set.
CLIENTS = {"mars": ("Home", "no", "signature = MD5"), "venus": ("Root", "yes", "signature = MD5; sparse = yes")}
LEVELS = ["Full", "Differential", "Incremental", "Incremental"]
# The Director's zone is not UTC.
ENVIRONMENT = {**os.environ, "TZ": "Europe/Berlin", "LC_ALL": "C"}
SECONDS = 120

DIRECTOR = """
Director {{ Name = test-dir; DIRport = {dir}; DirAddress = 127.0.0.1; QueryFile = "{top}/query.sql"; WorkingDirectory = "{top}/work"
  PidDirectory = "{top}/work"; Maximum Concurrent Jobs = 10; Password = "p"; Messages = Standard; }}
Catalog {{ Name = Own; dbname = bacula; {place} dbpassword = ""; }}
Storage {{ Name = Disk; Address = 127.0.0.1; SDPort = {sd}; Password = "p"; Device = Folder; Media Type = File; Maximum Concurrent Jobs = 10; }}
Pool {{ Name = Default; Pool Type = Backup; Recycle = no; AutoPrune = no; Label Format = "Vol-"; Maximum Volume Bytes = {volume}; }}
Messages {{ Name = Standard; append = "{top}/log" = all; }}
Job {{ Name = Restore; Type = Restore; Client = mars-fd; FileSet = Home; Storage = Disk; Pool = Default; Messages = Standard; }}
"""
# A backup is slow enough to be held where it should be, also on a machine with much else to do.
CLIENT = """
Client {{ Name = {name}-fd; Address = 127.0.0.1; FDPort = {port}; Catalog = Own; Password = "p"; AutoPrune = no; }}
FileSet {{ Name = {fileset}; Include {{ Options {{ {options}; }}; File = "{top}/{name}"; }} }}
Job {{ Name = {name}; Type = Backup; Client = {name}-fd; FileSet = {fileset}; Storage = Disk; Pool = Default; Messages = Standard
  Accurate = {accurate}; Maximum Concurrent Jobs = 5; Maximum Bandwidth = 2 mb/s; }}
"""
STORAGE = """
Storage {{ Name = test-sd; SDPort = {sd}; SDAddress = 127.0.0.1; WorkingDirectory = "{top}/work"; Pid Directory = "{top}/work"
  Maximum Concurrent Jobs = 10; }}
Director {{ Name = test-dir; Password = "p"; }}
Device {{ Name = Folder; Media Type = File; Archive Device = "{top}/volumes"; LabelMedia = yes; Random Access = yes; AutomaticMount = yes
  RemovableMedia = no; AlwaysOpen = no; Maximum Concurrent Jobs = 10; }}
Messages {{ Name = Standard; director = test-dir = all; }}
"""
FILE_DAEMON = """
FileDaemon {{ Name = {name}-fd; FDport = {port}; FDAddress = 127.0.0.1; WorkingDirectory = "{top}/work-{name}"
  Pid Directory = "{top}/work-{name}"; Maximum Concurrent Jobs = 10; }}
Director {{ Name = test-dir; Password = "p"; }}
Messages {{ Name = Standard; director = test-dir = all, !skipped, !restored; }}
"""
CONSOLE = 'Director {{ Name = test-dir; DIRport = {dir}; address = 127.0.0.1; Password = "p"; }}\n'


def tool(name):
    """Returns the path of a program of the system, or None."""
    return shutil.which(name, path=os.environ["PATH"] + ":/usr/sbin")


def missing():
    """Returns what is missing for this script, as words."""
    lacking = [it for it in ("bacula-dir", "bacula-sd", "bacula-fd", "bconsole", "tar", "sqlite3") if not tool(it)]
    lacking += [] if database() else ["bacula-director-pgsql, -mysql or -sqlite3"]
    lacking += ["PostgreSQL"] if database() == "pgsql" and not Postgres.program() else []
    lacking += ["MariaDB"] if database() == "mysql" and not MariaDb.program() else []
    return lacking + ([] if os.geteuid() == 0 else ["root"])


def database():
    """Returns the database of the Director that is installed, or None."""
    return next((it for it in ("pgsql", "mysql", "sqlite3") if os.path.exists(TABLES.format(it))), None)


class DirectorPostgres(Postgres):
    """A catalogue in PostgreSQL. `place` says in the Director's words where it is."""

    def __init__(self, top):
        super().__init__()
        self.place = f'DB Address = "{self.folder}"; dbuser = bacula;'


class DirectorMariaDb(MariaDb):
    """A catalogue in MariaDB."""

    def __init__(self, top):
        super().__init__()
        self.place = f'DB Socket = "{self.folder}/socket"; dbuser = root;'
        self.run("CREATE DATABASE bacula;")
        self.client.append("bacula")


class DirectorSqlite(Sqlite):
    """A catalogue in the file that the Director keeps in its folder."""

    place = "dbuser = bacula;"

    def __init__(self, top):
        super().__init__(top)
        self.file = os.path.join(top, "work", "bacula.db")
        self.words = ["--sqlite", self.file]


def free_port():
    """Returns a port of this machine that nothing listens on."""
    with socket.socket() as one:
        one.bind(("127.0.0.1", 0))
        return one.getsockname()[1]


class Site:
    """A Director, a storage daemon and two file daemons, with their catalogue."""

    def __init__(self, top, stops, is_small):
        self.top, self.stops, self.is_small, self.children = top, stops, is_small, {}
        self.volume = 1_000_000 if is_small else 3_000_000
        self.ports = {"dir": free_port(), "sd": free_port(), **{name: free_port() for name in CLIENTS}}
        for name in ("work", "volumes", *CLIENTS, *(f"work-{it}" for it in CLIENTS)):
            os.mkdir(os.path.join(top, name))
        self.database = {"pgsql": DirectorPostgres, "mysql": DirectorMariaDb, "sqlite3": DirectorSqlite}[database()](top)
        stops.callback(self.database.stop)
        with open(TABLES.format(database())) as text:
            self.database.run(text.read())
        self.write_configuration()
        self.start("bacula-sd", "sd.conf", self.ports["sd"])
        for name in CLIENTS:
            self.start("bacula-fd", f"{name}.conf", self.ports[name])
        self.start("bacula-dir", "dir.conf", self.ports["dir"])

    def write_configuration(self):
        """Writes a file for each daemon, and one for the console."""
        values = {"top": self.top, "place": self.database.place, "volume": self.volume, **self.ports}
        director = DIRECTOR.format(**values)
        for name, (fileset, accurate, options) in CLIENTS.items():
            more = {"name": name, "port": self.ports[name], "fileset": fileset, "accurate": accurate, "options": options}
            director += CLIENT.format(**values, **more)
            self.write(f"{name}.conf", FILE_DAEMON.format(**values, **more))
        self.write("dir.conf", director)
        self.write("sd.conf", STORAGE.format(**values))
        self.write("console.conf", CONSOLE.format(**values))
        self.write("query.sql", "")

    def write(self, name, text):
        with open(os.path.join(self.top, name), "w") as file:
            file.write(text)

    def start(self, program, configuration, port):
        """Starts a daemon that stays in the foreground, and waits until it listens."""
        with open(os.path.join(self.top, f"{configuration}.log"), "wb") as log:
            words = [tool(program), "-f", "-c", os.path.join(self.top, configuration)]
            child = subprocess.Popen(words, stdout=log, stderr=log, env=ENVIRONMENT, cwd=self.top)
        self.children[configuration] = child
        self.stops.callback(end, child)
        for _ in range(10 * SECONDS):
            with contextlib.suppress(OSError), socket.create_connection(("127.0.0.1", port), 1):
                return
            if child.poll() is not None:
                break
            time.sleep(0.1)
        sys.exit(f"{program} does not listen: see {self.top}/{configuration}.log")

    def console(self, *lines):
        """Runs lines of Bacula's console. Returns what it prints."""
        words = [tool("bconsole"), "-n", "-c", os.path.join(self.top, "console.conf")]
        text = "".join(f"{line}\n" for line in (*lines, "quit"))
        ran = subprocess.run(words, input=text.encode(), capture_output=True, env=ENVIRONMENT, timeout=SECONDS)
        return ran.stdout.decode(errors="replace")

    def written(self):
        """Returns how many bytes the volumes have."""
        return sum(os.path.getsize(it) for it in glob.glob(os.path.join(self.top, "volumes", "*")))

    @contextlib.contextmanager
    def held(self, name, share):
        """Holds the file daemon of a client once it has saved this share of a volume more."""
        wanted = self.written() + share * self.volume
        yield
        for _ in range(1000 * SECONDS):
            if self.written() > wanted:
                break
            time.sleep(0.001)
        self.children[f"{name}.conf"].send_signal(signal.SIGSTOP)

    def go_on(self, name):
        """Lets the file daemon of a client go on."""
        self.children[f"{name}.conf"].send_signal(signal.SIGCONT)

    def back_up(self, level):
        """Runs the jobs of both clients, and waits for them. The first ones take turns: while one writes, the other one is held. Returns the
        moment after them, in UTC."""
        if level == "Full":
            with self.held("mars", 0.1):
                self.console("run job=mars level=Full yes")
            with self.held("venus", 0):
                self.console("run job=venus level=Full yes")
            with self.held("mars", 0.1):
                self.go_on("mars")
            self.go_on("venus")
            time.sleep(5)
            self.go_on("mars")
            self.console("wait")
        else:
            self.console(*(f"run job={name} level={level} yes" for name in CLIENTS), "wait")
        time.sleep(2)
        return int(time.time()) - 1

    def cancel(self):
        """Cancels a Full of mars once it has filled a volume."""
        with self.held("mars", 1.2):
            self.console("run job=mars level=Full yes")
        with ThreadPoolExecutor(1) as beside:
            cancelling = beside.submit(self.console, "cancel all yes", "wait")
            time.sleep(2)
            self.go_on("mars")
            cancelling.result()

    def restore(self, name, moment, into):
        """Has Bacula restore all that a client had at a moment."""
        text = time.strftime("%Y-%m-%d %H:%M:%S", in_berlin(moment))
        words = f'client={name}-fd fileset={CLIENTS[name][0]} where="{into}" before="{text}"'
        return self.console(f"restore {words} select all done yes", "wait")


def in_berlin(moment):
    """Returns a moment on the Director's clock."""
    kept = os.environ.get("TZ")
    os.environ["TZ"] = ENVIRONMENT["TZ"]
    time.tzset()
    local = time.localtime(moment)
    os.environ.pop("TZ")
    if kept is not None:
        os.environ["TZ"] = kept
    time.tzset()
    return local


def end(child):
    """Ends a daemon that this process started."""
    child.terminate()
    try:
        child.wait(20)
    except subprocess.TimeoutExpired:
        child.kill()
        child.wait()


def put(path, data, mode=0o644, moment=None, owner=(0, 0)):
    """Writes a file with these attributes."""
    os.makedirs(os.path.dirname(path), exist_ok=True)
    with open(path, "wb") as file:
        file.write(data)
    os.chown(path, *owner)
    os.chmod(path, mode)
    if moment is not None:
        os.utime(path, (moment, moment))


def plant(top, draw, share):
    """Makes the tree of a client."""
    for number in range(40):
        put(b"%s/many/%02d/file" % (top, number), draw.randbytes(draw.randrange(200_000) // share), owner=(number, 2 * number))
    put(top + b"/empty", b"")
    put(top + b"/setuid", b"#!/bin/sh\n", 0o4755, owner=(1234, 4294967294))
    put(top + b"/nobody reads", b"x", 0, moment=1)
    put(top + b"/before 1970", b"y", moment=-100)
    put(top + b"/large", draw.randbytes(4_000_000 // share))
    names = [b" ", b"two  blanks ", b"a'b\"c", b"back\\slash", b"new\nline", b"\xff\xfe\x01", b"-rf", "\u00e4\u20ac".encode(), b"n" * 255, b"*?[", b"@at", b"..."]
    for name in names:
        put(top + b"/odd/" + name, name)
        put(top + b"/odd folders/" + name + b"/in it", name)
    os.makedirs(top + b"/no files/at all")
    os.chmod(top + b"/no files", 0o1777)
    os.symlink(b"large", top + b"/link")
    os.symlink(b"/nowhere/" + b"z" * 200, top + b"/dangling")
    os.mkfifo(top + b"/pipe", 0o600)
    os.mknod(top + b"/null", 0o666 | stat.S_IFCHR, os.makedev(1, 3))
    put(top + b"/hard/first", b"one file under three names")
    os.link(top + b"/hard/first", top + b"/hard/second")
    os.link(top + b"/hard/first", top + b"/third")
    with open(top + b"/holes", "wb") as file:
        file.write(b"front")
        file.seek(3_000_000)
        file.write(b"middle")
        file.truncate(5_000_000)


def change(top, draw, stage, share, is_accurate):
    """Changes, adds, removes and renames files before a job. Only with Accurate a folder can take the place of a link, and a hard link go."""
    for number in range(stage, 40, 7):
        put(b"%s/many/%02d/file" % (top, number), draw.randbytes(draw.randrange(90_000) // share))
    put(b"%s/added/%d" % (top, stage), draw.randbytes(1000))
    shutil.rmtree(b"%s/many/%02d" % (top, 4 * stage + 2))
    os.remove(b"%s/many/%02d/file" % (top, 4 * stage + 3))
    os.rename(b"%s/many/%02d" % (top, 4 * stage + 4), b"%s/renamed %d" % (top, stage))
    os.rename(b"%s/many/%02d/file" % (top, 4 * stage + 5), b"%s/moved %d" % (top, stage))
    if stage == 1:
        os.remove(top + b"/odd/new\nline")
    if stage == 1 and is_accurate:
        os.remove(top + b"/hard/second")
        os.remove(top + b"/link")
        os.mkdir(top + b"/link")
        put(top + b"/link/in a folder", b"where a link was")
    if stage == 2:
        os.remove(top + b"/large")
        os.chmod(top + b"/setuid", 0o700)
        put(top + b"/odd/new\nline", b"back again")
    if stage == 3:
        os.link(top + b"/third", top + b"/fourth")
        os.remove(top + b"/holes")
        put(top + b"/empty", b"no longer")


def kind_of(path, its):
    """Returns what is compared of a path: kind, mode, owner, time, and of a file, link or device what is in it."""
    seen = (stat.S_IFMT(its.st_mode), stat.S_IMODE(its.st_mode), its.st_uid, its.st_gid)
    if stat.S_ISLNK(its.st_mode):
        return (*seen[:1], *seen[2:], os.readlink(path))
    if stat.S_ISREG(its.st_mode):
        with open(path, "rb") as file:
            return (*seen, int(its.st_mtime // 1), its.st_size, hashlib.md5(file.read()).hexdigest(), its.st_nlink)
    return (*seen, int(its.st_mtime // 1), its.st_rdev if stat.S_ISCHR(its.st_mode) else 0)


def tree_of(top):
    """Returns for each path below a folder what is compared of it."""
    found = {}
    for at, folders, files in os.walk(top):
        for name in folders + files:
            path = os.path.join(at, name)
            found[os.path.relpath(path, top)] = kind_of(path, os.lstat(path))
    return found


def without_late_times(tree, moment):
    """Returns a tree with `-` as the time of each folder into which Bacula put a file after it had set the time: that of the restore."""
    return {path: (*seen[:4], "-", *seen[5:]) if seen[0] == stat.S_IFDIR and seen[4] > moment else seen for path, seen in tree.items()}


def restored(checks, db, site, name, moment, into):
    """Restores all by `console --tar` and GNU tar. Returns the status of both, and what they print to standard error."""
    os.mkdir(into)
    file = f"{into}.tar"
    found = restore(checks.program, db, os.path.join(site.top, "volumes"), f"{name}-fd", CLIENTS[name][0], moment, file)
    tar = ["tar", "--extract", "--file", file, "--preserve-permissions", "--numeric-owner", "--delay-directory-restore", "--warning=no-timestamp", "--directory", into]
    ran = subprocess.run(tar, capture_output=True, text=True, errors="replace")
    return *found, ran.returncode, ran.stderr


def compare(checks, site, db, moments):
    """Compares the restores of both for each moment and client. Returns the trees that Bacula restored, as sections of lines."""
    sections = []
    for stage, moment in enumerate(moments):
        for name in CLIENTS:
            theirs, ours = (os.path.join(site.top, f"{it}-{name}-{stage}") for it in ("bacula", "brestore"))
            said = site.restore(name, moment, theirs)
            title, below = f"{name} after job {stage + 1} ({LEVELS[stage]})", os.path.join(site.top, name)
            checks.check(f"{title}: console", restored(checks, db, site, name, moment, ours), (0, "", 0, ""))
            wanted, found = (tree_of(f"{it}{below}".encode()) for it in (theirs, ours))
            wanted = without_late_times(wanted, moments[-1])
            checks.check(f"{title}: paths", (sorted(found.keys() ^ wanted.keys()), len(wanted) > 100), ([], True))
            differ = [(it, found[it], wanted[it]) for it in sorted(wanted.keys() & found.keys()) if not is_same(found[it], wanted[it])]
            checks.check(f"{title}: what is at {len(wanted)} paths", differ, [])
            sections.append("".join(f"{line}\n" for line in [f"# {name}-fd {CLIENTS[name][0]} {moment} {below}", *lines_of(wanted)]))
            if not wanted:
                print(said)
    return sections


def backed_up(site):
    """Has the clients saved four times, and changes their files between. Returns the moment after each job."""
    draw, moments, share = random.Random(1), [], 400 if site.is_small else 1
    for stage, level in enumerate(LEVELS):
        for name in CLIENTS:
            top = os.path.join(site.top, name).encode()
            if stage:
                change(top, draw, stage, share, CLIENTS[name][1] == "yes")
            else:
                plant(top, draw, share)
        time.sleep(2)
        moments.append(site.back_up(level))
        if stage == 1:
            site.cancel()
    return moments


def write_sample(folder, site, catalogue, lines, sections):
    """Writes the catalogue, the volumes and the restored trees of a run."""
    os.makedirs(os.path.join(folder, "volumes"))
    texts = {"bacula.sql.xz": catalogue.encode(), "restored.xz": "".join(sections).encode()}
    for volume in os.listdir(os.path.join(site.top, "volumes")):
        with open(os.path.join(site.top, "volumes", volume), "rb") as file:
            texts[f"volumes/{volume}.xz"] = file.read()
    for name, data in texts.items():
        with lzma.open(os.path.join(folder, name), "wb", preset=9) as file:
            file.write(data)
    with open(os.path.join(folder, "lines"), "w") as file:
        file.write(lines)


def bytes_of(span):
    """Returns the addresses of the first and last byte of a row of JobMedia."""
    return (span[5] << 32) + span[7], (span[6] << 32) + span[8]


def is_mixed(spans):
    """Returns whether blocks of the first two jobs lie between each other on a volume."""
    first, second = ([(it[2], *bytes_of(it)) for it in spans if it[1] == number] for number in (1, 2))
    return any(one[0] == other[0] and one[1] < other[2] and other[1] < one[2] for one in first for other in second)


def run(checks, top, sample):
    """Makes the backups, imports their catalogue, and compares."""
    with contextlib.ExitStack() as stops:
        site = Site(top, stops, sample is not None)
        moments = backed_up(site)
        db = os.path.join(top, "jobs.db")
        words = [SCRIPT, db, "--program", checks.program, *site.database.words]
        ran = subprocess.run(words, capture_output=True, text=True, env=ENVIRONMENT)
        print(ran.stdout, end="")
        checks.check("the import", (ran.returncode, ran.stderr), (0, ""))
        # Before the restores, which are jobs of their own.
        rows = site.database.rows()
        text, volumes = as_sqlite(rows), {row[2] for row in rows["JobMedia"] if row[1] == 1}
        checks.check("jobs whose blocks are mixed, and that span volumes", (is_mixed(rows["JobMedia"]), len(volumes) > 1), (True, True))
        checks.check("a cancelled job", ran.stdout.count("unfinished "), 1)
        sections = compare(checks, site, db, moments)
        if sample:
            write_sample(sample, site, text, ran.stdout, sections)


def main():
    parser = argparse.ArgumentParser(description="Compares restores with Bacula's own.")
    parser.add_argument("--program", default=PROGRAM, help="the program (default: %(default)s)")
    parser.add_argument("--keep", metavar="DIR", help="a new folder for the run, which stays")
    parser.add_argument("--sample", metavar="DIR", help="a new folder for the sample of a small run")
    options = parser.parse_args()
    lacking = missing()
    if lacking:
        print(f"left out: there is no {', no '.join(lacking)}")
        return 0
    checks = Checks(os.path.abspath(options.program))
    if options.keep:
        os.mkdir(options.keep)
        run(checks, os.path.abspath(options.keep), options.sample)
    else:
        with tempfile.TemporaryDirectory(prefix="bacula") as top:
            run(checks, top, options.sample)
    return 1 if checks.failed else 0


if __name__ == "__main__":
    sys.exit(main())
