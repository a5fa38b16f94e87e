#!/usr/bin/env python3
"""Imports small catalogues in Bacula's own tables by catalogue/import.sh. Compares the lines that it prints, and all rows of the catalogue
that it makes, with what was worked out by hand from docs/formats.md.

    acceptance/imported.py                    needs sqlite3, and the program in crates/brestore/out
    acceptance/imported.py --program FILE     another program
    acceptance/imported.py --sqlite           without PostgreSQL and MariaDB, which are used if they are installed
    acceptance/imported.py NAME ..            the cases with these names alone

Each case is imported from tables as before Bacula 11 and from newer ones, of each database: all must give the same. The status is 1 if
something is not as expected.
"""

import argparse
import contextlib
import os
import resource
import shutil
import sqlite3
import subprocess
import sys
import tempfile
import threading
import time

# Nothing is left beside the script.
sys.dont_write_bytecode = True
sys.path.insert(0, os.path.join(os.path.dirname(os.path.dirname(os.path.abspath(__file__))), "tools"))
from bacula_rows import MariaDb, Postgres, Sqlite
from chosen_files import both_ways
from common import PROGRAM, ROOT, Checks
from import_cases import CASES, FILE, HELLO, base, job, kept

SCRIPT = os.path.join(ROOT, "catalogue", "import.sh")


def rows_of(db):
    """Returns all rows of a catalogue of brestore."""
    tables = "Version Client FileSet Media Path Job JobMedia File".split()
    with contextlib.closing(sqlite3.connect(f"file:{db}?mode=ro", uri=True)) as connection:
        return {table: connection.execute(f"SELECT * FROM {table} ORDER BY 1").fetchall() for table in tables}


def run_import(checks, db, *words, **environment):
    """Imports into a new file. Returns the status and both outputs."""
    by_default = {name: value for name, value in os.environ.items() if not name.startswith("PG")}
    ran = subprocess.run([SCRIPT, db, "--program", checks.program, *words], capture_output=True, text=True, env={**by_default, "TZ": "UTC", **environment})
    return ran.returncode, ran.stdout, ran.stderr


def differences(found, wanted):
    """Returns what differs between two dictionaries of rows."""
    return {table: (found[table], wanted[table]) for table in wanted if found[table] != wanted[table]}


def imports(checks, name, source, is_old, folder):
    """Imports a case, and compares what is printed and made."""
    rows, wanted, db = base(), kept(), os.path.join(folder, "new.db")
    given = CASES[name](rows, wanted)
    lines, more = given if isinstance(given, tuple) else (given, {})
    source.fill(rows, is_old)
    text = "".join(f"{line}\n" for line in lines) + f"imported {len(wanted['Job'])} {len(wanted['File'])}\n"
    ran = run_import(checks, db, *source.words, *more.get("words", ()), TZ=more.get("TZ", "UTC"))
    title = f"{name.replace('_', ' ')}, {source.name}, {'old' if is_old else 'new'} tables"
    checks.check(title, (ran, differences(rows_of(db), wanted) if ran[0] == 0 else None), ((0, text, ""), {}))
    checks.check("leaves nothing else", [it for it in os.listdir(folder) if it.startswith("new.db")], ["new.db"] if ran[0] == 0 else [])
    if ran[0] == 0:
        if isinstance(source, Sqlite) and not is_old:
            both_ways(checks, title, db)
        os.remove(db)


def refuses(checks, source, folder):
    """Tries imports that fail, after which there is no new catalogue, and `--strict`."""
    db, other = os.path.join(folder, "new.db"), os.path.join(folder, "other.db")
    source.fill(base(), True)
    status, text, _ = run_import(checks, db, *source.words, "--strict")
    checks.check("a strict import of all", (status, text), (0, "imported 2 4\n"))
    before = rows_of(db)
    checks.check("a catalogue that is there", run_import(checks, db, *source.words)[:2], (3, ""))
    checks.check("stays", rows_of(db), before)
    os.remove(db)
    for end in ("wal", "journal"):
        with open(f"{db}-{end}", "w") as file:
            file.write("of another catalogue")
        found = run_import(checks, db, *source.words)
        checks.check(f"a {end} that is there", (found, os.path.exists(db)), ((3, "", f"import.sh: {db}-{end} is there already\n"), False))
        os.remove(file.name)
    rows = base()
    rows["Job"].append(job(3, b"D"))
    source.fill(rows, False)
    checks.check("a strict import of not all", run_import(checks, db, *source.words, "--strict"), (1, "unwritten 3 0\nimported 2 4\n", ""))
    checks.check("is there", rows_of(db), before)
    os.remove(db)
    with open(other, "w") as file:
        file.write("no database, and longer than the header of one of SQLite's. " * 3)
    failing = [
        ("another client", [*source.words, "--client", "venus-fd"], 3), ("a moment after all", [*source.words, "--after", "2027-01-01 00:00:00"], 3),
        ("no moment", [*source.words, "--after", "2026-02-30 00:00:00"], 2), ("a file that is no database", ["--sqlite", other], 3),
        ("a file that is not there", ["--sqlite", f"{other}x"], 3), ("no source", [], 2), ("two databases", ["a", "b"], 2), ("an unknown option", ["--all"], 2),
        ("a program that is not there", [*source.words, "--program", "/nowhere"], 3), ("a program that makes nothing", [*source.words, "--program", "false"], 3),
        ("a program that takes nothing", [*source.words, "--program", refusing_program(checks, folder)], 3),
    ]
    for name, words, status in failing:
        found = run_import(checks, db, *words)
        checks.check(name, (found[:2], found[2].count("import.sh: ") > 0, os.path.exists(db)), ((status, ""), True, False))
    says_why(checks, source, folder, db)
    lacks_room(checks, source, folder, db)
    checks.check("leave nothing", [it for it in os.listdir(folder) if it.startswith("new.db")], [])
    lost(checks, source, db)
    source.fill(base(), False)
    is_killed(checks, source, folder, db)
    if source.name == "SQLite":
        waits(checks, source, db)
        is_old(checks, source, folder, db)
        other_shells(checks, source, db)
    if source.name != "SQLite":
        cut(checks, source, folder, db)
    if source.name == "MariaDB":
        warns(checks, source, db)


def lacks_room(checks, source, folder, db):
    """Imports 6,000 rows where no file may have more than 400 KiB, as on a full disk."""
    rows = base()
    rows["File"] = [(n, n, 1, 1, b"f%d" % n, FILE, HELLO) for n in range(1, 6001)]
    source.fill(rows, False)
    limit = lambda: resource.setrlimit(resource.RLIMIT_FSIZE, (400 << 10, 400 << 10))
    words = [SCRIPT, db, "--program", checks.program, *source.words]
    ran = subprocess.run(words, capture_output=True, text=True, preexec_fn=limit, restore_signals=False)
    text = f"import.sh: the rows of the database cannot be copied into the folder of {db}"
    checks.check("no room", (ran.returncode, ran.stdout, text in ran.stderr.splitlines(), os.path.exists(db)), (3, "", True, False))
    source.fill(base(), False)


def with_own(folder, program, lines):
    """Returns a PATH that begins with a new folder in which a program runs these lines before it is the one of the system."""
    place = tempfile.mkdtemp(dir=folder)
    with open(os.path.join(place, program), "w") as script:
        script.write(f'#!/bin/sh\n{lines}\nexec {shutil.which(program)} "$@"\n')
    os.chmod(script.name, 0o755)
    return f"{place}:{os.environ['PATH']}"


def is_killed(checks, source, folder, db):
    """Kills an import within a step that does not end. It ends at once, and so does the step: that of `sqlite3`, or that of the client."""
    mark = os.path.join(folder, "step")
    hangs = f"{{ echo $$ > {mark}.new; mv {mark}.new {mark}; exec sleep 100; }}"
    if source.name == "SQLite":
        path = with_own(folder, "sqlite3", f'case "$*" in *rows.db) {hangs} ;; esac')
    else:
        # Only the statements that read the rows end a transaction.
        path = with_own(folder, client_of(source), f'cat > {mark}.text; ! grep -q COMMIT {mark}.text || {hangs}; exec < {mark}.text')
    child = subprocess.Popen([SCRIPT, db, "--program", checks.program, *source.words], env={**os.environ, "PATH": path}, stdout=subprocess.PIPE, stderr=subprocess.PIPE)
    while not os.path.exists(mark) and child.poll() is None:
        time.sleep(0.01)
    started = time.monotonic()
    child.terminate()
    # A shell may say of the client that it was terminated.
    found, _ = child.communicate()
    checks.check("an import that is killed", (child.returncode, found, time.monotonic() - started < 20), (3, b"", True))
    checks.check("leaves nothing", [it for it in os.listdir(folder) if it.startswith("new.db")], [])
    with open(mark) as number:
        step = f"/proc/{number.read().strip()}"
    # A step that was ended is there until its parent, here the system's first process, notes it.
    while os.path.exists(step) and time.monotonic() - started < 20:
        time.sleep(0.01)
    checks.check("and no step", os.path.exists(step), False)
    os.remove(mark)


def other_shells(checks, source, db):
    """Imports by other shells than the system's `sh`, as far as they are installed."""
    for words in (["bash"], ["bash", "--posix"], ["dash"], ["ksh"], ["busybox", "sh"]):
        if shutil.which(words[0]):
            ran = subprocess.run([*words, SCRIPT, db, "--program", checks.program, *source.words, "--strict"], capture_output=True, text=True)
            checks.check(f"an import by {' '.join(words)}", (ran.returncode, ran.stdout, ran.stderr), (0, "imported 2 4\n", ""))
            with contextlib.suppress(FileNotFoundError):
                os.remove(db)


def client_of(source):
    """Returns the name of the client of a server."""
    return "psql" if source.name == "PostgreSQL" else "mysql"


def is_old(checks, source, folder, db):
    """Imports by a `sqlite3` that lacks a function, as one before 3.32."""
    path = with_own(folder, "sqlite3", 'case "$*" in *iif*) echo "Error: no such function: iif" >&2; exit 1 ;; --version) echo 3.26.0; exit ;; esac')
    found = run_import(checks, db, *source.words, PATH=path)
    checks.check("an old sqlite3", found, (3, "", "import.sh: sqlite3 is too old, since 3.32 is needed: 3.26.0\n"))


def says_why(checks, source, folder, db):
    """Compares what imports say on standard error that take no job, or lack a table, a file or a program."""
    text = "import.sh: there is no job to take of this client and file set after this moment. The database has:\nclient mars-fd\nfile set Home\n"
    for client in ("Mars-fd", "o'brien; fd", "%"):
        checks.check("the names that there are", run_import(checks, db, *source.words, "--client", client), (3, "", text))
    found = run_import(checks, db, *source.words, "--program", "/nowhere")
    checks.check("no program", found, (3, "", "import.sh: there is no /nowhere: put its folder into PATH, or give --program FILE\n"))
    rows = base()
    rows["Job"] = [job(1, b"F", Type=b"C"), job(2, Type=b"R")]
    source.fill(rows, False)
    text = "type 1 3\ntype 2 1\nimport.sh: there is no job to take\n"
    checks.check("why each job is left out", run_import(checks, db, *source.words), (3, "", text))
    source.run(("USE bacula; " if source.name == "MariaDB" else "") + "ALTER TABLE File RENAME TO Filed;")
    found = run_import(checks, db, *source.words)
    checks.check("a database of somebody else's", found, (3, "", f"import.sh: {source.words[-1]} has no table File that may be read: is it Bacula's catalogue?\n"))
    link = os.path.join(folder, "link")
    if not os.path.lexists(link):
        os.symlink(SCRIPT, link)
    ran = subprocess.run([link, db, *source.words], capture_output=True, text=True)
    text = f"import.sh: {folder}/stage.sql is missing: call the script by its own path, not by a link\n"
    checks.check("a link to the script", (ran.returncode, ran.stdout, ran.stderr), (3, "", text))


def waits(checks, source, db):
    """Imports while another process writes the database for a second, and no one may read it."""
    source.fill(base(), True)
    with contextlib.closing(sqlite3.connect(source.file, isolation_level=None, check_same_thread=False)) as connection:
        connection.execute("BEGIN EXCLUSIVE")
        ending = threading.Timer(1, connection.execute, ["COMMIT"])
        ending.start()
        checks.check("a database that is being written", run_import(checks, db, *source.words), (0, "imported 2 4\n", ""))
        ending.join()
    if os.path.exists(db):
        os.remove(db)


def refusing_program(checks, folder):
    """Returns a program that makes catalogues and refuses each one."""
    file = os.path.join(folder, "refusing")
    with open(file, "w") as script:
        script.write(f'#!/bin/sh\n[ "$1" = jobs ] && {{ echo refused 47 >&2; exit 1; }}\nexec "{checks.program}" "$@"\n')
    os.chmod(file, 0o755)
    return file


def lost(checks, source, db):
    """Tries a source that lacks a table, as after a cut: what was read of it is no catalogue."""
    rows = base()
    source.fill(rows, True)
    if hasattr(source, "file"):
        with contextlib.closing(sqlite3.connect(source.file)) as connection:
            connection.execute("DROP TABLE JobMedia")
    else:
        source.run(("USE bacula; " if source.name == "MariaDB" else "") + "DROP TABLE JobMedia;")
    found = run_import(checks, db, *source.words)
    checks.check(f"a table that is not there, {source.name}", (found[:2], os.path.exists(db)), ((3, ""), False))


def cut(checks, source, folder, db):
    """Tries a client that prints some rows and ends with status 0."""
    name = client_of(source)
    place = os.path.join(folder, "cutting")
    os.makedirs(place, exist_ok=True)
    with open(os.path.join(place, name), "w") as script:
        script.write(f'#!/bin/sh\n{shutil.which(name)} "$@" | head -n 8\n')
    os.chmod(script.name, 0o755)
    source.fill(base(), False)
    found = run_import(checks, db, *source.words, PATH=f"{place}:{os.environ['PATH']}")
    checks.check(f"a client that ends early, {source.name}", (found[:2], os.path.exists(db)), ((3, ""), False))


def warns(checks, source, db):
    """Imports tables without transactions."""
    source.fill(base(), True)
    source.run("USE bacula; ALTER TABLE File ENGINE = MyISAM;")
    text = "import.sh: the tables have no transactions: no job may run while they are read\n"
    checks.check("tables without transactions", run_import(checks, db, *source.words), (0, "imported 2 4\n", text))


def sources(folder, is_quick):
    """Returns the databases that are there."""
    found = [Sqlite(folder)]
    for server in () if is_quick else (Postgres, MariaDb):
        if server.program():
            found.append(server())
        else:
            print(f"{server.name}: not installed, so it is left out")
    return found


def main():
    parser = argparse.ArgumentParser(description="Imports catalogues in Bacula's own tables.")
    parser.add_argument("--program", default=PROGRAM, help="the program (default: %(default)s)")
    parser.add_argument("--sqlite", action="store_true", help="without PostgreSQL and MariaDB")
    parser.add_argument("names", nargs="*", metavar="NAME", help="a case")
    options = parser.parse_args()
    checks = Checks(os.path.abspath(options.program))
    with tempfile.TemporaryDirectory() as folder, contextlib.ExitStack() as stops:
        for source in sources(folder, options.sqlite):
            stops.callback(source.stop)
            for name in options.names or CASES:
                for is_old in (True, False):
                    imports(checks, name, source, is_old, folder)
            if not options.names:
                refuses(checks, source, folder)
    return 1 if checks.failed else 0


if __name__ == "__main__":
    sys.exit(main())
