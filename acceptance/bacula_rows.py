"""Makes small catalogues in the tables of Bacula's own, in files of SQLite and in servers of PostgreSQL and MariaDB that run for the test alone.

A catalogue is a dictionary: for each table its rows, which are tuples of the columns in COLUMNS. Texts are bytes. The tables have two forms:
the old one has the names of files in a table of their own, as before Bacula 11; the new one has them in File.
"""

import contextlib
import glob
import os
import pwd
import shutil
import sqlite3
import subprocess
import tempfile
import time
from urllib.parse import quote

# The columns of each table that are filled. The third word of File is that of the name: its column in the new form, its text here.
COLUMNS = {
    "Client": "ClientId Name",
    "FileSet": "FileSetId FileSet",
    "Media": "MediaId VolumeName Enabled",
    "Path": "PathId Path",
    "Job": "JobId Type Level JobStatus ClientId FileSetId StartTime EndTime RealEndTime JobTDate VolSessionId VolSessionTime JobFiles HasBase"
    " PurgedFiles",
    "JobMedia": "JobMediaId JobId MediaId FirstIndex LastIndex StartFile EndFile StartBlock EndBlock VolIndex",
    "File": "FileId FileIndex JobId PathId Filename LStat MD5",
}
# The tables as Bacula's scripts make them, with the columns that an import may meet.
SQLITE = """
CREATE TABLE Path(PathId INTEGER, Path TEXT DEFAULT '', PRIMARY KEY(PathId));
CREATE TABLE File(FileId INTEGER, FileIndex INTEGER NOT NULL, JobId INTEGER UNSIGNED NOT NULL, PathId INTEGER UNSIGNED NOT NULL,
  {name}, DeltaSeq SMALLINT UNSIGNED DEFAULT 0, MarkId INTEGER UNSIGNED DEFAULT 0, LStat VARCHAR(255) NOT NULL,
  MD5 VARCHAR(255) NOT NULL, PRIMARY KEY(FileId));
CREATE INDEX inx3 ON File(JobId);
CREATE TABLE Job(JobId INTEGER, Job VARCHAR(128) NOT NULL DEFAULT '', Type CHAR(1) NOT NULL, Level CHAR(1) NOT NULL,
  ClientId INTEGER DEFAULT 0, JobStatus CHAR(1) NOT NULL, SchedTime DATETIME DEFAULT 0, StartTime DATETIME DEFAULT 0,
  EndTime DATETIME DEFAULT 0, RealEndTime DATETIME DEFAULT 0, JobTDate BIGINT UNSIGNED DEFAULT 0,
  VolSessionId INTEGER UNSIGNED DEFAULT 0, VolSessionTime INTEGER UNSIGNED DEFAULT 0, JobFiles INTEGER UNSIGNED DEFAULT 0,
  JobBytes BIGINT UNSIGNED DEFAULT 0, FileSetId INTEGER UNSIGNED DEFAULT 0, PriorJobId INTEGER UNSIGNED DEFAULT 0,
  PurgedFiles TINYINT DEFAULT 0, HasBase TINYINT DEFAULT 0, PRIMARY KEY(JobId));
CREATE TABLE Client(ClientId INTEGER, Name VARCHAR(128) NOT NULL, Uname VARCHAR(255) DEFAULT '', PRIMARY KEY(ClientId));
CREATE TABLE FileSet(FileSetId INTEGER, FileSet VARCHAR(128) NOT NULL, MD5 VARCHAR(25) DEFAULT '', CreateTime DATETIME DEFAULT 0,
  PRIMARY KEY(FileSetId));
CREATE TABLE Media(MediaId INTEGER, VolumeName VARCHAR(128) NOT NULL, MediaType VARCHAR(128) DEFAULT 'File', Enabled TINYINT DEFAULT 1,
  PRIMARY KEY(MediaId));
CREATE TABLE JobMedia(JobMediaId INTEGER, JobId INTEGER UNSIGNED NOT NULL, MediaId INTEGER UNSIGNED NOT NULL,
  FirstIndex INTEGER UNSIGNED NOT NULL, LastIndex INTEGER UNSIGNED NOT NULL, StartFile INTEGER UNSIGNED DEFAULT 0,
  EndFile INTEGER UNSIGNED DEFAULT 0, StartBlock INTEGER UNSIGNED DEFAULT 0, EndBlock INTEGER UNSIGNED DEFAULT 0,
  VolIndex INTEGER UNSIGNED DEFAULT 0, PRIMARY KEY(JobMediaId));
"""
SQLITE_NAMES = "CREATE TABLE Filename(FilenameId INTEGER, Name TEXT DEFAULT '', PRIMARY KEY(FilenameId));"
POSTGRES = """
CREATE TABLE Path(PathId serial PRIMARY KEY, Path text NOT NULL);
CREATE TABLE File(FileId bigserial PRIMARY KEY, FileIndex integer NOT NULL DEFAULT 0, JobId integer NOT NULL, PathId integer NOT NULL,
  {name}, DeltaSeq smallint NOT NULL DEFAULT 0, MarkId integer NOT NULL DEFAULT 0, LStat text NOT NULL, Md5 text NOT NULL);
CREATE INDEX file_jobid_idx ON File(JobId);
CREATE TABLE Job(JobId serial PRIMARY KEY, Job text NOT NULL DEFAULT '', Type char(1) NOT NULL, Level char(1) NOT NULL,
  ClientId integer DEFAULT 0, JobStatus char(1) NOT NULL, SchedTime timestamp without time zone, StartTime timestamp without time zone,
  EndTime timestamp without time zone, RealEndTime timestamp without time zone, JobTDate bigint DEFAULT 0,
  VolSessionId integer NOT NULL DEFAULT 0, VolSessionTime integer NOT NULL DEFAULT 0, JobFiles integer NOT NULL DEFAULT 0,
  JobBytes bigint NOT NULL DEFAULT 0, FileSetId integer DEFAULT 0, PriorJobId integer DEFAULT 0,
  PurgedFiles smallint NOT NULL DEFAULT 0, HasBase smallint NOT NULL DEFAULT 0);
CREATE TABLE Client(ClientId serial PRIMARY KEY, Name text NOT NULL, Uname text NOT NULL DEFAULT '');
CREATE TABLE FileSet(FileSetId serial PRIMARY KEY, FileSet text NOT NULL, Md5 text NOT NULL DEFAULT '');
CREATE TABLE Media(MediaId serial PRIMARY KEY, VolumeName text NOT NULL, MediaType text NOT NULL DEFAULT 'File',
  Enabled smallint NOT NULL DEFAULT 1);
CREATE TABLE JobMedia(JobMediaId serial PRIMARY KEY, JobId integer NOT NULL, MediaId integer NOT NULL, FirstIndex integer DEFAULT 0,
  LastIndex integer DEFAULT 0, StartFile bigint DEFAULT 0, EndFile bigint DEFAULT 0, StartBlock bigint DEFAULT 0,
  EndBlock bigint DEFAULT 0, VolIndex integer DEFAULT 0);
"""
POSTGRES_NAMES = "CREATE TABLE Filename(FilenameId serial PRIMARY KEY, Name text NOT NULL);"
MARIADB = """
CREATE TABLE Path(PathId INTEGER UNSIGNED NOT NULL PRIMARY KEY, Path BLOB NOT NULL);
CREATE TABLE File(FileId BIGINT UNSIGNED NOT NULL PRIMARY KEY, FileIndex INTEGER DEFAULT 0, JobId INTEGER UNSIGNED NOT NULL,
  PathId INTEGER UNSIGNED NOT NULL, {name}, DeltaSeq SMALLINT UNSIGNED DEFAULT 0, MarkId INTEGER UNSIGNED DEFAULT 0,
  LStat TINYBLOB NOT NULL, MD5 TINYBLOB, INDEX (JobId));
CREATE TABLE Job(JobId INTEGER UNSIGNED NOT NULL PRIMARY KEY, Type BINARY(1) NOT NULL, Level BINARY(1) NOT NULL, ClientId INTEGER DEFAULT 0,
  JobStatus BINARY(1) NOT NULL, SchedTime DATETIME, StartTime DATETIME, EndTime DATETIME, RealEndTime DATETIME,
  JobTDate BIGINT UNSIGNED DEFAULT 0, VolSessionId INTEGER UNSIGNED DEFAULT 0, VolSessionTime INTEGER UNSIGNED DEFAULT 0,
  JobFiles INTEGER UNSIGNED DEFAULT 0, FileSetId INTEGER UNSIGNED DEFAULT 0, PurgedFiles TINYINT DEFAULT 0, HasBase TINYINT DEFAULT 0);
CREATE TABLE Client(ClientId INTEGER UNSIGNED NOT NULL PRIMARY KEY, Name TINYBLOB NOT NULL);
CREATE TABLE FileSet(FileSetId INTEGER UNSIGNED NOT NULL PRIMARY KEY, FileSet TINYBLOB NOT NULL);
CREATE TABLE Media(MediaId INTEGER UNSIGNED NOT NULL PRIMARY KEY, VolumeName TINYBLOB NOT NULL, Enabled TINYINT DEFAULT 1);
CREATE TABLE JobMedia(JobMediaId INTEGER UNSIGNED NOT NULL PRIMARY KEY, JobId INTEGER UNSIGNED NOT NULL, MediaId INTEGER UNSIGNED NOT NULL,
  FirstIndex INTEGER UNSIGNED DEFAULT 0, LastIndex INTEGER UNSIGNED DEFAULT 0, StartFile INTEGER UNSIGNED DEFAULT 0,
  EndFile INTEGER UNSIGNED DEFAULT 0, StartBlock INTEGER UNSIGNED DEFAULT 0, EndBlock INTEGER UNSIGNED DEFAULT 0,
  VolIndex INTEGER UNSIGNED DEFAULT 0);
"""
MARIADB_NAMES = "CREATE TABLE Filename(FilenameId INTEGER UNSIGNED NOT NULL PRIMARY KEY, Name BLOB NOT NULL);"
SECONDS = 60


# The columns that are texts, and those that are moments; all others are numbers.
TEXTS = set("Name FileSet VolumeName Path Type Level JobStatus Filename LStat MD5".split())
TIMES = set("StartTime EndTime RealEndTime".split())


def old_columns():
    """Returns the columns of each table of the old form."""
    return {**COLUMNS, "Filename": "FilenameId Name", "File": COLUMNS["File"].replace("Filename", "FilenameId")}


def value_of(column, text):
    """Returns a value that a server printed in hexadecimal."""
    if text == "-":
        return None
    data = bytes.fromhex(text)
    return data if column in TEXTS else data.decode() if column in TIMES else int(data)


def value_in_sqlite(column, value):
    """Returns a value of SQLite: moments as texts, and 0 as none."""
    if column in TIMES:
        return value.decode() if isinstance(value, bytes) else None
    return int(value) if isinstance(value, bytes) and column not in TEXTS else value


def text_in_sqlite(data):
    """Returns a text of any bytes as SQLite's SQL has it."""
    return f"CAST(x'{data.hex()}' AS TEXT)"


def as_sqlite(rows):
    """Returns statements that make a catalogue of the old form in a new file of SQLite."""
    name = "FilenameId INTEGER UNSIGNED NOT NULL"
    return SQLITE.format(name=name) + SQLITE_NAMES + "BEGIN;\n" + "".join(statements(rows, text_in_sqlite)) + "COMMIT;\n"


def in_old_form(rows):
    """Returns the rows with the names of files in a table of their own. A file without a name points to a row that is not there."""
    names = list(dict.fromkeys(row[4] for row in rows["File"] if row[4] is not None))
    numbers = {name: number for number, name in enumerate(names, 1)}
    files = [(*row[:4], numbers.get(row[4], 999), *row[5:]) for row in rows["File"]]
    return {**rows, "Filename": [(number, name) for name, number in numbers.items()], "File": files}


def literal(value, text_of):
    """Returns a value as SQL has it: bytes as this server writes a text of any bytes, and moments in quotes."""
    if value is None:
        return "NULL"
    if isinstance(value, bytes):
        return text_of(value)
    return f"'{value}'" if isinstance(value, str) else str(value)


def statements(rows, text_of):
    """Yields statements that insert the rows."""
    columns = old_columns() if "Filename" in rows else COLUMNS
    for table, its_rows in rows.items():
        for row in its_rows:
            values = ", ".join(literal(it, text_of) for it in row)
            yield f"INSERT INTO {table}({', '.join(columns[table].split())}) VALUES ({values});\n"


class Sqlite:
    """Catalogues in a file."""

    name = "SQLite"

    def __init__(self, folder):
        self.file = os.path.join(folder, "bacula ?#%'.db")
        self.words = ["--sqlite", self.file]

    def fill(self, rows, is_old):
        """Makes the catalogue of these rows anew."""
        if os.path.exists(self.file):
            os.remove(self.file)
        connection = sqlite3.connect(self.file)
        name = "FilenameId INTEGER UNSIGNED NOT NULL" if is_old else "Filename TEXT NOT NULL"
        connection.executescript(SQLITE.format(name=name) + (SQLITE_NAMES if is_old else ""))
        connection.executescript("BEGIN;" + "".join(statements(in_old_form(rows) if is_old else rows, text_in_sqlite)) + "COMMIT;")
        connection.close()

    def run(self, text):
        """Runs statements."""
        with contextlib.closing(sqlite3.connect(self.file)) as connection:
            connection.executescript(text)

    def rows(self):
        """Returns the rows of a catalogue of the old form."""
        found = {}
        with contextlib.closing(sqlite3.connect(f"file:{quote(self.file)}?mode=ro", uri=True)) as connection:
            connection.text_factory = bytes
            for table, columns in old_columns().items():
                rows = connection.execute(f"SELECT {', '.join(columns.split())} FROM {table} ORDER BY 1")
                found[table] = [tuple(map(value_in_sqlite, columns.split(), row)) for row in rows]
        return found

    def stop(self):
        """Does nothing: there is no server."""


def end(child, signal):
    """Ends a server that this process started."""
    child.send_signal(signal)
    child.wait(SECONDS)


class Server:
    """A server with a folder of its own and a socket in it, and no port."""

    def wait(self):
        """Waits until the server answers."""
        for _ in range(10 * SECONDS):
            if self.child.poll() is not None:
                raise SystemExit(f"{self.name} ended with {self.child.returncode}: see {self.folder}/log")
            if subprocess.run(self.client, input=b"SELECT 1;", capture_output=True).returncode == 0:
                return
            time.sleep(0.1)
        raise SystemExit(f"{self.name} does not answer")

    def run(self, text):
        """Runs statements."""
        subprocess.run(self.client, input=text.encode(), stdout=subprocess.DEVNULL, check=True)

    def rows(self):
        """Returns the rows of a catalogue of the old form."""
        found = {}
        for table, columns in old_columns().items():
            texts = ", ".join(self.text.format(it) for it in columns.split())
            words = [*self.client, *self.printing, f"SELECT concat_ws(',', {texts}) FROM {table} ORDER BY {columns.split()[0]}"]
            lines = subprocess.run(words, capture_output=True, check=True, text=True).stdout.split()
            found[table] = [tuple(map(value_of, columns.split(), line.split(","))) for line in lines]
        return found


class Postgres(Server):
    """Catalogues in PostgreSQL, whose server does not run as root."""

    name = "PostgreSQL"
    # A value as text in hexadecimal, and the words before a statement whose rows are printed.
    text, printing = "coalesce(encode(convert_to({}::text, 'SQL_ASCII'), 'hex'), '-')", ["-A", "-t", "-c"]

    @staticmethod
    def program():
        """Returns the newest folder of programs, or None."""
        found = sorted(glob.glob("/usr/lib/postgresql/*/bin/initdb"), key=lambda it: int(it.split("/")[4]))
        return os.path.dirname(found[-1]) if found and shutil.which("psql") else None

    def __init__(self):
        self.folder = tempfile.mkdtemp(prefix="postgres")
        self.words = ["-h", self.folder, "-U", "bacula", "bacula"]
        self.client = ["psql", "-X", "-q", "-v", "ON_ERROR_STOP=1", "-h", self.folder, "-U", "bacula", "-d", "postgres"]
        front = self.front()
        data = os.path.join(self.folder, "data")
        made = [f"{self.program()}/initdb", "-D", data, "-U", "bacula", "-A", "trust", "-E", "SQL_ASCII", "--locale=C", "--no-sync"]
        subprocess.run([*front, *made], stdout=subprocess.DEVNULL, check=True, cwd=self.folder)
        words = [f"{self.program()}/postgres", "-D", data, "-c", "listen_addresses=", "-c", f"unix_socket_directories={self.folder}", "-c", "fsync=off"]
        with open(os.path.join(self.folder, "log"), "wb") as log:
            self.child = subprocess.Popen([*front, *words], stdout=log, stderr=log, cwd=self.folder)
        self.wait()
        self.run("CREATE DATABASE bacula TEMPLATE template0;")
        self.client[-1] = "bacula"

    def front(self):
        """Returns the words that run a program as another user if this one is root."""
        if os.geteuid():
            return []
        try:
            user = pwd.getpwnam("postgres")
        except KeyError:
            user = pwd.getpwnam("nobody")
        os.chown(self.folder, user.pw_uid, user.pw_gid)
        return ["setpriv", f"--reuid={user.pw_uid}", f"--regid={user.pw_gid}", "--clear-groups"]

    def fill(self, rows, is_old):
        """Makes the catalogue of these rows anew."""
        name = "FilenameId integer NOT NULL" if is_old else "Filename text NOT NULL"
        text = "SET client_min_messages = error; DROP SCHEMA public CASCADE; CREATE SCHEMA public;" + POSTGRES.format(name=name) + (POSTGRES_NAMES if is_old else "")
        text_of = lambda it: f"convert_from('\\x{it.hex()}'::bytea, 'SQL_ASCII')"
        self.run(text + "".join(statements(in_old_form(rows) if is_old else rows, text_of)))

    def stop(self):
        """Ends the server, and removes its folder."""
        end(self.child, 2)
        shutil.rmtree(self.folder)


class MariaDb(Server):
    """Catalogues in MariaDB."""

    name = "MariaDB"
    text, printing = "coalesce(hex(concat({})), '-')", ["--batch", "--skip-column-names", "--database=bacula", "-e"]

    @staticmethod
    def program():
        """Returns the server's program, or None."""
        found = shutil.which("mariadbd", path=os.environ["PATH"] + ":/usr/sbin")
        return found if found and shutil.which("mysql") and shutil.which("mariadb-install-db") else None

    def __init__(self):
        self.folder = tempfile.mkdtemp(prefix="mariadb")
        data, socket = os.path.join(self.folder, "data"), os.path.join(self.folder, "socket")
        self.words = ["--mysql", "-h", socket, "-U", "root", "bacula"]
        self.client = ["mysql", "--no-defaults", f"--socket={socket}", "--user=root"]
        user = f"--user={pwd.getpwuid(os.geteuid()).pw_name}"
        made = ["mariadb-install-db", "--no-defaults", f"--datadir={data}", "--auth-root-authentication-method=normal", "--skip-test-db", user]
        subprocess.run(made, stdout=subprocess.DEVNULL, stderr=subprocess.DEVNULL, check=True)
        words = [self.program(), "--no-defaults", f"--datadir={data}", f"--socket={socket}", "--skip-networking", user, f"--pid-file={self.folder}/pid"]
        with open(os.path.join(self.folder, "log"), "wb") as log:
            self.child = subprocess.Popen(words, stdout=log, stderr=log)
        self.wait()

    def fill(self, rows, is_old):
        """Makes the catalogue of these rows anew."""
        name = "FilenameId INTEGER UNSIGNED NOT NULL" if is_old else "Filename BLOB NOT NULL"
        text = "DROP DATABASE IF EXISTS bacula; CREATE DATABASE bacula; USE bacula;" + MARIADB.format(name=name) + (MARIADB_NAMES if is_old else "")
        self.run(text + "".join(statements(in_old_form(rows) if is_old else rows, lambda it: f"x'{it.hex()}'")))

    def stop(self):
        """Ends the server, and removes its folder."""
        end(self.child, 15)
        shutil.rmtree(self.folder)
