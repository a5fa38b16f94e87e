-- The rows of Bacula's catalogue as they were, in a database of their own. Texts are blobs, since names may have any bytes. Times are
-- texts of the Director's clock, empty if there is none.
PRAGMA journal_mode = OFF;
PRAGMA synchronous = OFF;
PRAGMA temp_store = FILE;
CREATE TABLE in_client(ClientId INTEGER PRIMARY KEY, Name BLOB);
CREATE TABLE in_fileset(FileSetId INTEGER PRIMARY KEY, FileSet BLOB);
CREATE TABLE in_media(MediaId INTEGER PRIMARY KEY, VolumeName BLOB, Enabled INTEGER);
CREATE TABLE in_job(JobId INTEGER PRIMARY KEY, Type BLOB, Level BLOB, JobStatus BLOB, ClientId INTEGER, FileSetId INTEGER,
  StartTime TEXT, EndTime TEXT, RealEndTime TEXT, JobTDate INTEGER, VolSessionId INTEGER, VolSessionTime INTEGER, JobFiles INTEGER,
  HasBase INTEGER, PurgedFiles INTEGER);
CREATE TABLE in_jobmedia(JobMediaId INTEGER PRIMARY KEY, JobId INTEGER, MediaId INTEGER, FirstIndex INTEGER, LastIndex INTEGER,
  StartFile INTEGER, EndFile INTEGER, StartBlock INTEGER, EndBlock INTEGER, VolIndex INTEGER);
CREATE TABLE in_path(PathId INTEGER PRIMARY KEY, Path BLOB);
-- Only the rows of backups. Filename is `/` if its row is missing. Filename, LStat and MD5 are texts or blobs. `kind` is `file`, or `plain`
-- if LStat is known to be of digits and spaces, with at most ten digits in a row. It is `usual` if LStat is also known to be sixteen words,
-- the eighth of at most five digits, the last two of one, and the last A, C or G. `hex` is MD5 in hexadecimal, if that is known, or empty.
CREATE TABLE in_file(kind TEXT, FileId INTEGER, FileIndex INTEGER, JobId INTEGER, PathId INTEGER, Filename BLOB, LStat BLOB, MD5 BLOB,
  hex TEXT);
-- The number of file rows of other jobs, and of job numbers that no job has.
CREATE TABLE in_count(JobId INTEGER PRIMARY KEY, files INTEGER);
CREATE TABLE in_orphan(JobId INTEGER PRIMARY KEY, files INTEGER);
-- One row once all others are there.
CREATE TABLE in_end(is_whole INTEGER);
