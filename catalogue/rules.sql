-- Makes a catalogue of brestore, in new.db, from the rows of Bacula's catalogue in the tables of stage.sql. The table `line` then has a
-- row for all that is not taken, or not as it was: a kind, the job, and how many. docs/formats.md lists the kinds.
--
-- Memory does not grow with the rows: what is sorted is in files.
PRAGMA journal_mode = OFF;
PRAGMA synchronous = OFF;
PRAGMA temp_store = FILE;
PRAGMA cache_size = -32768;
ATTACH 'new.db' AS new;
PRAGMA new.journal_mode = DELETE;
PRAGMA new.journal_mode = OFF;
PRAGMA new.synchronous = NORMAL;
PRAGMA new.cache_size = -32768;
BEGIN;

CREATE TABLE line(JobId INTEGER NOT NULL, kind TEXT NOT NULL, count INTEGER NOT NULL);

-- Names that brestore takes.
CREATE TABLE client(ClientId INTEGER PRIMARY KEY, name TEXT NOT NULL);
INSERT INTO client SELECT ClientId, CAST(Name AS TEXT) FROM in_client
  WHERE length(Name) BETWEEN 1 AND 127 AND instr(Name, x'00') = 0 AND CAST(Name AS TEXT) NOT GLOB '*[^-A-Za-z0-9_.: ]*';
CREATE TABLE fileset(FileSetId INTEGER PRIMARY KEY, name TEXT NOT NULL);
INSERT INTO fileset SELECT FileSetId, CAST(FileSet AS TEXT) FROM in_fileset
  WHERE length(FileSet) BETWEEN 1 AND 127 AND instr(FileSet, x'00') = 0 AND CAST(FileSet AS TEXT) NOT GLOB '*[^-A-Za-z0-9_.: ]*';
CREATE TABLE media(MediaId INTEGER PRIMARY KEY, name TEXT NOT NULL, is_disabled INTEGER NOT NULL);
INSERT INTO media SELECT MediaId, CAST(VolumeName AS TEXT), Enabled = 0 FROM in_media
  WHERE length(VolumeName) BETWEEN 1 AND 127 AND instr(VolumeName, x'00') = 0
    AND CAST(VolumeName AS TEXT) NOT GLOB '*[^-A-Za-z0-9_.: ]*' AND VolumeName NOT IN (x'2e', x'2e2e');

-- The spans, numbered anew, with the addresses of their first and last byte; NULL is a volume or an address that brestore does not take.
-- Rows of 0 to 0 hold no file.
CREATE TABLE span(JobId INTEGER NOT NULL, VolIndex INTEGER NOT NULL, volume TEXT, is_disabled INTEGER, FirstIndex INTEGER,
  LastIndex INTEGER, StartFile INTEGER, EndFile INTEGER, StartBlock INTEGER, EndBlock INTEGER, first_byte INTEGER, last_byte INTEGER);
INSERT INTO span
  SELECT m.JobId, row_number() OVER (PARTITION BY m.JobId ORDER BY m.VolIndex, m.JobMediaId), v.name, v.is_disabled, m.FirstIndex,
    m.LastIndex, m.StartFile, m.EndFile, m.StartBlock, m.EndBlock,
    CASE WHEN m.StartFile BETWEEN 0 AND 2147483647 AND m.StartBlock BETWEEN 0 AND 4294967295
      THEN m.StartFile * 4294967296 + m.StartBlock END,
    CASE WHEN m.EndFile BETWEEN 0 AND 2147483647 AND m.EndBlock BETWEEN 0 AND 4294967295 THEN m.EndFile * 4294967296 + m.EndBlock END
  FROM in_jobmedia m LEFT JOIN media v ON v.MediaId = m.MediaId
  WHERE m.FirstIndex <> 0 OR m.LastIndex <> 0;
CREATE INDEX spans_of_jobs ON span(JobId, LastIndex, FirstIndex);
-- Jobs whose spans contradict each other.
CREATE TABLE torn(JobId INTEGER PRIMARY KEY);
INSERT INTO torn
  SELECT DISTINCT JobId
  FROM (SELECT *, lag(last_byte) OVER (PARTITION BY JobId, volume ORDER BY VolIndex) AS previous FROM span)
  WHERE first_byte IS NULL OR last_byte IS NULL OR first_byte > last_byte OR FirstIndex > LastIndex OR FirstIndex < 0 OR LastIndex > 4294967295
    OR previous >= first_byte;

-- The jobs. `kind` says why a job is left out, `start` and `finish` are seconds since 1970, `start_clock` and `end_clock` what the Director's
-- clock showed then, in seconds as if it showed UTC.
CREATE TABLE job(JobId INTEGER PRIMARY KEY, kind TEXT, level TEXT, status TEXT, client TEXT, fileset TEXT, start INTEGER, finish INTEGER,
  start_clock INTEGER, end_clock INTEGER, real_end_clock INTEGER, VolSessionId INTEGER, VolSessionTime INTEGER, JobFiles INTEGER,
  is_good INTEGER, is_purged INTEGER);
INSERT INTO job
  SELECT j.JobId,
    CASE
      WHEN j.Type <> x'42' THEN 'type'
      WHEN j.Level = x'42' OR j.HasBase <> 0 THEN 'base'
      WHEN NOT EXISTS (SELECT 1 FROM span s WHERE s.JobId = j.JobId) THEN 'unwritten'
      WHEN c.name IS NULL OR f.name IS NULL OR EXISTS (SELECT 1 FROM span s WHERE s.JobId = j.JobId AND s.volume IS NULL) THEN 'name'
      WHEN CAST(j.Level AS TEXT) NOT GLOB '[A-Za-z]' OR CAST(j.JobStatus AS TEXT) NOT GLOB '[A-Za-z]'
        OR j.JobId NOT BETWEEN 1 AND 4294967295 OR j.VolSessionId NOT BETWEEN 0 AND 4294967295
        OR j.VolSessionTime NOT BETWEEN 0 AND 4294967295
        OR j.JobTDate - ifnull(j.end_clock - j.start_clock, 0) NOT BETWEEN 0 AND 253402300799 THEN 'row'
      WHEN j.JobId IN (SELECT JobId FROM torn) THEN 'spans'
    END,
    CAST(j.Level AS TEXT), CAST(j.JobStatus AS TEXT), c.name, f.name, j.JobTDate - ifnull(j.end_clock - j.start_clock, 0), j.JobTDate,
    j.start_clock, j.end_clock, j.real_end_clock, j.VolSessionId, j.VolSessionTime, j.JobFiles, j.JobStatus IN (x'54', x'57'),
    j.PurgedFiles <> 0
  FROM (SELECT *, CAST(strftime('%s', StartTime) AS INTEGER) AS start_clock, CAST(strftime('%s', EndTime) AS INTEGER) AS end_clock,
      CAST(strftime('%s', RealEndTime) AS INTEGER) AS real_end_clock FROM in_job) j
    LEFT JOIN client c ON c.ClientId = j.ClientId LEFT JOIN fileset f ON f.FileSetId = j.FileSetId;
CREATE INDEX jobs_by_session ON job(VolSessionTime, VolSessionId);
CREATE INDEX jobs_by_end ON job(finish);
CREATE INDEX jobs_by_start ON job(client, fileset, start);
-- A Full that stands on a Base job is left out, and so is what was saved after it up to the next Full: with an older Full it would give files
-- of two histories.
UPDATE job SET kind = 'base'
  WHERE kind IS NULL AND level <> 'F' AND EXISTS (SELECT 1 FROM job o WHERE o.kind = 'base') AND (
    SELECT o.kind FROM job o
    WHERE o.client = job.client AND o.fileset = job.fileset AND o.level = 'F' AND o.is_good AND (o.kind IS NULL OR o.kind = 'base')
      AND (o.start < job.start OR o.start = job.start AND o.JobId < job.JobId)
    ORDER BY o.start DESC, o.JobId DESC LIMIT 1) = 'base';
UPDATE job SET kind = 'session'
  WHERE kind IS NULL AND EXISTS (
    SELECT 1 FROM job o
    WHERE o.VolSessionTime = job.VolSessionTime AND o.VolSessionId = job.VolSessionId AND o.JobId < job.JobId AND o.kind IS NULL);

-- How many rows of File each job has.
CREATE TABLE filed(JobId INTEGER PRIMARY KEY, files INTEGER NOT NULL);
INSERT INTO filed SELECT JobId, count(*) FROM in_file GROUP BY JobId;
INSERT OR IGNORE INTO filed SELECT JobId, files FROM in_count;

INSERT INTO line SELECT j.JobId, j.kind, ifnull(f.files, 0) FROM job j LEFT JOIN filed f ON f.JobId = j.JobId WHERE j.kind IS NOT NULL;
INSERT INTO line SELECT JobId, 'orphan', files FROM in_orphan;
INSERT INTO line
  SELECT j.JobId, CASE WHEN j.is_good OR j.is_purged THEN 'purged' ELSE 'unfinished' END, j.JobFiles
  FROM job j WHERE j.kind IS NULL AND NOT EXISTS (SELECT 1 FROM filed f WHERE f.JobId = j.JobId);
-- Bacula gives a Virtual Full the times of the newest job that it was made of, but for its real end.
INSERT INTO line
  SELECT j.JobId, 'virtual', ifnull(f.files, 0) FROM job j LEFT JOIN filed f ON f.JobId = j.JobId
  WHERE j.kind IS NULL AND j.level IN ('F', 'f') AND j.real_end_clock > j.end_clock;
INSERT INTO line
  SELECT m.JobId, 'empty', count(*) FROM in_jobmedia m JOIN job j ON j.JobId = m.JobId
  WHERE j.kind IS NULL AND m.FirstIndex = 0 AND m.LastIndex = 0 GROUP BY m.JobId;
INSERT INTO line
  SELECT s.JobId, 'disabled', count(*) FROM span s JOIN job j ON j.JobId = s.JobId
  WHERE j.kind IS NULL AND s.is_disabled GROUP BY s.JobId;

-- Jobs during which the clock of the Director was put forward or back, so that their start is not sure. If the zone of this machine, or TZ,
-- fits the end of each job, it says which these are. Else they are those before which the clock showed another
-- difference from UTC, by the last job that had ended when they began.
CREATE TABLE zone AS
  SELECT NOT EXISTS (
    SELECT 1 FROM job
    WHERE kind IS NULL AND end_clock IS NOT NULL AND CAST(strftime('%s', finish, 'unixepoch', 'localtime') AS INTEGER) <> end_clock
  ) AS is_known;
INSERT INTO line
  SELECT JobId, 'clock', abs(CAST(strftime('%s', start, 'unixepoch', 'localtime') AS INTEGER) - start_clock)
  FROM job JOIN zone ON is_known
  WHERE kind IS NULL AND end_clock IS NOT NULL AND CAST(strftime('%s', start, 'unixepoch', 'localtime') AS INTEGER) <> start_clock;
INSERT INTO line
  SELECT JobId, 'clock', max(abs(ifnull(end_clock - finish - previous, 0)), ifnull(start_clock - end_clock, 0))
  FROM (SELECT *, (SELECT o.end_clock - o.finish FROM job o
      WHERE o.end_clock IS NOT NULL AND o.finish <= job.start AND o.JobId <> job.JobId AND o.kind IS NOT 'row' ORDER BY o.finish DESC LIMIT 1)
      AS previous FROM job) JOIN zone ON NOT is_known
  WHERE kind IS NULL AND end_clock - finish <> previous OR kind IS NULL AND end_clock < start_clock;

-- Bacula takes jobs in the order of their ends, brestore in that of their starts: for each job, those that began after it and ended before
-- it or with it. A Virtual Full ends with the newest job that it was made of, and comes after it for both.
INSERT INTO line
  SELECT a.JobId, 'order', count(*)
  FROM job a JOIN job b ON b.client = a.client AND b.fileset = a.fileset AND b.start BETWEEN a.start AND a.finish
  WHERE a.kind IS NULL AND b.kind IS NULL AND a.is_good AND b.is_good AND (b.start > a.start OR b.JobId > a.JobId)
    AND (b.finish < a.finish OR b.finish = a.finish AND (b.level <> 'F' OR a.level = 'F'))
  GROUP BY a.JobId;

-- The paths of folders that brestore takes, in the order of their bytes. Equal ones have one number.
CREATE TABLE folder(PathId INTEGER PRIMARY KEY, number INTEGER NOT NULL, size INTEGER NOT NULL);
INSERT INTO folder
  SELECT PathId, dense_rank() OVER (ORDER BY Path), length(Path) FROM in_path
  WHERE length(Path) <= 4096 AND substr(Path, 1, 1) = x'2f' AND substr(Path, -1) = x'2f' AND instr(Path, x'2f2f') = 0
    AND instr(Path, x'2f2e2f') = 0 AND instr(Path, x'2f2e2e2f') = 0 AND instr(Path, x'00') = 0;

-- Two digits of base 64, as three of hexadecimal.
CREATE TABLE pair(digits BLOB PRIMARY KEY, hex TEXT NOT NULL) WITHOUT ROWID;
INSERT INTO pair
  WITH RECURSIVE digit(n, c) AS (
    SELECT 0, 'A' UNION ALL
    SELECT n + 1, substr('ABCDEFGHIJKLMNOPQRSTUVWXYZabcdefghijklmnopqrstuvwxyz0123456789+/', n + 2, 1) FROM digit WHERE n < 63)
  SELECT CAST(a.c || b.c AS BLOB), printf('%03x', 64 * a.n + b.n) FROM digit a, digit b;

-- Of each job whose spans have no gap: its first and its last index.
CREATE TABLE reach(JobId INTEGER PRIMARY KEY, first INTEGER NOT NULL, last INTEGER NOT NULL);
INSERT INTO reach
  SELECT JobId, min(FirstIndex), max(LastIndex)
  FROM (
    SELECT *, max(LastIndex) OVER (PARTITION BY JobId ORDER BY FirstIndex ROWS BETWEEN UNBOUNDED PRECEDING AND 1 PRECEDING) AS before
    FROM span)
  GROUP BY JobId HAVING max(FirstIndex > before + 1) IS NOT 1;

-- The rows of File of the jobs that are taken. Most are usual: LStat and the digest were looked at by the server. CASE leaves out what an earlier
-- line decides, as AND and OR do not.
CREATE VIEW seen AS
  SELECT f.*, p.number,
    CASE
      WHEN p.number IS NULL OR p.size + length(f.Filename) > 4096 THEN 1
      WHEN length(f.Filename) <= 2 AND (f.Filename = x'2e' OR f.Filename = x'2e2e') THEN 1
      ELSE instr(f.Filename, x'2f') OR instr(f.Filename, x'00')
    END AS is_bad_path,
    CASE
      WHEN f.FileIndex <= 0 OR f.FileIndex BETWEEN r.first AND r.last THEN 0
      ELSE NOT EXISTS (SELECT 1 FROM span s WHERE s.JobId = f.JobId AND s.LastIndex >= f.FileIndex AND s.FirstIndex <= f.FileIndex)
    END AS is_outside
  FROM (
    SELECT kind, FileId, FileIndex, JobId, PathId, CAST(Filename AS BLOB) AS Filename, CAST(LStat AS TEXT) AS lstat,
      CAST(MD5 AS BLOB) AS MD5, hex, kind = 'usual' AND FileIndex > 0 AND (hex <> '' OR MD5 = '' OR MD5 = '0') AS is_usual
    FROM in_file
    LIMIT -1 OFFSET 0) f
    CROSS JOIN job j ON j.JobId = f.JobId LEFT JOIN reach r ON r.JobId = f.JobId LEFT JOIN folder p ON p.PathId = f.PathId
  WHERE j.kind IS NULL;
CREATE VIEW usual_entry AS
  SELECT FileId, JobId, FileIndex, number, Filename, substr(lstat, 1, length(lstat) - 4) AS lstat, 0 AS is_odd, NULL AS mode, NULL AS size,
    NULL AS link, substr(lstat, -1) AS stream, hex AS digest, 0 AS other, is_bad_path, is_outside
  FROM seen WHERE is_usual;
CREATE VIEW other_entry AS
  SELECT FileId, JobId, FileIndex, number, Filename,
    CASE
      WHEN words IS NULL OR spaces = 13 THEN lstat
      WHEN spaces = 12 THEN lstat || ' A'
      WHEN is_short THEN substr(lstat, 1, length(lstat) - 4)
      ELSE
        substr(lstat, 1, 13 + length(json_extract(words, '$[0]') || json_extract(words, '$[1]') || json_extract(words, '$[2]')
          || json_extract(words, '$[3]') || json_extract(words, '$[4]') || json_extract(words, '$[5]') || json_extract(words, '$[6]')
          || json_extract(words, '$[7]') || json_extract(words, '$[8]') || json_extract(words, '$[9]') || json_extract(words, '$[10]')
          || json_extract(words, '$[11]') || json_extract(words, '$[12]') || json_extract(words, '$[13]')))
    END AS lstat,
    FileIndex > 0 AND words IS NULL AS is_odd,
    CASE WHEN stream NOT IN ('A', 'C', 'G') OR length(size) > 5 THEN json_extract(words, '$[2]') END AS mode, size,
    CASE WHEN stream NOT IN ('A', 'C', 'G') OR length(size) > 5 THEN ifnull(json_extract(words, '$[13]'), 'A') END AS link, stream,
    CASE WHEN is_md5 AND FileIndex > 0 THEN substr(hex, 1, 32) ELSE '' END AS digest,
    CASE
      WHEN is_md5 OR FileIndex <= 0 OR MD5 IN (x'', x'30') THEN 0
      WHEN length(MD5) IN (22, 27) OR instr(MD5, x'00') OR CAST(MD5 AS TEXT) GLOB '*[^A-Za-z0-9+/]*' THEN 1
      ELSE 2
    END AS other, is_bad_path, is_outside
  FROM (
    SELECT *, json_extract(words, '$[7]') AS size,
      CASE WHEN is_short THEN substr(lstat, -1) ELSE ifnull(json_extract(words, '$[15]'), 'C') END AS stream
    FROM (
      SELECT *, CASE WHEN is_plain AND spaces >= 12 THEN '["' || replace(lstat, ' ', '","') || '"]' END AS words,
        -- Sixteen words, the last two of one digit.
        is_plain AND spaces = 15 AND substr(lstat, -2, 1) = ' ' AND substr(lstat, -4, 1) = ' ' AS is_short,
        length(hex) = 32 OR length(hex) = 33 AND substr(hex, 33) = '0' AS is_md5
      FROM (
        SELECT f.FileId, f.JobId, f.FileIndex, f.Filename, f.MD5, f.number, f.lstat, f.is_bad_path, f.is_outside,
          length(f.lstat) - length(replace(f.lstat, ' ', '')) AS spaces,
          -- Words of 1 to 10 digits with a space between two.
          CASE
            WHEN f.FileIndex <= 0 OR instr(f.lstat, '  ') OR substr(f.lstat, 1, 1) = ' ' OR substr(f.lstat, -1) = ' ' THEN 0
            WHEN f.kind <> 'file' THEN 1
            ELSE f.lstat <> '' AND instr(CAST(f.lstat AS BLOB), x'00') = 0 AND f.lstat NOT GLOB '*[^A-Za-z0-9+/ ]*'
              AND ' ' || f.lstat NOT GLOB '* [^ ][^ ][^ ][^ ][^ ][^ ][^ ][^ ][^ ][^ ][^ ]*'
          END AS is_plain,
          -- 22 digits make 33 of hexadecimal, of which the last one is 0.
          CASE
            WHEN f.hex <> '' THEN f.hex
            WHEN length(f.MD5) = 22 THEN (
              SELECT a.hex || b.hex || c.hex || d.hex || e.hex || g.hex || h.hex || i.hex || k.hex || l.hex || m.hex
              FROM pair a, pair b, pair c, pair d, pair e, pair g, pair h, pair i, pair k, pair l, pair m
              WHERE a.digits = substr(f.MD5, 1, 2) AND b.digits = substr(f.MD5, 3, 2) AND c.digits = substr(f.MD5, 5, 2)
                AND d.digits = substr(f.MD5, 7, 2) AND e.digits = substr(f.MD5, 9, 2) AND g.digits = substr(f.MD5, 11, 2)
                AND h.digits = substr(f.MD5, 13, 2) AND i.digits = substr(f.MD5, 15, 2) AND k.digits = substr(f.MD5, 17, 2)
                AND l.digits = substr(f.MD5, 19, 2) AND m.digits = substr(f.MD5, 21, 2))
          END AS hex
        FROM seen f WHERE NOT f.is_usual
        LIMIT -1 OFFSET 0)
      LIMIT -1 OFFSET 0)
    LIMIT -1 OFFSET 0);

-- The rows of File in the order of the new catalogue. `lstat` is the text of 14 numbers, or what could not be cut so (`is_odd`). `digest` is
-- empty or an MD5 in hexadecimal. `other` is 0 without another digest, 1 with one that a restore passes over, 2 with one that it takes for a
-- fault. The words of LStat that are needed are those of mode, size, LinkFI and stream; the first three may be NULL if these files are of
-- no interest: with a stream that is supported, and below 2^30 bytes.
CREATE TABLE entry(JobId INTEGER NOT NULL, FileIndex INTEGER NOT NULL, folder INTEGER, Filename BLOB, lstat TEXT, is_odd INTEGER,
  mode TEXT, size TEXT, link TEXT, stream TEXT, digest TEXT, other INTEGER, is_bad_path INTEGER, is_outside INTEGER, is_twice INTEGER);
INSERT INTO entry
  SELECT JobId, FileIndex, number, Filename, lstat, is_odd, mode, size, link, stream, digest, other, is_bad_path, is_outside, 0
  FROM (SELECT * FROM usual_entry UNION ALL SELECT * FROM other_entry)
  ORDER BY JobId, FileIndex <= 0, abs(FileIndex), is_bad_path, FileId;

-- Of several rows with one FileIndex the first is taken.
UPDATE entry SET is_twice = 1
  WHERE FileIndex > 2147483647 OR rowid IN (
    SELECT b.rowid FROM entry a CROSS JOIN entry b ON b.rowid = a.rowid + 1
    WHERE a.JobId = b.JobId AND a.FileIndex = b.FileIndex AND a.FileIndex > 0);

-- LStat that is not plain, word by word. A word is good if it is a number from -2^63 to 2^63 - 1.
CREATE TABLE word(id INTEGER NOT NULL, n INTEGER NOT NULL, word TEXT NOT NULL, is_good INTEGER NOT NULL, PRIMARY KEY (id, n)) WITHOUT ROWID;
INSERT INTO word
  WITH RECURSIVE cut(id, n, word, rest) AS (
    SELECT rowid, 0, '', ltrim(lstat, ' ') || ' ' FROM entry WHERE is_odd AND instr(CAST(lstat AS BLOB), x'00') = 0
    UNION ALL
    SELECT id, n + 1, substr(rest, 1, instr(rest, ' ') - 1), ltrim(substr(rest, instr(rest, ' ') + 1), ' ')
    FROM cut WHERE ltrim(rest, ' ') <> '' AND n < 16)
  SELECT id, n, word, digits <> '' AND digits NOT GLOB '*[^A-Za-z0-9+/]*'
    AND (length(ltrim(digits, 'A')) <= 10 OR ltrim(digits, 'A') GLOB '[BCDEFGH]??????????'
      OR word GLOB '-*' AND ltrim(digits, 'A') = 'IAAAAAAAAAA')
  FROM (SELECT id, n, word, CASE WHEN word GLOB '-*' THEN substr(word, 2) ELSE word END AS digits FROM cut WHERE n > 0);
-- `lstat` is NULL if it cannot be read.
CREATE TABLE odd(id INTEGER PRIMARY KEY, lstat TEXT, mode TEXT, size TEXT, link TEXT, stream TEXT);
INSERT INTO odd
  SELECT rowid,
    CASE WHEN (SELECT count(*) >= 13 AND min(is_good) FROM word WHERE id = entry.rowid AND n <= 14) THEN
      (SELECT group_concat(word, ' ') || CASE count(*) WHEN 13 THEN ' A' ELSE '' END
        FROM (SELECT word FROM word WHERE id = entry.rowid AND n <= 14 ORDER BY n)) END,
    (SELECT word FROM word WHERE id = entry.rowid AND n = 3), (SELECT word FROM word WHERE id = entry.rowid AND n = 8),
    ifnull((SELECT word FROM word WHERE id = entry.rowid AND n = 14), 'A'),
    ifnull((SELECT word FROM word WHERE id = entry.rowid AND n = 16), 'C')
  FROM entry WHERE is_odd;
UPDATE entry SET (lstat, mode, size, link, stream) = (
    SELECT ifnull(lstat, 'A A A A A A A A A A A A A A'), iif(lstat IS NULL, 'A', mode), iif(lstat IS NULL, 'A', size),
      iif(lstat IS NULL, 'A', link), iif(lstat IS NULL, 'C', stream)
    FROM odd WHERE id = entry.rowid)
  WHERE is_odd;

-- What is said of rows that are taken. A regular file has bytes of its own if it is not empty and no hard link.
CREATE VIEW judged AS
  SELECT JobId, is_outside, other > 0 AS is_other, digest <> '' AND stream = 'G' AS is_sparse,
    other = 2 OR is_regular AND stream NOT IN ('A', 'C', 'G') AS is_unsupported,
    is_regular AND (length(ltrim(size, 'A')) > 6 OR length(ltrim(size, 'A')) = 6 AND ltrim(size, 'A') <> 'BAAAAA') AS is_large
  FROM (
    SELECT *, ifnull(mode GLOB 'I??' AND ltrim(size, 'A') <> '' AND size NOT GLOB '-*' AND ltrim(link, 'A') = '', 0) AS is_regular
    FROM entry
    WHERE (is_outside OR other > 0 OR stream = 'G' OR mode IS NOT NULL) AND FileIndex > 0 AND NOT is_bad_path AND NOT is_twice);
CREATE TABLE said AS
  SELECT JobId, sum(is_outside) AS outside, sum(is_other) AS digest, sum(is_sparse) AS sparse, sum(is_unsupported) AS unsupported,
    sum(is_large) AS large
  FROM judged GROUP BY JobId;
INSERT INTO line
  SELECT * FROM (
    SELECT JobId, 'outside', outside AS count FROM said UNION ALL SELECT JobId, 'digest', digest FROM said
    UNION ALL SELECT JobId, 'sparse', sparse FROM said UNION ALL SELECT JobId, 'unsupported', unsupported FROM said
    UNION ALL SELECT JobId, 'large', large FROM said)
  WHERE count > 0;
INSERT INTO line SELECT JobId, 'path', count(*) FROM entry WHERE is_bad_path GROUP BY JobId;
INSERT INTO line SELECT JobId, 'index', count(*) FROM entry WHERE is_twice AND NOT is_bad_path GROUP BY JobId;
INSERT INTO line
  SELECT e.JobId, 'lstat', count(*) FROM odd o JOIN entry e ON e.rowid = o.id
  WHERE o.lstat IS NULL AND NOT e.is_bad_path AND NOT e.is_twice GROUP BY e.JobId;

-- The new catalogue.
CREATE TABLE used(folder INTEGER PRIMARY KEY, PathId INTEGER NOT NULL);
INSERT INTO used
  SELECT folder, row_number() OVER (ORDER BY folder) FROM (SELECT DISTINCT folder FROM entry WHERE NOT is_bad_path AND NOT is_twice);
INSERT INTO new.Client SELECT row_number() OVER (ORDER BY client), client FROM (SELECT DISTINCT client FROM job WHERE kind IS NULL);
INSERT INTO new.FileSet SELECT row_number() OVER (ORDER BY fileset), fileset FROM (SELECT DISTINCT fileset FROM job WHERE kind IS NULL);
INSERT INTO new.Media
  SELECT row_number() OVER (ORDER BY volume), volume, 'File'
  FROM (SELECT DISTINCT s.volume FROM span s JOIN job j ON j.JobId = s.JobId WHERE j.kind IS NULL);
-- Of equal paths the one of the least number.
CREATE TABLE place(folder INTEGER PRIMARY KEY, PathId INTEGER NOT NULL);
INSERT OR IGNORE INTO place SELECT number, PathId FROM folder ORDER BY PathId;
INSERT INTO new.Path
  SELECT u.PathId, p.Path FROM used u CROSS JOIN place f ON f.folder = u.folder CROSS JOIN in_path p ON p.PathId = f.PathId
  ORDER BY u.folder;
INSERT INTO new.Job
  SELECT j.JobId, 'B', j.level, c.ClientId, j.status, j.start, f.FileSetId, j.VolSessionId, j.VolSessionTime
  FROM job j JOIN new.Client c ON c.Name = j.client JOIN new.FileSet f ON f.FileSet = j.fileset
  WHERE j.kind IS NULL ORDER BY j.JobId;
INSERT INTO new.JobMedia
  SELECT NULL, s.JobId, m.MediaId, s.FirstIndex, s.LastIndex, s.StartFile, s.EndFile, s.StartBlock, s.EndBlock, s.VolIndex
  FROM span s JOIN job j ON j.JobId = s.JobId JOIN new.Media m ON m.VolumeName = s.volume
  WHERE j.kind IS NULL ORDER BY s.JobId, s.VolIndex;
INSERT INTO new.File
  SELECT NULL, max(e.FileIndex, 0), e.JobId, u.PathId, e.Filename, CASE WHEN e.FileIndex > 0 THEN e.lstat ELSE '' END,
    CASE WHEN e.stream = 'G' THEN '' ELSE e.digest END
  FROM entry e CROSS JOIN used u ON u.folder = e.folder
  WHERE NOT e.is_bad_path AND NOT e.is_twice ORDER BY e.rowid;
COMMIT;
