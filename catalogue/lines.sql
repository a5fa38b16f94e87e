-- Moves what the client of a server printed from in_file, into which all its lines came, to the other tables of stage.sql. A line has
-- nine fields with a tab between two. The first is its kind. The second is a number, or an array of them. Names are in the sixth, and
-- more texts in the two after it. The lines of files come last, but for one that says that nothing is missing.
CREATE TABLE bound(first INTEGER, last INTEGER);
INSERT INTO bound
  SELECT ifnull((SELECT rowid FROM in_file WHERE kind IN ('file', 'plain', 'usual') ORDER BY rowid LIMIT 1), max(rowid)), max(rowid) FROM in_file;

-- A backslash and a letter stand for a backslash, and for a byte that would end a field.
CREATE TABLE escaped(id INTEGER, field INTEGER, text TEXT, PRIMARY KEY (id, field)) WITHOUT ROWID;
INSERT INTO escaped
  SELECT f.rowid, n, CASE n WHEN 1 THEN Filename WHEN 2 THEN LStat ELSE MD5 END
  FROM in_file f CROSS JOIN (SELECT 1 AS n UNION ALL SELECT 2 UNION ALL SELECT 3)
  WHERE instr(Filename, '\') OR kind = 'file' AND (instr(LStat, '\') OR instr(MD5, '\'));
UPDATE escaped SET text = replace(replace(replace(replace(replace(replace(replace(replace(replace(text, '\\', '\' || char(1)),
  '\b', char(8)), '\t', char(9)), '\n', char(10)), '\v', char(11)), '\f', char(12)), '\r', char(13)), '\0', CAST(x'00' AS TEXT)),
  '\' || char(1), '\');
UPDATE in_file SET Filename = (SELECT text FROM escaped WHERE id = in_file.rowid AND field = 1),
    LStat = (SELECT text FROM escaped WHERE id = in_file.rowid AND field = 2),
    MD5 = (SELECT text FROM escaped WHERE id = in_file.rowid AND field = 3)
  WHERE rowid IN (SELECT id FROM escaped);

CREATE VIEW other AS SELECT f.* FROM bound CROSS JOIN in_file f ON f.rowid < first;
INSERT INTO in_client SELECT FileId, CAST(Filename AS BLOB) FROM other WHERE kind = 'client';
INSERT INTO in_fileset SELECT FileId, CAST(Filename AS BLOB) FROM other WHERE kind = 'fileset';
INSERT INTO in_media SELECT FileId, CAST(Filename AS BLOB), FileIndex FROM other WHERE kind = 'media';
INSERT INTO in_job
  SELECT json_extract(FileId, '$[0]'), CAST(Filename AS BLOB), CAST(LStat AS BLOB), CAST(MD5 AS BLOB), json_extract(FileId, '$[1]'),
    json_extract(FileId, '$[2]'), json_extract(FileId, '$[3]'), json_extract(FileId, '$[4]'), json_extract(FileId, '$[5]'),
    json_extract(FileId, '$[6]'), json_extract(FileId, '$[7]'), json_extract(FileId, '$[8]'), json_extract(FileId, '$[9]'),
    json_extract(FileId, '$[10]'), json_extract(FileId, '$[11]')
  FROM other WHERE kind = 'job';
INSERT INTO in_jobmedia
  SELECT json_extract(FileId, '$[0]'), json_extract(FileId, '$[1]'), json_extract(FileId, '$[2]'), json_extract(FileId, '$[3]'),
    json_extract(FileId, '$[4]'), json_extract(FileId, '$[5]'), json_extract(FileId, '$[6]'), json_extract(FileId, '$[7]'),
    json_extract(FileId, '$[8]'), json_extract(FileId, '$[9]')
  FROM other WHERE kind = 'jobmedia';
INSERT INTO in_path SELECT FileId, CAST(Filename AS BLOB) FROM other WHERE kind = 'path';
INSERT INTO in_count SELECT FileId, FileIndex FROM other WHERE kind = 'count';
INSERT INTO in_orphan SELECT FileId, FileIndex FROM other WHERE kind = 'orphan';
INSERT INTO in_end SELECT 1 FROM bound CROSS JOIN in_file f ON f.rowid = last WHERE kind = 'end';
DELETE FROM in_file WHERE rowid < (SELECT first FROM bound);
DELETE FROM in_file WHERE rowid = (SELECT last FROM bound);
