-- Reads Bacula's catalogue in a file of SQLite into the tables of stage.sql. import.sh replaces the words with an `@`.
PRAGMA busy_timeout = 60000;
ATTACH '@uri@' AS bacula;
BEGIN;
INSERT INTO in_client SELECT ClientId, CAST(Name AS BLOB) FROM @Client;
INSERT INTO in_fileset SELECT FileSetId, CAST(FileSet AS BLOB) FROM @FileSet;
INSERT INTO in_media SELECT MediaId, CAST(VolumeName AS BLOB), ifnull(Enabled, 1) FROM @Media;
INSERT INTO in_job
  SELECT j.JobId, CAST(j.Type AS BLOB), CAST(j.Level AS BLOB), CAST(j.JobStatus AS BLOB), ifnull(j.ClientId, 0), ifnull(j.FileSetId, 0),
    CASE typeof(j.StartTime) WHEN 'text' THEN j.StartTime ELSE '' END, CASE typeof(j.EndTime) WHEN 'text' THEN j.EndTime ELSE '' END,
    CASE typeof(j.RealEndTime) WHEN 'text' THEN j.RealEndTime ELSE '' END, ifnull(j.JobTDate, 0), ifnull(j.VolSessionId, 0),
    ifnull(j.VolSessionTime, 0), ifnull(j.JobFiles, 0), ifnull(j.HasBase, 0), ifnull(j.PurgedFiles, 0)
  FROM @Job j LEFT JOIN @Client c ON c.ClientId = j.ClientId LEFT JOIN @FileSet s ON s.FileSetId = j.FileSetId
  WHERE @within@;
INSERT INTO in_jobmedia
  SELECT JobMediaId, JobId, MediaId, FirstIndex, LastIndex, StartFile, EndFile, StartBlock, EndBlock, VolIndex FROM @JobMedia;
INSERT INTO in_path SELECT PathId, CAST(Path AS BLOB) FROM @Path WHERE @all@ = 1 OR PathId IN (
  SELECT f.PathId FROM @File f WHERE f.JobId IN (SELECT JobId FROM in_job));
INSERT INTO in_file
  SELECT 'file', f.FileId, f.FileIndex, f.JobId, f.PathId, ifnull(@name@, '/'), f.LStat, f.MD5, ''
  FROM @File f@names@
  WHERE f.JobId IN (SELECT JobId FROM in_job WHERE Type = x'42');
INSERT INTO in_count SELECT f.JobId, count(*) FROM @File f WHERE f.JobId IN (SELECT JobId FROM in_job WHERE Type <> x'42') GROUP BY f.JobId;
INSERT INTO in_orphan SELECT f.JobId, count(*) FROM @File f WHERE @all@ = 1 AND f.JobId NOT IN (SELECT JobId FROM @Job) GROUP BY f.JobId;
INSERT INTO in_end VALUES (1);
COMMIT;
