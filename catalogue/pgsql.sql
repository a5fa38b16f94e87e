-- Reads Bacula's catalogue in PostgreSQL, in one snapshot, and prints the lines that lines.sql takes. import.sh replaces the words with an
-- `@`. Of most rows of File it says that LStat is usual or plain, and writes the digest in hexadecimal.
BEGIN TRANSACTION ISOLATION LEVEL REPEATABLE READ READ ONLY;
COPY (SELECT 'client', ClientId, 0, 0, 0, coalesce(Name, ''), '', '', '' FROM @Client) TO STDOUT;
COPY (SELECT 'fileset', FileSetId, 0, 0, 0, coalesce(FileSet, ''), '', '', '' FROM @FileSet) TO STDOUT;
COPY (SELECT 'media', MediaId, coalesce(Enabled, 1), 0, 0, coalesce(VolumeName, ''), '', '', '' FROM @Media) TO STDOUT;
COPY (SELECT 'job', format('[%s,%s,%s,"%s","%s","%s",%s,%s,%s,%s,%s,%s]', j.JobId, coalesce(j.ClientId, 0), coalesce(j.FileSetId, 0),
    to_char(j.StartTime, 'YYYY-MM-DD HH24:MI:SS'), to_char(j.EndTime, 'YYYY-MM-DD HH24:MI:SS'),
    to_char(j.RealEndTime, 'YYYY-MM-DD HH24:MI:SS'), coalesce(j.JobTDate, 0), coalesce(j.VolSessionId, 0),
    coalesce(j.VolSessionTime, 0), coalesce(j.JobFiles, 0), coalesce(j.HasBase, 0), coalesce(j.PurgedFiles, 0)), 0, 0, 0,
    coalesce(j.Type::text, ''), coalesce(j.Level::text, ''), coalesce(j.JobStatus::text, ''), ''
  FROM @Job j LEFT JOIN @Client c ON c.ClientId = j.ClientId LEFT JOIN @FileSet s ON s.FileSetId = j.FileSetId
  WHERE @within@) TO STDOUT;
COPY (SELECT 'jobmedia', format('[%s,%s,%s,%s,%s,%s,%s,%s,%s,%s]', JobMediaId, JobId, MediaId, FirstIndex, LastIndex,
    StartFile, EndFile, StartBlock, EndBlock, VolIndex), 0, 0, 0, '', '', '', ''
  FROM @JobMedia) TO STDOUT;
COPY (SELECT 'path', PathId, 0, 0, 0, coalesce(Path, ''), '', '', ''
  FROM @Path WHERE @all@ = 1 OR PathId IN (
    SELECT f.PathId FROM @File f WHERE f.JobId IN (
      SELECT j.JobId FROM @Job j LEFT JOIN @Client c ON c.ClientId = j.ClientId LEFT JOIN @FileSet s ON s.FileSetId = j.FileSetId
      WHERE @within@))) TO STDOUT;
COPY (SELECT 'count', f.JobId, count(*), 0, 0, '', '', '', ''
  FROM @File f
  WHERE f.JobId IN (
    SELECT j.JobId FROM @Job j LEFT JOIN @Client c ON c.ClientId = j.ClientId LEFT JOIN @FileSet s ON s.FileSetId = j.FileSetId
    WHERE j.Type <> 'B' AND @within@)
  GROUP BY f.JobId) TO STDOUT;
COPY (SELECT 'orphan', f.JobId, count(*), 0, 0, '', '', '', ''
  FROM @File f LEFT JOIN @Job j ON j.JobId = f.JobId
  WHERE @all@ = 1 AND j.JobId IS NULL
  GROUP BY f.JobId) TO STDOUT;
COPY (SELECT
    CASE
      WHEN f.LStat ~ '[^A-Za-z0-9+/ ]|[^ ]{11}' THEN 'file'
      WHEN right(f.LStat, 4) ~ '^ [^ ] [ACG]$' AND length(f.LStat) - length(replace(f.LStat, ' ', '')) = 15 AND strpos(f.LStat, '  ') = 0
        AND left(f.LStat, 1) <> ' ' AND length(split_part(f.LStat, ' ', 8)) <= 5 THEN 'usual'
      ELSE 'plain'
    END, f.FileId, f.FileIndex, f.JobId, f.PathId,
    coalesce(@name@, '/'), coalesce(f.LStat, ''), coalesce(f.MD5, ''),
    CASE WHEN length(f.MD5) = 22 AND f.MD5 !~ '[^A-Za-z0-9+/]' AND right(f.MD5, 1) IN ('A', 'Q', 'g', 'w')
      THEN encode(decode(f.MD5 || '==', 'base64'), 'hex') ELSE '' END
  FROM @File f@names@
  WHERE f.JobId IN (
    SELECT j.JobId FROM @Job j LEFT JOIN @Client c ON c.ClientId = j.ClientId LEFT JOIN @FileSet s ON s.FileSetId = j.FileSetId
    WHERE j.Type = 'B' AND @within@)) TO STDOUT;
COPY (SELECT 'end', 0, 0, 0, 0, '', '', '', '') TO STDOUT;
COMMIT;
