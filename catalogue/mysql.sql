-- Reads Bacula's catalogue in MySQL or MariaDB, in one snapshot if its tables have transactions, and prints the lines that lines.sql takes.
-- import.sh replaces the words with an `@`. Of most rows of File it says that LStat is usual or plain, and writes the digest in hexadecimal.
-- These rows are joined with their jobs: of `IN (SELECT ..)` the server would keep each row to see that it comes once.
SET SESSION sql_select_limit = 18446744073709551615;
SET SESSION sql_big_selects = 1;
SET SESSION TRANSACTION ISOLATION LEVEL REPEATABLE READ;
START TRANSACTION WITH CONSISTENT SNAPSHOT, READ ONLY;
SELECT 'client', ClientId, 0, 0, 0, CAST(Name AS BINARY), '', '', '' FROM @Client;
SELECT 'fileset', FileSetId, 0, 0, 0, CAST(FileSet AS BINARY), '', '', '' FROM @FileSet;
SELECT 'media', MediaId, ifnull(Enabled, 1), 0, 0, CAST(VolumeName AS BINARY), '', '', '' FROM @Media;
SELECT 'job', concat('[', j.JobId, ',', ifnull(j.ClientId, 0), ',', ifnull(j.FileSetId, 0), ',"',
    ifnull(date_format(j.StartTime, '%Y-%m-%d %H:%i:%s'), ''), '","', ifnull(date_format(j.EndTime, '%Y-%m-%d %H:%i:%s'), ''), '","',
    ifnull(date_format(j.RealEndTime, '%Y-%m-%d %H:%i:%s'), ''), '",', ifnull(j.JobTDate, 0), ',', ifnull(j.VolSessionId, 0), ',',
    ifnull(j.VolSessionTime, 0), ',', ifnull(j.JobFiles, 0), ',', ifnull(j.HasBase, 0), ',', ifnull(j.PurgedFiles, 0), ']'), 0, 0, 0,
    CAST(ifnull(j.Type, '') AS BINARY), CAST(ifnull(j.Level, '') AS BINARY), CAST(ifnull(j.JobStatus, '') AS BINARY), ''
  FROM @Job j LEFT JOIN @Client c ON c.ClientId = j.ClientId LEFT JOIN @FileSet s ON s.FileSetId = j.FileSetId
  WHERE @within@;
SELECT 'jobmedia', concat('[', JobMediaId, ',', JobId, ',', MediaId, ',', FirstIndex, ',', LastIndex, ',', StartFile, ',', EndFile, ',',
    StartBlock, ',', EndBlock, ',', VolIndex, ']'), 0, 0, 0, '', '', '', ''
  FROM @JobMedia;
SELECT 'path', PathId, 0, 0, 0, CAST(Path AS BINARY), '', '', ''
  FROM @Path WHERE @all@ = 1 OR PathId IN (
    SELECT f.PathId FROM @File f JOIN @Job j ON j.JobId = f.JobId LEFT JOIN @Client c ON c.ClientId = j.ClientId
      LEFT JOIN @FileSet s ON s.FileSetId = j.FileSetId
    WHERE @within@);
SELECT 'count', f.JobId, count(*), 0, 0, '', '', '', ''
  FROM @File f JOIN @Job j ON j.JobId = f.JobId LEFT JOIN @Client c ON c.ClientId = j.ClientId
    LEFT JOIN @FileSet s ON s.FileSetId = j.FileSetId
  WHERE j.Type <> 'B' AND @within@
  GROUP BY f.JobId;
SELECT 'orphan', f.JobId, count(*), 0, 0, '', '', '', ''
  FROM @File f LEFT JOIN @Job j ON j.JobId = f.JobId
  WHERE @all@ = 1 AND j.JobId IS NULL
  GROUP BY f.JobId;
SELECT
    CASE
      WHEN CONVERT(f.LStat USING latin1) COLLATE latin1_bin REGEXP _latin1'[^A-Za-z0-9+/ ]|[^ ]{11}' THEN 'file'
      WHEN CONVERT(right(f.LStat, 4) USING latin1) COLLATE latin1_bin REGEXP _latin1'^ [^ ] [ACG]$'
        AND length(f.LStat) - length(replace(f.LStat, ' ', '')) = 15 AND instr(f.LStat, '  ') = 0 AND left(f.LStat, 1) <> ' '
        AND length(substring_index(substring_index(f.LStat, ' ', 8), ' ', -1)) <= 5 THEN 'usual'
      ELSE 'plain'
    END, f.FileId, f.FileIndex, f.JobId, f.PathId,
    CAST(ifnull(@name@, '/') AS BINARY), CAST(ifnull(f.LStat, '') AS BINARY), CAST(ifnull(f.MD5, '') AS BINARY),
    if(length(f.MD5) = 22 AND to_base64(from_base64(concat(f.MD5, '=='))) = concat(f.MD5, '=='),
      lower(hex(from_base64(concat(f.MD5, '==')))), '')
  FROM @File f JOIN @Job j ON j.JobId = f.JobId LEFT JOIN @Client c ON c.ClientId = j.ClientId
    LEFT JOIN @FileSet s ON s.FileSetId = j.FileSetId@names@
  WHERE j.Type = 'B' AND @within@;
SELECT 'end', 0, 0, 0, 0, '', '', '', '';
COMMIT;
