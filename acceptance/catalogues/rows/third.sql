-- Gives the second of these jobs the number 3 and the session 5.
INSERT INTO Job SELECT 3, Type, Level, ClientId, JobStatus, StartTime, FileSetId, 5, VolSessionTime FROM Job WHERE JobId = 2;
UPDATE File SET JobId = 3 WHERE JobId = 2;
UPDATE JobMedia SET JobId = 3 WHERE JobId = 2;
DELETE FROM Job WHERE JobId = 2;
