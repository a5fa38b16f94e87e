-- Takes the first of these jobs away.
DELETE FROM File WHERE JobId = 1;
DELETE FROM JobMedia WHERE JobId = 1;
DELETE FROM Job WHERE JobId = 1;
