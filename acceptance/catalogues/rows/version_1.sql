-- The files of two_jobs.sql in version 1, whose tables are those of ../order_version_1.sql.
INSERT INTO Version VALUES (1);
INSERT INTO Filename VALUES (1, x'74776f');
INSERT INTO Filename VALUES (2, x'');
INSERT INTO Filename VALUES (3, x'6f6e65');
INSERT INTO File VALUES (1, 1, 2, 1, 1, '1 2 33188 1 0 0 0 5 4096 1 3 4 5', 'abababababababababababababababab');
INSERT INTO File VALUES (2, 0, 2, 2, 2, '', '');
INSERT INTO File VALUES (9, 0, 1, 2, 2, '', '');
INSERT INTO File VALUES (5, 1, 1, 1, 3, '1 2 33188 1 0 0 0 5 4096 1 3 4 5', 'abababababababababababababababab');
