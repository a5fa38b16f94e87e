-- The files of two_jobs.sql: of each job one that was saved, and a folder that was deleted.
INSERT INTO File VALUES (1, 1, 2, 1, x'74776f', '1 2 33188 1 0 0 0 5 4096 1 3 4 5', 'abababababababababababababababab');
INSERT INTO File VALUES (2, 0, 2, 2, x'', '', '');
INSERT INTO File VALUES (9, 0, 1, 2, x'', '', '');
INSERT INTO File VALUES (5, 1, 1, 1, x'6f6e65', '1 2 33188 1 0 0 0 5 4096 1 3 4 5', 'abababababababababababababababab');
