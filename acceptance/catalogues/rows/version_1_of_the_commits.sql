-- The two jobs of the step `commit` in version 1, whose tables are those of ../order_version_1.sql.
INSERT INTO Version VALUES (1);
INSERT INTO Client VALUES (1, 'c');
INSERT INTO FileSet VALUES (1, 'f');
INSERT INTO Media VALUES (1, 'A', 'File');
INSERT INTO Media VALUES (2, 'B', 'File');
INSERT INTO Path VALUES (1, x'2f');
INSERT INTO Filename VALUES (1, x'61');
INSERT INTO Filename VALUES (2, x'62');
INSERT INTO Job VALUES (1, 'B', 'F', 1, 'T', 100, 1, 1, 100);
INSERT INTO Job VALUES (2, 'B', 'I', 1, 'T', 200, 1, 2, 200);
INSERT INTO JobMedia VALUES (1, 1, 1, 1, 1, 0, 0, 0, 63, 1);
INSERT INTO JobMedia VALUES (2, 1, 2, 1, 1, 0, 0, 0, 107, 2);
INSERT INTO JobMedia VALUES (3, 2, 2, 1, 1, 0, 0, 108, 171, 1);
INSERT INTO JobMedia VALUES (4, 2, 1, 1, 1, 0, 0, 64, 171, 2);
INSERT INTO File VALUES (1, 1, 1, 1, 1, 'A A IGk B A A A O A A A A A A', '');
INSERT INTO File VALUES (2, 1, 2, 1, 2, 'A A IGk B A A A O A A A A A A', '');
