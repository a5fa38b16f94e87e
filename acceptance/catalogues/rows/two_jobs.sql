-- Two jobs of a client `web`, without their files. The first goes over two volumes, and the second over one.
INSERT INTO Client VALUES (1, 'web');
INSERT INTO FileSet VALUES (1, 'all');
INSERT INTO Media VALUES (1, 'V1', 'File');
INSERT INTO Media VALUES (2, 'V2', 'File');
INSERT INTO Path VALUES (1, x'2f612f');
INSERT INTO Path VALUES (2, x'2f612f676f6e652f');
INSERT INTO Job VALUES (2, 'B', 'F', 1, 'T', 4999999998, 1, 1, 9);
INSERT INTO Job VALUES (1, 'B', 'F', 1, 'T', 4999999999, 1, 2, 9);
INSERT INTO JobMedia VALUES (1, 2, 1, 1, 1, 1, 2, 1, 7, 1);
INSERT INTO JobMedia VALUES (2, 1, 1, 1, 1, 1, 2, 1, 7, 1);
INSERT INTO JobMedia VALUES (3, 1, 2, 1, 1, 1, 2, 1, 7, 2);
