-- Adds 1,000 jobs of sessions of their own, without files.
CREATE TABLE Digit(D INTEGER NOT NULL);
INSERT INTO Digit VALUES (0), (1), (2), (3), (4), (5), (6), (7), (8), (9);
INSERT INTO Job SELECT 3 + a.D + 10 * b.D + 100 * c.D, 'B', 'F', 1, 'T', 5, 1, 3 + a.D + 10 * b.D + 100 * c.D, 9 FROM Digit AS a JOIN Digit AS b JOIN Digit AS c;
