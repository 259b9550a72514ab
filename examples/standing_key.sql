-- An INSERT stores all of its rows or none: a key may stand once, and is not NULL.
CREATE TABLE p (k INTEGER PRIMARY KEY, a INTEGER);
INSERT INTO p VALUES (2, 20), (1, 10);
INSERT INTO p VALUES (3, 30), (2, 99);
INSERT INTO p VALUES (NULL, 5);
SELECT k, a FROM p;
