-- A NULL operand gives NULL, also over a zero divisor; a zero divisor raises. A comparison with NULL is not true.
CREATE TABLE m (k INTEGER PRIMARY KEY, a INTEGER, b INTEGER);
INSERT INTO m VALUES (1, 7, 2), (2, NULL, 0), (3, 7, NULL), (4, 7, 0);
CREATE FUNCTION ratio (x INTEGER, y INTEGER) RETURNS INTEGER RETURN x / y;
SELECT k, ratio(a, b) FROM m WHERE k < 4;
SELECT k, ratio(a, b) FROM m WHERE k = 4;
SELECT k FROM m WHERE b = 0;
SELECT k FROM m WHERE a = NULL;
