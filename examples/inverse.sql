-- The inverse of each row: a row with zero raises, and left out it does no harm.
CREATE TABLE t (k INTEGER PRIMARY KEY, a INTEGER);
INSERT INTO t VALUES (2,10),(1,NULL),(3,0);
CREATE FUNCTION inv (x INTEGER) RETURNS INTEGER RETURN 100 / x;
SELECT k, inv(a) FROM t;
SELECT k, inv(a) FROM t WHERE a <> 0;
