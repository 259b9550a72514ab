-- A library's desk. What stands in its tables afterwards is written by run --dump.
CREATE TABLE members (id INTEGER PRIMARY KEY, name VARCHAR(20) NOT NULL);
CREATE TABLE loans (id INTEGER, title VARCHAR(20), is_back BOOLEAN, PRIMARY KEY (id, title));
CREATE FUNCTION due (n INTEGER) RETURNS INTEGER
  RETURN (SELECT COUNT(*) FROM loans WHERE id = n AND NOT is_back);
CREATE TABLE fines (id INTEGER PRIMARY KEY, cents INTEGER);
INSERT INTO members VALUES (2, 'O''Neill'), (1, 'Ito, Ken');
INSERT INTO loans VALUES (2, 'Emma', FALSE), (1, 'Ulysses', NULL), (1, 'Emma', TRUE);
INSERT INTO loans VALUES (3, 'Dune', FALSE), (1, 'Emma', FALSE);
DELETE FROM loans WHERE is_back;
SELECT name, due(id) FROM members;
