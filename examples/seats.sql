-- Seats of a theatre: a key of two columns, bookings moved by UPDATE, refunds by DELETE. All rows of a change are evaluated before
-- the first is stored, keys are judged at its end, and a change that raises leaves every row as it was.
CREATE TABLE seat (line VARCHAR(2), place INTEGER, price INTEGER NOT NULL, guest VARCHAR(8), PRIMARY KEY (line, place));
INSERT INTO seat (line, place, price) VALUES ('B', 1, 40), ('A', 2, 60), ('A', 1, 60), ('B', 2, 40);
CREATE TABLE sale (id INTEGER PRIMARY KEY, guest VARCHAR(8), paid INTEGER);
CREATE FUNCTION taken (l VARCHAR(2)) RETURNS INTEGER RETURN (SELECT COUNT(guest) FROM seat WHERE line = l);
UPDATE seat SET guest = 'Ada' WHERE line = 'A' AND place = 2;
UPDATE seat SET guest = 'Ben', price = price - 5 WHERE line = 'B';
INSERT INTO sale SELECT place + 100 * taken(line), guest, price FROM seat WHERE guest IS NOT NULL;
SELECT * FROM sale;
UPDATE seat SET place = 3 - place;
SELECT line, place, guest FROM seat;
UPDATE seat SET place = 1;
UPDATE seat SET price = 100 / (taken(line) - 1);
UPDATE seat SET price = NULL WHERE place = 2;
DELETE FROM sale WHERE paid < (SELECT MAX(paid) FROM sale);
DELETE FROM sale WHERE guest = 'Cem';
SELECT * FROM sale;
DROP TABLE seat;
DROP FUNCTION taken;
DROP TABLE seat RESTRICT;
SELECT * FROM seat;
