-- Orders against what is in stock: a scalar subquery that reads the row outside it, and one that does not; IN and EXISTS; a function
-- whose body is a query, called in another query; NOT IN over a list with NULL is never true; and several rows are no value.
CREATE TABLE item (id INTEGER PRIMARY KEY, name VARCHAR(10) NOT NULL, price INTEGER);
CREATE TABLE stock (id INTEGER PRIMARY KEY, item INTEGER, place VARCHAR(5), pieces INTEGER);
CREATE TABLE ordered (id INTEGER PRIMARY KEY, item INTEGER, pieces INTEGER);
INSERT INTO item VALUES (1, 'bolt', 3), (2, 'nut', 2), (3, 'washer', NULL), (4, 'rivet', 5);
INSERT INTO stock VALUES (10, 1, 'A1', 40), (11, 2, 'A1', 15), (12, 1, 'B2', 25), (13, 4, 'B2', 0);
INSERT INTO ordered VALUES (100, 1, 50), (101, 2, 20), (102, 1, 10), (103, NULL, 7), (104, 3, 1);
CREATE FUNCTION in_stock (i INTEGER) RETURNS INTEGER RETURN COALESCE((SELECT SUM(pieces) FROM stock WHERE item = i), 0);
SELECT name, in_stock(id) AS pieces FROM item ORDER BY pieces DESC;
SELECT name, (SELECT SUM(pieces) FROM ordered WHERE ordered.item = item.id) FROM item;
SELECT id FROM ordered WHERE pieces > in_stock(item) AND item IN (SELECT id FROM item WHERE price IS NOT NULL);
SELECT name FROM item WHERE EXISTS (SELECT place FROM stock WHERE stock.item = item.id AND stock.pieces > (SELECT MAX(pieces) FROM ordered WHERE ordered.item = item.id) - 30);
SELECT name FROM item WHERE id NOT IN (SELECT item FROM ordered);
SELECT name FROM item WHERE id NOT IN (SELECT item FROM ordered WHERE item IS NOT NULL);
SELECT place, SUM(pieces * (SELECT price FROM item WHERE id = stock.item)) AS worth FROM stock GROUP BY place HAVING SUM(pieces) > (SELECT MIN(pieces) FROM ordered);
INSERT INTO ordered VALUES ((SELECT MAX(id) FROM ordered) + 1, 2, in_stock(2));
SELECT id, pieces FROM ordered WHERE id = (SELECT MAX(id) FROM ordered);
SELECT name, (SELECT place FROM stock WHERE stock.item = item.id) FROM item;
SELECT name, (SELECT 1000 / pieces FROM stock WHERE stock.item = item.id AND place = 'B2') FROM item;
