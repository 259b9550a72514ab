-- Customers with what was sent to them: a join by key, a LEFT JOIN that keeps those without a parcel, derived tables with names
-- for their columns, and an order with NULL first. The whole of FROM, with each ON, is done before WHERE sees the first row.
CREATE TABLE customer (id INTEGER PRIMARY KEY, name VARCHAR(10) NOT NULL, town VARCHAR(10));
CREATE TABLE parcel (id INTEGER PRIMARY KEY, customer INTEGER, grams INTEGER, pieces INTEGER);
INSERT INTO customer VALUES (1, 'Ada', 'Ulm'), (2, 'Ben', NULL), (3, 'Cem', 'Bonn');
INSERT INTO parcel VALUES (10, 3, 900, 3), (11, 1, 250, 1), (12, 3, 400, 0), (13, NULL, 70, 7);
CREATE FUNCTION each_piece (g INTEGER, n INTEGER) RETURNS INTEGER RETURN g / n;
SELECT * FROM customer;
SELECT c.name, p.id AS parcel FROM customer c JOIN parcel p ON p.customer = c.id;
SELECT name, p.id, grams FROM customer AS c LEFT JOIN parcel AS p ON p.customer = c.id AND grams > 500 ORDER BY grams, name DESC;
SELECT c.name, each_piece(grams, pieces) FROM customer c JOIN parcel p ON p.customer = c.id AND pieces > 0;
SELECT c.name FROM customer c JOIN parcel p ON each_piece(grams, pieces) > 0 WHERE CAST(town AS INTEGER) = 1;
SELECT k.town, h.weight FROM customer k, (SELECT customer, grams FROM parcel WHERE grams >= 400) AS h (who, weight) WHERE h.who = k.id ORDER BY weight;
SELECT name, id FROM customer, parcel;
SELECT * FROM (SELECT id, id FROM parcel) AS twice (a, b) ORDER BY c;
