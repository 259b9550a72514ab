-- What was sent to each town, and what it costs: the price of a parcel is a rule, called inside an aggregate; towns without a name
-- are one group; HAVING leaves groups out before their list is evaluated; and a query whose list names what no group has one of.
CREATE TABLE parcel (id INTEGER PRIMARY KEY, town VARCHAR(10), carrier VARCHAR(10), grams INTEGER, pieces INTEGER);
INSERT INTO parcel VALUES (1, 'Ulm', 'Blitz', 250, 1), (2, 'Bonn', 'Blitz', 900, 3), (3, NULL, 'Post', 70, 7), (4, 'Ulm', 'Post', 1250, 2);
INSERT INTO parcel VALUES (5, 'Bonn', 'Post', 400, 0), (6, NULL, 'Blitz', NULL, 1), (7, 'Kiel', 'Post', 20, 0);
CREATE FUNCTION price (g INTEGER) RETURNS INTEGER RETURN CASE WHEN g <= 500 THEN 4 ELSE 4 + (g - 1) / 500 * 3 END;
SELECT town, COUNT(*) AS parcels, COUNT(grams) AS weighed, SUM(price(grams)) AS cost, MAX(grams) FROM parcel GROUP BY town ORDER BY town;
SELECT carrier, town, AVG(grams) AS mean FROM parcel GROUP BY carrier, town HAVING COUNT(grams) > 0 ORDER BY mean DESC, town;
SELECT town, SUM(grams) / SUM(pieces) FROM parcel GROUP BY town;
SELECT town, SUM(grams) / SUM(pieces) AS each_piece FROM parcel GROUP BY town HAVING SUM(pieces) > 0;
SELECT COUNT(*), SUM(grams), MIN(town) FROM parcel WHERE carrier = 'Nobody';
SELECT t.town, p.id FROM (SELECT town, MAX(grams) FROM parcel GROUP BY town) AS t (town, most) JOIN parcel p ON p.town = t.town AND p.grams = t.most;
SELECT town, carrier, COUNT(*) FROM parcel GROUP BY town;
