-- How queries are answered: a fee and its rebate in the plan, an inner plan, and a query row by row.
CREATE TABLE parcels (id INTEGER PRIMARY KEY, town INTEGER, grams INTEGER);
CREATE FUNCTION fee (grams INTEGER) RETURNS INTEGER
  RETURN CASE WHEN grams <= 500 THEN 3 WHEN grams <= 2000 THEN 5 ELSE 9 END;
CREATE FUNCTION rebate (paid INTEGER) RETURNS INTEGER RETURN paid / 10;
CREATE FUNCTION stamps (paid INTEGER) RETURNS INTEGER
  BEGIN DECLARE n INTEGER DEFAULT 0;
    WHILE n * 4 < paid DO SET n = n + 1; END WHILE;
    RETURN n;
  END;
EXPLAIN SELECT id, fee(grams) - rebate(fee(grams)) FROM parcels WHERE town = 7;
EXPLAIN SELECT town, SUM(fee(grams)) FROM parcels GROUP BY town;
EXPLAIN SELECT id FROM parcels AS p
  WHERE grams = (SELECT MAX(q.grams) FROM parcels AS q WHERE q.town = p.town);
EXPLAIN SELECT id, stamps(fee(grams)) FROM parcels;
