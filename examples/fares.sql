-- Fares by rules that stand in functions. With run --plain each rule is run anew for each row; the
-- replies are those of a run by plans.
CREATE TABLE trips (id INTEGER PRIMARY KEY, km INTEGER NOT NULL, age INTEGER, cents INTEGER);
CREATE FUNCTION price (km INTEGER, age INTEGER) RETURNS INTEGER
  RETURN CASE WHEN age < 6 THEN 0 WHEN age < 15 THEN km * 10 / 2 ELSE 150 + km * 10 END;
CREATE FUNCTION per_km (cents INTEGER, km INTEGER) RETURNS INTEGER RETURN cents / km;
INSERT INTO trips VALUES (1, 12, 40, NULL), (2, 3, 5, NULL), (3, 0, NULL, NULL);
UPDATE trips SET cents = price(km, age) WHERE cents IS NULL;
SELECT id, cents FROM trips;
SELECT id, per_km(cents, km) FROM trips;
SELECT id, per_km(cents, km) FROM trips WHERE km > 0;
SELECT SUM(price(km, 30)) FROM trips WHERE per_km(600, km + 1) > 100;
