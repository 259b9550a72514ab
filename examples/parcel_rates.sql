CREATE TABLE orders (n INTEGER PRIMARY KEY, total INTEGER, parcels INTEGER);
INSERT INTO orders VALUES (1, 90, 3), (2, 50, 0), (3, NULL, 2);
CREATE FUNCTION per_parcel (total INTEGER, parcels INTEGER) RETURNS INTEGER
BEGIN
  DECLARE EXIT HANDLER FOR SQLSTATE '22012' RETURN -1;
  RETURN total / parcels;
END;
SELECT n, per_parcel(total, parcels) FROM orders;
EXPLAIN SELECT n, per_parcel(total, parcels) FROM orders;
