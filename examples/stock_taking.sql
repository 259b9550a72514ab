-- A stock: goods come in and are taken out by procedures. What is taken is checked and booked as
-- one ATOMIC statement, so that a refusal leaves the stock and the book as they were.
CREATE TABLE stock (item VARCHAR(10) PRIMARY KEY, held INTEGER NOT NULL, lowest INTEGER NOT NULL);
CREATE TABLE book (n INTEGER PRIMARY KEY, item VARCHAR(10) NOT NULL, change INTEGER NOT NULL);
CREATE PROCEDURE note (what VARCHAR(10), change INTEGER) BEGIN
  DECLARE next_one INTEGER;
  SELECT COUNT(*) + 1 INTO next_one FROM book;
  INSERT INTO book VALUES (next_one, what, change);
END;
CREATE PROCEDURE bring (what VARCHAR(10), count_of INTEGER) BEGIN ATOMIC
  DECLARE CONTINUE HANDLER FOR NOT FOUND INSERT INTO stock VALUES (what, count_of, 0);
  UPDATE stock SET held = held + count_of WHERE item = what;
  CALL note(what, count_of);
END;
CREATE PROCEDURE take (what VARCHAR(10), count_of INTEGER, OUT left_over INTEGER,
                       OUT order_more BOOLEAN)
BEGIN ATOMIC
  DECLARE least INTEGER;
  DECLARE unknown_item CONDITION FOR SQLSTATE '45001';
  DECLARE too_few CONDITION FOR SQLSTATE '45002';
  DECLARE EXIT HANDLER FOR NOT FOUND
    SIGNAL unknown_item SET MESSAGE_TEXT = 'no item ' || what;
  CALL note(what, -count_of);
  UPDATE stock SET held = held - count_of WHERE item = what;
  SELECT held, lowest INTO left_over, least FROM stock WHERE item = what;
  IF left_over < 0 THEN
    SIGNAL too_few SET MESSAGE_TEXT = CAST(-left_over AS VARCHAR(20)) || ' too few of ' || what;
  END IF;
  SET order_more = left_over < least;
END;
CALL bring('nails', 500);
CALL bring('screws', 80);
UPDATE stock SET lowest = 100;
CALL bring('screws', 40);
CALL take('nails', 120, ?, ?);
CALL take('screws', 30, ?, ?);
CALL take('screws', 91, ?, ?);
CALL take('hammers', 1, ?, ?);
SELECT item, held FROM stock;
SELECT n, item, change FROM book;
