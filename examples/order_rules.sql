-- The rules of a shop, as functions over a table of orders. A rule that can't judge an order raises
-- a condition with a text of its own. Others take it and answer for that row: `postage` by the
-- state, `price` by the names of two conditions, `what_is_wrong` whatever it is.
CREATE TABLE customer (id INTEGER PRIMARY KEY, kind VARCHAR(6), rebate INTEGER);
CREATE TABLE orders (id INTEGER PRIMARY KEY, customer INTEGER, pieces VARCHAR(6), each INTEGER,
  grams INTEGER, price INTEGER);
INSERT INTO customer VALUES (1, 'trade', 20), (2, 'retail', NULL), (3, 'staff', 50),
  (4, 'guest', 0);
INSERT INTO orders VALUES (100, 1, '10', 250, 400, NULL), (101, 2, '1', 1900, 3500, NULL),
  (102, 9, ' 4 ', 300, 90, NULL), (103, 2, 'two', 300, 90, NULL), (104, 3, '3', NULL, 700, NULL),
  (105, 4, '2', 100, 31000, NULL), (106, 1, '0', 250, 0, NULL), (107, 2, '2', 700, NULL, NULL);
CREATE FUNCTION number_of (pieces VARCHAR(6)) RETURNS INTEGER BEGIN
  DECLARE n INTEGER;
  DECLARE EXIT HANDLER FOR SQLSTATE '22018'
    RESIGNAL SQLSTATE '45001' SET MESSAGE_TEXT = 'no number of pieces: ' || pieces;
  SET n = CAST(pieces AS INTEGER);
  IF n < 1 THEN SIGNAL SQLSTATE '45001' SET MESSAGE_TEXT = 'nothing is ordered'; END IF;
  RETURN n;
END;
CREATE FUNCTION percent_off (who INTEGER) RETURNS INTEGER BEGIN
  DECLARE percent INTEGER;
  DECLARE class VARCHAR(6);
  DECLARE EXIT HANDLER FOR NOT FOUND
    SIGNAL SQLSTATE '45002' SET MESSAGE_TEXT = 'no customer ' || CAST(who AS VARCHAR(9));
  SELECT rebate, kind INTO percent, class FROM customer WHERE id = who;
  CASE class
    WHEN 'trade' THEN RETURN percent;
    WHEN 'staff' THEN RETURN percent;
    ELSE RETURN 0;
  END CASE;
END;
CREATE FUNCTION by_weight (grams INTEGER) RETURNS INTEGER BEGIN
  CASE
    WHEN grams <= 500 THEN RETURN 190;
    WHEN grams <= 5000 THEN RETURN 590;
    WHEN grams <= 30000 THEN RETURN 1490;
  END CASE;
END;
CREATE FUNCTION postage (grams INTEGER, cents INTEGER) RETURNS INTEGER BEGIN
  DECLARE fee INTEGER;
  DECLARE EXIT HANDLER FOR SQLSTATE '20000'
    SIGNAL SQLSTATE '45003' SET MESSAGE_TEXT =
      COALESCE(CAST(grams AS VARCHAR(9)) || ' g are too heavy', 'not weighed');
  SET fee = by_weight(grams);
  RETURN CASE WHEN cents >= 2000 THEN 0 ELSE fee END;
END;
CREATE FUNCTION price (who INTEGER, pieces VARCHAR(6), each INTEGER, grams INTEGER) RETURNS INTEGER
BEGIN
  DECLARE due, off INTEGER DEFAULT 0;
  DECLARE no_customer CONDITION FOR SQLSTATE '45002';
  DECLARE too_heavy CONDITION FOR SQLSTATE '45003';
  SET due = number_of(pieces) * each;
  IF due IS NULL THEN SIGNAL SQLSTATE '45004' SET MESSAGE_TEXT = 'no price'; END IF;
  BEGIN
    DECLARE CONTINUE HANDLER FOR no_customer SET off = -5;
    DECLARE EXIT HANDLER FOR too_heavy BEGIN
      IF grams IS NULL THEN RESIGNAL; END IF;
      SET due = due + 4900;
    END;
    SET off = percent_off(who);
    SET due = due - due * off / 100;
    SET due = due + postage(grams, due);
  END;
  RETURN due;
END;
CREATE FUNCTION what_is_wrong (who INTEGER, pieces VARCHAR(6), each INTEGER, grams INTEGER)
RETURNS VARCHAR(60) BEGIN
  DECLARE cents, n INTEGER;
  DECLARE text VARCHAR(40);
  DECLARE first VARCHAR(5);
  DECLARE EXIT HANDLER FOR SQLEXCEPTION BEGIN
    GET STACKED DIAGNOSTICS n = NUMBER;
    GET STACKED DIAGNOSTICS CONDITION 1 text = MESSAGE_TEXT;
    GET STACKED DIAGNOSTICS CONDITION n first = RETURNED_SQLSTATE;
    RETURN text || ' (' || first || ')';
  END;
  SET cents = price(who, pieces, each, grams);
  RETURN NULL;
END;
SELECT id, price(customer, pieces, each, grams) FROM orders WHERE id < 103;
SELECT id, price(customer, pieces, each, grams) FROM orders;
SELECT id, what_is_wrong(customer, pieces, each, grams) AS wrong FROM orders ORDER BY wrong DESC;
UPDATE orders SET price = price(customer, pieces, each, grams)
  WHERE what_is_wrong(customer, pieces, each, grams) IS NULL;
SELECT id, price FROM orders;
SELECT o.id, c.kind, o.price - postage(grams, price) FROM orders AS o
  JOIN customer AS c ON o.customer = c.id AND percent_off(c.id) > 0 WHERE price IS NOT NULL;
SELECT customer, COUNT(*), SUM(price), MAX(percent_off(customer)) FROM orders
  WHERE customer < 9 GROUP BY customer HAVING percent_off(customer) < 50;
SELECT id, percent_off(customer) FROM orders WHERE number_of(COALESCE(pieces, '0')) > 3;
