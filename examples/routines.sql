-- Routines and blocks, each checked alone: definitions are carried out, and all else is bound.
CREATE TABLE account (k INTEGER PRIMARY KEY, owner VARCHAR(20) NOT NULL, balance INTEGER NOT NULL);
CREATE TABLE booking (k INTEGER PRIMARY KEY, account INTEGER NOT NULL, amount INTEGER NOT NULL);
INSERT INTO account VALUES (1, 'Ada', 100), (2, 'Grace', 50);
CREATE FUNCTION fee (amount INTEGER) RETURNS INTEGER DETERMINISTIC RETURN amount / 100;
CREATE FUNCTION total (who INTEGER) RETURNS INTEGER READS SQL DATA
  RETURN (SELECT SUM(amount) FROM booking WHERE account = who);
CREATE FUNCTION balance_of (who INTEGER) RETURNS INTEGER READS SQL DATA BEGIN
  DECLARE held INTEGER DEFAULT 0;
  SELECT balance INTO held FROM account WHERE k = who;
  RETURN held - fee(held);
END;
CREATE FUNCTION factorial (n INTEGER) RETURNS INTEGER
  IF n <= 1 THEN RETURN 1; ELSE RETURN n * factorial(n - 1); END IF;
CREATE PROCEDURE book (IN who INTEGER, IN amount INTEGER, OUT left_over INTEGER) MODIFIES SQL DATA
BEGIN ATOMIC
  DECLARE next_key INTEGER;
  DECLARE overdrawn CONDITION FOR SQLSTATE '45000';
  DECLARE UNDO HANDLER FOR SQLSTATE '22003' SET left_over = NULL;
  SELECT COALESCE(MAX(k), 0) + 1 INTO next_key FROM booking;
  INSERT INTO booking VALUES (next_key, who, amount);
  UPDATE account SET balance = balance + amount WHERE k = who;
  SELECT balance INTO left_over FROM account WHERE k = who;
  IF left_over < 0 THEN SIGNAL overdrawn SET MESSAGE_TEXT = 'overdrawn'; END IF;
END;
CREATE PROCEDURE book_all (INOUT count_done INTEGER) MODIFIES SQL DATA
BEGIN
  DECLARE rest INTEGER;
  each_account: FOR a AS SELECT k AS number_of, balance FROM account ORDER BY number_of DO
    IF a.balance = 0 THEN ITERATE each_account; END IF;
    CALL book(number_of, 1, rest);
    SET count_done = count_done + 1;
  END FOR each_account;
END;
CALL book(1, 10, ?);
CALL book_all(0);
CALL book_all(?);
CALL book(1, 10, 11);
CALL book(1, 10);
EXPLAIN SELECT owner, balance_of(k) AS net FROM account ORDER BY net;
BEGIN DECLARE a INTEGER; CALL book(1, 10, a); END;
BEGIN DECLARE a INTEGER; CALL book(1, 10, b); END;
BEGIN
  DECLARE next_one VARCHAR(20);
  DECLARE owners CURSOR FOR SELECT owner FROM account ORDER BY owner;
  DECLARE EXIT HANDLER FOR NOT FOUND CLOSE owners;
  OPEN owners;
  LOOP FETCH NEXT FROM owners INTO next_one; END LOOP;
END;
BEGIN
  DECLARE next_one INTEGER;
  DECLARE owners CURSOR FOR SELECT owner FROM account;
  FETCH owners INTO next_one;
END;
BEGIN DECLARE UNDO HANDLER FOR SQLEXCEPTION BEGIN END; END;
BEGIN DECLARE x INTEGER; DECLARE x INTEGER; END;
l: BEGIN l: LOOP LEAVE l; END LOOP; END;
l: BEGIN LEAVE m; END l;
l: BEGIN END m;
BEGIN RETURN 1; END;
BEGIN SIGNAL SQLSTATE '00000'; END;
CREATE FUNCTION fee () RETURNS INTEGER RETURN 1;
CREATE FUNCTION quiet () RETURNS INTEGER CONTAINS SQL RETURN (SELECT COUNT(*) FROM account);
UPDATE account SET balance = balance_of(k);
DROP TABLE account;
DROP PROCEDURE fee;
DROP FUNCTION factorial;
DROP PROCEDURE book_all;
VALUES (factorial(5));
