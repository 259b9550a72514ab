-- Readings of meters come in as texts. Each is taken for itself: a handler keeps what is wrong with
-- one, by its SQLSTATE and text, and goes on with the next. What no handler takes has two
-- conditions: what was raised first, and what the procedure makes of it.
CREATE TABLE came_in (n INTEGER PRIMARY KEY, meter VARCHAR(8), reading VARCHAR(12));
CREATE TABLE meter (name VARCHAR(4) PRIMARY KEY, reading INTEGER NOT NULL);
CREATE TABLE wrong (n INTEGER PRIMARY KEY, state VARCHAR(5), why VARCHAR(40));
INSERT INTO came_in VALUES (1, 'gas', '1200'), (2, 'water', '77'), (3, 'heat', '12 kWh'),
  (4, 'gas', ' 1250 '), (5, 'gas', '1240'), (6, 'heat', NULL), (7, 'sun', '5'), (8, 'heat', '300');
INSERT INTO meter VALUES ('gas', 1100), ('heat', 0);
CREATE PROCEDURE read_one (which VARCHAR(4), reading VARCHAR(12)) BEGIN ATOMIC
  DECLARE before, now INTEGER;
  DECLARE falls CONDITION FOR SQLSTATE '45010';
  DECLARE EXIT HANDLER FOR NOT FOUND
    SIGNAL SQLSTATE '45011' SET MESSAGE_TEXT = 'no meter ' || which;
  SET now = CAST(reading AS INTEGER);
  SELECT m.reading INTO before FROM meter AS m WHERE name = which;
  UPDATE meter SET reading = now WHERE name = which;
  IF now < before THEN
    SIGNAL falls SET MESSAGE_TEXT = 'falls by ' || CAST(before - now AS VARCHAR(12));
  END IF;
END;
CREATE PROCEDURE read_all (OUT taken INTEGER, OUT not_taken INTEGER) BEGIN
  DECLARE state VARCHAR(5);
  DECLARE why VARCHAR(40);
  SET taken = 0;
  SET not_taken = 0;
  FOR c AS SELECT n, meter, reading FROM came_in DO
    BEGIN
      DECLARE EXIT HANDLER FOR SQLEXCEPTION BEGIN
        GET STACKED DIAGNOSTICS CONDITION 1 state = RETURNED_SQLSTATE, why = MESSAGE_TEXT;
        SET not_taken = not_taken + 1;
        INSERT INTO wrong VALUES (c.n, state, why);
      END;
      CALL read_one(c.meter, c.reading);
      SET taken = taken + 1;
    END;
  END FOR;
END;
CALL read_all(?, ?);
SELECT n, state, why FROM wrong;
SELECT name, reading FROM meter;
CREATE PROCEDURE read_by_hand (which VARCHAR(4), reading VARCHAR(12)) BEGIN
  DECLARE EXIT HANDLER FOR SQLEXCEPTION
    RESIGNAL SQLSTATE '45020' SET MESSAGE_TEXT = 'reading of ' || which || ' not taken';
  CALL read_one(which, reading);
END;
CALL read_by_hand('gas', '1300');
CALL read_by_hand('gas', '13oo');
CALL read_by_hand('heat', '299');
SELECT name, reading FROM meter;
