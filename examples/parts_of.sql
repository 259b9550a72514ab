-- What a thing is made of, to any depth: a function that calls itself for each part of a part. One
-- call takes one turn, and 24 of them may be active at once, so a part of itself ends in PS002.
CREATE TABLE part (name VARCHAR(10) PRIMARY KEY, grams INTEGER);
CREATE TABLE made_of (whole VARCHAR(10), piece VARCHAR(10), pieces INTEGER NOT NULL,
                      PRIMARY KEY (whole, piece));
INSERT INTO part VALUES ('bicycle', 4000), ('wheel', 900), ('spoke', 7), ('tyre', 350),
  ('bell', NULL);
INSERT INTO made_of VALUES ('bicycle', 'wheel', 2), ('wheel', 'spoke', 32), ('wheel', 'tyre', 1),
  ('bicycle', 'bell', 1);
CREATE FUNCTION grams_of (which VARCHAR(10)) RETURNS INTEGER READS SQL DATA BEGIN
  DECLARE sum_of INTEGER;
  SELECT COALESCE(grams, 0) INTO sum_of FROM part WHERE name = which;
  FOR p AS SELECT piece, pieces FROM made_of WHERE whole = which DO
    SET sum_of = sum_of + pieces * grams_of(p.piece);
  END FOR;
  RETURN sum_of;
END;
CREATE FUNCTION depth_of (which VARCHAR(10)) RETURNS INTEGER READS SQL DATA BEGIN
  DECLARE most INTEGER DEFAULT 0;
  FOR p AS SELECT depth_of(piece) AS below FROM made_of WHERE whole = which DO
    IF below > most THEN SET most = below; END IF;
  END FOR;
  RETURN most + 1;
END;
SELECT name, grams_of(name), depth_of(name) FROM part;
SELECT SUM(grams_of(name)) FROM part WHERE name IN ('tyre', 'bell');
INSERT INTO made_of VALUES ('spoke', 'bicycle', 1);
VALUES (depth_of('tyre'), grams_of('tyre'));
VALUES (grams_of('bicycle'));
