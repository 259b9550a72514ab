-- A trip with few seats and a waiting list. A cursor goes through the list in the order of its
-- rows at OPEN; each family gets seats for all its members or for none, since its bookings are one
-- ATOMIC statement, which is undone where the next seat is not there.
CREATE TABLE seat (no INTEGER PRIMARY KEY, family VARCHAR(8));
CREATE TABLE waiting (n INTEGER PRIMARY KEY, family VARCHAR(8) NOT NULL, members INTEGER NOT NULL);
INSERT INTO seat (no) VALUES (1), (2), (3), (4), (5), (6), (7);
INSERT INTO waiting VALUES (10, 'Abel', 3), (20, 'Boole', 5), (30, 'Cauchy', 2), (40, 'Dirac', 3),
  (50, 'Euler', 2);
CREATE PROCEDURE seats_for (family_of VARCHAR(8), members INTEGER) BEGIN ATOMIC
  DECLARE seated INTEGER DEFAULT 0;
  DECLARE free INTEGER;
  WHILE seated < members DO
    SELECT MIN(no) INTO free FROM seat WHERE family IS NULL;
    UPDATE seat SET family = family_of WHERE no = free;
    IF free IS NULL THEN SIGNAL SQLSTATE '45000' SET MESSAGE_TEXT = 'no seat left'; END IF;
    SET seated = seated + 1;
  END WHILE;
END;
CREATE PROCEDURE seat_all (OUT families INTEGER, OUT last_one VARCHAR(8)) BEGIN
  DECLARE who VARCHAR(8);
  DECLARE members, number_of INTEGER;
  DECLARE list CURSOR FOR SELECT n, family, members FROM waiting ORDER BY n;
  DECLARE EXIT HANDLER FOR NOT FOUND CLOSE list;
  SET families = 0;
  OPEN list;
  each: LOOP
    FETCH list INTO number_of, who, members;
    BEGIN
      DECLARE EXIT HANDLER FOR SQLSTATE '45000' ITERATE each;
      CALL seats_for(who, members);
    END;
    DELETE FROM waiting WHERE n = number_of;
    SET families = families + 1;
    SET last_one = who;
  END LOOP each;
END;
CALL seat_all(?, ?);
SELECT no, family FROM seat;
SELECT family, members FROM waiting;
UPDATE seat SET family = NULL WHERE family = 'Abel';
CALL seat_all(?, ?);
SELECT COUNT(*), COUNT(family) FROM seat;
SELECT family, members FROM waiting;
CALL seats_for('Fermat', 1);
CALL seats_for('Gauss', 1);
