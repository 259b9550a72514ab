-- A loop that fills a table: the days of two years, each with its month and its day of the week,
-- from a first day that was a Monday. The queries below then need no rule of the calendar.
CREATE TABLE days (n INTEGER PRIMARY KEY, year_of INTEGER, month_of INTEGER, day_of INTEGER,
                   weekday VARCHAR(3));
CREATE FUNCTION is_leap (y INTEGER) RETURNS BOOLEAN
  RETURN MOD(y, 4) = 0 AND (MOD(y, 100) <> 0 OR MOD(y, 400) = 0);
CREATE FUNCTION days_in (y INTEGER, m INTEGER) RETURNS INTEGER
  CASE m
    WHEN 2 THEN IF is_leap(y) THEN RETURN 29; ELSE RETURN 28; END IF;
    WHEN 4 THEN RETURN 30;
    WHEN 6 THEN RETURN 30;
    WHEN 9 THEN RETURN 30;
    WHEN 11 THEN RETURN 30;
    ELSE RETURN 31;
  END CASE;
CREATE FUNCTION weekday_of (n INTEGER) RETURNS VARCHAR(3)
  RETURN SUBSTRING('MonTueWedThuFriSatSun' FROM MOD(n - 1, 7) * 3 + 1 FOR 3);
CREATE PROCEDURE fill (first_year INTEGER, last_year INTEGER, INOUT n INTEGER) BEGIN
  DECLARE y INTEGER DEFAULT first_year;
  DECLARE m, d INTEGER;
  years: WHILE y <= last_year DO
    SET m = 1;
    REPEAT
      SET d = 0;
      month: LOOP
        SET d = d + 1;
        IF d > days_in(y, m) THEN LEAVE month; END IF;
        SET n = n + 1;
        INSERT INTO days VALUES (n, y, m, d, weekday_of(n));
      END LOOP month;
      SET m = m + 1;
    UNTIL m > 12 END REPEAT;
    SET y = y + 1;
  END WHILE years;
END;
CALL fill(2024, 2025, 0);
SELECT year_of, COUNT(*) AS n FROM days GROUP BY year_of;
SELECT year_of, month_of FROM days WHERE day_of = 13 AND weekday = 'Fri';
SELECT weekday, COUNT(*) AS n FROM days WHERE year_of = 2024 GROUP BY weekday ORDER BY n DESC;
