-- Texts that come in: a column cuts spaces that it has no room for and refuses letters, a cast reads a number or raises, and CASE
-- stops at the first test that is true.
CREATE TABLE delivery (id INTEGER PRIMARY KEY, code VARCHAR(6) NOT NULL, weight VARCHAR(8), paid BOOLEAN);
INSERT INTO delivery VALUES (1, 'ab-017  ', ' 250', TRUE), (2, 'x-9', '', FALSE), (3, 'ab-204', NULL, UNKNOWN), (4, 'q', '12 kg', TRUE);
INSERT INTO delivery VALUES (5, 'ab-20417', '1', TRUE);
CREATE FUNCTION tail (s VARCHAR(6)) RETURNS VARCHAR(4) RETURN SUBSTRING(s FROM 4);
CREATE FUNCTION grams (w VARCHAR(8)) RETURNS INTEGER RETURN CASE w WHEN '' THEN 0 ELSE CAST(w AS INTEGER) END;
CREATE FUNCTION kind (w VARCHAR(8)) RETURNS VARCHAR(10) RETURN CASE WHEN w IS NULL THEN 'not given' WHEN grams(w) < 100 THEN 'small' ELSE 'large' END;
SELECT id, code || '/' || tail(code), CHAR_LENGTH(code) FROM delivery;
SELECT id, grams(weight), kind(weight) FROM delivery WHERE id IN (1, 2, 3);
SELECT id, grams(weight) FROM delivery;
SELECT id FROM delivery WHERE paid;
SELECT id, CAST(paid AS VARCHAR(5)), COALESCE(weight, 'it''s missing') FROM delivery WHERE paid IS NOT TRUE AND code > 'a';
VALUES (MOD(-7, 3), 'a,' || 'b', NULL OR 1 = 1, SUBSTRING('abc' FROM 0 FOR 2));
VALUES (kind('a hundred'));
