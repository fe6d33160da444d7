-- Statements outside blocks, by two sessions: each is a transaction of its own.
PHASE;
SESSION;
CREATE TABLE stock (
  item VARCHAR(20),
  place INT CHECK (place BETWEEN 1 AND 9),
  amount INT,
  PRIMARY KEY (item, place)
);
INSERT INTO stock VALUES ('bolt', 1, 120), ('nut', 1, 80), ('bolt', 2, 15);
UPDATE stock SET amount = amount - 20 WHERE item = 'bolt' AND place = 1;
-- Refused, since no place is above 9.
INSERT INTO stock VALUES ('screw', 12, 5);
SESSION;
SELECT * FROM stock WHERE amount < 90;
SELECT COUNT(*), SUM(amount), MIN(item) FROM stock;
