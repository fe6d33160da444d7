-- The next day, over the same log: two sessions at the same time, both on Ann's row, and one behind them.
-- Cy's row has not moved when the day begins, and his key is taken all the same.
PHASE;
SESSION;
UPDATE pub SET name = 'Anna' WHERE id = 1;
SESSION;
UPDATE priv SET balance = balance + 5 WHERE id = 1;
PHASE;
SESSION;
INSERT INTO pub VALUES (3, 'Zed');
SELECT * FROM pub;
SELECT * FROM priv;
SELECT COUNT(*) FROM person;
