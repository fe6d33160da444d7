-- Two sales, each a block: the second one can't be paid, and is rolled back.
PHASE;
SESSION;
BEGIN;
INSERT INTO sale VALUES (5, 3, 71, 12);
UPDATE bought SET sales = sales + 1, pieces = pieces + 12 WHERE customer = 3;
UPDATE till SET credit = credit - 120 WHERE id = 3;
COMMIT;
BEGIN;
INSERT INTO sale VALUES (6, 2, 72, 1);
UPDATE till SET credit = credit - 1900 WHERE id = 2;
ROLLBACK;
SELECT * FROM bought;
