-- A transfer between two accounts in one block, and a removal that is rolled back.
PHASE;
SESSION;
CREATE TABLE account (id INT, balance INT, PRIMARY KEY (id));
INSERT INTO account VALUES (1, 100), (2, 20);
BEGIN;
UPDATE account SET balance = balance - 30 WHERE id = 1;
UPDATE account SET balance = balance + 30 WHERE id = 2;
SELECT * FROM account;
COMMIT;
SESSION;
BEGIN;
DELETE FROM account WHERE id = 1;
SELECT COUNT(*) FROM account;
ROLLBACK;
SELECT SUM(balance) FROM account;
