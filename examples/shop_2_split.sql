-- What everyone may read of a customer is parted from what the till alone may.
PHASE;
SESSION;
MIGRATE (
  CREATE TABLE customer AS SELECT id, name, city FROM customer;
  CREATE TABLE till AS SELECT id, credit FROM customer
);
SELECT name FROM customer WHERE id = 3;
PHASE;
SESSION;
BEGIN;
UPDATE till SET credit = credit - 100 WHERE id = 3;
SELECT credit FROM till WHERE id = 3;
COMMIT;
