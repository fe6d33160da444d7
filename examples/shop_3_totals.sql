-- What each customer has bought, beside the sales, which the same MIGRATE copies.
PHASE;
SESSION;
MIGRATE (
  CREATE TABLE sale AS SELECT no, customer, item, pieces FROM sale;
  CREATE TABLE bought AS
    SELECT customer, COUNT(*) AS sales, SUM(pieces) AS pieces
    FROM sale GROUP BY customer
);
SELECT * FROM bought WHERE customer = 1;
SELECT COUNT(*) FROM sale WHERE customer = 3;
