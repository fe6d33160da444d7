-- TPC-C's customers are split into a part that many may read and a part with their credit.
PHASE;
SESSION;
CREATE TABLE customer (
  c_w_id INT, c_d_id INT, c_id INT,
  c_last VARCHAR(16), c_city VARCHAR(20),
  c_credit VARCHAR(2), c_balance INT,
  PRIMARY KEY (c_w_id, c_d_id, c_id)
);
INSERT INTO customer VALUES
  (1, 1, 1, 'BARBARBAR', 'Ulm', 'GC', -1000),
  (1, 1, 2, 'BARBAROUGHT', 'Bonn', 'BC', -1000),
  (1, 2, 1, 'BARBARABLE', 'Kiel', 'GC', -1000),
  (2, 1, 1, 'BARBARPRI', 'Jena', 'GC', -1000);
MIGRATE (
  CREATE TABLE customer_public AS
    SELECT c_w_id, c_d_id, c_id, c_last, c_city FROM customer;
  CREATE TABLE customer_private AS
    SELECT c_w_id, c_d_id, c_id, c_credit, c_balance FROM customer
);
-- A payment moves the one customer whom it touches, to both tables.
SESSION;
BEGIN;
UPDATE customer_private SET c_balance = c_balance - 2500
  WHERE c_w_id = 1 AND c_d_id = 1 AND c_id = 2;
SELECT c_last, c_city FROM customer_public
  WHERE c_w_id = 1 AND c_d_id = 1 AND c_id = 2;
COMMIT;
-- The customers of the other warehouse and the other district stay where they are.
SELECT c_id, c_balance FROM customer_private WHERE c_w_id = 1 AND c_d_id = 1;
SELECT * FROM customer;
