-- TPC-C's order lines are summed up to one row for each order.
PHASE;
SESSION;
CREATE TABLE order_line (
  ol_w_id INT, ol_d_id INT, ol_o_id INT, ol_number INT,
  ol_i_id INT,
  ol_amount INT CHECK (ol_amount BETWEEN 0 AND 999999),
  PRIMARY KEY (ol_w_id, ol_d_id, ol_o_id, ol_number)
);
INSERT INTO order_line VALUES
  (1, 1, 1, 1, 70, 1250), (1, 1, 1, 2, 71, 99),
  (1, 1, 2, 1, 70, 40000),
  (1, 2, 1, 1, 73, 500), (1, 2, 1, 2, 70, 75);
MIGRATE (
  CREATE TABLE order_total AS
    SELECT ol_w_id, ol_d_id, ol_o_id, COUNT(*) AS lines, SUM(ol_amount) AS total
    FROM order_line GROUP BY ol_w_id, ol_d_id, ol_o_id
);
SESSION;
-- The lines of one order move together.
SELECT lines, total FROM order_total WHERE ol_w_id = 1 AND ol_d_id = 1 AND ol_o_id = 1;
-- Any order of the district may have such a total, so all of its orders move.
SELECT ol_o_id, total FROM order_total WHERE ol_d_id = 1 AND total >= 40000;
UPDATE order_total SET lines = lines + 1, total = total + 300
  WHERE ol_w_id = 1 AND ol_d_id = 1 AND ol_o_id = 2;
SELECT * FROM order_total WHERE ol_o_id = 2;
