-- TPC-C's order lines are joined with the stock of their items in every warehouse.
PHASE;
SESSION;
CREATE TABLE order_line (
  ol_o_id INT, ol_number INT, ol_i_id INT, ol_quantity INT,
  PRIMARY KEY (ol_o_id, ol_number)
);
CREATE TABLE stock (
  s_w_id INT, s_i_id INT, s_quantity INT,
  PRIMARY KEY (s_w_id, s_i_id)
);
INSERT INTO order_line VALUES (1, 1, 70, 5), (1, 2, 71, 1), (2, 1, 70, 8), (3, 1, 72, 4);
INSERT INTO stock VALUES (1, 70, 40), (1, 71, 12), (2, 70, 33), (2, 73, 5);
MIGRATE (
  CREATE TABLE line_stock AS
    SELECT ol_o_id, ol_number, s_w_id, s_i_id, ol_quantity, s_quantity
    FROM order_line JOIN stock ON ol_i_id = s_i_id
);
SESSION;
-- All lines and all stock of the item 70 move together.
SELECT s_w_id, s_quantity FROM line_stock WHERE ol_o_id = 2 AND ol_number = 1;
UPDATE line_stock SET s_quantity = s_quantity - 8 WHERE s_w_id = 2 AND s_i_id = 70;
SELECT ol_o_id, ol_quantity, s_quantity FROM line_stock WHERE s_w_id = 2;
