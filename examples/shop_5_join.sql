-- Tuesday: each sale with the label of its item and what it came to. The items stay, copied.
PHASE;
SESSION;
SELECT COUNT(*), SUM(pieces) FROM sale;
MIGRATE (
  CREATE TABLE sale AS
    SELECT no, customer, sale.item, label, pieces, pieces * price AS amount
    FROM sale JOIN item ON sale.item = item.item;
  CREATE TABLE item AS SELECT item, label, price FROM item
);
SELECT no, label, amount FROM sale WHERE customer = 1;
INSERT INTO sale VALUES (3, 2, 71, 'nut', 5, 50);
INSERT INTO sale VALUES (6, 2, 71, 'nut', 5, 50);
SELECT * FROM item WHERE item = 71;
