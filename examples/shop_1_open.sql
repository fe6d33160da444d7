-- The shop opens on Monday: its tables, and what they hold.
PHASE;
SESSION;
CREATE TABLE customer (
  id INT, name VARCHAR(20), city VARCHAR(20),
  credit INT CHECK (credit BETWEEN 0 AND 100000),
  PRIMARY KEY (id)
);
CREATE TABLE item (
  item INT, label VARCHAR(20),
  price INT CHECK (price BETWEEN 0 AND 100000),
  PRIMARY KEY (item)
);
CREATE TABLE sale (
  no INT, customer INT, item INT,
  pieces INT CHECK (pieces BETWEEN 1 AND 1000),
  PRIMARY KEY (no)
);
INSERT INTO customer VALUES
  (1, 'Ann', 'Ulm', 500), (2, 'Bob', 'Kiel', 0), (3, 'Cy', 'Ulm', 1200);
INSERT INTO item VALUES (70, 'bolt', 25), (71, 'nut', 10), (72, 'saw', 1900);
INSERT INTO sale VALUES (1, 1, 70, 4), (2, 1, 71, 40), (3, 3, 72, 1), (4, 1, 70, 8);
