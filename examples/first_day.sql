-- People with a balance, and the table of them split in two while it is in use.
PHASE;
SESSION;
CREATE TABLE person (id INT, name VARCHAR(20), balance INT, PRIMARY KEY (id));
INSERT INTO person VALUES (1, 'Ann', 10), (2, 'Bob', 20), (3, 'Cy', 30);
MIGRATE (
  CREATE TABLE pub AS SELECT id, name FROM person;
  CREATE TABLE priv AS SELECT id, balance FROM person
);
SELECT * FROM pub WHERE id = 2;
