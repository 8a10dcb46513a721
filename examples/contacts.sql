-- A list of contacts with gaps, cleaned.
CREATE TABLE contacts (id INT, name TEXT, city TEXT, phone VARCHAR(12));
INSERT INTO contacts VALUES
  (1, 'Ann Lee', 'Bern', '031 1'),
  (2, 'Ann Lee', NULL, '031 1'),
  (3, 'Bo Rey', 'Basel', NULL),
  (4, 'O''Hara', NULL, NULL);

-- A comparison with NULL is unknown, and a row is taken on true alone.
SELECT COUNT(*) FROM contacts WHERE NOT (city = 'Bern');
SELECT id, name FROM contacts WHERE city IS NULL OR phone IS NULL ORDER BY name DESC, id;

UPDATE contacts SET city = 'Bern' WHERE name = 'Ann Lee' AND city IS NULL;
DELETE FROM contacts WHERE city IS NULL AND phone IS NULL;
SELECT name, city, phone FROM contacts ORDER BY city, id;

-- What is refused changes nothing.
INSERT INTO contacts (id, name) VALUES (5, 'Cy Orr'), ('6', 'Di Fox');
SELECT COUNT(*) FROM contacts;
DROP TABLE contacts;
