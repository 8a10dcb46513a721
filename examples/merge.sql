-- The members of a club, from two lists. Parts are missing in both.
CREATE TABLE members (name TEXT NOT NULL, born INT, city TEXT, CERTAIN KEY (name, born));

-- The first list.
INSERT INTO members VALUES
  ('Ann Lee', 1980, 'Bern'),
  ('Bo Rey', NULL, 'Basel'),
  ('Cy Orr', 1975, NULL);

-- The second list, one by one.
INSERT INTO members VALUES ('Ann Lee', 1991, 'Thun');
INSERT INTO members VALUES ('Bo Rey', 1968, NULL);
INSERT INTO members VALUES ('Cy Orr', NULL, 'Chur');

-- Both that were refused are the same persons: what the second list knows of them is put to their rows.
UPDATE members SET born = 1968 WHERE name = 'Bo Rey' AND born IS NULL;
UPDATE members SET city = 'Chur' WHERE name = 'Cy Orr' AND city IS NULL;
SELECT * FROM members ORDER BY name, born;
