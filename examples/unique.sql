-- The same rows under UNIQUE, which is a possible key, and under a certain key.
CREATE TABLE loose (serial VARCHAR(12), owner TEXT, UNIQUE (serial, owner));
CREATE TABLE strict (serial VARCHAR(12), owner TEXT, CERTAIN KEY (serial, owner));
SHOW CREATE TABLE loose;
INSERT INTO loose VALUES ('A-100', NULL), ('A-100', NULL), (NULL, 'lab');
INSERT INTO strict VALUES ('A-100', NULL), ('A-100', NULL), (NULL, 'lab');

-- UNIQUE refuses only what is equal already, with every part known.
INSERT INTO loose VALUES ('A-100', 'lab'), ('A-100', 'lab');
SELECT COUNT(*) FROM loose;
SELECT COUNT(*) FROM strict;
