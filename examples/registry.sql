-- A registry of devices. What isn't known is NULL.
CREATE TABLE devices (serial VARCHAR(12), owner TEXT, room INT, CERTAIN KEY (serial, owner));
INSERT INTO devices VALUES
  ('A-100', 'lab', 12),
  (NULL, 'office', 3),
  ('A-101', 'hall', NULL);

-- No row has the values of these, and yet each may be a device that is there already.
INSERT INTO devices VALUES (NULL, 'lab', 12);
INSERT INTO devices VALUES ('A-200', 'office', NULL);
INSERT INTO devices VALUES ('A-101', NULL, 7);

-- This one is another, whatever the nulls stand for.
INSERT INTO devices VALUES ('A-102', 'lab', 14);

-- Once the serial of the office's device is known, the second one can come in.
UPDATE devices SET serial = 'A-050' WHERE owner = 'office';
INSERT INTO devices VALUES ('A-200', 'office', NULL);
SELECT serial, owner FROM devices ORDER BY owner, serial;
