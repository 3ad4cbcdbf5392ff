-- A log of a million rows with an index of its addresses: half a million from 10.0.0.0 on, and as many from 2001:db8::
-- on. The extension has to be loaded.
CREATE TABLE log(client TEXT NOT NULL, address BLOB NOT NULL);
WITH RECURSIVE number(n) AS (SELECT 0 UNION ALL SELECT n + 1 FROM number WHERE n < 499999),
    clients(client) AS (
        SELECT printf('10.%d.%d.%d', n >> 16, n >> 8 & 255, n & 255) FROM number
        UNION ALL SELECT printf('2001:db8::%x:%x', n >> 16, n & 65535) FROM number)
INSERT INTO log SELECT client, cidr_addr(client) FROM clients;
CREATE INDEX log_address ON log(address);
