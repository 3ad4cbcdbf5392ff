-- Seconds of a question about each of a million rows, and of a join with a thousand networks, which have 256 rows each.
-- The extension has to be loaded, and the log of log.sql made. A pass over the log that asks nothing comes first.
CREATE TABLE network AS
WITH RECURSIVE number(n) AS (SELECT 0 UNION ALL SELECT n + 1 FROM number WHERE n < 999)
SELECT text, cidr_first(text) AS first, cidr_last(text) AS last
FROM (SELECT printf('10.%d.%d.0/24', n >> 8, n & 255) AS text FROM number);
CREATE INDEX network_first ON network(first);
SELECT count(length(client)) FROM log NOT INDEXED;
.timer on
.print a pass that asks nothing
SELECT count(length(client)) FROM log NOT INDEXED;
.print cidr_has
SELECT total(cidr_has('10.1.0.0/16', client)) FROM log NOT INDEXED;
.print cidr_text
SELECT count(cidr_text(client)) FROM log NOT INDEXED;
.print cidr_addr
SELECT count(cidr_addr(client)) FROM log NOT INDEXED;
.print the rows of a network, by the index
SELECT count(*) FROM log WHERE address BETWEEN cidr_first('10.1.0.0/16') AND cidr_last('10.1.0.0/16');
.print the rows of each of a thousand networks, by the index of the log
SELECT count(*) FROM network CROSS JOIN log ON address BETWEEN first AND last;
.print the network of each row, by the index of the networks
SELECT count(*) FROM (
    SELECT address, (SELECT last FROM network WHERE first <= address ORDER BY first DESC LIMIT 1) AS last
    FROM log NOT INDEXED)
WHERE address <= last;
