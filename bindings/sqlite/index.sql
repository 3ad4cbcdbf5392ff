-- How many rows of the log of log.sql each of these networks has: by arithmetic, by the index, by a look at each row,
-- and by the index in a join.
CREATE TABLE network(text TEXT NOT NULL, counted INTEGER NOT NULL, first BLOB NOT NULL, last BLOB NOT NULL);
INSERT INTO network
SELECT column1, column2, cidr_first(column1), cidr_last(column1) FROM (VALUES
    ('10.0.0.0/8', 500000),
    ('10.1.0.0/16', 65536),
    ('10.7.255.255/16', 41248),
    ('10.8.0.0/13', 0),
    ('10.3.3.128/255.255.255.192', 64),
    ('10.7.161.31', 1),
    ('10.7.161.32', 0),
    ('9.0.0.0/8', 0),
    ('0.0.0.0/0', 500000),
    ('2001:db8::/32', 500000),
    ('2001:db8::1:0/112', 65536),
    ('2001:db8::7:0/112', 41248),
    ('2001:db8::7:a11f', 1),
    ('2001:db8::7:a120', 0),
    ('::/0', 500000),
    ('a00::/8', 0),
    ('::ffff:10.0.0.0/104', 0));

CREATE TABLE found AS
SELECT text, counted,
    (SELECT count(*) FROM log WHERE address BETWEEN cidr_first(text) AND cidr_last(text)) AS by_index,
    (SELECT count(*) FROM log NOT INDEXED WHERE cidr_has(text, client)) AS by_scan,
    (SELECT count(*) FROM network AS one CROSS JOIN log ON address BETWEEN one.first AND one.last
     WHERE one.rowid = network.rowid) AS by_join
FROM network;
SELECT text, counted, by_index, by_scan, by_join FROM found
WHERE by_index <> counted OR by_scan <> counted OR by_join <> counted;
SELECT count(*) || ' networks' FROM found;

-- The rows themselves, and not only how many they are; and the order of all of them.
SELECT client FROM log WHERE address BETWEEN cidr_first('10.3.3.129/30') AND cidr_last('10.3.3.129/30')
EXCEPT SELECT client FROM log NOT INDEXED WHERE cidr_has('10.3.3.129/30', client);
SELECT client FROM log WHERE address BETWEEN cidr_first('10.3.3.129/30') AND cidr_last('10.3.3.129/30')
ORDER BY address;
SELECT count(*) || ' out of order' FROM (
    SELECT rowid AS place, row_number() OVER (ORDER BY address) AS rank FROM log) WHERE place <> rank;
