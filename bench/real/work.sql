-- What SQLite executes: a shop with customers, items and orders.
PRAGMA temp_store = memory;
CREATE TABLE customer(id INTEGER PRIMARY KEY, name TEXT NOT NULL, town TEXT, since INTEGER);
CREATE TABLE item(id INTEGER PRIMARY KEY, name TEXT UNIQUE, price REAL CHECK (price > 0), kind TEXT);
CREATE TABLE orders(id INTEGER PRIMARY KEY, customer INTEGER REFERENCES customer, item INTEGER REFERENCES item, amount INTEGER,
  day INTEGER);
CREATE TABLE log(what TEXT, n INTEGER);
CREATE TRIGGER logged AFTER UPDATE OF price ON item WHEN new.price > old.price BEGIN INSERT INTO log VALUES (new.name, new.id); END;
BEGIN;
WITH RECURSIVE n(i) AS (SELECT 1 UNION ALL SELECT i + 1 FROM n WHERE i < 400)
  INSERT INTO customer SELECT i, printf('customer %04d', (i * 7919) % 1009), substr('LondonParisRomeOsloMadrid', 1 + (i * 3) % 20, 5),
    1990 + i % 30 FROM n;
WITH RECURSIVE n(i) AS (SELECT 1 UNION ALL SELECT i + 1 FROM n WHERE i < 150)
  INSERT INTO item SELECT i, 'item ' || ((i * 31) % 151), 0.25 + (i * 17) % 90,
    CASE i % 4 WHEN 0 THEN 'book' WHEN 1 THEN 'tool' ELSE 'toy' END FROM n;
WITH RECURSIVE n(i) AS (SELECT 1 UNION ALL SELECT i + 1 FROM n WHERE i < 6000)
  INSERT INTO orders SELECT i, 1 + (i * 7907) % 400, 1 + (i * 104729) % 150, 1 + i % 5, (i * 37) % 365 FROM n;
COMMIT;
CREATE INDEX by_customer ON orders(customer);
CREATE INDEX by_day ON orders(day, item);
ANALYZE;
SELECT count(*), sum(amount), avg(day) FROM orders;
SELECT c.town, count(*) AS n, sum(o.amount * i.price) AS worth
  FROM orders o JOIN customer c ON c.id = o.customer JOIN item i ON i.id = o.item
  GROUP BY c.town HAVING n > 10 ORDER BY worth DESC, c.town;
SELECT name, (SELECT count(*) FROM orders o WHERE o.customer = customer.id AND day BETWEEN 100 AND 200) AS n
  FROM customer ORDER BY n DESC, name LIMIT 20;
SELECT kind, group_concat(name, ';') FROM (SELECT kind, name FROM item WHERE name LIKE '%3%' ORDER BY name) GROUP BY kind;
UPDATE item SET price = price * 1.1 WHERE kind = 'toy' AND id IN (SELECT item FROM orders GROUP BY item HAVING count(*) > 39);
SELECT count(*), min(what), max(n) FROM log;
SELECT DISTINCT i.name FROM orders o JOIN item i ON i.id = o.item WHERE o.day = 42 OR o.day > 362 ORDER BY i.name COLLATE NOCASE DESC;
SELECT town, name, rank() OVER (PARTITION BY town ORDER BY since, name) AS place, sum(since) OVER (ORDER BY id ROWS 3 PRECEDING)
  FROM customer ORDER BY town, place LIMIT 300;
DELETE FROM orders WHERE id % 7 = 3;
SELECT o.day, max(i.price) FROM orders o LEFT JOIN item i ON i.id = o.item GROUP BY o.day ORDER BY 2 DESC, 1 LIMIT 25;
SELECT a.name, b.name FROM customer a JOIN customer b ON a.town = b.town AND a.since = b.since AND a.id < b.id ORDER BY a.name, b.name;
WITH RECURSIVE
  x(v) AS (VALUES(-2.0) UNION ALL SELECT v + 0.1 FROM x WHERE v < 1.0),
  y(v) AS (VALUES(-1.0) UNION ALL SELECT v + 0.25 FROM y WHERE v < 1.0),
  m(n, cx, cy, a, b) AS (SELECT 0, x.v, y.v, 0.0, 0.0 FROM x, y
    UNION ALL SELECT n + 1, cx, cy, a * a - b * b + cx, 2.0 * a * b + cy FROM m WHERE a * a + b * b < 4.0 AND n < 12)
  SELECT cy, group_concat(substr(' .+*#', 1 + min(n / 3, 4), 1), '') FROM (SELECT max(n) AS n, cx, cy FROM m GROUP BY cx, cy) GROUP BY cy;
INSERT INTO customer(name, town, since)
  SELECT upper(name) || hex(substr(town, 1, 2)), replace(town, 'o', '0'), since + 1 FROM customer WHERE id % 3 = 0;
SELECT json_group_array(json_object('n', name, 's', since)) FROM (SELECT * FROM customer WHERE id > 520);
SELECT json_extract(value, '$.s'), json_extract(value, '$.n')
  FROM json_each((SELECT json_group_array(json_object('n', name, 's', since)) FROM customer WHERE id < 60)) ORDER BY 1 DESC, 2;
SELECT name FROM customer WHERE id IN (SELECT customer FROM orders WHERE item = 5
  INTERSECT SELECT customer FROM orders WHERE item = 6 UNION SELECT 7 EXCEPT SELECT 8) ORDER BY 1;
SELECT strftime('%Y-%m-%d', '2020-01-01', '+' || max(day) || ' days'), typeof(max(day)), round(avg(amount), 3) FROM orders;
DROP INDEX by_day;
VACUUM;
PRAGMA integrity_check;
