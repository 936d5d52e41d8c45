CREATE TABLE people(id INTEGER PRIMARY KEY, name TEXT NOT NULL, town INTEGER, born REAL);
CREATE TABLE towns(id INTEGER PRIMARY KEY, name TEXT UNIQUE);
BEGIN;
WITH RECURSIVE n(i) AS (SELECT 1 UNION ALL SELECT i + 1 FROM n WHERE i < 100)
    INSERT INTO towns SELECT i, printf('town %03d', i * 37 % 101) FROM n;
WITH RECURSIVE n(i) AS (SELECT 1 UNION ALL SELECT i + 1 FROM n WHERE i < 10000)
    INSERT INTO people SELECT i, printf('name %08x', i * 2654435761 % 4294967296),
        1 + i * i % 100, 1900 + i % 125 / 8.0 FROM n;
COMMIT;
CREATE INDEX people_by_town ON people(town, born);
ANALYZE;
.tables
.schema
SELECT count(*), sum(id), min(name), max(name), round(avg(born), 6) FROM people;
EXPLAIN QUERY PLAN SELECT name FROM people WHERE town = 7 ORDER BY born;
SELECT t.name, count(*) AS many, round(sum(p.born), 3) FROM people p JOIN towns t ON t.id = p.town
    GROUP BY t.id ORDER BY many DESC, t.name LIMIT 12;
SELECT t.name, p.name FROM towns t LEFT JOIN people p ON p.town = t.id AND p.born > 1915.5
    ORDER BY t.id, p.id LIMIT 10;
SELECT count(*) FROM people a JOIN people b ON a.id = b.id + 1 WHERE a.town < b.town;
SELECT id, sum(id) OVER (ORDER BY id ROWS 2 PRECEDING),
    rank() OVER (PARTITION BY town ORDER BY born DESC) FROM people WHERE id < 12;
SELECT upper(substr(name, -4)), length(hex(randomblob(4))), typeof(born), name GLOB '*a?'
    FROM people WHERE id = 4711;
SELECT json_extract('{"a": [1, {"b": 2.5}]}', '$.a[1].b'), round(1.0 / 3, 12),
    strftime('%Y-%m-%d', 1000000000, 'unixepoch');
.mode csv
SELECT group_concat(id, ';') FROM people WHERE town = 17 AND id < 2000;
.mode list
CREATE VIRTUAL TABLE absent USING nowhere(x);
INSERT INTO towns VALUES(1, 'twice');
SELEC 1;
BEGIN;
DELETE FROM people WHERE id % 3 = 0;
SELECT changes(), count(*) FROM people;
ROLLBACK;
UPDATE people SET name = name || '!' WHERE town BETWEEN 10 AND 20;
SELECT total_changes(), count(*) FROM people WHERE name LIKE '%!';
CREATE TRIGGER moved AFTER UPDATE OF town ON people
    BEGIN UPDATE people SET name = 'moved ' || new.town WHERE id = new.id; END;
UPDATE people SET town = 100 WHERE id = 10000;
SELECT * FROM people WHERE id = 10000;
DELETE FROM people WHERE id > 5000;
VACUUM;
PRAGMA integrity_check;
PRAGMA page_count;
.dump towns
