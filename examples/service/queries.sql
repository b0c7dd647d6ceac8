SELECT count(*) AS n, sum(weight) AS total FROM data;
SELECT kind, printf('%.4f', avg(weight)) AS mean FROM data GROUP BY kind ORDER BY kind;
SELECT name FROM data WHERE weight = (SELECT max(weight + 0) FROM data) ORDER BY name LIMIT 3;
WITH RECURSIVE f(a, b) AS (SELECT 0, 1 UNION ALL SELECT b, a + b FROM f LIMIT 40) SELECT max(a) AS fibonacci FROM f;
SELECT printf('%08.3f', 22 / 7.0) AS ratio, upper('straße') AS upper, hex('é') AS bytes;
