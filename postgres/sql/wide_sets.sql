-- Two sets of idset8, their order, and aggregates: by hand, and beside arrays, EXCEPT, INTERSECT and rows.
\pset format unaligned
\pset tuples_only on
SELECT '{1,4294967297,9223372036854775808}'::idset8 & '{4294967297,9223372036854775808,18446744073709551615}',
    '{1,4294967297}'::idset8 | '{1,18446744073709551615}', '{1,4294967297,9223372036854775808}'::idset8 - '{4294967297}',
    '{1,4294967297}'::idset8 # '{4294967297,9223372036854775808}';
SELECT intersect_len(a, b), unite_len(a, b), subtract_len(a, b), symmetric_difference_len(a, b), jaccard(a, b) FROM (VALUES
    ('{1,2,4294967299}'::idset8, '{2,4294967299,4,5}'::idset8), ('{}', '{1}'), ('{}', '{}'), ('{18446744073709551615}', '{18446744073709551615}')) v(a, b);
SELECT a, b, a @> b, a <@ b, a && b FROM (VALUES ('{1,4294967298,3}'::idset8, '{4294967298,3}'::idset8), ('{2,3}', '{1,2,3}'), ('{2}', '{4294967298}'),
    ('{1}', '{}'), ('{}', '{1}'), ('{}', '{}'), ('{1,2}', '{2,3}'), ('{5,18446744073709551615}', '{18446744073709551615}')) v(a, b);
SELECT '{1,5000000000}'::idset8 @> 5000000000, '{1,5000000000}'::idset8 @> 705032704, 1 <@ '{1}'::idset8, (-1) <@ '{18446744073709551615}'::idset8;
SELECT '{1,3}'::idset8 | 5000000000, 2 | '{1,3}'::idset8, '{1,3}'::idset8 | 3, '{1,5000000000}'::idset8 - 5000000000, '{1,3}'::idset8 - 4294967297,
    '{18446744073709551615}'::idset8 - (-1), '{1,3}'::idset8 | ARRAY[5000000000], ARRAY[2, 1] | '{3}'::idset8, '{1,3}'::idset8 & ARRAY[3, 4],
    ARRAY[3, 4] & '{1,3}'::idset8, '{1,3}'::idset8 - ARRAY[3, 4];
SELECT '{1}'::idset8 | (-1);
SELECT '{1}'::idset8 & ARRAY[-1];
SELECT a, b, a = b, a <> b, a < b, a <= b, a > b, a >= b, idset8_cmp(a, b) FROM (VALUES ('{1,2}'::idset8, '{1,2}'::idset8), ('{4294967298}', '{3}'),
    ('{1}', '{1,0}'), ('{1}', '{1,2}'), ('{}', '{0}'), ('{}', '{}'), ('{18446744073709551615}', '{9223372036854775807}')) v(a, b);
-- Sets of all shapes, each with each: of one high word and of many, with few and many ids of each, and random ones.
CREATE TABLE shapes AS SELECT k, ARRAY(SELECT DISTINCT x FROM (SELECT CASE k WHEN 0 THEN i WHEN 1 THEN 2 * i + 4294967000 WHEN 2 THEN i * 4294967296
    WHEN 3 THEN i % 40 * 4294967296 + i WHEN 4 THEN i / 50 * 8589934592 + i % 50 * 3 WHEN 5 THEN i * i * i * 7919 WHEN 6 THEN 9223372036854775807 - i * 3
    WHEN 7 THEN (i % 40) * 4294967296 + i * i % 977 ELSE ('x' || md5((i % 300)::text))::bit(64)::int8 & 9223372036854775807 END AS x
    FROM generate_series(1::int8, 400) i) q ORDER BY x)::int8[] AS a FROM generate_series(0, 8) k;
INSERT INTO shapes VALUES (9, '{}'), (10, '{3}'), (11, '{3,4294967299,9223372036854775807}'), (12, ARRAY(SELECT generate_series(1, 2000))),
    (13, ARRAY(SELECT i / 100 * 4294967296 + i % 100 FROM generate_series(1::int8, 2000) i));
CREATE TABLE pairs AS SELECT p.a AS a, q.a AS b, idset8(p.a) AS x, idset8(q.a) AS y, ARRAY(SELECT unnest(p.a) INTERSECT SELECT unnest(q.a) ORDER BY 1) AS c,
    ARRAY(SELECT unnest(p.a) EXCEPT SELECT unnest(q.a) ORDER BY 1) AS d, ARRAY(SELECT unnest(p.a) UNION SELECT unnest(q.a) ORDER BY 1) AS e
    FROM shapes p, shapes q;
SELECT count(*), bool_and((x & y)::int8[] = c AND (x & y)::bytea = idset8(c)::bytea), bool_and((x | y)::int8[] = e AND (x | y)::bytea = idset8(e)::bytea),
    bool_and((x - y)::int8[] = d AND (x - y)::bytea = idset8(d)::bytea), bool_and(x # y = idset8(e) - idset8(c)),
    bool_and((x # y)::int8[] = ARRAY(SELECT unnest(e) EXCEPT SELECT unnest(c) ORDER BY 1)) FROM pairs;
SELECT bool_and(intersect_len(x, y) = cardinality(c) AND unite_len(x, y) = cardinality(e) AND subtract_len(x, y) = cardinality(d)
    AND symmetric_difference_len(x, y) = cardinality(e) - cardinality(c)
    AND jaccard(x, y) = CASE WHEN cardinality(e) = 0 THEN 1 ELSE cardinality(c)::float8 / cardinality(e) END),
    bool_and((x @> y) = (a @> b)), bool_and((x <@ y) = (a <@ b)), bool_and((x && y) = (a && b)) FROM pairs;
SELECT bool_and((x = y) = (a = b)), bool_and((x < y) = (a < b)), bool_and((x <= y) = (a <= b)), bool_and((x > y) = (a > b)), bool_and((x >= y) = (a >= b)),
    bool_and((x <> y) = (a <> b)), bool_and((idset8_hash(x) = idset8_hash(y)) = (a = b)) FROM pairs;
SELECT array_agg(k ORDER BY idset8(a)) = array_agg(k ORDER BY a) FROM shapes;
SELECT count(*), count(DISTINCT x) FROM (SELECT x FROM pairs GROUP BY x) q;
-- Aggregates.
SELECT pack8_agg(i) FROM unnest(ARRAY[300, 7, 9, NULL, 10, 7]) i;
SELECT pack8_agg(i), pg_typeof(pack8_agg(i)) FROM unnest(ARRAY[9223372036854775807, 7, NULL, 4294967296]) i;
SELECT pack8_agg(i) FROM unnest(ARRAY[32767, 7, NULL]::int2[]) i;
SELECT pack8_agg(NULL::int8) IS NULL, unite_agg(NULL::idset8) IS NULL, intersect_agg(NULL::idset8) IS NULL, symmetric_difference_agg(NULL::idset8) IS NULL,
    unite_len_agg(NULL::idset8) IS NULL;
SELECT pack8_agg(i) FROM unnest(ARRAY[1, -1]) i;
SELECT unite_agg(l), intersect_agg(l), symmetric_difference_agg(l), unite_len_agg(l), intersect_len_agg(l), symmetric_difference_len_agg(l)
    FROM (VALUES ('{1,2,5000000000}'::idset8), (NULL), ('{2,5000000000,18446744073709551615}'), ('{5000000000,2}')) v(l);
SELECT unite_agg(l), intersect_agg(l), symmetric_difference_agg(l) FROM (VALUES ('{}'::idset8), ('{2}'), ('{2}')) v(l);
SELECT unite_agg(idset8(a))::int8[] = ARRAY(SELECT DISTINCT unnest(a) FROM shapes ORDER BY 1), symmetric_difference_agg(idset8(a))::int8[] =
    ARRAY(SELECT x FROM shapes, unnest(a) x GROUP BY x HAVING count(*) % 2 = 1 ORDER BY 1) FROM shapes;
-- So many sets that they are combined several times, of both forms.
CREATE TABLE mixed AS SELECT n, idset8(ARRAY(SELECT CASE n % 3 WHEN 0 THEN i * 3 + n % 50 WHEN 1 THEN i * 4294967297 + n % 8 ELSE i % 5 * 4294967296 + i + n % 50 END
    FROM generate_series(1::int8, CASE n % 3 WHEN 1 THEN 20 ELSE 150 END) i)) | 9000000000 | 8 AS l FROM generate_series(1, 900) n;
CREATE VIEW wanted AS SELECT idset8(ARRAY(SELECT DISTINCT x FROM mixed, unnest(l) x)) AS u,
    idset8(ARRAY(SELECT x FROM mixed, unnest(l) x GROUP BY x HAVING count(*) % 2 = 1)) AS o;
SELECT unite_agg(l)::bytea = (SELECT u::bytea FROM wanted), unite_len_agg(l) = (SELECT cardinality(u) FROM wanted), intersect_agg(l), intersect_len_agg(l),
    symmetric_difference_agg(l)::bytea = (SELECT o::bytea FROM wanted) FROM mixed;
SELECT pack8_agg(x) = (SELECT u FROM wanted) FROM mixed, unnest(l) x;
-- In parallel.
ALTER TABLE mixed SET (parallel_workers = 3);
VACUUM ANALYZE mixed;
SET parallel_setup_cost = 0; SET parallel_tuple_cost = 0; SET min_parallel_table_scan_size = 0;
EXPLAIN (COSTS off) SELECT unite_agg(l), intersect_agg(l) FROM mixed;
SELECT unite_agg(l)::bytea = (SELECT u::bytea FROM wanted), intersect_agg(l), symmetric_difference_agg(l)::bytea = (SELECT o::bytea FROM wanted),
    pack8_agg(n * 5000000000) = idset8(ARRAY(SELECT n * 5000000000 FROM generate_series(1, 900) n)) FROM mixed;
RESET ALL;
-- A btree and a hash index serve =.
CREATE TABLE keyed AS SELECT i, idset8(ARRAY[i * 5000000000, i]) AS ids FROM generate_series(1, 500) i;
CREATE INDEX by_order ON keyed (ids);
SET enable_seqscan = off; SET enable_bitmapscan = off;
EXPLAIN (COSTS off) SELECT i FROM keyed WHERE ids = '{7,35000000000}';
SELECT i FROM keyed WHERE ids = '{7,35000000000}';
DROP INDEX by_order;
CREATE INDEX by_hash ON keyed USING hash (ids);
EXPLAIN (COSTS off) SELECT i FROM keyed WHERE ids = '{7,35000000000}';
SELECT i FROM keyed WHERE ids = '{7,35000000000}';
RESET ALL;
DROP VIEW wanted;
DROP TABLE shapes, pairs, mixed, keyed;
