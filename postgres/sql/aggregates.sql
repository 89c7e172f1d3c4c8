-- Aggregates, in one process and in several, beside arrays and rows.
\pset format unaligned
\pset tuples_only on
SELECT pack_agg(i) FROM unnest(ARRAY[300, 7, 9, NULL, 10, 7]) i;
SELECT pack_agg(i) FROM unnest(ARRAY[4294967295, 7, NULL]) i;
SELECT pack_agg(i) FROM unnest(ARRAY[32767, 7, NULL]::int2[]) i;
SELECT pack_agg(i) IS NULL FROM unnest(ARRAY[]::int4[]) i;
SELECT pack_agg(NULL::int8) IS NULL, unite_agg(NULL::idset) IS NULL, intersect_agg(NULL::idset) IS NULL,
    symmetric_difference_agg(NULL::idset) IS NULL, unite_len_agg(NULL::idset) IS NULL;
SELECT unite_agg(l), intersect_agg(l) FROM (VALUES ('{1,2,5}'::idset), (NULL), ('{2,5,9}'), ('{5,2}')) v(l);
SELECT unite_agg(l), intersect_agg(l) FROM (VALUES ('{}'::idset), ('{2}')) v(l);
SELECT unite_agg(l), intersect_agg(l) FROM (VALUES ('{7,8}'::idset)) v(l);
SELECT symmetric_difference_agg(l), unite_len_agg(l), intersect_len_agg(l), symmetric_difference_len_agg(l)
    FROM (VALUES ('{1,2,5}'::idset), (NULL), ('{2,5,9}'), ('{5,2}'), ('{}')) v(l);
SELECT pack_agg(i) FROM unnest(ARRAY[1, -1]) i;
SELECT pack_agg(i) FROM unnest(ARRAY[1, 4294967296]) i;
-- FILTER, DISTINCT, groups and windows.
SELECT g, pack_agg(i) FILTER (WHERE i > 2) FROM (VALUES (1, 1), (1, 5), (1, 3), (2, 4), (2, 2), (3, 1)) v(g, i) GROUP BY g ORDER BY g;
SELECT i, pack_agg(i) OVER (ORDER BY i DESC), intersect_agg(l) OVER (ORDER BY i) FROM (VALUES (1, '{1,2,3}'::idset), (2, '{2,3}'),
    (3, '{3,4}')) v(i, l) ORDER BY i;
-- Many rows: values that come often, out of order, and beyond 31 bits.
CREATE TABLE many AS SELECT i, i % 7 AS g, (i::int8 * 2654435761) % 4294967296 AS big, (i * 7919) % 10007 AS often FROM generate_series(1,
    200000) i;
SELECT pack_agg(big)::int8[] = ARRAY(SELECT DISTINCT big FROM many ORDER BY 1), pack_agg(often)::int4[] = ARRAY(SELECT DISTINCT often
    FROM many ORDER BY 1) FROM many;
CREATE TABLE grouped AS SELECT g, pack_agg(often) AS l, pack_agg(i) AS own FROM many GROUP BY g;
SELECT bool_and(l::int4[] = ARRAY(SELECT DISTINCT often FROM many m WHERE m.g = q.g ORDER BY 1)) FROM grouped q;
SELECT unite_agg(own)::int4[] = ARRAY(SELECT i FROM generate_series(1, 200000) i), cardinality(intersect_agg(own)),
    intersect_agg(l)::int4[] = ARRAY(SELECT often FROM many GROUP BY often HAVING count(DISTINCT g) = 7 ORDER BY 1) FROM grouped;
-- Sets in chunks, of few ids, in arrays and without gaps: so many that they are combined several times.
CREATE TABLE mixed AS SELECT n, idset(ARRAY(SELECT CASE n % 5 WHEN 0 THEN i * 3 + n WHEN 1 THEN i * 70001 + n % 8 WHEN 2 THEN i + n ELSE i * i % 300007
    + n % 20 * 65536 END FROM generate_series(1, CASE n % 5 WHEN 2 THEN 5000 WHEN 3 THEN n % 130 ELSE 1000 END) i)) | 9::int8 | 800000 AS l
    FROM generate_series(1, 1200) n;
SELECT unite_agg(l)::bytea = idset(ARRAY(SELECT DISTINCT x FROM mixed, unnest(l) x))::bytea, unite_len_agg(l) = cardinality(unite_agg(l)),
    intersect_agg(l), intersect_len_agg(l), symmetric_difference_agg(l)::bytea = idset(ARRAY(SELECT x FROM mixed, unnest(l) x GROUP BY x
    HAVING count(*) % 2 = 1))::bytea, symmetric_difference_len_agg(l) = cardinality(symmetric_difference_agg(l)) FROM mixed;
SELECT bool_and(u::bytea = idset(ARRAY(SELECT DISTINCT x FROM mixed, unnest(l) x WHERE n % 5 = k))::bytea AND o::bytea = idset(ARRAY(SELECT x FROM mixed,
    unnest(l) x WHERE n % 5 = k GROUP BY x HAVING count(*) % 2 = 1))::bytea AND a::bytea = idset(ARRAY(SELECT x FROM mixed, unnest(l) x WHERE n % 5 = k
    GROUP BY x HAVING count(*) = c))::bytea) FROM (SELECT n % 5 AS k, count(*) AS c, unite_agg(l) AS u, symmetric_difference_agg(l) AS o,
    intersect_agg(l) AS a FROM mixed GROUP BY n % 5) q;
-- The answer after each row.
SELECT n, unite_len_agg(l) OVER w, cardinality(intersect_agg(l) OVER w), symmetric_difference_len_agg(l) OVER w FROM mixed WHERE n IN (2, 3, 7, 8)
    WINDOW w AS (ORDER BY n) ORDER BY n;
-- In parallel.
CREATE TABLE parts AS SELECT i, idset(ARRAY(SELECT j FROM generate_series(1, 60) j WHERE j % (i % 5 + 1) = 0 OR j = i)) AS l
    FROM generate_series(1, 20000) i;
ALTER TABLE many SET (parallel_workers = 3);
ALTER TABLE parts SET (parallel_workers = 3);
VACUUM ANALYZE many, parts;
SET parallel_setup_cost = 0; SET parallel_tuple_cost = 0; SET min_parallel_table_scan_size = 0;
EXPLAIN (COSTS off) SELECT pack_agg(big) FROM many;
SELECT pack_agg(big)::int8[] = ARRAY(SELECT DISTINCT big FROM many ORDER BY 1), pack_agg(often)::int4[] = ARRAY(SELECT DISTINCT often
    FROM many ORDER BY 1) FROM many;
EXPLAIN (COSTS off) SELECT unite_agg(l), intersect_agg(l) FROM parts;
-- By hand: rows with i % 5 = 0 have all of 1 to 60; 60 is the multiple of 1, 2, 3, 4 and 5; the multiples of 1, 2 and 3 are those of 6.
SELECT unite_agg(l)::int4[] = ARRAY(SELECT j FROM generate_series(1, 60) j), intersect_agg(l), intersect_agg(l) FILTER (WHERE i % 5 < 3)
    FROM parts WHERE i > 60;
SELECT symmetric_difference_agg(l), unite_len_agg(l), intersect_len_agg(l), symmetric_difference_len_agg(l),
    symmetric_difference_agg(l)::int8[] = ARRAY(SELECT x FROM parts p, unnest(p.l) x WHERE i > 60 GROUP BY x HAVING count(*) % 2 = 1 ORDER BY 1)
    FROM parts WHERE i > 60;
SELECT pack_agg(big) IS NULL, unite_agg(l) IS NULL, intersect_agg(l) IS NULL FROM many m JOIN parts USING (i) WHERE i < 0;
ALTER TABLE mixed SET (parallel_workers = 3);
SELECT unite_agg(l)::bytea = idset(ARRAY(SELECT DISTINCT x FROM mixed, unnest(l) x))::bytea, intersect_agg(l),
    symmetric_difference_agg(l)::bytea = idset(ARRAY(SELECT x FROM mixed, unnest(l) x GROUP BY x HAVING count(*) % 2 = 1))::bytea FROM mixed;
SELECT bool_and(p.l = q.l) FROM (SELECT g, pack_agg(often) AS l FROM many GROUP BY g) p JOIN grouped q USING (g);
DROP TABLE many, grouped, parts, mixed;
