-- AND, OR, NOT and what a set has of another, by hand and beside intarray's operators, EXCEPT and INTERSECT.
\pset format unaligned
\pset tuples_only on
CREATE EXTENSION intarray;
SELECT '{1,2,3}'::idset & '{2,3,4}', '{1,2,3}'::idset | '{2,3,4}', '{1,2,3}'::idset - '{2,3,4}', '{1,2,3}'::idset # '{2,3,4}';
SELECT intersect_len(a, b), unite_len(a, b), subtract_len(a, b), symmetric_difference_len(a, b), jaccard(a, b) FROM (VALUES
    ('{1,2,3}'::idset, '{2,3,4,5}'::idset), ('{}', '{1}'), ('{}', '{}'), ('{4294967295}', '{4294967295}')) v(a, b);
SELECT '{}'::idset & '{1}', '{}'::idset | '{1}', '{}'::idset - '{1}', '{1}'::idset - '{}',
    '{}'::idset & '{}', '{}'::idset | '{}';
SELECT '{0,4294967295}'::idset & '{4294967295}', '{0}'::idset | '{4294967295}', '{0,4294967295}'::idset - '{0}';
SELECT a, b, a @> b, a <@ b, a && b FROM (VALUES ('{1,2,3}'::idset, '{2,3}'::idset), ('{2,3}', '{1,2,3}'), ('{1}', '{2}'),
    ('{1}', '{}'), ('{}', '{1}'), ('{}', '{}'),
    ('{1,2}', '{1,2}'), ('{1,2}', '{2,3}'), ('{5,4294967295}', '{4294967295}')) v(a, b);
SELECT '{1,2}'::idset @> 2, '{1,2}'::idset @> 3, 1 <@ '{1,2}'::idset, (-1) <@ '{1,2}'::idset,
    '{1,2}'::idset @> 4294967297;
SELECT '{1}'::idset & NULL, NULL::idset @> '{1}';
-- Sets of all shapes: dense, runs, sparse, far apart; each with each.
CREATE TABLE shapes AS SELECT k, ARRAY(SELECT DISTINCT x FROM (SELECT CASE k
    WHEN 0 THEN i WHEN 1 THEN 2 * i WHEN 2 THEN 3 * i + 1 WHEN 3 THEN i * 1000 WHEN 4 THEN (i * 7919) % 60000 WHEN 5 THEN (i / 100) * 1000
        + i % 100
    WHEN 6 THEN 2000000000 + i ELSE i * i % 30011 END AS x FROM generate_series(1, CASE k WHEN 3 THEN 60 ELSE 3000 END) i) q
        ORDER BY x)::int4[] AS a
    FROM generate_series(0, 7) k;
INSERT INTO shapes VALUES (8, '{}'), (9, '{3}'), (10, '{3,60000}'), (11, ARRAY(SELECT generate_series(1, 30000, 3))),
    (12, ARRAY(SELECT generate_series(60000, 80000))), (13, ARRAY(SELECT i / 50 * 90 + i % 50 FROM generate_series(0, 20000) i));
CREATE TABLE pairs AS SELECT p.a AS a, q.a AS b, idset(p.a) AS x, idset(q.a) AS y FROM shapes p, shapes q;
SELECT count(*) FROM pairs;
SELECT bool_and((x & y)::int4[] = (a & b)), bool_and((x | y)::int4[] = (a | b)), bool_and((x - y)::int4[] = (a - b)) FROM pairs;
SELECT bool_and((x & y)::int4[] = ARRAY(SELECT unnest(a) INTERSECT SELECT unnest(b) ORDER BY 1)),
    bool_and((x - y)::int4[] = ARRAY(SELECT unnest(a) EXCEPT SELECT unnest(b) ORDER BY 1)) FROM pairs;
SELECT bool_and(intersect_len(x, y) = icount(a & b)), bool_and((x @> y) = (a @> b)), bool_and((x <@ y) = (a <@ b)),
    bool_and((x && y) = (a && b)) FROM pairs;
-- Answers are packed in one way: their bytes are those of the same values from an array.
SELECT bool_and((x & y)::bytea = idset(a & b)::bytea), bool_and((x | y)::bytea = idset(a | b)::bytea) FROM pairs;
SELECT bool_and((x # y)::int4[] = ((a | b) - (a & b)) AND (x # y)::bytea = idset((a | b) - (a & b))::bytea) FROM pairs;
SELECT bool_and(unite_len(x, y) = icount(a | b) AND subtract_len(x, y) = icount(a - b) AND symmetric_difference_len(x, y) = icount((a | b) - (a & b))
    AND jaccard(x, y) = CASE WHEN icount(a | b) = 0 THEN 1 ELSE icount(a & b)::float8 / icount(a | b) END) FROM pairs;
-- A set without gaps has few bytes, and one with many gaps has more bytes than both sets that it is made of.
SELECT octet_length((x - y)::bytea) > octet_length(x::bytea) + octet_length(y::bytea) + 8500, cardinality(x - y), (x - y) | y = x, x # y = x - y
    FROM (SELECT idset(ARRAY(SELECT generate_series(0, 999999))), idset(ARRAY(SELECT i * 30 + i * i % 29 FROM generate_series(0, 33000) i))) q(x, y);
-- A constant on one side or on both is opened once.
SELECT bool_and((x @> '{3,60000}') = (a @> '{3,60000}') AND ('{3,60000}' <@ x) = (a @> '{3,60000}') AND (x <@ '{3,60000}') = (a <@ '{3,60000}')
    AND (x && '{3,60000}') = (a && '{3,60000}') AND ('{3,60000}' && x) = (a && '{3,60000}') AND (x & '{3,60000}')::int4[] = (a & '{3,60000}')
    AND ('{3,60000}' - x)::int4[] = ('{3,60000}'::int4[] - a)) FROM pairs;
CREATE FUNCTION related(s idset, t idset) RETURNS text LANGUAGE plpgsql AS 'BEGIN RETURN (s @> t)::text || (s && t); END';
SELECT bool_and(related(x, y) = (a @> b)::text || (a && b)) FROM pairs;
-- One id more, or less.
SELECT '{1,3}'::idset | 2, '{1,3}'::idset | 3, '{}'::idset | 4294967295, '{1,3}'::idset - 3, '{1,3}'::idset - 2, '{1,3}'::idset - (-1),
    '{1,3}'::idset - 4294967297, '{1}'::idset - 1;
SELECT '{1}'::idset | (-1);
SELECT '{1}'::idset | 4294967296;
SELECT bool_and((x | k)::int4[] = (a | k) AND (x - k)::int4[] = (a - k)) FROM pairs, unnest(ARRAY[0, 3, 500, 60000, 2000000100]) k;
DROP FUNCTION related;
DROP TABLE shapes, pairs;
DROP EXTENSION intarray;
