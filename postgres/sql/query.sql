-- Queries of ids: their text, and their answers beside intarray's query_int, which has the same signs.
\pset format unaligned
\pset tuples_only on
CREATE EXTENSION intarray;
SELECT '1'::idset_query, ' 1 & ( 2|!3 ) '::idset_query, '!(1|2)&!!4294967295'::idset_query, '((7))'::idset_query, '1|2&3|!4'::idset_query;
-- What is not a query.
SELECT ''::idset_query;
SELECT '1&'::idset_query;
SELECT '1 2'::idset_query;
SELECT '(1|2'::idset_query;
SELECT '1|2)'::idset_query;
SELECT '()'::idset_query;
SELECT '!'::idset_query;
SELECT '&1'::idset_query;
SELECT '1&x'::idset_query;
SELECT '-1'::idset_query;
SELECT '4294967296'::idset_query;
-- By hand.
SELECT s, s @@ '1&(2|3)', s @@ '1&2|3', '!1'::idset_query @@ s, s @@ '!(1|2)&3', s @@ '!!1' FROM (VALUES ('{}'::idset), ('{1}'), ('{1,2}'), ('{3}'),
    ('{1,2,3}')) v(s);
SELECT '{4294967295}'::idset @@ '4294967295', NULL::idset @@ '1', '{1}'::idset @@ NULL::idset_query;
-- Many queries, each of eight signs and ids by a generator, over all sets of the ids from 0 to 4.
CREATE FUNCTION chance(n int, k int, sides int) RETURNS int LANGUAGE sql IMMUTABLE AS
    $$ SELECT ('x' || substr(md5(n || ' ' || k), 1, 7))::bit(28)::int % sides $$;
CREATE TABLE asked AS SELECT n, string_agg(CASE WHEN k = 0 THEN '' WHEN chance(n, k, 2) = 0 THEN '|' ELSE '&' END ||
    CASE WHEN chance(n, k + 10, 4) = 0 THEN '!' ELSE '' END || CASE WHEN (chance(n, 50, 3) + k) % 3 = 0 AND k < 7 THEN '(' ELSE '' END ||
    CASE WHEN chance(n, k + 20, 4) = 0 THEN '!' ELSE '' END || chance(n, k + 30, 5) ||
    CASE WHEN (chance(n, 50, 3) + k - 1) % 3 = 0 AND k > 0 THEN ')' ELSE '' END, '' ORDER BY k) AS q FROM generate_series(1, 400) n, generate_series(0, 7) k
    GROUP BY n;
CREATE TABLE subsets AS SELECT m, ARRAY(SELECT i FROM generate_series(0, 4) i WHERE m & (1 << i) <> 0)::int4[] AS a FROM generate_series(0, 31) m;
SELECT count(*), count(DISTINCT q) > 100, bool_and(idset(a) @@ q::idset_query = (a @@ q::query_int)),
    bool_and(q::idset_query::text = q), count(*) FILTER (WHERE a @@ q::query_int) BETWEEN 1000 AND 12000 FROM asked, subsets;
-- Long and deep ones.
SELECT '{7}'::idset @@ (repeat('!', 100000) || '7')::idset_query, '{7}'::idset @@ (repeat('!', 100001) || '7')::idset_query,
    '{7}'::idset @@ (repeat('(', 100000) || '7' || repeat(')', 100000))::idset_query, '{7}'::idset @@ (repeat('1|(2&', 50000) || '7' || repeat(')', 50000))::idset_query,
    '{100000}'::idset @@ (SELECT string_agg(i::text, '|') FROM generate_series(1, 100000) i)::idset_query;
SELECT q::idset_query::text = q FROM (SELECT repeat('1|(2&', 50000) || '7' || repeat(')', 50000)) v(q);
-- A table of queries, and one that a function is called with.
CREATE TABLE kept AS SELECT n, q::idset_query AS q FROM asked;
SELECT bool_and(kept.q::text = asked.q) FROM kept JOIN asked USING (n);
SELECT count(*) = (SELECT count(*) FROM asked WHERE '{1,3}'::int4[] @@ q::query_int) FROM kept WHERE '{1,3}'::idset @@ q;
PREPARE matches(idset_query) AS SELECT array_agg(m ORDER BY m) FROM subsets WHERE idset(a) @@ $1;
EXECUTE matches('0&1&2&!3');
EXECUTE matches('!0&!1&!2&!3');
DROP FUNCTION chance;
DROP TABLE asked, subsets, kept;
DROP EXTENSION intarray;
