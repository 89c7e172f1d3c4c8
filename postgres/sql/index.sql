-- The class of GIN: each query by the index, and by a scan of the same rows as arrays.
\pset format unaligned
\pset tuples_only on
-- PostgreSQL finds each class of operators whole.
SELECT opcname, amvalidate(oid) FROM pg_opclass WHERE opcname LIKE 'idset%' ORDER BY opcname;
CREATE TABLE docs AS SELECT i AS id, ARRAY(SELECT DISTINCT (i * k * 7919 + i) % 1000 FROM generate_series(1, i % 50) k
    ORDER BY 1)::int4[] AS a FROM generate_series(1, 2000) i;
INSERT INTO docs VALUES (2001, '{}'), (2002, NULL), (2003, '{1,2,3}'), (2004, '{2,1,3}');
CREATE TABLE sets AS SELECT id, idset(a) AS l FROM docs;
INSERT INTO sets VALUES (2005, '{3000000000,4294967295}');
CREATE INDEX ON sets USING gin (l);
ANALYZE sets;
SET enable_seqscan = off;
EXPLAIN (COSTS off) SELECT id FROM sets WHERE l @> '{35,70}';
EXPLAIN (COSTS off) SELECT id FROM sets WHERE l && '{35,70}';
EXPLAIN (COSTS off) SELECT id FROM sets WHERE l <@ '{35,70}';
EXPLAIN (COSTS off) SELECT id FROM sets WHERE l = '{1,2,3}';
EXPLAIN (COSTS off) SELECT id FROM sets WHERE l @> 35;
EXPLAIN (COSTS off) SELECT id FROM sets WHERE 35 <@ l;
EXPLAIN (COSTS off) SELECT id FROM sets WHERE l @@ '35&(70|!71)';
SELECT id FROM sets WHERE l = '{1,2,3}' ORDER BY id;
SELECT id FROM sets WHERE (l = '{}' OR l @> 4294967295 OR l @> '{3000000000}') AND id > 1900 ORDER BY id;
SELECT id FROM sets WHERE l @> (-1) OR l @> 1294967296;
CREATE TABLE queries AS SELECT n, ARRAY(SELECT DISTINCT (n * j * 31) % 1000 FROM generate_series(1, n % 6) j ORDER BY 1)::int4[] AS q
    FROM generate_series(1, 60) n;
INSERT INTO queries VALUES (61, '{}'), (62, ARRAY(SELECT generate_series(0, 999, 2))), (63, ARRAY(SELECT generate_series(0, 999))), (64,
    '{1,2,3}');
CREATE FUNCTION by_index(condition text, q int4[]) RETURNS int4[] LANGUAGE plpgsql AS
    $$ DECLARE ids int4[]; BEGIN EXECUTE format('SELECT array_agg(id ORDER BY id) FROM sets WHERE %s AND id <= 2004', replace(condition,
        'Q', quote_literal(q) || '::idset')) INTO ids; RETURN ids; END $$;
CREATE FUNCTION by_scan(condition text, q int4[]) RETURNS int4[] LANGUAGE plpgsql AS
    $$ DECLARE ids int4[]; BEGIN EXECUTE format('SELECT array_agg(id ORDER BY id) FROM docs WHERE %s', replace(condition, 'Q',
        quote_literal(q) || '::int4[]')) INTO ids; RETURN ids; END $$;
SELECT bool_and(by_index('l @> Q', q) IS NOT DISTINCT FROM by_scan('a @> Q', q)), bool_and(by_index('l && Q', q) IS NOT DISTINCT
    FROM by_scan('a && Q', q)),
    bool_and(by_index('l <@ Q', q) IS NOT DISTINCT FROM by_scan('a <@ Q', q)), bool_and(by_index('l = Q', q) IS NOT DISTINCT
        FROM by_scan('a <@ Q AND a @> Q', q)),
    sum(cardinality(by_scan('a @> Q', q))) > 5000 FROM queries;
SELECT bool_and((SELECT count(*) FROM sets WHERE l @> n) = (SELECT count(*) FROM docs WHERE a @> ARRAY[n])) FROM generate_series(0, 999,
    17) n;
-- Queries, of which some hold for sets without any of their ids.
CREATE EXTENSION intarray;
SELECT q, count(*) FILTER (WHERE found IS NOT DISTINCT FROM wanted), max(cardinality(wanted)) > 0 FROM (SELECT q, by_index('l @@ ' ||
    quote_literal(q), '{}') AS found, by_scan('a @@ ' || quote_literal(q) || '::query_int', '{}') AS wanted FROM unnest(ARRAY['35', '35&70', '35|70',
    '!35', '35&!70', '35|!70', '!(35|70)', '!(35&!70)', '1&2&3&!4', '(1|2|3|4|5)&(6|7|8|9)&!(10|11)', '!1&!2', '1&!1']) q) v GROUP BY q ORDER BY q;
SELECT bool_and(by_index('l @@ ' || quote_literal(q), '{}') IS NOT DISTINCT FROM by_scan('a @@ ' || quote_literal(q) || '::query_int', '{}'))
    FROM (SELECT n, string_agg((n * k * 37 % 90)::text, CASE n % 3 WHEN 0 THEN '|!' WHEN 1 THEN '&!' ELSE '|' END) AS q
        FROM generate_series(1, 60) n, generate_series(1, 5) k GROUP BY n) v;
DROP EXTENSION intarray;
-- If the index alone answers, a query reads a few of its pages, and the operator is called for no row. The last one reads all pages.
SET track_functions = 'all';
CREATE FUNCTION work(condition text, OUT pages int8, OUT tested int8) LANGUAGE plpgsql AS
    $$ DECLARE plan json; before int8; BEGIN SELECT coalesce(sum(calls), 0) INTO before FROM pg_stat_xact_user_functions;
        EXECUTE 'EXPLAIN (ANALYZE, BUFFERS, FORMAT json) SELECT id FROM sets WHERE ' || condition INTO plan;
        plan = plan -> 0 -> 'Plan' -> 'Plans' -> 0; pages = (plan ->> 'Shared Hit Blocks')::int8 + (plan ->> 'Shared Read Blocks')::int8;
        SELECT coalesce(sum(calls), 0) - before INTO tested FROM pg_stat_xact_user_functions; END $$;
SELECT c, pages BETWEEN 1 AND 9, tested FROM unnest(ARRAY['l @> 1', 'l @> ''{1,2}''', 'l && ''{1,2}''', 'l @@ ''1''', 'l @@ ''1&2''',
    'l @@ ''1|2''', 'l @@ ''1&!2''', 'l @@ ''!1''']) c, work(c);
SELECT c, tested > 0 FROM unnest(ARRAY['l <@ ''{1,2}''']) c, work(c);
DROP FUNCTION work;
RESET track_functions;
-- The planner's estimates are of the size of the answers, within a factor of 3 and 20 rows.
SET enable_seqscan = on;
CREATE FUNCTION estimated(condition text) RETURNS float8 LANGUAGE plpgsql AS
    $$ DECLARE plan json; BEGIN EXECUTE 'EXPLAIN (FORMAT json) SELECT id FROM sets WHERE ' || condition INTO plan;
        RETURN (plan -> 0 -> 'Plan' ->> 'Plan Rows')::float8; END $$;
CREATE FUNCTION counted(condition text) RETURNS float8 LANGUAGE plpgsql AS
    $$ DECLARE n float8; BEGIN EXECUTE 'SELECT count(*) FROM sets WHERE ' || condition INTO n; RETURN n; END $$;
SELECT c, e BETWEEN n / 3 - 20 AND n * 3 + 20 FROM (SELECT c, estimated(c) AS e, counted(c) AS n FROM unnest(ARRAY['l @> 35', 'l && ''{35,70,105}''',
    'l @> ''{35,70}''', 'l @@ ''!35''', 'l @> ''{}''', 'l <@ ''{0,1}''']) c) v;
DROP FUNCTION estimated, counted;
SET enable_seqscan = off;
-- Two conditions on one index, rows that come later, and rows that go.
INSERT INTO sets SELECT id + 10000, l FROM sets WHERE id = 2003;
DELETE FROM sets WHERE id = 2004;
SELECT id FROM sets WHERE l @> '{1,2}' AND l <@ '{1,2,3}' ORDER BY id;
VACUUM sets;
SELECT id FROM sets WHERE l @> '{1,2}' AND l <@ '{1,2,3}' ORDER BY id;
DROP FUNCTION by_index, by_scan;
DROP TABLE docs, sets, queries;
