-- What a set answers. Long sets are compared with the rows that they were made of.
\pset format unaligned
\pset tuples_only on
SELECT cardinality('{}'::idset), cardinality('{7,9,10,300}'::idset);
SELECT i, contains('{7,9,4294967295}', i) FROM unnest(ARRAY[-1, 0, 7, 8, 9, 10, 4294967295, 4294967296, 4294967303]) i;
-- The first value that is at least the target; by position from 1 on, as in an array.
SELECT i, seek('{7,9,4294967295}', i) FROM unnest(ARRAY[-9, 0, 7, 8, 10, 4294967295, 4294967296]) i;
SELECT i, get('{7,9,4294967295}', i) FROM unnest(ARRAY[-1, 0, 1, 2, 3, 4, 4294967297, 9223372036854775807]) i;
SELECT count_between('{7,9,10,300}', 8, 10), count_between('{7,9,10,300}', 7, 7), count_between('{7,9,10,300}', 10, 9),
    count_between('{7,9,10,300}', -5, 5000000000),
    count_between('{7,9,10,300}', 5000000000, 6000000000), count_between('{7,9,10,300}', -7, -1), count_between('{0,4294967295}',
        4294967295, 4294967295);
SELECT range('{7,9,10,300}', 8, 10), range('{7,9,10,300}', 301, 400), range('{7,9,10,300}', 10, 9),
    range('{0,4294967295}', -1, 9000000000);
SELECT unnest('{7,9,4294967295}'::idset);
SELECT unnest('{}'::idset);
SELECT n, id FROM (VALUES (1, '{3,4}'::idset), (2, '{}'), (3, NULL), (4, '{0}')) v(n, ids), unnest(ids) id;
SELECT i, rank('{7,9,4294967295}'::idset, i) FROM unnest(ARRAY[-9, 0, 7, 8, 9, 10, 4294967295, 4294967296, 9223372036854775807]) i;
SELECT min(s), max(s) FROM (VALUES ('{7,9,4294967295}'::idset), ('{0}'), ('{}')) v(s);
-- By positions, as the slice of an array.
SELECT i, j, slice('{7,9,10,300}', i, j), ('{7,9,10,300}'::int4[])[i:j] FROM unnest(ARRAY[0, 1, 2, 4, 5]) i, unnest(ARRAY[0, 1, 3, 9]) j;
SELECT slice('{7,9}', -9223372036854775808, 9223372036854775807), slice('{7,9}', 9223372036854775807, -9223372036854775808), slice('{}', 1, 1);
-- Long sets: some with long runs, some with large gaps, lengths at the ends of blocks and pieces.
CREATE TABLE rows AS SELECT DISTINCT n, CASE WHEN n % 2 = 0 THEN i::int8 * (n + 1) ELSE (i::int8 * i * 7919 + n) % 4294967296 END AS id
    FROM unnest(ARRAY[1, 31, 32, 33, 127, 128, 129, 256, 1023, 1024, 1025, 2049, 6000]) n, generate_series(1, n) i;
CREATE TABLE sets AS SELECT n, idset(array_agg(id)) AS ids FROM rows GROUP BY n;
SELECT count(*) FROM sets;
SELECT bool_and(cardinality(ids) = (SELECT count(*) FROM rows r WHERE r.n = l.n)) FROM sets l;
SELECT bool_and(ARRAY(SELECT unnest(ids)) = ARRAY(SELECT id FROM rows r WHERE r.n = l.n ORDER BY id)) FROM sets l;
SELECT bool_and(get(ids, i) IS NOT DISTINCT FROM (ids::int8[])[i]) FROM sets, generate_series(0, 1100, 11) i;
SELECT bool_and(min(ids) = (SELECT min(id) FROM rows r WHERE r.n = l.n) AND max(ids) = (SELECT max(id) FROM rows r WHERE r.n = l.n)) FROM sets l;
SELECT bool_and(slice(ids, a, a + w)::int8[] = (ids::int8[])[a:a + w]) FROM sets, unnest(ARRAY[1, 100, 1024]) a, unnest(ARRAY[0, 500, 5000]) w;
SELECT bool_and(rank(ids, t) = (SELECT count(*) FROM rows r WHERE r.n = l.n AND id < t)) FROM sets l, unnest(ARRAY[0, 1, 100, 20000, 2000000000]) t;
SELECT bool_and(contains(ids, t) = (t = ANY (ids::int8[])) AND (ids @> t) = (t = ANY (ids::int8[]))
    AND (t <@ ids) = (t = ANY (ids::int8[])))
    FROM sets l, LATERAL (SELECT id + d AS t FROM rows r, generate_series(-1, 1) d WHERE r.n = l.n AND id % 37 = 0) q;
SELECT bool_and(seek(ids, t) IS NOT DISTINCT FROM (SELECT min(id) FROM rows r WHERE r.n = l.n AND id >= t)) FROM sets l, unnest(ARRAY[0,
    1, 100, 20000, 2000000000, 4294967295]) t;
SELECT bool_and(count_between(ids, a, a + w) = (SELECT count(*) FROM rows r WHERE r.n = l.n AND id BETWEEN a AND a + w) AND
    range(ids, a, a + w)::int8[] = ARRAY(SELECT id FROM rows r WHERE r.n = l.n AND id BETWEEN a AND a + w ORDER BY id))
    FROM sets l, unnest(ARRAY[-5, 0, 77, 1024, 4000000000]) a, unnest(ARRAY[0, 100, 5000, 1000000000, 9000000000]) w;
-- A constant is opened once for all rows, a parameter when it changes, and an element of an array for each.
SELECT count(*) FROM rows WHERE contains('{129,258,300}', id) AND n = 128;
SELECT count(*) FROM rows WHERE n = 128 AND id <@ ANY (ARRAY['{129}', '{258}', '{1}', '{129,387}']::idset[]);
SELECT array_agg(id ORDER BY id) FROM rows WHERE n = 128 AND id <@ ALL (ARRAY['{129,258}', '{258,387}']::idset[]);
CREATE FUNCTION has(ids idset, id int8) RETURNS bool LANGUAGE plpgsql AS 'BEGIN RETURN contains(ids, id); END';
SELECT has(ids, 1), has(ids, 2), has(ids, 3) FROM unnest(ARRAY['{1,2}', '{2,3}', '{2,3}', '{}', '{1}']::idset[]) ids;
PREPARE asked(idset) AS SELECT count(*) FROM rows WHERE n = 128 AND contains($1, id);
SET plan_cache_mode = force_generic_plan;
EXECUTE asked('{129,258,300}');
EXECUTE asked('{129}');
EXECUTE asked('{}');
RESET plan_cache_mode;
-- The planner knows how many rows a constant has.
CREATE FUNCTION planned(query text) RETURNS SETOF text LANGUAGE plpgsql AS
    $$ DECLARE line text; BEGIN FOR line IN EXECUTE 'EXPLAIN ' || query LOOP RETURN NEXT substring(line
        FROM 'rows=\d+'); END LOOP; END $$;
SELECT planned('SELECT * FROM unnest(''{7,9,10,300}''::idset)');
SELECT planned('SELECT * FROM unnest(NULL::idset)');
SELECT count(*) FROM unnest(NULL::idset);
-- LIMIT stops unnest, and two walks are apart.
SELECT a, b FROM (SELECT unnest(ids) AS a, unnest('{5,6,7}'::idset) AS b FROM sets WHERE n = 6000) q LIMIT 4;
DROP FUNCTION has, planned;
DROP TABLE rows, sets;
