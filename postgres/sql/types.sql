-- The type: text, arrays, bytes, nulls, and what is refused. Each answer that is not t is worked by hand.
\pset format unaligned
\pset tuples_only on
-- Numbers come in any order, and each is kept once.
SELECT '{}'::idset, '{7,9,10,300}'::idset, ' { 10 ,7,300,9,7 } '::idset, '{0,4294967295}'::idset,
    '{-0,007}'::idset;
-- What is not the text of a set.
SELECT ''::idset;
SELECT '1,2'::idset;
SELECT '{1,2'::idset;
SELECT '{1,,2}'::idset;
SELECT '{1,2,}'::idset;
SELECT '{1 2}'::idset;
SELECT '{1,x}'::idset;
SELECT '{1.5}'::idset;
SELECT '{1}}'::idset;
SELECT '{NULL}'::idset;
SELECT '{4294967296}'::idset;
SELECT '{1,-1}'::idset;
SELECT '{99999999999999999999999999999999999999999999999999}'::idset;
-- From arrays and back.
SELECT '{300,7,-0,9}'::int2[]::idset, '{32767}'::int2[]::idset, '{}'::int2[]::idset;
SELECT '{1,-2}'::int2[]::idset;
SELECT '{300,7,9,10,9}'::int4[]::idset, '{4294967295,0}'::int8[]::idset, '{}'::int4[]::idset,
    ARRAY[]::int8[]::idset;
SELECT '{7,9,300}'::idset::int4[], '{0,2147483647}'::idset::int4[], '{0,4294967295}'::idset::int8[],
    '{}'::idset::int4[];
SELECT '{1,-2}'::int4[]::idset;
SELECT '{1,-2}'::int8[]::idset;
SELECT '{4294967295,4294967296}'::int8[]::idset;
SELECT '{5,2147483647,2147483649,4294967295}'::idset::int4[];
SELECT '{1,NULL}'::int4[]::idset;
SELECT '{{1,2},{3,4}}'::int8[]::idset;
SELECT '[5:7]={3,2,1}'::int4[]::idset;
-- Assignment casts; an array column, and the array type of the type.
CREATE TABLE casts (ids idset, many idset[]);
INSERT INTO casts VALUES (ARRAY[3, 1, 2], ARRAY['{1}', '{2,1}']::idset[]), (ARRAY[5000000000 - 1000000000], NULL), (NULL, NULL);
SELECT ids, many FROM casts;
-- STORAGE is external: nothing is compressed, and long values move out of the row.
SELECT attstorage FROM pg_attribute WHERE attrelid = 'casts'::regclass AND attname = 'ids';
-- Bytes that docs/FORMAT.md has: of 7, 9, 10 and 300, of the even numbers to 68, of none, of the numbers to 65535, and of the greatest id.
SELECT '{7,9,10,300}'::idset::bytea, idset(ARRAY(SELECT generate_series(0, 68, 2)))::bytea, '{}'::idset::bytea;
SELECT idset(ARRAY(SELECT generate_series(0, 65535)))::bytea = '\x05808004013100000400000101ff0000';
SELECT '\x84070901008404'::bytea::idset, '\x80'::bytea::idset, '\x81ffffffff0f'::bytea::idset, '\xa2000000'::bytea::idset;
-- Bytes that are refused: none; bytes that begin with 1; a column; bytes that are missing, and one that is left over; an id in six bytes; a bit
-- after the last code; and an id that is too great.
\set VERBOSITY sqlstate
SELECT ''::bytea::idset;
SELECT '\x0102010100000005000000'::bytea::idset;
SELECT '\x7f'::bytea::idset;
SELECT '\x840709010084'::bytea::idset;
SELECT '\x82050001'::bytea::idset;
SELECT '\x818500'::bytea::idset;
SELECT '\x82050121'::bytea::idset;
SELECT '\x82ffffffff0f00'::bytea::idset;
\set VERBOSITY default
-- A set of many values comes back from text, arrays and bytes.
CREATE TABLE numbers AS SELECT ARRAY(SELECT i * 7 % 1000003 FROM generate_series(1, 200000) i) AS a;
SELECT idset(a)::int4[] = ARRAY(SELECT DISTINCT unnest(a) ORDER BY 1) FROM numbers;
SELECT idset(a)::text = idset(a)::int4[]::text AND idset(a)::text::idset = idset(a) FROM numbers;
SELECT idset(a)::bytea::idset = idset(a) AND octet_length(idset(a)::bytea) < 200000 FROM numbers;
SELECT idset(a)::int8[] = idset(a)::int4[]::int8[] AND idset(a::int8[]) = idset(a) FROM numbers;
-- A text with as many ids as it can have.
SELECT ('{' || repeat('7,', 100000) || '3}')::idset;
-- Texts of all lengths of ids of ten digits, whose buffers grow by doubling.
SELECT bool_and(idset(a)::text = a::text) FROM (SELECT ARRAY(SELECT 4294960000 + i FROM generate_series(1, n) i)::int8[] AS a FROM generate_series(700, 1100) n) q;
-- Values that are short, long, in the row and out of it.
CREATE TABLE stored AS SELECT n, idset(ARRAY(SELECT i * 1000 FROM generate_series(1, n) i)) AS ids FROM unnest(ARRAY[0, 1, 5, 50,
    500, 5000, 50000]) n;
SELECT bool_and(ids::int4[] = ARRAY(SELECT i * 1000 FROM generate_series(1, n) i)) AND bool_and(pg_column_compression(ids) IS NULL)
    FROM stored;
-- Null for a null.
SELECT count(*) FROM pg_proc WHERE proname IN ('contains', 'get', 'seek', 'rank', 'slice', 'count_between', 'jaccard', 'intersect_len')
    AND NOT proisstrict;
SELECT cardinality(NULL::idset) IS NULL, contains(NULL::idset, 1) IS NULL, (NULL::idset & '{1}') IS NULL,
    NULL::idset::int4[] IS NULL;
-- All of the extension is immutable and safe in parallel.
SELECT count(*) > 40, bool_and(provolatile = 'i' AND proparallel = 's') FROM pg_proc p JOIN pg_depend d ON d.objid = p.oid
    AND d.classid = 'pg_proc'::regclass
    JOIN pg_extension e ON e.oid = d.refobjid AND d.refclassid = 'pg_extension'::regclass WHERE extname = 'idset'
    AND proname NOT IN ('idset_typanalyze', 'idset_sel', 'idset_joinsel');
DROP TABLE casts, numbers, stored;
