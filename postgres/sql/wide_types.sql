-- The type idset8: text, arrays, bytes, nulls, what is refused, and what a set answers. Each answer that is not t is worked by hand.
\pset format unaligned
\pset tuples_only on
SELECT '{}'::idset8, '{7,9,10,300}'::idset8, ' { 10 ,7,300,9,7 } '::idset8, '{0,18446744073709551615}'::idset8, '{-0,007}'::idset8,
    '{9223372036854775808,4294967296,4294967295,9223372036854775807,4294967296}'::idset8, '{00000000000000000000000000000018446744073709551615}'::idset8;
-- What is not the text of a set.
SELECT ''::idset8;
SELECT '{1,2'::idset8;
SELECT '{1,,2}'::idset8;
SELECT '{1 2}'::idset8;
SELECT '{1.5}'::idset8;
SELECT '{1}}'::idset8;
SELECT '{NULL}'::idset8;
SELECT '{18446744073709551616}'::idset8;
SELECT '{18446744073709551620}'::idset8;
SELECT '{20000000000000000000}'::idset8;
SELECT '{184467440737095516150}'::idset8;
SELECT '{1,-1}'::idset8;
SELECT '{99999999999999999999999999999999999999999999999999}'::idset8;
-- From arrays and back. An id from 2^63 on is no bigint.
SELECT '{300,7,-0,9}'::int2[]::idset8, '{300,7,9,10,9}'::int4[]::idset8, '{9223372036854775807,0,4294967296,0}'::int8[]::idset8, '{}'::int8[]::idset8;
SELECT '{0,4294967295,4294967296,9223372036854775807}'::idset8::int8[], '{}'::idset8::int8[];
SELECT '{1,-2}'::int4[]::idset8;
SELECT '{1,-9223372036854775808}'::int8[]::idset8;
SELECT '{1,NULL}'::int8[]::idset8;
SELECT '{{1,2},{3,4}}'::int8[]::idset8;
SELECT '{5,9223372036854775808,18446744073709551615}'::idset8::int8[];
CREATE TABLE casts (ids idset8, many idset8[]);
INSERT INTO casts VALUES (ARRAY[3, 1, 2], ARRAY['{1}', '{2,1}']::idset8[]), (ARRAY[5000000000], NULL), (NULL, NULL);
SELECT ids, many FROM casts;
SELECT attstorage FROM pg_attribute WHERE attrelid = 'casts'::regclass AND attname = 'ids';
-- The sets of docs/FORMAT.md, byte by byte.
SELECT bool_and(ids::idset8::bytea = bytes AND bytes::idset8::text = ids), count(*) FROM (VALUES ('{}', '\x090060'::bytea), ('{5}', '\x0901610005000000'),
    ('{18446744073709551615}', '\x090161ffffffff0fffffffff'), ('{1,4294967297,8589934592}', '\x0903630001030100000001000000' || '\x00000000'::bytea),
    ('{0,1,2,3,4,5,6,4294967296}', '\x0908680001400000000001000000020000000300000004000000050000000600000000000000'),
    ('{5000000000,5000000001,5000000002,5000000003,5000000004,5000000005,5000000006,5000000007}', '\x080801110100000007088880e497d00200'),
    ('{0,1,2,3,4,5,6,7,8,9,10,11,12,13,14,9223372036854775808}', '\x081002110000000000000080' || '\x03050f108f00008100'::bytea)) v(ids, bytes);
-- The faults of docs/FORMAT.md: each is refused.
CREATE FUNCTION said(bytes bytea) RETURNS text LANGUAGE plpgsql AS
    'BEGIN RETURN bytes::idset8::text; EXCEPTION WHEN OTHERS THEN RETURN SQLSTATE || '' '' || split_part(SQLERRM, '':'', 1); END';
SELECT DISTINCT said(bytes) FROM unnest(ARRAY['', '\x05', '\x0985', '\x098500', '\x098180808001', '\x0901', '\x0901410505000000', '\x09016005000000',
    '\x09026200000500000005000000', '\x0808', '\x080802', '\x080700', '\x080801', '\x08080110', '\x08080111', '\x08080111010000000707',
    '\x08080111010000000008', '\x0808011201000000070008', '\x08080111010000000708', '\x080801110100000007088780e497d00200',
    '\x080801110100000007088880e497d0020000']::bytea[]) bytes;
SELECT '\x09016005000000'::bytea::idset8;
-- Many ids come back from text, arrays and bytes: dense, with few of a high word, around 2^32, below 2^63, and of any bits.
CREATE TABLE numbers AS SELECT k, ARRAY(SELECT CASE k WHEN 0 THEN i * 3 WHEN 1 THEN i % 100 * 4294967296 + i * 7 % 1000 WHEN 2 THEN 4294967296 + i - 700
    WHEN 3 THEN 9223372036854775807 - i * i WHEN 4 THEN ('x' || md5(i::text))::bit(64)::int8 & 9223372036854775807 ELSE i * 2654435761 END
    FROM generate_series(1::int8, 1500) i) AS a FROM generate_series(0, 5) k;
SELECT count(*), bool_and(idset8(a)::int8[] = ARRAY(SELECT DISTINCT unnest(a) ORDER BY 1)), bool_and(idset8(a)::text = idset8(a)::int8[]::text),
    bool_and(idset8(a)::text::idset8 = idset8(a)), bool_and(idset8(a)::bytea::idset8 = idset8(a)) FROM numbers;
SELECT ('{' || repeat('7,', 100000) || '3}')::idset8;
SELECT bool_and(idset8(a)::text = a::text) FROM (SELECT ARRAY(SELECT 9223372036854770000 + i FROM generate_series(1, n) i)::int8[] AS a
    FROM generate_series(700, 1100) n) q;
-- Values that are short, long, in the row and out of it, and one that is kept for all rows.
CREATE TABLE stored AS SELECT n, idset8(ARRAY(SELECT i * 10000000000 FROM generate_series(1, n) i)) AS ids FROM unnest(ARRAY[0, 1, 5, 50, 500, 5000]) n;
SELECT bool_and(ids::int8[] = ARRAY(SELECT i * 10000000000 FROM generate_series(1, n) i)), bool_and(pg_column_compression(ids) IS NULL) FROM stored;
SELECT count(*) FROM generate_series(0, 6000) i WHERE (SELECT ids FROM stored WHERE n = 5000) @> i * 10000000000;
SELECT count(*) FROM generate_series(0, 6000) i, stored WHERE ids @> i * 10000000000;
-- What a set answers. A number below 0 is in no set.
SELECT i, contains('{7,4294967296,9223372036854775807}'::idset8, i), i <@ '{7,4294967296,9223372036854775807}'::idset8,
    rank('{7,4294967296,9223372036854775807}'::idset8, i), seek('{7,4294967296,9223372036854775807}'::idset8, i)
    FROM unnest(ARRAY[-1, 0, 7, 8, 4294967295, 4294967296, 4294967303, 9223372036854775807]) i;
SELECT i, get('{7,4294967296,9223372036854775807}'::idset8, i) FROM unnest(ARRAY[-1, 0, 1, 2, 3, 4, 4294967297, 9223372036854775807]) i;
SELECT cardinality(s), min(s), max(s), count_between(s, -5, 9223372036854775807), count_between(s, 8, 4294967296), count_between(s, 8, 7),
    count_between(s, -7, -1), range(s, 8, 9223372036854775807), range(s, -9, -1), slice(s, 2, 3), slice(s, 3, 2)
    FROM (VALUES ('{7,9,4294967296}'::idset8), ('{0}'), ('{}'), ('{9223372036854775807}')) v(s);
SELECT cardinality(s), contains(s, -1), rank(s, 9223372036854775807), count_between(s, 0, 9223372036854775807), range(s, 1, 9223372036854775807),
    slice(s, 2, 3), min(s), get(s, 2) FROM (VALUES ('{0,5,9223372036854775808,18446744073709551615}'::idset8)) v(s);
SELECT max('{5,18446744073709551615}'::idset8);
SELECT get('{5,9223372036854775808}'::idset8, 2);
SELECT seek('{5,9223372036854775808}'::idset8, 6);
SELECT unnest('{5,9223372036854775808}'::idset8);
SELECT unnest('{7,4294967296,9223372036854775807}'::idset8);
SELECT n, id FROM (VALUES (1, '{3,4}'::idset8), (2, '{}'), (3, NULL), (4, '{0}')) v(n, ids), unnest(ids) id;
SELECT * FROM describe('{5000000000,5000000001,5000000002,5000000003,5000000004,5000000005,5000000006,5000000007}'::idset8);
SELECT idset8_contains('{1,5}', 5), idset8_rank('{1,5}', 5), idset8_seek('{1,5}', 2), idset8_get('{1,5}', 2), idset8_min('{1,5}'), idset8_max('{1,5}'),
    idset8_range('{1,5}', 2, 9), idset8_slice('{1,5}', 1, 1);
-- A set without a type is an idset.
SELECT pg_typeof(range('{1,5}', 2, 9)), contains('{1,5}', 5), jaccard('{1,5}', '{5}'), fill('{1,5}', 4, 6);
-- The same, beside the array, in pieces and around their ends.
CREATE TABLE sets AS SELECT k, idset8(a) AS ids, ARRAY(SELECT DISTINCT unnest(a) ORDER BY 1) AS a FROM numbers;
SELECT bool_and(cardinality(ids) = cardinality(a) AND min(ids) = a[1] AND max(ids) = a[cardinality(a)] AND ARRAY(SELECT unnest(ids)) = a) FROM sets;
SELECT bool_and(contains(ids, t) = (t = ANY (a)) AND rank(ids, t) = (SELECT count(*) FROM unnest(a) x WHERE x < t)
    AND seek(ids, t) IS NOT DISTINCT FROM (SELECT min(x) FROM unnest(a) x WHERE x >= t) AND get(ids, p) = a[p]
    AND slice(ids, p - 40, p)::int8[] = a[GREATEST(p - 40, 1):p] AND range(ids, u, t)::int8[] = ARRAY(SELECT x FROM unnest(a) x WHERE x BETWEEN u AND t)
    AND count_between(ids, u, t) = cardinality(range(ids, u, t))) FROM sets, generate_series(1, 1500, 97) p, LATERAL (SELECT a[p] + p % 3 - 1 AS t,
    a[p] - 5000 AS u OFFSET 0) q WHERE p < cardinality(a) - 3;
-- Null for a null.
SELECT cardinality(NULL::idset8) IS NULL, contains(NULL::idset8, 1) IS NULL, (NULL::idset8 & '{1}') IS NULL, NULL::idset8::int8[] IS NULL,
    '{1}'::idset8 | NULL::int8 IS NULL;
SELECT count(*) > 40, bool_and(p.proisstrict OR proname ~ '_(gather|combine|final)|_agg$') FROM pg_proc p WHERE p.oid::regprocedure::text ~ 'idset8';
DROP FUNCTION said;
DROP TABLE casts, numbers, stored, sets;
