-- Ranges that are added, removed and turned over, ids that are moved, and sets with numbers and arrays.
\pset format unaligned
\pset tuples_only on
SELECT fill('{1,5,9}', 4, 7), clear('{1,5,9}', 4, 9), flip('{1,5,9}', 4, 7), shift('{1,5,9}', 3), shift('{1,5,9}', -1);
SELECT fill('{}', 4294967294, 4294967295), flip('{0,4294967295}', 4294967294, 4294967295), clear('{0,4294967295}', -5, 5000000000);
SELECT fill('{5}', 7, 6), clear('{5}', 7, 6), flip('{5}', 7, 6), clear('{5}', 6, 9), clear('{5}', 5000000000, 6000000000), shift('{}', 5000000000);
SELECT fill('{1}', -1, 4);
SELECT fill('{1}', 4, 4294967296);
SELECT flip('{1}', -1, 4);
SELECT fill('{1}', 0, 4294967295);
SELECT fill('{1}', 2, 268435457);
SELECT flip('{}', 0, 4294967295);
SELECT shift('{1,5}', -2);
SELECT shift('{1,4294967290}', 6);
SELECT shift('{1}', 9223372036854775807);
-- Beside rows: many ranges of a long set.
CREATE TABLE long AS SELECT idset(ARRAY(SELECT i * 7 FROM generate_series(0, 20000) i)) AS ids;
CREATE TABLE turned AS SELECT low, high, ARRAY(SELECT i FROM generate_series(low, high) i) AS numbers FROM generate_series(0, 139000, 9973) low,
    LATERAL (SELECT low + low % 2003 AS high) h;
SELECT bool_and(fill(ids, low, high)::int4[] = ARRAY(SELECT unnest(ids::int4[]) UNION SELECT unnest(numbers) ORDER BY 1)),
    bool_and(clear(ids, low, high)::int4[] = ARRAY(SELECT unnest(ids::int4[]) EXCEPT SELECT unnest(numbers) ORDER BY 1)),
    bool_and(flip(ids, low, high)::int4[] = ARRAY(SELECT x FROM (SELECT unnest(ids::int4[]) UNION ALL SELECT unnest(numbers)) q(x)
        GROUP BY x HAVING count(*) = 1 ORDER BY 1)),
    bool_and(shift(ids, high)::int4[] = ARRAY(SELECT x + high FROM unnest(ids::int4[]) x ORDER BY 1)), count(*) FROM long, turned;
-- Numbers and arrays.
SELECT 7 | '{1,5}'::idset, 5::int2 | '{1,5}'::idset, '{1,5}'::idset | ARRAY[9, 5, 2], ARRAY[9, 9]::int8[] | '{1,5}'::idset;
SELECT '{1,5}'::idset & ARRAY[5, 7], ARRAY[1, 5]::int2[] & '{1,5}'::idset, '{1,5}'::idset - ARRAY[5, 4], '{1,5}'::idset | ARRAY[]::int4[];
SELECT '{1,5}'::idset | ARRAY[9, NULL];
SELECT '{1,5}'::idset | ARRAY[-9];
SELECT '{1,5}'::idset | '{5,6}', '{1,5}'::idset & '{5,6}', '{1,5}'::idset - '{5,6}', '{1,5}'::idset | NULL::int8[] IS NULL;
-- What a set is like, and names that no other function has.
SELECT * FROM describe('{7,9,10,300}');
SELECT d.ids, d.bytes = octet_length(l.ids::bytea), d.min, d.max FROM long l, describe(l.ids) d;
SELECT ids, min IS NULL, bits_per_id IS NULL FROM describe('{}');
SELECT idset_rank('{1,5}', 5), idset_contains('{1,5}', 5), idset_seek('{1,5}', 2), idset_get('{1,5}', 2), idset_min('{1,5}'), idset_max('{1,5}'),
    idset_range('{1,5}', 2, 9), idset_slice('{1,5}', 1, 1);
SELECT rank('{1,5}', 5);
DROP TABLE long, turned;
