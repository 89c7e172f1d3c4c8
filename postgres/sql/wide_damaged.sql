-- Damaged values of idset8, as damaged.sql has those of idset.
\pset format unaligned
\pset tuples_only on
SELECT current_setting('data_checksums') AS checksums \gset
\if :checksums
\echo With data checksums the server refuses a damaged page itself, and no call tests a value again.
\quit
\endif
CREATE TABLE damaged (n int, ids bytea);
-- No byte; an id set; a byte is missing, and one is left over; a column with too few values; a body with another count; ids that do not increase.
INSERT INTO damaged VALUES (1, ''), (2, '\x840709010084'), (3, '\x09016100050000'), (4, '\x080801110100000007088880e497d0020000'),
    (5, '\x09016005000000'), (6, '\x080801110100000007088780e497d00200'), (7, '\x09026200000500000005000000');
-- A set of each form, with one bit of each byte wrong in turn. The ids stay bigints unless the highest bit is wrong.
CREATE TABLE sound AS SELECT 0 AS k, idset8(ARRAY(SELECT i % 4 * 4294967296 + i * 3 FROM generate_series(1::int8, 200) i)) AS ids UNION ALL
    SELECT 1, idset8(ARRAY(SELECT i * 5000000000 FROM generate_series(1, 50) i));
INSERT INTO damaged SELECT 10000 * (k + 1) + j, set_byte(b, j, get_byte(b, j) # (1 << j % 7)) FROM (SELECT k, ids::bytea AS b FROM sound) q,
    LATERAL (SELECT j FROM generate_series(0, octet_length(b) - 1) j WHERE j < 60 OR j % 7 = 0) s;
SET allow_system_table_mods = on;
UPDATE pg_attribute SET atttypid = 'idset8'::regtype WHERE attrelid = 'damaged'::regclass AND attname = 'ids';
RESET allow_system_table_mods;
CREATE TABLE calls (call text);
INSERT INTO calls VALUES ('$1'), ('$1::int8[]'), ('$1::bytea'), ('cardinality($1)'), ('contains($1, 5)'), ('$1 @> 5'), ('5 <@ $1'), ('seek($1, 5)'),
    ('get($1, 5)'), ('rank($1, 50)'), ('min($1)'), ('max($1)'), ('count_between($1, 5, 50)'), ('range($1, 5, 50)'), ('slice($1, 5, 50)'),
    ('(SELECT count(id) FROM unnest($1) id)'), ('$1 & ''{1}'''), ('''{1}'' & $1'), ('$1 | ''{1}'''), ('$1 - ''{1}'''), ('''{1}'' - $1'), ('$1 # ''{1}'''),
    ('$1 | 5'), ('$1 - 5'), ('($1 - -1) IS NULL'), ('intersect_len($1, ''{1}'')'), ('unite_len($1, ''{1}'')'), ('subtract_len($1, ''{1}'')'),
    ('symmetric_difference_len($1, ''{1}'')'), ('jaccard($1, ''{1}'')'), ('$1 && ''{1}'''), ('$1 @> ''{1}'''), ('$1 <@ ''{1}'''),
    ('$1 < ''{1}'''), ('$1 <= ''{1}'''), ('$1 > ''{1}'''), ('''{1}'' >= $1'), ('idset8_cmp($1, ''{1}'')'), ('unite_agg($1)'), ('intersect_agg($1)'),
    ('symmetric_difference_agg($1)'), ('(SELECT intersect_agg(l) FROM unnest(ARRAY[''{1}'', $1]) l)'), ('(SELECT unite_agg(l) FROM unnest(ARRAY[''{1}'', $1]) l)');
CREATE FUNCTION said(call text, ids idset8) RETURNS text LANGUAGE plpgsql AS $$
    DECLARE answer text;
    BEGIN
        EXECUTE 'SELECT (' || call || ')::text' INTO answer USING ids;
        RETURN answer;
    EXCEPTION WHEN OTHERS THEN
        RETURN SQLSTATE || ' ' || split_part(SQLERRM, ':', 1);
    END $$;
SELECT n, count(*), min(said(call, ids)), max(said(call, ids)) FROM damaged, calls WHERE n < 100 GROUP BY n ORDER BY n;
-- An error is data_corrupted in all calls, or in none. Then all calls agree with a sound set of the ids.
CREATE TABLE answers AS SELECT n, call, ids, said(call, ids) AS it FROM damaged, calls WHERE n >= 100;
CREATE TABLE found AS SELECT n, bool_or(it = 'XX001 damaged idset8') AS faulty FROM answers GROUP BY n;
SELECT bool_and((it = 'XX001 damaged idset8') = faulty), bool_and(it = 'XX001 damaged idset8' OR it !~ '^[0-9A-Z]{5} ') FROM answers JOIN found USING (n);
SELECT n / 10000, count(*) FILTER (WHERE faulty) > 0, count(*) FILTER (WHERE NOT faulty) > 0, count(*) > 70 FROM found GROUP BY 1 ORDER BY 1;
SELECT bool_and(it = said(call, idset8(ids::int8[]))) FROM answers JOIN found USING (n) WHERE NOT faulty;
-- Equality and hash read bytes alone: they never fail.
SELECT bool_and(ids = ids AND ids <> '{1}' AND idset8_hash(ids) IS NOT NULL) FROM damaged;
\set VERBOSITY sqlstate
COPY (SELECT ids FROM damaged WHERE n = 2) TO STDOUT;
COPY (SELECT ids FROM damaged WHERE n = 2) TO STDOUT (FORMAT binary);
\set VERBOSITY default
DROP FUNCTION said;
DROP TABLE damaged, sound, calls, answers, found;
