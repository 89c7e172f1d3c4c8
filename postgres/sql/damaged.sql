-- Damaged values, as a damaged page would have them: bytes go past the tests by a change of the catalog. Each call that reads ids has to fail with
-- the fault, or answer by the ids that the bytes stand for.
\pset format unaligned
\pset tuples_only on
SELECT current_setting('data_checksums') AS checksums \gset
\if :checksums
\echo With data checksums the server refuses a damaged page itself, and no call tests a value again.
\quit
\endif
CREATE TABLE damaged (n int, ids bytea);
-- No byte; a byte is missing, and one is left over; bytes that begin with 1, a column; an id too great; a bit after the last code; 128 ids as one chunk
-- whose count of them is wrong, and as an array.
INSERT INTO damaged VALUES (1, ''), (2, '\x840709010084'), (3, '\x82050001'), (4, '\x0102010100000005000000'), (5, '\x7f'), (6, '\x82ffffffff0f00'),
    (7, '\x82050121'), (8, '\x05800101110000238000007e' || decode(repeat('ff', 16) || repeat('00', 16), 'hex')), (9, '\x068001' || decode(repeat('00', 512), 'hex'));
-- A set of 500 ids of each form, with one bit of each byte wrong in turn.
CREATE TABLE sound AS SELECT k, idset(ARRAY(SELECT CASE k WHEN 0 THEN i * 3 WHEN 1 THEN i * i / 3 ELSE i * 40000 END FROM generate_series(1, 500) i)) AS ids
    FROM generate_series(0, 2) k;
INSERT INTO sound SELECT 3, idset(ARRAY(SELECT i * i * 90 FROM generate_series(1, 100) i));
INSERT INTO damaged SELECT 10000 * (k + 1) + j, set_byte(b, j, get_byte(b, j) # (1 << j % 8)) FROM (SELECT k, ids::bytea AS b FROM sound) q,
    LATERAL (SELECT j FROM generate_series(0, octet_length(b) - 1) j WHERE j < 60 OR j % 7 = 0) s;
SET allow_system_table_mods = on;
UPDATE pg_attribute SET atttypid = 'idset'::regtype WHERE attrelid = 'damaged'::regclass AND attname = 'ids';
RESET allow_system_table_mods;
CREATE TABLE calls (call text);
INSERT INTO calls VALUES ('$1'), ('$1::int4[]'), ('$1::int8[]'), ('$1::bytea'), ('cardinality($1)'), ('contains($1, 5)'), ('$1 @> 5'), ('5 <@ $1'),
    ('seek($1, 5)'), ('get($1, 5)'), ('rank($1, 50)'), ('min($1)'), ('max($1)'), ('count_between($1, 5, 50)'), ('range($1, 5, 50)'), ('slice($1, 5, 50)'),
    ('(SELECT count(id) FROM unnest($1) id)'), ('$1 & ''{1}'''), ('''{1}'' & $1'), ('$1 | ''{1}'''), ('$1 - ''{1}'''), ('''{1}'' - $1'), ('$1 # ''{1}'''),
    ('$1 | 5'), ('$1 - 5'), ('($1 - -1) IS NULL'), ('intersect_len($1, ''{1}'')'), ('unite_len($1, ''{1}'')'), ('subtract_len($1, ''{1}'')'),
    ('symmetric_difference_len($1, ''{1}'')'), ('jaccard($1, ''{1}'')'), ('$1 && ''{1}'''), ('$1 @> ''{1}'''), ('$1 <@ ''{1}'''), ('$1 @@ ''1|!5'''),
    ('$1 < ''{1}'''), ('$1 <= ''{1}'''), ('$1 > ''{1}'''), ('''{1}'' >= $1'), ('idset_cmp($1, ''{1}'')'), ('unite_agg($1)'), ('intersect_agg($1)'),
    ('symmetric_difference_agg($1)'), ('(SELECT intersect_agg(l) FROM unnest(ARRAY[''{1}'', $1]) l)'), ('(SELECT unite_agg(l) FROM unnest(ARRAY[''{1}'', $1]) l)');
CREATE FUNCTION said(call text, ids idset) RETURNS text LANGUAGE plpgsql AS $$
    DECLARE answer text;
    BEGIN
        EXECUTE 'SELECT (' || call || ')::text' INTO answer USING ids;
        RETURN answer;
    EXCEPTION WHEN OTHERS THEN
        RETURN SQLSTATE || ' ' || split_part(SQLERRM, ':', 1);
    END $$;
SELECT n, count(*), min(said(call, ids)), max(said(call, ids)) FROM damaged, calls WHERE n < 100 GROUP BY n ORDER BY n;
-- An error is data_corrupted in all calls, or in none. Then all calls agree with the array of the ids: those of a sound set of these ids.
CREATE TABLE answers AS SELECT n, call, ids, said(call, ids) AS it FROM damaged, calls WHERE n >= 100;
CREATE TABLE found AS SELECT n, bool_or(it = 'XX001 damaged idset') AS faulty FROM answers GROUP BY n;
SELECT bool_and((it = 'XX001 damaged idset') = faulty), bool_and(it = 'XX001 damaged idset' OR it !~ '^[0-9A-Z]{5} ') FROM answers JOIN found USING (n);
SELECT n / 10000, count(*) FILTER (WHERE faulty) > 0, count(*) FILTER (WHERE NOT faulty) > 0, count(*) > 70 FROM found GROUP BY 1 ORDER BY 1;
SELECT bool_and(it = said(call, idset(ids::int8[]))) FROM answers JOIN found USING (n) WHERE NOT faulty;
-- Equality and hash read bytes alone: they never fail.
SELECT bool_and(ids = ids AND ids <> '{1}' AND idset_hash(ids) IS NOT NULL) FROM damaged;
-- An index refuses it, an order by it too, and so does COPY in both forms.
CREATE TABLE indexed (ids idset);
CREATE INDEX ON indexed USING gin (ids);
\set VERBOSITY sqlstate
INSERT INTO indexed SELECT ids FROM damaged WHERE n = 2;
SELECT n FROM damaged WHERE n IN (1, 2) ORDER BY ids;
COPY (SELECT ids FROM damaged WHERE n = 2) TO STDOUT;
COPY (SELECT ids FROM damaged WHERE n = 2) TO STDOUT (FORMAT binary);
\set VERBOSITY default
-- Damaged queries have some answer, and no other bytes are read.
CREATE TABLE queries AS SELECT n, decode(string_agg(md5(n || ' ' || k), ''), 'hex') AS q FROM generate_series(1, 2000) n, generate_series(0, n % 5) k GROUP BY n;
INSERT INTO queries SELECT -n, decode(string_agg(lpad(to_hex((n * k * k * 37 + k) % 9), 2, '0') || '00' || lpad(to_hex(n * k % 2), 2, '0') || '00' ||
    lpad(to_hex(n * k * 91 % 13), 2, '0') || CASE WHEN n * k % 11 = 0 THEN 'ffffff' ELSE '000000' END, '' ORDER BY k), 'hex')
    FROM generate_series(1, 2000) n, generate_series(1, 12) k GROUP BY n;
SET allow_system_table_mods = on;
UPDATE pg_attribute SET atttypid = 'idset_query'::regtype WHERE attrelid = 'queries'::regclass AND attname = 'q';
RESET allow_system_table_mods;
SELECT count(*), count(('{1,2,3}'::idset @@ q)) = count(*), sum(length(q::text)) > 10000 FROM queries;
INSERT INTO indexed SELECT idset(ARRAY[i, i + 1, i * 2]) FROM generate_series(1, 20) i;
SET enable_seqscan = off;
SELECT count(*) > 0 FROM queries, LATERAL (SELECT count(*) FROM indexed WHERE ids @@ q) c;
DROP FUNCTION said;
DROP TABLE damaged, sound, calls, answers, found, indexed, queries;
