-- Bitmaps in Roaring's portable format. Their bytes and faults are worked in docs/ROARING.md.
\pset format unaligned
\pset tuples_only on
-- Of no id, an array, two keys, runs, and runs with an array.
SELECT idset_from_roaring('\x3A30000000000000'), idset_from_roaring('\x3A3000000100000000000000100000000500'),
    idset_from_roaring('\x3A300000020000000000010001000000180000001C000000030007000000'), idset_from_roaring('\x3B3000000100000900010000000900'),
    idset_from_roaring('\x3B3001000100000900020000000100000009000500');
-- Bits, and runs of four keys.
SELECT idset_from_roaring(('\x3A300000010000000000FF7F10000000' || repeat('55', 8192))::bytea) = idset(ARRAY(SELECT generate_series(0, 65534, 2)));
SELECT idset_from_roaring(('\x3B3003000F0000030001000300020003000300030025000000' || '2B0000003100000037000000' || repeat('010004000300', 4))::bytea);
-- Bytes that are none, by the class and the fault.
CREATE FUNCTION said(bitmap bytea) RETURNS text LANGUAGE plpgsql AS
    $$ BEGIN RETURN idset_from_roaring(bitmap); EXCEPTION WHEN OTHERS THEN RETURN SQLSTATE || ' ' || SQLERRM; END $$;
SELECT said('\x3A3000');
SELECT said('\x3A30010000000000');
SELECT said('\x3A30000001000100');
SELECT said('\x3A300000020000000100010001000000180000001C000000030007000000');
SELECT said('\x3A3000000100000000000000110000000500');
SELECT said('\x3B300000010000090001');
SELECT said('\x3A300000020000000000010001000000180000001C000000070003000000');
SELECT said('\x3B300000010000090002000000030004000500');
SELECT said('\x3A3000000000000000');
-- More ids than a set may have: 4,097 keys with all numbers, each a run.
SELECT said(decode('3B300010' || repeat('FF', 513) || string_agg(k || 'FFFF', '' ORDER BY n) || string_agg(o, '' ORDER BY n) || repeat('01000000FFFF', 4097), 'hex'))
    FROM (SELECT n, encode(set_byte(set_byte('\x0000', 0, n & 255), 1, n >> 8), 'hex') AS k,
        encode(set_byte(set_byte(set_byte('\x00000000', 0, o & 255), 1, o >> 8 & 255), 2, o >> 16), 'hex') AS o
        FROM generate_series(0, 4096) n, LATERAL (SELECT 4 + 513 + 8 * 4097 + 6 * n AS o) p) q;
-- Runs whose set has many times the bytes: 500 of each 1,000 numbers.
CREATE TABLE bitmaps AS SELECT decode('3B300000010000F37E4100' || string_agg(encode(set_byte(set_byte('\x0000F301', 0, n & 255), 1, n >> 8), 'hex'), '' ORDER BY n), 'hex')
    AS bitmap FROM generate_series(0, 64000, 1000) n;
-- Sets as bitmaps.
SELECT idset_to_roaring('{}'), idset_to_roaring('{5}'), idset_to_roaring('{3,7,65536}'), idset_to_roaring('{0,1,2,3,4,5,6,7,8,9}'),
    idset_to_roaring('{0,1,2,3,4,5,6,7,8,9,131077}');
SELECT idset_to_roaring(idset(ARRAY(SELECT generate_series(0, 65534, 2)))) = ('\x3A300000010000000000FF7F10000000' || repeat('55', 8192))::bytea;
-- A column of them becomes one of sets, also by an update.
ALTER TABLE bitmaps ADD ids idset;
UPDATE bitmaps SET ids = idset_from_roaring(bitmap);
SELECT ids = idset(ARRAY(SELECT i FROM generate_series(0, 64999) i WHERE i % 1000 < 500)), octet_length(ids::bytea) > 5 * octet_length(bitmap) FROM bitmaps;
ALTER TABLE bitmaps ALTER bitmap TYPE idset USING idset_from_roaring(bitmap);
SELECT bitmap = ids, idset_from_roaring(NULL) IS NULL FROM bitmaps;
DROP TABLE bitmaps;
DROP FUNCTION said;
