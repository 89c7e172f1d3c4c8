-- Equality, order and hash, which are those of arrays of the values.
\pset format unaligned
\pset tuples_only on
SELECT a, b, a = b, a <> b, a < b, a <= b, a > b, a >= b, idset_cmp(a, b) FROM (VALUES ('{1,2}'::idset, '{1,2}'::idset),
    ('{1,2}', '{1,3}'), ('{2}', '{1,3}'),
    ('{1}', '{1,0}'), ('{1}', '{1,2}'), ('{}', '{0}'), ('{}', '{}'), ('{4294967295}', '{1}')) v(a, b);
CREATE TABLE arrays AS SELECT n, ARRAY(SELECT DISTINCT CASE n % 5 WHEN 0 THEN i * n WHEN 1 THEN i WHEN 2 THEN i + (i > n)::int ELSE i * i
    + n END
    FROM generate_series(1, n * 37 % 1500) i ORDER BY 1)::int8[] AS a FROM generate_series(1, 60) n;
-- Sets of one length that first differ far in.
INSERT INTO arrays SELECT 60 + k, ARRAY(SELECT i + (i > 900 + 300 * k)::int FROM generate_series(1, 3000) i) FROM generate_series(1, 6) k;
CREATE TABLE ordered AS SELECT n, a, idset(a) AS x FROM arrays;
SELECT bool_and((p.x = q.x) = (p.a = q.a)), bool_and((p.x <> q.x) = (p.a <> q.a)), bool_and((p.x < q.x) = (p.a < q.a)),
    bool_and((p.x <= q.x) = (p.a <= q.a)),
    bool_and((p.x > q.x) = (p.a > q.a)), bool_and((p.x >= q.x) = (p.a >= q.a)), count(*) FROM ordered p, ordered q;
SELECT array_agg(n ORDER BY x, n) = array_agg(n ORDER BY a, n) FROM ordered;
-- The hash is kept by indexes and partitions. These numbers are those of Bob Jenkins's lookup3 over the bytes, worked out without the server.
SELECT idset_hash(x) = h AND idset_hash_extended(x, 0) = e AND idset_hash_extended(x, 81985529216486895) = s FROM (VALUES
    ('{}'::idset, 778979466, 1100950489843779722, 8575519296113188387),
    ('{5}'::idset, 1519648488, 7662030656093028072, 3522093963205676694),
    ('{7,9,10,300}'::idset, 1602654203, -2475802302397116421, 1219122138552494088),
    ('{4294967295}'::idset, 239240355, -4600086179105045341, -4894898302516329079),
    (idset(ARRAY(SELECT generate_series(0, 127))), -1596514995, 7004008158189788493, 1339198419966450415),
    (idset(ARRAY(SELECT generate_series(0, 65535))), -695824714, 1637973717089160886, 3190287667151209873)) v(x, h, e, s);
SELECT bool_and(idset_hash(x)::int8 & 4294967295 = idset_hash_extended(x, 0) & 4294967295),
    bool_and(idset_hash_extended(x, 1) <> idset_hash_extended(x, 2)), count(DISTINCT idset_hash(x)) = count(DISTINCT a) FROM ordered;
SELECT a IS DISTINCT FROM b, a IS NOT DISTINCT FROM b, a IN (b, '{9}') FROM (VALUES ('{1}'::idset, '{1}'::idset), ('{1}', '{2}'), (NULL, '{1}'),
    (NULL, NULL)) v(a, b);
SET enable_sort = off;
SELECT count(*) = (SELECT count(DISTINCT a) FROM arrays) FROM (SELECT x FROM ordered GROUP BY x) q;
SET enable_nestloop = off; SET enable_mergejoin = off;
EXPLAIN (COSTS off) SELECT count(*) FROM ordered p JOIN ordered q ON p.x = q.x;
SELECT count(*) = (SELECT count(*) FROM arrays p JOIN arrays q ON p.a = q.a) FROM ordered p JOIN ordered q ON p.x = q.x;
RESET enable_sort; SET enable_hashjoin = off; RESET enable_mergejoin;
EXPLAIN (COSTS off) SELECT count(*) FROM ordered p JOIN ordered q ON p.x = q.x;
SELECT count(*) = (SELECT count(*) FROM arrays p JOIN arrays q ON p.a = q.a) FROM ordered p JOIN ordered q ON p.x = q.x;
RESET ALL;
CREATE UNIQUE INDEX keys ON ordered (x) WHERE n = 1;
INSERT INTO ordered SELECT n, a, x FROM ordered WHERE n < 4;
INSERT INTO ordered SELECT n, a, x FROM ordered WHERE n = 3;
CREATE INDEX hashes ON ordered USING hash (x);
SET enable_seqscan = off; SET enable_bitmapscan = off;
EXPLAIN (COSTS off) SELECT n FROM ordered WHERE x = '{1,2,3}';
SELECT count(*) FROM ordered o, arrays s WHERE o.x = idset(s.a) AND s.n = 3;
SELECT x, y, x = y FROM (SELECT DISTINCT ON (v) v AS x, v AS y FROM unnest(ARRAY['{2,1}', '{1,2}', '{1}']::idset[]) v ORDER BY v) q;
DROP TABLE arrays, ordered;
