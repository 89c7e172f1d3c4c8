-- A set in TOAST is opened once for all rows of a query, and never used for another value.
\pset format unaligned
\pset tuples_only on
-- Set k has the multiples of k, and is long enough to be moved out of the row.
CREATE TABLE stored AS SELECT k, idset(ARRAY(SELECT i * 7919 % 1000003 * k FROM generate_series(1, 3000) i)) AS ids FROM generate_series(1, 12) k;
CREATE TABLE numbers AS SELECT i, i * 7919 % 1000003 AS n FROM generate_series(1, 4000) i;
SELECT bool_and(pg_column_size(ids) > 2100), bool_and(pg_column_size(s.*) < 100) FROM stored s;
-- One set for all rows, of a subquery and of a join, and on either side.
SELECT count(*) FROM numbers WHERE (SELECT ids FROM stored WHERE k = 1) @> n;
SELECT count(*) FROM numbers WHERE n <@ (SELECT ids FROM stored WHERE k = 1);
SELECT count(*) FROM numbers, (SELECT ids FROM stored WHERE k = 1 OFFSET 0) s WHERE contains(ids, n);
SELECT sum(intersect_len(ids, (SELECT ids FROM stored WHERE k = 1))) = sum(cardinality(ids & (SELECT ids FROM stored WHERE k = 1)))
    FROM stored;
-- Sets that change with each row, that come twice in a row, and both arguments at once.
CREATE FUNCTION wrong(rows text) RETURNS int8 LANGUAGE plpgsql AS $$
DECLARE found int8;
BEGIN
    EXECUTE 'SELECT count(*) FILTER (WHERE contains(a, n) <> (n % x = 0 AND n / x IN (SELECT numbers.n FROM numbers WHERE i <= 3000))
        OR intersect_len(a, b) <> cardinality(a & b) OR intersect_len(b, a) <> cardinality(b & a)) FROM ' || rows INTO found;
    RETURN found;
END $$;
SET enable_material = off;
SELECT wrong('(SELECT s.k AS x, s.ids AS a, t.ids AS b, t.k * 7919 AS n FROM stored s, stored t ORDER BY s.k, t.k OFFSET 0) q');
SELECT wrong('(SELECT s.k AS x, s.ids AS a, t.ids AS b, t.k * 7919 AS n FROM stored s, stored t ORDER BY t.k, s.k OFFSET 0) q');
SELECT wrong('(SELECT s.k AS x, s.ids AS a, t.ids AS b, s.k * 7919 AS n FROM generate_series(1, 3), stored s, stored t ORDER BY t.k, s.k OFFSET 0) q');
RESET enable_material;
-- The row changes within a transaction, under a savepoint, and while a function runs.
CREATE FUNCTION changed(rounds int) RETURNS SETOF text LANGUAGE plpgsql AS $$
DECLARE s idset; new int8;
BEGIN
    FOR round IN 1..rounds LOOP
        new = 2000000000 + round;
        SELECT ids INTO s FROM stored WHERE k = 1;
        IF contains(s, new) OR contains(s, new) OR contains(s, new) THEN RETURN NEXT 'too early'; END IF;
        UPDATE stored SET ids = ids | new WHERE k = 1;
        SELECT ids INTO s FROM stored WHERE k = 1;
        IF NOT contains(s, new) OR NOT contains(s, new) THEN RETURN NEXT 'stale'; END IF;
        BEGIN
            UPDATE stored SET ids = ids - new WHERE k = 1 RETURNING ids INTO s;
            IF contains(s, new) OR contains(s, new) THEN RETURN NEXT 'stale in a savepoint'; END IF;
            RAISE EXCEPTION 'rolled back';
        EXCEPTION WHEN raise_exception THEN
            SELECT ids INTO s FROM stored WHERE k = 1;
        END;
        IF NOT contains(s, new) OR rank(s, new + 1) <> 3000 + round THEN RETURN NEXT 'stale after a savepoint'; END IF;
    END LOOP;
END $$;
BEGIN;
SELECT * FROM changed(20);
SELECT cardinality(ids) FROM stored WHERE k = 1;
ROLLBACK;
SELECT cardinality(ids) FROM stored WHERE k = 1;
-- A cursor sees the set as it was, and a later query as it is.
BEGIN;
DECLARE walk CURSOR FOR SELECT i, (SELECT ids FROM stored WHERE k = 1) @> 9 FROM numbers WHERE i <= 4 ORDER BY i;
FETCH 2 FROM walk;
UPDATE stored SET ids = ids | 9 WHERE k = 1;
SAVEPOINT later;
UPDATE stored SET ids = '{5}' WHERE k = 1;
FETCH 1 FROM walk;
ROLLBACK TO later;
SELECT count(*) FROM numbers WHERE i <= 4 AND (SELECT ids FROM stored WHERE k = 1) @> 9;
FETCH 1 FROM walk;
ROLLBACK;
-- A trigger sees the old and the new set of each row.
CREATE FUNCTION compared() RETURNS trigger LANGUAGE plpgsql AS $$
BEGIN
    IF OLD.ids @> 2000000000 OR NOT NEW.ids @> 2000000000 OR subtract_len(NEW.ids, OLD.ids) <> 1 THEN RAISE 'stale at %', NEW.k; END IF;
    RETURN NEW;
END $$;
CREATE TRIGGER compared BEFORE UPDATE ON stored FOR EACH ROW EXECUTE FUNCTION compared();
UPDATE stored SET ids = ids | 2000000000;
SELECT bool_and(ids @> 2000000000) FROM stored;
DROP TABLE stored, numbers;
DROP FUNCTION wrong, changed, compared;
