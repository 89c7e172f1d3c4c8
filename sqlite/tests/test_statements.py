"""What is kept of a set within a statement, and between statements: only equal bytes are not tested again."""

import os
import random
import struct
import time

from databases import ROWS, connected, packed, refusal, value


def test_sets_that_change(db):
    """Sets of one length take turns within a statement, as a column, in a subquery and in both arguments."""
    dice = random.Random(6)
    sets = [[8 * it + dice.randrange(8) for it in range(4000)] for _ in range(40)]
    data = [packed(db, it) for it in sets]
    assert len({len(it) for it in data}) == 1
    db.execute("CREATE TABLE sets (n INTEGER PRIMARY KEY, ids BLOB)")
    db.executemany("INSERT INTO sets VALUES (?, ?)", enumerate(data))
    for id in [sets[0][0], sets[7][100], sets[39][-1], 1]:
        right = [int(id in it) for it in sets]
        assert [it for it, in db.execute("SELECT idset_contains(ids, ?) FROM sets ORDER BY n", (id,))] == right
        sql = ROWS.format(399) + " SELECT idset_contains((SELECT ids FROM sets WHERE n = i % 40), ?) FROM n"
        assert [it for it, in db.execute(sql, (id,))] == right * 10
        sql = ROWS.format(399) + " SELECT idset_contains((SELECT ids FROM sets WHERE n = i / 10), ?) FROM n"
        assert [it for it, in db.execute(sql, (id,))] == [it for it in right for _ in range(10)]
    found = db.execute("SELECT a.n, b.n, idset_intersect_len(a.ids, b.ids) FROM sets a, sets b").fetchall()
    assert all(common == len({*sets[a]} & {*sets[b]}) for a, b, common in found) and len(found) == 1600


def test_damage_at_the_same_address(db):
    """A buffer of SQLite that had a set has damaged bytes of the same length in the next rows."""
    whole = packed(db, range(0, 90_000, 7))
    damaged = whole[:-1] + bytes([whole[-1] ^ 255])
    db.execute("CREATE TABLE sets (n INTEGER PRIMARY KEY, ids BLOB)")
    for first, last in [(0, 1), (3, 1), (5, 40)]:
        db.execute("DELETE FROM sets")
        db.executemany("INSERT INTO sets VALUES (?, ?)", enumerate([whole] * first + [damaged] * last))
        for call in [
            "idset_len(ids)",
            "idset_len((SELECT ids FROM sets s WHERE s.n = sets.n))",
            "idset_len(CASE WHEN n < 99 THEN ids END)",
        ]:
            assert "argument 1 is not a set" in refusal(db, f"SELECT {call} FROM sets")[0]
    sql = ROWS.format(9) + " SELECT idset_len(CASE WHEN i < 8 THEN ?1 ELSE ?2 END) FROM n"
    assert "argument 1 is not a set" in refusal(db, sql, whole, damaged)[0]
    assert value(db, sql, whole, whole) == 12858


def test_parameters_that_change(db):
    """A statement that runs again with another set of the same length."""
    dice = random.Random(7)
    for _ in range(200):
        ids = dice.sample(range(256), 100)
        found = db.execute(ROWS.format(255) + " SELECT idset_contains(?, i) FROM n", (packed(db, ids),))
        assert [it for it, in found] == [int(it in ids) for it in range(256)]


def test_updates(db):
    """Sets that a statement, a savepoint and another connection change."""
    db.execute("CREATE TABLE sets (n INTEGER PRIMARY KEY, ids BLOB)")
    db.execute("INSERT INTO sets VALUES (1, idset('[1,2]'))")
    for id in range(3, 400):
        db.execute("UPDATE sets SET ids = idset_add(ids, ?) WHERE n = 1", (id,))
        assert value(db, "SELECT idset_len(ids) FROM sets") == id
    db.execute("SAVEPOINT before")
    db.execute("UPDATE sets SET ids = idset_remove(ids, 5)")
    assert value(db, "SELECT idset_contains(ids, 5) FROM sets") == 0
    db.execute("ROLLBACK TO before")
    assert value(db, "SELECT idset_contains(ids, 5) FROM sets") == 1


def seconds(db, sql, *given):
    """The least processor time of three runs."""
    least = float("inf")
    for _ in range(3):
        start = time.process_time()
        db.execute(sql, given).fetchall()
        least = min(least, time.process_time() - start)
    return least


def test_a_constant_is_opened_once(db):
    """A long set is opened once if it is a parameter. The set of a subquery, which SQLite copies for each row, is compared in place of that."""
    packs, rows = " SELECT idset_pack(80 * i) FROM n", ROWS.format(2000)
    short, long = packed(db, [16, 40]), value(db, ROWS.format(900_000) + packs)
    sql = f"{rows} SELECT sum(idset_contains(?, i)) FROM n"
    assert len(long) > 1 << 20 and seconds(db, sql, long) < 3 * seconds(db, sql, short) + 0.1
    db.execute("CREATE TABLE sets (n INTEGER PRIMARY KEY, ids BLOB)")
    for count in range(75_000, 75_020):
        db.execute(f"INSERT INTO sets (ids) {ROWS.format(count)}{packs}")
    # Twenty sets by turns, 2000 rows: each row opens one.
    opened = seconds(db, f"{ROWS.format(100)} SELECT sum(idset_len(ids)) FROM n CROSS JOIN sets")
    contains = f"{rows} SELECT sum(idset_contains((SELECT ids FROM sets), i)) FROM n"
    joined = f"{rows} SELECT count(*) FROM n CROSS JOIN idset_each((SELECT ids FROM sets)) e ON e.id = i"
    for sql in [contains, joined]:
        assert seconds(db, sql) < opened / 4, (sql, opened)


def test_loaded_twice():
    """The extension may be loaded again into a connection, and into another one."""
    for _ in range(20):
        first, second = connected(), connected()
        first.enable_load_extension(True)
        first.load_extension(os.environ["IDSET"])
        data = packed(first, range(5000))
        first.close()
        assert value(second, "SELECT idset_len(?)", data) == 5000
        second.close()


def test_statements_that_end_early(db):
    cursor = db.execute(ROWS.format(9999) + " SELECT idset(i, i + 1) FROM n")
    assert cursor.fetchone()[0] == packed(db, [0, 1])
    cursor.close()
    cursor = db.execute("SELECT id FROM idset_each(?)", (packed(db, range(5000)),))
    assert cursor.fetchone() == (0,)
    cursor.close()
    assert value(db, "SELECT idset_len(idset(5))") == 1


def test_bitmaps_of_roaring(db):
    """Bitmaps become sets, which are asked, changed and written back. These are {3, 7, 65536}, and 0 to 9 as a run, as docs/ROARING.md lays them."""
    db.execute("CREATE TABLE bitmaps (n INTEGER PRIMARY KEY, ids BLOB)")
    texts = ["3A300000020000000000010001000000180000001C000000030007000000", "3B3000000100000900010000000900"]
    db.executemany("INSERT INTO bitmaps (ids) VALUES (?)", [(bytes.fromhex(it),) for it in texts])
    db.execute("UPDATE bitmaps SET ids = idset_from_roaring(ids)")
    assert db.execute("SELECT idset_len(ids), idset_rank(ids, 7) FROM bitmaps").fetchall() == [(3, 1), (10, 7)]
    assert value(db, "SELECT idset_describe(ids) FROM bitmaps") == '{"ids":3,"bytes":7,"chunks":0,"numbers":0,"blocks":0,"runs":0}'
    db.execute("UPDATE bitmaps SET ids = idset_to_roaring(idset_shift(idset_remove(idset_add(ids, 8), 65536), -1))")
    changed = [it.hex().upper() for it, in db.execute("SELECT ids FROM bitmaps")]
    assert changed == ["3A300000010000000000020010000000020006000700", "3B3000000100000800010000000800"]
    # Each of 2,000 ids in a container, which take more than twice the bytes of the set.
    sparse, start = range(0, 140_000_000, 70_000), 8 + 8 * 2000
    text = struct.pack("<2I", 0x303A, 2000) + b"".join(struct.pack("<2H", it >> 16, 0) for it in sparse)
    text += struct.pack("<2000I", *range(start, start + 4000, 2)) + struct.pack("<2000H", *(it & 65_535 for it in sparse))
    assert value(db, "SELECT idset_to_roaring(?)", packed(db, sparse)) == text
