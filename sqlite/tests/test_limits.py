"""Long blobs and many ids, memory that is refused, and memory that is given back."""

import ctypes
import sqlite3

from databases import ROWS, connected, packed, refusal, unpacked, value

LIBRARY = ctypes.CDLL("libsqlite3.so.0")
LIBRARY.sqlite3_memory_used.restype = ctypes.c_int64
LIBRARY.sqlite3_hard_heap_limit64.restype = ctypes.c_int64
LIBRARY.sqlite3_hard_heap_limit64.argtypes = [ctypes.c_int64]
MOST = 268_435_456


def varint(number):
    return bytes([number % 128 + 128]) + varint(number // 128) if number > 127 else bytes([number])


def whole_chunks(first, count):
    """The bytes of the set of all ids of some chunks, as docs/FORMAT.md has them: a chunk of 65,536 ids is a run in 4 bytes."""
    ends, sums = ([it * part for it in range(1, count + 1)] for part in (4, 65536))
    sizes = [(ends[-1].bit_length() + 7) // 8, (sums[-1].bit_length() + 7) // 8]
    parts = [(first + it).to_bytes(2, "little") for it in range(count)]
    parts += [it.to_bytes(size, "little") for its, size in zip([ends, sums], sizes) for it in its]
    return b"\x05" + varint(sums[-1]) + varint(count) + bytes([sizes[0] + 16 * sizes[1]]) + b"".join(parts) + b"\x01\xff\0\0" * count


def test_a_blob_of_500_megabytes(db):
    data = whole_chunks(0, 4096)
    long = data + bytes(500_000_000 - len(data))
    for sql in ["SELECT idset_unite_agg(?)", "SELECT id FROM idset_each(?)"]:
        assert "argument 1 is not a set: bytes are left over" in refusal(db, sql, long)[0]
    assert value(db, "SELECT idset_len(?)", data) == MOST
    assert "the first byte does not begin what is opened" in refusal(db, "SELECT idset_len(zeroblob(50000000))")[0]


def test_the_most_ids(db):
    """Calls on a set of 268,435,456 ids that need no room for each of them, and what would have an id more."""
    data, above = whole_chunks(0, 4096), 2**28 + 5
    found = db.execute(
        "SELECT idset_max(?1), idset_rank(?1, 999999), idset_intersect_len(?1, ?2)", (data, packed(db, [5, above]))
    ).fetchone()
    assert found == (MOST - 1, 999_999, 1)
    assert unpacked(db, value(db, "SELECT idset_range(?, 9, 11)", data)) == [9, 10, 11]
    assert db.execute("SELECT id FROM idset_each(?) WHERE id > 268435453", (data,)).fetchall() == [(MOST - 2,), (MOST - 1,)]
    assert value(db, "SELECT idset_unite_len(?, ?)", data, whole_chunks(4096, 4096)) == 2 * MOST
    assert value(db, "SELECT idset_xor(?1, ?2, ?2)", data, whole_chunks(4096, 4096)) == data
    refused = [
        "unite(?1, ?2)",
        "xor(?1, ?2, idset())",
        "xor_len(?1, ?2, idset())",
        "unite_agg(it) FROM (SELECT ?1 AS it UNION ALL SELECT ?2)",
    ]
    for sql in (f"SELECT idset_{it}" for it in refused):
        words, name = refusal(db, sql, data, whole_chunks(4096, 4096))
        assert words.endswith(": there are more than 268435456 values") and name == "SQLITE_TOOBIG"
    words, name = refusal(db, "SELECT idset_add(?, ?)", data, above)
    assert words == "idset_add: there are more than 268435456 values" and name == "SQLITE_TOOBIG"


def test_the_limit_of_a_connection(db):
    """A set that is longer than the connection allows is too big, as any other blob is."""
    data = packed(db, range(0, 900_000, 9))
    db.setlimit(sqlite3.SQLITE_LIMIT_LENGTH, 20_000)
    rows = ROWS.format(30_000) + " SELECT idset_pack(i * 9) FROM n"
    assert refusal(db, rows) == ("string or blob too big", "SQLITE_TOOBIG")
    db.setlimit(sqlite3.SQLITE_LIMIT_LENGTH, 1_000_000_000)
    assert value(db, "SELECT idset_len(?)", data) == 100_000


# Each function, over tables with numbers and with sets of thousands of ids.
CALLS = ["idset_pack(n)", "idset_unite_agg(ids)", "idset_intersect_agg(ids)", "sum(idset_len(ids))", "sum(idset_contains(:s, n))"]
CALLS += ["sum((SELECT sum(id) FROM idset_each(ids)))", "sum(idset_contains((SELECT ids FROM sets WHERE n = 1), n))"]
CALLS += [f"sum(length(idset_{it}(ids, :s)))" for it in ("intersect", "unite", "subtract", "xor", "unite_len", "xor_len")]
CALLS += ["sum(idset_xor_len(ids, :s, ids))", "sum(length(idset_xor(ids, :s, ids)))", "sum(length(idset_add(ids, n + 5000000)))"]
CALLS += ["sum(length(idset_add(ids, n + 1)))", "sum(length(idset_remove(ids, 0)))", "sum(length(idset_range(ids, 100, 90000)))"]
CALLS += ["sum(length(idset_from_roaring(x'3B3000000100000900010000000900')) + n)", "sum(length(idset_to_roaring(ids)))"]
CALLS += ["sum(length(idset('[9,8]', n, ids)))", "length(idset(json_group_array(n * 37 % 1000)))"]


def filled(db):
    db.execute("CREATE TABLE sets (n INTEGER PRIMARY KEY, ids BLOB)")
    db.executemany("INSERT INTO sets VALUES (?, ?)", [(it, packed(db, range(0, 200_000, 30 + it))) for it in range(1, 40)])
    db.commit()  # SQLite rolls back a transaction in which memory was refused.
    return packed(db, range(0, 150_000, 11))


def test_refused_memory(db):
    """With any limit of memory a call returns what it returns without one, or ends with `out of memory`."""
    data = filled(db)
    for call in CALLS:
        sql = f"SELECT {call} FROM sets"
        right, refused, extra = db.execute(sql, {"s": data}).fetchall(), 0, 0
        while True:
            LIBRARY.sqlite3_hard_heap_limit64(LIBRARY.sqlite3_memory_used() + extra)
            try:
                found = db.execute(sql, {"s": data}).fetchall()
            except (MemoryError, sqlite3.OperationalError) as error:
                found, refused = None, refused + 1
                assert isinstance(error, MemoryError) or "out of memory" in str(error), (call, error)
            finally:
                LIBRARY.sqlite3_hard_heap_limit64(0)
            assert found in (None, right), call
            if found and extra > 3_000_000:
                break
            extra = extra * 9 // 8 + 16
        assert refused > 0, call


def test_memory_is_given_back():
    """Calls that work and calls that fail leave no memory behind, in a connection and after it."""
    before = LIBRARY.sqlite3_memory_used()
    db = connected()
    data = filled(db)
    failing = [
        "idset_pack(CASE n WHEN 30 THEN -1 ELSE n END)",
        "idset_unite_agg(CASE n WHEN 30 THEN x'05' ELSE ids END)",
        "idset('[1,2,3', n)",
    ]
    failing += [
        "idset_unite(ids, ids, n)",
        "idset_intersect(ids, x'05')",
        "(SELECT sum(id) FROM idset_each(ids, n, 'x'))",
        "idset(5, ids, 'x')",
    ]
    used = []
    for _ in range(30):
        for call in CALLS:
            db.execute(f"SELECT {call} FROM sets", {"s": data}).fetchall()
        for call in failing:
            assert isinstance(refusal(db, f"SELECT {call} FROM sets"), tuple), call
        used.append(LIBRARY.sqlite3_memory_used())
    assert max(used[10:]) <= max(used[:10]) + 1000
    db.close()
    assert LIBRARY.sqlite3_memory_used() == before
