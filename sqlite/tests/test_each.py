"""The table idset_each: its rows under conditions, and what it reads for them."""

import random

from databases import packed, value

OPERATORS = ["=", ">", ">=", "<", "<=", "<>", "IS", "IS NOT"]
VALUES = [
    "10",
    "10.5",
    "-1",
    "0",
    "4294967295",
    "4294967296",
    "9223372036854775807",
    "-9223372036854775808",
    "1e300",
    "-1e300",
    "-0.5",
    "9e999",
]
VALUES += ["NULL", "'10'", "'10.5'", "' 11 '", "'x'", "''", "x'31'", "10.0", "9.999999999", "(SELECT 12)", "+13", "CAST('14' AS TEXT)"]


def test_conditions(db):
    """Any condition has the rows that it has over a plain table of the ids."""
    dice, ids = random.Random(5), [*range(8, 15), 77, 1000, 2**31, 2**32 - 1]
    db.execute("CREATE TABLE plain (id INTEGER)")
    db.executemany("INSERT INTO plain VALUES (?)", [(it,) for it in ids])
    data = packed(db, ids)
    conditions = [f"id {operator} {it}" for operator in OPERATORS for it in VALUES] + [
        "id IN (8, 77, '9', 10.5, NULL)",
        "id BETWEEN 9 AND '12'",
    ]
    joined = lambda word: f" {word} ".join(dice.choices(conditions, k=dice.choice([2, 3])))
    conditions += [joined(dice.choice(["AND", "AND", "OR", "AND NOT"])) for _ in range(1000)]
    conditions += [f"({joined('OR')}) AND ({joined('OR')})" for _ in range(200)]
    for condition in conditions:
        for order in ["", "ORDER BY id", "ORDER BY id DESC", "ORDER BY rowid LIMIT 2 OFFSET 1"]:
            found, right = (
                db.execute(f"SELECT id, rowid FROM {it} WHERE {condition} {order}", given).fetchall()
                for it, given in [("idset_each(?)", (data,)), ("plain", ())]
            )
            assert [it for it, _ in found] == [it for it, _ in right], (condition, order)
            assert all(id == row for id, row in found)


def test_limits(db):
    ids = [0, 5, 9, 2**32 - 1]
    for low in [-(2**63), -1, 0, 1, 5, 6, 2**32 - 1, 2**32, 2**63 - 1]:
        assert db.execute("SELECT id FROM idset_each(?, ?)", (packed(db, ids), low)).fetchall() == [(it,) for it in ids if it >= low]
        for high in [-(2**63), -1, 0, 4, 5, 9, 10, 2**32 - 2, 2**32 - 1, 2**32, 2**63 - 1]:
            found = db.execute("SELECT id FROM idset_each(?, ?, ?) WHERE id <> 5", (packed(db, ids), low, high)).fetchall()
            assert found == [(it,) for it in ids if low <= it <= high and it != 5]


def test_hidden_columns(db):
    """A condition on a column of an argument beside the argument, and what the columns have."""
    data = packed(db, [3, 4])
    assert db.execute("SELECT id, each_set = ?1, each_low, each_high FROM idset_each(?1, 4)", (data,)).fetchall() == [(4, 1, 4, None)]
    assert db.execute("SELECT id FROM idset_each WHERE each_set = ? AND each_high = 3", (data,)).fetchall() == [(3,)]
    assert db.execute("SELECT id FROM idset_each(?1) WHERE each_set = x'80'", (data,)).fetchall() == []
    assert db.execute("SELECT id FROM idset_each(?1, 4, 9) WHERE each_low = 3", (data,)).fetchall() == []
    assert db.execute("SELECT id FROM idset_each(?1, 4, 9) WHERE each_high > 8", (data,)).fetchall() == [(4,)]


def test_joins(db):
    """The sets of a table's rows, in any order of the join, and one set for all rows."""
    sets = {word: {it * word % 977 for it in range(40 * word)} for word in range(30)}
    db.execute("CREATE TABLE words (word INTEGER PRIMARY KEY, ids)")
    db.executemany("INSERT INTO words VALUES (?, ?)", [(word, packed(db, ids)) for word, ids in sets.items()])
    db.execute("CREATE TABLE items (id INTEGER PRIMARY KEY, price INT)")
    db.executemany("INSERT INTO items VALUES (?, ?)", [(it, 3 * it) for it in range(500)])
    right = sorted((word, id, 3 * id) for word, ids in sets.items() for id in ids if id < 500)
    for tables in [
        "words, idset_each(ids) e, items i",
        "words CROSS JOIN items i CROSS JOIN idset_each(ids) e",
        "items i, words, idset_each(ids) e",
    ]:
        assert sorted(db.execute(f"SELECT word, e.id, price FROM {tables} WHERE e.id = i.id")) == right
    right = sum(3 * it for it in sets[7] & sets[11] if it < 500)
    common = "idset_each((SELECT idset_intersect(a.ids, b.ids) FROM words a, words b WHERE a.word = 7 AND b.word = 11))"
    assert value(db, f"SELECT sum(price) FROM {common} JOIN items USING (id)") == right
    assert value(db, f"SELECT sum(price) FROM items WHERE id IN (SELECT id FROM {common})") == right
    found = db.execute("SELECT word, count(e.id) FROM words LEFT JOIN idset_each(ids) e ON e.id > 900 GROUP BY word").fetchall()
    assert found == [(word, sum(id > 900 for id in ids)) for word, ids in sets.items()]


def steps(db, sql, *given):
    """How many steps of SQLite's machine a statement takes."""
    taken = [0]

    def count():
        taken[0] += 1

    db.set_progress_handler(count, 1)
    db.execute(sql, given).fetchall()
    db.set_progress_handler(None, 1)
    return taken[0]


def test_it_seeks(db):
    """Conditions and limits skip rows, and ORDER BY needs no sort."""
    data = packed(db, range(0, 3_000_000, 3))
    for condition in ["id BETWEEN 1500000 AND 1500030", "id > 2999970", "id < 20", "id = 1500000", "id >= 1500000.5 AND id < '1500020'"]:
        assert 10 < steps(db, f"SELECT id FROM idset_each(?) WHERE {condition} ORDER BY id", data) < 200, condition
    assert steps(db, "SELECT id FROM idset_each(?, 1500000, 1500030) ORDER BY id", data) < 100
    assert steps(db, "SELECT id FROM idset_each(?) ORDER BY id LIMIT 3", data) < 100
    db.execute("CREATE TABLE items (id INTEGER PRIMARY KEY, price INT)")
    db.execute("WITH RECURSIVE n(i) AS (VALUES (0) UNION ALL SELECT i + 1 FROM n WHERE i < 9999) INSERT INTO items SELECT i, i FROM n")
    plan = db.execute("EXPLAIN QUERY PLAN SELECT * FROM items JOIN idset_each(?) USING (id)", (data,)).fetchall()
    assert ["idset_each" in plan[0][3], "SEARCH items USING INTEGER PRIMARY KEY" in plan[1][3]] == [True, True], plan
