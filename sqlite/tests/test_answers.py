"""Random sets beside Python's."""

import itertools
import json
import random

from databases import ROWS, packed, unpacked, value

LIMITS = [-(2**63), -1, 2**32 - 1, 2**32, 2**40, 2**63 - 1]
# What is asked of the sets a, b and c and the integers x and y, and what Python's sets say.
SETS = {
    "idset(:a)": lambda a, b, c, x, y: a,
    "idset(a, :b, 7)": lambda a, b, c, x, y: a | b | {7},
    "idset_intersect(a, b)": lambda a, b, c, x, y: a & b,
    "idset_intersect(a, b, c)": lambda a, b, c, x, y: a & b & c,
    "idset_unite(a, b)": lambda a, b, c, x, y: a | b,
    "idset_unite(c, a, b, a)": lambda a, b, c, x, y: a | b | c,
    "idset_subtract(a, b)": lambda a, b, c, x, y: a - b,
    "idset_subtract(a, b, c)": lambda a, b, c, x, y: a - b - c,
    "idset_xor(a)": lambda a, b, c, x, y: a,
    "idset_xor(a, b)": lambda a, b, c, x, y: a ^ b,
    "idset_xor(a, b, c)": lambda a, b, c, x, y: a ^ b ^ c,
    "idset_range(a, :x, :y)": lambda a, b, c, x, y: {id for id in a if x <= id <= y},
    "idset_shift(a, :x)": lambda a, b, c, x, y: {id + x for id in a if 0 <= id + x < 2**32},
    "idset_shift(a, -65536)": lambda a, b, c, x, y: {id - 65_536 for id in a if id >= 65_536},
    "idset_shift(a, 4000000000)": lambda a, b, c, x, y: {id + 4_000_000_000 for id in a if id + 4_000_000_000 < 2**32},
    "idset_add(a, 70)": lambda a, b, c, x, y: a | {70},
    "idset_add(a, 4294967295)": lambda a, b, c, x, y: a | {2**32 - 1},
    "idset_remove(a, :x)": lambda a, b, c, x, y: a - {x},
}
NUMBERS = {
    "idset_len(a)": lambda a, b, c, x, y: len(a),
    "idset_describe(a) ->> 'ids'": lambda a, b, c, x, y: len(a),
    "idset_min(a)": lambda a, b, c, x, y: min(a, default=None),
    "idset_max(a)": lambda a, b, c, x, y: max(a, default=None),
    "idset_contains(a, :x)": lambda a, b, c, x, y: int(x in a),
    "idset_rank(a, :x)": lambda a, b, c, x, y: sum(id < x for id in a),
    "idset_seek(a, :x)": lambda a, b, c, x, y: min((id for id in a if id >= x), default=None),
    "idset_intersect_len(a, b, c)": lambda a, b, c, x, y: len(a & b & c),
    "idset_unite_len(a, b, c)": lambda a, b, c, x, y: len(a | b | c),
    "idset_subtract_len(a)": lambda a, b, c, x, y: len(a),
    "idset_subtract_len(a, b)": lambda a, b, c, x, y: len(a - b),
    "idset_subtract_len(a, b, c)": lambda a, b, c, x, y: len(a - b - c),
    "idset_xor_len(a, b)": lambda a, b, c, x, y: len(a ^ b),
    "idset_xor_len(a, b, c)": lambda a, b, c, x, y: len(a ^ b ^ c),
    "(SELECT count(*) FROM idset_each(a, :x, :y))": lambda a, b, c, x, y: sum(x <= id <= y for id in a),
    "(SELECT sum(id) FROM idset_each(a) WHERE id > :x AND id < :y)": lambda a, b, c, x, y: sum(id for id in a if x < id < y)
    if any(x < id < y for id in a)
    else None,
}
ROUNDS = 420


def drawn(dice):
    """A set of few or many ids, near to each other or far apart."""
    most = dice.choice([6, 300, 70_000, 2**32])
    if dice.random() < 0.2:
        start, share = dice.randrange(most), dice.choice([0.9, 0.99, 1])
        return {id for id in range(start, start + 3000) if id < 2**32 and dice.random() < share}
    return {dice.randrange(most) for _ in range(dice.choice([0, 1, 5, 200]))}


def integer(dice, ids):
    return dice.choice(
        LIMITS if dice.random() < 0.1 else [dice.randrange(2**32), *[id + near for id in [*ids][:5] for near in (-1, 0, 1)]]
    )


def test_functions(db):
    dice, answers = random.Random(1), 0
    asked = ", ".join([f"(SELECT group_concat(id) FROM idset_each({it}))" for it in SETS] + [*NUMBERS])
    for _ in range(ROUNDS):
        sets = [drawn(dice) for _ in range(3)]
        x, y = (integer(dice, sets[0]) for _ in range(2))
        texts = {name: json.dumps(dice.sample([*ids], len(ids))) for name, ids in zip("abc", sets)}
        sql = f"WITH s(a, b, c) AS MATERIALIZED (SELECT idset(:a), idset(:b), idset(:c)) SELECT {asked} FROM s"
        found = db.execute(sql, texts | {"x": x, "y": y}).fetchone()
        right = [",".join(map(str, sorted(wanted(*sets, x, y)))) or None for wanted in SETS.values()]
        right += [wanted(*sets, x, y) for wanted in NUMBERS.values()]
        assert dict(zip([*SETS, *NUMBERS], found)) == dict(zip([*SETS, *NUMBERS], right)), (texts, x, y)
        answers += len(right)
    assert answers >= 12_000


def test_any_number_of_sets(db):
    dice = random.Random(2)
    for count in [1, 2, 40, 127]:
        sets = [{dice.randrange(3000) for _ in range(2900 if it % 3 else 700)} for it in range(count)]
        given, marks = [packed(db, it) for it in sets], ", ".join("?" * count)
        odd = {id for id in range(3000) if sum(id in it for it in sets) % 2}
        wanted = {"intersect": set.intersection(*sets), "unite": set.union(*sets), "subtract": sets[0].difference(*sets[1:]), "xor": odd}
        for name, ids in wanted.items():
            data, length = db.execute(f"SELECT idset_{name}({marks}), idset_{name}_len({marks})", given * 2).fetchone()
            assert (unpacked(db, data), length) == (sorted(ids), len(ids)), (name, count)


def test_aggregates(db):
    """Groups of rows in any order, with nulls, and with few ids or many."""
    dice = random.Random(3)
    db.execute("CREATE TABLE numbers (word INT, id)")
    db.execute("CREATE TABLE sets (word INT, ids BLOB)")
    numbers, sets = {}, {}
    for word in range(60):
        many = dice.choice([0, 1, 20, 3000])
        numbers[word] = [dice.randrange(dice.choice([50, 10_000, 2**32])) for _ in range(many)]
        sets[word] = [drawn(dice) | {5, 77} for _ in range(dice.choice([0, 1, 2, 30]))]
    rows = [(word, id) for word, ids in numbers.items() for id in [*ids, None]]
    dice.shuffle(rows)
    db.executemany("INSERT INTO numbers VALUES (?, ?)", rows)
    rows = [(word, it and packed(db, it)) for word, its in sets.items() for it in [*its, None]]
    dice.shuffle(rows)
    db.executemany("INSERT INTO sets VALUES (?, ?)", rows)
    found = dict(db.execute("SELECT word, idset_pack(id) FROM numbers GROUP BY word"))
    assert {word: unpacked(db, it) for word, it in found.items()} == {word: sorted({*it}) or None for word, it in numbers.items()}
    found = db.execute("SELECT word, idset_unite_agg(ids), idset_intersect_agg(ids) FROM sets GROUP BY word")
    for word, united, common in found.fetchall():
        its = sets[word]
        right = [sorted(set.union(*its)), sorted(set.intersection(*its))] if its else [None, None]
        assert [unpacked(db, united), unpacked(db, common)] == right, word


def test_long_sets(db):
    """Sets in chunks of each form. A set without gaps has few bytes, and with many gaps more than both that it is made of."""
    forms = [range(0, 100_000, 5), range(60_000, 100_000), [400 * at + it for at in range(200) for it in range(100)], [7, 90_000]]
    forms.append([40 * at + at * at % 31 for at in range(5_000)])
    for i, j in itertools.product(range(len(forms)), repeat=2):
        for its in ([forms[i], forms[j]], [forms[i], forms[j], forms[(i + j) % len(forms)]]):
            sets, marks = [{*it} for it in its], ", ".join("?" * len(its))
            odd = {id for id in set().union(*sets) if sum(id in it for it in sets) % 2}
            right = {
                "intersect": set.intersection(*sets),
                "unite": set().union(*sets),
                "subtract": sets[0].difference(*sets[1:]),
                "xor": odd,
            }
            for name, ids in right.items():
                found = value(db, f"SELECT idset_{name}({marks})", *(packed(db, it) for it in its))
                assert found == packed(db, sorted(ids)), (name, [it[:3] for it in its])
    full, some = packed(db, range(400_000)), packed(db, [40 * at + at * at % 31 for at in range(10_000)])
    assert len(value(db, "SELECT idset_subtract(?, ?)", full, some)) > len(full) + len(some) + 8500


def test_sets_in_batches(db):
    """So many bytes, and so many sets, that they are combined before the last row."""
    db.execute("CREATE TABLE sets (n INT, ids BLOB)")
    ranges = [range(it, 1_000_000, 40 + it) for it in range(20)]
    db.executemany("INSERT INTO sets VALUES (1, ?)", [(packed(db, it),) for it in ranges for _ in range(24)])
    assert value(db, "SELECT sum(length(ids)) FROM sets") > 9_000_000
    assert unpacked(db, value(db, "SELECT idset_unite_agg(ids) FROM sets")) == sorted(set().union(*ranges))
    common = value(db, "SELECT idset_intersect_agg(ids) FROM (SELECT ids FROM sets LIMIT 70)")
    assert unpacked(db, common) == sorted({*ranges[0]} & {*ranges[1]} & {*ranges[2]})
    db.execute("DELETE FROM sets")
    db.execute(f"{ROWS.format(70_000)} INSERT INTO sets SELECT i, idset(i, i + 1, 300000) FROM n")
    found = db.execute("SELECT idset_unite_agg(ids), idset_intersect_agg(ids), idset_pack(n) FROM sets").fetchone()
    assert [unpacked(db, it) for it in found] == [[*range(70_002), 300_000], [300_000], [*range(70_001)]]


def test_dense_ids_in_any_order(db):
    """Repeats of ids take no more memory, and each is there once."""
    rows = ROWS.format(299_999)
    data = db.execute(f"{rows} SELECT idset_pack(i * 7919 % 100003) FROM n").fetchone()[0]
    assert unpacked(db, data) == [*range(100_003)]
    data = db.execute(f"{rows} SELECT idset_pack(i * 2654435761 % 4294967296) FROM n").fetchone()[0]
    assert unpacked(db, data) == sorted(i * 2654435761 % 2**32 for i in range(300_000))
