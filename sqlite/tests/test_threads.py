"""Many threads, each with its connection to one file, or all with one connection."""

import concurrent.futures
import random

from databases import connected, packed, unpacked

TAGS = 30


def asked(connection, sets, seed):
    """Random questions about the sets of a file: how many answers were wrong."""
    dice, wrong = random.Random(seed), 0
    for _ in range(40):
        a, b = dice.sample(range(TAGS), 2)
        sql = "SELECT idset_unite(a.ids, b.ids), idset_intersect_len(a.ids, b.ids) FROM tags a, tags b WHERE a.tag = ? AND b.tag = ?"
        data, common = connection.execute(sql, (a, b)).fetchone()
        wrong += unpacked(connection, data) != sorted(sets[a] | sets[b]) or common != len(sets[a] & sets[b])
        id = dice.randrange(70_000)
        found = connection.execute("SELECT tag FROM tags WHERE idset_contains(ids, ?) ORDER BY tag", (id,)).fetchall()
        wrong += [tag for tag, in found] != [tag for tag in range(TAGS) if id in sets[tag]]
    return wrong


def test_threads(tmp_path):
    dice = random.Random(8)
    sets = [{dice.randrange(70_000) for _ in range(dice.choice([9, 500, 5000]))} for _ in range(TAGS)]
    with connected(tmp_path / "tags.db") as file:
        file.execute("CREATE TABLE tags (tag INTEGER PRIMARY KEY, ids BLOB)")
        file.executemany("INSERT INTO tags VALUES (?, ?)", [(tag, packed(file, ids)) for tag, ids in enumerate(sets)])
    file.close()

    def alone(seed):
        connection = connected(tmp_path / "tags.db")
        try:
            return asked(connection, sets, seed)
        finally:
            connection.close()

    shared = connected(tmp_path / "tags.db", check_same_thread=False)
    with concurrent.futures.ThreadPoolExecutor(8) as pool:
        assert sum(pool.map(alone, range(8))) == 0
        assert sum(pool.map(lambda seed: asked(shared, sets, seed), range(8, 16))) == 0
    shared.close()
