#!/usr/bin/env python3
"""Times the SQLite extension beside rows with a primary key, and JSON arrays with json_each. Prints the table of docs/SQLITE.md:

    scripts/bench/sqlite_speed.py [--rounds N] [--rows N]

It fills a file of each with the same tags: 2,000,000 rows have one to eight of about 5,000 tags, and few tags are frequent. First all ways have to give
the same answers. Then they take turns, and the least processor time of the rounds counts.
"""
import argparse
import array
import json
import os
import random
import sqlite3
import sys
import tempfile

sys.path.insert(1, f"{sys.path[0]}/..")
from common import Failed
import install
import measured
import sqlite

TAGS = 5000
WAYS = ["rows `WITHOUT ROWID`", "JSON, `json_each`", "`idset`"]
TABLES = [
    "CREATE TABLE tagged (tag INT, id INT, PRIMARY KEY (tag, id)) WITHOUT ROWID",
    "CREATE TABLE tagged (tag INTEGER PRIMARY KEY, ids TEXT)",
    "CREATE TABLE tagged (tag INTEGER PRIMARY KEY, ids BLOB)",
]
FILL = ["INSERT INTO tagged VALUES (?, ?)", "INSERT INTO tagged VALUES (?, ?)", "INSERT INTO tagged VALUES (?, idset(?))"]
AND, ALL = "FROM tagged a JOIN tagged b USING (id) WHERE a.tag = {} AND b.tag = {}", "SELECT id FROM tagged WHERE tag = {}"
SET, JSON = "(SELECT ids FROM tagged WHERE tag = {})", "SELECT value FROM json_each((SELECT ids FROM tagged WHERE tag = {}))"
COUNT = "SELECT count(*) FROM ({})".format
A, B, C, RARE, OTHER = 0, 1, 2, 100, 2000


def of(text, *tags):
    return [text.format(it) for it in tags]


def queries(rows):
    """The questions, and how each way answers: nothing if it would take minutes."""
    low, high = rows // 2, rows // 2 + 100
    between = f"BETWEEN {low} AND {high}"
    sets = ", ".join
    return {
        "A and B: how many": (
            f"SELECT count(*) {AND.format(A, B)}",
            COUNT(" INTERSECT ".join(of(JSON, A, B))),
            f"SELECT idset_intersect_len({sets(of(SET, A, B))})",
        ),
        "two rarer tags: the ids": (
            f"SELECT id {AND.format(RARE, OTHER)}",
            " INTERSECT ".join(of(JSON, RARE, OTHER)),
            f"SELECT id FROM idset_each(idset_intersect({sets(of(SET, RARE, OTHER))}))",
        ),
        "A or B or C: how many": (
            COUNT(" UNION ".join(of(ALL, A, B, C))),
            COUNT(" UNION ".join(of(JSON, A, B, C))),
            f"SELECT idset_unite_len({sets(of(SET, A, B, C))})",
        ),
        "A without B: how many": (
            COUNT(" EXCEPT ".join(of(ALL, A, B))),
            COUNT(" EXCEPT ".join(of(JSON, A, B))),
            f"SELECT idset_subtract_len({sets(of(SET, A, B))})",
        ),
        "A and B: the sum of a column": (
            f"SELECT sum(price) FROM items WHERE id IN (SELECT id {AND.format(A, B)})",
            f"SELECT sum(price) FROM items WHERE id IN ({' INTERSECT '.join(of(JSON, A, B))})",
            f"SELECT sum(price) FROM idset_each(idset_intersect({sets(of(SET, A, B))})) JOIN items USING (id)",
        ),
        "whether A has an id": (
            f"SELECT count(*) FROM tagged WHERE tag = {A} AND id = {low}",
            COUNT(f"{JSON.format(A)} WHERE value = {low}"),
            f"SELECT idset_contains({SET.format(A)}, {low})",
        ),
        "ids of A in a range": (
            f"{ALL.format(A)} AND id {between}",
            f"{JSON.format(A)} WHERE value {between}",
            f"SELECT id FROM idset_each({SET.format(A)}) WHERE id {between}",
        ),
        "the tags of an id": (f"SELECT tag FROM tagged WHERE id = {low}", "", f"SELECT tag FROM tagged WHERE idset_contains(ids, {low})"),
        "OR of all tags: how many": ("SELECT count(DISTINCT id) FROM tagged", "", "SELECT idset_len(idset_unite_agg(ids)) FROM tagged"),
        "one id more for A": (
            f"INSERT INTO tagged VALUES ({A}, {rows + 1})",
            f"UPDATE tagged SET ids = json_insert(ids, '$[#]', {rows + 1}) WHERE tag = {A}",
            f"UPDATE tagged SET ids = idset_add(ids, {rows + 1}) WHERE tag = {A}",
        ),
    }


def drawn(rows):
    """The ids of each tag."""
    found, dice = [array.array("I") for _ in range(TAGS)], random.Random(1)
    for row in range(1, rows + 1):
        for tag in {int(TAGS * dice.random() ** 3) for _ in range(1 + row % 8)}:
            found[tag].append(row)
    return found


def filled(folder, way, tags, library):
    """A connection to a file of a way, with the seconds that filling it took."""
    connection = sqlite3.connect(f"{folder}/{way}.db")
    connection.enable_load_extension(True)
    connection.load_extension(library)
    connection.execute(TABLES[way])
    values = (
        ((tag, id) for tag, ids in enumerate(tags) for id in ids)
        if way == 0
        else ((tag, json.dumps(ids.tolist(), separators=(",", ":"))) for tag, ids in enumerate(tags))
    )
    seconds = measured.processor_time(lambda: (connection.executemany(FILL[way], values), connection.commit()))
    return connection, seconds


def answered(connection, sql):
    rows = connection.execute(sql).fetchall()
    connection.rollback()
    return sorted(rows)


def timed(connections, rows, rounds):
    for name, asked in queries(rows).items():
        ways = {it: (connection, sql) for it, connection, sql in zip(WAYS, connections, asked) if sql}
        answers = [answered(*it) for it in ways.values()]
        if answers != answers[:1] * len(answers):
            raise Failed(f"{name}: the answers differ: {[it[:3] for it in answers]}")
        least = measured.turns(ways, rounds, lambda it: measured.processor_time(lambda: answered(*it)))
        yield f"{name}, ms", {it: f"{1000 * value:,.2f}" for it, value in least.items()}


def main():
    parser = argparse.ArgumentParser()
    parser.add_argument("--rounds", type=int, default=9)
    parser.add_argument("--rows", type=int, default=2_000_000)
    given, library = parser.parse_args(), measured.library()
    with tempfile.TemporaryDirectory(prefix="sqlite-speed-") as folder:
        install.install(f"{folder}/prefix", library)
        sqlite.copied(folder)
        if why := sqlite.built(folder):
            sys.exit(why)
        tags = drawn(given.rows)
        made = [filled(folder, way, tags, f"{folder}/sqlite/idset") for way in range(len(WAYS))]
        items = ((row, row * 7919 % 10007) for row in range(1, given.rows + 1))
        for number, (connection, _) in enumerate(made):
            connection.execute(f"ATTACH '{folder}/items' AS other")
            if number == 0:
                connection.execute("CREATE TABLE other.items (id INTEGER PRIMARY KEY, price INT)")
                connection.executemany("INSERT INTO items VALUES (?, ?)", items)
                connection.commit()
        lines = [("file, MB", {it: f"{os.path.getsize(f'{folder}/{way}.db') / 1e6:.1f}" for way, it in enumerate(WAYS)})]
        lines += [("filling it, s", {it: f"{seconds:.1f}" for it, (_, seconds) in zip(WAYS, made)})]
        lines += timed([connection for connection, _ in made], given.rows, given.rounds)
        print(f"{measured.head(library)}; {sum(map(len, tags)):,} pairs, SQLite {sqlite3.sqlite_version}")
    measured.show("", WAYS, lines)


if __name__ == "__main__":
    sqlite.with_extensions()
    main()
