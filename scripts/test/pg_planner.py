"""What the planner knows of the PostgreSQL extension's sets: checks of scripts/test/postgres.py. Rows with tags, as a shop has them, and the set of rows
of each tag: few tags have most rows. Each estimate of EXPLAIN has to be within a factor of three of the rows that come."""

import json

# 60,000 rows with one to eight of 501 tags, and 4,000 long sets.
LOAD = """SELECT setseed(.42);
CREATE TABLE items AS SELECT i AS id, idset(ARRAY(SELECT (500 * power(random(), 3))::int FROM generate_series(1, 1 + (i % 8)))) AS tags
    FROM generate_series(1, 60000) i;
CREATE TABLE postings AS SELECT tag::int, pack_agg(id) AS ids FROM items, unnest(tags) tag GROUP BY tag;
CREATE TABLE long AS SELECT n, ids, NULLIF(n % 4, 0) IS NULL AS void FROM generate_series(1, 4000) n,
    (SELECT idset(ARRAY(SELECT i * 7919 % 1000003 FROM generate_series(1, 3000) i)) AS ids OFFSET 0) s;
UPDATE long SET ids = NULL WHERE void;
ALTER TABLE long SET (parallel_workers = 2);
ALTER TABLE items ADD PRIMARY KEY (id);
ANALYZE;"""
FACTOR = 3
ESTIMATED = [
    "SELECT unnest(ids) FROM postings",
    "SELECT * FROM postings, unnest(ids) id WHERE tag BETWEEN 50 AND 150",
    "SELECT unnest(tags) FROM items WHERE id < 1000",
    "SELECT * FROM unnest((SELECT ids FROM postings WHERE tag = 60)) id",
    "SELECT * FROM unnest('{7,9,10,300}'::idset) id",
    "SELECT * FROM postings p, postings q, unnest(p.ids & q.ids) id WHERE p.tag < 60 AND q.tag > 400",
    "SELECT * FROM postings p, postings q, unnest(p.ids | q.ids) id WHERE p.tag BETWEEN 50 AND 100 AND q.tag = 60",
    "SELECT * FROM long, unnest(slice(ids, 1, 10)) id WHERE n < 1000",
    "SELECT * FROM long, unnest(range(ids - 7919, 0, 1000000)) id WHERE n < 100",
    "SELECT * FROM items WHERE tags @> 3",
    "SELECT * FROM items WHERE 3 <@ tags",
    "SELECT * FROM items WHERE contains(tags, 3)",
    "SELECT * FROM items WHERE idset_contains(tags, 40)",
    "SELECT * FROM items WHERE tags @> '{0,1}'",
    "SELECT * FROM items WHERE '{0,1}' <@ tags",
    "SELECT * FROM items WHERE tags && '{3,90,400}'",
    "SELECT * FROM items WHERE tags <@ '{0,1,2,3,4,5,6,7,8,9}'",
    "SELECT * FROM items WHERE '{0,1,2,3,4,5,6,7,8,9}' @> tags",
    "SELECT * FROM items WHERE tags @@ '3&(4|5)&!6'",
    "SELECT * FROM items WHERE '!0' @@ tags",
    "SELECT * FROM items WHERE tags @@ '(1|2)&!(3|4)|5'",
    "SELECT * FROM items WHERE tags @> '{}'",
    "SELECT * FROM items WHERE tags @> 7000",
    "SELECT * FROM postings WHERE ids @> 77",
    "SELECT * FROM postings WHERE ids && '{5,6,7,8,9,10,11,12,13}'",
    "SELECT * FROM long WHERE ids @> 7919",
    "SELECT * FROM items WHERE '{1,2,3,4,5,6,7,8,9,77,100}'::idset @> id",
    "SELECT * FROM items WHERE (SELECT ids FROM postings WHERE tag = 60) @> id",
    "SELECT * FROM postings p JOIN items i ON p.ids @> i.id WHERE p.tag BETWEEN 50 AND 60",
    "SELECT * FROM items i JOIN postings p ON i.tags @> p.tag WHERE i.id < 500",
    "SELECT * FROM items a JOIN items b ON a.tags && b.tags WHERE a.id < 200 AND b.id BETWEEN 1000 AND 1500",
    "SELECT * FROM items a JOIN items b ON a.tags @> b.tags WHERE a.id < 500 AND b.id BETWEEN 1000 AND 1500",
    "SELECT * FROM items a JOIN items b ON a.tags <@ b.tags WHERE a.id < 500 AND b.id BETWEEN 1000 AND 1500",
]
# What is chosen for many long sets, and for few.
IN_PARALLEL = {
    "SELECT unite_agg(ids) FROM long": True,
    "SELECT intersect_agg(ids) FROM long": True,
    "SELECT count(*) FROM long WHERE intersect_len(ids, ids) > 7": True,
    "SELECT unite_agg(ids) FROM long WHERE n < 50": False,
}
# Numbers that pg_stats shows, by hand: 3,000 sets of as many ids, each of which all sets have, beside 1,000 nulls.
SHOWN = """SELECT null_frac, elem_count_histogram[1], elem_count_histogram[array_length(elem_count_histogram, 1)], (most_common_elem_freqs)[1]
FROM pg_stats WHERE tablename = 'long' AND attname = 'ids'"""


def explained(server, database, number, how):
    """A number of the plan of each query."""
    said = server.rows("".join(f"EXPLAIN ({how}, FORMAT json) {sql};\n" for sql in ESTIMATED), database)
    return [it[0]["Plan"][number] for it in json.loads("[" + said.replace("]\n[", "],[") + "]")]


def estimates(server, database, came):
    """Each query, and what is wrong with its estimate, or None."""
    for sql, rows, guess in zip(ESTIMATED, came, explained(server, database, "Plan Rows", "COSTS")):
        low, high = sorted((max(guess, 1), max(rows, 1)))
        yield f"rows estimated for {sql}", None if high <= FACTOR * low else f"{guess} estimated, {rows} came"


def plans(server, database):
    for sql, wanted in IN_PARALLEL.items():
        plan = server.rows(f"EXPLAIN {sql}", database)
        yield f"{'parallel' if wanted else 'one process'}: {sql}", None if ("Gather" in plan) == wanted else plan


def loaded(server, database):
    """Fills a database. Returns how many rows each query returns."""
    server.rows(f"DROP DATABASE IF EXISTS {database}")
    server.rows(f"CREATE DATABASE {database}")
    server.rows(f"CREATE EXTENSION idset; {LOAD}", database)
    return explained(server, database, "Actual Rows", "ANALYZE, TIMING off")


def checks(server):
    came = loaded(server, "planned")
    said = server.rows(SHOWN, "planned").split("|")
    wanted = [0.25, 3000, 3000, 1]
    yield "what pg_stats shows", None if all(abs(float(it) - number) < 0.04 * number for it, number in zip(said, wanted)) else said
    yield from estimates(server, "planned", came)
    yield from plans(server, "planned")
    # An unknown share, as before ANALYZE, is not an error.
    said = server.psql(
        "CREATE TABLE fresh (ids idset); SELECT count(*) FROM fresh a JOIN fresh b ON a.ids && b.ids AND a.ids @> '{1}'", "planned"
    )[0]
    yield "a table without statistics", None if said == "0" else said
