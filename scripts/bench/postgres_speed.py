#!/usr/bin/env python3
"""Times the PostgreSQL extension beside rows with a primary key, and arrays with intarray. Prints the table of docs/POSTGRES.md:

    scripts/bench/postgres_speed.py [--rounds N] [--seconds N]

It starts a server of its own, as scripts/test/postgres.py does, and fills a table of each with the same sets: words A and B of about 100,000 documents
among 1,000,000, and 400 words of 100 to 20,000. First all ways have to give the same answers. Then they take turns, and the least time of the
rounds counts, as EXPLAIN ANALYZE says it. Last 100 clients of pgbench ask for AND of two random words, for some seconds each.
"""
import argparse
import json
import re
import sys
import tempfile

sys.path.insert(1, f"{sys.path[0]}/..")
from common import called
import choosing
import measured
import pg_server
import postgres

WORDS, CLIENTS = 402, 100
ROWS = f"""CREATE EXTENSION intarray; CREATE EXTENSION idset; SELECT setseed(0.5);
CREATE TABLE postings AS SELECT DISTINCT w AS word, (random() * 1000000)::int AS doc FROM generate_series(0, {WORDS - 1}) w,
    LATERAL generate_series(1, CASE WHEN w < 2 THEN 105000 ELSE 100 + (w * 7919) % 20000 END) g ORDER BY 1, 2;
ALTER TABLE postings ADD PRIMARY KEY (word, doc);
CREATE TABLE arrays AS SELECT word, array_agg(doc ORDER BY doc) AS ids FROM postings GROUP BY word;
CREATE TABLE packed AS SELECT word, pack_agg(doc) AS ids FROM postings GROUP BY word;
ALTER TABLE arrays ADD PRIMARY KEY (word);
ALTER TABLE packed ADD PRIMARY KEY (word);
CREATE TABLE pages AS SELECT doc, doc % 1000 AS size FROM generate_series(0, 1000000) doc;
ALTER TABLE pages ADD PRIMARY KEY (doc);
VACUUM ANALYZE;"""
WAYS = {"rows with a primary key": "postings", "`int4[]`, intarray": "arrays", "`idset`": "packed"}
# How each table answers: {A} and {B} are words, {D} a document. A join is how rows answer an AND.
JOIN = "FROM postings a JOIN postings b USING (doc) WHERE a.word = {A} AND b.word = {B}"
UNION = "FROM (SELECT doc FROM postings WHERE word = {A} UNION SELECT doc FROM postings WHERE word = {B}) u"
ARRAYS, PACKED = (f"FROM {it} a, {it} b WHERE a.word = {{A}} AND b.word = {{B}}" for it in ("arrays", "packed"))
AND, HAS = "A and B: how many", "SELECT count(*) FROM {} WHERE word = {{A}} AND {}"
HAVING = {"postings": "doc = {D}", "arrays": "ids @> ARRAY[{D}]", "packed": "contains(ids, {D})"}
ALL = "SELECT count(id) FROM (SELECT unnest(ids) AS id FROM {}) q"
# The rows of the documents of A, and the documents of any word.
OF_A = "SELECT ids FROM {} WHERE word = {{A}}"
ROWS_OF_A = "SELECT sum(size) FROM pages WHERE"
ANY = "SELECT count(*) FROM (SELECT DISTINCT {} FROM {}) q"
QUERIES = {
    AND: (f"SELECT count(*) {JOIN}", f"SELECT icount(a.ids & b.ids) {ARRAYS}", f"SELECT intersect_len(a.ids, b.ids) {PACKED}"),
    "A and B: the documents": (f"SELECT doc {JOIN}", f"SELECT unnest(a.ids & b.ids) {ARRAYS}", f"SELECT unnest(a.ids & b.ids) {PACKED}"),
    "A or B: how many": (
        f"SELECT count(*) {UNION}",
        f"SELECT icount(a.ids | b.ids) {ARRAYS}",
        f"SELECT cardinality(a.ids | b.ids) {PACKED}",
    ),
    "whether A has a document": [HAS.format(*it) for it in HAVING.items()],
    "sum over the rows of A's documents": (
        "SELECT sum(size) FROM postings JOIN pages USING (doc) WHERE word = {A}",
        f"{ROWS_OF_A} doc = ANY (({OF_A.format('arrays')})::int4[])",
        f"{ROWS_OF_A} ({OF_A.format('packed')}) @> doc",
    ),
    "documents of any word: how many": (
        ANY.format("doc", "postings"),
        ANY.format("unnest(ids)", "arrays"),
        "SELECT unite_len_agg(ids) FROM packed",
    ),
    "all documents of all words": ("SELECT count(doc) FROM postings", ALL.format("arrays"), ALL.format("packed")),
}


def milliseconds(server, sql):
    said = server.rows(f"EXPLAIN (ANALYZE, TIMING off, FORMAT json) {sql}")
    return json.loads(said)[0]["Execution Time"]


def sizes(server):
    """The bytes of each table with its index and TOAST, and the bits of each posting."""
    count = int(server.rows("SELECT count(*) FROM postings"))
    found = {it: int(server.rows(f"SELECT pg_total_relation_size('{table}')")) for it, table in WAYS.items()}
    yield "table with its index, MB", {it: f"{size / 1e6:.1f}" for it, size in found.items()}
    found = {it: int(server.rows(f"SELECT sum(pg_column_size(ids)) FROM {table}")) for it, table in WAYS.items() if table != "postings"}
    yield "bits of a posting in sets", {it: f"{8 * size / count:.1f}" for it, size in found.items()}


def timed(server, rounds):
    """The least time of each query, in milliseconds. First all tables have to answer the same."""
    doc = server.rows("SELECT doc FROM postings WHERE word = 0 ORDER BY doc OFFSET 50000 LIMIT 1")
    for name, queries in QUERIES.items():
        asked = {it: query.format(A=0, B=1, D=doc) for it, query in zip(WAYS, queries)}
        if len({tuple(sorted(server.rows(sql).split("\n"))) for sql in asked.values()}) > 1:
            sys.exit(f"{name}: the answers differ")
        least = measured.turns(asked, rounds, lambda sql: milliseconds(server, sql))
        yield f"{name}, ms", {it: f"{value:.2f}" for it, value in least.items()}


def rates(server, seconds, folder):
    """How many AND of two random words 100 clients of pgbench get in a second."""
    found, path = {}, f"{folder}/query.sql"
    for it, query in zip(WAYS, QUERIES[AND]):
        drawn = "".join(f"\\set {word} random(0, {WORDS - 1})\n" for word in "ab")
        choosing.written(path, f"{drawn}{query.format(A=':a', B=':b')};\n")
        words = ["-n", "-M", "prepared", "-c", str(CLIENTS), "-j", "2", "-T", str(seconds), "-f", path]
        # A failed query ends the script. The clients connect within these seconds, and if that takes all of them there is no rate.
        said = called(server.programs.path("pgbench"), *words, env=server.known)
        tps = re.search(r"tps = ([\d.]+)", said)
        found[it] = f"{float(tps[1]):,.0f}" if tps else "too few seconds"
    yield f"AND of two random words by {CLIENTS} clients, in a second", found


def main():
    parser = argparse.ArgumentParser()
    parser.add_argument("--rounds", type=int, default=15)
    parser.add_argument("--seconds", type=int, default=10)
    given = parser.parse_args()
    lacking, library = pg_server.lacking(), measured.library()
    if lacking:
        sys.exit(f"there is no {' and no '.join(lacking)}")
    with tempfile.TemporaryDirectory(prefix="pg-speed-") as folder:
        extension = postgres.Extension(folder, library)
        failed = extension.built()
        if failed:
            sys.exit(failed)
        server = extension.server().start(shared_buffers="1GB", max_parallel_workers_per_gather=0)
        try:
            server.rows(ROWS)
            lines = [*sizes(server), *timed(server, given.rounds), *rates(server, given.seconds, folder)]
        finally:
            server.stop()
    print(measured.head(library))
    measured.show("", WAYS, lines)


if __name__ == "__main__":
    main()
