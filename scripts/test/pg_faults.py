"""What happens to sets in a PostgreSQL server that is stopped, damaged, updated, dumped, or the first of two: checks of scripts/test/postgres.py."""

import os
import random
import re

from common import run
from files import bytes_of, other, written
import pg_server

# Sets on disk, and in how many of them a bit is flipped. Their numbers are far apart, so that most flips can be seen.
STORED, FLIPPED = 120, 60
ANSWERS = """CREATE FUNCTION answers() RETURNS TABLE (n int, said text) LANGUAGE plpgsql AS $$
BEGIN
    FOR n IN SELECT s.n FROM stored s LOOP
        BEGIN
            SELECT md5(ids::text) INTO said FROM stored s WHERE s.n = answers.n;
        EXCEPTION WHEN OTHERS THEN
            said = SQLSTATE || ' ' || SQLERRM;
        END;
        RETURN NEXT;
    END LOOP;
END $$;"""
PARTITIONS = """CREATE TABLE postings (word text, first int8, ids idset) PARTITION BY RANGE (first);
CREATE TABLE postings_1 PARTITION OF postings FOR VALUES FROM (0) TO (5000000000);
CREATE FOREIGN TABLE postings_2 PARTITION OF postings FOR VALUES FROM (5000000000) TO (10000000000) SERVER second;"""
FOREIGN = """CREATE EXTENSION postgres_fdw;
CREATE SERVER second FOREIGN DATA WRAPPER postgres_fdw OPTIONS (host '{}', port '{}', dbname 'postgres', extensions 'idset');
CREATE USER MAPPING FOR postgres SERVER second OPTIONS (user 'postgres');"""
# Rows of words and documents: document ids go beyond 32 bits, in ranges of 1,000,000,000.
ROWS = """CREATE TABLE plain AS SELECT DISTINCT word, id FROM (VALUES ('bee', 7), ('hive', 5), ('moon', 3)) w(word, k),
    LATERAL (SELECT i::int8 * i * k * 31 % 10000000000 AS id FROM generate_series(1, 20000) i UNION ALL
             SELECT i::int8 * 4000000 FROM generate_series(1, 2499) i WHERE i % k = 0) q;
INSERT INTO postings SELECT word, id / 1000000000 * 1000000000, pack_agg(id % 1000000000) FROM plain GROUP BY 1, 2;"""
BOTH = "a.word = 'bee' AND b.word = 'hive'"
QUERY = f"SELECT first + id FROM postings a JOIN postings b USING (first), unnest(a.ids {{}} b.ids) id WHERE {BOTH} ORDER BY 1"
BY_ROWS = "SELECT id FROM plain WHERE word = 'bee' {} SELECT id FROM plain WHERE word = 'hive' ORDER BY 1"
# The same AND, so that each server sends one set for each of its ranges.
WISE = "SET enable_partitionwise_join = on; SET enable_partitionwise_aggregate = on;"
BY_RANGE = f"SELECT first, unite_agg(a.ids & b.ids) AS ids FROM postings a JOIN postings b USING (first) WHERE {BOTH} GROUP BY first"
SIGNS = {"&": "INTERSECT", "|": "UNION", "-": "EXCEPT"}


def dumped(extension, server):
    """A table that is dumped and restored, and binary copies."""
    ids = "idset(ARRAY(SELECT i * n * 37 FROM generate_series(1, n * 50) i)) AS ids"
    server.rows(f"CREATE TABLE kept AS SELECT n, {ids} FROM generate_series(0, 99) n")
    digest = "SELECT md5(string_agg(n || ids::text, ' ' ORDER BY n)) FROM "
    before = server.rows(digest + "kept")
    dump = run(extension.programs.path("pg_dump"), "-t", "kept", "-e", "idset", env=server.known).stdout
    server.rows("CREATE DATABASE restored")
    restored = [server.psql(dump, "restored")[1], server.psql(digest + "kept", "restored")[0]]
    yield "dumped and restored", other(restored, [0, before])
    path = f"{server.socket}/copy"
    server.rows(f"COPY kept TO '{path}' (FORMAT binary); CREATE TABLE copied (LIKE kept); COPY copied FROM '{path}' (FORMAT binary)")
    yield "copied in binary", other(server.rows(digest + "copied"), before)
    data = bytearray(bytes_of(path))
    data[data.index(bytes.fromhex(server.rows("SELECT encode(ids::bytea, 'hex') FROM kept WHERE n = 60")))] = 7
    written(server.socket, {"copy": data})
    said, status = server.psql(f"COPY copied FROM '{path}' (FORMAT binary)")
    yield "a damaged binary copy", None if status != 0 and "invalid idset: " in said else said


def flipped(path, sets, bits):
    """Flips a bit in the bytes of some sets, in the file of a server that does not run. Returns in how many."""
    data, done = bytearray(bytes_of(path)), 0
    for text in sets[:FLIPPED]:
        at = bits.randrange(20, len(text) - 20)
        place = data.find(text[at - 12 : at + 12])
        if place >= 0:
            data[place + 12] ^= 1 << bits.randrange(8)
            done += 1
    written(os.path.dirname(path), {os.path.basename(path): data})
    return done


def on_disk(extension, number, checksums):
    """Bits flipped in the sets on disk. Each answer has to be an error that names what is wrong, or the right one; without data checksums a
    set may be another one, if its bytes have one."""
    server = extension.server(number, checksums=checksums).start()
    name = f"bits flipped on disk, {'with' if checksums else 'without'} data checksums"
    ids = "idset(ARRAY(SELECT i::int8 * i * (n * 7919 + 101) % 4294967291 FROM generate_series(1, 3000) i)) AS ids"
    server.rows(f"CREATE EXTENSION idset; {ANSWERS}")
    server.rows(f"CREATE TABLE stored AS SELECT n, {ids} FROM generate_series(1, {STORED}) n; CHECKPOINT")
    before = server.rows("SELECT n, said FROM answers() ORDER BY n").split("\n")
    path = server.rows("SELECT pg_relation_filepath(reltoastrelid) FROM pg_class WHERE relname = 'stored'")
    sets = [bytes.fromhex(it) for it in server.rows("SELECT encode(ids::bytea, 'hex') FROM stored ORDER BY n").split("\n")]
    server.stop()
    count = flipped(f"{server.data}/{path}", sets, random.Random(number))
    server.start()
    after = server.rows("SET client_min_messages = error; SELECT n, said FROM answers() ORDER BY n").split("\n")
    server.stop()
    faults = [it for it in after if re.search(r"\|XX\d{3} ", it)]
    named = [it for it in faults if re.search(r"\|XX001 damaged idset: |\|XX001 invalid page in block", it)]
    wrong = [it for it, old in zip(after, before) if it != old and it not in faults]
    if count < FLIPPED // 2 or not faults or len(after) != STORED or len(named) != len(faults):
        yield name, f"{count} flipped, {len(faults)} errors, others {[it for it in faults if it not in named][:2]}"
    elif checksums:
        yield name, f"{len(wrong)} wrong answers" if wrong or "invalid page" not in faults[0] else None
    else:
        more = len(wrong) + len(faults)
        yield name, f"{more} other answers for {count} flipped" if more > count else None


def asked(server, sign):
    """Whether the two words' documents are those of the plain rows, or what psql says."""
    rows, status = server.psql(QUERY.format(sign))
    return rows if status != 0 else rows == server.rows(BY_ROWS.format(SIGNS[sign])) and len(rows.split()) > 10


def two_servers(extension, first):
    """A table whose partitions are on two servers, one of which stops, and starts again."""
    second = extension.server(5).start()
    second.rows("CREATE EXTENSION idset; CREATE TABLE postings_2 (word text, first int8, ids idset)")
    first.rows(FOREIGN.format(second.socket, second.port) + PARTITIONS + ROWS)
    counts = [it.rows(f"SELECT count(*) > 10 FROM postings_{number}") for number, it in [(1, first), (2, second)]]
    yield "rows on two servers", other(counts, ["t", "t"])
    yield from ((f"{sign} over two servers", other(asked(first, sign), True)) for sign in SIGNS)
    plan = first.rows("EXPLAIN (VERBOSE, COSTS off) SELECT word FROM postings WHERE ids @> 400000000")
    yield "@> runs on the second server", None if "OPERATOR(public.@>)" in plan.partition("Remote SQL")[2] else plan
    said = first.rows(f"{WISE} EXPLAIN (VERBOSE, COSTS off) {BY_RANGE}")
    there = re.search(r"Remote SQL: .*unite_agg\(\(r\d+\.ids OPERATOR\(public\.&\) r\d+\.ids\)\)", said)
    yield "AND runs on the second server", None if there else said
    said = first.rows(f"{WISE} SELECT first + id FROM ({BY_RANGE}) r, unnest(ids) id ORDER BY 1")
    yield "AND that ran there", other(said, first.rows(BY_ROWS.format("INTERSECT")))
    second.stop()
    said, status = first.psql(QUERY.format("&"))
    clear = status != 0 and 'could not connect to server "second"' in said
    yield "the second server is stopped", None if clear else said[:500]
    yield "the first server answers alone", other(first.psql("SELECT count(*) > 10 FROM postings WHERE first < 5000000000")[0], "t")
    second.start()
    yield "the second server is started again", other(asked(first, "&"), True)
    second.stop()


def replicated(extension):
    """A table that logical replication copies, in binary and as text, and then changes: a set, a row beside a set, a new row, and a removed one."""
    one, two = (extension.server(number).start(wal_level="logical") for number in (10, 11))
    sets = "SELECT n, n AS other, idset(ARRAY(SELECT i * n FROM generate_series(1, 3000) i)) AS ids FROM generate_series(1, 20) n"
    one.rows(
        f"CREATE EXTENSION idset; CREATE TABLE texts AS {sets}; ALTER TABLE texts ADD PRIMARY KEY (n); CREATE TABLE binaries AS {sets}"
    )
    one.rows(
        "ALTER TABLE binaries REPLICA IDENTITY FULL; CREATE PUBLICATION texts FOR TABLE texts; CREATE PUBLICATION binaries FOR TABLE binaries"
    )
    two.rows("CREATE EXTENSION idset; CREATE TABLE texts (n int PRIMARY KEY, other int, ids idset); CREATE TABLE binaries (LIKE texts)")
    for name, binary in {"texts": "off", "binaries": "on"}.items():
        where = f"host={one.socket} port={one.port} dbname=postgres user=postgres"
        two.rows(f"CREATE SUBSCRIPTION {name} CONNECTION '{where}' PUBLICATION {name} WITH (binary = {binary})")
    for name in ("texts", "binaries"):
        digest = f"SELECT count(*) || md5(string_agg(n || ' ' || other || ids::text, ' ' ORDER BY n)) FROM {name}"
        yield f"{name} are copied", pg_server.awaited(lambda: two.rows(digest), one.rows(digest))
        one.rows(f"UPDATE {name} SET ids = ids | 7 WHERE n > 9; UPDATE {name} SET other = 99 WHERE n < 5; DELETE FROM {name} WHERE n = 7")
        one.rows(f"INSERT INTO {name} VALUES (30, 30, '{{1,2}}')")
        yield f"{name} are changed there", pg_server.awaited(lambda: two.rows(digest), one.rows(digest))
        two.rows(f"DROP SUBSCRIPTION {name}")
    one.stop()
    two.stop()


def checks(extension, first):
    yield from dumped(extension, first)
    yield from two_servers(extension, first)
    yield from replicated(extension)
    yield from on_disk(extension, 6, checksums=True)
    yield from on_disk(extension, 7, checksums=False)
