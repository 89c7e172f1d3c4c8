"""How much memory and processor time statements of the PostgreSQL extension take: checks of scripts/test/postgres.py. Each has a limit that the right
extension keeps far below and a leak of each row, or time that grows with the square, passes. The statements run in sessions of their own, and the
processor's time does not count other programs. They want a server without data checksums, which tests each value that it opens."""

import contextlib
import os
import re
import signal
import subprocess
import time

import pg_server

# What the system says of a session: its memory and its time.
SELF = "SELECT pg_read_file('/proc/self/status'), pg_read_file('/proc/self/stat');"
TICKS = 100
TABLES = """CREATE TABLE stored AS SELECT n, idset(ARRAY(SELECT i * 20 + n % 20 FROM generate_series(1, 3000) i)) AS ids FROM generate_series(1, 2000) n;
CREATE TABLE short AS SELECT n, '{21,41}'::idset AS ids FROM generate_series(1, 2) n;
CREATE TABLE short8 AS SELECT n, ids::int8[]::idset8 AS ids FROM short;
CREATE TABLE stored8 AS SELECT n, ids::int8[]::idset8 AS ids FROM stored WHERE n < 3;
CREATE TABLE two AS SELECT idset(ARRAY(SELECT generate_series(1, 40000, 2))) AS a, idset(ARRAY(SELECT generate_series(2, 40000, 2))) AS b;
CREATE TABLE mixed AS SELECT ARRAY(SELECT (i::int8 * 2654435761 % 2147483647)::int4 FROM generate_series(1, 5000000) i) AS a,
    ARRAY(SELECT (i::int8 * 2654435761 % 5000011)::int4 FROM generate_series(1, 5000000) i) AS dense;
CREATE TABLE texts AS SELECT '{1,2}' AS ids, '1&2' AS query;
CREATE FUNCTION has(ids idset, id int8) RETURNS bool LANGUAGE plpgsql AS 'BEGIN RETURN contains(ids, id); END';"""
CHANGES = "has(CASE n % 2 WHEN 0 THEN a ELSE b END, n)"
# Long sets of which each comes twice in a row, so that it is kept.
TWICE = "(SELECT n, ids FROM stored s, generate_series(0, 19) k ORDER BY k / 2, n OFFSET 0) q"
ALIKE = "(SELECT idset(ARRAY(SELECT generate_series(1, 10000))) AS ids OFFSET 0) q, generate_series(1, 1000)"
# Statements, what they print, and the most memory in MB.
SPACE = {
    "a sort frees its copies": ("SELECT count(*) FROM (SELECT ids FROM stored ORDER BY ids OFFSET 0) q", "2000", 60),
    "a parameter that changes is kept once": (f"SELECT count(*) FROM two, generate_series(1, 20000) n WHERE {CHANGES}", "0", 30),
    "a stored set is kept until another comes": (f"SELECT count(*) FROM {TWICE} WHERE contains(ids, 20 + n % 20)", "40000", 40),
    "an OR keeps each id once": (f"SELECT cardinality(unite_agg(ids)) FROM {ALIKE}", "10000", 30),
    "a XOR keeps each id once": (f"SELECT cardinality(symmetric_difference_agg(ids)) FROM {ALIKE}", "0", 30),
    "an OR of many sets keeps few": ("SELECT cardinality(unite_agg(ids)) FROM stored, generate_series(1, 10)", "60000", 40),
    "a sort of wide sets frees its copies": (
        "SELECT count(*) FROM (SELECT ids::int8[]::idset8 AS x FROM stored ORDER BY x OFFSET 0) q",
        "2000",
        60,
    ),
    "an OR of wide sets keeps each id once": (f"SELECT cardinality(unite_agg(ids::int8[]::idset8)) FROM {ALIKE}", "10000", 40),
    "an OR of many wide sets keeps few": (
        "SELECT cardinality(unite_agg(ids::int8[]::idset8)) FROM stored, generate_series(1, 3)",
        "60000",
        60,
    ),
    "an index build frees its copies": ("CREATE INDEX ON stored (n) WHERE ids < '{1,2}'", "", 60),
}


def ticks(stat):
    """The seconds of the processor that a process took, by its file in /proc."""
    return sum(map(int, stat.rpartition(")")[2].split()[11:13])) / TICKS


def session(server, sql):
    """What a statement prints, the most memory of its session, in MB, and its seconds of the processor."""
    said, status = server.psql(f"{sql};\n{SELF}", "measured")
    if status != 0:
        raise RuntimeError(said[-2000:])
    answer, _, more = said.rpartition("Name:")
    sizes = {name: int(size) for name, size in re.findall(r"(\w+):\s+(\d+) kB", more)}
    return answer.strip(), (sizes["VmHWM"] - sizes["RssShmem"]) / 1000, ticks(more)


def used_by(process):
    """The seconds of the processor that a process took until now: endless if it is gone."""
    try:
        with open(f"/proc/{process}/stat", encoding="ascii") as file:
            return ticks(file.read())
    except FileNotFoundError:
        return float("inf")


def seconds(server, sql):
    """The least processor time of three sessions."""
    return min(session(server, sql)[2] for _ in range(3))


def space(server):
    for name, (sql, wanted, limit) in SPACE.items():
        answer, used, _ = session(server, sql)
        yield name, None if answer == wanted and used < limit else f"it printed {answer[:200]} and took {used:.0f} MB"


def kept_constant(server):
    """A constant is kept in memory of the query, whatever the rows take, and opened once."""
    ids = range(0, 2_000_000, 8)
    constant = "{" + ",".join(map(str, ids)) + "}"
    wide = "length(repeat('x', i % 60 * 4000)) >= 0 AND"
    answer, used, _ = session(server, f"SELECT count(*) FROM generate_series(1, 5000) i WHERE {wide} contains('{constant}', i)")
    yield "a constant outlives the row", None if answer == "625" and used < 60 else f"{answer}, {used:.0f} MB"
    # The first has so many rows that a constant is not even compared for each of them.
    for rows, call in (400_000, "contains('{}', i)"), (20_000, "'{}' @> idset(ARRAY[i])"), (20_000, "idset(ARRAY[i]) && '{}'"):
        sql = f"SELECT count(*) FROM generate_series(1, {rows}) i WHERE {call}"
        short, long = (seconds(server, sql.format(it)) for it in ("{16,40}", constant))
        yield f"a constant is opened once: {call}", None if long < 3 * short + 0.3 else f"{short:.2f} and {long:.2f} s"


def kept_stored(server):
    """A set in TOAST is opened once for all rows: those of a subquery take as long as those of a short one."""
    for kind in ("", "8"):
        sql = f"SELECT count(*) FROM generate_series(1, 240000) i WHERE (SELECT ids FROM {{}}{kind} WHERE n = 1) @> i"
        short, long = (seconds(server, sql.format(it)) for it in ("short", "stored"))
        yield f"a stored idset{kind} is opened once", None if long < 2 * short + 0.1 else f"{short:.2f} and {long:.2f} s"


def dense_by_bits(server):
    """Dense ids are not sorted, which takes much longer, and an OR does not unpack its sets: it takes as long as changing each."""
    dense, far = (seconds(server, f"SELECT cardinality(idset({it})) FROM mixed") for it in ("dense", "a"))
    yield "dense ids are not sorted", None if dense < 0.6 * far else f"{dense:.2f} and {far:.2f} s"
    calls = "cardinality(unite_agg(ids))", "max(cardinality(ids - 7))"
    unite, change = (seconds(server, f"SELECT {it} FROM stored, generate_series(1, 2)") for it in calls)
    yield "an OR of dense sets", None if unite < 3 * change + 0.1 else f"{unite:.2f} and {change:.2f} s"


def grows_evenly(server):
    """Eight times the rows take about nine times the time, and not sixty times."""
    sql = "SELECT cardinality(pack_agg(i::int8 * 2654435761 % 4294967296)) FROM generate_series(1, {}) i"
    few, many = (seconds(server, sql.format(count)) for count in (100_000, 800_000))
    yield "an aggregate takes time by its rows", None if many < 20 * few + 0.1 else f"{few:.2f} and {many:.2f} s"


def results_are_small(server):
    """The values of a row have the room of their bytes: twenty of a million dense ids take less than 20 MB."""
    sets = "SELECT idset(ARRAY(SELECT generate_series(0, 999999))) AS x, '{5000000}'::idset AS y"
    calls = ", ".join(["cardinality(x | y)"] * 20)
    total = "(SELECT sum(total_bytes) < 20000000 + 2 * pg_column_size(x) FROM pg_backend_memory_contexts WHERE x IS NOT NULL)"
    said, _, _ = session(server, f"SELECT {calls}, {total} FROM ({sets} OFFSET 0) q")
    yield "values have no room left", None if said.endswith("|t") else said[-200:]


def can_be_cancelled(server):
    """A sort of many ids that is cancelled in the middle of its work ends soon after that."""
    sql = "SELECT cardinality(idset(a)) FROM mixed"
    whole = seconds(server, sql)
    command = [f"{pg_server.config('bindir')}/psql", "-X", "-q", "-A", "-t", "-d", "measured"]
    pipes = {"stdin": subprocess.PIPE, "stdout": subprocess.PIPE, "stderr": subprocess.STDOUT}
    with subprocess.Popen(command, text=True, env=server.known, **pipes) as client:
        client.stdin.write("SELECT pg_backend_pid();\n")
        client.stdin.flush()
        process = int(client.stdout.readline())
        client.stdin.write(f"{sql};\n{SELF}\n")
        client.stdin.close()
        while used_by(process) < 0.4 * whole:
            time.sleep(0.002)
        with contextlib.suppress(ProcessLookupError):
            os.kill(process, signal.SIGINT)
        said = client.stdout.read()
    used = ticks(said.rpartition("Name:")[2])
    fine = "canceling statement" in said and used < 0.7 * whole
    yield "a sort can be cancelled", None if fine else f"{said[:200]}: {used:.2f} of {whole:.2f} s"


def not_cancelled(server, before, call, rows, database):
    """What is wrong with a call in a statement that is cancelled, or None. The call has to end early, so that the lock after it is not taken."""
    sql = f"{before}, {call}, pg_try_advisory_lock(1) FROM {rows};\nSELECT count(*) FROM pg_locks WHERE locktype = 'advisory'"
    said = server.psql(sql, database, "-v", "ON_ERROR_STOP=0")[0]
    return None if "canceling statement" in said and said.endswith("\n0") else said[-2000:]


def ends_if_cancelled(server):
    """A statement is cancelled just before these calls."""
    for call in ("cardinality(ids::idset)", "length(query::idset_query::text)"):
        yield f"{call} is cancelled", not_cancelled(server, "SELECT pg_cancel_backend(pg_backend_pid())", call, "texts", "measured")


def checks(server, only=None):
    """All checks, or those of one function, in a database of their own."""
    server.rows("DROP DATABASE IF EXISTS measured")
    server.rows("CREATE DATABASE measured")
    server.rows("CREATE EXTENSION idset; " + TABLES, "measured")
    for check in [space, kept_constant, kept_stored, dense_by_bits, grows_evenly, results_are_small, can_be_cancelled, ends_if_cancelled]:
        if only in (None, check.__name__):
            yield from check(server)
