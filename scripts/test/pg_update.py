"""The update of the PostgreSQL extension from version 1.0, over a database with data: checks of scripts/test/postgres.py. The answers stay, the
indexes stay in use, dumps are restored, and the objects are those that CREATE EXTENSION makes. A base script of the newest version that lacks one
is found."""

import re

from common import run, source
from files import bytes_of, other, written
import pg_server

# Data of version 1.0: short and long sets with each kind of index, and what depends on the extension.
DATA = """CREATE TABLE kept AS SELECT n, idset(ARRAY(SELECT i * n * 37 FROM generate_series(1, n * 50) i)) AS ids FROM generate_series(0, 99) n;
INSERT INTO kept SELECT n, idset(ARRAY[n, n + 1, 7]) FROM generate_series(100, 3000) n;
CREATE INDEX by_id ON kept USING gin (ids);
CREATE INDEX by_hash ON kept USING hash (ids);
CREATE INDEX by_order ON kept (ids) WHERE n > 99;
CREATE INDEX by_count ON kept (cardinality(ids));
CREATE VIEW common AS SELECT intersect_agg(ids) AS ids FROM kept WHERE n > 99;
CREATE TABLE few (ids idset CHECK (contains(ids, 7)) DEFAULT '{7}'::idset | 9);
INSERT INTO few DEFAULT VALUES;
ANALYZE;"""
# What is asked before and after, with the index that has to answer it.
ASKED = {
    "SELECT md5(string_agg(n || ids::text, ' ' ORDER BY n)) FROM kept": None,
    "SELECT ids FROM common": None,
    "SELECT ids FROM few": None,
    "SELECT count(*) FROM kept WHERE ids @> 2000": "by_id",
    "SELECT count(*) FROM kept WHERE ids @@ '150&(151|!7)'": "by_id",
    "SELECT n FROM kept WHERE ids && '{151,2717}'::idset ORDER BY n": "by_id",
    "SELECT n FROM kept WHERE ids = '{7,700,701}'::idset AND n >= 0": "by_hash",
    "SELECT n FROM kept WHERE ids < '{7,102}'::idset AND n > 99 ORDER BY ids LIMIT 3": "by_order",
    "SELECT n FROM kept WHERE cardinality(ids) = 4950": "by_count",
}
# All objects of the extension with what they are.
OBJECTS = """SELECT pg_describe_object(classid, objid, 0), p.prosrc, p.probin, p.procost, p.prorows, p.prosupport::regproc, p.provolatile, p.proparallel,
    p.proisstrict, p.proargnames, p.proretset, p.prorettype::regtype, pg_get_function_sqlbody(p.oid), a, o.oprcom::regoperator,
    o.oprnegate::regoperator, o.oprrest, o.oprjoin, o.oprcanhash, t.typanalyze, t.typstorage, t.typalign, t.typcategory, t.typispreferred,
    c.castcontext
FROM pg_depend d LEFT JOIN pg_proc p ON p.oid = objid LEFT JOIN pg_aggregate a ON a.aggfnoid = objid LEFT JOIN pg_operator o ON o.oid = objid
    LEFT JOIN pg_type t ON t.oid = objid LEFT JOIN pg_cast c ON c.oid = objid
WHERE d.deptype = 'e' AND d.refobjid = (SELECT oid FROM pg_extension WHERE extname = 'idset')
UNION ALL SELECT pg_describe_object('pg_amop'::regclass, oid, 0), VARIADIC_NULLS FROM pg_amop
    WHERE amopopr IN (SELECT objid FROM pg_depend WHERE deptype = 'e' AND classid = 'pg_operator'::regclass) ORDER BY 1"""
OBJECTS = OBJECTS.replace("VARIADIC_NULLS", ", ".join(["NULL"] * 24))


def answers(server, database):
    return server.rows("SET enable_seqscan = off;\n" + ";\n".join(ASKED), database)


def unused(server, database):
    """The indexes that do not answer their question."""
    for sql, index in ASKED.items():
        plan = server.rows(f"SET enable_seqscan = off; EXPLAIN {sql}", database) if index else ""
        if index and f" {index} " not in plan.replace("\n", " "):
            yield index


def dumped(extension, server, database, to):
    """Restores a dump of a database in a new one. Returns the status of psql."""
    dump = run(extension.programs.path("pg_dump"), database, env=server.known).stdout
    server.rows(f"CREATE DATABASE {to}")
    return server.psql(dump, to)[1]


def objects(server, database):
    return server.rows(OBJECTS, database).split("\n")


def version(server, database):
    return server.rows("SELECT extversion FROM pg_extension WHERE extname = 'idset'", database)


def checks(extension, server):
    newest = bytes_of("postgres/idset.control").decode().split("default_version = '")[1].split("'")[0]
    server.rows("CREATE DATABASE updated; CREATE DATABASE fresh; CREATE DATABASE lacking")
    server.rows(f"CREATE EXTENSION idset VERSION '1.0'; {DATA}", "updated")
    before, old = answers(server, "updated"), objects(server, "updated")
    restored = [dumped(extension, server, "updated", "restored_old"), version(server, "restored_old"), answers(server, "restored_old")]
    yield "a dump of 1.0 is restored by the newest version", other(restored, [0, newest, before])
    server.rows("ALTER EXTENSION idset UPDATE", "updated")
    yield "1.0 is updated", other([version(server, "updated"), answers(server, "updated")], [newest, before])
    yield "indexes after the update", other([*unused(server, "updated")], [])
    server.rows("ANALYZE; REINDEX TABLE kept", "updated")
    yield "answers of new indexes and statistics", other([answers(server, "updated"), *unused(server, "updated")], [before])
    restored = [dumped(extension, server, "updated", "restored_new"), answers(server, "restored_new")]
    yield "a dump after the update is restored", other(restored, [0, before])
    server.rows("CREATE EXTENSION idset", "fresh")
    new = objects(server, "fresh")
    yield "an updated extension has the objects of a new one", other(objects(server, "updated"), new)
    names = [{it.partition("|")[0] for it in its} for its in (old, new)]
    yield "no object of 1.0 that others use is gone", other(sorted(names[0] - names[1]), ["function idset_rows(internal)"])
    place = f"{extension.programs.folder}{pg_server.config('sharedir')}/extension"
    scripts = [bytes_of(f"{extension.sources}/{it}").decode() for it in re.findall(r"idset--[\d.-]+\.sql", source("postgres/Makefile"))]
    wrong = "".join(it.partition("\\quit")[2] for it in scripts).replace("COST 20", "COST 21", 1)
    written(place, {"idset--wrong.sql": wrong})
    server.rows("CREATE EXTENSION idset VERSION 'wrong'", "lacking")
    yield "a base script with another cost is found", None if objects(server, "lacking") != new else "it is not"
