#!/usr/bin/env python3
"""Builds the extension of postgres/ as docs/POSTGRES.md says, and installs it in a copy of the server's programs in a temporary folder. There it
starts servers as a user that is not root, which listen on sockets alone, and

- runs postgres/sql/ by `make installcheck`, with data checksums, without, and with the address sanitizer;
- reads the tables of vectors/, makes the longest values, and runs the examples of the page;
- runs the checks of pg_faults.py, pg_memory.py, pg_planner.py, pg_update.py and pg_wrong.py.

It is left out without PostgreSQL 15 and its header files.
"""
import os
import re
import shutil
import sys
import tempfile

sys.path.insert(1, f"{sys.path[0]}/..")
from common import leave_out, run, source
import archives
from files import bytes_of, other
import install
import pg_faults
import pg_memory
import pg_planner
import pg_server
import pg_update
import pg_wrong
import rows
from pg_server import Programs, Server

PAGE = "docs/POSTGRES.md"
# Catches the error of a cast from bytea.
SAID = """CREATE FUNCTION said_{0}(bytes bytea) RETURNS text LANGUAGE plpgsql AS
'BEGIN RETURN bytes::{0}::text; EXCEPTION WHEN OTHERS THEN RETURN SQLSTATE || '' '' || SQLERRM; END';"""
# The most ids of ten digits whose text has at most 1,000,000,000 bytes.
MOST_IDS = 90_909_090
# What the address sanitizer is told, and functions in place of those that translate, which wait for ever in a program that it was loaded into.
SANITIZED = {"ASAN_OPTIONS": "detect_leaks=0"}
UNTRANSLATED = """char *bindtextdomain(const char *domain, const char *folder) { return (char *)folder; }
char *textdomain(const char *domain) { return (char *)domain; }
char *gettext(const char *text) { return (char *)text; }
char *dgettext(const char *domain, const char *text) { return (char *)text; }
char *dcgettext(const char *domain, const char *text, int kind) { return (char *)text; }
"""


class Extension:
    """The extension built in a folder, for servers that are started there."""

    def __init__(self, folder, archive=f"{archives.OUT}/{archives.ALL}"):
        self.folder, self.prefix, self.sources, self.servers = folder, f"{folder}/prefix", f"{folder}/postgres", []
        os.chmod(folder, 0o755)
        install.install(self.prefix, archive)
        self.programs = Programs(f"{folder}/programs")
        os.mkdir(f"{folder}/servers")
        pg_server.handed_over(f"{folder}/servers")
        pg_server.copied_sources(self.sources)

    def make(self, *words, sources=None, **more):
        return self.programs.make(sources or self.sources, *words, prefix=self.prefix, **more)

    def built(self, sources=None, *more):
        """What is wrong with building and installing, or None. A warning is wrong."""
        for words in [[], ["install"]]:
            done = self.make(*words, *more, sources=sources)
            if done.returncode != 0 or done.stdout.strip():
                return done.stdout[-3000:] or "make failed"
        pg_server.handed_over(sources or self.sources)
        return None

    def server(self, *given, **more):
        self.servers.append(Server(self.programs, f"{self.folder}/servers", *given, **more))
        return self.servers[-1]

    def installcheck(self, server, sources=None, only=None):
        """The files of postgres/sql/, each as a name and why it failed, or None."""
        sources = sources or self.sources
        done = self.make("installcheck", *[f"REGRESS={only}"] * bool(only), sources=sources, env=server.known, **pg_server.account())
        found = dict(re.findall(r"^test (\w+) +\.\.\. (\w+)", done.stdout, re.M))
        differences = f"{sources}/regression.diffs"
        said = bytes_of(differences).decode()[:3000] if os.path.exists(differences) else done.stdout[-2000:]
        for name in [only] if only else re.search(r"^REGRESS = (.*)", source("postgres/Makefile"), re.M)[1].split():
            yield f"postgres/sql/{name}.sql", None if found.get(name) == "ok" else said


def library(extension):
    """The checks of idset.so."""
    path = f"{extension.programs.folder}{pg_server.config('pkglibdir')}/idset.so"
    named = run("nm", "-D", "--defined-only", path).stdout.split()[2::3]
    others = [it for it in named if not re.match(r"(pg_finfo_)?idset8?_|Pg_magic_func$", it)]
    yield "the names of idset.so", f"it exports {others}" if others or not named else None


def fault_texts():
    """The text of each fault by its number, as the header of C has them, without the point at the end."""
    header = source("include/bitpacking.h")
    numbers = dict(re.findall(r"#define (BITPACKING_\w+) \((-\d+)\)", header))
    return {int(numbers[name]): text[:-1] for name, text in re.findall(r'case (BITPACKING_\w+):\s+return "(.*)";', header)}


def compared(what, server, before, asked):
    """Whether each query says what it has to: pairs of a query and an answer."""
    said = server.rows(before + "".join(f"{sql};\n" for sql, _ in asked)).split("\n")
    wrong = [(sql[:300], answer[:300]) for (sql, wanted), answer in zip(asked, said) if answer != wanted]
    few = len(asked) < 300 or len(asked) != len(said)
    yield what, f"{len(wrong)} of {len(asked)}, {len(said)} answers, first {wrong[:1]}" if wrong or few else None


def vectors(server):
    """The tables of vectors/: sets with their ids, and refused bytes with the text of the fault."""
    texts = fault_texts()
    for kind, sets, refused in [("idset", "id_sets", "refused_id_sets"), ("idset8", "wide_sets", "refused_wide_sets")]:
        asked = []
        for row in rows.table(f"{sets}.tsv"):
            data, ids = rows.octets(row["bytes"]), "{" + ",".join(map(str, rows.spelled_ids(row["ids"]))) + "}"
            value = f"'\\x{data.hex()}'::bytea::{kind}"
            numbers = f"{value}::int8[] = '{ids}'" if kind == "idset" else f"{value}::text = '{ids}'"
            asked.append((f"SELECT {numbers} AND '{ids}'::{kind}::bytea = '\\x{data.hex()}'", "t"))
        yield from compared(f"the sets of vectors/{sets}.tsv", server, "", asked)
        asked = []
        for row in rows.table(f"{refused}.tsv"):
            fault = f"22P03 invalid {kind}: {texts[-20 - int(row['number'])]}"
            asked.append((f"SELECT said_{kind}('\\x{rows.octets(row['bytes']).hex()}')", fault))
        yield from compared(f"the bytes of vectors/{refused}.tsv", server, SAID.format(kind), asked)


def varint(number):
    return bytes([number % 128 + 128]) + varint(number // 128) if number > 127 else bytes([number])


def long_set(first, chunk=64148, count=1388):
    """The bytes of a set, as docs/FORMAT.md has them: the first ids of a chunk, as many as `first` says, and whole chunks after it, so that it has
    `count`. Each is a run. The usual ones end with the greatest id, and have ids of ten digits."""
    bodies = [b"\x01\xff\0\0" + first.to_bytes(2, "little"), *[b"\x01\xff\0\0"] * (count - 1)]
    sums = [first + 65536 * it for it in range(count)]
    ends = [6 + 4 * it for it in range(count)]
    parts = [(chunk + it).to_bytes(2, "little") for it in range(count)]
    parts += [it.to_bytes(2, "little") for it in ends] + [it.to_bytes(4, "little") for it in sums]
    return b"\x05" + varint(sums[-1]) + varint(count) + b"\x42" + b"".join(parts + bodies)


def longest(server):
    """The longest text of a value: one of MOST_IDS ids is made, in each way, and none of an id more."""
    first = MOST_IDS - 65536 * 1387
    fits, longer = (f"'\\x{long_set(first + it).hex()}'::bytea" for it in (0, 1))
    said = server.rows(f"SELECT cardinality({fits}::idset), max({fits}::idset)")
    yield "the longest text is taken", other(said, f"{MOST_IDS}|4294967295")
    before, value = "SET statement_timeout = 100;\nSELECT 1", f"(SELECT {fits}::idset AS ids OFFSET 0) q"
    yield "writing it is cancelled", pg_memory.not_cancelled(server, before, "length(ids::text)", value, "postgres")
    wanted = f"the text of the idset would have {11 * (MOST_IDS + 1) + 1} bytes"
    for name, sql in {"from bytes": f"{longer}::idset", "by a call": f"{fits}::idset | 1000000000"}.items():
        said, status = server.psql(f"SELECT cardinality({sql})")
        yield f"a longer one is refused {name}", None if status != 0 and wanted in said else said[-500:]


def many_ids(server):
    """Five sets of 65,535,999 ids each have more than a set may have: they are counted, and may cancel out."""
    sets = ", ".join(f"({it}, '\\x{long_set(65535, 1000 * it, 1000).hex()}'::bytea)" for it in range(5))
    server.rows(f"CREATE TABLE wide AS SELECT n, bytes::idset AS ids FROM (VALUES {sets}) v(n, bytes)")
    twice = "(SELECT * FROM wide UNION ALL SELECT * FROM wide WHERE n > 0) q"
    said = server.rows(
        f"SELECT unite_len_agg(ids), intersect_len_agg(ids) FROM wide; SELECT symmetric_difference_len_agg(ids) FROM {twice}"
    )
    yield "more ids than a set has are counted", other(said, "327679995|0\n65535999")
    for call in ("unite_agg(ids)", "symmetric_difference_agg(ids)"):
        said, status = server.psql(f"SELECT min({call}) FROM wide")
        yield f"{call} of more is refused", None if status != 0 and "here are more than 268435456 values" in said else said[-500:]


def owned(server):
    """The owner of a database may add the extension to it, without other rights."""
    server.rows("CREATE ROLE owner LOGIN; CREATE DATABASE owned OWNER owner")
    said = server.psql("SET SESSION AUTHORIZATION owner; CREATE EXTENSION idset; SELECT cardinality('{1,2}'::idset)", "owned")[0]
    yield "the owner of a database adds the extension", other(said, "2")


def examples():
    """The statements of the page, each with what it prints there: a statement comes after `=> `, further lines of it after `-> `."""
    found = []
    for block in re.findall(r"(?m)(?:^    .*\n)+", source(PAGE)):
        for line in block.splitlines() if block.startswith("    => ") else ():
            if line.startswith("    => "):
                found.append([line[7:], []])
            elif line.startswith("    -> "):
                found[-1][0] += "\n" + line[7:]
            else:
                found[-1][1].append(line[4:])
    return found


def page(server):
    """The examples of the page, in one session of psql."""
    server.rows("CREATE DATABASE page")
    asked = examples()
    said, _ = server.psql("".join(f"{sql}\n\\echo @@\n" for sql, _ in asked), "page", "-v", "ON_ERROR_STOP=0")
    parts = said.split("@@")
    for number, (sql, wanted) in enumerate(asked):
        got = parts[number].strip("\n").split("\n") if number < len(parts) else []
        got = [re.sub("^psql:<stdin>:\\d+: ", "", line) for line in got if line]
        yield f"{PAGE}: {sql}", other(got, wanted)


def sanitizer(extension):
    """What a server that the address sanitizer is loaded into needs in its environment, or None if cc has none."""
    library, plain = run("cc", "-print-file-name=libasan.so").stdout.strip(), f"{extension.folder}/untranslated.so"
    done = run("cc", "-w", "-shared", "-fPIC", "-xc", "-", "-o", plain, input=UNTRANSLATED)
    return SANITIZED | {"LD_PRELOAD": f"{os.path.realpath(library)}:{plain}"} if os.path.isabs(library) and done.returncode == 0 else None


def reported(server):
    """What the address sanitizer wrote to the server's log, or None."""
    found = re.search(r"AddressSanitizer: .*(\n.*){8}", bytes_of(server.log).decode(errors="replace"))
    return found and found[0]


def sanitized(extension):
    """The files of postgres/sql/ over a build with the address sanitizer."""
    known, sources = sanitizer(extension), f"{extension.folder}/sanitized"
    if not known:
        leave_out("PostgreSQL with the address sanitizer", "since cc has no libasan.so")
        return
    shutil.copytree(extension.sources, sources, ignore=shutil.ignore_patterns("*.o", "*.so", "results", "regression.*"))
    words = "COPT=-Werror -O1 -fsanitize=address -fno-omit-frame-pointer"
    failed = extension.built(sources, words)
    yield "building with the address sanitizer", failed
    if failed:
        return
    server = extension.server(9, more=known).start()
    for name, why in extension.installcheck(server, sources):
        yield f"{name} with the address sanitizer", why
    yield "what the address sanitizer found", reported(server)
    server.stop()


def checks():
    with tempfile.TemporaryDirectory(prefix="pg-") as folder:
        extension = Extension(folder)
        failed = extension.built()
        yield "building the extension", failed
        if failed:
            return
        yield from library(extension)
        first = extension.server()
        try:
            first.start()
            yield from extension.installcheck(first)
            first.rows("CREATE EXTENSION idset")
            yield from vectors(first)
            yield from longest(first)
            yield from many_ids(first)
            yield from owned(first)
            yield from page(first)
            yield from pg_update.checks(extension, first)
            yield from pg_planner.checks(first)
            yield from pg_faults.checks(extension, first)
            first.stop()
            bare = extension.server(8, checksums=False).start(shared_buffers="16MB", work_mem="64MB")
            for name, why in extension.installcheck(bare):
                yield f"{name} without data checksums", why
            yield from pg_memory.checks(bare)
            yield from pg_wrong.checks(extension, bare)
            bare.stop()
            yield from sanitized(extension)
        finally:
            for server in extension.servers:
                server.stop()


if __name__ == "__main__":
    sys.exit(archives.reported("the PostgreSQL extension", checks, "cc", "make", "nm", others=pg_server.lacking()))
