"""A PostgreSQL server of its own for tests: its programs are copied into a temporary folder, so that an extension is installed there without
root, and it runs as a user that is not root, listens on a socket in the folder, and opens no port. It is Debian's server of version 15, or the
one that PG_CONFIG names."""

import os
import pwd
import shutil
import signal
import subprocess
import time

from common import ROOT, run
import bundle
from files import bytes_of, failed, written

PG_CONFIG = os.environ.get("PG_CONFIG") or "/usr/lib/postgresql/15/bin/pg_config"
# What a server with extensions has.
NEEDED = ["bindir:postgres", "bindir:pgbench", "bindir:psql", "pkglibdir:postgres_fdw.so", "pgxs:", "includedir-server:postgres.h"]
SETTINGS = {"listen_addresses": "", "jit": "off", "max_connections": "120", "shared_buffers": "64MB", "fsync": "off", "autovacuum": "off"}
PATIENCE = 240


def config(name):
    """A folder or file of the server, by the name that pg_config has for it."""
    return run(PG_CONFIG, f"--{name}").stdout.strip()


def lacking():
    """What is missing for a server with extensions."""
    paths = [PG_CONFIG]
    if os.path.exists(PG_CONFIG):
        paths = [f"{config(name)}/{file}".rstrip("/") for name, file in (it.split(":") for it in NEEDED)]
    return [it for it in paths if not os.path.exists(it)]


def account():
    """The user that servers run as, in the words of subprocess: none if this is not root already."""
    if os.geteuid() != 0:
        return {}
    known = {it.pw_name: it for it in pwd.getpwall()}
    user = known.get("postgres") or known["nobody"]
    return {"user": user.pw_uid, "group": user.pw_gid, "extra_groups": []}


def handed_over(path):
    """Gives a folder and all in it to the user that servers run as."""
    to = account()
    for folder, _, files in os.walk(path) if to else ():
        for it in [folder, *(f"{folder}/{file}" for file in files)]:
            os.chown(it, to["user"], to["group"], follow_symlinks=False)


class Programs:
    """The programs of the server in a folder, in which extensions are installed."""

    def __init__(self, folder):
        self.folder = folder
        for name in ["bindir", "pkglibdir", "sharedir"]:
            ignored = shutil.ignore_patterns("bitcode", "pgxs", "locale", "man", "doc")
            shutil.copytree(config(name), f"{folder}{config(name)}", symlinks=True, ignore=ignored, dirs_exist_ok=True)
        handed_over(folder)

    def path(self, program):
        return f"{self.folder}{config('bindir')}/{program}"

    def make(self, sources, *words, prefix, **more):
        """Runs make in the folder of an extension, for these programs."""
        given = [f"PG_CONFIG={PG_CONFIG}", f"DESTDIR={self.folder}", f"BITPACKING={prefix}", "with_llvm=no", "COPT=-Werror"]
        return run("make", "-s", *given, *words, folder=sources, **more)


class Server:
    """One server, with a folder for its data and its socket. `more` are variables of its environment."""

    def __init__(self, programs, folder, number=1, checksums=True, more=None):
        self.programs, self.data, self.port, self.socket = programs, f"{folder}/data{number}", 5430 + number, folder
        self.log, self.process, self.more = f"{folder}/log{number}", None, more or {}
        self.known = dict(os.environ, PGHOST=folder, PGPORT=str(self.port), PGUSER="postgres", PGDATABASE="postgres", LC_ALL="C")
        words = ["-D", self.data, "-U", "postgres", "-A", "trust", "-E", "UTF8", "--locale=C", "-N", *["--data-checksums"] * checksums]
        if why := failed(run(programs.path("initdb"), *words, folder=folder, env=self.known, **account())):
            raise RuntimeError(f"initdb failed: {why}")

    def start(self, **settings):
        """Starts the server, and waits until it answers."""
        given = SETTINGS | {"unix_socket_directories": self.socket, "port": self.port} | settings
        words = [word for name, value in given.items() for word in ("-c", f"{name}={value}")]
        with open(self.log, "ab") as log:
            how = {"cwd": self.socket, "env": os.environ | self.more, "stdin": subprocess.DEVNULL, "stdout": log, "stderr": log}
            command = [self.programs.path("postgres"), "-D", self.data, *words]
            self.process = subprocess.Popen(command, start_new_session=True, **how, **account())
        return self.ready()

    def ready(self):
        """Waits until the server answers, at its start or after one of its processes crashed."""
        for _ in range(10 * PATIENCE):
            if run(self.programs.path("pg_isready"), "-q", env=self.known).returncode == 0:
                return self
            if self.process.poll() is not None:
                break
            time.sleep(0.1)
        raise RuntimeError(f"the server did not start: {bytes_of(self.log).decode(errors='replace')[-2000:]}")

    def stop(self):
        """Ends the server, and the queries that run."""
        if self.process and self.process.poll() is None:
            self.process.send_signal(signal.SIGINT)
            self.process.wait(PATIENCE)

    def psql(self, sql, database="postgres", *words):
        """What psql prints for some SQL, with its errors, and its status."""
        command = [f"{config('bindir')}/psql", "-X", "-q", "-A", "-t", "-v", "ON_ERROR_STOP=1", "-d", database, *words]
        done = run(*command, input=sql, env=self.known)
        return done.stdout.rstrip("\n"), done.returncode

    def rows(self, sql, database="postgres"):
        """What psql prints. An error of the server ends the script."""
        said, status = self.psql(sql, database)
        if status != 0:
            raise RuntimeError(f"psql ended with status {status}: {said[-2000:]}")
        return said


def awaited(said, wanted):
    """What is still said after PATIENCE in place of what is wanted, or None."""
    for _ in range(10 * PATIENCE):
        if said() == wanted:
            return None
        time.sleep(0.1)
    return f"{said()} in place of {wanted}"


def copied_sources(to):
    """Copies the sources of the extension, as a bundle has them, for a user that is not root."""
    paths = [it for it in bundle.paths("x86_64") if it.startswith("postgres/")]
    written(to, {it.removeprefix("postgres/"): bytes_of(f"{ROOT}/{it}") for it in paths})
    handed_over(to)
