"""Wrong versions of the PostgreSQL extension, which its tests have to refuse: checks of scripts/test/postgres.py. The library of each takes the place of
the right one for new sessions of a server, and then a file of postgres/sql/, or a check, has to fail."""

import os
import shutil
import threading

from files import failed
import pg_memory
import pg_planner
import pg_server
import trying


def installed(extension, sources):
    """Puts a library in place of the one that new sessions load."""
    path = f"{extension.programs.folder}{pg_server.config('pkglibdir')}/idset.so"
    shutil.copy(f"{sources}/idset.so", f"{path}.new")
    os.rename(f"{path}.new", path)


def fails(extension, server, sources, what, came):
    """Whether a file of postgres/sql/ or a check fails."""
    if os.path.exists(f"{sources}/sql/{what}.sql"):
        found = extension.installcheck(server, sources, what)
    elif what == "estimates":
        server.rows("ANALYZE", "planned")
        found = pg_planner.estimates(server, "planned", came)
    elif what == "plans":
        found = pg_planner.plans(server, "planned")
    else:
        found = getattr(pg_memory, what)(server)
    return any(why is not None for _, why in found)


def checks(extension, server):
    """Tries the wrong changes, of which the server has one at a time."""
    came, alone = pg_planner.loaded(server, "planned"), threading.Lock()

    def copied(room):
        shutil.copytree(extension.sources, f"{room}/postgres", ignore=shutil.ignore_patterns("results", "regression.*", "*.so"))

    def built(room):
        done = extension.make(sources=f"{room}/postgres")
        pg_server.handed_over(room)
        return failed(done)

    def failing(room, tests):
        with alone:
            installed(extension, f"{room}/postgres")
            found = [it for it in tests if fails(extension, server, f"{room}/postgres", it, came)]
            # A wrong version may crash it.
            server.ready()
            return found

    yield from trying.each("postgres", copied, built, failing, at_once=2)
    installed(extension, extension.sources)
