#!/usr/bin/env python3
"""Builds the extension of sqlite/ as docs/SQLITE.md says, and

- looks at what idset.so exports and needs;
- runs the tests of sqlite/tests/, and once more with the address sanitizer;
- runs the examples of the page in the shell sqlite3;
- tries wrong changes of the sources, each of which has to fail a test.

It takes the first Python, of the one that runs it and /usr/bin/python3, whose sqlite3 loads extensions, and that has pytest.
"""
import concurrent.futures
import os
import re
import shutil
import sqlite3
import sys
import tempfile

sys.path.insert(1, f"{sys.path[0]}/..")
from common import ROOT, leave_out, missing, run, source
import archives
import c
from files import failed, other
import install
import trying

PAGE, HEADER = "docs/SQLITE.md", "/usr/include/sqlite3ext.h"
# Seconds for a run of pytest, which has a tenth of a core beside proofs.
PATIENCE = 1800
# Those that take much memory or time, or measure these, which the sanitizer changes.
UNSANITIZED = ["limits.py::test_a_blob_of_500_megabytes", "limits.py::test_refused_memory", "limits.py::test_memory_is_given_back"]
UNSANITIZED += ["statements.py::test_a_constant_is_opened_once", "answers.py::test_sets_in_batches"]


def chosen(modules=("pytest",)):
    """A Python that loads extensions and has modules, or None."""
    asked = f"import sqlite3, {', '.join(['sys', *modules])}; sys.exit(not hasattr(sqlite3.Connection, 'enable_load_extension'))"
    for python in dict.fromkeys([sys.executable, "/usr/bin/python3"]):
        if os.path.exists(python) and run(python, "-c", asked).returncode == 0:
            return python
    return None


def lacking():
    """What the tests lack beside commands."""
    return [] if chosen() else ["Python with pytest whose sqlite3 loads extensions"], [] if os.path.exists(HEADER) else [HEADER]


def with_extensions():
    """Goes on in a Python that loads extensions, if this one does not."""
    if not hasattr(sqlite3.Connection, "enable_load_extension"):
        python = chosen(())
        os.execv(python, [python, *sys.argv]) if python else sys.exit("there is no Python whose sqlite3 loads extensions")


def copied(folder):
    """Copies the sources of the extension, and what its tests read, into a folder."""
    for name in ("sqlite", "vectors", "include"):
        shutil.copytree(f"{ROOT}/{name}", f"{folder}/{name}", ignore=shutil.ignore_patterns("*.o", "*.so", "__pycache__", ".*"))


def built(folder, *words, prefix="prefix"):
    """Makes the extension in its folder `sqlite`. Returns what is wrong, or None: a warning is wrong."""
    command = ["make", "-s", "-C", "sqlite", f"BITPACKING={prefix}", *(words or ["CFLAGS=-O2 -Werror"])]
    done = run(*command, folder=folder, env=dict(os.environ, PWD=folder))
    return failed(done) or other(done.stdout, "")


def pytest(python, folder, *words, **more):
    """How a run of pytest ended, over the extension in a folder. One that takes too long has status 124."""
    env = dict(os.environ, IDSET=f"{folder}/sqlite/idset", PYTHONDONTWRITEBYTECODE="1") | more
    return run(
        "timeout", str(PATIENCE), python, "-m", "pytest", "-q", "-p", "no:cacheprovider", *words, folder=f"{folder}/sqlite/tests", env=env
    )


def tested(kind, done):
    """What is wrong with tests that pytest ran, as their name and why, or None. None of them may be skipped."""
    skipped = re.search(r"\b\d+ (?:skipped|xfailed)\b.*", done.stdout)
    return f"the tests {kind}", failed(done) or (skipped and skipped[0])


def library(folder):
    """The checks of idset.so."""
    symbols = run("nm", "-D", f"{folder}/sqlite/idset.so").stdout.splitlines()
    yield "the names of idset.so", other([it.split()[-1] for it in symbols if re.search(" [TDB] ", it)], ["sqlite3_idset_init"])
    others = [
        it
        for it in (line.split()[-1] for line in symbols if " U " in line)
        if not re.match(r"(mem|str|qsort|abort|__stack_chk|__memcpy)", it)
    ]
    yield "what idset.so needs", f"it needs {others}" if others else None


def examples():
    """The examples of the page, each with what it prints there: one comes after `sqlite> `, further lines of it after `...> `."""
    found = []
    for block in re.findall(r"(?m)(?:^    .*\n)+", source(PAGE)):
        for line in block.splitlines() if block.startswith("    sqlite> ") else ():
            if line.startswith("    sqlite> "):
                found.append([line[12:], []])
            elif line.startswith("       ...> "):
                found[-1][0] += "\n" + line[12:]
            else:
                found[-1][1].append(line[4:])
    return found


def page(folder):
    """The examples of the page, in one session of the shell."""
    if missing("sqlite3"):
        leave_out("the examples of docs/SQLITE.md", "since there is no sqlite3")
        return
    asked = examples()
    said = run("sqlite3", folder=folder, input="".join(f"{sql}\n.print @@\n" for sql, _ in asked)).stdout
    parts = re.sub(r"error near line \d+:", "error:", said).split("@@\n")
    yield "examples", None if len(asked) > 10 and len(parts) == len(asked) + 1 else f"{len(asked)} have {len(parts)} parts"
    for (sql, wanted), got in zip(asked, parts):
        yield f"{PAGE}: {sql}", other(got.splitlines(), wanted)


def sanitized(python, folder):
    """The tests once more, over a build with the address sanitizer."""
    if not c.has_sanitizers():
        leave_out("the SQLite extension under the address sanitizer", "which cc does not have here")
        return
    copied(folder)
    flags = " ".join(["-g", "-O1", "-Werror", *c.SANITIZED])
    yield "building with the address sanitizer", built(folder, f"CFLAGS={flags}", prefix=f"{os.path.dirname(folder)}/prefix")
    known = {"LD_PRELOAD": run("cc", "-print-file-name=libasan.so").stdout.strip(), "PYTHONMALLOC": "malloc"}
    known |= {"ASAN_OPTIONS": "detect_leaks=0:exitcode=99", "UBSAN_OPTIONS": "print_stacktrace=1"}
    yield tested("with the address sanitizer", pytest(python, folder, *(f"--deselect=test_{it}" for it in UNSANITIZED), **known))


def wrong_changes(python, folder):
    """Tries the wrong changes side by side."""

    def copied_again(room):
        shutil.copytree(f"{folder}/sqlite", f"{room}/sqlite")
        for it in ("vectors", "include"):
            os.symlink(f"{folder}/{it}", f"{room}/{it}")

    again = lambda room: built(room, "CFLAGS=-O2 -w", prefix=f"{folder}/prefix")
    return trying.each("sqlite", copied_again, again, trying.by_pytest(lambda room, test: pytest(python, room, "-x", test)))


def checks():
    python = chosen()
    with tempfile.TemporaryDirectory(prefix="sqlite-") as folder:
        install.install(f"{folder}/prefix", f"{archives.OUT}/{archives.ALL}")
        copied(folder)
        why = built(folder)
        yield "building the extension", why
        if why:
            return
        yield from library(folder)
        with concurrent.futures.ThreadPoolExecutor(1) as pool:
            beside = pool.submit(lambda: [*sanitized(python, f"{folder}/sanitized")])
            yield tested("of sqlite/tests", pytest(python, folder))
            yield from page(folder)
            yield from wrong_changes(python, folder)
            yield from beside.result()


if __name__ == "__main__":
    sys.exit(archives.reported("the SQLite extension", checks, "cc", "make", "nm", others=sum(lacking(), [])))
