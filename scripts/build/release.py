#!/usr/bin/env python3
"""Builds a release into out/release/, and uses each of its files as someone does who has nothing else:

    bitpacking-VERSION-linux-PROCESSOR.tar.gz        what scripts/build/bundle.py writes, for x86_64 and aarch64
    fimulowen-VERSION-cp311-abi3-linux_x86_64.whl    the Python package
    SHA256SUMS                                       for `sha256sum -c SHA256SUMS`

VERSION is that of CHANGELOG.md, and the files are those of the last commit. They are put in place of those of an earlier release only if
all of them can be used: each bundle in an empty folder; the wheel in a new environment, without an index; and the checksums. What is
compiled may not name a folder of this machine. With --in-check nothing is put in place, and what a tool or a commit is missing for is left
out. The status is 0, 1 if something failed, or 2 if a tool is missing.
"""
import glob
import os
import re
import shutil
import sys
import tarfile
import tempfile

sys.path.insert(1, f"{sys.path[0]}/..")
from common import ROOT, leave_out, missing, report, run, source, version, words
import archives
import bundle
import c
import choosing
from files import failed, printed
import python
import sqlite

OUT = f"{ROOT}/out/release"
SUMS = "SHA256SUMS"
PROGRAM, PRINTS = "examples/id_set.c", c.PROGRAMS["examples/id_set.c"]
IN_PYTHON = "import fimulowen; ids = fimulowen.IdSet([7, 9, 10, 300]); print(fimulowen.__version__, ids.nbytes, ids.seek(100))"
# The first commands of this page find documents of a folder.
SEARCH, FINDS = "examples/search/README.md", "docs/"
# What compiles C programs for each processor, and what runs them.
BY_PROCESSOR = {"x86_64": ("cc", []), "aarch64": (c.CROSS, [c.QEMU])}


def named_folders(top):
    """The libraries below a folder that name the folder of the repository or of the toolchain."""
    toolchain = [os.path.dirname(os.path.dirname(os.path.realpath(path))) for path in [shutil.which("rt")] if path]
    for at, _, names in os.walk(top):
        for path in (f"{at}/{name}" for name in names if re.search(r"\.(a|so)(\.\d+)?$", name)):
            with open(path, "rb") as file:
                text = file.read()
            yield from (f"{os.path.relpath(path, top)} names {it}" for it in [ROOT, *toolchain] if it.encode() in text)


def wheel(folder):
    """Builds the wheel into a folder. The checks of it, in an environment of its own."""
    chosen, lack = python.chosen()
    if not chosen:
        leave_out("the wheel", f"since there is no {' and no '.join(lack)}")
        return
    with tempfile.TemporaryDirectory(prefix="release-") as room:
        package = python.Package(room, chosen)
        done = run(sys.executable, f"{ROOT}/scripts/build/install.py", package.prefix)
        yield "the library for the wheel", failed(done)
        yield "the wheel", package.call(chosen, "-m", "build", "--no-isolation", "--wheel", "--outdir", folder)
        found = glob.glob(f"{folder}/*.whl")
        yield "a new environment", package.call(chosen, "-m", "venv", "--system-site-packages", package.room)
        yield "installing the wheel", package.call(f"{package.room}/bin/python", "-m", "pip", "install", "--no-deps", *found)
        yield "the folders that the wheel names", ", ".join(named_folders(package.room)) or None
        done = run(f"{package.room}/bin/python", "-c", IN_PYTHON, folder=room)
        yield "a program over the wheel", printed(done, f"{version()} 7 (3, 300)\n")


def unpacked(path, processor):
    """The checks of a bundle, unpacked in an empty folder."""
    compiler, runner = BY_PROCESSOR[processor]
    lacking = missing(compiler, *runner[:1])
    with tempfile.TemporaryDirectory(prefix="release-") as room:
        with tarfile.open(path) as packed:
            packed.extractall(room, filter="data")
        top, prefix = f"{room}/{bundle.name_of(processor)}", f"{room}/prefix"
        yield f"the folder of {os.path.basename(path)}", None if os.path.isdir(top) else f"it is {os.listdir(room)}"
        yield f"the folders that the archives for {processor} name", ", ".join(named_folders(top)) or None
        if lacking:
            leave_out(f"programs over the bundle for {processor}", f"since there is no {' and no '.join(lacking)}")
            return
        level = [] if processor == "x86_64" else ["--level", archives.ARM]
        done = run(sys.executable, f"{top}/scripts/build/install.py", prefix, *level, folder=room, env=dict(os.environ, CC=compiler))
        yield f"installing it for {processor}", failed(done)
        names = [f"-I{prefix}/include", f"{top}/{PROGRAM}", f"{prefix}/lib/libbitpacking.a"]
        made = run(compiler, "-static", *names, "-o", f"{room}/program")
        done = made if made.returncode else run(*runner, f"{room}/program")
        yield f"{PROGRAM} over it for {processor}", printed(done, PRINTS)
        if processor == "x86_64":
            yield f"the first commands of {SEARCH} in it", in_search(top)
            yield from in_postgres(top)
            yield from in_sqlite(top)


def in_search(top):
    """What is wrong with the first commands of the search engine in a bundle, which install the library into the folder `prefix`, or None."""
    commands = re.search(r"(?:^    .*\n)+", source(SEARCH), re.M)[0]
    done = run("sh", "-e", "-c", commands, folder=top)
    return failed(done) or (None if FINDS in done.stdout else f"it printed {done.stdout}")


def in_postgres(top):
    """The PostgreSQL extension, made in a bundle over the library in its folder `prefix`."""
    lacking = missing("pg_config", "make")
    if lacking or not os.path.isfile(run("pg_config", "--pgxs").stdout.strip()):
        leave_out("the PostgreSQL extension over the bundle", f"since there is no {' and no '.join(lacking) or 'postgresql-server-dev-15'}")
        return
    done = run("make", "-C", "postgres", "BITPACKING=prefix", folder=top, env=dict(os.environ, PWD=top))
    yield "making the PostgreSQL extension in it", failed(done)
    yield "the PostgreSQL extension that was made", None if os.path.isfile(f"{top}/postgres/idset.so") else "there is none"


def in_sqlite(top):
    """The SQLite extension, made in a bundle over the library in its folder `prefix`."""
    lacking = missing("make", "sqlite3") + [it for it in [sqlite.HEADER] if not os.path.exists(it)]
    if lacking:
        leave_out("the SQLite extension over the bundle", f"since there is no {' and no '.join(lacking)}")
        return
    yield "making the SQLite extension in it", sqlite.built(top)
    done = run("sqlite3", folder=top, input=".load sqlite/idset\nSELECT idset_len(idset('[7,9,10,300]'));\n")
    yield "the SQLite extension that was made", printed(done, "4\n")


def sums(folder):
    """Writes the checksums of all files of a folder. The check of them."""
    done = run("sha256sum", *sorted(os.listdir(folder)), folder=folder)
    choosing.written(f"{folder}/{SUMS}", done.stdout)
    yield "the checksums", failed(run("sha256sum", "--check", "--quiet", SUMS, folder=folder))


def checks(folder):
    for processor in bundle.ARCHIVES:
        yield from unpacked(bundle.write(folder, processor), processor)
    yield from wheel(folder)
    yield from sums(folder)


def put_in_place(folder):
    """Replaces the last release by a copy of a folder, once that is whole, and says what is there."""
    shutil.rmtree(f"{OUT}.new", ignore_errors=True)
    shutil.copytree(folder, f"{OUT}.new")
    os.chmod(f"{OUT}.new", 0o755)
    shutil.rmtree(OUT, ignore_errors=True)
    os.rename(f"{OUT}.new", OUT)
    print(f"released in {OUT}:", *sorted(os.listdir(OUT)))


def released(folder, checks, in_check=False):
    """Puts the files of a folder in place, if all checks of them pass. Returns the status."""
    status = report(checks)
    if status == 0 and not in_check:
        put_in_place(folder)
    return status


def main():
    in_check = "--in-check" in words("--in-check")
    if why := bundle.why_not(in_check):
        print(f"release.py: {why}", file=sys.stderr)
        return 1
    tools = ["cargo", "sha256sum", "pg_config", "make", "sqlite3"]
    lacking = missing(*tools, *(it for compiler, runner in BY_PROCESSOR.values() for it in [compiler, *runner]))
    if not in_check and (lacking := lacking + python.chosen()[1]):
        print(f"release.py: there is no {' and no '.join(lacking)}, and nothing was built", file=sys.stderr)
        return 2
    status = archives.status_without("the release", "cc", "sha256sum")
    if status is not None:
        return status
    with tempfile.TemporaryDirectory(prefix="release-") as folder:
        return released(folder, checks(folder), in_check)


if __name__ == "__main__":
    sys.exit(main())
