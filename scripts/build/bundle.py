"""The bundles of a release, for those who have no rt: a file for each processor, such as bitpacking-2.0.0-linux-x86_64.tar.gz. It has the
header, the archives for the processor, the sources of the Rust crate, the Python package, the PostgreSQL and SQLite extensions, the examples,
the vectors, the licence, all pages, and scripts/build/install.py.

The files lie as in the repository, in a folder with the name of the bundle, so that the commands of the pages work there, but for those
that build and check. They are those of the last commit: if git reports a change, or a file that it does not track, nothing is written. The
same files give the same bytes.
"""
import glob
import os

from common import ROOT, called, missing, run, version
import archives

PAGES = ["LICENSE", "README.md", "CHANGELOG.md", "CONTRIBUTING.md", "docs/*.md", "docs/*.svg", "crates/*/README.md", "rust/*.md"]
FILES = [*PAGES, "include/*.h*", "c/symbols.c", "vectors/*.tsv", "vectors/*decoders.py", "examples/*.c*"]
FILES += [*(f"examples/{it}/**/*.*" for it in ("search", "numbers", "web")), "examples/dask/*.*"]
FILES += ["Cargo.toml", "Cargo.lock", "crates/*/src/**/*.rt", "rust/c/*.*"]
FILES += [f"rust/{it}/**/*.rs" for it in ("src", "translate/src", "examples", "vectors")]
FILES += ["python/*.md", "python/pyproject.toml", "python/setup.py", "python/src/core/*.[ch]", "python/src/fimulowen/*.py*"]
FILES += ["python/src/fimulowen/py.typed", "python/tests/*.py"]
FILES += [f"postgres/{it}" for it in ("Makefile", "idset*.sql", "idset.control", "src/*.[ch]", "sql/*.sql", "expected/*.out")]
FILES += ["sqlite/Makefile", "sqlite/src/*.[ch]", "sqlite/tests/*.py"]
# PROOFS links the scripts of its last rows.
FILES += ["scripts/lint/*.py", "scripts/common.py"]
FILES += [f"scripts/build/{it}.py" for it in ("install", "archives", "by_cargo", "choosing", "proving")]
# The archives of each processor, by the name that `uname -m` gives it.
ARCHIVES = {"x86_64": ["rust/out/libbitpacking.a", "rust/out/x86-64*/*.a"], "aarch64": ["rust/out/aarch64*/*.a"]}


def name_of(processor):
    """The name of a bundle, and of the folder that it unpacks to."""
    return f"bitpacking-{version()}-linux-{processor}"


def changed():
    """What the repository has otherwise than in its last commit, a line for each file, as git reports it."""
    if missing("git"):
        return ["there is no git to ask"]
    done = run("git", "status", "--porcelain", "--untracked-files=all")
    return done.stdout.splitlines() if done.returncode == 0 else [done.stdout]


def paths(processor):
    """The files of a bundle, by their paths in the repository: archives, and others only if git tracks them."""
    tracked = run("git", "ls-files", "-z", *(f":(glob){form}" for form in FILES)).stdout.split("\0")
    built = {it for form in ARCHIVES[processor] for it in glob.glob(form, root_dir=ROOT)}
    return sorted(built.union(it for it in tracked if os.path.isfile(f"{ROOT}/{it}")))


def write(folder, processor):
    """Writes the bundle of a processor into a folder, as anyone would write it at any time. Returns its path."""
    path = f"{folder}/{name_of(processor)}.tar.gz"
    like = ["--format=ustar", "--owner=0", "--group=0", "--numeric-owner", "--mtime=@0", "--mode=u=rwX,go=rX"]
    like += [f"--transform=s,^,{name_of(processor)}/,", "--use-compress-program=gzip -9n"]
    called("tar", *like, "--create", f"--file={path}", "--null", "--files-from=-", input="\0".join(paths(processor)))
    return path


def why_not(in_check=False):
    """Why no bundle can be written, or None."""
    if not in_check and changed():
        return f"this is not in the last commit: {changed()[0]}"
    return "the archives are not proved: scripts/build/archives.py builds those that are" if archives.are_fast() else None
