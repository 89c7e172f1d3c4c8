#!/usr/bin/env python3
"""Builds the package of python/ as its README says, from a folder that scripts/build/install.py wrote. It looks at the wheel, installs it in a
new virtual environment without an index, and runs there the tests of python/tests/ and the examples of the pages, whose types `mypy --strict`
has to accept, and MISTAKES, which it has to refuse. Then it builds and installs the package in one step with the address sanitizer, and runs
the tests once more, and builds it as in a clone, where cargo compiles the library first. Last, some wrong changes of the package have to fail a test of each file.

It takes the first Python, of the one that runs it and /usr/bin/python3, that is 3.11 or later with its header files, and has MODULES.
"""
import concurrent.futures
import doctest
import glob
import os
import re
import shutil
import sys
import tempfile
import zipfile

sys.path.insert(1, f"{sys.path[0]}/..")
from common import ROOT, leave_out, missing, run, source, version
import archives
import c
from files import failed, other, written
import install
import trying

MODULES = ["numpy", "hypothesis", "pytest", "setuptools", "wheel", "build", "pip", "ensurepip"]
PAGES = ["README.md", "docs/PYTHON.md", "docs/FROM-ROARING.md", "python/README.md"]
# Mistakes that type checkers have to see, one to a line.
MISTAKES = """\
from fimulowen import BM25, Column, IdSet, IdSet64, Query, Term, best, chain, unite
IdSet("abc")
IdSet(1.5)
IdSet([1.5])
IdSet.open(5)
IdSet.open("abc")
IdSet() | "abc"
IdSet().gather(5)
IdSet().contains(["1"])
IdSet().append([None])
IdSet64("abc")
IdSet64.open(5)
IdSet64([1]) < IdSet([2])
IdSet64() | "abc"
IdSet64().gather(5)
IdSet.pack_many("abc", [0])
Query("abc")
unite([1], 5)
Column("abc")
Column([0.5])
Column([1], True)
Column.open(5)
IdSet.of_mask([1, 2])
IdSet.groups("abc")
IdSet().mask("5")
IdSet().rank("5")
Term([1], [1], [[1] * 256], [0])
best([IdSet()], 10)
best([], "10")
BM25([0.5])
chain.pack("abc")
chain.unpack("abc", b"")
"""
# The line that is printed before cargo compiles the library.
PROGRESS = "fimulowen: cargo compiles the library, once, in about three minutes on four cores"
# Seconds for a run of pytest, which has a tenth of a core beside proofs.
PATIENCE = 1800


def lacking(python, modules):
    """What a Python lacks for tests that need these modules, one to a line."""
    asked = (
        "import importlib.util as u, os, sys, sysconfig\n"
        f"lack = [it for it in {modules} if not u.find_spec(it)] + ['Python 3.11'] * (sys.version_info < (3, 11))\n"
        "lack += ['Python.h'] * (not os.path.isfile(sysconfig.get_path('include') + '/Python.h'))\n"
        "print(*lack, sep='\\n')"
    )
    return [it for it in run(python, "-c", asked).stdout.split("\n") if it]


def chosen(modules=tuple(MODULES)):
    """A Python that lacks nothing, or None; and what the last one that was asked lacks."""
    lack = ["Python"]
    for python in dict.fromkeys([sys.executable, "/usr/bin/python3"]):
        if os.path.exists(python):
            lack = lacking(python, list(modules))
            if not lack:
                return python, []
    return None, lack


class Package:
    """The package in a folder of its own."""

    def __init__(self, folder, python):
        self.folder, self.python = folder, python
        self.sources, self.prefix, self.room = f"{folder}/python", f"{folder}/prefix", f"{folder}/environment"
        built = shutil.ignore_patterns("build", "dist", "*.egg-info", "__pycache__", ".*")
        shutil.copytree(f"{ROOT}/python", self.sources, ignore=built)
        shutil.copytree(f"{ROOT}/vectors", f"{folder}/vectors", ignore=built)
        self.environment = dict(os.environ, BITPACKING=self.prefix, PIP_NO_INDEX="1", PIP_DISABLE_PIP_VERSION_CHECK="1")

    def call(self, *command, **more):
        """What is wrong with a command, or None."""
        return failed(run(*command, folder=self.sources, env=self.environment | more))

    def pytest(self, *words, **more):
        """How a run of pytest ended. One that takes too long has status 124."""
        command = [f"{self.room}/bin/python", "-m", "pytest", "-q", "-p", "no:cacheprovider", *words]
        return run("timeout", str(PATIENCE), *command, folder=self.sources, env=self.environment | more)

    def tested(self, kind, *words, **more):
        """What is wrong with tests that pytest runs, as their name and why, or None. None of them may be skipped."""
        done = self.pytest(*words, **more)
        skipped = re.search(r"\b\d+ (?:skipped|xfailed)\b.*", done.stdout)
        return f"the tests {kind}", failed(done) or (skipped and skipped[0])


def wheel_of(package):
    """The checks of the wheel, each as a name and what is wrong, or None."""
    yield "the wheel", package.call(package.python, "-m", "build", "--no-isolation", "--wheel")
    found = glob.glob(f"{package.sources}/dist/*.whl")
    form = rf"fimulowen-{re.escape(version())}-cp311-abi3-linux_\w+\.whl"
    named = len(found) == 1 and re.fullmatch(form, os.path.basename(found[0]))
    yield "the name of the wheel", None if named else f"there is {found}"
    if not named:
        return
    with zipfile.ZipFile(found[0]) as wheel:
        names = {it.removeprefix("fimulowen/") for it in wheel.namelist() if it.startswith("fimulowen/")}
        wheel.extractall(f"{package.folder}/wheel")
    own = {it for it in os.listdir(f"{ROOT}/python/src/fimulowen") if it.endswith((".py", ".pyi", ".typed"))} | {"_core.abi3.so"}
    yield "the files of the wheel", other(names, own)
    symbols = run("nm", "-D", f"{package.folder}/wheel/fimulowen/_core.abi3.so").stdout.splitlines()
    yield "the names of the extension", other([it.split()[-1] for it in symbols if re.search(" [TDB] ", it)], ["PyInit__core"])
    needed = [line.split()[-1] for line in symbols if " U " in line]
    others = [it for it in needed if not re.match(r"_?Py|mem|str|__stack_chk|__memcpy_chk|abort|(m|c|re)alloc|free", it)]
    yield "what the extension needs", None if not others and needed else f"it needs {others}"
    yield "a new environment", package.call(package.python, "-m", "venv", "--system-site-packages", package.room)
    yield "installing the wheel", package.call(f"{package.room}/bin/python", "-m", "pip", "install", "--no-deps", found[0])


def typed(package):
    """Whether mypy accepts the examples of each page, each as a name and what is wrong, or None."""
    if missing("mypy"):
        leave_out("the types of the examples in the pages", "since there is no mypy")
        return
    for page in PAGES:
        written(package.folder, {"typed.py": "".join(it.source for it in doctest.DocTestParser().get_examples(source(page)))})
        python = f"--python-executable={package.room}/bin/python"
        yield f"the types of {page}", failed(run("mypy", "--strict", python, "typed.py", folder=package.folder))
    written(package.folder, {"typed.py": MISTAKES})
    found = re.findall(r"^typed\.py:(\d+): error", run("mypy", "--strict", python, "typed.py", folder=package.folder).stdout, re.M)
    lines = [str(it + 2) for it in range(MISTAKES.count("\n") - 1)]
    yield "the mistakes that types show", other([*dict.fromkeys(found)], lines)


def sanitized(package):
    """Builds and installs the package in one step, with the address sanitizer, and runs the tests with it."""
    if not c.has_sanitizers():
        leave_out("the Python package under the address sanitizer", "which cc does not have here")
        return
    to, flags = f"{package.folder}/sanitized", " ".join(["-g", "-O1", *c.SANITIZED])
    words = ["--no-build-isolation", "--no-index", "--no-deps", f"--target={to}", "."]
    # A relative name of the library begins in the folder of the shell.
    near = {"BITPACKING": os.path.relpath(package.prefix, package.folder), "PWD": package.folder}
    install_it = [f"{package.room}/bin/python", "-m", "pip", "install", *words]
    yield "building and installing in one step", package.call(*install_it, CFLAGS=flags, **near)
    library = run("cc", "-print-file-name=libasan.so").stdout.strip()
    known = {"PYTHONPATH": to, "LD_PRELOAD": library, "PYTHONMALLOC": "malloc"}
    known |= {"ASAN_OPTIONS": "detect_leaks=0:exitcode=99", "UBSAN_OPTIONS": "print_stacktrace=1", "FIMULOWEN_EXAMPLES": "25"}
    # Memory that is given back stays with the sanitizer for a while, so that rounds of calls take more; it says nothing of locks.
    left_out = ["test_memory.py::test_constant", "test_threads.py::test_lock_is_released"]
    left_out += [f"test_column_calls.py::{it}" for it in ("test_constant", "test_lock_is_released")]
    left_out += ["test_ranked.py::test_lock_is_released"]
    # Of the random programs, which take the most time, a quarter: the wheel runs all.
    left_out += [f"test_machine64.py::test_programs[{it}]" for it in range(5, 20)]
    without = [f"--deselect=tests/{it}" for it in left_out]
    yield package.tested("under the address sanitizer", "tests", *without, **known)


def compiled(python, prefix, sources, objects, to):
    """Compiles the extension for a Python from sources in C, over the library of a prefix. What the folder of objects has is compiled again if a
    source or a header is newer. Returns what is wrong, or None."""
    headers, paths = glob.glob(f"{sources}/*.h"), sorted(glob.glob(f"{sources}/*.c"))
    made = {path: f"{objects}/{os.path.basename(path)[:-2]}.o" for path in paths}
    newest = {path: max(map(os.path.getmtime, [path, *headers])) for path in paths}
    old = [path for path, it in made.items() if not os.path.exists(it) or os.path.getmtime(it) < newest[path]]
    if not old:
        return None
    include = run(python, "-c", "import sysconfig; print(sysconfig.get_path('include'))").stdout.strip()
    why = failed(run("cc", "-std=c11", "-O2", "-fPIC", f"-I{include}", f"-I{prefix}/include", "-c", *old, folder=objects))
    return why or failed(run("cc", "-shared", "-Wl,--exclude-libs,ALL", *made.values(), f"{prefix}/{install.STATIC}", "-o", to))


def made(python, prefix, folder):
    """Makes the package in a folder, for tests, without setuptools. Returns what is wrong, or None."""
    shutil.rmtree(folder, ignore_errors=True)
    shutil.copytree(f"{ROOT}/python/src/fimulowen", f"{folder}/fimulowen", ignore=shutil.ignore_patterns("*.so", "__pycache__"))
    os.mkdir(f"{folder}/objects")
    return compiled(python, prefix, f"{ROOT}/python/src/core", f"{folder}/objects", f"{folder}/fimulowen/_core.abi3.so")


def wrong_changes(package):
    """Tries the wrong changes side by side, over what was compiled once."""
    core = f"{package.folder}/core"
    shutil.copytree(f"{package.sources}/src/core", core)
    yield "the extension without a wrong change", compiled(package.python, package.prefix, core, core, f"{package.folder}/core.so")

    def copied(room):
        shutil.copytree(f"{package.folder}/wheel/fimulowen", f"{room}/python/src/fimulowen")
        shutil.copytree(core, f"{room}/python/src/core")

    def built(room):
        sources = f"{room}/python/src/core"
        return compiled(package.python, package.prefix, sources, sources, f"{room}/python/src/fimulowen/_core.abi3.so")

    tests = trying.by_pytest(lambda room, test: package.pytest("-x", f"tests/{test}", PYTHONPATH=f"{room}/python/src"))
    yield from trying.each("python", copied, built, tests)


def built_in_place(folder, python):
    """What is wrong with a package that is built in its folder over the archive beside it, as in a bundle, or None."""
    environment = {name: it for name, it in os.environ.items() if name != "BITPACKING"} | {"PYTHONPATH": f"{folder}/src"}
    built = run(python, "setup.py", "-q", "build_ext", "--inplace", folder=folder, env=environment)
    done = run(python, "-c", "import fimulowen; print(fimulowen.IdSet([7, 9, 10, 300]))", env=environment)
    return failed(built) or other(done.stdout, "<IdSet of 4 ids in 7 bytes: [7, 9, 10, 300]>\n")


# In place of scripts/build/install.py: it writes which words it got, and copies a folder that was installed.
INSTALL = """import os, shutil, sys
if "DESTDIR" in os.environ or sys.argv[2:] != ["--from", "cargo"]:
    sys.exit("wrong words")
shutil.copytree(os.environ["GIVEN"], sys.argv[1], symlinks=True)
"""


def by_cargo(package):
    """The checks of the package that is built without BITPACKING and without an archive beside it, as in a clone."""
    top, words = f"{package.folder}/clone", ["setup.py", "-q", "build_ext", "--inplace"]
    shutil.copytree(package.sources, f"{top}/python", ignore=shutil.ignore_patterns("build", "*.so"))
    bare = {name: it for name, it in package.environment.items() if name != "BITPACKING"} | {
        "DESTDIR": top,
        "PYTHONPATH": f"{top}/python/src",
    }
    built = lambda **more: run(package.python, *words, folder=f"{top}/python", env=bare | more).stdout
    yield "a folder without a library", None if "setup.py: there is no library: set BITPACKING" in built() else "it is built"
    written(top, {"scripts/build/install.py": INSTALL})
    done = built(GIVEN=f"{top}/nothing")
    told = PROGRESS in done and "setup.py: the library was not compiled" in done
    yield "a library that is not compiled", None if told else done
    yield "a library that is compiled first", None if PROGRESS in built(GIVEN=package.prefix) else "there is no line of progress"
    done = run(package.python, "-c", "import fimulowen; print(fimulowen.IdSet([7, 9, 10, 300]))", folder=top, env=bare)
    yield "the package over it", other(done.stdout, "<IdSet of 4 ids in 7 bytes: [7, 9, 10, 300]>\n")


def checks(python):
    with tempfile.TemporaryDirectory(prefix="python-") as folder:
        package = Package(folder, python)
        install.install(package.prefix, f"{archives.OUT}/{archives.ALL}")
        built = list(wheel_of(package))
        yield from built
        if any(why for _, why in built):
            return
        pages = [f"{ROOT}/{it}" for it in PAGES]
        examples = ["--doctest-glob=*.md", *pages, "--doctest-modules", "--pyargs", "fimulowen"]
        with concurrent.futures.ThreadPoolExecutor(1) as pool:
            beside = pool.submit(lambda: [*sanitized(package), *by_cargo(package)])
            yield package.tested("of the wheel", "tests")
            yield package.tested("in the pages", *examples)
            yield from typed(package)
            yield from wrong_changes(package)
            yield from beside.result()


if __name__ == "__main__":
    interpreter, lack = chosen()
    sys.exit(archives.reported("the Python package", lambda: checks(interpreter), "cc", "nm", others=lack))
