#!/usr/bin/env python3
"""Tests scripts/build/install.py with a folder of its own for PREFIX, and scripts/build/bundle.py with programs in C and Rust outside the
repository, and with the Python package, that are built from the unpacked bundle. Programs find the library by pkg-config and by CMake. One
of the programs gets `bitpacking` through another crate, as in scripts/test/rust.py. Nothing is fetched: the folder of cargo is empty.

`packaged.py --cargo` tests the library that cargo compiles, as `install.py PREFIX --from cargo` installs it, and no bundle. It needs
neither `rt` nor archives of proved code.
"""
import contextlib
import ctypes
import io
import os
import re
import shutil
import subprocess
import sys
import tarfile
import tempfile

sys.path.insert(1, f"{sys.path[0]}/..")
from common import ROOT, leave_out, missing, reported, run, source, version, words
import archives
import bundle
import by_cargo
import c
import choosing
from files import bytes_of, failed, other, printed, written
import install
import python
import release
import rust
import unproved

EXAMPLES = [it for it in c.PROGRAMS | c.IN_CPP if it.startswith("examples/") and c.plainly(it)]
PROCESSOR = "x86_64"
# The function that the header has only as `static inline`, and that has a symbol for other languages.
INLINE = ["bitpacking_error_text"]
# What an archive by cargo needs of C: functions of <string.h>, which compilers call by themselves, and what ends a program.
NEEDS = {"memcpy", "memmove", "memset", "memcmp", "bcmp", "abort"}
# The linker leaves out what is not called, by this flag of docs/C.md: the most bytes of a small program then.
LEAVES_OUT, SMALL = "-Wl,--gc-sections", 200_000
# What follows the first commands of docs/PYTHON.md.
IN_PYTHON = f"python -c '{release.IN_PYTHON}'\n"
# A program of CMake, over the shared library and the static one.
BY_CMAKE = """cmake_minimum_required(VERSION 3.10)
project(it C)
find_package(bitpacking {version} CONFIG REQUIRED)
message("compiled by ${{bitpacking_COMPILER}}")
foreach(library bitpacking bitpacking_static)
    add_executable(with_${{library}} {program})
    target_link_libraries(with_${{library}} PRIVATE bitpacking::${{library}})
endforeach()
"""


def listed(folder):
    """All files and folders below a folder, with the bytes of the files."""
    found = {}
    for at, folders, files in os.walk(folder):
        found |= {f"{at}/{it}": None for it in folders} | {f"{at}/{it}": bytes_of(f"{at}/{it}") for it in files}
    return found


def by_script(*words, top=ROOT, **more):
    return run(sys.executable, f"{top}/scripts/build/install.py", *words, **more)


def by_cmake(prefix, compiler):
    """Programs that CMake builds over an installation: each check as a name and what is wrong, or None."""
    if missing("cmake", "make"):
        leave_out("programs by CMake", "since there is no cmake or no make")
        return
    program, later = "examples/id_set.c", f"{int(version().split('.')[0]) + 1}.0"
    for wanted, found in {"": True, version(): True, version().rpartition(".")[0]: True, later: False, f"{version()}.1": False}.items():
        with tempfile.TemporaryDirectory(prefix="cmake-") as folder:
            written(folder, {"CMakeLists.txt": BY_CMAKE.format(version=wanted, program=f"{ROOT}/{program}")})
            made = run("cmake", "-S", folder, "-B", f"{folder}/out", f"-DCMAKE_PREFIX_PATH={prefix}")
            right = made.returncode == 0 and f"compiled by {compiler}" in made.stdout if found else "accepted" in made.stdout
            yield f"version '{wanted}' by CMake", None if right else made.stdout[-2000:]
            if wanted == version():
                built = failed(run("cmake", "--build", f"{folder}/out"))
                for name in ["with_bitpacking", "with_bitpacking_static"]:
                    yield f"{program} {name} by CMake", built or printed(run(f"{folder}/out/{name}"), c.PROGRAMS[program])


def by_pkg_config(prefix, compiler):
    """What pkg-config tells of an installation, and programs that ask it: each check as a name and what is wrong, or None."""
    if missing("pkg-config"):
        leave_out("programs that ask pkg-config", "since there is no pkg-config")
        return
    env = dict(os.environ, PKG_CONFIG_PATH=f"{prefix}/lib/pkgconfig")
    for asked, wanted in {"--modversion": version(), "--variable=compiler": compiler}.items():
        yield f"pkg-config {asked}", other(run("pkg-config", asked, "bitpacking", env=env).stdout, f"{wanted}\n")
    words = run("pkg-config", "--cflags", "--libs", "bitpacking", env=env).stdout.split()
    shared = dict(os.environ, LD_LIBRARY_PATH=f"{prefix}/lib")
    yield from ((f"{it} by pkg-config", c.compiled_and_run(it, c.plainly(it), *words, env=shared)) for it in {*c.PROGRAMS, *EXAMPLES})


def refused(prefix, *words, **more):
    """What is wrong if an installation fails otherwise than with status 1 and all files as they were, or None."""
    before, done = listed(prefix), by_script(prefix, *words, **more)
    return other(done.returncode, 1) or (None if listed(prefix) == before else f"it changed files, and printed {done.stdout}")


def elsewhere(asked, prefix, at, *words, **more):
    """What is wrong if an installation that asks for a PREFIX does not write all at a folder, name the PREFIX there, and remove it again, or None."""
    done = by_script(asked, *words, **more)
    if done.returncode or not os.path.isfile(f"{at}/{install.STATIC}") or at != prefix and os.path.exists(prefix):
        return f"it wrote elsewhere: {done.stdout}"
    if f"prefix={prefix}\n" not in bytes_of(f"{at}/{install.ASKED}").decode():
        return "the file of pkg-config names another folder"
    return failed(by_script(asked, "--remove", **more)) or (f"{at} is left" if os.path.exists(at) else None)


def levels_of(prefix):
    """Whether the archive that is installed is the one that was asked for: each level as a name and what is wrong, or None."""
    for level in ["all levels", *archives.BUILDS]:
        is_arm, wanted = level == archives.ARM, f"{archives.OUT}/{archives.ALL}" if level == "all levels" else archives.archive(level)
        if is_arm and (missing(c.CROSS) or archives.are_fast()):
            leave_out("installing for aarch64", f"since there is no {c.CROSS} or no archive")
            continue
        words = [] if level == "all levels" else ["--level", level]
        again = by_script(prefix, *words, env=dict(os.environ, CC=c.CROSS) if is_arm else None)
        same = bytes_of(f"{prefix}/{install.STATIC}") == bytes_of(wanted)
        yield f"installing {level} over it", failed(again) or (None if same else "another archive is installed")


def shared_library(path):
    """Checks of a shared library, each as a name and what is wrong, or None."""
    exported = {line.split()[-1] for line in run("nm", "-D", "--defined-only", path).stdout.splitlines()}
    wanted = {*choosing.prototypes(), *INLINE}
    yield "the names of the shared library", None if exported == wanted else f"they differ in {sorted(exported ^ wanted)}"
    named = re.search(r"SONAME\s+(\S+)", run("objdump", "-p", path).stdout)
    wanted = f"libbitpacking.so.{version().split('.')[0]}"
    yield "the name that programs look for", None if named and named[1] == wanted == os.readlink(path) else f"it is {named}"
    # Once a program has started, nothing can write the addresses of functions.
    table = run("readelf", "--wide", "--dynamic", "--program-headers", path).stdout
    lacking = [it for it in ("BIND_NOW", "GNU_RELRO") if it not in table]
    yield "the hardening of the shared library", f"it lacks {' and '.join(lacking)}" if lacking else None
    library = ctypes.CDLL(path)
    library.bitpacking_error_text.restype = ctypes.c_char_p
    text = library.bitpacking_error_text(ctypes.c_ssize_t(-3))
    yield "a function that the header has inline, by its name", None if text == b"The buffer is too short." else f"it returned {text}"


def without_rt():
    """The variables of somebody who has no toolchain to prove with."""
    return dict(os.environ, PATH=os.pathsep.join(it for it in os.environ["PATH"].split(os.pathsep) if not os.path.exists(f"{it}/rt")))


def of_pages(folder):
    """The first commands of pages in a clone, without `rt`: each page as a name and what is wrong, or None."""
    interpreter, lack = python.chosen(("numpy", "setuptools", "wheel", "pip", "ensurepip"))
    lacks = {"docs/C.md": missing("pkg-config"), "docs/PYTHON.md": lack}
    ends = {"docs/C.md": c.PROGRAMS["examples/id_set.c"], "docs/PYTHON.md": f"{version()} 7 (3, 300)\n"}
    python.Package(folder, interpreter)
    for name in "scripts", "examples":
        os.symlink(f"{ROOT}/{name}", f"{folder}/{name}")
    env = without_rt() | {"PIP_NO_INDEX": "1", "PIP_NO_BUILD_ISOLATION": "0"}
    for page in [
        it for it in ends if not lacks[it] or leave_out(f"the first commands of {it}", f"since there is no {' and no '.join(lacks[it])}")
    ]:
        commands = re.search(r"(?:^    .*\n)+", source(page), re.M)[0].replace("python3", interpreter or "").replace("~", folder)
        done = run("bash", "-e", "-c", f"{commands}{IN_PYTHON * (page == 'docs/PYTHON.md')}", folder=folder, env=env)
        yield f"the first commands of {page}", failed(done) or (None if done.stdout.endswith(ends[page]) else done.stdout)


def library_by_cargo(prefix):
    """Checks of the library that cargo compiled, each as a name and what is wrong, or None."""
    static = f"{prefix}/{install.STATIC}"
    # The archive has one number of data, the level.
    yield "the archive", "; ".join(archives.faults(static, data=4, needs=NEEDS)) or None
    yield "the folders that the libraries name", ", ".join(release.named_folders(prefix)) or None
    yield "the flag that leaves out", None if LEAVES_OUT in source("docs/C.md") else "docs/C.md does not name it"
    built = failed(run(*c.C99, "-O2", "-s", f"{ROOT}/examples/block.c", static, LEAVES_OUT, "-o", f"{prefix}.small"))
    yield "the size of a small program", built or (None if os.path.getsize(f"{prefix}.small") < SMALL else "it is too great")
    for words, status, names in [
        (["--from", "nowhere"], 2, "'nowhere'"),
        (["--form", "cargo"], 2, "--form"),
        (["--remove", "--from", "cargo"], 2, "--remove"),
        (["--from", "cargo", "--level", archives.ARM], 1, archives.ARM),
    ]:
        done = by_script(*words, f"{prefix}.other")
        wrong = other((done.returncode, os.path.exists(f"{prefix}.other")), (status, False))
        yield f"install.py {' '.join(words)}", wrong or (None if names in done.stdout.splitlines()[-1] else done.stdout)
    done = by_script("--level", "x86-64", f"{prefix}.cargo", env=without_rt())
    said = re.search(rf"there is no rt.*\ncargo .* minutes .*\ninstalled version .*{install.BY_RUSTC}", done.stdout)
    yield "install.py without rt", failed(done) or (None if said else done.stdout)


def installed(folder, *words):
    """Each check of an installation as a name and what is wrong, or None. The words ask for the library by cargo, or there are none."""
    prefix, static, (compiler, by) = f"{folder}/prefix", install.STATIC, ("rustc", f", {install.BY_RUSTC},") if words else ("rattle", "")
    # A file where a folder is wanted.
    written(prefix, {"lib/other": "of another program\n", "share": "no folder\n"})
    yield "an installation that fails half-way", refused(prefix, *words)
    os.remove(f"{prefix}/share")
    before, done = listed(prefix), by_script(prefix, *words)
    said = f"installed version {version()}{by} under {prefix}: {' '.join(install.HEADERS)} {static} "
    yield "install.py", failed(done) or (None if done.stdout.splitlines()[-1].startswith(said) else done.stdout)
    yield from shared_library(f"{prefix}/{install.LINK}")
    yield from by_pkg_config(prefix, compiler)
    to_archive = ["cc", "-std=c99", "-static", f"-I{prefix}/include"], f"{prefix}/{static}"
    yield from ((f"{it} over the installed archive", c.compiled_and_run(it, *to_archive)) for it in c.PROGRAMS)
    yield "an installation over it without a linker", refused(prefix, *words, env=dict(os.environ, CC="false"))
    yield from by_cmake(prefix, compiler)
    yield from library_by_cargo(prefix) if words else levels_of(prefix)
    yield "install.py --remove", failed(by_script(prefix, "--remove")) or (None if listed(prefix) == before else "it left other files")
    package, later, near = f"{folder}/package", f"{folder}/later", f"{os.path.realpath(folder)}/near/prefix"
    yield "install.py with DESTDIR", elsewhere(later, later, f"{package}{later}", *words, env=dict(os.environ, DESTDIR=package))
    yield "install.py with a relative name", elsewhere("near/prefix", near, near, *words, folder=folder)
    yield "removing nothing", other(by_script(prefix, "--remove").returncode, 1)
    written(prefix, {static: "of another program\n"})
    yield "the file of another program", refused(prefix, *words)


def of_a_commit(folder):
    """Bundles are of files of a commit: each check as a name and what is wrong, or None. The folder is a repository with the scripts alone."""
    shutil.copytree(f"{ROOT}/scripts", f"{folder}/scripts", ignore=shutil.ignore_patterns("__pycache__", "edits"))
    ours = {"CHANGELOG.md": source("CHANGELOG.md"), "examples/it.c": "", "postgres/idset--1.0.sql": ""}
    written(folder, {"crates.txt": "", **ours})
    git = ["git", "-c", "user.name=it", "-c", "user.email=it", "-c", "commit.gpgsign=false"]
    for words in ["init", "-q"], ["add", "--all"], ["commit", "-q", "-m", "it"]:
        subprocess.run([*git, *words], cwd=folder, check=True)
    asked = "import sys; sys.path[:0] = ['scripts', 'scripts/build']; import bundle as it; print(it.changed(), it.paths('x86_64'))"
    said = lambda: run(sys.executable, "-B", "-c", asked, folder=folder).stdout
    has = sorted([*ours, *(it for it in bundle.paths("x86_64") if it.startswith("scripts/"))])
    yield "the files of a commit", other(said(), f"[] {has}\n")
    written(folder, {"examples/left.c": "", "postgres/idset--0.9.sql": ""})
    yield "files that git does not track", other(said(), f"['?? examples/left.c', '?? postgres/idset--0.9.sql'] {has}\n")
    done = run(sys.executable, "-B", f"{folder}/scripts/build/release.py", folder=folder)
    right = done.returncode == 1 and "this is not in the last commit: ?? examples/left.c" in done.stdout
    yield "a release with files that git does not track", None if right else done.stdout


def releases(folder):
    """A release stays if the next one fails: each check as a name and what is wrong, or None."""
    release.OUT = f"{folder}/release"
    written(folder, {"release/it": "the first", "next/it": "the next"})
    for why, is_there in ("it is wrong", "the first"), (None, "the next"):
        with contextlib.redirect_stdout(io.StringIO()):
            release.released(f"{folder}/next", [("it", why)])
        yield f"a release: {why}", other(listed(release.OUT), {f"{release.OUT}/it": is_there.encode()})
    written(folder, {"next/it.a": f"compiled in {ROOT}/crates"})
    yield "an archive that names a folder", other(list(release.named_folders(f"{folder}/next")), [f"it.a names {ROOT}"])


def dead_links(top):
    """The files that pages of a bundle link and that it lacks."""
    for page in [path for path in listed(top) if path.endswith(".md")]:
        for link in re.findall(r"\]\(([^)#\s:]+)(?:#[^)]*)?\)", bytes_of(page).decode()):
            if not os.path.exists(f"{os.path.dirname(page)}/{link}"):
                yield f"{os.path.relpath(page, top)} links {link}"


def of_a_checkout(folder):
    """The bytes of a bundle of the same files, from a checkout in a folder, at another time and with other modes."""
    unproved.copied(folder)
    for path in bundle.paths(PROCESSOR):
        os.makedirs(os.path.dirname(f"{folder}/{path}"), exist_ok=True)
        shutil.copyfile(f"{ROOT}/{path}", f"{folder}/{path}")
        os.chmod(f"{folder}/{path}", os.stat(f"{folder}/{path}").st_mode & 0o700)
        os.utime(f"{folder}/{path}", (0, 86400))
    asked = f"import sys; sys.path[:0] = ['scripts', 'scripts/build']; import bundle; print(bundle.write('out', '{PROCESSOR}'))"
    os.makedirs(f"{folder}/out")
    return bytes_of(f"{folder}/{by_cargo.called(sys.executable, '-B', '-c', asked, folder=folder).strip()}")


def unpacked(folder):
    """Each check of a bundle as a name and what is wrong, or None."""
    same = bytes_of(bundle.write(folder, PROCESSOR)) == of_a_checkout(f"{folder}/checkout")
    yield "the bundles of two checkouts", None if same else "they differ"
    with tarfile.open(f"{folder}/{bundle.name_of(PROCESSOR)}.tar.gz") as file:
        file.extractall(folder)
    top = f"{folder}/{bundle.name_of(PROCESSOR)}"
    found = {os.path.relpath(path, f"{top}/rust/out") for path in listed(f"{top}/rust/out") if path.endswith(".a")}
    wanted = {archives.ALL, *(f"{it}/{archives.ALL}" for it in archives.LEVELS.values())}
    yield "the archives of the bundle", None if found == wanted else f"they differ in {sorted(found ^ wanted)}"
    yield "the links of the bundle's pages", ", ".join(dead_links(top)) or None
    yield "an installation from the bundle", failed(by_script(f"{folder}/installed", top=top))
    for program in EXAMPLES:
        compiler = [*c.plainly(program), f"-I{top}/include"]
        yield f"{program} from the bundle", c.compiled_and_run(program, compiler, f"{top}/rust/out/{archives.ALL}", top=top)
    interpreter, lack = python.chosen()
    if lack:
        leave_out("the Python package from the bundle", f"since there is no {' and no '.join(lack)}")
    else:
        yield "the Python package from the bundle", python.built_in_place(f"{top}/python", interpreter)
    if missing("cargo"):
        leave_out("Rust programs from the bundle", "since there is no cargo")
        return
    checked = rust.called("check", "--offline", "--locked", "--package", "bitpacking_c", folder=top, CARGO_TARGET_DIR=f"{folder}/target")
    yield "the sources of the library for C by cargo in the bundle", failed(checked)
    rust.program(f"{folder}/it", f'{{ path = "{top}" }}')
    yield f"{rust.PROGRAM}.rs over the bundle", rust.ran(f"{folder}/it", rust.EXAMPLES[rust.PROGRAM])
    # Of docs/FORMAT.md: 7, 9, 10 and 300.
    written(folder, {"ids": bytes.fromhex("84070901008404")})
    wanted = f"{folder}/ids: set, 4 numbers in 7 bytes, 14.00 bits a number, from 7 to 300\n"
    yield "the command for files of numbers from the bundle", rust.ran(f"{top}/examples/numbers", wanted, "check", f"{folder}/ids")
    yield "a crate that asks for 0.9 of crates.io", rust.through_another(f"{folder}/through", top)


def checks(parts, *words):
    for part in parts:
        with tempfile.TemporaryDirectory(prefix="packaged-") as folder:
            yield from part(folder, *words)


def main():
    if "--cargo" in words("--cargo"):
        tools = [*by_cargo.TOOLS, "objdump", "readelf", "bash"]
        return reported("the library for C by cargo", lambda: [*checks([installed], "--from", "cargo"), *checks([of_pages])], *tools)
    return archives.reported("the installation and the bundle", lambda: checks([installed, unpacked, of_a_commit, releases]), "readelf")


if __name__ == "__main__":
    sys.exit(main())
