#!/usr/bin/env python3
"""Installs the library for C under a folder, PREFIX, for programs that ask `pkg-config --cflags --libs bitpacking`, and for CMake's
`find_package(bitpacking CONFIG)`:

    install.py PREFIX [--level LEVEL] [--from cargo]    include/bitpacking.h and .hpp, lib/libbitpacking.a, a shared library with the link
                                                        lib/libbitpacking.so, lib/pkgconfig/bitpacking.pc, and lib/cmake/bitpacking/
    install.py PREFIX --remove                          takes away what it wrote there, with the folders that it made

LEVEL is that of the archive: x86-64, x86-64-v2 or x86-64-v3; without it the archive for all levels is installed; for aarch64 LEVEL is
aarch64-unknown-linux-gnu, and CC has to name a compiler for it. A bundle has the archives, and installing them takes seconds. Elsewhere they are
those of scripts/build/archives.py, which proves them first if it did not before: that takes nine minutes on four cores. If the variable DESTDIR
is set, all is written below that folder, as packages want it, and names PREFIX alone.

With `--from cargo`, and if there is no `rt` to prove them, the library for x86-64 is compiled by cargo from the proved sources, without the
prover's compiler, as it is after `archives.py --fast`: that takes two minutes. The last line says so, and lib/pkgconfig/bitpacking.pc, and the
variable bitpacking_COMPILER of CMake.

The name of the shared library ends with the major version: programs need a new link after a change of that. A file that another program
wrote is not replaced. The status is 0, 1 if it failed, or 2 if it was called wrongly.
"""
import argparse
import os
import re
import shutil
import sys
import tempfile

sys.path.insert(1, f"{sys.path[0]}/..")
from common import ROOT, Failed, called, missing, source, version
import archives
import by_cargo
import choosing

CC = os.environ.get("CC", "cc")
HEADERS = ["include/bitpacking.h", "include/bitpacking.hpp"]
STATIC, LINK = "lib/libbitpacking.a", "lib/libbitpacking.so"
ASKED, NAMES = "lib/pkgconfig/bitpacking.pc", "share/bitpacking/installed"
CMAKE, CMAKE_VERSION = (f"lib/cmake/bitpacking/bitpackingConfig{it}.cmake" for it in ("", "Version"))
SYMBOLS = "c/symbols.c"

# What is said of a library that cargo compiled.
BY_RUSTC = "compiled by rustc, not by the prover's compiler"
PC = """prefix={prefix}
includedir=${{prefix}}/include
libdir=${{prefix}}/lib
compiler={compiler}

Name: bitpacking
Description: Blocks of 32-bit integers packed in few bits per value, and sets and columns of them{by}
Version: {version}
Cflags: -I${{includedir}}
Libs: -L${{libdir}} -lbitpacking
"""
# The folder is found from that of the file, so that it may be moved.
CONFIG = """# The targets bitpacking::bitpacking, a shared library, and bitpacking::bitpacking_static.
set(bitpacking_COMPILER {compiler})
if(NOT TARGET bitpacking::bitpacking)
    get_filename_component(bitpacking_PREFIX "${{CMAKE_CURRENT_LIST_DIR}}/../../.." ABSOLUTE)
    add_library(bitpacking::bitpacking SHARED IMPORTED)
    set_target_properties(bitpacking::bitpacking PROPERTIES
        IMPORTED_LOCATION "${{bitpacking_PREFIX}}/{library}"
        IMPORTED_SONAME {soname}
        INTERFACE_INCLUDE_DIRECTORIES "${{bitpacking_PREFIX}}/include")
    add_library(bitpacking::bitpacking_static STATIC IMPORTED)
    set_target_properties(bitpacking::bitpacking_static PROPERTIES
        IMPORTED_LOCATION "${{bitpacking_PREFIX}}/{static}"
        INTERFACE_INCLUDE_DIRECTORIES "${{bitpacking_PREFIX}}/include")
    unset(bitpacking_PREFIX)
endif()
"""
# A program that asks for a version gets this one if it is of the same major version and not older.
CONFIG_VERSION = """set(PACKAGE_VERSION {version})
if(CMAKE_SIZEOF_VOID_P AND NOT CMAKE_SIZEOF_VOID_P EQUAL 8)
    set(PACKAGE_VERSION_UNSUITABLE TRUE)
elseif(PACKAGE_FIND_VERSION_MAJOR EQUAL {major} AND NOT PACKAGE_VERSION VERSION_LESS PACKAGE_FIND_VERSION)
    set(PACKAGE_VERSION_COMPATIBLE TRUE)
    if(PACKAGE_VERSION VERSION_EQUAL PACKAGE_FIND_VERSION)
        set(PACKAGE_VERSION_EXACT TRUE)
    endif()
endif()
"""


def shared_library():
    """Where the shared library is. Programs that were linked with it need one of the same name."""
    return f"{LINK}.{version().split('.')[0]}"


def linked(archive, folder):
    """Links an archive as a shared library, in which only the names of the header can be seen, in a folder. Returns its path."""
    names, path = f"{folder}/names", f"{folder}/{os.path.basename(shared_library())}"
    # Those that the header declares, and those that it defines for C alone.
    exported = sorted({*choosing.prototypes(), *re.findall(r"\((bitpacking_\w+)\)\(", source(SYMBOLS))})
    choosing.written(names, f"{{ global: {' '.join(f'{name};' for name in exported)} local: *; }};\n")
    words = ["-shared", f"-Wl,-soname,{os.path.basename(path)}", f"-Wl,--version-script={names}", "-Wl,-z,defs,-z,relro,-z,now"]
    compiled = ["-std=c99", "-O2", "-fPIC", f"-I{ROOT}/include", f"{ROOT}/{SYMBOLS}"]
    called(CC, *words, *compiled, "-Wl,--whole-archive", archive, "-Wl,--no-whole-archive", "-o", path)
    return path


def made_folders(prefix, path):
    """Makes the folders of a file, with PREFIX itself, and returns those that were not there."""
    folders = os.path.dirname(path).split("/")
    wanted = ["./"] + ["/".join(folders[: count + 1]) + "/" for count in range(len(folders))]
    made = [it for it in wanted if not os.path.isdir(f"{prefix}/{it}")]
    os.makedirs(f"{prefix}/{os.path.dirname(path)}", exist_ok=True)
    return made


def install(prefix, archive, by_rustc=False):
    """Writes all files below the folder that is named DESTDIR. What was installed there is taken away once the shared library is linked. If a
    file cannot be written, those before it are taken away again."""
    root, library = placed(prefix), shared_library()
    with tempfile.TemporaryDirectory(prefix="install-") as folder:
        copies, texts = {it: f"{ROOT}/{it}" for it in HEADERS}, told(prefix, by_rustc)
        copies |= {STATIC: archive, library: linked(archive, folder)}
        if os.path.exists(f"{root}/{NAMES}"):
            remove(prefix)
        files, made = [*copies, LINK, *texts, NAMES], []
        others = [it for it in files if os.path.lexists(f"{root}/{it}")]
        if others:
            raise Failed(f"{root}/{others[0]} is there, and was not written by this script")
        try:
            for path in files:
                made += made_folders(root, path) + [path]
                if path in copies:
                    (shutil.copy if path == library else shutil.copyfile)(copies[path], f"{root}/{path}")
                elif path == LINK:
                    os.symlink(os.path.basename(library), f"{root}/{path}")
                else:
                    choosing.written(f"{root}/{path}", texts.get(path) or "\n".join(made))
        except BaseException:
            taken_away(root, made)
            raise
    return f"installed version {version()}{f', {BY_RUSTC},' * by_rustc} under {root}: {' '.join(files)}"


def told(prefix, by_rustc):
    """The texts of the files that pkg-config and CMake read."""
    compiler, by = ("rustc", f", {BY_RUSTC}") if by_rustc else ("rattle", "")
    library, number = shared_library(), version()
    return {
        ASKED: PC.format(prefix=prefix, version=number, compiler=compiler, by=by),
        CMAKE: CONFIG.format(compiler=compiler, library=library, soname=os.path.basename(library), static=STATIC),
        CMAKE_VERSION: CONFIG_VERSION.format(version=number, major=number.split(".")[0]),
    }


def placed(prefix):
    """The folder that PREFIX means below DESTDIR."""
    destination = os.environ.get("DESTDIR", "")
    return os.path.abspath(f"{destination}/{prefix}") if destination else prefix


def taken_away(prefix, written):
    """Takes away files and folders, the last first. A folder that has other files stays."""
    for path in reversed(written):
        whole = os.path.normpath(f"{prefix}/{path}")
        if not path.endswith("/"):
            if os.path.lexists(whole):
                os.remove(whole)
        elif os.path.isdir(whole) and not os.listdir(whole):
            os.rmdir(whole)


def remove(prefix):
    root = placed(prefix)
    if not os.path.isfile(f"{root}/{NAMES}"):
        raise Failed(f"there is no {root}/{NAMES}: nothing is installed there")
    with open(f"{root}/{NAMES}", encoding="utf-8") as file:
        taken_away(root, file.read().split("\n"))
    return f"removed what was installed under {root}"


def is_by_cargo(asked):
    """Whether cargo compiles the library: if that was asked for, or if there are no archives and no `rt` to prove them."""
    is_unproved = not archives.are_given() and bool(missing("rt"))
    if is_unproved and not asked:
        print("there is no rt, which proves the library", flush=True)
    return asked or is_unproved


def archive_of(level, by_rustc):
    """The archive of a level, or of all levels, which cargo compiles or archives.py wrote."""
    levels = [*archives.LEVELS.values()] if by_rustc else [*archives.BUILDS]
    if level not in ["all", *levels]:
        raise Failed(f"there is no level {level}{' by cargo' * by_rustc}: it is one of {' '.join(levels)}")
    tools = by_cargo.TOOLS if by_rustc else [] if archives.are_given() else archives.TOOLS
    lacking = missing(*tools, CC)
    if lacking:
        raise Failed(f"there is no {' and no '.join(lacking)}")
    if by_rustc:
        print("cargo compiles the library from the proved sources: two minutes on four cores, or seconds if it did before", flush=True)
        return by_cargo.for_all() if level == "all" else by_cargo.archive(level)
    if not archives.are_given():
        archives.need()
    return f"{archives.OUT}/{archives.ALL}" if level == "all" else archives.archive(level)


def asked():
    """What the words of the call ask for. Wrong ones are named, and end the script with status 2."""
    usage, more = __doc__.split("\n\n")[1], __doc__.split("\n\n", 2)[2]
    how = {"formatter_class": argparse.RawDescriptionHelpFormatter, "allow_abbrev": False}
    parser = argparse.ArgumentParser(usage=f"\n{usage}\n", epilog=more, **how)
    parser.add_argument("PREFIX", type=os.path.abspath)
    parser.add_argument("--level", metavar="LEVEL", default="all")
    parser.add_argument("--from", choices=["cargo"])
    parser.add_argument("--remove", action="store_true")
    given = vars(parser.parse_args())
    if given["remove"] and (given["from"] or given["level"] != "all"):
        parser.error("--remove takes no other option")
    return given


def main():
    given = asked()
    try:
        if given["remove"]:
            print(remove(given["PREFIX"]))
        else:
            by_rustc = is_by_cargo(given["from"] == "cargo")
            archive = archive_of(given["level"], by_rustc)
            print(install(given["PREFIX"], archive, by_rustc or archives.are_fast()))
    except (OSError, Failed) as why:
        print(f"install.py: {why}", file=sys.stderr)
        return 1
    return 0


if __name__ == "__main__":
    sys.exit(main())
