"""Links the archive of the C library into the extension, so that the package needs no other library.

The variable BITPACKING names the folder that scripts/build/install.py wrote. Without it the archive and the header of the repository or the
bundle are taken, in which this folder lies; if there is no archive, scripts/build/install.py has cargo compile it."""

import glob
import os
import platform
import subprocess
import sys

from setuptools import Extension, setup
from setuptools.command.build_ext import build_ext

ABOVE = os.path.dirname(os.path.dirname(os.path.abspath(__file__)))
BESIDE = {"x86_64": "rust/out", "aarch64": "rust/out/aarch64-unknown-linux-gnu"}
INSTALL, PREFIX = f"{ABOVE}/scripts/build/install.py", f"{ABOVE}/out/python/prefix"
PROGRESS = "fimulowen: cargo compiles the library, once, in about three minutes on four cores"


def tell(text):
    """Prints a line, on the terminal too if there is one: pip shows nothing of what is printed."""
    print(text, flush=True)
    try:
        with open("/dev/tty", "w", encoding="utf-8") as terminal:
            print(f"\n{text}", file=terminal, flush=True)
    except OSError:
        pass


def by_cargo():
    """The folder with the library that cargo compiled, which takes seconds if nothing changed since."""
    if platform.machine() != "x86_64" or not os.path.isfile(INSTALL):
        raise SystemExit("setup.py: there is no library: set BITPACKING to the folder that scripts/build/install.py wrote")
    tell(PROGRESS)
    environment = {name: it for name, it in os.environ.items() if name != "DESTDIR"}
    done = subprocess.run([sys.executable, INSTALL, PREFIX, "--from", "cargo"], env=environment)
    if done.returncode != 0:
        raise SystemExit("setup.py: the library was not compiled: scripts/build/install.py says above what is missing")
    return PREFIX


def archive():
    """The folder with the header, and the path of the archive."""
    prefix, beside = os.environ.get("BITPACKING"), f"{ABOVE}/{BESIDE.get(platform.machine(), 'rust/out')}/libbitpacking.a"
    if not prefix and os.path.isfile(beside):
        return ABOVE, beside
    if prefix:
        # A relative one begins in the folder of the shell, from where pip may build another.
        prefix = next((it for it in (os.path.join(os.environ.get("PWD", ""), prefix), prefix) if os.path.isdir(it)), prefix)
    else:
        prefix = by_cargo()
    library = f"{prefix}/lib/libbitpacking.a"
    if not os.path.isfile(library):
        raise SystemExit(f"setup.py: there is no {library}: set BITPACKING to the folder that scripts/build/install.py wrote")
    return prefix, library


class Build(build_ext):
    """Finds the library, or compiles it, only if the extension is built: pip runs this file before that too."""

    def run(self):
        prefix, library = archive()
        for it in self.extensions:
            it.include_dirs, it.extra_objects, it.depends = [f"{prefix}/include"], [library], [*it.depends, library]
        super().run()


setup(
    cmdclass={"build_ext": Build},
    ext_modules=[
        Extension(
            "fimulowen._core",
            sorted(glob.glob("src/core/*.c")),
            depends=sorted(glob.glob("src/core/*.h")),
            # A name that the limited API lacks has to fail here, and not when the package is imported.
            extra_compile_args=["-std=c11", "-O2", "-Wall", "-Wextra", "-Werror", "-fvisibility=hidden"],
            extra_link_args=["-Wl,--exclude-libs,ALL", "-Wl,--gc-sections", "-Wl,-z,relro,-z,now"],
            py_limited_api=True,
        )
    ],
    options={"bdist_wheel": {"py_limited_api": "cp311"}},
)
