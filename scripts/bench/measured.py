"""What the benches share: the machine, the library, calls that take turns, and tables as docs/SPEED.md has them."""
import glob
import os
import time

from common import ROOT, called
import archives
import by_cargo

# What the benches in C++ need of Debian's CRoaring: a file, and the package that has it.
ROARING = ("/usr/include/roaring/roaring.h", "libroaring-dev")


def library(level=None):
    """The archive that is measured, of a level or for all: the proved one, if scripts/build/archives.py left it, or else what cargo builds."""
    path = archives.archive(level) if level else f"{archives.OUT}/{archives.ALL}"
    if os.path.isfile(path) and not archives.are_fast():
        return path
    return by_cargo.archive(level) if level else by_cargo.for_all()


def roaring(folder, sources):
    """What a C++ compiler needs for CRoaring, Debian's or one that this builds for this processor, in a folder, from its sources."""
    if not sources:
        return ["-lroaring"]
    include, files = f"-I{os.path.realpath(sources)}/include", glob.glob(f"{os.path.realpath(sources)}/src/**/*.c", recursive=True)
    called("cc", "-O3", "-march=native", "-w", include, "-c", *files, folder=folder)
    return [include, *glob.glob(f"{folder}/*.o")]


def program(path, name, library, *words):
    """Builds the program in C++ of this name over a library."""
    warned = ["-std=c++17", "-Wall", "-Wextra", "-Werror", "-pthread", f"-I{ROOT}/include"]
    called("g++", *warned, f"{ROOT}/scripts/bench/{name}/main.cpp", library, "-o", path, *words)


def head(path=""):
    """What a page says of a run: the day, the processor, the load, and who compiled the library."""
    with open("/proc/cpuinfo", encoding="ascii") as file:
        fields = dict(map(str.strip, line.split(":", 1)) for line in file.read().split("\n\n")[0].split("\n"))
    compiler = {"": "", archives.OUT: ", the proved library"}.get(path and path[: len(archives.OUT)], ", the library by cargo")
    machine = f"{fields.get('model name')}, model {fields.get('model')}, {os.cpu_count()} cores"
    return f"{time.strftime('%Y-%m-%d')}, {machine}, load {os.getloadavg()[0]:.0f}{compiler}"


def processor_time(call):
    """The seconds of a processor that a call takes."""
    start = time.process_time()
    call()
    return time.process_time() - start


def turns(ways, rounds, timed=processor_time):
    """The least time of each way, by its name: `timed` takes one and returns its time. In each round each has its turn."""
    least = {}
    for _ in range(rounds):
        for name, way in ways.items():
            took = timed(way)
            least[name] = min(least.get(name, took), took)
    return least


def show(title, columns, rows, bar="| "):
    """Prints a table: the rows are their names, each with its cells by column, and a cell that is not there is empty."""
    print(f"\n{bar.join([title, *columns])}\n---{'|---' * len(columns)}")
    for name, cells in rows:
        print(bar.join([name, *(f"{cells.get(column, '')}" for column in columns)]).rstrip(" |"), flush=True)
