"""The C file by which each function of include/bitpacking.h chooses the level of x86-64 when it is called: c/levels.c, with a line for each
function that the header declares. And the archive for all levels, which has it and the archives of the levels."""

import os
import re
import tempfile

from common import ROOT, called, run, source

LEVELS = {"v1": "x86-64", "v2": "x86-64-v2", "v3": "x86-64-v3"}
CHOICE = "c/levels.c"
WARNED = ["-std=gnu99", "-Wall", "-Wextra", "-Werror", f"-I{ROOT}/include"]
COMPILED = ["-O2", "-fPIC", "-ffunction-sections", "-fdata-sections", "-fno-asynchronous-unwind-tables", "-fno-stack-protector"]


def prototypes():
    """The functions that the header declares and does not define, as the C preprocessor reads it: the name, what it returns, and its
    parameters."""
    text = run("cc", "-E", "-P", f"{ROOT}/include/bitpacking.h").stdout
    inner = None
    while inner != text:
        # A body ends what it belongs to, as the semicolon of a declaration does.
        inner, text = text, re.sub(r"(\)?)\s*\{[^{}]*\}", lambda it: ") ;" if it[1] else " ", text)
    found = {}
    for returned, name, given in re.findall(r"(?:^|;)\s*([\w\s*]+?)\b(bitpacking_\w+)\s*\(([^()]*)\)\s*(?=;)", text):
        if not returned.startswith("static "):
            found[name] = " ".join(returned.split()).removeprefix("extern "), " ".join(given.split())
    return found


def names_of(given):
    """The names of parameters."""
    return [] if given == "void" else [re.search(r"(\w+)(\[\w*\])?$", it.strip())[1] for it in given.split(",")]


def chooser():
    """The text of the C file."""
    lines = [source(CHOICE)]
    for name, (returned, given) in sorted(prototypes().items()):
        gives = "" if returned == "void" else "return"
        lines.append(f"FUNCTION({returned}, {gives}, {name}, ({given}), ({', '.join(names_of(given))}))\n")
    return "".join(lines)


def written(path, text):
    with open(path, "w", encoding="utf-8") as file:
        file.write(text)


def joined(paths, archive):
    """Writes the archive for all levels: one object, which shows the names of the header alone. `paths` has the archive of each level by its
    prefix in LEVELS. Returns its path."""
    names = sorted(prototypes())
    with tempfile.TemporaryDirectory(prefix="levels-", dir=os.path.dirname(archive)) as folder:
        written(f"{folder}/levels.c", chooser())
        written(f"{folder}/names", "".join(f"{it}\n" for it in names))
        for prefix in paths:
            written(f"{folder}/{prefix}", "".join(f"{it} {prefix}_{it}\n" for it in names))
        objects = [f"{folder}/{prefix}.a" for prefix in paths]
        called("cc", *WARNED, *COMPILED, "-c", f"{folder}/levels.c", "-o", f"{folder}/levels.o")
        for (prefix, path), to in zip(paths.items(), objects):
            called("objcopy", f"--redefine-syms={folder}/{prefix}", path, to)
        called("ld", "-r", "--whole-archive", f"{folder}/levels.o", *objects, "-o", f"{folder}/bitpacking.o")
        called("objcopy", f"--keep-global-symbols={folder}/names", f"{folder}/bitpacking.o")
        called("ar", "rcsD", f"{folder}/bitpacking.a", f"{folder}/bitpacking.o")
        os.replace(f"{folder}/bitpacking.a", archive)
    return archive
