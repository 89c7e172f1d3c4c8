#!/usr/bin/env python3
"""Compiles and runs C programs over the archive for all levels of the processor and that of each level: those of examples/, whose output is
worked by hand, calls.c, ranking.c and pages.c, id_sets.c, wide_sets.c, bitmaps.c and columns.c over the tables of vectors/, cursors.c and cases.c, random cases. They are
C99 with every warning an error, run with little stack, and over the first archive once more with the address sanitizer. calls.c is also C++11 and C++17. In qemu all run
on aarch64, those that read no table on an x86-64 of each level, and three over the Rust crate on aarch64. The header has no warning of gcc or
clang, from C99 to C23 and from C++11 to C++20, for 64 and 32 bits; bitpacking.hpp has none from C++17 to C++23, and runs the example and sets.cpp.

A part that lacks a tool is left out, and named.
"""
import functools
import os
import re
import resource
import shutil
import subprocess
import sys
import tempfile

sys.path.insert(1, f"{sys.path[0]}/..")
from common import ROOT, leave_out, missing, run, source
import archives
from files import failed, printed
import levels
import machines

STRICT = ["-Wall", "-Wextra", "-Werror", "-pedantic", f"-I{ROOT}/include"]
C99 = ["cc", "-std=c99", *STRICT]
CROSS, QEMU = "aarch64-linux-gnu-gcc", "qemu-aarch64-static"
CALLS = "scripts/test/calls.c"
ID_SETS = "scripts/test/id_sets.c"
BITMAPS = "scripts/test/bitmaps.c"
WIDE_SETS = "scripts/test/wide_sets.c"
COLUMN_TABLES = "scripts/test/columns.c"
CURSORS = "scripts/test/cursors.c"
RANKING = "scripts/test/ranking.c"
RANDOM = "scripts/test/cases.c"
PAGES = "scripts/test/pages.c"
SETS, ROARING = "scripts/test/sets.cpp", "/usr/include/roaring/roaring.h"
STACK = 256 << 10  # bytes; the sanitizer needs more
SANITIZED = ["-fsanitize=address,undefined", "-fno-sanitize-recover=all"]
# What each compiler is asked for the header, and by language.
WARNINGS = (
    "-Wall -Wextra -Wpedantic -Wconversion -Wsign-conversion -Wshadow -Wundef -Wmissing-field-initializers -Werror -fsyntax-only".split()
)
WARNINGS_OF = {
    "c": "-Wcast-qual -Wstrict-prototypes -Wmissing-prototypes -Wc++-compat".split(),
    "c++": "-Wold-style-cast -Wzero-as-null-pointer-constant".split(),
}
STANDARDS = {"c": ["c99", "c11", "c17", "c2x"], "c++": ["c++11", "c++14", "c++17", "c++20"]}
COMPILERS = {"c": ["gcc", "clang"], "c++": ["g++", "clang++"]}
# The index of the documents 1 to 1000, by hand: 500, 333 and 200 numbers. Each word has one chunk. Its ids have the high bytes 0 to 3, each with
# more than 32 low ones, which take 32 bytes of bits: the body is a byte, 4 high bytes, 4 counts and 4 * 32 bytes, 137. Before it are byte 0, 2 bytes
# for their number, 1 for one chunk, 1 of sizes, 2 for its key, 1 for 137, and the number again, in 2 bytes or in 1 if it is below 256: 10 or 9.
# So even and fizz have 147 bytes, and buzz 146. Below 128 ids there are byte 0, the first id and groups of 32 codes: the 33 multiples of 30 have
# a group of 32 codes 29 at width 5, in 1 and 20 bytes.
INDEX = """\
3 words in 440 bytes
fizz AND buzz AND even: 33 documents in 23 bytes, [30, 60, 90, 120] ..
fizz OR buzz: 467 documents in 147 bytes, [3, 5, 6, 9] ..
even NOT fizz: 334 documents in 147 bytes, [2, 4, 8, 10] ..
(fizz OR buzz) NOT even: 234 documents in 146 bytes, [3, 5, 9, 15] ..
fizz AND odd: 0 documents in 1 bytes, [] ..
"""
PROGRAMS = {
    # Gaps of 3: two bits each, and so 2 * 16 bytes.
    "examples/block.c": "128 ids in 32 bytes\n",
    # Gaps of 2 and 4 in turn: one less are 1 and 3, two bits each, and so 2 * 16 bytes for each block of 128.
    "examples/chain.c": "300 numbers: 2 and 2 bits, 64 bytes, 44 numbers as they are\n",
    "examples/id_set.c": "in both: 9\nin both: 300\n",
    "examples/cursor.c": "position 1 and 0: 9\nposition 3 and 2: 300\n",
    # Byte 0, the first id 7 as a number, and a group of the codes 1, 0, 289 and 4 of 7, 9, 10, 300 and 305: a byte with their width 9, and 36 bits.
    "examples/growing_set.c": "4 and 1 ids in 8 bytes\nleft: 10\nleft: 305\n",
    # Row r costs 5000 and 37 * r, modulo 1000. Since 37 * 973 is 36001, each price from 5000 to 5999 is there once, and 1 more is 27 rows before.
    # 5100 is in row 300. Each block and each group has a price more than 511 above the least, and so 10 bits. The column has byte 0, 2 bytes for
    # 1000, 1 of sizes, 7 ends of 1 and 7 marks of 2, 7 * 160 of blocks, and 2 of the least of the 104 other prices, whose groups have 41, 41, 41
    # and 11 bytes.
    "examples/column.c": "1000 prices in 1281 bytes\nrow 300: 5100\n20 rows: 3 30 57 84 111 138 165 192 219 246 273 300 787 814 841 868 895 922 949 976\n",
    "examples/index.c": INDEX,
    # Dogs weigh 200: 200 * 1 / 4, 200 * 2 / 3 and 200 * 1 / 2. Cats weigh 100: 9 has 100 * 3 / 6, and 300 has 100 * 2 / 3.
    "examples/ranked.c": "document 300: 166\ndocument 11: 133\ndocument 9: 100\n",
    CALLS: "all calls\n",
    # Each row of the tables that it is given.
    ID_SETS: "563 sets, 3031 refusals, 189 pairs\n",
    BITMAPS: "165 bitmaps, 614 refusals\n",
    WIDE_SETS: "524 wide sets, 2773 refusals\n",
    COLUMN_TABLES: "727 columns, 2605 refusals\n",
    CURSORS: "240 sets\n",
    RANKING: "all calls\n",
    RANDOM: "340 cases\n",
    PAGES: "all calls\n",
}
# By hand: 9 and 300 are in both sets; of 7, 9, 10, 11 and 300 the range takes 10 and 11. 0 to 9 and 300 are byte 0, the first id as a number, and a group
# of ten codes, nine 0 and 290: a byte with their width 9, and 90 bits.
IN_CPP = {
    "examples/id_set.cpp": """\
in both: 9
in both: 300
3 ids, without 11, first after 9: 300
9 ids below 9, 11 in all
15 bytes, the same set
Bytes are missing.
""",
    SETS: "all calls\n",
}
VECTORS = {
    ID_SETS: ["id_sets", "refused_id_sets", "combined_id_sets"],
    BITMAPS: ["bitmaps", "refused_bitmaps"],
    WIDE_SETS: ["wide_sets", "refused_wide_sets"],
    COLUMN_TABLES: ["columns", "refused_columns"],
}


@functools.cache
def has_sanitizers():
    with tempfile.TemporaryDirectory(prefix="c-") as folder:
        built = run("cc", *SANITIZED, "-xc", "-", "-o", f"{folder}/it", input="int main(void) { return 0; }\n")
        return built.returncode == 0 and run(f"{folder}/it").returncode == 0


def with_little_stack():
    resource.setrlimit(resource.RLIMIT_STACK, (STACK, STACK))


def compiled_and_run(path, compiler, *library, runner=(), top=ROOT, **more):
    """What is wrong with a program over a library, or None: it has to print what PROGRAMS or IN_CPP says. The words of the compiler come
    before it, and those that link the library after it. More is for running it."""
    given = {"input": "".join(source(f"vectors/{table}.tsv") for table in VECTORS.get(path, []))}
    with tempfile.TemporaryDirectory(prefix="c-") as folder:
        built = run(*compiler, f"{top}/{path}", "-x", "none", *library, "-o", f"{folder}/program")
        return failed(built) or printed(run(*runner, f"{folder}/program", **given, **more), (PROGRAMS | IN_CPP)[path])


def places():
    """The archives that this processor runs: a name and a path of each."""
    yield "all levels", f"{archives.OUT}/{archives.ALL}"
    for level in archives.LEVELS.values():
        if level == "x86-64" or levels.supports(level):
            yield level, archives.archive(level)
        else:
            leave_out(f"the C programs at the level {level}", "which this processor does not have")


def on_other_processors():
    """The programs in qemu: each as a name and what is wrong, or None."""
    if missing(levels.OTHERS):
        leave_out("the C programs on other levels of x86-64", f"since there is no {levels.OTHERS}")
    else:
        for program in [it for it in PROGRAMS if it not in VECTORS]:
            for processor in levels.ONE_OF_EACH:
                library, runner = f"{archives.OUT}/{archives.ALL}", [levels.OTHERS, "-cpu", processor]
                why = compiled_and_run(program, [*C99, "-static"], library, runner=runner, stderr=subprocess.DEVNULL)
                yield f"{program} on {processor}", why
    compiler = [CROSS, "-std=c99", "-static", *STRICT]
    if missing(CROSS, QEMU) or archives.are_fast():
        leave_out("the C programs on aarch64", f"since there is no {CROSS}, no {QEMU} or no proved archive")
    else:
        for program in PROGRAMS:
            yield f"{program} on aarch64", compiled_and_run(program, compiler, archives.archive(archives.ARM), runner=[QEMU])
    # The Rust crate's own operations of NEON, which no proof is about.
    machine = machines.MACHINES["aarch64"]
    if why := machines.lack(machine):
        leave_out("the C programs over the Rust crate on aarch64", why)
    else:
        folder = machines.built(machine, ROOT, f"{machines.OUT}/c", "--package", "bitpacking_c", PANIC="abort", **machines.QUICK)
        library = [f"{folder}/libbitpacking.a", f"-Wl,--defsym={machines.by_cargo.UNWINDS}=0"]
        for program in [CALLS, RANKING, RANDOM]:
            why = compiled_and_run(program, compiler, *library, runner=[QEMU])
            yield f"{program} over the Rust crate on aarch64", why


def plainly(program):
    """The words that compile a program, or none if there is no compiler for it."""
    if program.endswith(".c"):
        return ["cc", "-std=c99"]
    return ["c++", "-std=c++17"] if shutil.which("c++") else []


def uses():
    """A program in C and C++ that uses each macro of the header. Its structs begin as they do in a program of a user."""
    macros = re.findall(r"^#define (BITPACKING_\w+)(\(\w+\))? ", source("include/bitpacking.h"), re.M)
    names = [(name, name.removesuffix("_EMPTY").lower()) for name, _ in macros if name.endswith("_EMPTY")]
    empty = [f"    {struct} {struct[11:]} = {name}, two_{struct[11:]}[2] = {{{name}, {name}}};" for name, struct in names]
    used = [f"    sum += {name}{'(1)' if given else ''} != 0;" for name, given in macros if not name.endswith("_EMPTY")]
    used += [f"    sum += sizeof {struct[11:]} != sizeof two_{struct[11:]};" for _, struct in names]
    begin, end = ['#include "bitpacking.h"', "int main(void)", "{"], ["    return sum == 0;", "}", ""]
    return "\n".join([*begin, *empty, "    unsigned sum = 0;", *used, *end])


def headers():
    """The header with each compiler, language and size of a pointer: each as a name and what is wrong, or None."""
    for compiler, language in [(compiler, language) for language, compilers in COMPILERS.items() for compiler in compilers]:
        if not shutil.which(compiler):
            leave_out(f"the header with {compiler}", "which is not here")
            continue
        words = [it for it in [*WARNINGS, *WARNINGS_OF[language]] if it != "-Wc++-compat" or compiler == "gcc"]
        for bits in ["-m64", "-m32"]:
            command = [compiler, "-x", language, *words, f"-I{ROOT}/include", bits, "-ffreestanding", "-"]
            said = [failed(run(*command, f"-std={it}", input=uses())) for it in STANDARDS[language]]
            yield f"the header with {compiler} {bits}", "\n".join(filter(None, said)) or None


def in_cpp():
    """bitpacking.hpp with each compiler, and the programs over it: each as a name and what is wrong, or None."""
    library = f"{archives.OUT}/{archives.ALL}"
    for compiler in [it for it in COMPILERS["c++"] if shutil.which(it)]:
        warned = [compiler, *[it for it in WARNINGS if it != "-fsyntax-only"], *WARNINGS_OF["c++"], f"-I{ROOT}/include"]
        for standard in ["c++17", "c++20", "c++2b"]:
            yield f"bitpacking.hpp as {standard} with {compiler}", failed(
                run(*warned, f"-std={standard}", "-fsyntax-only", f"{ROOT}/{SETS}")
            )
        for program in IN_CPP:
            yield f"{program} with {compiler}", compiled_and_run(program, [*warned, "-std=c++17"], library)
    for program in IN_CPP if shutil.which("c++") and has_sanitizers() else []:
        yield f"{program}, sanitized", compiled_and_run(program, ["c++", "-std=c++17", *STRICT, *SANITIZED], library)
    if shutil.which("c++"):
        program = "examples/id_set.cpp"
        yield f"{program} without exceptions", compiled_and_run(program, ["c++", "-std=c++17", "-fno-exceptions", *STRICT], library)
    if shutil.which("c++") and os.path.exists(ROARING):
        # The bench of docs/FROM-ROARING.md, which is not run here.
        bench = "scripts/bench/access.cpp"
        yield bench, failed(
            run("c++", "-std=c++17", *"-Wall -Wextra -Werror -fsyntax-only".split(), f"-I{ROOT}/include", f"{ROOT}/{bench}")
        )


def checks():
    """Each check as a name and what is wrong, or None."""
    yield from headers()
    yield from in_cpp()
    has_cpp = shutil.which("c++")
    if not has_sanitizers():
        leave_out("the C programs under the address sanitizer", "which cc does not have here")
    if not has_cpp:
        leave_out(f"{CALLS} as C++", "since there is no c++")
    for level, archive in places():
        for program in PROGRAMS:
            yield f"{program} at {level}", compiled_and_run(program, C99, archive, preexec_fn=with_little_stack)
            # The sanitizer sees the program alone, and not the code of an archive.
            if level == "all levels" and has_sanitizers():
                yield f"{program}, sanitized", compiled_and_run(program, [*C99, *SANITIZED], archive)
        for standard in ["c++11", "c++17"] if has_cpp else []:
            compiler = ["c++", f"-std={standard}", *STRICT, "-x", "c++"]
            yield f"{CALLS} as {standard} at {level}", compiled_and_run(CALLS, compiler, archive)
    yield from on_other_processors()


if __name__ == "__main__":
    sys.exit(archives.reported("the C programs", checks, "cc"))
