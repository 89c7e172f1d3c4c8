#!/usr/bin/env python3
"""Tests c/levels.c, by which each function of include/bitpacking.h chooses the level of x86-64 when it is called, over a function that says
which level it is for: it is the one that the C compiler's own test names, and in each copy of a processor that qemu-x86_64-static gives the
level of that copy. The first call keeps the level, and each later one goes by it alone. No copy has a system that does not save the
registers of AVX; for that the test puts numbers of its own in the place of what the processor says. That functions of the header are called
is tested by c.py.
"""
import shutil
import subprocess
import sys
import tempfile

sys.path.insert(1, f"{sys.path[0]}/..")
from common import leave_out, reported, run, source
from choosing import CHOICE, LEVELS, WARNED
from files import failed, other, written

# What each level adds, as qemu names it. Without one of them a processor has the level before.
V2 = ["cx16", "lahf-lm", "popcnt", "pni", "ssse3", "sse4.1", "sse4.2"]
V3 = ["avx", "avx2", "bmi1", "bmi2", "f16c", "fma", "abm", "movbe", "xsave"]

# A processor of each level, as qemu names it. It does not run an instruction that the processor lacks.
ONE_OF_EACH = {"core2duo,-cx16": "1", "Nehalem": "2", "Haswell": "3"}
OTHERS = "qemu-x86_64-static"

# The function of each level, and its calls: the first of all, with the level that is kept then, and one at each level that may be kept.
TEST = """
#include <stdio.h>
#include <stdlib.h>

unsigned v1_it(unsigned given) { return 10 + given; }
unsigned v2_it(unsigned given) { return 20 + given; }
unsigned v3_it(unsigned given) { return 30 + given; }
unsigned it(unsigned given);
FUNCTION(unsigned, return, it, (unsigned given), (given))

int main(int argc, char **argv)
{
    saved_by_this_system = argc > 1 ? strtoul(argv[1], 0, 10) : 0;
    printf("%u", it(7));
    printf(" %u", level);
    for (level = 1; level < 4; level++)
        printf(" %u", it(7));
    return 0;
}
"""
# What the processor says that its system saves, and what the test puts in its place: by what is saved, the level.
SAVED = '__asm__("xgetbv" : "=a"(saved), "=d"(high) : "c"(0));'
BY_THE_TEST = "(void)high, saved = saved_by_this_system;"
BY_SAVED = {"0": "2", "1": "2", "3": "2", "5": "2", "6": "3", "7": "3"}


def supports(level):
    """Whether this processor has a level, as the C compiler's own test says."""
    with tempfile.TemporaryDirectory(prefix="levels-") as folder:
        written(folder, {"it.c": f'int main(void) {{ __builtin_cpu_init(); return !__builtin_cpu_supports("{level}"); }}\n'})
        built = run("cc", f"{folder}/it.c", "-o", f"{folder}/it")
        return built.returncode == 0 and run(f"{folder}/it").returncode == 0


def program(folder, name, text):
    """Compiles the test of the C file with this text. Returns why that failed, or None."""
    written(folder, {f"{name}.c": f"unsigned saved_by_this_system;\n{text}{TEST}"})
    return failed(run("cc", *WARNED, "-O1", "-static", f"{folder}/{name}.c", "-o", f"{folder}/{name}"))


def checks():
    """Each processor, and each state of its system, as a name and what is wrong there, or None."""
    best = max(number for number, level in enumerate(LEVELS.values(), 1) if number == 1 or supports(level))
    runs, in_qemu = [("this processor", "as_it_is", [], best, [])], shutil.which(OTHERS)
    if in_qemu:
        without = [(V2, "1"), (V3, "2")]
        levels = ONE_OF_EACH | {f"Haswell,-{it}": level for features, level in without for it in features}
        runs += [(name, "as_it_is", [OTHERS, "-cpu", name], level, []) for name, level in levels.items()]
    else:
        leave_out("the levels of other processors", f"since there is no {OTHERS}")
    if in_qemu or best == 3:
        runner = [OTHERS, "-cpu", "Haswell"] if in_qemu else []
        runs += [(f"a system that saves the registers {it}", "by_the_test", runner, level, [it]) for it, level in BY_SAVED.items()]
    text = source(CHOICE)
    yield "what the system saves is asked once", other(text.count(SAVED), 1)
    with tempfile.TemporaryDirectory(prefix="levels-") as folder:
        yield "the test", program(folder, "as_it_is", text) or program(folder, "by_the_test", text.replace(SAVED, BY_THE_TEST))
        for name, its, runner, level, given in runs:
            done = run(*runner, f"{folder}/{its}", *given, stderr=subprocess.DEVNULL)
            yield name, other(done.stdout, f"{level}7 {level} 17 27 37")


if __name__ == "__main__":
    sys.exit(reported("the choice of a level", checks, "cc"))
