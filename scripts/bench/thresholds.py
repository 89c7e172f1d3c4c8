#!/usr/bin/env python3
"""Times thresholds: constants on which only the time of a call depends. Builds the Rust crate with each value of a threshold, and repeats the calls
that it decides (scripts/bench/thresholds.rs), all values by turns. Prints for each threshold the nanoseconds of processor time of each call with
today's value, and for each value the call's time as a share of these, by the best of the rounds:

    scripts/bench/thresholds.py [--rounds N] [--nice N] [--instructions] [NAME[=VALUE,VALUE..] ..]

--instructions counts instructions by callgrind in place of time, for a machine that has other work. Without a name it takes all thresholds.
"""
import argparse
import re
import shutil
import sys
import tempfile

sys.path.insert(1, f"{sys.path[0]}/..")
from common import ROOT, called, source
import by_cargo
import measured

# The thresholds by file and name, each with values, and with calls as words of scripts/bench/thresholds.rs.
QUERIES, RANKED = "crates/bitpack_queries/src", "crates/bitpack_ranked/src"
FEW_OF_KEY = [f"retain 16 {16 * n} {size}" for n in (1, 2, 3, 4, 6, 10, 20) for size in (80_000, 300_000)]
MANY_OF_KEY = [f"retain 16 {16 * n} {size}" for n in (192, 384, 768, 1536) for size in (30_000, 80_000, 300_000)]
ADDED = [f"add 16 {16 * n} {size}" for n in (10, 20, 48, 96, 192) for size in (8_000, 80_000)]
FOLDED = ["or 64 2000 30000 200000", "or 64 2000000 1000000 500000", "or 64 300*200", "or 64 2000*200", "or 64 30000*20"]
FOLDED += [f"count-{it}" for it in FOLDED] + ["count-not 64 800000 400000 200000", "count-and 64 300000 400000 500000"]
COUNTED = [f"count-{it} 64 {n} 200000 300000" for n in (100, 700, 1500, 3000, 6000, 12000) for it in ("and", "not")]
SUBTRACTED = [f"not 16 {16 * n} {size} 300000" for n in (200, 400, 800, 1500, 3000) for size in (30_000, 200_000)]
BITS = [f"or 16 {4096 * n} {4096 * n}" for n in (3, 6, 12, 24, 48)] + [f"and 16 {4096 * n} {4096 * n}" for n in (40, 60, 90, 120)]
UNITED = ["add 16 200 300", "add 16 100 20000", "add 16 2000 20000", "add 16 20000 200000", "add 16 100000 700000"]
WORDS = ["2000 30000 200000", "2000 30000+ 200000+", "500 50000 200000", "500 50000+ 200000+", "5000 100000 300000", "5000 100000+ 300000+"]
BEST = [f"{call} 16 {sets}" for call in ("best", "among") for sets in [*WORDS, "50000 200000", "50000 200000+"]]
THRESHOLDS = {
    f"{QUERIES}/in_place.rt MANY": ([0, 1, 3, 7, 15], FEW_OF_KEY),
    f"{QUERIES}/in_place.rt MOST": ([127, 255, 511, 1023, 2047], MANY_OF_KEY),
    f"{QUERIES}/in_place.rt SOME": ([7, 15, 31, 63, 127], ADDED),
    f"{QUERIES}/folding.rt KEYS": ([2, 4, 8, 16, 32], FOLDED),
    f"{QUERIES}/combining_all.rt MOST_WRITTEN": ([512, 1024, 2048, 4096, 8192], COUNTED),
    f"{QUERIES}/combining_all.rt DENSE": ([256, 512, 1024, 2048, 4096], SUBTRACTED),
    "crates/bitpack_slices/src/bitmap/unpacking.rt FEW": ([0, 8, 16, 32, 256], BITS),
    "crates/bitpack_sets/src/ids.rt MOST_UNPACKED": ([64, 128, 256, 512, 1024], UNITED),
    f"{RANKED}/bounds.rt MANY": ([4, 16, 64, 256, 1024], BEST),
    "rust/translate/src/levels.rs MANY": ([1, 16, 32, 64, 128, 256], [f"push 1 {n}" for n in (8, 24, 48, 96, 192, 512)]),
}
# Other places that have the number of a threshold.
FOLDING = [
    (f"{QUERIES}/folding.rt", r"(?<=base \+ )8\b"),
    (f"{QUERIES}/combining_all.rt", r"(?<=next / )8(?= \* 8;)|(?<=next / 8 \* )8(?=;)"),
]
MORE = {f"{QUERIES}/folding.rt KEYS": FOLDING}


def places(name):
    """The files that have the value of a threshold, each with a pattern of it."""
    path, constant = name.split()
    return [(path, rf"(?<=const {constant}: usize = )\d+"), *MORE.get(name, [])]


def copied(folder):
    """Copies what the crate is built of, with the program that times a call as an example."""
    for path in ("crates", "rust"):
        shutil.copytree(f"{ROOT}/{path}", f"{folder}/{path}")
    shutil.copy(f"{ROOT}/Cargo.lock", folder)
    with open(f"{folder}/Cargo.toml", "w", encoding="utf-8") as file:
        file.write(source("Cargo.toml").replace('lto = "fat"', "lto = false"))
        file.write(f'\n[[example]]\nname = "thresholds"\npath = "{ROOT}/scripts/bench/thresholds.rs"\n')


def built(name, value, folder):
    """Builds the program with a value of a threshold. Returns its path."""
    texts = {path: source(path) for path, _ in places(name)}
    for path, pattern in places(name):
        texts[path] = re.sub(pattern, str(value), texts[path])
        with open(f"{folder}/{path}", "w", encoding="utf-8") as file:
            file.write(texts[path])
    # The levels are chosen at run time only if the crate is for any processor.
    level = "x86-64" if "levels" in name else "x86-64-v3"
    by_cargo.cargo("build", f"{folder}/target", "--release", "--example", "thresholds", flags=f"-C target-cpu={level}", folder=folder)
    return shutil.copy(f"{folder}/target/release/examples/thresholds", f"{folder}/with-{value}")


def taken(program, words, given):
    """The nanoseconds of a call, or its instructions."""
    if not given.instructions:
        return float(called("nice", "-n", given.nice, program, "10", *words))
    valgrind = ["valgrind", "--tool=callgrind", "--callgrind-out-file=/dev/null", "--toggle-collect=*::pass"]
    return int(re.search(r"Collected : (\d+)", called(*valgrind, program, "0", *words))[1])


def measure(name, values, given):
    """Prints the table of a threshold."""
    path, pattern = places(name)[0]
    now, calls, rows = int(re.search(pattern, source(path))[0]), THRESHOLDS[name][1], []
    with tempfile.TemporaryDirectory(prefix="thresholds-") as folder:
        copied(folder)
        programs = {value: built(name, value, folder) for value in dict.fromkeys([*values, now])}
        for words in calls:
            rounds = 1 if given.instructions else given.rounds
            took = measured.turns(programs, rounds, lambda program: taken(program, words.split(), given))
            rows.append((words, {"today": f"{took[now]:,.0f}"} | {value: f"{it / took[now]:.3f}" for value, it in took.items()}))
    unit = "instructions" if given.instructions else "ns"
    measured.show(f"{name} = {now}, {unit}", ["today", *map(str, values)], [(it, {str(k): v for k, v in row.items()}) for it, row in rows])


def main():
    parser = argparse.ArgumentParser()
    parser.add_argument("--rounds", type=int, default=15)
    parser.add_argument("--nice", default="0")
    parser.add_argument("--instructions", action="store_true")
    parser.add_argument("names", nargs="*", default=[])
    given = parser.parse_args()
    print(measured.head())
    wanted = [it.partition("=") for it in given.names] or [("", "", "")]
    for word, _, values in wanted:
        for name in [it for it in THRESHOLDS if word in it]:
            measure(name, [int(it) for it in values.split(",") if it] or THRESHOLDS[name][0], given)
    return 0


if __name__ == "__main__":
    sys.exit(main())
