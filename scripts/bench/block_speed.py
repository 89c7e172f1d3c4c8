#!/usr/bin/env python3
"""Times blocks and columns from C. Prints the tables of docs/SPEED.md: billions of integers a second of blocks, at each level of x86-64 that this
processor has, and nanoseconds of calls on columns:

    scripts/bench/block_speed.py [--core N] [--rounds N]
"""
import argparse
import sys
import tempfile

sys.path.insert(1, f"{sys.path[0]}/..")
from common import ROOT, called, run
import archives
import measured

KINDS = ["plain", "sorted", "strict"]
# How often each level has its turn.
PASSES = 3
BLOCK_CALLS = ["pack", "unpack", "width"]
COLUMN_CALLS = ["bits a value", "pack", "open", "unpack", "`get`", "`gather`", "`seek`", "`count_between`", "append 1,000"]


def timed(level, core, rounds):
    """What scripts/bench/blocks.c prints over the library of a level, as lists of words: none if this processor lacks the level."""
    with tempfile.TemporaryDirectory(prefix="speed-") as folder:
        names = [f"-I{ROOT}/include", f"{ROOT}/scripts/bench/blocks.c", measured.library(level)]
        called("cc", "-std=c99", "-O2", *names, "-o", f"{folder}/blocks")
        done = run("taskset", "-c", core, f"{folder}/blocks", rounds)
    return [line.split("\t") for line in done.stdout.splitlines()] if done.returncode == 0 else []


def best(one, other):
    """Of two rows of a pass the better one, word by word: more integers a second, or fewer nanoseconds."""
    pick = max if one[0] == "block" else min
    return [*one[:3], *(pick(its, key=float) for its in zip(one[3:], other[3:]))]


def cell(nanoseconds):
    return f"{nanoseconds:.3g}" if nanoseconds < 1000 else f"{nanoseconds / 1000:.0f} µs"


def main():
    parser = argparse.ArgumentParser()
    parser.add_argument("--core", default="0")
    parser.add_argument("--rounds", default="9")
    given, found = parser.parse_args(), {}
    for _ in range(PASSES):
        for level in archives.LEVELS.values():
            rows = timed(level, given.core, given.rounds)
            if rows:
                found[level] = [best(*both) for both in zip(found.get(level, rows), rows)]
    print(measured.head(measured.library("x86-64")))
    blocks = {}
    for _, packer, kind, *speeds in (row for rows in found.values() for row in rows if row[0] == "block"):
        for call, speed in zip(BLOCK_CALLS, speeds):
            blocks.setdefault(f"{packer}, {KINDS[int(kind)]}", {}).setdefault(call, []).append(f"{float(speed) / 1e9:.2f}")
    rows = [(name, {call: "/".join(its) for call, its in cells.items()}) for name, cells in blocks.items()]
    measured.show(f"at {'/'.join(found)}", BLOCK_CALLS, rows)
    columns = []
    for _, kind, bound, *cells in (row for row in [*found.values()][-1] if row[0] == "column"):
        name = f"{'sorted, gaps' if kind == '1' else 'plain,'} below {int(bound):,}"
        columns.append((name, {call: cell(float(it)) for call, it in zip(COLUMN_CALLS, cells) if kind == "1" or call != "`seek`"}))
    measured.show(f"a million values, at {[*found][-1]}", COLUMN_CALLS, columns)


if __name__ == "__main__":
    main()
