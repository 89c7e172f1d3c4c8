#!/usr/bin/env python3
"""Measures the calls of C on id sets of 24 shapes, beside CRoaring. Prints the table of docs/SPEED.md:

    scripts/bench/shapes.py [--rounds N] [--passes N] [--core N] [--roaring FOLDER] [SHAPE ..]
    scripts/bench/shapes.py --try

A shape is two sets of random ids, and calls on one set take the second. Both libraries take turns in one process; their answers have to be the same.
CRoaring has runs if these are smaller. When it opens bytes, by portable_deserialize_safe, it tests lengths alone: 0.2.66 has no other test.

It needs g++, and of Debian libroaring-dev, whose CRoaring is built for any x86-64: --roaring takes in its place one built for this processor, from
its sources in FOLDER (`apt-get source libroaring-dev`), and adds the means beside Debian's.

--try measures nothing, and compares the answers for sets of a tenth of the ids.
"""
import argparse
import array
import itertools
import os
import random
import re
import statistics
import sys
import tempfile

sys.path.insert(1, f"{sys.path[0]}/..")
from common import Failed, called, left_out_without, report
import by_cargo
import measured


def scattered(dice, count, low, high):
    return sorted(dice.sample(range(low, high), count))


def uniform(dice, count, one_of):
    """Ids anywhere, each as likely: one in this many is there."""
    return scattered(dice, count, 0, round(count * one_of))


def clustered(dice, count, one_of):
    """As dense, in clusters of clusters: the range is cut at random, and half of the ids are in each part. A part is divided like the range. But ten
    ids or fewer are anywhere in their part, and one time in two those of one part are."""

    def divided(dice, count, low, high):
        if count <= 10 or count == high - low:
            return scattered(dice, count, low, high)
        half = count // 2
        cut = dice.randint(low + half, high - count + half)
        first, second = dice.choice([(divided, divided), (divided, divided), (scattered, divided), (divided, scattered)])
        return itertools.chain(first(dice, half, low, cut), second(dice, count - half, cut, high))

    return divided(dice, count, 0, count * one_of)


def runs(dice, count, length, gap):
    """Runs of consecutive ids, and gaps between them. Their lengths are exponential around these means."""
    found, at = array.array("I"), 0
    while len(found) < count:
        first = at + 1 + int(dice.expovariate(1 / gap))
        at = first + 1 + int(dice.expovariate(1 / length))
        found.extend(range(first, at))
    return found


def zipf(dice, count, most):
    """Gaps by Zipf's law: one time in g a gap is g or more, but none is above `most`."""
    return itertools.accumulate(int(min(1 / (1 - dice.random()), most)) for _ in range(count))


# The shapes by name: for each set its rule, how many ids it has, and what else the rule takes.
COUNTS = {2: 500_000, 5: 300_000, **dict.fromkeys((10, 20, 50, 100, 1000, 10_000), 200_000)}
SHAPES = {f"uniform 1/{it:,}": [(uniform, count, it)] * 2 for it, count in COUNTS.items()}
SHAPES |= {f"clustered 1/{it:,}": [(clustered, 200_000, it)] * 2 for it in (10, 100, 1000)}
RUNS = [(100_000, 100_000), (1000, 1000), (100, 10_000), (10, 10), (10, 1000), (4, 100)]
SHAPES |= {f"runs {length:,}/{gap:,}": [(runs, 10**6, length, gap)] * 2 for length, gap in RUNS}
SHAPES["Zipf gaps"] = [(zipf, 200_000, 10**5)] * 2
PAIRS = [
    (1000, 10**6, 10**7),
    (100, 10**5, 10**7),
    (10**4, 200_000, 10**7),
    (3000, 3000, 500_000),
    (300, 300, 500_000),
    (30, 30, 500_000),
]
for one, other, below in PAIRS:
    name = re.sub(r"000\b", "k", re.sub(r"000000\b", "M", f"{one}+{other} of {below}"))
    SHAPES[name] = [(uniform, one, below / one), (uniform, other, below / other)]
# The columns of the table, each of one call or of several.
COLUMNS = ["bytes", "pack/open/unpack/iterate", "contains/rank/select/seek/move"]
COLUMNS += [*(f"AND/OR/NOT/XOR {it}" for it in ("to ids", "to a set", "to bytes", "counted")), "subset/disjoint"]


def write(folder, names, part):
    """Writes the ids of shapes, of which this part is taken, and how many each set has."""
    sets = []
    for name in names:
        dice = random.Random(name)
        sets += [array.array("I", rule(dice, count // part, *more)) for rule, count, *more in SHAPES[name]]
    for name, parts in {"ids": sets, "lens": [array.array("I", map(len, sets))]}.items():
        with open(f"{folder}/{name}", "wb") as file:
            file.writelines(parts)


def builds(given, library):
    """What is measured, by its name in the table: the library, and the sources of CRoaring."""
    yield "", library, given.roaring
    if not given.only_try:
        yield from ((f", {level} by cargo", by_cargo.archive(level), given.roaring) for level in ("x86-64", "x86-64-v3"))
    if given.roaring and os.path.exists(measured.ROARING[0]):
        yield ", beside Debian's", library, None


def measure(folder, names, given, library, *levels):
    """Returns the least bytes or seconds of both libraries, by build, shape and call."""
    programs, found, pinned = {}, {}, [] if given.only_try else ["taskset", "-c", given.core]
    write(folder, names, 10 if given.only_try else 1)
    linked = {it: measured.roaring(folder, it) for it in {given.roaring, None}}
    for build, archive, roaring in builds(given, library):
        programs[build] = f"{folder}/program{len(programs)}"
        measured.program(programs[build], "shapes", archive, *levels, *linked[roaring])
    for _, (build, program) in itertools.product(range(given.passes), programs.items()):
        said = called(*pinned, program, folder, str(given.rounds))
        for number, call, *both in (line.split("\t") for line in said.splitlines()):
            its = found.setdefault(build, {}).setdefault(names[int(number)], {})
            its[call] = [*map(min, map(float, both), its.get(call, [float("inf")] * 2))]
    return found


def cells(shares):
    """The row of a table by the shares of its calls, each in two digits. The first is the geometric mean of all speeds."""
    row = {"all": [statistics.geometric_mean(it for call, it in shares.items() if call != "bytes")]}
    for column in COLUMNS:
        calls, _, end = column.partition(" ")
        row[column] = [shares[f"{it} {end}".strip()] for it in calls.split("/")]
    return {column: "/".join(f"{it:.2g}" if it < 99.5 else f"{it:.0f}" for it in its).replace("0.", ".") for column, its in row.items()}


def show(found):
    """Prints the table: a row for each shape, and one of the geometric means for each build."""
    rows, means = [], []
    for build, shapes in found.items():
        shares = {
            name: {call: ours / theirs if call == "bytes" else theirs / ours for call, (ours, theirs) in its.items()}
            for name, its in shapes.items()
        }
        rows += [(name, cells(its)) for name, its in shares.items() if not build]
        calls = [*shares.values()][0]
        means.append((f"mean{build}", cells({call: statistics.geometric_mean(its[call] for its in shares.values()) for call in calls})))
    measured.show("CRoaring = 1", ["all", *COLUMNS], rows + means, "|")


def main():
    parser = argparse.ArgumentParser()
    parser.add_argument("--core", default="0")
    parser.add_argument("--rounds", type=int, default=9)
    parser.add_argument("--passes", type=int, default=3)
    parser.add_argument("--roaring")
    parser.add_argument("--try", action="store_true", dest="only_try")
    parser.add_argument("shapes", nargs="*")
    given = parser.parse_args()
    names = [it for it in SHAPES if it in (given.shapes or SHAPES)]
    lacking = [] if given.roaring or os.path.exists(measured.ROARING[0]) else [measured.ROARING[1]]
    if left_out_without("sets of 24 shapes beside CRoaring", "g++", others=lacking):
        return 0
    with tempfile.TemporaryDirectory(prefix="shapes-") as folder:
        if given.only_try:
            given.rounds = given.passes = 1
            try:
                found = measure(folder, names, given, measured.library(), "-O1")
            except Failed as why:
                return report([("sets of 24 shapes beside CRoaring", str(why))])
            show(found)
            return report((f"{call} of {name}", None) for name, its in found[""].items() for call in its)
        library = measured.library()
        found = measure(folder, names, given, library, "-O3", "-march=native")
        print(measured.head(library))
        show(found)
    return 0


if __name__ == "__main__":
    sys.exit(main())
