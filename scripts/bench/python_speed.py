#!/usr/bin/env python3
"""Times the Python package beside numpy, and CRoaring by ctypes, as a package of Python would call it. Prints the table of docs/SPEED.md, and that
of docs/PYTHON.md, which is beside masks and arrays of numpy:

    scripts/bench/python_speed.py [--rounds N]

It compiles the package for the Python that has numpy, as scripts/quick does, and runs there.
"""
import argparse
import ctypes
import io
import os
import sys

sys.path.insert(1, f"{sys.path[0]}/..")
from common import ROOT, called
import install
import measured
import python

COUNT, RANGES = 1_000_000, [2_000_000, 10_000_000, 1_000_000_000]
PARAGRAPHS, ROWS, JOBS = 400_000, 5_000_000, ["fimulowen", "numpy"]
FOLDER = f"{ROOT}/out/bench"


def call(name, *words):
    """Calls a function of libroaring. A bitmap is its address; each argument and result is a word of 64 bits."""
    function = getattr(ctypes.CDLL("libroaring.so.0"), f"roaring_bitmap_{name}")
    function.restype = ctypes.c_size_t
    return function(*map(ctypes.c_size_t, words))


def bitmap_of(values):
    return call("of_ptr", len(values), values.ctypes.data)


def array_of(bitmap):
    """The ids of a bitmap, which is freed."""
    out = np.empty(call("get_cardinality", bitmap), "u4")
    call("to_uint32_array", bitmap, out.ctypes.data)
    call("free", bitmap)
    return out


def saved(values):
    bitmap = bitmap_of(values)
    out = ctypes.create_string_buffer(call("portable_size_in_bytes", bitmap))
    call("portable_serialize", bitmap, ctypes.addressof(out))
    call("free", bitmap)
    return out


def saved_by_numpy(values):
    out = io.BytesIO()
    np.save(out, values)
    return out


def rows(a, b):
    """Each row as a name, and a call for each way."""
    one, other, bitmaps = fimulowen.IdSet(a), fimulowen.IdSet(b), (bitmap_of(a), bitmap_of(b))
    joined = lambda name: lambda: array_of(call(name, *bitmaps))
    assert (fimulowen.intersect(one, other) == np.intersect1d(a, b)).all() and (joined("or")() == fimulowen.unite(one, other)).all()
    yield "array to bytes", (lambda: fimulowen.IdSet(a).data, lambda: saved_by_numpy(a), lambda: saved(a))
    yield "AND to an array", (lambda: fimulowen.intersect(one, other), lambda: np.intersect1d(a, b, assume_unique=True), joined("and"))
    yield "OR to an array", (lambda: fimulowen.unite(one, other), lambda: np.union1d(a, b), joined("or"))


def timed(rounds):
    """Prints the table. A cell has a number for each range of ids."""
    random, found, columns = np.random.default_rng(1), {}, ["IdSet", "numpy", "CRoaring"]
    for most in RANGES:
        a, b = (np.sort(random.choice(most, COUNT, replace=False)).astype("u4") for _ in range(2))
        for name, ways in rows(a, b):
            for way, it in measured.turns(dict(zip(columns, ways)), rounds).items():
                found.setdefault(name, {}).setdefault(way, []).append(f"{1e3 * it:.1f}")
    print(measured.head(os.environ["MEASURED"]))
    cells = [(name, {way: "/".join(its) for way, its in ways.items()}) for name, ways in found.items()]
    measured.show(f"two sets of {COUNT:,} ids below {'/'.join(f'{it:,}' for it in RANGES)}, ms", columns, cells)


def by_hand(words, lengths, most):
    """BM25 as one writes it in numpy, over the ids and counts of words."""
    scores, mean = np.zeros(len(lengths)), lengths.mean()
    for ids, counts in words:
        idf = np.log(1 + (len(lengths) - len(ids) + 0.5) / (len(ids) + 0.5))
        scores[ids] += idf * 2.2 * counts / (counts + 1.2 * (0.25 + 0.75 * lengths[ids] / mean))
    best = np.argpartition(-scores, most)[:most]
    return best[np.argsort(-scores[best])]


def index_rows(random):
    """The ten best of 400,000 paragraphs with any of some words, or all."""
    lengths = np.minimum(random.geometric(1 / 30, PARAGRAPHS), 2000)
    words = []
    for share in (0.3, 0.06, 0.02):
        ids = np.flatnonzero(random.random(PARAGRAPHS) < share)
        words.append((ids, random.geometric(0.6, len(ids))))
    model = fimulowen.BM25(lengths)
    terms = [model.term(*word) for word in words]
    for count in (2, 3):
        its, found = terms[-count:], words[-count:]
        yield f"best ten with any of {count} words", (
            lambda its=its: fimulowen.best(its, 10),
            lambda found=found: by_hand(found, lengths, 10),
        )
    yield "a term", (lambda: model.term(*words[1]),)


def frame_rows(random):
    """Filters, groups and joins of a frame of five million rows."""
    codes = np.minimum(random.pareto(1.2, ROWS) * 3, 49).astype("i2")
    age, user = random.integers(13, 90, ROWS), random.integers(0, 400_000, ROWS)
    country, is_pro, ages = fimulowen.IdSet.groups(codes), random.random(ROWS) < 0.08, fimulowen.Column(age)
    pro, some = fimulowen.IdSet.of_mask(is_pro), list(range(10, 20))
    buyers = fimulowen.IdSet(user[is_pro])
    probes, ids = random.integers(0, 400_000, 1_000_000), buyers.unpack()

    def chosen():
        rows = (country[3] & pro).unpack()
        found = ages.gather(rows)
        return rows[(found >= 30) & (found <= 40)]

    def grouped():
        order = np.argsort(codes, kind="stable")
        return np.split(order, np.cumsum(np.bincount(codes, minlength=50))[:-1])

    def united():
        return fimulowen.unite(*map(country.__getitem__, some))

    is_within = lambda: np.flatnonzero((codes == 3) & is_pro & (age >= 30) & (age <= 40))
    assert (chosen() == is_within()).all() and (buyers.contains(probes) == np.isin(probes, ids)).all()
    assert (buyers.rank(probes) == np.searchsorted(ids, probes)).all() and (country[3].complement(ROWS).mask(ROWS) == (codes != 3)).all()
    yield "a set for each of 50 countries", (lambda: fimulowen.IdSet.groups(codes), grouped)
    yield "a mask of 8 %, to a set or ids", (lambda: fimulowen.IdSet.of_mask(is_pro), lambda: np.flatnonzero(is_pro))
    yield "a set of 8 % to a mask", (lambda: pro.mask(ROWS), lambda: codes == 3)
    yield "country, plan and age: rows", (chosen, is_within)
    yield "any of ten countries: rows", (united, lambda: np.flatnonzero(np.isin(codes, some)))
    yield "not a country, to a set or rows", (lambda: country[3].complement(ROWS), lambda: np.flatnonzero(codes != 3))
    counts = lambda: [fimulowen.intersect_len(it, pro) for it in country]
    yield "rows of each country in a plan", (counts, lambda: np.bincount(codes[is_pro], minlength=50))
    yield "contains of five million users", (lambda: buyers.contains(user), lambda: np.isin(user, ids, kind="table"))
    yield "rank of a million users", (lambda: buyers.rank(probes), lambda: np.searchsorted(ids, probes))
    yield "megabytes of country, age, user", (
        (fimulowen.Column(user).nbytes + ages.nbytes + sum(it.nbytes for it in country)) / 1e6,
        (codes.nbytes + age.nbytes + user.nbytes) / 1e6,
    )


def segment_rows(random):
    """A day's changes of a million ids below 20 million."""
    ids = np.unique(random.integers(0, 20_000_000, 1_000_000)).astype("u4")
    more, fewer = random.integers(0, 20_000_000, 10_000), random.choice(ids, 5_000)
    packed = fimulowen.IdSet(ids)
    changed = lambda: np.setdiff1d(np.union1d(ids, more), fewer)
    assert ((packed | more) - fewer).unpack().tolist() == changed().tolist()
    yield "a day's changes of a million ids", (lambda: (packed | more) - fewer, changed)
    yield "one id more", (lambda: packed | [12345], lambda: np.union1d(ids, [12345]))


def jobs(rounds):
    """Prints the table of three jobs."""
    random, cells = np.random.default_rng(2), []
    for name, ways in [*index_rows(random), *frame_rows(random), *segment_rows(random)]:
        if callable(ways[0]):
            ways = [1e3 * it for it in measured.turns(dict(enumerate(ways)), rounds).values()]
        cells.append((name, {way: f"{it:.2f}" for way, it in zip(JOBS, ways)}))
    measured.show("ms", JOBS, cells)


def main():
    parser = argparse.ArgumentParser()
    parser.add_argument("--rounds", type=int, default=7)
    rounds = parser.parse_args().rounds
    if "MEASURED" in os.environ:
        timed(rounds)
        jobs(rounds)
        return
    interpreter, lack = python.chosen(("numpy",))
    if not interpreter:
        sys.exit(f"there is no {' and no '.join(lack)}")
    library = measured.library()
    install.install(f"{FOLDER}/prefix", library)
    why = python.made(interpreter, f"{FOLDER}/prefix", f"{FOLDER}/python")
    if why:
        sys.exit(why)
    env = dict(os.environ, PYTHONPATH=f"{FOLDER}/python", MEASURED=library)
    print(called(interpreter, __file__, "--rounds", str(rounds), env=env), end="")


if "MEASURED" in os.environ:
    import fimulowen
    import numpy as np
if __name__ == "__main__":
    main()
