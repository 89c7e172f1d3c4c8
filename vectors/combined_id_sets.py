"""Pairs of id sets, with the ids that both have: the ids that either has, or one alone, follow from these."""

from id_sets import in_runs, placed, spread
from parts import drawn

# Worked by hand: two sets, and the ids in both.
WORKED = [
    ([], [], []),
    ([], [7], []),
    ([0, 4294967295], [4294967295], [4294967295]),
    ([1, 2, 3], [2, 3, 4], [2, 3]),
    (range(0, 256), range(128, 384), range(128, 256)),
    (range(0, 65536), range(65535, 65700), [65535]),
    (range(0, 300, 2), range(1, 300, 2), []),
    (range(0, 600, 2), range(0, 600, 3), range(0, 600, 6)),
    ([65536 * m for m in range(200)], range(131072, 131272), [131072]),
    ([256 * i for i in range(300)], [256 * i + 1 for i in range(300)], []),
    (range(0, 65536), range(0, 65536), range(0, 65536)),
    (range(100, 10000), range(9999, 20000), [9999]),
    (range(100, 10000), range(10000, 20000), []),
    (range(100, 10000), range(0, 65536, 50), range(100, 10000, 50)),
    (range(60000, 65536), range(65000, 70000), range(65000, 65536)),
    (range(60000, 65536), [512 * i + 3 for i in range(128)], range(60419, 65536, 512)),
    ([*range(300), *range(400, 700)], range(300, 400), []),
    ([*range(300), *range(400, 700)], range(299, 401), [299, 400]),
]


def forms():
    """Sets of each form, and in chunks with slices of each form, that meet in part."""
    yield [*range(100, 150, 3), 65536, 65792, 2**32 - 1]
    yield [65536 * m + m % 5 for m in range(0, 400, 3)]  # an array
    yield [65536 * m + low for m in range(5) for low in range(0, 40, 3)] + [2**25 * i for i in range(1, 128)]  # an array
    yield [256 * i + i % 7 for i in range(200)]  # a body of numbers
    yield placed(*((high, spread(high % 40 + 1)) for high in range(0, 256, 3)))  # slices of bytes and of bits
    yield placed((0, range(256)), (1, spread(31)), (2, spread(32)), (4, spread(255)), (255, [255]))
    yield [65536 * m + low for m in [0, 1, 7, 65535] for low in range(0, 65536, 197)]
    yield [65536 * m + low for m in [0, 2, 7, 65535] for low in range(0, 65536, 211)]
    yield [*range(65000, 66000), *range(2**31 - 200, 2**31 + 200), *range(2**32 - 300, 2**32)]
    yield [*range(131072)]
    parts = [[512 * i + i % 5 for i in range(110)], range(0, 65000, 3), in_runs(3, 40000), in_runs(64, 10000)]
    yield [65536 * m + it for m, at in enumerate([0, 1, 2, 3, 0, 3, 1, 2, 2]) for it in parts[at]]  # the forms of a body
    yield [65536 * m + it for m, at in enumerate([2, 3, 0, 1, 1, 2, 3, 0, 3]) for it in parts[at]]
    yield [65536 * m + it for m, at in enumerate([3, 2, 3, 0, 2, 1]) for it in parts[at]]
    yield [65536 * 7 + it for it in in_runs(63, 32768)]
    yield in_runs(2, 65535)[1:] + [65536 * 7 + it for it in in_runs(31, 700)] + [65536 * 65535 + it for it in in_runs(1, 8)]
    yield sorted({x >> 14 for x in drawn(600)})
    yield sorted({x >> 10 for x in drawn(300)})
    yield sorted({*drawn(160)})


def combined_id_sets():
    """The first set, the second, and the ids in both."""
    assert all(sorted({*a} & {*b}) == [*both] for a, b, both in WORKED)
    every = [*forms()]
    pairs = [([*a], [*b]) for a, b, _ in WORKED] + [(a, b) for at, a in enumerate(every) for b in every[at:]]
    for a, b in pairs:
        yield a, b, sorted({*a} & {*b})
