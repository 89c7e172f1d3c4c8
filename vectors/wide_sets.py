"""Wide sets with their bytes: worked by hand, and written by the rules of docs/FORMAT.md from the writers of id_sets.py and columns.py."""

from columns import column_text
from id_sets import array_sets, directory, in_runs, parts_of, set_text, slice_sets, sums_of
from parts import drawn, number

BIG = 5_000_000_000

# Sets worked by hand, with their bytes.
WORKED = [
    ([], "09 00 60"),
    ([5], "09 01 61 00 05000000"),
    ([2**64 - 1], "09 01 61 FFFFFFFF0F FFFFFFFF"),
    ([1, 2**32 + 1, 2**33], "09 03 63 00 01 03 01000000 01000000 00000000"),
    ([*range(7), 2**32], "09 08 68 00 01 40 00000000 01000000 02000000 03000000 04000000 05000000 06000000 00000000"),
    ([*range(7)], "09 07 67 00 00 00000000 01000000 02000000 03000000 04000000 05000000 06000000"),
    ([*range(BIG, BIG + 8)], "08 08 01 11 01000000 07 08 88 80E497D002 00"),
    ([*range(15), 2**63], "08 10 02 11 00000000 00000080 03 05 0F 10 8F 00 00 81 00"),
    ([*range(8)], "08 08 01 11 00000000 03 08 88 00 00"),
    ([*range(2**32, 2**32 + 65536)], "08 808004 01 31 01000000 10 000001 05 808004 01 31 0000 04 000001 01FF 0000"),
]


def in_words(*parts, **more):
    """The bytes of a wide set in words from its parts."""
    return directory(8, 4, *parts, **more)


def spread_out(count, column, lows):
    return bytes([9]) + number(count) + column + b"".join(it.to_bytes(4, "little") for it in lows)


def wide_set_text(ids):
    """The bytes of increasing ids."""
    words = parts_of(ids, 2**32)
    if len(ids) < max(1, 8 * len(words)):
        return spread_out(len(ids), column_text(1, [it >> 32 for it in ids]), [it % 2**32 for it in ids])
    bodies = [set_text(lows) for _, lows in words]
    ends, sums = sums_of([*map(len, bodies)]), sums_of([len(lows) for _, lows in words])
    return in_words(len(ids), [high for high, _ in words], ends, sums, bodies)


def in_high_words(*words):
    """The ids of high words, each with its low words."""
    return [2**32 * high + low for high, lows in words for low in lows]


def limit_sets():
    """Sets on both sides of the limit of the two forms, their ids even, or nearly all in one high word."""
    for words in [1, 2, 3, 15, 16, 17, 127, 128]:
        highs = [min(2**32 * m // max(1, words - 1), 2**32 - 1) for m in range(words)]
        for count in [8 * words - 1, 8 * words, 8 * words + 1]:
            even = [count // words + (m < count % words) for m in range(words)]
            for counts in [even, even[::-1], [1] * (words - 1) + [count - words + 1], [count - words + 1] + [1] * (words - 1)]:
                yield in_high_words(*((high, spread_words(size)) for high, size in zip(highs, counts)))


def spread_words(count):
    """Different low words, as far apart as there is room."""
    return [2**32 // count * i for i in range(count)]


def boundary_sets():
    """Ids below and above the limits of the bytes of an id, alone and many."""
    for bits in [8, 16, 31, 32, 33, 40, 48, 63]:
        for more in [1, 4, 8, 70]:
            yield [*range(max(0, 2**bits - more), 2**bits + more)]
        yield [2**bits - 1]
        yield [2**bits]
    for count in [1, 2, 7, 8, 9, 127, 128, 300]:
        yield [*range(2**64 - count, 2**64)]
        yield [0, *range(2**64 - count, 2**64)]
        yield [*range(count), 2**64 - 1]
    yield [2**bits for bits in range(64)]
    yield [2**bits - 1 for bits in range(65)]
    yield in_high_words((0x01020304, [0x05060708]), (0xF1E2D3C4, [0x01020304, 0xB5A69788]))
    yield in_high_words((0x01020304, range(0x05060708, 0x05060710)), (0xF1E2D3C4, range(0xB5A69788, 0xB5A69790)))


def word_sets():
    """High words with sets of each form below them, and ends and sums of more bytes."""
    far, even = [65536 * m + 7 for m in range(130)], range(0, 255, 2)
    forms = [
        range(9),
        range(5, 300),
        even,
        far,
        [65536 * m + it for m in range(3) for it in range(0, 700, 3)],
        in_runs(9, 900),
        [2**32 - 2],
    ]
    for at in range(len(forms)):
        yield in_high_words(*((3 * m, form) for m, form in enumerate(forms[at:] + forms[:at])))
        yield in_high_words((2**32 - 1, [*forms[at], 2**32 - 1]))
        yield in_high_words((7, forms[at]), (8, range(40)))
    for lows in [*[*slice_sets()][::9], *[*array_sets()][::4]]:
        yield in_high_words((2**31, lows), (2**31 + 1, range(20)))
    for more in [0, 1]:
        yield in_high_words((0, range(255 + more)))
        yield in_high_words((0, range(65535 + more)))
        yield in_high_words((0, range(65000)), (2**16, range(535 + more)))
        lens = in_high_words(*((m, range(128)) for m in range(16)))  # 15 bytes each
        yield lens + in_high_words((16, [*range(11), 20 + more * 2**20, 30 + more * 2**30]))
    yield in_high_words(*((m * m, range(m % 7, m % 7 + 9)) for m in range(300)))
    yield in_high_words(*((2**32 - 1 - m, [m, *range(2**31, 2**31 + 9)]) for m in range(129, -1, -1)))
    for chunks in [3, 4]:  # 8,449 bytes each
        yield in_high_words((0, range(0, 4 * 65536, 2)), (9, range(0, chunks * 65536, 2)))


def spread_sets():
    """Spread sets of each count at which the column of the high words changes its form, their high words with repeats and without."""
    for count in [2, 3, 29, 30, 31, 32, 33, 34, 63, 65, 97, 127, 128, 129, 130, 161, 255, 256, 257, 400]:
        for repeats in [1, 2, 7]:
            yield in_high_words(*((5 * m, range(m, m + repeats)) for m in range(count // repeats)), (2**32 - 1, range(count % repeats)))
        yield in_high_words(*((x >> 12 << 9 | at, [x]) for at, x in enumerate(sorted(drawn(count)))))
    for repeats in range(1, 8):
        yield in_high_words((2**32 - 1, spread_words(repeats)))
        yield in_high_words((0, spread_words(repeats)), (1, [2**32 - 1]))
    for width in range(1, 33):
        yield in_high_words((0, [9]), (2**width - 1, [9]))
        yield in_high_words((2**32 - 2**width, [9]), (2**32 - 1, [8]))


def drawn_sets():
    """Sets by the rule of docs/VECTORS.md, as users have them."""
    for count in [1, 10, 100, 300]:
        x = drawn(2 * count)
        yield sorted({2**32 * high + low for high, low in zip(x[0::2], x[1::2])})  # hashes
        yield sums_of([2**52, *(it * 5 for it in x)])  # times in ns
        yield sums_of([2**60, *(it // 2**6 * 2**4 for it in x[:count])])
        yield sums_of([2**60, *(it // 2**22 * 2**22 + it % 4 + 1 for it in x)])  # a time, and a number of a machine
        yield sums_of([2**41, *(it // 2**30 + 1 for it in x)])  # keys of a table
        yield sums_of([2**32 - count, *(it // 2**30 + 1 for it in x)])
        for each in [3, 7, 8, 9, 20]:
            highs = sorted({*x[: count // each + 1]})
            yield in_high_words(*((high, sorted({*x[at : at + each]})) for at, high in enumerate(highs)))


def wide_sets():
    """All sets with their bytes, each once."""
    found = {bytes.fromhex(text): ids for ids, text in WORKED}
    for ids in [*limit_sets(), *boundary_sets(), *word_sets(), *spread_sets(), *drawn_sets()]:
        assert all(before < after < 2**64 for before, after in zip([-1, *ids], ids))
        found.setdefault(wide_set_text(ids), ids)
    return [(ids, text) for text, ids in found.items()]
