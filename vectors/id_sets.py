"""Id sets with their bytes: worked by hand, and written by the rules of docs/FORMAT.md from the ids one by one."""

from itertools import groupby

from parts import drawn, group, number

EVEN = [65536 + 2 * i for i in range(128)]  # a chunk of 128 numbers, after one that may have fewer

# Sets worked by hand, with their bytes.
WORKED = [
    ([], "80"),
    ([5], "81 05"),
    ([2**32 - 1], "81 FFFFFFFF0F"),
    ([7, 9, 10, 300], "84 07 09 01 00 84 04"),
    ([*range(33)], "A1 00 00"),
    ([*range(34)], "A2 00 00 00"),
    ([*range(0, 69, 2)], "A3 00 01 FFFFFFFF 01 03"),
    ([0, 2**32 - 1], "82 00 20 FEFFFFFF"),
    ([*range(128)], "05 8001 01 11 0000 06 80" + "01FF 0000 8000"),
    ([*range(0, 255, 2)], "05 8001 01 11 0000 23 80" + "00 00 7F" + 32 * "55"),
    ([*range(65537, 65537 + 255, 2)], "05 8001 01 11 0100 23 80" + "00 00 7F" + 32 * "AA"),
    ([*range(65536, 65536 + 128)], "05 8001 01 11 0100 06 80" + "01FF 0000 8000"),
    ([*range(256, 384)], "05 8001 01 11 0000 06 80" + "01FF 0001 8001"),
    ([*range(256)], "05 8002 01 21 0000 06 0001" + "01FF 0000 0001"),
    ([*range(65536)], "05 808004 01 31 0000 04 000001" + "01FF 0000"),
    ([*range(100, 10000)], "05 AC4D 01 21 0000 06 AC26" + "01FF 6400 1027"),
    ([*range(60000, 65536)], "05 A02B 01 21 0000 04 A015" + "01FF 60EA"),
    ([*range(65504, 65632)], "05 8001 02 11 0000 0100 04 0A 20 80" + "01FF E0FF" + "01FF 0000 6000"),
    ([*range(65530, 65658)], "05 8001 02 11 0000 0100 09 0F 06 80" + "00 FF 05 FA FB FC FD FE FF" + "01FF 0000 7A00"),
    (
        [*range(1000), *range(2000, 3000), *range(3001, 65536)],
        "05 97F803 01 21 0000 0C 17FC" + "01FF 0000 E803 D007 B80B B90B",
    ),
    (
        [*range(300000)],
        "05 E0A712 05 31 0000 0100 0200 0300 0400 04 08 0C 10 16 000001 000002 000003 000004 E09304" + 4 * "01FF 0000" + "01FF 0000 E093",
    ),
    (
        [256 * i + j for i in range(32) for j in range(32)],
        "05 8008 01 21 0000 82 0004 01FF" + "".join(f"00{i:02x} 20{i:02x}" for i in range(32)),
    ),
    ([65281, *EVEN], "05 8101 02 11 0000 0100 02 25 01 81" + "01FF" + "00 00 7F" + 32 * "55"),
    ([65281, 65282, *EVEN], "05 8201 02 11 0000 0100 04 27 02 82" + "01FF 02FF" + "00 00 7F" + 32 * "55"),
    ([*range(65024, 65536, 2)], "05 8002 01 21 0000 45 0001" + "01 FE FF 7F 7F" + 64 * "55"),
    (
        [*range(0, 62, 2), *range(256, 449, 2)],
        "05 8001 01 11 0000 44 80" + "01 00 01 1E 60" + bytes(range(0, 62, 2)).hex() + 24 * "55" + "01" + 7 * "00",
    ),
    (
        [*range(0, 63, 2), *range(256, 352)],
        "05 8001 01 11 0000 45 80" + "01 00 01 1F 5F" + 8 * "55" + 24 * "00" + 12 * "FF" + 20 * "00",
    ),
    ([512 * i + 3 for i in range(128)], "05 8001 01 12 0000 0001 80" + "".join(f"03{2 * i:02x}" for i in range(128))),
    ([32768 * i for i in range(128)], "06 8001" + "".join((32768 * i).to_bytes(4, "little").hex() for i in range(128))),
    (
        [16384 * i for i in range(128)],
        "05 8001 20 12"
        + "".join(f"{m:02x}00" for m in range(32))
        + "".join((8 * m + 8).to_bytes(2, "little").hex() for m in range(32))
        + "".join(f"{4 * m + 4:02x}" for m in range(32))
        + 32 * "0000 0040 0080 00C0",
    ),
]


def parts_of(numbers, size):
    """The numbers by their quotient by a size, each with the remainders."""
    return [(high, [it % size for it in low]) for high, low in groupby(numbers, lambda it: it // size)]


def slice_of(numbers):
    if len(numbers) < 32:
        return bytes(numbers)
    if len(numbers) == 256:
        return b""
    return sum(1 << it for it in numbers).to_bytes(32, "little")


def blocks_of(numbers):
    slices = parts_of(numbers, 256)
    counts = bytes(len(low) - 1 for _, low in slices)
    return bytes([len(slices) - 1]) + slice_of([high for high, _ in slices]) + counts + b"".join(slice_of(low) for _, low in slices)


def pairs_of(numbers):
    return b"".join(bytes([it % 256, it // 256]) for it in numbers)


def boundaries_of(numbers):
    """The first number of each run, and the one after it, if that is a number of a chunk."""
    runs = [[it for _, it in run] for _, run in groupby(enumerate(numbers), lambda it: it[1] - it[0])]
    return [it for run in runs for it in (run[0], run[-1] + 1) if it < 2**16]


def body_of_chunk(numbers):
    found = boundaries_of(numbers)
    if len(found) <= min(64, len(numbers) // 8):
        return bytes([1, 255]) + pairs_of(found)
    return min(pairs_of(numbers), blocks_of(numbers), key=len)  # of two with one length, the first


def sums_of(counts):
    return [sum(counts[: m + 1]) for m in range(len(counts))]


def directory(form, key_len, count, keys, ends, sums, bodies, sizes=None, chunks=None):
    """The bytes of parts, each with a key: the form, the count of ids, the keys of this length, ends, sums, and bodies. The least sizes and the
    count of keys are as they should be, if they are not given."""
    if sizes is None:
        sizes = sum(size * (1 + (last >= 256) + (last >= 2**16) + (last >= 2**24)) for size, last in [(1, ends[-1]), (16, count)])
    text = bytes([form]) + number(count) + number(len(keys) if chunks is None else chunks) + bytes([sizes])
    for size, numbers in [(key_len, keys), (sizes % 16, ends), (sizes // 16, sums)]:
        text += b"".join(it.to_bytes(size, "little") for it in numbers)
    return text + b"".join(bodies)


def chunked(*parts, **more):
    """The bytes of a set in chunks from its parts."""
    return directory(5, 2, *parts, **more)


def few_of(ids):
    codes = [after - before - 1 for before, after in zip(ids, ids[1:])]
    groups = [group(codes[at : at + 32]) for at in range(0, len(codes), 32)]
    return bytes([128 + len(ids)]) + b"".join([*map(number, ids[:1]), *groups])


def array_of(ids):
    return bytes([6]) + number(len(ids)) + b"".join(it.to_bytes(4, "little") for it in ids)


def in_chunks(ids):
    chunks = parts_of(ids, 2**16)
    bodies = [body_of_chunk(numbers) for _, numbers in chunks]
    ends, sums = sums_of([*map(len, bodies)]), sums_of([len(numbers) for _, numbers in chunks])
    return chunked(len(ids), [key for key, _ in chunks], ends, sums, bodies)


def set_text(ids):
    """The bytes of increasing ids."""
    if len(ids) < 128:
        return few_of(ids)
    return array_of(ids) if len(ids) < 4 * len({it >> 16 for it in ids}) else in_chunks(ids)


def placed(*slices):
    """The numbers of a chunk whose slices have these high bytes and low bytes."""
    return [256 * high + low for high, lows in slices for low in lows]


def spread(count):
    """Different bytes, as far apart as there is room."""
    return [256 * i // count for i in range(count)]


def few_sets():
    """Sets below 128 ids: each limit of a number as the first id, each width, and counts at the ends of groups."""
    for bits in [0, 1, 6, 7, 8, 14, 15, 21, 22, 28, 29, 31]:
        yield [2**bits - 1]
        yield [2**bits]
    for width in range(1, 33):
        yield [0, 2 ** (width - 1) + 1]
        yield [0, min(2**width, 2**32 - 1)]
    for count in [2, 3, 8, 31, 32, 33, 34, 64, 65, 66, 96, 97, 98, 126, 127]:
        yield [*range(2**32 - count, 2**32)]
        yield sums_of([x // 2**8 % 1000 + 1 for x in drawn(count)])
        yield sums_of([x // 2**7 + 1 for x in drawn(count)])[:count] if count < 100 else [5, *range(9, 8 + count)]


def slice_sets():
    """Slices of each form, of low bytes and of high bytes, and bodies on both sides of the edge between numbers and blocks."""
    for c in [1, 2, 3, 15, 16, 17, 30, 31, 32, 33, 127, 128, 129, 254, 255, 256]:
        yield placed((0, range(0, 256, 2)), (200, spread(c)))
        yield placed((c % 7, range(256 - c, 256)), (9, range(1, 256, 2)))
    for r in [1, 2, 3, 15, 16, 17, 30, 31, 32, 33, 127, 128, 254, 255, 256]:
        yield placed(*((high, [high - 1, 255] if high % 2 else range(4)) for high in spread(r))) + EVEN
    for r in [1, 2, 5, 20, 27, 28]:  # blocks take 3 * r + c bytes, and numbers 2 * (c + r - 1)
        for c in [r + 1, r + 2, r + 3]:
            yield placed(*((high, [high + 1]) for high in range(r - 1)), (255, spread(c))) + EVEN
    for c in [15, 16, 17, 31, 32, 33, 34, 35]:  # 31 other slices of one number
        for lows in [spread(c), range(c), range(256 - c, 256)]:
            yield placed(*((high, [high]) for high in range(31)), (100, lows)) + EVEN
    for r in [31, 32, 33, 34, 35, 255, 256]:  # two numbers each
        yield placed(*((high, [0, 255]) for high in spread(r))) + EVEN
    for count in [128, 129, 255, 256]:
        yield [256 * i + 255 - i for i in spread(256)[:count]]


def in_runs(t, k):
    """k numbers of a chunk with t boundaries. The last run has the most numbers, and ends with 65535 if t is odd."""
    runs = (t + 1) // 2
    lens = [k // runs] * (runs - 1) + [k - k // runs * (runs - 1)]
    firsts = [65536 // runs * i + i for i in range(runs - 1)] + [65536 - t % 2 * lens[-1] - (1 - t % 2) * (lens[-1] + 1)]
    return [first + i for first, size in zip(firsts, lens) for i in range(size)]


def run_sets():
    """Chunks on both sides of each limit of runs, and runs at the ends of slices and of chunks."""
    for t in [1, 2, 3, 4, 5, 31, 32, 33, 63, 64, 65, 66, 67]:
        for k in [8 * t - 1, 8 * t, 8 * t + 1, 200 * t]:
            yield in_runs(t, k) + EVEN
    for c in [15, 16, 17, 31, 32, 33, 255, 256]:
        for r in [1, 4, 32, 33]:  # 16 numbers a slice are runs
            yield placed(*((2 * i, range(c)) for i in range(r))) + EVEN
            yield placed(*((2 * i + 1, range(256 - c, 256)) for i in range(r))) + EVEN
        yield placed((0, range(c)), (255, range(256 - c, 256)), (256, range(128)))
    yield [0, 2, 4, *range(6, 200)]  # runs of one number, with one between them
    yield [*range(100), 101, *range(103, 200), 201]
    yield [*range(65536, 65536 + 66), *range(65536 + 67, 65536 + 130)]
    yield [0, *range(2, 200)]
    yield [*range(200), 202, 65535]
    yield [*range(126), 65534, 65535]
    yield [*range(65535 - 200, 65535)]
    for gap in [0, 256]:
        yield [it for it in range(65536) if it != gap]
    yield [0, 65535, *range(65536, 2 * 65536), 2 * 65536, 3 * 65536 - 1]
    yield [*range(2**32 - 65536, 2**32)]
    yield [*range(65536 - 8, 65536 + 8), *range(3 * 65536 - 7, 3 * 65536 + 9), *range(2**31 - 100, 2**31 + 100)]
    numbers, bits, runs = [512 * i + 3 for i in range(100)], range(0, 254, 2), range(7, 2000)
    parts = [numbers, bits, runs, runs, numbers, runs, bits]
    yield [65536 * m + it for m, part in enumerate(parts) for it in part]
    longer = [it for i in range(32) for it in range(2000 * i, 2000 * i + 900)]
    yield longer
    yield [*longer, 65000]
    yield [*longer, *range(65000, 65536)]


def array_sets():
    """Sets on both sides of the edge between an array and chunks, and chunks of all keys."""
    for chunks in [33, 40, 64]:
        for count in [4 * chunks - 1, 4 * chunks, 4 * chunks + 1]:
            yield sorted(65536 * (65535 - m % chunks) + 7 * m for m in range(count))
    yield [2**25 * i + i for i in range(128)]
    yield [*range(127), 2**32 - 1]
    yield [*range(127 * 256, 128 * 256 - 1), 2**31, 2**32 - 1]
    yield [65536 * m + it for m in [0, 1, 255, 256, 65534, 65535] for it in [0, 1, 255, 256, *range(300, 320), 65534, 65535]]
    yield [*range(2**32 - 128, 2**32)]


def sized_sets():
    """Sets at the limits of one and two bytes, of the last end and of the count."""
    for count in [255, 257, 65535]:
        yield [*range(count)]
    yield [*range(65537)]
    yield [*range(65536 * 5 - 300, 65536 * 5 + 300)]
    for count in [7, 8]:  # 7 bodies of 35 bytes, and one of 3 and as many more
        yield [65536 * m + 2 * i for m in range(7) for i in range(128)] + [*range(7 * 65536, 7 * 65536 + count)]
    half = [65536 * m + 2 * i for m in range(7) for i in range(2**15)]  # 8,449 bytes a body
    for count in [23, 24]:  # a body of 257 bytes, 191 slices of 32 bytes, and one of as many more
        last = placed(
            *((high, range(0, 256, 2)) for high in range(191)), (191, range(count)), *((high, range(256)) for high in range(192, 256))
        )
        yield half + [7 * 65536 + it for it in last]


def drawn_sets():
    """Sets by the rule of docs/VECTORS.md, from one id of 2 to one of many millions."""
    for count, bits in [
        (100, 32),
        (120, 20),
        (120, 9),
        (300, 32),
        (400, 25),
        (400, 22),
        (500, 20),
        (500, 17),
        (500, 16),
        (400, 12),
        (600, 10),
    ]:
        yield sorted({x >> 32 - bits for x in drawn(count)})
    thin = [(place, x) for place, x in enumerate(drawn(40 * 256))]
    yield [place for place, x in thin if x >> 32 - place // 256 % 9 == 0]  # the slices have 256, 128, 64 .. 1 of their numbers
    runs, last = [], 0
    for x in drawn(40):
        last += x // 2**8 % 5000 + 1
        runs += range(last, last + x // 2**24)
        last = runs[-1] if runs else last
    yield runs


def id_sets():
    """All sets with their bytes, each once."""
    found = {bytes.fromhex(text): ids for ids, text in WORKED}
    for ids in [*few_sets(), *slice_sets(), *run_sets(), *array_sets(), *sized_sets(), *drawn_sets()]:
        assert all(before < after < 2**32 for before, after in zip(ids, ids[1:]))
        found.setdefault(set_text(ids), ids)
    return [(ids, text) for text, ids in found.items()]


def spelled_ids(ids):
    """Ids with commas. `5-9` is five of them, and `0-8/2` are those with steps of 2."""
    found, at = [], 0
    while at < len(ids):
        end, step = at + 1, ids[at + 1] - ids[at] if at + 1 < len(ids) else 1
        while end < len(ids) and ids[end] - ids[end - 1] == step:
            end += 1
        is_run = end - at > 3
        found.append(f"{ids[at]}-{ids[end - 1]}" + f"/{step}" * (step > 1) if is_run else str(ids[at]))
        at = end if is_run else at + 1
    return ",".join(found) or "-"


def spelled_bytes(text):
    """Bytes as digits. `{00*16}` are sixteen times the same."""
    runs = [(byte, len([*run])) for byte, run in groupby(text)]
    return "".join(f"{{{byte:02x}*{count}}}" if count > 4 else f"{byte:02x}" * count for byte, count in runs) or "-"
