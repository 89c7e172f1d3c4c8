"""Wide columns with their bytes, and bytes that no wide column has: worked by hand, and written by the rules of docs/FORMAT.md from the bytes of
columns.py and id_sets.py. Only the faults of texts with drawn bytes are found by decoders.py."""

from columns import column_text
from decoders import decode_wide_column
from id_sets import set_text
from parts import CUT_NUMBERS, MOST, NO_NUMBERS, drawn, number, with_another_byte
from refused_id_sets import each_once, fault_of

CHUNK = 65536
SIGN = 2**63  # added to values with a sign

# Wide columns worked by hand, with their bytes. None is a missing value.
WORKED = [
    ([], "0B 00 11 01 80"),
    ([5], "0B 01 11 05 05 01 03 03 80 6100"),
    ([None], "0B 01 11 00 00 02 04 04 8100 6100"),
    ([3, None, 1], "0A 03 11 01 03 02 06 06 8101 4300020A"),
    ([SIGN - 2, None, SIGN + 5], "0B 03 81 FEFFFFFFFFFFFF7F 0500000000000080 02 06 06 8101 63000338"),
    ([None, 7, 7 + 2**32], "0B 03 51 0700000000 0700000001 02 05 09 8100 630000 63000102"),
    ([7, 6 + 2**32], "0B 02 51 0700000000 0600000001 01 08 08 80 620020FFFFFFFF"),
    ([0, 2**32 - 1], "0B 02 41 00000000 FFFFFFFF 01 08 08 80 620020FFFFFFFF"),
    ([0, 2**32], "0B 02 51 0000000000 0000000001 01 04 08 80 620000 62000101"),
    ([2**32, 0], "0A 02 51 0000000000 0000000001 01 04 08 80 620000 42000101"),
    ([2**64 - 1], "0B 01 81 FFFFFFFFFFFFFFFF FFFFFFFFFFFFFFFF 01 03 03 80 6100"),
    ([2**64 - 1, 0], "0A 02 81 0000000000000000 FFFFFFFFFFFFFFFF 01 0C 17 80" + 2 * "420020FFFFFFFF00000000"),
    ([None, None, 9, None, 4, None], "0A 06 11 04 09 04 0A 0A 84000106 4600036D0B00"),
    ((CHUNK + 1) * [7], "0B 818004 12 07 07 07 07 0100 0704 0704 0904 0904 80 7F80800400 11" + 1024 * "00" + "6100"),
]

# Bytes worked by hand that are refused.
WORKED_REFUSALS = {
    "Short": ["", "0A", "0B", "0B00", "0A01", "0B0111", "0B0011", "0B01110505010303", "0B011105050103038061"],
    "BadVersion(9)": ["09"],
    "BadVersion(12)": ["0C"],
    "BadNumber": ["0B8500", "0B8080808010"],
    "TooLong(268435457)": ["0B8180808001"],
    "BadSizes(16)": ["0B0010"],
    "BadSizes(1)": ["0B0001"],
    "BadSizes(145)": ["0B0091"],
    "BadSizes(21)": ["0B0015"],
    "BadOffset(1)": ["0B0111050502010380"],
    "BadOffset(2)": ["0B01110505010302 80 6100"],
    "BadSizes(18)": ["0B01120505010003000300", "0B0012010080"],
    "BadSizes(33)": ["0B01210500050001 0303", "0B00210180"],
    "Trailing": ["0B0111050501030380610000", "0B0011018000"],
    "BadBody(0)": [
        "0B0111050502040481016100",  # a position that is not below n
        "0B01110505010303816100",  # the first position is not there
        "0B001100",
    ],
    "BadBody(1)": ["0B011105050102028060", "0B0111050501010180", "0B0111050501040480620000", "0B02110505010303806100"],
    "BadBody(2)": [
        "0B0111050501030480610060",  # high is there
        "0B0251 0000000000 0000000001 010404 80 620000",  # high is not there
        "0B0251 0000000000 0000000001 010406 80 620000 6101",  # high has one value
    ],
    "LooseBody(0)": [
        "0B01110506010303806100",  # the greatest value is 5
        "0B01110504010303806100",
        "0B01110505010303806101",  # d is 1
        "0B01110505020404 8100 6100",  # all are missing, and the bounds are 5
        "0B01110000020404 8100 6101",  # all are missing, and d is 1
        "0B03110103020606 8101 63000206",  # the missing value is not as the one before it
        "0B02110505010404 80 420000",  # low is plain, and does not fall
    ],
    "LooseForm": ["0A01110505010303806100", "0A00110180", "0B03110103020606 8101 4300020A"],
}


def column_part(numbers):
    return column_text(int(numbers == sorted(numbers)), numbers)


def chunk_parts(values):
    """The bounds and the two parts of a chunk, from what a missing value has in its place."""
    there = [value for value in values if value is not None] or [0]
    numbers = [there[0]]
    for value in values:
        numbers.append(numbers[-1] if value is None else value)
    numbers, least, greatest = numbers[1:], min(there), max(there)
    lows, highs = [(it - least) % 2**32 for it in numbers], [(it - least) // 2**32 for it in numbers]
    return [least, greatest], [column_part(lows), column_part(highs) if greatest - least > 2**32 - 1 else b""]


def shorts(size, values):
    return b"".join(value.to_bytes(size, "little") for value in values)


def wide_text(form, count, sizes, bounds, parts):
    """The bytes of these parts, with the byte of the sizes."""
    ends = [sum(map(len, parts[: j + 1])) for j in range(len(parts))]
    return bytes([form]) + number(count) + bytes([sizes]) + shorts(sizes // 16, bounds) + shorts(sizes % 16, ends) + b"".join(parts)


def least_size(value):
    return next(size for size in range(1, 9) if value < 256**size)


def parts_of(values):
    """Byte 0, the least sizes, the bounds and the parts."""
    there = [value for value in values if value is not None]
    bounds, parts = [], [set_text([p for p, value in enumerate(values) if value is None])]
    for at in range(0, len(values), CHUNK):
        more, bodies = chunk_parts(values[at : at + CHUNK])
        bounds, parts = bounds + more, parts + bodies
    return 10 + (there == sorted(there)), least_size(sum(map(len, parts))) + 16 * least_size(max(bounds, default=0)), bounds, parts


def wide_column_text(values):
    form, sizes, bounds, parts = parts_of(values)
    return wide_text(form, len(values), sizes, bounds, parts)


def small_columns():
    """Dates, stamps in order, hashes, limits of the sizes of bounds and of what takes a high part; each also with missing values."""
    stamps = [1_700_000_000_000_000_000 + 977 * x for x in drawn(300)]
    for values in [
        [19_000 + x % 3000 for x in drawn(200)],
        sorted(stamps),
        stamps,
        [x + 2**32 * y for x, y in zip(drawn(400)[::2], drawn(400)[1::2])],
        [SIGN + x % 1000 - 500 for x in drawn(130)],
        [*range(5, 300)],
        [7 - at % 3 for at in range(128)],
    ]:
        yield values
        yield [None if at < 9 else value for at, value in enumerate(values)]
        yield [None if at % 7 == 3 or 40 < at < 80 else value for at, value in enumerate(values)]
        yield [value if at in (5, 77) else None for at, value in enumerate(values)]
    for bits in range(0, 65, 4):
        yield [2**bits - 1]
        yield [0, 2**bits - 1]
        yield [2**bits - 1, 0]
    for size in [1, 2, 3, 4, 5, 6, 7]:
        yield [256**size - 1]
        yield [256**size]
    for count in [2, 127, 128, 129]:
        yield count * [None]
        yield (count - 1) * [None] + [2**64 - 1]


def long_columns():
    """Limits of chunks: counts, missing ones at their ends, a chunk without a value, and order across chunks."""
    for count in [CHUNK - 1, CHUNK, CHUNK + 1]:
        yield count * [9]
        yield [at // 999 for at in range(count)]
        yield [2**40] + (count - 1) * [None]
    yield CHUNK * [None] + [5, None]
    yield [5] + (CHUNK - 1) * [None] + 3 * [None]
    yield CHUNK * [5] + CHUNK * [None] + [4]
    yield CHUNK * [5] + [None, 5]
    yield CHUNK * [5] + [2**33, 4]


def wide_columns():
    """All wide columns with their bytes, each once."""
    found = {bytes.fromhex(text): values for values, text in WORKED}
    for values in [*small_columns(), *long_columns()]:
        found.setdefault(wide_column_text(values), values)
    return found


# ---- bytes with a fault


def worked_refusals():
    for fault, texts in WORKED_REFUSALS.items():
        for text in texts:
            yield fault, bytes.fromhex(text)


def refused_fronts():
    for byte in range(256):
        if byte not in (10, 11):
            yield f"BadVersion({byte})", bytes([byte]) + bytes.fromhex("00110180")
    for form in (10, 11):
        for given in CUT_NUMBERS:
            yield "Short", bytes([form]) + bytes.fromhex(given)
        for given in NO_NUMBERS:
            yield "BadNumber", bytes([form]) + bytes.fromhex(given)
        for count in [MOST + 1, 2**31, 2**32 - 1]:
            yield f"TooLong({count})", bytes([form]) + number(count)
        yield "Short", bytes([form]) + number(MOST) + bytes([17])
        for sizes in range(256):
            if sizes % 16 not in range(1, 5) or sizes // 16 not in range(1, 9):
                yield f"BadSizes({sizes})", bytes([form]) + number(3) + bytes([sizes]) + bytes(60)


def loose_sizes(values):
    """Sizes above the least ones."""
    form, least, bounds, parts = parts_of(values)
    for sizes in range(least + 1, 256):
        if sizes % 16 in range(least % 16, 5) and sizes // 16 in range(least // 16, 9):
            yield f"BadSizes({sizes})", wide_text(form, len(values), sizes, bounds, parts)


def changed_parts(values):
    """Another byte 0, bounds that are wider, and a part that is no set or no column of these values."""
    form, sizes, bounds, parts = parts_of(values)
    yield "LooseForm", wide_text(21 - form, len(values), sizes, bounds, parts)
    for m in range(len(bounds) // 2):
        if bounds[2 * m] > 0:
            changed = [*bounds[: 2 * m], bounds[2 * m] - 1, *bounds[2 * m + 1 :]]
            if (changed[2 * m + 1] - changed[2 * m] >= 2**32) == (parts[2 * m + 2] != b""):
                yield f"LooseBody({m})", wide_text(form, len(values), sizes, changed, parts)
    for j in range(len(parts)):
        for other in [b"", b"\x00", parts[j] + b"\x00", column_text(0, [1, 0, 1, 0])]:
            changed = [*parts[:j], other, *parts[j + 1 :]]
            if other != parts[j] and sum(map(len, changed)) in range(256 ** (sizes % 16 - 1), 256 ** (sizes % 16)):
                yield f"BadBody({j})", wide_text(form, len(values), sizes, bounds, changed)


def cut_columns():
    """Wide columns without their last bytes, and with a byte more."""
    for values, text in WORKED[:-1]:
        for end in range(1, len(bytes.fromhex(text))):
            yield "Short", bytes.fromhex(text)[:end]
        for byte in [0, 1, 255]:
            yield "Trailing", bytes.fromhex(text) + bytes([byte])


def drawn_texts():
    """Texts of wide columns, each 64 times with another byte."""
    bases = [wide_column_text(values) for values, _ in WORKED[1:-1]] + [wide_column_text([*range(5, 60), None, *range(70, 200)])]
    return with_another_byte(bases, 64)


def damaged_wide_columns():
    """The drawn texts with their fault, or with their values."""
    for text in {text: None for text in drawn_texts()}:
        yield text, *fault_of(decode_wide_column, text)


def changed_columns():
    for values in [[5], [3, None, 1], [0, 2**32], [None, 7, 7 + 2**32]]:
        yield from loose_sizes(values)
        yield from changed_parts(values)
    yield from changed_parts(CHUNK * [5] + [4, None])


def refused_wide_columns():
    """Each text with its fault, once."""
    return each_once([worked_refusals, refused_fronts, changed_columns, cut_columns], damaged_wide_columns)
