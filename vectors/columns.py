"""Columns with their bytes: worked by hand, and written by the rules of docs/FORMAT.md from blocks that are laid bit by bit."""

from parts import body_of, codes_after, drawn, front_sizes, group, number, plain_blocks, summed

# Columns worked by hand, with their bytes: the kind, 0 plain or 1 sorted, and the values.
WORKED = [
    (0, [], "40"),
    (1, [], "60"),
    (0, [5], "41 05"),
    (0, [2**32 - 1], "41 FFFFFFFF0F"),
    (0, [3, 1], "42 01 02 02"),
    (1, [5, 5, 9], "63 05 03 20"),
    (0, 34 * [7], "5F 22 07 00 00"),
    (0, 128 * [7], "5F 8001 11 00 07"),
    (0, 129 * [7], "5F 8101 11 00 07 07"),
    (1, 128 * [7], "7F 8001 07 11 00 07"),
    (0, [*range(31)], "5F 1F 00 05 2088418A3928A9C59A7B30CA49ABBD38EBCDBB07"),
    (1, [*range(31)], "7F 1F 00 01 FFFFFF3F"),
    (1, [*range(34)], "7F 22 00 01 FFFFFFFF 01 01"),
    (0, 8 * [1000, 1001, 1002, 1003], "5F 20 E807 02" + 8 * "E4"),
    (0, 32 * [1000, 1001, 1002, 1003], "5F 8001 21 02 E803" + 2 * "00000000 55555555 AAAAAAAA FFFFFFFF"),
    (1, [*range(129)], "7F 8101 00 11 01 7F FE" + 15 * "FF" + "01 01"),
    (1, 128 * [1000000] + [1000001, 1000002], "7F 8201 C0843D 31 00 40420F 01 03"),
    (0, 127 * [2**32 - 1] + [2**32 - 2], "5F 8001 41 01 FEFFFFFF" + 15 * "FF" + "7F"),
    (0, 128 * [0] + [5, 6], "5F 8201 11 00 00 05 01 02"),
    # Texts beside those that are refused.
    (0, [1, 0], "42 00 01 01"),
    (0, [4, 1], "42 01 02 03"),
]


def header(kind, count, first):
    """Byte 0, the count and the first value of a column that is not empty."""
    text = bytes([64 + 32 * kind + min(count, 31)]) + (number(count) if count > 30 else b"")
    return text + (number(first) if kind else b"")


def blocks_text(blocks, sizes=None):
    """Blocks, each with its width, mark and body."""
    ends = [sum(width for width, _, _ in blocks[: m + 1]) for m in range(len(blocks))]
    return front_sizes(ends, [mark for _, mark, _ in blocks], sizes) + b"".join(body for _, _, body in blocks)


def block_of(kind, before, values):
    codes = codes_after(1, before, values) if kind else [value - min(values) for value in values]
    width = max(codes).bit_length()
    return width, values[-1] if kind else min(values), body_of(4, width, codes)


def tail_text(kind, blocks, before, values):
    if not values:
        return b""
    codes = codes_after(1, before, values) if kind else [value - min(values) for value in values]
    if kind and not blocks or not kind and len(values) == 1:
        codes = codes[1:]
    least = b"" if kind else number(min(values))
    return least + b"".join(group(codes[at : at + 32]) for at in range(0, len(codes), 32))


def column_text(kind, values):
    """The bytes of a column."""
    if not values:
        return bytes([64 + 32 * kind])
    before, blocks = values[0], []
    for at in range(0, len(values) // 128 * 128, 128):
        blocks.append(block_of(kind, before, values[at : at + 128]))
        before = values[at + 127]
    front = header(kind, len(values), values[0]) + (blocks_text(blocks) if blocks else b"")
    return front + tail_text(kind, len(blocks), before, values[128 * len(blocks) :])


def single_columns():
    """One value, and two: each limit of a varint and of a width."""
    for bits in [0, 1, 6, 7, 8, 14, 15, 21, 22, 28, 29, 31]:
        for value in [2**bits - 1, 2**bits]:
            yield 0, [value]
            yield 1, [value]
    yield 1, [2**32 - 1]
    for width in range(33):
        most = 2**width - 1
        for values in [[0, most], [2**32 - 1 - most, 2**32 - 1]]:
            yield 0, values[::-1]
            yield 1, values


def counted_columns():
    """Counts at the ends of byte 0, of groups and of blocks, of values by the rule of docs/VECTORS.md."""
    for count in [2, 3, 29, 30, 31, 32, 33, 34, 63, 64, 65, 66, 96, 97, 126, 127, 128, 129, 130, 159, 160, 161, 255, 256, 257, 383, 385]:
        for bits in [3, 17]:
            values = [x >> 32 - bits for x in drawn(count)]
            yield 0, values
            yield 1, summed("sorted", 5, values)
        yield 0, [2**32 - 1 - x // 2**20 for x in drawn(count)]
        yield 1, count * [0]
        yield 1, [*range(2**32 - count, 2**32)]


def wide_columns():
    """Blocks of each width. Those of blocks.tsv follow a block of zeros in a sorted column, as the original crate packed them."""
    for (lanes, width), (codes, _) in plain_blocks().items():
        if lanes == 4:
            yield 0, codes
            yield 0, [2**32 - 1 - code for code in codes] + codes[:40]
            if sum(codes) < 2**32:
                yield 1, 128 * [0] + summed("sorted", 0, codes) + [2**32 - 1]
            yield 1, 127 * [1] + 130 * [max(1, 2**width - 1)]
    for place in [0, 1, 2, 3, 4, 63, 126, 127]:  # one greater value: in each lane, and at the ends
        yield 0, [*(place * [9]), 9 + 2**31, *((127 - place) * [9])]
        yield 0, [*(place * [9]), 0, *((127 - place) * [9]), 4]
    for place in [1, 2, 3, 4, 63, 126, 127]:
        yield 1, place * [9] + (128 - place) * [2**31]
    for last in [255, 256, 2**16 - 1, 2**16, 2**24 - 1, 2**24]:  # the least and the greatest mark of each size
        yield 0, [*(128 * [last]), *(128 * [0]), 3, 2, 1]
        yield 1, [*(128 * [0]), *(128 * [last])]
    for blocks in [7, 8]:  # ends of 224, 255 and 256
        values = [x for x in drawn(128 * blocks)]
        yield 0, values
        yield 0, [x >> 1 if at >= 128 * 7 else x for at, x in enumerate(values)]
    for blocks in [10, 11, 12]:
        yield 1, summed("sorted", 2**20, [x >> 12 + at % 9 for at, x in enumerate(drawn(128 * blocks))])


def columns():
    """All columns with their bytes, each once."""
    found = {bytes.fromhex(text): (kind, values) for kind, values, text in WORKED}
    for kind, values in [*single_columns(), *counted_columns(), *wide_columns()]:
        assert all(value < 2**32 for value in values) and (not kind or values == sorted(values))
        found.setdefault(column_text(kind, values), (kind, values))
    return [(kind, values, text) for text, (kind, values) in found.items()]
