"""Blocks of one code, blocks at more than their least width, refused blocks, and conversions."""

from lists import chained, values_out_of_order
from parts import KINDS, LANES, STARTS, body_of, first_out, list_text, summed
from sets import search_lists

SPELLED = {
    "plain": ["-"],
    "sorted": [0, 255, 256, 70000, 2**31, 2**32 - 1],
    "strict": ["none", 0, 255, 256, 70000, 2**32 - 2, 2**32 - 1],
}
# the least width of a block, and the width that it is packed at
WIDTHS = [(0, 0), (3, 3), (5, 6), (0, 5), (1, 16), (9, 31), (3, 32), (7, 8), (8, 9), (30, 32), (2, 2)]


def start_of(spelled):
    return {"-": 0, "none": 2**32 - 1}.get(spelled, spelled)


def loose_blocks(blocks):
    """Blocks of many starts, most of them loose: packer, kind, start, least width, width, values, body."""
    step = 0
    for lanes in LANES:
        for kind, starts in SPELLED.items():
            for spelled in starts * (3 if lanes == 1 or kind == "plain" else 1):
                least, width = WIDTHS[step % len(WIDTHS)]
                step += 1
                codes = blocks[lanes, least][0]
                values, body = summed(kind, start_of(spelled), codes), body_of(lanes, width, codes)
                yield f"{lanes}x", kind, spelled, least, width, values, body


def single_codes(lanes):
    """The codes of a block that are 0 but for one, and their width: 1 in each row, and so in each lane, and the greatest of each width."""
    for row in range(32):
        for code in sorted({1, 2 ** (row + 1) - 1}):
            codes = [0] * 32 * lanes
            codes[row * lanes + row % lanes] = code
            yield code.bit_length(), codes


def single_blocks():
    """Blocks of zeros with one other code: packer, kind, start, width, values, body. The greatest codes are in plain blocks alone."""
    for lanes in LANES:
        for width, codes in single_codes(lanes):
            for kind, start, spelled in zip(KINDS[: 3 if width == 1 else 1], STARTS, ["-", 0, "none"]):
                yield f"{lanes}x", kind, spelled, width, summed(kind, start, codes), body_of(lanes, width, codes)


def refused_packs(lanes, blocks):
    """Blocks that are not packed: the refusal of docs/LINES.md, kind, start, width and values."""
    block = 32 * lanes
    for count in {0, 1, 31, 32, 33, 128, 129, 255, 256, 257} - {block}:
        yield 2, "plain", "-", 3, [0] * count
    yield 2, "plain", "-", 33, [0] * (block - 1)  # before the width
    for width in [33, 64, 255]:
        yield 3, "plain", "-", width, [0] * block
    yield 3, "plain", "-", 33, [2**32 - 1] * block
    for width, position in [(0, block - 1), (1, 5), (7, 0), (8, block - 1), (16, 5), (31, 0)]:
        yield 4, "plain", "-", width, [0] * position + [2**width] + [0] * (block - 1 - position)
    for least, width in [(1, 0), (5, 4), (32, 31)]:
        for kind, spelled in [("sorted", 70000), ("strict", "none")]:
            yield 4, kind, spelled, width, summed(kind, start_of(spelled), blocks[lanes, least][0])
    yield 4, "sorted", 5, 31, [4] * block  # the first difference wraps
    yield 4, "strict", 5, 31, [5] * block
    yield 4, "strict", "none", 31, [2**32 - 1] * block


def refused_unpacks(lanes):
    """Bodies that are not unpacked: the refusal, width and bytes."""
    for width in [33, 64, 255]:
        yield 3, width, b""
    yield 3, 33, bytes(4 * lanes * 33)
    size = 4 * lanes
    for width, length in [(0, 1), (1, 0), (1, size - 1), (1, size + 1), (2, size), (3, 4 * size), (32, 32 * size - 1)]:
        yield 5, width, bytes(length)


def upgrades(blocks):
    """Texts of version 1: lanes, the text, and the fault of its list or the text of version 2."""
    plain = chained(blocks, "plain", 1, [20 * block % 33 for block in range(5)])[0]
    some = [(1, 0, [5, 3]), (4, 0, []), (1, 0, plain), (8, 0, [255, 0] * 256)]
    some += [it for it in search_lists(blocks) if it[0] < 8]
    for lanes, count in zip(LANES, [8, 5, 1]):
        some += [(lanes, kind, values) for kind in [1, 2] for values in [*values_out_of_order(kind, lanes)][:count]]
    some += [(1, 0, [0] * 31 + [2**32 - 1])]
    some += [(lanes, kind, [2**32 - 1, second]) for lanes in LANES for kind, second in [(1, 5), (2, 2**32 - 1)]]
    for lanes, kind, values in some:
        text, position = list_text(1, lanes, kind, values), first_out(kind, values)
        if position is None:
            yield lanes, text, "-", list_text(2, lanes, kind, values)
        else:
            yield lanes, text, f"NotSorted({position})", b""
    for lanes in LANES:
        falls = list_text(1, lanes, 1, [5, 4])
        yield lanes, falls + bytes(1), "Trailing", b""  # before NotSorted
        zeros = [0] * 32 * lanes
        loose = list_text(1, lanes, 1, [5, *zeros[1:], *zeros])[:-1] + bytes([1]) + bytes(4 * lanes)
        yield lanes, loose, "LooseWidth(1, 1)", b""  # before NotSorted
        yield lanes, list_text(2, lanes, 1, [4, 5]), "BadVersion(2)", b""
