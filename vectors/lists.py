"""Lists with their texts, of both versions."""

from hashlib import sha256

from parts import KINDS, LANES, STARTS, body_of, drawn, list_text, summed, text_of


def chained(blocks, kind, lanes, widths):
    """The values of blocks of these widths one after the other, and the width, last value and body of each."""
    last, values, bodies = STARTS[KINDS.index(kind)], [], []
    for width in widths:
        codes, body = blocks[lanes, width]
        values += summed(kind, last, codes)
        last = values[-1]
        bodies.append((width, last, body))
    return values, bodies


def made_lists(blocks, version):
    """Lists of every kind and lanes. Their blocks go through the widths: the next is 20 more, modulo 33.

    In version 2 the blocks of values that have to be in order go through the widths to 22, so that no sum wraps.
    """
    width = {33: 0, 23: 0}
    for lanes in LANES:
        for kind, name in enumerate(KINDS):
            bound = 33 if version == 1 or name == "plain" else 23
            for whole, tail in [(0, 0), (0, 5), (0, 32 * lanes - 1), (1, 0), (1, 1), (2, 5)]:
                widths = [(width[bound] + 20 * block) % bound for block in range(whole)]
                width[bound] = (width[bound] + 20 * whole) % bound
                values, bodies = chained(blocks, name, lanes, widths)
                last = values[-1] if values else STARTS[kind]
                rest = [(last + 1_000_003 * (place + 1)) % 2**32 for place in range(tail)]
                yield name, lanes, values + rest, text_of(version, lanes, kind, bodies, rest)


def single_lists(version):
    """Lists of one block whose codes are 0 but for one code 1, in each row, and so in each lane. The kinds come in turn."""
    for lanes in LANES:
        for row in range(32):
            codes, kind = [0] * 32 * lanes, row % 3
            codes[row * lanes + row % lanes] = 1
            values = summed(KINDS[kind], STARTS[kind], codes)
            yield KINDS[kind], lanes, values, text_of(version, lanes, kind, [(1, values[-1], body_of(lanes, 1, codes))], [])


def digest_lists():
    """Lists of more than 65,535 values, or more than 65,535 bytes of bodies: kind, lanes, width of the codes, values."""
    for name, lanes, count, width in [("plain", 8, 16645, 32), ("plain", 1, 65605, 32), ("strict", 4, 65605, 15)]:
        codes = [x >> 32 - width for x in drawn(count)]
        yield name, lanes, width, summed(name, STARTS[KINDS.index(name)], codes)


def digests():
    """Kind, lanes, count, width of the codes, version, and the length and SHA-256 of the text."""
    for version in [1, 2]:
        for name, lanes, width, values in digest_lists():
            text = list_text(version, lanes, KINDS.index(name), values)
            yield name, lanes, len(values), width, version, len(text), sha256(text).hexdigest()


def long_lists(blocks):
    """Lists of version 2 with three blocks, and with thirteen and forty, whose offsets go above 255."""
    some = [(name, lanes, [7, 0, 12]) for lanes in LANES for name in KINDS]
    some += [(name, 1, [20 * block % bound for block in range(40)]) for name, bound in zip(KINDS, [33, 23, 23])]
    some += [("sorted", 4, [22] * 12 + [0])]
    for name, lanes, widths in some:
        values, bodies = chained(blocks, name, lanes, widths)
        tail = [values[-1] + 9, values[-1] + 10]
        yield name, lanes, values + tail, text_of(2, lanes, KINDS.index(name), bodies, tail)


def changed(values, position, value):
    return [*values[:position], value, *values[position + 1 :]]


def values_out_of_order(kind, lanes):
    """Values out of order for a kind: at the edges of blocks, inside block 1, and in the tail."""
    block = 32 * lanes
    rising = [3 * k + 4 for k in range(2 * block + 3)]
    yield [1000 * (3 - k // block) + 3 * (k % block) for k in range(3 * block)] + [7, 5]
    for position in [1, block, block + 5, 2 * block] + [block - 1, 2 * block - 1, 2 * block + 2] * (lanes == 1):
        yield changed(rising, position, rising[position - 1] + kind - 2)


def values_in_order(kind, lanes):
    """Values that are just in order for a kind: equal or next to each other at the edges, and up to the greatest value."""
    block = 32 * lanes
    yield [k // 2 if kind == 1 else k for k in range(1, 2 * block + 4)]
    yield [2**32 - 2 * block - 3 + k for k in range(2 * block + 3)]


def edge_lists(version):
    """Lists of two blocks and more: of version 2 in order, and of version 1 also out of order."""
    for lanes, count in zip(LANES, [8, 5, 1]):
        for kind in [1, 2]:
            some = [*values_in_order(kind, lanes)] if version == 2 or lanes == 1 else []
            if version == 1:
                some += [*values_out_of_order(kind, lanes)][:count]
            for values in some:
                yield KINDS[kind], lanes, values, list_text(version, lanes, kind, values)


def worked_lists():
    """Lists worked by hand."""
    for kind, lanes, values, text in [
        ("plain", 1, [5], "01 00 01 01 00 00 00  05 00 00 00"),
        ("sorted", 4, [5, 3], "01 01 04 02 00 00 00  05 00 00 00 03 00 00 00"),
        ("strict", 1, range(33), "01 02 01 21 00 00 00  00  20 00 00 00"),
        ("sorted", 1, [*range(1, 33), *range(34, 97, 2)], "01 01 01 40 00 00 00  01" + "FF" * 4 + "02" + "AA" * 8),
        ("strict", 1, [5] * 32, "01 02 01 20 00 00 00  20  05 00 00 00" + "FF" * 124),
        ("plain", 4, [0] * 128, "01 00 04 80 00 00 00  00"),
        ("plain", 8, [0] * 1024, "01 00 08 00 04 00 00  00 00 00 00"),
        # the codes are 0, 1, 2, 3 in turn, so that each lane has one code 32 times
        (
            "sorted",
            4,
            [6 * (k // 4) + [0, 1, 3, 6][k % 4] for k in range(128)] + [200, 1000],
            "01 01 04 82 00 00 00  02" + ("00" * 4 + "55" * 4 + "AA" * 4 + "FF" * 4) * 2 + "C8 00 00 00  E8 03 00 00",
        ),
        # the codes are 0, 1 in turn
        (
            "strict",
            8,
            [k + (k + 1) // 2 for k in range(256)] + [400],
            "01 02 08 01 01 00 00  01" + ("00" * 4 + "FF" * 4) * 4 + "90 01 00 00",
        ),
    ]:
        yield kind, lanes, values, bytes.fromhex(text)


def worked_lists2():
    """Lists of version 2, worked by hand."""
    for kind, lanes, values, text in [
        ("plain", 1, [], "02 00 01 00 00 00 00"),
        ("plain", 1, [3, 1], "02 00 01 02 00 00 00  03 00 00 00 01 00 00 00"),
        ("strict", 1, range(33), "02 02 01 21 00 00 00  00 00 00 00 00 1F 00 00 00  20 00 00 00"),
        (
            "sorted",
            1,
            [*range(1, 33), *range(34, 97, 2)],
            "02 01 01 40 00 00 00  01 00 00 00 00 20 00 00 00  02 01 00 00 00 60 00 00 00" + "FF" * 4 + "AA" * 8,
        ),
        ("plain", 1, [k % 8 for k in range(32)], "02 00 01 20 00 00 00  03 00 00 00 00 07 00 00 00" + "88 C6 FA" * 4),
        ("sorted", 1, [7] * 64, "02 01 01 40 00 00 00  03 00 00 00 00 07 00 00 00  00 03 00 00 00 07 00 00 00  07" + "00" * 11),
        # the codes are 0, 1, 2, 3 in turn, so that each lane has one code 32 times
        (
            "sorted",
            4,
            [6 * (k // 4) + [0, 1, 3, 6][k % 4] for k in range(128)] + [200, 1000],
            "02 01 04 82 00 00 00  02 00 00 00 00 C0 00 00 00"
            + ("00" * 4 + "55" * 4 + "AA" * 4 + "FF" * 4) * 2
            + "C8 00 00 00  E8 03 00 00",
        ),
        # the codes are 0, 1 in turn
        (
            "strict",
            8,
            [k + (k + 1) // 2 for k in range(256)] + [400],
            "02 02 08 01 01 00 00  01 00 00 00 00 7F 01 00 00" + ("00" * 4 + "FF" * 4) * 4 + "90 01 00 00",
        ),
    ]:
        yield kind, lanes, values, bytes.fromhex(text)
