"""Bytes with a fault, for a reader of lists of version 1 or 2."""

from lists import values_out_of_order
from parts import LANES, MOST, body_of, entry, first_out, header, list_text, summed, text_of, word

NUMBERS = {
    "Short": 1,
    "BadVersion": 2,
    "BadKind": 3,
    "WrongLanes": 4,
    "TooLong": 5,
    "BadWidth": 6,
    "LooseWidth": 7,
    "BadOffset": 8,
    "BadLast": 9,
    "NotSorted": 10,
    "Trailing": 11,
    "BadNumber": 13,
    "Padding": 14,
    "BadSizes": 16,
    "BadKey": 18,
    "BadSum": 19,
    "BadBody": 20,
    "LooseBody": 21,
    "LooseForm": 22,
}


def number_of(fault):
    return NUMBERS[fault.split("(")[0]]


def refused_headers(lanes, version):
    """Bytes with a fault in their header for a reader of so many lanes, by the order of refusals in docs/FORMAT.md."""
    other_version = 3 - version
    yield "Short", b""
    yield "Short", header(lanes, 0, version=version)[:6]
    yield "Short", bytes([other_version, 3, 2, 0, 0, 0])
    for bad in [0, other_version, 3, 255]:
        yield f"BadVersion({bad})", header(lanes, 0, version=bad)
    yield f"BadVersion({other_version})", header(3, MOST + 1, 3, other_version)
    for kind in [3, 4, 5, 6, 128, 255]:
        yield f"BadKind({kind})", header(lanes, 0, kind, version)
    yield "BadKind(3)", header(2, MOST + 1, 3, version)
    for other in [0, 1, 2, 4, 8, 32, 255]:
        if other != lanes:
            yield f"WrongLanes({other})", header(other, 0, version=version)
    yield "WrongLanes(3)", header(3, MOST + 1, version=version)
    for count in [MOST + 1, 2**32 - 1]:
        yield f"TooLong({count})", header(lanes, count, version=version)
    for count in [1, 32 * lanes - 1, 32 * lanes, MOST]:
        yield "Short", header(lanes, count, version=version)
    yield "Trailing", header(lanes, 0, version=version) + bytes(1)


def refused_blocks(lanes, blocks):
    """Bytes with a sound header and a fault after it."""
    block = 32 * lanes
    good = bytes([9]) + blocks[lanes, 9][1]
    ones = bytes([2]) + bytes.fromhex("55" * 8 * lanes)  # each code is 1, so that the least width is 1
    zeros = bytes([1]) + bytes(4 * lanes)
    whole = header(lanes, block) + good
    two = header(lanes, 2 * block, 1)
    yield "Short", header(lanes, 1) + bytes(3)
    yield "Short", header(lanes, block + 1) + bytes([33])  # before BadWidth: no room is left for the tail
    yield "Short", header(lanes, 2 * block) + bytes([33])  # before BadWidth: no room is left for the width of block 1
    yield "LooseWidth(0, 1)", header(lanes, block + 1) + zeros  # before Short: the tail is missing
    many = header(lanes, 257 * block) + bytes(256)
    yield "BadWidth(256, 33)", many + bytes([33])
    yield "LooseWidth(256, 1)", many + zeros
    yield "Short", whole[:-1]
    yield "Short", two + good
    yield "Short", header(lanes, block + 1) + good + bytes(3)
    yield "BadWidth(0, 33)", header(lanes, block) + bytes([33])
    yield "BadWidth(0, 255)", header(lanes, block) + bytes([255])
    yield "BadWidth(0, 33)", two + bytes([33, 1])
    yield "BadWidth(1, 33)", two + good + bytes([33])
    yield "LooseWidth(0, 1)", header(lanes, block) + zeros
    yield "LooseWidth(0, 2)", header(lanes, block) + ones
    yield "LooseWidth(0, 32)", header(lanes, block, 2) + bytes([32]) + word(2**31 - 1) * block
    yield "LooseWidth(1, 2)", two + good + ones
    yield "LooseWidth(0, 1)", two + zeros  # before Short: block 1 is missing
    yield "LooseWidth(0, 2)", header(lanes, block) + ones + bytes(1)  # before Trailing
    yield "Trailing", header(lanes, block) + bytes(2)
    yield "Trailing", whole + bytes(1)
    yield "Trailing", header(lanes, 1) + bytes(5)


def refused_entries(lanes, blocks):
    """Bytes of version 2 with a sound header and a fault in their entries."""
    block = 32 * lanes
    one, two = header(lanes, block, 0, 2), header(lanes, 2 * block, 0, 2)
    yield "Short", header(lanes, 1, 0, 2) + bytes(3)
    yield "Short", header(lanes, block + 1, 0, 2) + entry(33, 0, 0)  # before BadWidth: no room is left for the tail
    yield "Short", two + entry(33, 0, 0) + entry(0, 0, 0)[:8]
    for width in [33, 255]:
        yield f"BadWidth(0, {width})", one + entry(width, 0, 0)
    yield "BadWidth(0, 33)", one + entry(33, 1, 0)  # before BadOffset of the same entry
    yield "BadWidth(1, 33)", two + entry(1, 0, 0) + entry(33, 1, 0)
    yield "BadOffset(0)", one + entry(0, 1, 0)
    yield "BadOffset(0)", two + entry(1, 1, 0) + entry(33, 0, 0)  # entry by entry
    for offset in [0, 2, 1 + 2**8, 1 + 2**16, 1 + 2**24]:
        yield "BadOffset(1)", two + entry(1, 0, 0) + entry(1, offset, 0)
    yield "Short", one + entry(1, 0, 0)  # before LooseWidth
    yield "Short", one + entry(9, 0, blocks[lanes, 9][0][-1]) + blocks[lanes, 9][1][:-1]
    yield "Short", header(lanes, block + 1, 0, 2) + entry(1, 0, 0) + bytes(4 * lanes + 3)
    yield "BadOffset(0)", one + entry(0, 2**31, 0)
    yield "BadOffset(0)", header(lanes, block + 1, 2, 2) + entry(0, 2**31, block - 1) + word(block)
    if lanes == 1:
        yield "BadWidth(256, 33)", header(lanes, 257 * block, 0, 2) + entry(0, 0, 0) * 256 + entry(33, 0, 0)
    if lanes == 8:  # bodies of 2^16 + 1024 bytes
        entries = [entry(32, 32 * m, 0) for m in range(65)]
        yield "Short", header(lanes, 65 * block + 2, 0, 2) + b"".join(entries) + bytes(1032)


def refused_bodies(lanes, blocks):
    """Bytes of version 2 with sound entries and a fault after them."""
    block = 32 * lanes
    one, two = header(lanes, block, 0, 2), header(lanes, 2 * block, 0, 2)
    whole = one + entry(9, 0, blocks[lanes, 9][0][-1]) + blocks[lanes, 9][1]
    yield "LooseWidth(0, 1)", one + entry(1, 0, 0) + bytes(4 * lanes)
    yield "LooseWidth(0, 1)", one + entry(1, 0, 9) + bytes(4 * lanes)  # before BadLast of the same block
    yield "LooseWidth(0, 2)", one + entry(2, 0, 1) + bytes.fromhex("55" * 8 * lanes)  # each code is 1
    yield "LooseWidth(1, 1)", two + entry(0, 0, 0) + entry(1, 0, 0) + bytes(4 * lanes)
    yield "LooseWidth(0, 32)", one + entry(32, 0, 0) + bytes(128 * lanes)
    for last in [1, 2**8, 2**16, 2**31, 255 * 2**24]:
        yield "BadLast(0)", one + entry(0, 0, last)
    yield "BadLast(0)", header(lanes, block, 2, 2) + entry(0, 0, 2**31 + block - 1)
    yield "BadLast(0)", two + entry(0, 0, 5) + entry(1, 0, 0) + bytes(4 * lanes)  # block by block
    yield "BadLast(1)", two + entry(0, 0, 0) + entry(0, 0, 1)
    yield "BadLast(0)", header(lanes, block + 2, 1, 2) + entry(0, 0, 5) + word(5) + word(4)  # before NotSorted
    yield "NotSorted(1)", header(lanes, 2, 1, 2) + word(5) + word(4)
    yield "NotSorted(1)", header(lanes, 2, 2, 2) + word(5) + word(5)
    yield "NotSorted(1)", header(lanes, 2, 2, 2) + word(5) + word(5) + bytes(1)  # before Trailing
    yield "NotSorted(1)", header(lanes, 2, 1, 2) + word(2**32 - 1) + word(5)
    yield "NotSorted(1)", header(lanes, 2, 2, 2) + word(2**32 - 1) + word(2**32 - 1)
    falls = entry(32, 0, 4) + entry(0, 32, 5) + body_of(lanes, 32, [5, 2**32 - 1, *[0] * (block - 2)])  # the values 5, 4, 4 and so on
    yield "BadLast(1)", header(lanes, 2 * block, 1, 2) + falls  # of block 1, before NotSorted in block 0
    yield f"NotSorted({block})", header(lanes, block + 1, 2, 2) + entry(0, 0, block - 1) + word(block - 1)
    for kind, name in [(1, "sorted"), (2, "strict")]:
        codes, body = blocks[lanes, 32]  # their sums wrap
        values = summed(name, [0, 2**32 - 1][kind - 1], codes)
        first = next(place for place in range(1, block) if values[place] < values[place - 1])
        yield f"NotSorted({first})", text_of(2, lanes, kind, [(32, values[-1], body)], [])
    yield "Trailing", whole + bytes(1)
    yield "Trailing", header(lanes, 1, 0, 2) + bytes(5)


def refused_later(lanes, blocks):
    """Bytes of version 2 with a fault in a block after block 1, or in the order of a list of two blocks and more."""
    block = 32 * lanes
    three = header(lanes, 3 * block, 0, 2)
    ones = bytes.fromhex("55" * 8 * lanes)  # each code is 1
    yield "BadOffset(2)", three + entry(1, 0, 1) + entry(1, 1, 1) + entry(1, 1, 1)  # the width before, and not the sum
    yield "BadOffset(2)", three + entry(1, 0, 1) + entry(1, 1, 1) + entry(1, 0, 1)
    yield "BadOffset(1)", three + entry(1, 0, 1) + entry(1, 4 * lanes, 1) + entry(1, 8 * lanes, 1)  # a number of bytes
    for count in [8, 2048][: 1 + (lanes == 1)]:  # the sum is 2^8 and 2^16, and the last offset is 0
        entries = [entry(32, 32 * m, 0) for m in range(count)] + [entry(1, 0, 0)]
        yield f"BadOffset({count})", header(lanes, (count + 1) * block, 0, 2) + b"".join(entries)
    yield "LooseWidth(2, 2)", three + entry(0, 0, 0) + entry(0, 0, 0) + entry(2, 0, 1) + ones
    yield "BadLast(2)", three + entry(0, 0, 0) + entry(0, 0, 0) + entry(2, 0, 0) + bytes.fromhex("AA" * 8 * lanes)
    if lanes == 1:
        many = header(lanes, 257 * block, 0, 2) + entry(0, 0, 0) * 256
        yield "LooseWidth(256, 1)", many + entry(1, 0, 0) + bytes(4)
        yield "BadLast(256)", many + entry(0, 0, 1)
    if lanes == 8:  # a position above 65,535
        yield "NotSorted(65537)", header(lanes, 256 * block + 2, 1, 2) + entry(0, 0, 0) * 256 + word(5) + word(4)
    for kind in [1, 2]:
        for values in values_out_of_order(kind, lanes):
            yield f"NotSorted({first_out(kind, values)})", list_text(2, lanes, kind, values)


def refused_rows(version, blocks):
    """The lanes of a reader, the fault, and the bytes."""
    rules = {1: [refused_blocks], 2: [refused_entries, refused_bodies, refused_later]}[version]
    for lanes in LANES:
        for fault, text in [*refused_headers(lanes, version), *(it for rule in rules for it in rule(lanes, blocks))]:
            yield lanes, fault, text
