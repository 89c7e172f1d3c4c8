"""The parts of blocks and lists, as docs/FORMAT.md has them, and the blocks of blocks.tsv."""

import os

FOLDER = os.path.dirname(os.path.realpath(__file__))
KINDS = ["plain", "sorted", "strict"]
LANES = [1, 4, 8]
MOST = 268_435_456
STARTS = [0, 0, 2**32 - 1]  # of the first block of a list, by its kind


# Bytes that are no varint, and bytes that end within one.
NO_NUMBERS = ["8F 00", "8F 80 00", "80 80 80 80 10", "FF FF FF FF 1F", "80 80 80 80 80", "8F 80 80 80 80 00", "FF FF FF FF 8F 00"]
NO_NUMBERS += ["80 80 80 80 00", "8F 80 80 80 00"]
CUT_NUMBERS = ["", "80", "FF FF", "80 80 80", "FF FF FF FF"]


def rows(name):
    """The lines of a table below its head, as lists of fields."""
    with open(f"{FOLDER}/{name}", encoding="ascii") as file:
        return [line.rstrip("\n").split("\t") for line in file][1:]


def drawn(count):
    """The numbers x(1), x(2) and so on of docs/VECTORS.md."""
    x, found = 1, []
    for _ in range(count):
        x = (1664525 * x + 1013904223) % 2**32
        found.append(x)
    return found


def with_another_byte(texts, times, within=MOST):
    """Each text a number of times with another byte, by the rule of docs/VECTORS.md: the next number chooses its offset, within that many bytes, and the
    one after that the byte."""
    x = iter(drawn(5000))
    for text in texts:
        for _ in range(times):
            offset, byte = next(x) // 2**8 % min(len(text), within), next(x) // 2**16 % 256
            yield text[:offset] + bytes([byte]) + text[offset + 1 :]


def plain_blocks():
    """By lanes and width: the codes of a block, which are the values of a plain one, and their body."""
    found = {}
    for packer, kind, _, width, values, body in rows("blocks.tsv"):
        if kind == "plain":
            codes = [int(value) for value in values.split(",")]
            found[int(packer[0]), int(width)] = codes, bytes.fromhex(body.strip("-"))
    return found


def word(value):
    return value.to_bytes(4, "little")


def header(lanes, count, kind=0, version=1):
    return bytes([version, kind, lanes]) + word(count)


def entry(width, offset, last):
    return bytes([width]) + word(offset) + word(last)


def summed(name, last, codes):
    """The values of a block of a kind after a value."""
    values = []
    for code in codes:
        last = code if name == "plain" else (last + code + (name == "strict")) % 2**32
        values.append(last)
    return values


def number(value):
    """A varint: seven bits a byte, the lowest first, with 128 added to every byte but the last."""
    return bytes([value]) if value < 128 else bytes([value % 128 + 128]) + number(value // 128)


def group(codes):
    """A group of 1 to 32 codes: the body of a block of one lane, cut after its last code."""
    width = max(codes).bit_length()
    body = body_of(1, width, [*codes, *[0] * (32 - len(codes))])
    return bytes([width]) + body[: (len(codes) * width + 7) // 8]


def least_bytes(value):
    """The least count of bytes that hold a number: 1 to 4."""
    return next(count for count in range(1, 5) if value < 256**count)


def front_sizes(ends, marks, sizes=None):
    """The byte of the sizes, the least ones or this, and ends and marks of these sizes."""
    sizes = least_bytes(ends[-1]) + 16 * least_bytes(max(marks)) if sizes is None else sizes
    short = [end.to_bytes(sizes % 16, "little") for end in ends] + [mark.to_bytes(sizes // 16, "little") for mark in marks]
    return bytes([sizes]) + b"".join(short)


def text_of(version, lanes, kind, bodies, tail):
    """A text, from the width, last value and body of each block, and the values of the tail."""
    text, offset = header(lanes, 32 * lanes * len(bodies) + len(tail), kind, version), 0
    end = b"".join(map(word, tail))
    if version == 1:
        return text + b"".join(bytes([width]) + body for width, _, body in bodies) + end
    for width, last, _ in bodies:
        text += entry(width, offset, last)
        offset += width
    return text + b"".join(body for _, _, body in bodies) + end


def body_of(lanes, width, codes):
    """The body of codes that fit the width: bit j of code k is where the layout of docs/FORMAT.md has it."""
    body = bytearray(4 * lanes * width)
    for k, code in enumerate(codes):
        for j in range(width):
            p = k // lanes * width + j
            index = 4 * (lanes * (p // 32) + k % lanes) + p % 32 // 8
            body[index] |= (code >> j & 1) << p % 8
    return bytes(body)


def codes_after(kind, last, values):
    """The codes of values after a value, by the number of the kind."""
    if kind == 0:
        return values
    return [(value - before - (kind == 2)) % 2**32 for before, value in zip([last, *values], values)]


def split(lanes, kind, values):
    """The width, last value and body of each block of the values, and the values of the tail."""
    block, last, bodies = 32 * lanes, STARTS[kind], []
    whole = len(values) // block * block
    for place in range(0, whole, block):
        codes = codes_after(kind, last, values[place : place + block])
        width, last = max(codes).bit_length(), values[place + block - 1]
        bodies.append((width, last, body_of(lanes, width, codes)))
    return bodies, values[whole:]


def list_text(version, lanes, kind, values):
    """The text of the values, by the number of their kind. Their order is not tested."""
    return text_of(version, lanes, kind, *split(lanes, kind, values))


def first_out(kind, values):
    """The first position whose value is out of order, or None."""
    return next((p for p in range(1, len(values)) if kind and values[p] < values[p - 1] + kind - 1), None)
